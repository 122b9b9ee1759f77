// SPDX-License-Identifier: MIT
// Measures libcuckoo's cuckoohash_map.

#include "../common/measure.hpp"

#include <libcuckoo/cuckoohash_map.hh>

#include <memory>

namespace {

using bench::Answer;
using bench::Entry;
using bench::Key;
using bench::Value;

using Map = libcuckoo::cuckoohash_map<Key, Entry, bench::KeyHash>;

class Client {
public:
    explicit Client(Map& map) : map_(&map) {}

    Answer get(const Key& key, std::uint32_t, Value& value) {
        return answer_of(map_->find_fn(key, [&](const Entry& entry) { value = entry.value; }));
    }

    Answer gets(const Key& key, std::uint32_t, Value& value, std::uint32_t& version) {
        return answer_of(map_->find_fn(key, [&](const Entry& entry) {
            value = entry.value;
            version = entry.version;
        }));
    }

    Answer write(bench::Write write, const Key& key, const Value& value, std::uint32_t expected) {
        bool is_stored = false;
        const auto change = [&](Entry& entry) {
            is_stored = bench::is_allowed(write, &entry, expected);
            if (is_stored) {
                entry = bench::entry_after(&entry, value);
            }
        };
        if (write == bench::Write::Set || write == bench::Write::Add) {
            const bool is_new = map_->upsert(key, change, bench::entry_after(nullptr, value));
            return answer_of(is_new || is_stored);
        }
        map_->update_fn(key, change);
        return answer_of(is_stored);
    }

    Answer remove(const Key& key) { return answer_of(map_->erase(key)); }

private:
    static Answer answer_of(bool is_done) { return is_done ? Answer::Hit : Answer::Miss; }

    Map* map_;
};

class Store {
public:
    using Membership = bench::NoMembership;
    using Client = ::Client;

    explicit Store(const bench::Plan& plan) : map_(std::make_unique<Map>(plan.keys * 5ul / 4)) {}

    Client client(std::uint32_t) { return Client(*map_); }

private:
    std::unique_ptr<Map> map_;
};

}  // namespace

int main(int count, char** words) { return bench::measure<Store>(count, words); }
