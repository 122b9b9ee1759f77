// SPDX-License-Identifier: MIT
// Measures oneTBB's concurrent_hash_map.

#include "../common/measure.hpp"

#include <oneapi/tbb/concurrent_hash_map.h>

#include <memory>

namespace {

using bench::Answer;
using bench::Entry;
using bench::Key;
using bench::Value;

struct Compare {
    std::size_t hash(const Key& key) const { return bench::hash_of(key); }
    bool equal(const Key& left, const Key& right) const { return left == right; }
};

using Map = tbb::concurrent_hash_map<Key, Entry, Compare>;

class Client {
public:
    explicit Client(Map& map) : map_(&map) {}

    Answer get(const Key& key, std::uint32_t, Value& value) {
        std::uint32_t version;
        return gets(key, 0, value, version);
    }

    Answer gets(const Key& key, std::uint32_t, Value& value, std::uint32_t& version) {
        Map::const_accessor found;
        if (!map_->find(found, key)) {
            return Answer::Miss;
        }
        value = found->second.value;
        version = found->second.version;
        return Answer::Hit;
    }

    Answer write(bench::Write write, const Key& key, const Value& value, std::uint32_t expected) {
        Map::accessor found;
        if (write == bench::Write::Set || write == bench::Write::Add) {
            if (map_->insert(found, {key, bench::entry_after(nullptr, value)})) {
                return Answer::Hit;
            }
        } else if (!map_->find(found, key)) {
            return Answer::Miss;
        }
        if (!bench::is_allowed(write, &found->second, expected)) {
            return Answer::Miss;
        }
        found->second = bench::entry_after(&found->second, value);
        return Answer::Hit;
    }

    Answer remove(const Key& key) { return map_->erase(key) ? Answer::Hit : Answer::Miss; }

private:
    Map* map_;
};

class Store {
public:
    using Membership = bench::NoMembership;
    using Client = ::Client;

    explicit Store(const bench::Plan& plan) : map_(std::make_unique<Map>(plan.keys)) {}

    Client client(std::uint32_t) { return Client(*map_); }

private:
    std::unique_ptr<Map> map_;
};

}  // namespace

int main(int count, char** words) { return bench::measure<Store>(count, words); }
