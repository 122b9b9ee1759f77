// SPDX-License-Identifier: MIT
// Measures the index through its library for C: `ours` over again, with a call of C for each command.

#include "../../bindings/c/segcache.h"
#include "../common/measure.hpp"

#include <array>
#include <cstdint>
#include <cstdio>
#include <cstdlib>
#include <cstring>
#include <vector>

namespace {

using bench::Answer;
using bench::Key;
using bench::Value;

// No key of the measure expires.
constexpr std::uint32_t now = 0;

Answer answer_of(std::uint32_t status) {
    switch (status) {
        case SEGCACHE_OK: return Answer::Hit;
        case SEGCACHE_BUSY: return Answer::Busy;
        case SEGCACHE_NO_ROOM: return Answer::NoRoom;
        case SEGCACHE_BUCKET_FULL: return Answer::Full;
        default: return Answer::Miss;
    }
}

class Client {
public:
    explicit Client(segcache_client* client) : client_(client) {}

    Answer get(const Key& key, std::uint32_t, Value& value) {
        std::size_t length = 0;
        const std::uint32_t status =
            segcache_get(client_, key.bytes.data(), key.length, now, value.bytes.data(), value.bytes.size(), &length);
        value.length = static_cast<std::uint8_t>(length);
        return answer_of(status);
    }

    Answer gets(const Key& key, std::uint32_t, Value& value, std::uint32_t& version) {
        std::size_t length = 0;
        const std::uint32_t status = segcache_gets(client_, key.bytes.data(), key.length, now, value.bytes.data(),
                                                   value.bytes.size(), &length, &version);
        value.length = static_cast<std::uint8_t>(length);
        return answer_of(status);
    }

    void get_many(const Key* keys, unsigned count, bench::Generator& draws, Value* found, Answer* answers) {
        std::array<segcache_lookup, bench::piece> lookups;
        for (unsigned place = 0; place < count; ++place) {
            lookups[place].key_at = place * sizeof(Key);
            lookups[place].key_len = keys[place].length;
            draws.next();
        }
        segcache_get_many(client_, keys, count * sizeof(Key), now, lookups.data(), count);
        for (unsigned place = 0; place < count; ++place) {
            answers[place] = answer_of(lookups[place].status);
            found[place].length = static_cast<std::uint8_t>(lookups[place].value_len);
            std::memcpy(found[place].bytes.data(), lookups[place].value, sizeof lookups[place].value);
        }
    }

    // A set is a put. Another write is made once more if there was no room, and some is made.
    Answer write(bench::Write write, const Key& key, const Value& value, std::uint32_t expected) {
        const Answer answer = answer_of(write_once(write, key, value, expected));
        if (answer != Answer::NoRoom || write == bench::Write::Set || segcache_make_room(client_, now) != SEGCACHE_OK) {
            return answer;
        }
        return answer_of(write_once(write, key, value, expected));
    }

    Answer remove(const Key& key) { return answer_of(segcache_delete(client_, key.bytes.data(), key.length, now)); }

private:
    std::uint32_t write_once(bench::Write write, const Key& key, const Value& value, std::uint32_t expected) {
        const char* at = key.bytes.data();
        const char* bytes = value.bytes.data();
        switch (write) {
            case bench::Write::Set: return segcache_put(client_, at, key.length, bytes, value.length, now);
            case bench::Write::Add: return segcache_add(client_, at, key.length, bytes, value.length, now);
            case bench::Write::Replace: return segcache_replace(client_, at, key.length, bytes, value.length, now);
            case bench::Write::Cas: break;
        }
        return segcache_cas(client_, at, key.length, bytes, value.length, expected, now);
    }

    segcache_client* client_;
};

class Store {
public:
    using Membership = bench::NoMembership;
    using Client = ::Client;

    explicit Store(const bench::Plan& plan) : clients_(plan.threads) {
        const segcache_shape shape = shape_of(plan);
        if (const std::uint32_t status = segcache_open_shape(&shape, &cache_, clients_.data())) {
            std::fprintf(stderr, "ours_c: %s\n", segcache_text(status));
            std::exit(3);
        }
    }

    Store(const Store&) = delete;

    ~Store() {
        for (segcache_client& client : clients_) {
            segcache_give_back(&cache_, &client);
        }
        segcache_free(&cache_);
    }

    Client client(std::uint32_t number) { return Client(&clients_[number]); }

private:
    static segcache_shape shape_of(const bench::Plan& plan) {
        const auto& [buckets, overflow, segments, rows] = plan.sizes;
        return {buckets, overflow, plan.threads, segments, rows, 0};
    }

    segcache cache_{};
    std::vector<segcache_client> clients_;
};

}  // namespace

int main(int count, char** words) { return bench::measure<Store>(count, words); }
