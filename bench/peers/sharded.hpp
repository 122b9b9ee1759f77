// SPDX-License-Identifier: MIT
// A map that is no concurrent one, cut into shards, each behind a lock of its own.
#pragma once

#include "../common/store.hpp"
#include "spin_lock.hpp"

#include <cstddef>
#include <memory>
#include <mutex>
#include <vector>

namespace bench {

// One that prefetches does so without the locks. That is a race, and so the most that a user could do.
template <class Map, class Lock, std::size_t count, bool prefetches = false>
class Sharded {
    struct alignas(64) Shard {
        Lock lock;
        Map map;
    };

public:
    using Membership = NoMembership;

    class Client {
    public:
        explicit Client(std::vector<Shard>& shards) : shards_(&shards) {}

        Answer get(const Key& key, std::uint32_t, Value& value) {
            std::uint32_t version;
            return gets(key, 0, value, version);
        }

        Answer gets(const Key& key, std::uint32_t, Value& value, std::uint32_t& version) {
            Shard& shard = shard_of(key);
            const std::lock_guard guard(shard.lock);
            const auto found = shard.map.find(key);
            if (found == shard.map.end()) {
                return Answer::Miss;
            }
            value = found->second.value;
            version = found->second.version;
            return Answer::Hit;
        }

        Answer write(Write write, const Key& key, const Value& value, std::uint32_t expected) {
            Shard& shard = shard_of(key);
            const std::lock_guard guard(shard.lock);
            const auto found = shard.map.find(key);
            Entry* present = found == shard.map.end() ? nullptr : &found->second;
            if (!is_allowed(write, present, expected)) {
                return Answer::Miss;
            }
            if (present != nullptr) {
                *present = entry_after(present, value);
            } else {
                shard.map.emplace(key, entry_after(nullptr, value));
            }
            return Answer::Hit;
        }

        Answer remove(const Key& key) {
            Shard& shard = shard_of(key);
            const std::lock_guard guard(shard.lock);
            return shard.map.erase(key) > 0 ? Answer::Hit : Answer::Miss;
        }

        void look_ahead(const Key* keys, unsigned number) requires prefetches {
            for (unsigned place = 0; place < number; ++place) {
                Shard& shard = shard_of(keys[place]);
                __builtin_prefetch(&shard, 1);
                shard.map.prefetch(keys[place]);
            }
        }

    private:
        // By bits of the hash that a map of this size doesn't look at first.
        Shard& shard_of(const Key& key) { return (*shards_)[hash_of(key) >> 40 & (count - 1)]; }

        std::vector<Shard>* shards_;
    };

    explicit Sharded(const Plan& plan) : shards_(count) {
        for (Shard& shard : shards_) {
            shard.map.reserve(plan.keys / count * 5 / 4 + 1);
        }
    }

    Client client(std::uint32_t) { return Client(shards_); }

private:
    std::vector<Shard> shards_;
};

}  // namespace bench
