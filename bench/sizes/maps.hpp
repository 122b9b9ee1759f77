// SPDX-License-Identifier: MIT
// Values of several sizes in Abseil's maps, each behind a lock of its own. Maps have room for all keys.
#pragma once

#include "../peers/spin_lock.hpp"
#include "sizes.hpp"

#include <absl/container/flat_hash_map.h>
#include <absl/hash/hash.h>

#include <cstddef>
#include <cstring>
#include <mutex>
#include <string>
#include <string_view>
#include <utility>
#include <vector>

namespace bench {

// By Abseil's own hash, which is quicker over 24 bytes than the FNV-1a of the other measures.
template <class State>
State AbslHashValue(State state, const Key& key) {
    return State::combine_contiguous(std::move(state), key.bytes.data(), key.length);
}

template <class Lock, std::size_t count>
class Maps {
    using Map = absl::flat_hash_map<Key, std::string>;

    struct alignas(64) Shard {
        Lock lock;
        Map map;
    };

public:
    class Client {
    public:
        explicit Client(std::vector<Shard>& shards) : shards_(&shards) {}

        std::size_t get(const Key& key, Buffer& found) {
            const std::size_t hash = absl::Hash<Key>()(key);
            Shard& shard = shard_of(hash);
            const std::lock_guard guard(shard.lock);
            const auto at = shard.map.find(key, hash);
            if (at == shard.map.end()) {
                return absent;
            }
            std::memcpy(found.data(), at->second.data(), at->second.size());
            return at->second.size();
        }

        bool put(const Key& key, std::string_view value) {
            const std::size_t hash = absl::Hash<Key>()(key);
            Shard& shard = shard_of(hash);
            const std::lock_guard guard(shard.lock);
            const auto at = shard.map.find(key, hash);
            if (at == shard.map.end()) {
                shard.map.emplace(key, value);
            } else {
                at->second.assign(value);
            }
            return true;
        }

    private:
        // By bits of the hash that a map of this size doesn't look at first.
        Shard& shard_of(std::size_t hash) { return (*shards_)[hash >> 40 & (count - 1)]; }

        std::vector<Shard>* shards_;
    };

    explicit Maps(const Room&) : shards_(count) {}

    Client client(unsigned) { return Client(shards_); }

private:
    std::vector<Shard> shards_;
};

}  // namespace bench
