// SPDX-License-Identifier: MIT
// A cache that evicts what was used the longest ago, cut into shards, each behind a lock of its own.
#pragma once

#include "../common/store.hpp"

#include <absl/container/flat_hash_map.h>

#include <cstddef>
#include <cstdint>
#include <mutex>
#include <utility>
#include <vector>

namespace bench {

// Nodes in an array, in a list by last use, and a map of their places.
class Lru {
public:
    void make_room_for(std::uint32_t items) {
        room_ = items;
        nodes_.reserve(items);
        places_.reserve(items);
    }

    // The entry of a key, which is now the last used; null if there is none.
    Entry* find(const Key& key) {
        const auto found = places_.find(key);
        if (found == places_.end()) {
            return nullptr;
        }
        use(found->second);
        return &nodes_[found->second].entry;
    }

    // Stores a key that isn't there.
    void add(const Key& key, const Entry& entry) {
        const std::uint32_t place = take_place();
        places_.emplace(key, place);
        nodes_[place].key = key;
        nodes_[place].entry = entry;
        push(place);
    }

    bool remove(const Key& key) {
        const auto found = places_.find(key);
        if (found == places_.end()) {
            return false;
        }
        unlink(found->second);
        free_.push_back(found->second);
        places_.erase(found);
        return true;
    }

private:
    static constexpr std::uint32_t none = UINT32_MAX;

    struct Node {
        Key key;
        Entry entry;
        std::uint32_t newer, older;
    };

    // A place of no key: one that was freed, a new one, or that of the key that was used the longest ago.
    std::uint32_t take_place() {
        if (!free_.empty()) {
            const std::uint32_t place = free_.back();
            free_.pop_back();
            return place;
        }
        if (nodes_.size() < room_) {
            nodes_.emplace_back();
            return static_cast<std::uint32_t>(nodes_.size() - 1);
        }
        const std::uint32_t place = oldest_;
        unlink(place);
        places_.erase(nodes_[place].key);
        return place;
    }

    void use(std::uint32_t place) {
        if (place != newest_) {
            unlink(place);
            push(place);
        }
    }

    void push(std::uint32_t place) {
        nodes_[place].newer = none;
        nodes_[place].older = newest_;
        (newest_ == none ? oldest_ : nodes_[newest_].newer) = place;
        newest_ = place;
    }

    void unlink(std::uint32_t place) {
        const auto [newer, older] = std::pair(nodes_[place].newer, nodes_[place].older);
        (newer == none ? newest_ : nodes_[newer].older) = older;
        (older == none ? oldest_ : nodes_[older].newer) = newer;
    }

    std::uint32_t room_ = 0;
    std::uint32_t newest_ = none, oldest_ = none;
    absl::flat_hash_map<Key, std::uint32_t, KeyHash> places_;
    std::vector<Node> nodes_;
    std::vector<std::uint32_t> free_;
};

template <class Lock, std::uint32_t count>
class LruShards {
    struct alignas(64) Shard {
        Lock lock;
        Lru lru;
    };

public:
    using Membership = NoMembership;

    class Client {
    public:
        explicit Client(std::vector<Shard>& shards) : shards_(&shards) {}

        Answer get(const Key& key, std::uint32_t, Value& value) {
            std::uint32_t version;
            return gets(key, 0, value, version);
        }

        Answer gets(const Key& key, std::uint32_t, Value& value, std::uint32_t& version) {
            Shard& shard = shard_of(key);
            const std::lock_guard guard(shard.lock);
            const Entry* found = shard.lru.find(key);
            if (found == nullptr) {
                return Answer::Miss;
            }
            value = found->value;
            version = found->version;
            return Answer::Hit;
        }

        Answer write(Write write, const Key& key, const Value& value, std::uint32_t expected) {
            Shard& shard = shard_of(key);
            const std::lock_guard guard(shard.lock);
            Entry* present = shard.lru.find(key);
            if (!is_allowed(write, present, expected)) {
                return Answer::Miss;
            }
            if (present != nullptr) {
                *present = entry_after(present, value);
            } else {
                shard.lru.add(key, entry_after(nullptr, value));
            }
            return Answer::Hit;
        }

        Answer remove(const Key& key) {
            Shard& shard = shard_of(key);
            const std::lock_guard guard(shard.lock);
            return shard.lru.remove(key) ? Answer::Hit : Answer::Miss;
        }

    private:
        // By bits of the hash that a map of this size doesn't look at first.
        Shard& shard_of(const Key& key) { return (*shards_)[hash_of(key) >> 40 & (count - 1)]; }

        std::vector<Shard>* shards_;
    };

    explicit LruShards(const Plan& plan) : shards_(count) {
        for (std::uint32_t number = 0; number < count; ++number) {
            shards_[number].lru.make_room_for(room_of_shard(plan, number, count));
        }
    }

    Client client(std::uint32_t) { return Client(shards_); }

private:
    std::vector<Shard> shards_;
};

}  // namespace bench
