// SPDX-License-Identifier: MIT
// What every store of the measure answers, and how a map decides a write as the index does.
#pragma once

#include "bytes.hpp"

#include <algorithm>
#include <cstdint>

namespace bench {

enum class Answer {
    Hit,     // a get that found its key, or a write that was done
    Miss,    // a get or a write that was answered otherwise
    Busy,    // refused, since others were at work on the same bucket
    NoRoom,  // refused, since the segment that is stored into is used up
    Full,    // refused, since the key's bucket has no place for a new key
};

enum class Write : int { Set, Add, Replace, Cas };

// How large an index is.
struct Sizes {
    std::uint32_t buckets;
    std::uint32_t overflow;
    // Of each thread.
    std::uint32_t segments;
    std::uint32_t rows;
};

// How large a store has to be.
struct Plan {
    std::uint32_t keys;
    unsigned threads;
    Sizes sizes;
    // How many items a cache has room for; 0 for all keys. An index goes by its sizes, and a map takes all keys.
    std::uint32_t room = 0;
};

// The room of one of so many shards of a cache. Shards that have room for all keys together have some over, since they
// don't get the same number of keys each.
inline std::uint32_t room_of_shard(const Plan& plan, std::uint32_t number, std::uint32_t count) {
    if (plan.room == 0) {
        return count == 1 ? plan.keys : plan.keys / count * 5 / 4 + 16;
    }
    return std::max(1u, plan.room / count + (number < plan.room % count));
}

// Up to 65,536 buckets, with two keys for each where there are fewer, and as many overflow buckets;
// 1,024 segments of 4,096 rows, or 256 for each of up to four threads.
inline Sizes large_sizes(std::uint32_t keys, unsigned threads) {
    std::uint32_t buckets = 1;
    while (buckets < 65'536 && buckets < keys / 2) {
        buckets *= 2;
    }
    return {buckets, buckets, 1024 / std::max(4u, threads), 4096};
}

// What a thread has while it works on a store to which it needn't be made known.
struct NoMembership {
    NoMembership() {}
};

// What a map keeps under a key. A cas compares the version.
struct Entry {
    Value value;
    std::uint32_t version = 0;
};

// Whether a write is to be done, by the entry that stands under its key, or null.
inline bool is_allowed(Write write, const Entry* present, std::uint32_t expected) {
    switch (write) {
        case Write::Set: return true;
        case Write::Add: return present == nullptr;
        case Write::Replace: return present != nullptr;
        case Write::Cas: return present != nullptr && present->version == expected;
    }
    return false;
}

// The entry that a write leaves where one stands, or null.
inline Entry entry_after(const Entry* present, const Value& value) {
    return {value, present == nullptr ? 1 : present->version + 1};
}

}  // namespace bench
