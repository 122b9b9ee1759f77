// SPDX-License-Identifier: MIT
// Measures oneTBB's concurrent_lru_cache. It only has one call, which finds a key or stores a value that a function makes,
// so that of the mixes it can only do fetches: it has no set, no delete, and no get of a key that is to stay absent.

#define TBB_PREVIEW_CONCURRENT_LRU_CACHE 1

#include "../common/measure.hpp"

#include <oneapi/tbb/concurrent_lru_cache.h>

#include <memory>
#include <utility>

namespace bench {

// The order of its map.
inline bool operator<(const Key& left, const Key& right) {
    return left.length != right.length ? left.length < right.length : left.bytes < right.bytes;
}

}  // namespace bench

namespace {

using bench::Answer;
using bench::Key;
using bench::Value;

// What the thread wants to be stored if its key is missed, and null once it was.
thread_local const Value* to_store = nullptr;

Value take_what_is_stored(Key) { return *std::exchange(to_store, nullptr); }

using Cache = tbb::concurrent_lru_cache<Key, Value, Value (*)(Key)>;

class Client {
public:
    explicit Client(Cache& cache) : cache_(&cache) {}

    Answer fetch(const Key& key, const Value& value, Value& found) {
        to_store = &value;
        Cache::handle handle = (*cache_)[key];
        found = handle.value();
        return to_store == nullptr ? Answer::Miss : Answer::Hit;
    }

    // Those that it can't do.
    Answer get(const Key&, std::uint32_t, Value&) { return Answer::Full; }
    Answer gets(const Key&, std::uint32_t, Value&, std::uint32_t&) { return Answer::Full; }
    Answer remove(const Key&) { return Answer::Full; }

    // With it the measure fills the cache, with keys that aren't there.
    Answer write(bench::Write, const Key& key, const Value& value, std::uint32_t) {
        Value found;
        fetch(key, value, found);
        return Answer::Hit;
    }

private:
    Cache* cache_;
};

class Store {
public:
    using Membership = bench::NoMembership;
    using Client = ::Client;

    explicit Store(const bench::Plan& plan)
        : cache_(std::make_unique<Cache>(take_what_is_stored, bench::room_of_shard(plan, 0, 1))) {}

    Client client(std::uint32_t) { return Client(*cache_); }

private:
    std::unique_ptr<Cache> cache_;
};

}  // namespace

int main(int count, char** words) { return bench::measure<Store>(count, words); }
