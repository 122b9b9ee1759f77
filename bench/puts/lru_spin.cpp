// SPDX-License-Identifier: MIT
// A cache by last use in 64 shards, each behind a lock that spins. It has room for as many items as the index has rows.

#include "../peers/lru.hpp"
#include "../peers/spin_lock.hpp"
#include "puts.h"

#include <cstdint>
#include <memory>
#include <vector>

namespace {

using Store = bench::LruShards<bench::SpinLock, 64>;

// The key of a number of eight bytes.
bench::Key key_of(std::uint64_t number) {
    bench::Key key;
    std::memcpy(key.bytes.data(), &number, sizeof number);
    key.length = sizeof number;
    return key;
}

const bench::Value value = bench::Value::of_text("0123456789abcdef");

std::unique_ptr<Store> store;

}  // namespace

struct caller {
    Store::Client client;
};

bool puts_open(const plan* of, caller** callers) {
    const std::uint32_t room = rows_each(of) * of->threads;
    store = std::make_unique<Store>(bench::Plan{room, of->threads, {}, room});
    for (std::uint32_t number = 0; number < of->threads; ++number) {
        callers[number] = new caller{store->client(number)};
    }
    return true;
}

void puts_close(caller** callers, std::uint32_t count) {
    for (std::uint32_t number = 0; number < count; ++number) {
        delete callers[number];
    }
    store.reset();
}

bool puts_keep_nothing(caller*) { return false; }

bool puts_get(caller* own, std::uint64_t key) {
    bench::Value found;
    return own->client.get(key_of(key), 0, found) == bench::Answer::Hit;
}

bool puts_put(caller* own, std::uint64_t key) {
    return own->client.write(bench::Write::Set, key_of(key), value, 0) == bench::Answer::Hit;
}

std::uint64_t puts_rows(caller*) { return 0; }
