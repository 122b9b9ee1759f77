// SPDX-License-Identifier: MIT
// Many keys in a cache by last use in 64 shards, each behind a lock that spins.

#include "../peers/lru.hpp"
#include "../peers/spin_lock.hpp"
#include "peer.hpp"

int main(int count, char** words) {
    return bench::measure_many<bench::ManyOf<bench::LruShards<bench::SpinLock, 64>>>(count, words);
}
