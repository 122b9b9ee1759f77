// SPDX-License-Identifier: MIT
// Measures a cache by last use in 64 shards, each behind a lock that spins.

#include "../common/measure.hpp"
#include "lru.hpp"
#include "spin_lock.hpp"

int main(int count, char** words) { return bench::measure<bench::LruShards<bench::SpinLock, 64>>(count, words); }
