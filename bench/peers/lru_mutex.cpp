// SPDX-License-Identifier: MIT
// Measures a cache by last use: one list and one map, behind one mutex.

#include "../common/measure.hpp"
#include "lru.hpp"

int main(int count, char** words) { return bench::measure<bench::LruShards<std::mutex, 1>>(count, words); }
