// SPDX-License-Identifier: MIT
// Measures 64 of the standard library's unordered_map, each behind a mutex.

#include "../common/measure.hpp"
#include "sharded.hpp"

#include <unordered_map>

using Map = std::unordered_map<bench::Key, bench::Entry, bench::KeyHash>;

int main(int count, char** words) { return bench::measure<bench::Sharded<Map, std::mutex, 64>>(count, words); }
