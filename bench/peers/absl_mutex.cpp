// SPDX-License-Identifier: MIT
// Measures one of Abseil's flat_hash_map behind one mutex.

#include "../common/measure.hpp"
#include "sharded.hpp"

#include <absl/container/flat_hash_map.h>

using Map = absl::flat_hash_map<bench::Key, bench::Entry, bench::KeyHash>;

int main(int count, char** words) { return bench::measure<bench::Sharded<Map, std::mutex, 1>>(count, words); }
