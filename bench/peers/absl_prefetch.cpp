// SPDX-License-Identifier: MIT
// Measures what absl_spin is, with Abseil's own prefetch of the keys that are at hand together.

#include "../common/measure.hpp"
#include "sharded.hpp"

#include <absl/container/flat_hash_map.h>

using Map = absl::flat_hash_map<bench::Key, bench::Entry, bench::KeyHash>;

int main(int count, char** words) {
    return bench::measure<bench::Sharded<Map, bench::SpinLock, 64, true>>(count, words);
}
