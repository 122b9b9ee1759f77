// SPDX-License-Identifier: MIT
// DashMap, a map in Rust, which stands in the folder `dashmap` behind calls of C.
#pragma once

#include "behind_c.hpp"

extern "C" {
struct Map;
const Map* dashmap_new(std::uint32_t keys);
bool dashmap_get(const Map* map, const bench::Key* key, bench::Entry* found);
bool dashmap_write(const Map* map, bench::Write write, const bench::Key* key, const bench::Value* value,
                   std::uint32_t expected);
bool dashmap_remove(const Map* map, const bench::Key* key);
}

namespace bench {

inline constexpr auto open_dashmap = [](const Plan& plan) { return dashmap_new(plan.keys); };

using DashMap = BehindC<open_dashmap, dashmap_get, dashmap_write, dashmap_remove>;

}  // namespace bench
