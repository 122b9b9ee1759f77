// SPDX-License-Identifier: MIT
// Measures the crate `lru`, in shards behind a mutex each: in Rust, in the folder `caches` behind calls of C.

#include "../common/measure.hpp"
#include "behind_c.hpp"

extern "C" {
struct Cache;
const Cache* rust_lru_new(std::uint32_t keys, std::uint32_t room);
bool rust_lru_get(const Cache* cache, const bench::Key* key, bench::Entry* found);
bool rust_lru_write(const Cache* cache, bench::Write write, const bench::Key* key, const bench::Value* value,
                    std::uint32_t expected);
bool rust_lru_remove(const Cache* cache, const bench::Key* key);
}

namespace {

constexpr auto open = [](const bench::Plan& plan) { return rust_lru_new(plan.keys, plan.room); };

}  // namespace

int main(int count, char** words) {
    return bench::measure<bench::BehindC<open, rust_lru_get, rust_lru_write, rust_lru_remove>>(count, words);
}
