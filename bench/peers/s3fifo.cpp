// SPDX-License-Identifier: MIT
// Measures S3-FIFO in shards: in Rust, in the folder `caches` behind calls of C.

#include "../common/measure.hpp"
#include "behind_c.hpp"

extern "C" {
struct Cache;
const Cache* s3fifo_new(std::uint32_t keys, std::uint32_t room);
bool s3fifo_get(const Cache* cache, const bench::Key* key, bench::Entry* found);
bool s3fifo_write(const Cache* cache, bench::Write write, const bench::Key* key, const bench::Value* value,
                  std::uint32_t expected);
bool s3fifo_remove(const Cache* cache, const bench::Key* key);
}

namespace {

constexpr auto open = [](const bench::Plan& plan) { return s3fifo_new(plan.keys, plan.room); };

}  // namespace

int main(int count, char** words) {
    return bench::measure<bench::BehindC<open, s3fifo_get, s3fifo_write, s3fifo_remove>>(count, words);
}
