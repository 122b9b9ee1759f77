// SPDX-License-Identifier: MIT
// How long a thread waits for a line of memory: each load's place is known only once the load before is there.
//
//   lines BYTES THREADS           nanoseconds of a thread's processor time for a line, over so many bytes

#include "many.hpp"

#include <atomic>
#include <cstdint>
#include <cstdio>
#include <cstdlib>
#include <memory>
#include <thread>
#include <utility>
#include <vector>

namespace {

constexpr std::uint64_t line_bytes = 64, loads = 4'000'000;

struct alignas(line_bytes) Line {
    std::uint32_t next;
};

// Each line leads to another, in one ring through all of them.
void make_ring(Line* lines, std::uint32_t count) {
    bench::Random random(7);
    for (std::uint32_t at = 0; at < count; ++at) {
        lines[at].next = at;
    }
    for (std::uint32_t at = count - 1; at > 0; --at) {
        std::swap(lines[at].next, lines[random.below(at)].next);
    }
}

}  // namespace

int main(int count, char** words) {
    if (count != 3) {
        std::fprintf(stderr, "usage: lines BYTES THREADS\n");
        return 2;
    }
    const auto lines = static_cast<std::uint32_t>(std::strtoull(words[1], nullptr, 10) / line_bytes);
    const auto threads = static_cast<unsigned>(std::strtoul(words[2], nullptr, 10));
    if (lines < 2 || threads == 0) {
        std::fprintf(stderr, "lines: at least 128 bytes and a thread\n");
        return 2;
    }
    const std::unique_ptr<Line, decltype(&std::free)> held(
        static_cast<Line*>(std::aligned_alloc(line_bytes, line_bytes * lines)), std::free);
    if (!held) {
        std::fprintf(stderr, "lines: no memory\n");
        return 1;
    }
    make_ring(held.get(), lines);
    std::vector<double> taken(threads);
    std::atomic<std::uint32_t> ends = 0;
    std::vector<std::thread> all;
    for (unsigned number = 0; number < threads; ++number) {
        all.emplace_back([&, number] {
            std::uint32_t at = static_cast<std::uint32_t>(std::uint64_t{lines} * number / threads);
            const std::uint64_t before = bench::thread_ns();
            for (std::uint64_t load = 0; load < loads; ++load) {
                at = held.get()[at].next;
            }
            taken[number] = static_cast<double>(bench::thread_ns() - before) / static_cast<double>(loads);
            ends += at;  // so that the loads aren't left out
        });
    }
    double sum = 0;
    for (unsigned number = 0; number < threads; ++number) {
        all[number].join();
        sum += taken[number];
    }
    std::printf("%.1f\n", sum / threads);
}
