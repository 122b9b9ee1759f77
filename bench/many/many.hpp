// SPDX-License-Identifier: MIT
// Fills a store with many keys on some threads, and times it: one line of JSON.
//
//     PROGRAM KEYS THREADS
//
// Times are nanoseconds of the threads' processor time for a key. Keys are drawn uniformly.
#pragma once

#include "../common/memory.hpp"
#include "../common/store.hpp"

#include <chrono>
#include <cstdint>
#include <cstdio>
#include <cstdlib>
#include <cstring>
#include <ctime>
#include <thread>
#include <vector>

namespace bench {

constexpr std::uint32_t commands = 2'000'000;
constexpr unsigned at_hand = 16;

inline std::uint64_t thread_ns() {
    timespec now{};
    clock_gettime(CLOCK_THREAD_CPUTIME_ID, &now);
    return static_cast<std::uint64_t>(now.tv_sec) * 1'000'000'000 + static_cast<std::uint64_t>(now.tv_nsec);
}

class Random {
public:
    explicit Random(std::uint64_t seed) : state_(seed) {}

    std::uint32_t below(std::uint32_t end) {
        std::uint64_t mixed = state_ += 0x9e37'79b9'7f4a'7c15;
        mixed = (mixed ^ mixed >> 30) * 0xbf58'476d'1ce4'e5b9;
        mixed = (mixed ^ mixed >> 27) * 0x94d0'49bb'1331'11eb;
        return static_cast<std::uint32_t>((mixed >> 32) * end >> 32);
    }

private:
    std::uint64_t state_;
};

// Runs `act(client, first, end, random)` on each thread with its part of the keys; the processor time of all.
template <class Store, class Act>
double on_threads(Store& store, std::uint32_t keys, unsigned threads, Act act) {
    std::vector<std::thread> running;
    std::vector<std::uint64_t> spent(threads);
    for (unsigned number = 0; number < threads; ++number) {
        running.emplace_back([&, number] {
            auto client = store.client(number);
            const auto part = [&](std::uint64_t share) { return static_cast<std::uint32_t>(share * keys / threads); };
            const std::uint64_t before = thread_ns();
            act(client, part(number), part(number + 1), Random(number + 1));
            spent[number] = thread_ns() - before;
        });
    }
    double sum = 0;
    for (unsigned number = 0; number < threads; ++number) {
        running[number].join();
        sum += static_cast<double>(spent[number]);
    }
    return sum;
}

template <class Store>
int measure_many(int count, char** words) {
    const std::uint32_t keys = count == 3 ? static_cast<std::uint32_t>(std::strtoul(words[1], nullptr, 10)) : 0;
    const unsigned threads = count == 3 ? static_cast<unsigned>(std::strtoul(words[2], nullptr, 10)) : 0;
    if (keys == 0 || threads == 0) {
        std::fprintf(stderr, "usage: %s KEYS THREADS\n", words[0]);
        return 1;
    }
    using Clock = std::chrono::steady_clock;
    const auto seconds = [](Clock::time_point since) {
        return std::chrono::duration<double>(Clock::now() - since).count();
    };
    const double bytes_before = status_bytes("VmRSS");
    auto start = Clock::now();
    Store store(keys, threads);
    const double opened = seconds(start);
    start = Clock::now();
    on_threads(store, keys, threads, [](auto& client, std::uint32_t first, std::uint32_t end, Random) {
        for (std::uint32_t key = first; key < end; ++key) {
            client.put(Key::of_number(key), Value::of_number(key));
        }
    });
    const double filled = seconds(start);
    const double bytes = status_bytes("VmRSS") - bytes_before;
    const double gets =
        on_threads(store, keys, threads, [keys](auto& client, std::uint32_t, std::uint32_t, Random random) {
            for (std::uint32_t done = 0; done < commands; ++done) {
                const std::uint32_t key = random.below(keys);
                client.see(client.get(Key::of_number(key)), key);
            }
        });
    const double many =
        on_threads(store, keys, threads, [keys](auto& client, std::uint32_t, std::uint32_t, Random random) {
            Key asked[at_hand];
            std::uint32_t numbers[at_hand];
            for (std::uint32_t done = 0; done < commands; done += at_hand) {
                for (unsigned place = 0; place < at_hand; ++place) {
                    asked[place] = Key::of_number(numbers[place] = random.below(keys));
                }
                client.get_all(asked, numbers);
            }
        });
    const double puts =
        on_threads(store, keys, threads, [keys](auto& client, std::uint32_t, std::uint32_t, Random random) {
            for (std::uint32_t done = 0; done < commands; ++done) {
                const std::uint32_t key = random.below(keys);
                client.put(Key::of_number(key), Value::of_number(key));
            }
        });
    const double all = static_cast<double>(commands) * threads;
    std::printf(
        "{\"keys\": %u, \"threads\": %u, \"open_s\": %.2f, \"fill_s\": %.2f, \"bytes_a_key\": %.1f, "
        "\"peak_bytes_a_key\": %.1f, \"get_ns\": %.1f, \"get16_ns\": %.1f, \"put_ns\": %.1f, \"wrong\": %llu}\n",
        keys, threads, opened, filled, bytes / keys, (status_bytes("VmHWM") - bytes_before) / keys, gets / all,
        many / all, puts / all, static_cast<unsigned long long>(store.wrong()));
    return 0;
}

}  // namespace bench
