// SPDX-License-Identifier: MIT
// Times a store with values of several sizes, or sends a trace through it: one line of JSON.
//
//     PROGRAM rounds VALUES GETS KEYS THREADS TIMES ROUNDS    values of a length, or lognormal; gets in percent
//     PROGRAM replay TRACE WARM BYTES                         a store of so many bytes, if it has a bound
//
// A get copies the value into the caller's buffer, and then its length, first and last byte are read. A line of a trace
// is `get KEY LENGTH` or `set KEY LENGTH`; a get that misses puts its key.
#pragma once

#include "../common/measure.hpp"
#include "items.hpp"

#include <algorithm>
#include <array>
#include <cstdint>
#include <cstdio>
#include <cstdlib>
#include <cstring>
#include <latch>
#include <string>
#include <string_view>
#include <thread>
#include <unordered_set>
#include <utility>
#include <vector>

namespace bench {

// What a get of an absent key returns.
constexpr std::size_t absent = SIZE_MAX;

using Buffer = std::array<char, longest_value>;

// How large a store has to be: for items that take so many rows of 64 bytes, or in so many bytes.
struct Room {
    std::uint32_t rows;
    unsigned threads;
    std::uint64_t bytes;
};

// The rows of 64 bytes that an item takes in the index: a word, and those of its key and its value.
inline std::size_t rows_of(std::size_t length) { return (1 + 3 + (length + 7) / 8 + 7) / 8; }

struct Items {
    std::vector<std::uint16_t> lengths;
    Bytes bytes;

    Items(std::string_view values, std::uint32_t keys) {
        for (std::uint32_t number = 0; number < keys; ++number) {
            const std::size_t length =
                values == "lognormal" ? lognormal_length(number) : std::strtoul(values.data(), nullptr, 10);
            lengths.push_back(static_cast<std::uint16_t>(length));
        }
    }

    std::string_view value_of(std::uint32_t number) const { return bytes.of(number, lengths[number]); }
};

// A thread at work on a store.
template <class Client>
struct Maker {
    Client client;
    Generator generator;
    std::vector<std::uint32_t> numbers;
    std::uint64_t gets = 0, hits = 0, refused = 0, value_bytes = 0, ends = 0;

    void make(const Items& items, std::uint32_t percent) {
        Buffer buffer;
        for (const std::uint32_t number : numbers) {
            const Key key = key_of(number);
            if (generator.next() % 100 < percent) {
                const std::size_t length = client.get(key, buffer);
                ++gets;
                if (length != absent) {
                    ++hits;
                    value_bytes += length;
                    ends += static_cast<unsigned char>(buffer[0]) + static_cast<unsigned char>(buffer[length - 1]);
                }
            } else {
                refused += !client.put(key, items.value_of(number));
            }
        }
    }
};

inline std::uint64_t process_time() {
    timespec now{};
    clock_gettime(CLOCK_PROCESS_CPUTIME_ID, &now);
    return static_cast<std::uint64_t>(now.tv_sec) * 1'000'000'000 + static_cast<std::uint64_t>(now.tv_nsec);
}

// All makers at once: the nanoseconds of processor time that all of it took.
template <class Makers>
double make_at_once(Makers& makers, const Items& items, std::uint32_t percent) {
    const std::uint64_t before = process_time();
    std::latch start(static_cast<std::ptrdiff_t>(makers.size()));
    std::vector<std::thread> threads;
    for (auto& maker : makers) {
        threads.emplace_back([&] {
            start.arrive_and_wait();
            maker.make(items, percent);
        });
    }
    for (std::thread& thread : threads) {
        thread.join();
    }
    return static_cast<double>(process_time() - before);
}

// How many keys are there, and how many of them have another value than their own.
template <class Client>
std::pair<std::uint32_t, std::uint32_t> check(Client& client, const Items& items) {
    Buffer buffer;
    std::uint32_t held = 0, wrong = 0;
    for (std::uint32_t number = 0; number < items.lengths.size(); ++number) {
        const std::size_t length = client.get(key_of(number), buffer);
        held += length != absent;
        wrong += length != absent && std::string_view(buffer.data(), length) != items.value_of(number);
    }
    return {held, wrong};
}

template <class Store>
int time_rounds(std::string_view values, std::uint32_t percent, std::uint32_t keys, unsigned threads,
                std::uint32_t times, unsigned rounds) {
    const Items items(values, keys);
    std::uint32_t rows = 0;
    for (const std::uint16_t length : items.lengths) {
        rows += static_cast<std::uint32_t>(rows_of(length));
    }
    Store store(Room{rows, threads, 0});
    std::vector<Maker<typename Store::Client>> makers;
    for (unsigned number = 0; number < threads; ++number) {
        makers.push_back({store.client(number), Generator(number), {}});
    }
    for (std::uint32_t number = 0; number < keys; ++number) {
        auto& maker = makers[number % threads];
        maker.refused += !maker.client.put(key_of(number), items.value_of(number));
    }
    const Draws draws(keys, true);
    std::vector<double> costs;
    for (unsigned round = 0; round < rounds; ++round) {
        for (auto& maker : makers) {
            maker.numbers.clear();
            for (std::uint32_t drawn = 0; drawn < times; ++drawn) {
                maker.numbers.push_back(draws.next(maker.generator));
            }
        }
        costs.push_back(make_at_once(makers, items, percent) / times / threads);
    }
    std::nth_element(costs.begin(), costs.begin() + rounds / 2, costs.end());
    std::uint64_t gets = 0, hits = 0, refused = 0, value_bytes = 0, ends = 0;
    for (const auto& maker : makers) {
        gets += maker.gets, hits += maker.hits, refused += maker.refused;
        value_bytes += maker.value_bytes, ends += maker.ends;
    }
    const auto [held, wrong] = check(makers[0].client, items);
    using Number = unsigned long long;
    std::printf("{\"process_ns\": %.1f, \"hits\": %.6f, \"value_bytes\": %.1f, \"ends\": %llu, \"refused\": %llu, "
                "\"held\": %u, \"wrong\": %u}\n",
                costs[rounds / 2], static_cast<double>(hits) / static_cast<double>(gets),
                static_cast<double>(value_bytes) / static_cast<double>(hits), Number{ends}, Number{refused}, held,
                wrong);
    return 0;
}

// The commands of a trace, and what they come to.
template <class Act>
void each_command(const char* path, Act act) {
    std::FILE* trace = std::fopen(path, "r");
    char verb[4], text[25];
    std::size_t length;
    for (std::size_t place = 0; trace && std::fscanf(trace, "%3s %24s %zu", verb, text, &length) == 3; ++place) {
        Key key;
        key.length = static_cast<std::uint8_t>(std::strlen(text));
        std::memcpy(key.bytes.data(), text, key.length);
        act(place, verb[0] == 'g', key, length);
    }
    if (trace) {
        std::fclose(trace);
    }
}

template <class Store>
int replay(const char* trace, std::size_t warm, std::uint64_t bytes) {
    const Bytes values;
    Buffer buffer;
    const double resident = status_bytes("VmRSS");
    const std::size_t given = bytes_in_use();
    Store store(Room{0, 1, bytes});
    auto client = store.client(0);
    std::uint64_t gets = 0, hits = 0, refused = 0;
    each_command(trace, [&](std::size_t place, bool is_get, const Key& key, std::size_t length) {
        const bool is_hit = is_get && client.get(key, buffer) != absent;
        refused += !is_hit && !client.put(key, values.of(0, length));
        gets += place >= warm && is_get;
        hits += place >= warm && is_hit;
    });
    const double taken = status_bytes("VmRSS") - resident, most = status_bytes("VmHWM") - resident;
    const std::size_t given_now = bytes_in_use() - given;
    // All of what follows takes memory that doesn't count.
    std::uint64_t held = 0, held_bytes = 0;
    std::unordered_set<std::string> seen;
    each_command(trace, [&](std::size_t, bool, const Key& key, std::size_t length) {
        if (seen.emplace(key.bytes.data(), key.length).second && client.get(key, buffer) != absent) {
            ++held;
            held_bytes += key.length + length;
        }
    });
    using Number = unsigned long long;
    std::printf("{\"gets\": %llu, \"hits\": %llu, \"refused\": %llu, \"resident\": %.0f, \"peak\": %.0f, "
                "\"malloc\": %zu, \"items\": %llu, \"item_bytes\": %llu}\n",
                Number{gets}, Number{hits}, Number{refused}, taken, most, given_now, Number{held}, Number{held_bytes});
    return 0;
}

template <class Store>
int measure_sizes(int count, char** words) {
    const auto number = [words](int place) { return std::strtoull(words[place], nullptr, 10); };
    const std::string_view mode = count > 1 ? words[1] : "";
    if (mode == "replay" && count == 5) {
        return replay<Store>(words[2], number(3), number(4));
    }
    if (mode == "rounds" && count == 8 && number(4) && number(5) && number(6) && number(7)) {
        return time_rounds<Store>(words[2], static_cast<std::uint32_t>(number(3)),
                                  static_cast<std::uint32_t>(number(4)), static_cast<unsigned>(number(5)),
                                  static_cast<std::uint32_t>(number(6)), static_cast<unsigned>(number(7)));
    }
    std::fprintf(stderr, "usage: %s rounds VALUES GETS KEYS THREADS TIMES ROUNDS, or replay TRACE WARM BYTES\n",
                 words[0]);
    return 2;
}

}  // namespace bench
