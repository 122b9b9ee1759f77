// SPDX-License-Identifier: MIT
// Streams of commands on keys, drawn from fixed seeds: the workloads over which hit rates are compared.
#pragma once

#include <algorithm>
#include <cmath>
#include <cstdint>
#include <numeric>
#include <optional>
#include <string_view>
#include <utility>
#include <vector>

namespace simulator {

using Key = std::uint32_t;

// Numbers at random, by splitmix64.
class Generator {
public:
    explicit Generator(std::uint64_t seed) : state_(seed * step + 1) {}

    std::uint64_t next() {
        std::uint64_t mixed = state_ += step;
        mixed = (mixed ^ (mixed >> 30)) * 0xbf58'476d'1ce4'e5b9;
        mixed = (mixed ^ (mixed >> 27)) * 0x94d0'49bb'1331'11eb;
        return mixed ^ (mixed >> 31);
    }

    // From 0 on, below 1.
    double share() { return static_cast<double>(next() >> 11) / (std::uint64_t{1} << 53); }

    std::uint32_t below(std::uint32_t limit) { return static_cast<std::uint32_t>(((next() >> 32) * limit) >> 32); }

private:
    static constexpr std::uint64_t step = 0x9e37'79b9'7f4a'7c15;
    std::uint64_t state_;
};

// Ranks by Zipf's law, rank 0 the most often.
class Zipf {
public:
    Zipf(std::uint32_t ranks, double exponent) {
        double sum = 0;
        for (std::uint32_t rank = 0; rank < ranks; ++rank) {
            sum += std::pow(rank + 1.0, -exponent);
            sums_.push_back(sum);
        }
        for (double& each : sums_) {
            each /= sum;
        }
    }

    std::uint32_t draw(Generator& generator) const {
        const auto found = std::upper_bound(sums_.begin(), sums_.end() - 1, generator.share());
        return static_cast<std::uint32_t>(found - sums_.begin());
    }

private:
    std::vector<double> sums_;
};

// How commands are drawn. Nothing but the first two is done where the number is 0.
struct Workload {
    std::string_view name;
    // Of the popularity of keys.
    double exponent;
    // The share of commands that are sets; the others are gets.
    double sets = 0;
    // The share of commands that are gets of a key that comes once.
    double once = 0;
    // By this chance a command gives a rank a new key.
    double churn = 0;
    // After so many commands the ranks are dealt anew.
    std::uint32_t shift_every = 0;
    // After so many commands, the scan included, keys of a row of their own are read in turn.
    std::uint32_t scan_every = 0;
    std::uint32_t scan_length = 0;
    std::uint32_t scan_keys = 0;
};

constexpr Workload workloads[] = {
    {.name = "zipf0.7", .exponent = 0.7},
    {.name = "zipf0.99", .exponent = 0.99},
    {.name = "zipf1.2", .exponent = 1.2},
    {.name = "churn-slow", .exponent = 0.99, .churn = 0.005},
    {.name = "churn-fast", .exponent = 0.99, .churn = 0.05},
    {.name = "once30", .exponent = 0.99, .once = 0.3},
    {.name = "sets30", .exponent = 0.99, .sets = 0.3},
    {.name = "scan", .exponent = 0.99, .scan_every = 40'000, .scan_length = 10'000, .scan_keys = 250'000},
    {.name = "shift", .exponent = 0.99, .shift_every = 150'000},
    {.name = "mixture", .exponent = 1.0, .sets = 0.1, .once = 0.1, .churn = 0.025},
};

inline std::optional<Workload> workload_named(std::string_view name) {
    for (const Workload& workload : workloads) {
        if (workload.name == name) {
            return workload;
        }
    }
    return std::nullopt;
}

struct Command {
    Key key;
    bool is_set;
};

struct Trace {
    std::vector<Command> commands;
    // All keys are below this.
    Key keys;
};

class Drawing {
public:
    Drawing(const Workload& workload, std::uint32_t ranks)
        : workload_(workload), zipf_(ranks, workload.exponent), key_of_rank_(ranks),
          fresh_(ranks + workload.scan_keys) {
        std::iota(key_of_rank_.begin(), key_of_rank_.end(), 0);
        shuffle();
    }

    Trace draw(std::size_t commands) {
        while (commands_.size() < commands) {
            const std::size_t place = commands_.size();
            if (place > 0 && workload_.scan_every > 0 && place % workload_.scan_every == 0) {
                scan(commands);
            }
            if (commands_.size() < commands) {
                draw_one(place);
            }
        }
        return {std::move(commands_), fresh_};
    }

private:
    void shuffle() {
        for (auto last = static_cast<std::uint32_t>(key_of_rank_.size()) - 1; last > 0; --last) {
            std::swap(key_of_rank_[last], key_of_rank_[generator_.below(last + 1)]);
        }
    }

    void scan(std::size_t commands) {
        const auto ranks = static_cast<Key>(key_of_rank_.size());
        for (std::uint32_t count = 0; count < workload_.scan_length && commands_.size() < commands; ++count) {
            commands_.push_back({ranks + scanned_, false});
            scanned_ = (scanned_ + 1) % workload_.scan_keys;
        }
    }

    void draw_one(std::size_t place) {
        if (place > 0 && workload_.shift_every > 0 && place % workload_.shift_every == 0) {
            shuffle();
        }
        if (workload_.churn > 0 && generator_.share() < workload_.churn) {
            key_of_rank_[generator_.below(static_cast<std::uint32_t>(key_of_rank_.size()))] = fresh_++;
        }
        if (workload_.once > 0 && generator_.share() < workload_.once) {
            commands_.push_back({fresh_++, false});
            return;
        }
        const Key key = key_of_rank_[zipf_.draw(generator_)];
        commands_.push_back({key, workload_.sets > 0 && generator_.share() < workload_.sets});
    }

    static constexpr std::uint64_t seed = 42;

    Workload workload_;
    Generator generator_{seed};
    Zipf zipf_;
    std::vector<Key> key_of_rank_;
    // The next key that never came.
    Key fresh_;
    std::uint32_t scanned_ = 0;
    std::vector<Command> commands_;
};

}  // namespace simulator
