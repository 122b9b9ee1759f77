// SPDX-License-Identifier: MIT
// Simulates caches over a workload, or writes the workload's commands.

#include "policies.hpp"

#include <cstdio>
#include <cstdlib>
#include <span>
#include <string_view>

using namespace simulator;

namespace {

// The commands as `segrun replay` reads them. Each key has eight bytes.
void write_trace(const Trace& trace) {
    for (const auto& [key, is_set] : trace.commands) {
        std::printf("%s k%07u\n", is_set ? "set" : "get", key);
    }
}

// A line with the gets and hits of the commands behind the first ones, which fill the cache. A get that misses puts its key.
void simulate(const Trace& trace, std::size_t warm, std::string_view name, std::uint32_t room) {
    const auto policy = policy_named(name, trace, room);
    std::uint64_t gets = 0, hits = 0;
    for (std::size_t place = 0; place < trace.commands.size(); ++place) {
        const auto [key, is_set] = trace.commands[place];
        const bool is_hit = !is_set && policy->get(key, place);
        if (!is_hit) {
            policy->put(key, place, !is_set);
        }
        gets += place >= warm && !is_set;
        hits += place >= warm && is_hit;
    }
    std::printf("{\"policy\": \"%s\", \"items\": %u, \"gets\": %llu, \"hits\": %llu}\n", name.data(), room,
                static_cast<unsigned long long>(gets), static_cast<unsigned long long>(hits));
}

}  // namespace

int main(int count, char** words) {
    const auto workload = count > 4 ? workload_named(words[1]) : std::nullopt;
    if (!workload) {
        std::fprintf(stderr,
                     "usage: %s WORKLOAD KEYS WARM MEASURED            writes the commands\n"
                     "       %s WORKLOAD KEYS WARM MEASURED ITEMS POLICY..  simulates these policies\n",
                     words[0], words[0]);
        return 2;
    }
    const auto number = [words](int place) {
        return static_cast<std::uint32_t>(std::strtoul(words[place], nullptr, 10));
    };
    const std::uint32_t warm = number(3);
    const Trace trace = Drawing(*workload, number(2)).draw(std::size_t{warm} + number(4));
    if (count == 5) {
        write_trace(trace);
        return 0;
    }
    for (char* name : std::span(words + 6, words + count)) {
        if (!policy_named(name, {{}, 0}, 100)) {
            std::fprintf(stderr, "no policy %s\n", name);
            return 2;
        }
        simulate(trace, warm, name, number(5));
    }
}
