// SPDX-License-Identifier: MIT
// Writes a workload of the simulator, with the length of each key's value.
//
//     trace WORKLOAD KEYS WARM MEASURED
//     trace fill KEYS                     sets of so many keys, each once

#include "items.hpp"

#include <cstdio>
#include <cstdlib>
#include <string_view>

namespace {

void write(const char* verb, std::uint32_t number) {
    const bench::Key key = bench::key_of(number);
    std::printf("%s %.*s %zu\n", verb, key.length, key.bytes.data(), bench::lognormal_length(number));
}

}  // namespace

int main(int count, char** words) {
    const auto number = [words](int place) {
        return static_cast<std::uint32_t>(std::strtoul(words[place], nullptr, 10));
    };
    if (count == 3 && std::string_view(words[1]) == "fill") {
        for (std::uint32_t key = 0; key < number(2); ++key) {
            write("set", key);
        }
        return 0;
    }
    const auto workload = count == 5 ? simulator::workload_named(words[1]) : std::nullopt;
    if (!workload) {
        std::fprintf(stderr, "usage: %s WORKLOAD KEYS WARM MEASURED, or fill KEYS\n", words[0]);
        return 2;
    }
    for (const auto& [key, is_set] : simulator::Drawing(*workload, number(2)).draw(number(3) + number(4)).commands) {
        write(is_set ? "set" : "get", key);
    }
}
