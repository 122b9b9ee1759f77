// SPDX-License-Identifier: MIT
// Items of several sizes. All goes by a number: the key of 24 bytes, and the length and the bytes of the value.
#pragma once

#include "../common/bytes.hpp"
#include "../simulator/trace.hpp"

#include <algorithm>
#include <array>
#include <cmath>
#include <cstddef>
#include <cstdint>
#include <cstring>
#include <numbers>
#include <string_view>

namespace bench {

constexpr std::size_t longest_value = 4'000;

// The key of a number: 24 letters, so that memcached takes it too. The last eight are the number's half bytes.
inline Key key_of(std::uint32_t number) {
    std::uint64_t letters = number;
    letters = (letters | letters << 16) & 0x0000'ffff'0000'ffff;
    letters = (letters | letters << 8) & 0x00ff'00ff'00ff'00ff;
    letters = (letters | letters << 4) & 0x0f0f'0f0f'0f0f'0f0f;
    letters += 0x6161'6161'6161'6161;
    Key key;
    std::memcpy(key.bytes.data(), "item.of.several.", 16);
    std::memcpy(key.bytes.data() + 16, &letters, 8);
    key.length = 24;
    return key;
}

// With this seed the mean length of 100,000 keys is 230, also if each counts as often as it comes by Zipf's law.
constexpr std::uint64_t seed_of_lengths = 193;

// A log-normal length with the mean 230 and sigma 1, from 1 on and at most 4,000: that of the number, always.
inline std::size_t lognormal_length(std::uint32_t number) {
    simulator::Generator generator(2 * (seed_of_lengths << 32 | number));
    const double first = 1 - generator.share(), second = generator.share();
    const double normal = std::sqrt(-2 * std::log(first)) * std::cos(2 * std::numbers::pi * second);
    const double length = std::round(std::exp(std::log(230.0) - 0.5 + normal));
    return static_cast<std::size_t>(std::clamp(length, 1.0, static_cast<double>(longest_value)));
}

// Bytes at random, in which the value of a number begins at a place of its own.
class Bytes {
public:
    Bytes() {
        simulator::Generator generator(1);
        for (char& byte : bytes_) {
            byte = static_cast<char>(generator.next());
        }
    }

    std::string_view of(std::uint32_t number, std::size_t length) const {
        return {bytes_.data() + number % places, length};
    }

private:
    static constexpr std::size_t places = 4'093;
    std::array<char, places + longest_value> bytes_;
};

}  // namespace bench
