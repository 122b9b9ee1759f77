// SPDX-License-Identifier: MIT
// Keys and values as all stores of the measure keep them, and the hash that all of them use.
#pragma once

#include <array>
#include <cstdint>
#include <cstring>

namespace bench {

// A key of 1 to 24 bytes. What lies behind its bytes is 0.
struct Key {
    std::array<char, 24> bytes{};
    std::uint8_t length = 0;

    // The key of a number: its four bytes, the lowest first.
    static Key of_number(std::uint32_t number) {
        Key key;
        for (int place = 0; place < 4; ++place) {
            key.bytes[place] = static_cast<char>(number >> (8 * place));
        }
        key.length = 4;
        return key;
    }

    bool operator==(const Key&) const = default;
};

// A value of at most 32 bytes. What lies behind its bytes is 0.
struct Value {
    std::array<char, 32> bytes{};
    std::uint8_t length = 0;

    static Value of_text(const char* text) {
        Value value;
        value.length = static_cast<std::uint8_t>(std::strlen(text));
        std::memcpy(value.bytes.data(), text, value.length);
        return value;
    }

    // The value of a number: sixteen bytes, which differ from those of other numbers.
    static Value of_number(std::uint32_t number) {
        constexpr auto spread = static_cast<unsigned __int128>(0x9e37'79b9'7f4a'7c15) << 64 | 0xf39c'c060'5ced'c835;
        const unsigned __int128 bytes = number * spread;
        Value value;
        value.length = sizeof bytes;
        std::memcpy(value.bytes.data(), &bytes, sizeof bytes);
        return value;
    }
};

// 64-bit FNV-1a.
inline std::uint64_t hash_of(const Key& key) {
    std::uint64_t hash = 0xcbf2'9ce4'8422'2325;
    for (int place = 0; place < key.length; ++place) {
        hash = (hash ^ static_cast<unsigned char>(key.bytes[place])) * 0x100'0000'01b3;
    }
    return hash;
}

struct KeyHash {
    std::size_t operator()(const Key& key) const { return hash_of(key); }
};

}  // namespace bench
