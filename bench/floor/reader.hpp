// SPDX-License-Identifier: MIT
// Readers of the floor: get and gets.
#pragma once

#include "table.hpp"

#include <array>
#include <cstdint>

namespace lean {

using bench::Answer;

// 2^64 / n, rounded up. A number of 32 bits is a multiple of n exactly where its product with that, modulo 2^64, is less
// than that. So no hit divides.
struct Inverses {
    std::array<Word, 256> of{};
    constexpr Inverses() {
        for (Word n = 2; n < of.size(); ++n) {
            of[n] = ~Word{0} / n + 1;
        }
    }
};
inline constexpr Inverses inverses;

class Reader {
public:
    ALWAYS_INLINE Reader(Table& table, const bench::Key& key, Word hash)
        : table_(table), key_(key), tag_(tag_of(hash)), home_(table.bucket_of(hash)), place_(home_ + 1) {}

    ALWAYS_INLINE Answer get(std::uint32_t draw, bench::Value& value) {
        const Answer answer = find();
        if (answer == Answer::Hit) [[likely]] {
            read(value);
            count_hit(draw);
            leave();
        }
        return answer;
    }

    // The value and the version of the bucket, of one moment.
    ALWAYS_INLINE Answer gets(std::uint32_t draw, bench::Value& value, std::uint32_t& version) {
        while (true) {
            const Answer answer = find();
            if (answer != Answer::Hit) {
                return answer;
            }
            read(value);
            const Word information = *home_, word = *place_;
            const bool is_taken = (information & writing) != 0;
            if (!is_taken && is_same_item(word, word_)) [[likely]] {
                count_hit(draw);
                leave();
                version = static_cast<std::uint32_t>(information >> 32);
                return Answer::Hit;
            }
            leave();
            if (is_taken || has_tag(word, tag_)) {
                ++tries_;
            } else if (place_ = table_.next(place_, word); place_ == nullptr) {
                return Answer::Miss;
            }
        }
    }

private:
    // Goes along the chain, to an item of the key. Where one is found the reader is in its segment.
    ALWAYS_INLINE Answer find() {
        while (place_ != nullptr) {
            Word word = *place_;
            while (has_tag(word, tag_)) {
                if (tries_ == most_tries) [[unlikely]] {
                    return Answer::Busy;
                }
                segment_ = table_.segment_of(word);
                const Word deadline = segment_->fetch_add(1) >> 32;
                word_ = *place_;
                if (is_same_item(word, word_)) [[likely]] {
                    row_ = Table::row_of(segment_, word_);
                    header_ = *row_;
                    if (has_key(row_, header_, key_)) [[likely]] {
                        return answer_by(deadline);
                    }
                    leave();
                    break;
                }
                leave();
                word = word_;
                ++tries_;
            }
            place_ = table_.next(place_, word);
        }
        return Answer::Miss;
    }

    // The clock shows 0.
    ALWAYS_INLINE Answer answer_by(Word deadline) {
        if (deadline == 0) [[unlikely]] {
            leave();
            return Answer::Miss;
        }
        return Answer::Hit;
    }

    ALWAYS_INLINE void read(bench::Value& value) const {
        const Word words[] = {row_[4], row_[5], row_[6], row_[7]};
        std::memcpy(value.bytes.data(), words, sizeof words);
        value.length = static_cast<std::uint8_t>(header_ >> 8);
    }

    // Below 16 each hit counts, from 16 to 254 one in `frequency`, and 255 stays.
    ALWAYS_INLINE void count_hit(std::uint32_t draw) const {
        const Word frequency = word_ >> 44 & 0xff;
        const Word inverse = inverses.of[frequency];
        if (frequency < 16 || (frequency < 255 && draw * inverse < inverse)) {
            Word expected = word_;
            place_->compare_exchange_strong(expected, word_ + one_hit);
        }
    }

    ALWAYS_INLINE void leave() const { segment_->fetch_sub(1); }

    Table& table_;
    const bench::Key& key_;
    const Word tag_;
    Cell* const home_;
    Cell* place_;
    Cell* segment_ = nullptr;
    Cell* row_ = nullptr;
    Word word_ = 0, header_ = 0;
    unsigned tries_ = 0;
};

}  // namespace lean
