// SPDX-License-Identifier: MIT
// The words of the floor: those of the index (docs/FORMAT.md), with what is needed of them as rarely unpacked as can be.
#pragma once

#include "../common/bytes.hpp"
#include "../common/store.hpp"

#include <atomic>
#include <cstddef>
#include <cstdint>
#include <cstring>
#include <vector>

#define ALWAYS_INLINE inline __attribute__((always_inline))

namespace lean {

using Word = std::uint64_t;
// All accesses are sequentially consistent, as those of the index.
using Cell = std::atomic<Word>;

constexpr Word row_mask = (Word{1} << 20) - 1, segment_mask = (Word{1} << 24) - 1;
constexpr Word one_hit = Word{1} << 44, frequency_mask = Word{0xff} << 44, lowest_tag = Word{1} << 52;
// In a bucket's first word: its version, and the bit of who writes.
constexpr Word one_version = Word{1} << 32, writing = 1;
constexpr unsigned most_tries = 64, longest_chain = 4, items_of_bucket = 7, words_of_row = 8;

// The tag of a hash, where it stands in an item's word.
ALWAYS_INLINE Word tag_of(Word hash) { return hash >> 52 == 0 ? lowest_tag : hash & ~(lowest_tag - 1); }

// Whether a word is an item of this tag.
ALWAYS_INLINE bool has_tag(Word word, Word tag) { return (word ^ tag) >> 52 == 0; }

// Whether two words are the same item, whatever its frequency.
ALWAYS_INLINE bool is_same_item(Word left, Word right) { return ((left ^ right) & ~frequency_mask) == 0; }

// Whether a bucket goes on in another one.
ALWAYS_INLINE bool is_chain(Word word) { return word != 0 && word >> 52 == 0; }

class Table {
public:
    explicit Table(const bench::Plan& plan)
        : sizes(plan.sizes), segments(plan.threads * sizes.segments), words_of_segment(1 + words_of_row * sizes.rows),
          front_(1 + words_of_row * (std::size_t{sizes.buckets} + sizes.overflow)),
          held_(front_ + std::size_t{words_of_segment} * segments), words_(held_.data()) {}

    Cell& overflow_drawn() { return words_[0]; }
    ALWAYS_INLINE Cell* bucket(Word number) { return words_ + 1 + words_of_row * number; }
    ALWAYS_INLINE Cell* bucket_of(Word hash) { return bucket(hash & (sizes.buckets - 1)); }
    ALWAYS_INLINE Cell* bucket_behind(Word chain) { return bucket(sizes.buckets + chain - 1); }
    ALWAYS_INLINE Cell* segment(Word number) { return words_ + front_ + words_of_segment * number; }
    ALWAYS_INLINE Cell* segment_of(Word item) { return segment(item >> 20 & segment_mask); }
    static ALWAYS_INLINE Cell* row_of(Cell* segment, Word item) {
        return segment + 1 + words_of_row * (item & row_mask);
    }

    // Whether there is such a row. A word that was loaded ahead can be any.
    bool has_row(Word item) const { return (item >> 20 & segment_mask) < segments && (item & row_mask) < sizes.rows; }

    // The place behind one of a chain, which has this word, or null.
    ALWAYS_INLINE Cell* next(Cell* place, Word word) {
        const bool is_last = ((place - words_) & 7) == 0;
        if (!is_last) {
            return place + 1;
        }
        return is_chain(word) ? bucket_behind(word) + 1 : nullptr;
    }

    const bench::Sizes sizes;
    const std::uint32_t segments;
    const std::uint32_t words_of_segment;

private:
    std::size_t front_;
    std::vector<Cell> held_;
    Cell* words_;
};

// Whether a row whose first word is `header` has this key. All words are compared by one branch.
ALWAYS_INLINE bool has_key(const Cell* row, Word header, const bench::Key& key) {
    Word words[3];
    std::memcpy(words, key.bytes.data(), sizeof words);
    return ((row[1] ^ words[0]) | (row[2] ^ words[1]) | (row[3] ^ words[2]) | ((header ^ key.length) & 0xff)) == 0;
}

}  // namespace lean
