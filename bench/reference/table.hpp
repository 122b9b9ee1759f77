// SPDX-License-Identifier: MIT
// The table: one run of 64-bit words, each read and changed by sequentially consistent operations.
#pragma once

#include "words.hpp"

#include <atomic>
#include <cstddef>
#include <cstdint>
#include <vector>

namespace reference {

struct Shape {
    std::uint32_t buckets;  // a power of two
    std::uint32_t overflow;
    std::uint32_t passes;
    std::uint32_t segments_each;
    std::uint32_t rows;
};

// A word of a bucket. Word 0 is the information word, words 1 to 7 have items.
struct Place {
    std::uint32_t bucket;
    std::uint32_t word;
};

class Table {
public:
    // The words are written here, so that every page is there before anything is timed.
    explicit Table(const Shape& shape)
        : shape_(shape), front_(1 + 8 * (std::size_t{shape.buckets} + shape.overflow)),
          segment_words_(1 + 8 * std::size_t{shape.rows}),
          words_(front_ + segment_words_ * shape.passes * shape.segments_each) {}

    const Shape& shape() const { return shape_; }

    std::atomic<Word>& counter() { return words_[0]; }

    std::atomic<Word>& information(std::uint32_t bucket) { return words_[1 + 8 * std::size_t{bucket}]; }

    std::atomic<Word>& item(Place place) { return words_[1 + 8 * std::size_t{place.bucket} + place.word]; }

    std::atomic<Word>& segment(std::uint32_t segment) { return words_[front_ + segment_words_ * segment]; }

    // The first of the eight words of a row.
    std::atomic<Word>* row(RowPlace place) {
        return &words_[front_ + segment_words_ * place.segment + 1 + 8 * std::size_t{place.row}];
    }

    bool has_bucket(std::uint32_t bucket) const { return bucket < shape_.buckets + shape_.overflow; }

    bool has_row(RowPlace place) const {
        return place.segment < shape_.passes * shape_.segments_each && place.row < shape_.rows;
    }

    // The bucket to which a hash belongs.
    std::uint32_t bucket_of(Word hash) const { return static_cast<std::uint32_t>(hash & (shape_.buckets - 1)); }

    // The word after one of a chain, by what stands in that; false at the end of the chain.
    bool go_on(Place& place, Word word) const {
        if (place.word < 7) {
            ++place.word;
            return true;
        }
        if (!is_chain(word)) {
            return false;
        }
        place = {shape_.buckets + overflow_in(word), 1};
        return true;
    }

private:
    Shape shape_;
    std::size_t front_;
    std::size_t segment_words_;
    std::vector<std::atomic<Word>> words_;
};

}  // namespace reference
