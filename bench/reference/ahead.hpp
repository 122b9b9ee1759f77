// SPDX-License-Identifier: MIT
// A look ahead: the words that calls on some keys are about to read are loaded together, so that the waits overlap.
#pragma once

#include "table.hpp"

#include <algorithm>
#include <array>
#include <atomic>
#include <cstdint>

namespace reference {

class Ahead {
public:
    explicit Ahead(Table& table) : table_(table) {}

    void look(const bench::Key* keys, unsigned count) {
        for (unsigned start = 0; start < count; start += piece) {
            look_at_piece(keys + start, std::min(piece, count - start));
        }
    }

private:
    // So many keys are looked ahead for at a time, along chains of at most four buckets.
    static constexpr unsigned piece = 16;
    static constexpr unsigned longest_chain = 4;

    enum class Next { Nothing, Bucket, Row };

    struct Seeker {
        Word tag = 0;
        Next next = Next::Nothing;
        std::uint32_t bucket = 0;
        RowPlace row{};
    };

    // In each round all places are known before the first load begins.
    void look_at_piece(const bench::Key* keys, unsigned count) {
        std::array<Seeker, piece> seekers;
        for (unsigned number = 0; number < count; ++number) {
            const Word hash = bench::hash_of(keys[number]);
            seekers[number] = {tag_of(hash), Next::Bucket, table_.bucket_of(hash), {}};
        }
        for (unsigned round = 0; round <= longest_chain; ++round) {
            load_all(seekers);
            bool is_over = true;
            for (Seeker& seeker : seekers) {
                seek(seeker);
                is_over = is_over && seeker.next == Next::Nothing;
            }
            if (is_over) {
                return;
            }
        }
    }

    // The eight words of a bucket or a row lie in two cache lines at most, that of the first and that of the last.
    void load_all(const std::array<Seeker, piece>& seekers) {
        std::array<std::atomic<Word>*, 2 * piece> places;
        for (unsigned number = 0; number < piece; ++number) {
            const Seeker& seeker = seekers[number];
            auto& first = places[2 * number];
            auto& last = places[2 * number + 1];
            if (seeker.next == Next::Bucket && table_.has_bucket(seeker.bucket)) {
                first = &table_.item({seeker.bucket, 1});
                last = &table_.item({seeker.bucket, 7});
            } else if (seeker.next == Next::Row && table_.has_row(seeker.row)) {
                first = table_.row(seeker.row);
                last = first + 7;
            } else {
                first = last = &table_.counter();
            }
        }
        for (std::atomic<Word>* place : places) {
            (void)place->load();
        }
    }

    // What follows a bucket: the row of an item with the key's tag, or the chain's next bucket.
    void seek(Seeker& seeker) {
        const bool is_bucket = seeker.next == Next::Bucket && table_.has_bucket(seeker.bucket);
        seeker.next = Next::Nothing;
        if (!is_bucket) {
            return;
        }
        Word found = 0;
        Word word = 0;
        for (std::uint32_t number = 1; number < 8; ++number) {
            word = table_.item({seeker.bucket, number});
            found = tag_in(word) == seeker.tag ? word : found;
        }
        if (found != 0) {
            seeker.next = Next::Row;
            seeker.row = row_in(found);
        } else if (is_chain(word)) {
            seeker.next = Next::Bucket;
            seeker.bucket = table_.shape().buckets + overflow_in(word);
        }
    }

    Table& table_;
};

}  // namespace reference
