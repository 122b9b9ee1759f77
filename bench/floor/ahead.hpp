// SPDX-License-Identifier: MIT
// What the floor loads ahead where several keys are at hand: their buckets, then the rows with their tags.
#pragma once

#include "table.hpp"

#include <array>

namespace lean {

constexpr unsigned at_once = 16;

class Ahead {
public:
    explicit Ahead(Table& table) : table_(table) {}

    // Of at most `at_once` keys. It leaves their hashes.
    void look(const bench::Key* keys, unsigned count, std::array<Word, at_once>& hashes) {
        Places now;
        for (unsigned at = 0; at < count; ++at) {
            hashes[at] = bench::hash_of(keys[at]);
            now.add(table_.bucket_of(hashes[at]), tag_of(hashes[at]));
        }
        Places rows;
        for (unsigned round = 0; round < longest_chain && now.count != 0; ++round) {
            touch(now);
            Places chained;
            for (unsigned at = 0; at < now.count; ++at) {
                seek(now.cells[at], now.tags[at], rows, chained);
            }
            now = chained;
        }
        touch(rows);
    }

private:
    struct Places {
        std::array<Cell*, at_once> cells;
        std::array<Word, at_once> tags;
        unsigned count = 0;

        ALWAYS_INLINE void add(Cell* cell, Word tag, bool is_there = true) {
            cells[count] = cell;
            tags[count] = tag;
            count += is_there;
        }
    };

    // Loads the ends of buckets or rows. They lie across two lines.
    static void touch(const Places& places) {
        for (unsigned at = 0; at < places.count; ++at) {
            (void)places.cells[at][0].load();
            (void)places.cells[at][words_of_row - 1].load();
        }
    }

    // The row with the tag, or the bucket in which the chain goes on. No branch depends on a word.
    ALWAYS_INLINE void seek(Cell* bucket, Word tag, Places& rows, Places& chained) {
        Word found = 0, word = 0;
        for (unsigned at = 1; at <= items_of_bucket; ++at) {
            word = bucket[at];
            found = has_tag(word, tag) ? word : found;
        }
        const bool is_row = found != 0 && table_.has_row(found);
        const bool goes_on = found == 0 && is_chain(word) && word <= table_.sizes.overflow;
        if (rows.count < at_once) {
            rows.add(Table::row_of(table_.segment_of(is_row ? found : 0), is_row ? found : 0), tag, is_row);
        }
        chained.add(table_.bucket_behind(goes_on ? word : 1), tag, goes_on);
    }

    Table& table_;
};

}  // namespace lean
