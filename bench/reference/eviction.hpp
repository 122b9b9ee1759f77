// SPDX-License-Identifier: MIT
// Segments taken out of use, key by key, and filled anew.
#pragma once

#include "writer.hpp"

#include <cstdint>
#include <optional>

namespace reference {

class Eviction {
public:
    Eviction(Table& table, Pass& pass) : table_(table), pass_(pass) {}

    // False where a bucket stayed taken; calling again goes on.
    bool evict(std::uint32_t number) {
        Segment* segment = pass_.segment(number);
        if (segment == nullptr || segment->state != SegmentState::InUse) {
            return segment != nullptr;
        }
        if (pass_.current() == number) {
            pass_.set_current(std::nullopt);
        }
        for (std::uint32_t row = 0; row < segment->used; ++row) {
            if (!evict_row({number, row})) {
                return false;
            }
        }
        segment->state = SegmentState::Evicted;
        return true;
    }

    // False where the segment isn't the pass's, is in use, or has a reader.
    bool refill(std::uint32_t number, std::uint32_t deadline) {
        Segment* segment = pass_.segment(number);
        if (segment == nullptr || segment->state == SegmentState::InUse) {
            return false;
        }
        Word unread = Word{segment->deadline} << 32;
        if (!table_.segment(number).compare_exchange_strong(unread, Word{deadline} << 32)) {
            return false;
        }
        *segment = {SegmentState::InUse, 0, deadline};
        pass_.set_current(number);
        return true;
    }

private:
    bool evict_row(RowPlace place) {
        const Word hash = bench::hash_of(key_of(place));
        const std::uint32_t bucket = table_.bucket_of(hash);
        const Word sought = item_word(tag_of(hash), place);
        if (!find(bucket, sought)) {
            return true;
        }
        Bit bit(table_, bucket);
        if (!bit.is_taken()) {
            return false;
        }
        if (auto target = find(bucket, sought)) {
            while (!table_.item(target->place).compare_exchange_strong(target->word, 0)) {
            }
        }
        return true;
    }

    bench::Key key_of(RowPlace place) {
        const std::atomic<Word>* row = table_.row(place);
        return key_in({row[0], row[1], row[2], row[3], 0, 0, 0, 0});
    }

    // The word of a chain that is this item.
    std::optional<Target> find(std::uint32_t bucket, Word sought) {
        Place place{bucket, 1};
        while (true) {
            const Word word = table_.item(place);
            if (is_same_item(word, sought)) {
                return Target{place, word};
            }
            if (!table_.go_on(place, word)) {
                return std::nullopt;
            }
        }
    }

    Table& table_;
    Pass& pass_;
};

}  // namespace reference
