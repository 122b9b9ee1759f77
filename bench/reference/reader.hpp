// SPDX-License-Identifier: MIT
// Readers: get and gets. They take no bucket's bit, and count themselves in the segment that they read.
#pragma once

#include "table.hpp"

#include <cstdint>

namespace reference {

// How often a call tries before it answers that others were at work.
constexpr unsigned most_tries = 64;

enum class Read { Found, Miss, Busy };

class Reader {
public:
    Reader(Table& table, const bench::Key& key, std::uint32_t now) : table_(table), key_(key), now_(now), tag_(0) {
        const Word hash = bench::hash_of(key);
        tag_ = tag_of(hash);
        place_ = {table.bucket_of(hash), 1};
        home_ = place_.bucket;
    }

    Read get(std::uint32_t draw, bench::Value& value) {
        const Read found = find();
        if (found == Read::Found) {
            read_value(value);
            count_hit(draw);
            leave();
        }
        return found;
    }

    // The value and the version of the bucket, of one moment.
    Read gets(std::uint32_t draw, bench::Value& value, std::uint32_t& version) {
        while (true) {
            const Read found = find();
            if (found != Read::Found) {
                return found;
            }
            read_value(value);
            const Word information = table_.information(home_);
            const Word word = table_.item(place_);
            const bool is_taken = information & 1;
            if (!is_taken && is_same_item(word, word_)) {
                count_hit(draw);
                leave();
                version = static_cast<std::uint32_t>(information >> 32);
                return Read::Found;
            }
            leave();
            if (is_taken || tag_in(word) == tag_) {
                ++tries_;
            } else if (!table_.go_on(place_, word)) {
                return Read::Miss;
            }
        }
    }

private:
    // Goes along the chain, from `place_` on, to an item of the key. Where one is found the reader is
    // in its segment, and the item's deadline hasn't come.
    Read find() {
        while (true) {
            Word word = table_.item(place_);
            while (tag_in(word) == tag_) {
                if (tries_ == most_tries) {
                    return Read::Busy;
                }
                const std::uint32_t deadline = enter(word);
                const Word again = table_.item(place_);
                if (is_same_item(word, again)) {
                    word_ = again;
                    if (has_key()) {
                        return answer_by(deadline);
                    }
                    leave();
                    break;
                }
                leave();
                word = again;
                ++tries_;
            }
            if (!table_.go_on(place_, word)) {
                return Read::Miss;
            }
        }
    }

    Read answer_by(std::uint32_t deadline) {
        if (deadline > now_) {
            return Read::Found;
        }
        leave();
        return Read::Miss;
    }

    // Into the segment of an item, whose deadline it answers.
    std::uint32_t enter(Word word) {
        segment_ = row_in(word).segment;
        return static_cast<std::uint32_t>(table_.segment(segment_).fetch_add(1) >> 32);
    }

    void leave() { table_.segment(segment_).fetch_sub(1); }

    bool has_key() {
        row_ = table_.row(row_in(word_));
        header_ = row_[0];
        return (header_ & 0xff) == key_.words[0] && row_[1] == key_.words[1] && row_[2] == key_.words[2] &&
               row_[3] == key_.words[3];
    }

    void read_value(bench::Value& value) { value = value_in({header_, 0, 0, 0, row_[4], row_[5], row_[6], row_[7]}); }

    void count_hit(std::uint32_t draw) {
        const std::uint32_t frequency = frequency_in(word_);
        const std::uint32_t next = next_frequency(frequency, draw);
        if (next > frequency) {
            Word expected = word_;
            table_.item(place_).compare_exchange_strong(expected, with_frequency(word_, next));
        }
    }

    Table& table_;
    KeyWords key_;
    std::uint32_t now_;
    Word tag_;
    std::uint32_t home_ = 0;
    Place place_{};
    unsigned tries_ = 0;
    // Of the item that was found.
    Word word_ = 0;
    Word header_ = 0;
    std::uint32_t segment_ = 0;
    std::atomic<Word>* row_ = nullptr;
};

}  // namespace reference
