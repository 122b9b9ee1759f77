// SPDX-License-Identifier: MIT
// Writers of the floor: set, add, replace, cas and delete, and how a client makes room for them.
#pragma once

#include "table.hpp"

#include <cstdint>
#include <vector>

namespace lean {

using bench::Answer;

// Where a key's item stands, or where it may come. Then the word is 0.
struct Target {
    Cell* place = nullptr;
    Word word = 0;
    // The last place of the chain, and how many buckets this has.
    Cell* end = nullptr;
    Word end_word = 0;
    unsigned buckets = 1;
};

class Writer {
public:
    Writer(Table& table, std::uint32_t number)
        : table_(&table), first_(number * table.sizes.segments), is_used_(table.sizes.segments) {}

    ALWAYS_INLINE Answer write(bench::Write write, const bench::Key& key, const bench::Value& value,
                               std::uint32_t expected) {
        const Word hash = bench::hash_of(key);
        if (left_ == 0) [[unlikely]] {
            refill();
        }
        const Answer answer = write_once(write, key, hash, value, expected);
        const bool is_again = write == bench::Write::Set && (answer == Answer::Busy || answer == Answer::Full);
        return is_again ? set_again(key, hash, value, answer) : answer;
    }

    ALWAYS_INLINE Answer remove(const bench::Key& key) {
        const Word hash = bench::hash_of(key);
        Cell* home = table_->bucket_of(hash);
        if (!take(home)) [[unlikely]] {
            return Answer::Busy;
        }
        const Target target = search(key, hash, home);
        if (!is_present(target)) {
            give_back(home);
            return Answer::Miss;
        }
        link(target, 0);
        release(home);
        return Answer::Hit;
    }

private:
    static ALWAYS_INLINE bool take(Cell* home) {
        for (unsigned tries = 0; tries < most_tries; ++tries) {
            if ((home->fetch_or(writing) & writing) == 0) [[likely]] {
                return true;
            }
        }
        return false;
    }

    // The bit goes by one addition: with a version more, or where nothing was written.
    static ALWAYS_INLINE void release(Cell* home) { home->fetch_add(one_version - writing); }
    static ALWAYS_INLINE void give_back(Cell* home) { home->fetch_sub(writing); }

    ALWAYS_INLINE Target search(const bench::Key& key, Word hash, Cell* bucket) {
        const Word tag = tag_of(hash);
        Target target;
        while (true) {
            Word word = 0;
            for (unsigned at = 1; at <= items_of_bucket; ++at) {
                word = bucket[at];
                if (has_tag(word, tag)) {
                    const Cell* row = Table::row_of(table_->segment_of(word), word);
                    if (has_key(row, *row, key)) [[likely]] {
                        return {bucket + at, word, nullptr, 0, 0};
                    }
                }
                if (word == 0 && target.place == nullptr) {
                    target.place = bucket + at;
                }
            }
            if (!is_chain(word)) [[likely]] {
                target.end = bucket + items_of_bucket;
                target.end_word = word;
                return target;
            }
            ++target.buckets;
            bucket = table_->bucket_behind(word);
        }
    }

    // Whether an item stands there whose deadline hasn't come. Its segment's deadline is read by a count of readers.
    ALWAYS_INLINE bool is_present(const Target& target) {
        if (target.word == 0) {
            return false;
        }
        Cell* segment = table_->segment_of(target.word);
        const Word deadline = segment->fetch_add(1) >> 32;
        segment->fetch_sub(1);
        return deadline != 0;
    }

    // Readers may raise the frequency meanwhile.
    static ALWAYS_INLINE void link(const Target& target, Word word) {
        Word old = target.word;
        while (!target.place->compare_exchange_strong(old, word)) {
        }
    }

    // Only words that differ are stored.
    ALWAYS_INLINE void fill(const bench::Key& key, const bench::Value& value) {
        Word words[words_of_row] = {key.length | Word{value.length} << 8};
        std::memcpy(words + 1, key.bytes.data(), sizeof key.bytes);
        std::memcpy(words + 4, value.bytes.data(), sizeof value.bytes);
        for (unsigned at = 0; at < words_of_row; ++at) {
            if (row_[at] != words[at]) {
                row_[at] = words[at];
            }
        }
    }

    ALWAYS_INLINE bool is_allowed(bench::Write write, const Target& target, Word information, std::uint32_t expected) {
        if (write == bench::Write::Set) {
            return true;
        }
        const bool is_there = is_present(target);
        switch (write) {
            case bench::Write::Add: return !is_there;
            case bench::Write::Cas: return is_there && information >> 32 == expected;
            default: return is_there;
        }
    }

    ALWAYS_INLINE Answer write_once(bench::Write write, const bench::Key& key, Word hash, const bench::Value& value,
                                    std::uint32_t expected) {
        Cell* home = table_->bucket_of(hash);
        if (!take(home)) [[unlikely]] {
            return Answer::Busy;
        }
        Target target = search(key, hash, home);
        if (!is_allowed(write, target, *home, expected)) {
            give_back(home);
            return Answer::Miss;
        }
        if (target.place == nullptr && !grow(target)) [[unlikely]] {
            give_back(home);
            return Answer::Full;
        }
        fill(key, value);
        link(target, tag_of(hash) | item_);
        row_ += words_of_row;
        ++item_;
        --left_;
        release(home);
        return Answer::Hit;
    }

    // A set is made again while it is busy, 16 times at most. If its bucket is full the next segment is evicted first.
    [[gnu::noinline, gnu::cold]] Answer set_again(const bench::Key& key, Word hash, const bench::Value& value,
                                                  Answer answer) {
        for (int tries = 1; answer == Answer::Busy && tries < 16; ++tries) {
            answer = write_once(bench::Write::Set, key, hash, value, 0);
        }
        if (answer == Answer::Full) {
            evict(next_segment());
            answer = write_once(bench::Write::Set, key, hash, value, 0);
        }
        return answer;
    }

    // Hangs a bucket more onto the chain. The word that stood last stands first in it.
    [[gnu::noinline]] bool grow(Target& target) {
        if (target.buckets == longest_chain) {
            return false;
        }
        Word drawn = 0;
        while (drawn < table_->sizes.overflow && !table_->overflow_drawn().compare_exchange_strong(drawn, drawn + 1)) {
        }
        if (drawn >= table_->sizes.overflow) {
            return false;
        }
        Cell* bucket = table_->bucket_behind(drawn + 1);
        Word word = target.end_word;
        do {
            bucket[1] = word;
        } while (!target.end->compare_exchange_strong(word, drawn + 1));
        target.place = bucket + 2;
        target.word = 0;
        return true;
    }

    // The segment after the current one, in a ring.
    std::uint32_t next_segment() const {
        return has_current_ && current_ + 1 < first_ + table_->sizes.segments ? current_ + 1 : first_;
    }

    [[gnu::noinline, gnu::cold]] void refill() {
        const std::uint32_t segment = next_segment();
        evict(segment);
        // No key of the measure expires.
        *table_->segment(segment) = Word{UINT32_MAX} << 32;
        current_ = segment;
        has_current_ = true;
        is_used_[segment - first_] = true;
        row_ = table_->segment(segment) + 1;
        item_ = one_hit | Word{segment} << 20;
        left_ = table_->sizes.rows;
    }

    void evict(std::uint32_t segment) {
        if (!is_used_[segment - first_]) {
            return;
        }
        is_used_[segment - first_] = false;
        const std::uint32_t used = table_->sizes.rows - (has_current_ && segment == current_ ? left_ : 0);
        for (std::uint32_t row = 0; row < used; ++row) {
            evict_row(Word{segment} << 20 | row);
        }
    }

    void evict_row(Word place) {
        const Cell* row = Table::row_of(table_->segment_of(place), place);
        bench::Key key;
        key.length = static_cast<std::uint8_t>(row[0]);
        const Word words[] = {row[1], row[2], row[3]};
        std::memcpy(key.bytes.data(), words, sizeof words);
        const Word hash = bench::hash_of(key);
        Cell* home = table_->bucket_of(hash);
        const Word item = tag_of(hash) | place;
        if (is_same_item(search(key, hash, home).word, item) && take(home)) {
            if (const Target target = search(key, hash, home); is_same_item(target.word, item)) {
                link(target, 0);
            }
            give_back(home);
        }
    }

    Table* table_;
    std::uint32_t first_;
    std::vector<bool> is_used_;
    std::uint32_t current_ = 0;
    bool has_current_ = false;
    // The next row, its item without a tag, and how many rows are left in its segment.
    Cell* row_ = nullptr;
    Word item_ = 0;
    std::uint32_t left_ = 0;
};

}  // namespace lean
