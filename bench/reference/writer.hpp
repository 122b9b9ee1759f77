// SPDX-License-Identifier: MIT
// Writers: set, add, replace, cas and delete, each under the bit of its bucket.
#pragma once

#include "../common/store.hpp"
#include "pass.hpp"
#include "reader.hpp"

#include <cstdint>
#include <optional>

namespace reference {

constexpr unsigned longest_chain = 4;

// The writer bit of a bucket, taken for the life of this value.
class Bit {
public:
    Bit(Table& table, std::uint32_t bucket) : information_(table.information(bucket)) {
        for (unsigned tries = 0; tries < most_tries && !is_taken_; ++tries) {
            is_taken_ = (information_.fetch_or(1) & 1) == 0;
        }
    }

    Bit(const Bit&) = delete;
    Bit& operator=(const Bit&) = delete;

    // A write that was stored, or a delete, counts the version up by one.
    ~Bit() {
        if (is_taken_) {
            information_.fetch_add(counts_ ? (Word{1} << 32) - 1 : ~Word{0});
        }
    }

    bool is_taken() const { return is_taken_; }
    void count() { counts_ = true; }

private:
    std::atomic<Word>& information_;
    bool is_taken_ = false;
    bool counts_ = false;
};

// Where a key's item stands or may come. The word is 0 where none stands.
struct Target {
    Place place;
    Word word;
};

class Writer {
public:
    Writer(Table& table, Pass& pass, const bench::Key& key, std::uint32_t now)
        : table_(table), pass_(pass), key_(key), hash_(bench::hash_of(key)), now_(now) {}

    bench::Answer write(bench::Write write, const bench::Value& value, std::uint32_t expected) {
        const auto row = pass_.next_row();
        if (!row) {
            return bench::Answer::NoRoom;
        }
        Bit bit(table_, bucket());
        if (!bit.is_taken()) {
            return bench::Answer::Busy;
        }
        auto target = find();
        if (write != bench::Write::Set && !is_allowed(write, is_present(target), expected)) {
            return bench::Answer::Miss;
        }
        if (!target) {
            target = grow();
        }
        if (!target) {
            return bench::Answer::Full;
        }
        fill(*row, value);
        put(*target, item_word(tag_of(hash_), *row));
        pass_.use_row();
        bit.count();
        return bench::Answer::Hit;
    }

    bench::Answer remove() {
        Bit bit(table_, bucket());
        if (!bit.is_taken()) {
            return bench::Answer::Busy;
        }
        const auto target = find();
        if (!is_present(target)) {
            return bench::Answer::Miss;
        }
        put(*target, 0);
        bit.count();
        return bench::Answer::Hit;
    }

private:
    std::uint32_t bucket() const { return table_.bucket_of(hash_); }

    // The item of the key, else the first empty word. Where there is neither, `end_` is the chain's last word.
    std::optional<Target> find() {
        std::optional<Target> empty;
        Place place{bucket(), 1};
        buckets_ = 1;
        while (true) {
            const Word word = table_.item(place);
            if (tag_in(word) == tag_of(hash_) && has_key(word)) {
                return Target{place, word};
            }
            if (word == 0 && !empty) {
                empty = Target{place, word};
            }
            end_ = {place, word};
            if (!table_.go_on(place, word)) {
                return empty;
            }
            buckets_ += place.word == 1;
        }
    }

    bool has_key(Word word) {
        const std::atomic<Word>* row = table_.row(row_in(word));
        return (row[0] & 0xff) == key_.words[0] && row[1] == key_.words[1] && row[2] == key_.words[2] &&
               row[3] == key_.words[3];
    }

    // Whether the key stands and its deadline hasn't come.
    bool is_present(const std::optional<Target>& target) {
        if (!target || target->word == 0) {
            return false;
        }
        std::atomic<Word>& segment = table_.segment(row_in(target->word).segment);
        const Word deadline = segment.fetch_add(1) >> 32;
        segment.fetch_sub(1);
        return now_ < deadline;
    }

    bool is_allowed(bench::Write write, bool is_present, std::uint32_t expected) {
        if (write == bench::Write::Add) {
            return !is_present;
        }
        return is_present && (write == bench::Write::Replace || table_.information(bucket()) >> 32 == expected);
    }

    // Makes the chain longer by an overflow bucket, to which the item of its last word moves.
    std::optional<Target> grow() {
        const auto overflow = buckets_ < longest_chain ? draw_overflow() : std::nullopt;
        if (!overflow) {
            return std::nullopt;
        }
        const std::uint32_t bucket = table_.shape().buckets + *overflow;
        Word word = end_.word;
        do {
            table_.item({bucket, 1}) = word;
        } while (!table_.item(end_.place).compare_exchange_strong(word, chain_word(*overflow)));
        return Target{{bucket, 2}, 0};
    }

    std::optional<std::uint32_t> draw_overflow() {
        Word number = 0;
        while (number < table_.shape().overflow) {
            if (table_.counter().compare_exchange_strong(number, number + 1)) {
                return static_cast<std::uint32_t>(number);
            }
        }
        return std::nullopt;
    }

    // A word that stands there already isn't stored again.
    void fill(RowPlace place, const bench::Value& value) {
        const Row words = row_of(key_, value);
        std::atomic<Word>* row = table_.row(place);
        for (int number = 0; number < 8; ++number) {
            if (row[number] != words[number]) {
                row[number] = words[number];
            }
        }
    }

    // Readers may change the frequency of an item meanwhile, so this is tried again.
    void put(const Target& target, Word word) {
        Word old = target.word;
        while (!table_.item(target.place).compare_exchange_strong(old, word)) {
        }
    }

    Table& table_;
    Pass& pass_;
    KeyWords key_;
    Word hash_;
    std::uint32_t now_;
    Target end_{};
    unsigned buckets_ = 1;
};

}  // namespace reference
