// SPDX-License-Identifier: MIT
// The commands of the measure: which keys are drawn, and what is asked of them.
#pragma once

#include "store.hpp"

#include <algorithm>
#include <array>
#include <chrono>
#include <cstdint>
#include <optional>
#include <string_view>
#include <vector>

namespace bench {

// Numbers of 24 bits at random, by a linear congruential generator. The measuring program of the
// index has the same one.
class Generator {
public:
    explicit Generator(std::uint32_t seed) : state_(seed) {}

    std::uint32_t next() {
        state_ = state_ * 1'664'525 + 1'013'904'223;
        return state_ >> 8;
    }

private:
    std::uint32_t state_;
};

// How often each key comes: all alike, or by Zipf's law with the exponent 0.99, key 0 the most.
//
// The weight of rank i + 1 is that of rank i times (100 i + 1) / (100 (i + 1)), for i from 1. That is
// i^-0.99 up to a factor which lies within one in a hundred of a constant, and takes no floats.
class Draws {
public:
    Draws(std::uint32_t keys, bool is_zipf) : keys_(keys) {
        std::uint64_t weight = std::uint64_t{1} << 48;
        std::uint64_t sum = 0;
        for (std::uint64_t rank = 1; is_zipf && rank <= keys; ++rank) {
            sum += weight;
            sums_.push_back(sum);
            weight = weight * (100 * rank + 1) / (100 * (rank + 1));
        }
    }

    std::uint32_t next(Generator& generator) const {
        if (sums_.empty()) {
            return generator.next() % keys_;
        }
        const std::uint64_t high = generator.next();
        const std::uint64_t point = high << 24 | generator.next();
        const auto target = static_cast<std::uint64_t>((static_cast<unsigned __int128>(point) * sums_.back()) >> 48);
        return static_cast<std::uint32_t>(std::upper_bound(sums_.begin(), sums_.end(), target) - sums_.begin());
    }

private:
    std::uint32_t keys_;
    std::vector<std::uint64_t> sums_;
};

enum class Kind { Get, Gets, Set, Add, Replace, Cas, Delete, Modify, Fetch };

// What the commands of a mix are. A fetch is a get, and a put if it missed.
enum class Mix { Sets, Replaces, Gets, Mixed, A, B, C, F, Fetches, Gets16, Mixed16, Gets16Apart, Mixed16Apart };

inline std::optional<Mix> mix_named(std::string_view name) {
    constexpr std::string_view names[] = {"sets", "replaces", "gets",   "mixed",   "a",           "b",           "c",
                                          "f",    "fetches",  "gets16", "mixed16", "gets16apart", "mixed16apart"};
    const auto found = std::find(std::begin(names), std::end(names), name);
    return found == std::end(names) ? std::nullopt : std::optional(static_cast<Mix>(found - std::begin(names)));
}

// So many commands are at hand at a time, in the mixes of sixteen.
constexpr unsigned piece = 16;

inline bool is_in_pieces(Mix mix) { return mix >= Mix::Gets16; }

// Of eight commands of the mixed load four are gets, and one each a gets, a set, a delete, and an
// add, a replace or a cas. The mixes of one letter are YCSB's.
inline Kind kind_of(Mix mix, std::uint32_t draw) {
    switch (mix) {
        case Mix::Sets: return Kind::Set;
        case Mix::Replaces: return Kind::Replace;
        case Mix::Gets:
        case Mix::Gets16:
        case Mix::Gets16Apart:
        case Mix::C: return Kind::Get;
        case Mix::A: return draw % 100 < 50 ? Kind::Get : Kind::Set;
        case Mix::B: return draw % 100 < 95 ? Kind::Get : Kind::Set;
        case Mix::F: return draw % 100 < 50 ? Kind::Get : Kind::Modify;
        case Mix::Fetches: return Kind::Fetch;
        case Mix::Mixed:
        case Mix::Mixed16:
        case Mix::Mixed16Apart: break;
    }
    constexpr Kind sixth[] = {Kind::Add, Kind::Replace, Kind::Cas};
    switch (draw % 8) {
        case 4: return Kind::Gets;
        case 5: return Kind::Set;
        case 6: return sixth[draw / 8 % 3];
        case 7: return Kind::Delete;
        default: return Kind::Get;
    }
}

// The values from which each write draws one.
constexpr std::uint32_t value_count = 64;

inline std::vector<Value> values_to_draw() {
    std::vector<Value> values;
    for (std::uint32_t number = 1; number <= value_count; ++number) {
        values.push_back(Value::of_number(number));
    }
    return values;
}

// What all threads go by.
struct Load {
    Mix mix;
    // Each command is timed whose place is a multiple of this; none is if it is 0.
    std::uint32_t sample;
    std::vector<Value> values;

    // The value that a number at random, of 24 bits, chooses.
    const Value& drawn(std::uint32_t draw) const { return values[draw >> 18]; }
};

// What the answers of one thread came to.
struct Tally {
    std::uint64_t hits = 0, misses = 0, busy = 0, full = 0;
    // The lengths and first bytes of the values that were read, added up, so that the compiler leaves no reading out.
    std::uint64_t read = 0;

    void add(const Value& value) { read += value.length + static_cast<unsigned char>(value.bytes[0]); }

    void count(Answer answer) {
        switch (answer) {
            case Answer::Hit: ++hits; break;
            case Answer::Miss: ++misses; break;
            case Answer::Busy: ++busy; break;
            case Answer::NoRoom:
            case Answer::Full: ++full; break;
        }
    }

    void add(const Tally& other) {
        hits += other.hits;
        misses += other.misses;
        busy += other.busy;
        full += other.full;
        read += other.read;
    }
};

// A thread at work on a store. A client is what the store gives one thread.
template <class Client>
class Worker {
public:
    Worker(Client client, std::uint32_t seed) : client_(std::move(client)), generator_(seed) {}

    // Draws the keys of the next round, which is not timed.
    void draw_keys(const Draws& draws, std::uint32_t times) {
        numbers_.clear();
        for (std::uint32_t count = 0; count < times; ++count) {
            numbers_.push_back(draws.next(generator_));
        }
    }

    // Makes the commands of a round.
    void work(const Load& load) {
        tally = {};
        samples.clear();
        if (is_in_pieces(load.mix)) {
            work_in_pieces(load);
        } else {
            work_one_by_one(load);
        }
    }

    void set(const Key& key, const Value& value) { tally.count(client_.write(Write::Set, key, value, 0)); }

    Tally tally;
    // The nanoseconds that each timed command of the last round took.
    std::vector<std::uint64_t> samples;

private:
    void work_one_by_one(const Load& load) {
        using Clock = std::chrono::steady_clock;
        std::size_t next = load.sample == 0 ? numbers_.size() : 0;
        for (std::size_t place = 0; place < numbers_.size(); ++place) {
            const Key key = Key::of_number(numbers_[place]);
            if (place != next) {
                serve(load, key);
                continue;
            }
            const auto start = Clock::now();
            serve(load, key);
            const std::chrono::nanoseconds time = Clock::now() - start;
            samples.push_back(static_cast<std::uint64_t>(time.count()));
            next += load.sample;
        }
    }

    // The keys of a piece are known before its first command. A client that can gets all of them by one call, or looks
    // ahead at all of them. The others make single commands.
    void work_in_pieces(const Load& load) {
        std::array<Key, piece> at_hand;
        for (std::size_t start = 0; start + piece <= numbers_.size(); start += piece) {
            for (unsigned place = 0; place < piece; ++place) {
                at_hand[place] = Key::of_number(numbers_[start + place]);
            }
            if constexpr (requires(Value * found, Answer * answers) {
                              client_.get_many(at_hand.data(), piece, generator_, found, answers);
                          }) {
                if (load.mix == Mix::Gets16) {
                    get_together(at_hand);
                    continue;
                }
            }
            if constexpr (requires { client_.look_ahead(at_hand.data(), piece); }) {
                if (load.mix == Mix::Gets16 || load.mix == Mix::Mixed16) {
                    client_.look_ahead(at_hand.data(), piece);
                }
            }
            for (const Key& key : at_hand) {
                serve(load, key);
            }
        }
    }

    void get_together(const std::array<Key, piece>& keys) {
        std::array<Value, piece> found;
        std::array<Answer, piece> answers;
        client_.get_many(keys.data(), piece, generator_, found.data(), answers.data());
        for (unsigned place = 0; place < piece; ++place) {
            tally.count(answers[place]);
            if (answers[place] == Answer::Hit) {
                tally.add(found[place]);
            }
        }
    }

    // Makes a drawn command, and counts its answer.
    void serve(const Load& load, const Key& key) {
        const std::uint32_t draw = generator_.next();
        tally.count(serve(kind_of(load.mix, draw), key, load.drawn(draw), draw));
    }

    Answer serve(Kind kind, const Key& key, const Value& value, std::uint32_t draw) {
        switch (kind) {
            case Kind::Get: return get(key, draw);
            case Kind::Gets: return gets(key, draw);
            case Kind::Set: return client_.write(Write::Set, key, value, 0);
            case Kind::Add: return client_.write(Write::Add, key, value, 0);
            case Kind::Replace: return client_.write(Write::Replace, key, value, 0);
            case Kind::Cas: return client_.write(Write::Cas, key, value, version_);
            case Kind::Delete: return client_.remove(key);
            case Kind::Fetch: return fetch(key, value, draw);
            case Kind::Modify: break;
        }
        const Answer answer = gets(key, draw);
        return answer == Answer::Hit ? client_.write(Write::Cas, key, value, version_) : answer;
    }

    Answer get(const Key& key, std::uint32_t draw) {
        Value found;
        const Answer answer = client_.get(key, draw, found);
        if (answer == Answer::Hit) {
            tally.add(found);
        }
        return answer;
    }

    // A get, and a put if it missed. A client that does both by one call says whether the key was found.
    Answer fetch(const Key& key, const Value& value, std::uint32_t draw) {
        if constexpr (requires(Value & found) { client_.fetch(key, value, found); }) {
            Value found;
            const Answer answer = client_.fetch(key, value, found);
            if (answer == Answer::Hit) {
                tally.add(found);
            }
            return answer;
        } else {
            const Answer answer = get(key, draw);
            if (answer != Answer::Miss) {
                return answer;
            }
            const Answer put = client_.write(Write::Set, key, value, 0);
            return put == Answer::Hit ? Answer::Miss : put;
        }
    }

    Answer gets(const Key& key, std::uint32_t draw) {
        Value found;
        const Answer answer = client_.gets(key, draw, found, version_);
        if (answer == Answer::Hit) {
            tally.add(found);
        }
        return answer;
    }

    Client client_;
    Generator generator_;
    std::uint32_t version_ = 0;
    std::vector<std::uint32_t> numbers_;
};

}  // namespace bench
