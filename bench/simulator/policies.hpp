// SPDX-License-Identifier: MIT
// Caches of so many items of one size, by what they evict.
#pragma once

#include "trace.hpp"

#include <algorithm>
#include <array>
#include <cstdint>
#include <memory>
#include <queue>
#include <string_view>
#include <vector>

namespace simulator {

class Policy {
public:
    virtual ~Policy() = default;

    // Whether the key stands, of the command at this place of the trace.
    virtual bool get(Key key, std::size_t place) = 0;

    // Stores the key: after a get that missed, or by a set of its own.
    virtual void put(Key key, std::size_t place, bool is_after_get) = 0;
};

// The neighbours of each key in the queue where it stands.
struct Links {
    explicit Links(Key keys) : newer(keys), older(keys) {}

    std::vector<Key> newer, older;
};

constexpr Key none = UINT32_MAX;

class Queue {
public:
    explicit Queue(Links& links) : links_(&links) {}

    std::uint32_t size() const { return size_; }
    Key oldest() const { return oldest_; }

    // The key behind this one, and the oldest behind the newest.
    Key after(Key key) const { return links_->newer[key] == none ? oldest_ : links_->newer[key]; }
    bool is_newest(Key key) const { return links_->newer[key] == none; }

    void push(Key key) {
        links_->newer[key] = none;
        links_->older[key] = newest_;
        (newest_ == none ? oldest_ : links_->newer[newest_]) = key;
        newest_ = key;
        ++size_;
    }

    void remove(Key key) {
        const Key newer = links_->newer[key];
        const Key older = links_->older[key];
        (newer == none ? newest_ : links_->older[newer]) = older;
        (older == none ? oldest_ : links_->newer[older]) = newer;
        --size_;
    }

    Key pop() {
        const Key key = oldest_;
        remove(key);
        return key;
    }

private:
    Links* links_;
    Key newest_ = none, oldest_ = none;
    std::uint32_t size_ = 0;
};

// The least recently used goes.
class Lru : public Policy {
public:
    Lru(Key keys, std::uint32_t room) : room_(room), links_(keys), stands_(keys) {}

    bool get(Key key, std::size_t) override {
        if (stands_[key]) {
            queue_.remove(key);
            queue_.push(key);
        }
        return stands_[key];
    }

    void put(Key key, std::size_t place, bool) override {
        if (get(key, place)) {
            return;
        }
        if (queue_.size() == room_) {
            stands_[queue_.pop()] = false;
        }
        stands_[key] = true;
        queue_.push(key);
    }

private:
    std::uint32_t room_;
    Links links_;
    Queue queue_{links_};
    std::vector<char> stands_;
};

// A hand goes from the oldest to the newest, spares what was hit since it came by, and evicts the first that wasn't.
class Sieve : public Policy {
public:
    Sieve(Key keys, std::uint32_t room) : room_(room), links_(keys), stands_(keys), was_hit_(keys) {}

    bool get(Key key, std::size_t) override {
        was_hit_[key] = stands_[key];
        return stands_[key];
    }

    void put(Key key, std::size_t place, bool) override {
        if (get(key, place)) {
            return;
        }
        if (queue_.size() == room_) {
            evict();
        }
        stands_[key] = true;
        queue_.push(key);
    }

private:
    void evict() {
        Key key = hand_ == none ? queue_.oldest() : hand_;
        while (was_hit_[key]) {
            was_hit_[key] = false;
            key = queue_.after(key);
        }
        hand_ = queue_.is_newest(key) ? none : queue_.after(key);
        queue_.remove(key);
        stands_[key] = false;
    }

    std::uint32_t room_;
    Links links_;
    Queue queue_{links_};
    std::vector<char> stands_, was_hit_;
    Key hand_ = none;
};

// A small queue, a main one for what was hit twice in it, and a memory of what left the small one.
class S3Fifo : public Policy {
public:
    S3Fifo(Key keys, std::uint32_t room)
        : room_(room), small_room_(std::max(1u, room / 10)), links_(keys), where_(keys), hits_(keys), left_at_(keys) {}

    bool get(Key key, std::size_t) override {
        if (where_[key] != Where::Out && hits_[key] < most_hits) {
            ++hits_[key];
        }
        return where_[key] != Where::Out;
    }

    void put(Key key, std::size_t place, bool) override {
        if (get(key, place)) {
            return;
        }
        while (small_.size() + main_.size() >= room_) {
            evict();
        }
        hits_[key] = 0;
        const std::uint32_t main_room = room_ - small_room_;
        const bool is_remembered = left_at_[key] > 0 && now_ - left_at_[key] <= main_room;
        where_[key] = is_remembered ? Where::Main : Where::Small;
        (is_remembered ? main_ : small_).push(key);
        left_at_[key] = is_remembered ? 0 : left_at_[key];
    }

private:
    enum class Where : char { Out, Small, Main };
    static constexpr char most_hits = 3;

    void evict() {
        if (small_.size() <= small_room_ && main_.size() > 0) {
            return evict_from_main();
        }
        while (small_.size() > 0) {
            const Key key = small_.pop();
            if (hits_[key] < 2) {
                where_[key] = Where::Out;
                left_at_[key] = now_++;
                return;
            }
            hits_[key] = 0;
            where_[key] = Where::Main;
            main_.push(key);
            if (main_.size() > room_ - small_room_) {
                evict_from_main();
            }
        }
        evict_from_main();
    }

    void evict_from_main() {
        while (main_.size() > 0) {
            const Key key = main_.pop();
            if (hits_[key] == 0) {
                where_[key] = Where::Out;
                return;
            }
            --hits_[key];
            main_.push(key);
        }
    }

    std::uint32_t room_, small_room_;
    Links links_;
    Queue small_{links_}, main_{links_};
    std::vector<Where> where_;
    std::vector<char> hits_;
    // When each key left the small queue unhit, by a count of those that did; 0 if it didn't.
    std::vector<std::uint32_t> left_at_;
    std::uint32_t now_ = room_ - small_room_ + 1;
};

// Counts of keys up to 15, in a fixed space, halved now and then.
class Sketch {
public:
    explicit Sketch(std::uint32_t room) : period_(10 * std::uint64_t{room}) {
        std::uint32_t width = 1;
        while (width < 2 * room) {
            width *= 2;
        }
        mask_ = width - 1;
        rows_.fill(std::vector<std::uint8_t>(width));
    }

    std::uint8_t count(Key key) const {
        std::uint8_t least = most;
        for (unsigned row = 0; row < rows_.size(); ++row) {
            least = std::min(least, rows_[row][place(key, row)]);
        }
        return least;
    }

    void add(Key key) {
        const std::uint8_t least = count(key);
        for (unsigned row = 0; least < most && row < rows_.size(); ++row) {
            std::uint8_t& each = rows_[row][place(key, row)];
            each += each == least;
        }
        if (++added_ >= period_) {
            added_ /= 2;
            for (auto& row : rows_) {
                for (std::uint8_t& each : row) {
                    each /= 2;
                }
            }
        }
    }

private:
    static constexpr std::uint8_t most = 15;

    std::uint32_t place(Key key, unsigned row) const {
        std::uint64_t mixed = (key + std::uint64_t{1}) * 0x9e37'79b9'7f4a'7c15 + row * 0xbf58'476d'1ce4'e5b9;
        mixed = (mixed ^ (mixed >> 31)) * 0x94d0'49bb'1331'11eb;
        return static_cast<std::uint32_t>(mixed ^ (mixed >> 29)) & mask_;
    }

    std::array<std::vector<std::uint8_t>, 4> rows_;
    std::uint32_t mask_ = 0;
    std::uint64_t added_ = 0, period_;
};

// A window of a hundredth by last use. What leaves it enters the main part only if a sketch has counted it more often than
// what would go for it. The main part protects what is hit in it.
class TinyLfu : public Policy {
public:
    TinyLfu(Key keys, std::uint32_t room)
        : window_room_(std::max(1u, room / 100)), main_room_(room - window_room_), protected_room_(main_room_ * 8 / 10),
          sketch_(room), links_(keys), where_(keys) {}

    bool get(Key key, std::size_t) override {
        sketch_.add(key);
        if (where_[key] != Where::Out) {
            touch(key);
        }
        return where_[key] != Where::Out;
    }

    void put(Key key, std::size_t, bool is_after_get) override {
        if (!is_after_get) {
            sketch_.add(key);
        }
        if (where_[key] != Where::Out) {
            return touch(key);
        }
        to(Where::Window, key);
        if (window_.size() > window_room_) {
            admit(window_.pop());
        }
    }

private:
    enum class Where : char { Out, Window, Probation, Protected };

    Queue& queue(Where where) {
        return where == Where::Window ? window_ : where == Where::Probation ? probation_ : protected_;
    }

    void to(Where where, Key key) {
        where_[key] = where;
        queue(where).push(key);
    }

    void touch(Key key) {
        const Where from = where_[key];
        queue(from).remove(key);
        to(from == Where::Window ? from : Where::Protected, key);
        if (protected_.size() > protected_room_) {
            to(Where::Probation, protected_.pop());
        }
    }

    // One in 128 that are rather frequent is let in though it is no more frequent, against floods that are made on purpose.
    void admit(Key key) {
        if (probation_.size() + protected_.size() < main_room_) {
            return to(Where::Probation, key);
        }
        Queue& from = probation_.size() > 0 ? probation_ : protected_;
        const std::uint8_t count = sketch_.count(key);
        if (count > sketch_.count(from.oldest()) || (count >= 6 && generator_.below(128) == 0)) {
            where_[from.pop()] = Where::Out;
            to(Where::Probation, key);
        } else {
            where_[key] = Where::Out;
        }
    }

    std::uint32_t window_room_, main_room_, protected_room_;
    Sketch sketch_;
    Links links_;
    Queue window_{links_}, probation_{links_}, protected_{links_};
    std::vector<Where> where_;
    Generator generator_{7};
};

// The limit: it knows the trace, evicts what is got the latest, and doesn't store what isn't got before it is set again.
class Belady : public Policy {
public:
    Belady(const Trace& trace, std::uint32_t room)
        : room_(room), next_get_(trace.commands.size(), none), got_at_(trace.keys), stands_(trace.keys) {
        std::vector<Key> seen(trace.keys, none);
        for (std::size_t place = trace.commands.size(); place-- > 0;) {
            const auto [key, is_set] = trace.commands[place];
            const bool is_got = seen[key] != none && !trace.commands[seen[key]].is_set;
            next_get_[place] = is_got ? seen[key] : none;
            seen[key] = static_cast<Key>(place);
        }
    }

    bool get(Key key, std::size_t place) override {
        if (stands_[key]) {
            expect(key, next_get_[place]);
        }
        return stands_[key];
    }

    void put(Key key, std::size_t place, bool) override {
        if (get(key, place) || next_get_[place] == none) {
            return;
        }
        stands_[key] = true;
        ++size_;
        expect(key, next_get_[place]);
        while (size_ > room_) {
            evict();
        }
    }

private:
    void expect(Key key, Key place) {
        got_at_[key] = place;
        latest_.push({place, key});
    }

    // Of a key that was expected earlier or later before, entries are left.
    void evict() {
        const auto [place, key] = latest_.top();
        latest_.pop();
        if (stands_[key] && got_at_[key] == place) {
            stands_[key] = false;
            --size_;
        }
    }

    std::uint32_t room_, size_ = 0;
    // The place of the next command on the same key, if that is a get.
    std::vector<Key> next_get_, got_at_;
    std::vector<char> stands_;
    std::priority_queue<std::pair<Key, Key>> latest_;
};

inline std::unique_ptr<Policy> policy_named(std::string_view name, const Trace& trace, std::uint32_t room) {
    if (name == "LRU") return std::make_unique<Lru>(trace.keys, room);
    if (name == "SIEVE") return std::make_unique<Sieve>(trace.keys, room);
    if (name == "S3-FIFO") return std::make_unique<S3Fifo>(trace.keys, room);
    if (name == "W-TinyLFU") return std::make_unique<TinyLfu>(trace.keys, room);
    if (name == "Belady") return std::make_unique<Belady>(trace, room);
    return nullptr;
}

}  // namespace simulator
