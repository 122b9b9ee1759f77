// SPDX-License-Identifier: MIT
// Measures the reference: the same layout and the same steps as the index, written by hand.

#include "../common/measure.hpp"
#include "ahead.hpp"
#include "eviction.hpp"

#include <cstdint>
#include <memory>

namespace {

using bench::Answer;

// No key of the measure expires.
constexpr std::uint32_t never = UINT32_MAX;
constexpr std::uint32_t now = 0;

class Store {
public:
    using Membership = bench::NoMembership;

    class Client {
    public:
        Client(reference::Table& table, std::uint32_t number) : table_(&table), pass_(table.shape(), number) {}

        Answer get(const bench::Key& key, std::uint32_t draw, bench::Value& value) {
            return answer_of(reference::Reader(*table_, key, now).get(draw, value));
        }

        Answer gets(const bench::Key& key, std::uint32_t draw, bench::Value& value, std::uint32_t& version) {
            return answer_of(reference::Reader(*table_, key, now).gets(draw, value, version));
        }

        void look_ahead(const bench::Key* keys, unsigned count) { reference::Ahead(*table_).look(keys, count); }

        void get_many(const bench::Key* keys, unsigned count, bench::Generator& draws, bench::Value* found,
                      Answer* answers) {
            look_ahead(keys, count);
            for (unsigned place = 0; place < count; ++place) {
                answers[place] = get(keys[place], draws.next(), found[place]);
            }
        }

        // A set is made as a put of the index's client: if its bucket is full the next segment is
        // evicted, and it is made once more.
        Answer write(bench::Write write, const bench::Key& key, const bench::Value& value, std::uint32_t expected) {
            const Answer answer = write_with_room(write, key, value, expected);
            if (answer != Answer::Full || write != bench::Write::Set) {
                return answer;
            }
            reference::Eviction(*table_, pass_).evict(pass_.next_segment());
            return write_with_room(write, key, value, expected);
        }

        Answer remove(const bench::Key& key) { return reference::Writer(*table_, pass_, key, now).remove(); }

    private:
        static Answer answer_of(reference::Read read) {
            switch (read) {
                case reference::Read::Found: return Answer::Hit;
                case reference::Read::Miss: return Answer::Miss;
                case reference::Read::Busy: break;
            }
            return Answer::Busy;
        }

        // The write is made once more if the current segment was used up.
        Answer write_with_room(bench::Write write, const bench::Key& key, const bench::Value& value,
                               std::uint32_t expected) {
            const Answer answer = write_at_last(write, key, value, expected);
            if (answer != Answer::NoRoom) {
                return answer;
            }
            refill();
            return write_at_last(write, key, value, expected);
        }

        // A set is made again while it is busy, 16 times at most.
        Answer write_at_last(bench::Write write, const bench::Key& key, const bench::Value& value,
                             std::uint32_t expected) {
            const int tries = write == bench::Write::Set ? 16 : 1;
            Answer answer = Answer::Busy;
            for (int tried = 0; tried < tries && answer == Answer::Busy; ++tried) {
                answer = reference::Writer(*table_, pass_, key, now).write(write, value, expected);
            }
            return answer;
        }

        void refill() {
            const std::uint32_t next = pass_.next_segment();
            reference::Eviction eviction(*table_, pass_);
            eviction.evict(next);
            eviction.refill(next, never);
        }

        reference::Table* table_;
        reference::Pass pass_;
    };

    explicit Store(const bench::Plan& plan) : table_(std::make_unique<reference::Table>(shape_of(plan))) {}

    Client client(std::uint32_t number) { return {*table_, number}; }

private:
    static reference::Shape shape_of(const bench::Plan& plan) {
        const auto& [buckets, overflow, segments, rows] = plan.sizes;
        return {buckets, overflow, plan.threads, segments, rows};
    }

    std::unique_ptr<reference::Table> table_;
};

}  // namespace

int main(int count, char** words) { return bench::measure<Store>(count, words); }
