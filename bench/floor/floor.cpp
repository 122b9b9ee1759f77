// SPDX-License-Identifier: MIT
// Measures the floor: the words and steps of the index with as few plain instructions as we could write. It keeps
// nothing, and doesn't check what its callers can't get wrong. The reference is written as one would without measuring.

#include "../common/measure.hpp"
#include "ahead.hpp"
#include "reader.hpp"
#include "writer.hpp"

#include <algorithm>
#include <array>
#include <cstdint>
#include <memory>

namespace {

using bench::Answer;

class Store {
public:
    using Membership = bench::NoMembership;

    class Client {
    public:
        Client(lean::Table& table, std::uint32_t number) : table_(&table), writer_(table, number) {}

        Answer get(const bench::Key& key, std::uint32_t draw, bench::Value& value) {
            return lean::Reader(*table_, key, bench::hash_of(key)).get(draw, value);
        }

        Answer gets(const bench::Key& key, std::uint32_t draw, bench::Value& value, std::uint32_t& version) {
            return lean::Reader(*table_, key, bench::hash_of(key)).gets(draw, value, version);
        }

        void look_ahead(const bench::Key* keys, unsigned count) {
            std::array<lean::Word, lean::at_once> hashes;
            for (unsigned first = 0; first < count; first += lean::at_once) {
                lean::Ahead(*table_).look(keys + first, std::min(lean::at_once, count - first), hashes);
            }
        }

        void get_many(const bench::Key* keys, unsigned count, bench::Generator& draws, bench::Value* found,
                      Answer* answers) {
            std::array<lean::Word, lean::at_once> hashes;
            for (unsigned first = 0; first < count; first += lean::at_once) {
                const unsigned some = std::min(lean::at_once, count - first);
                lean::Ahead(*table_).look(keys + first, some, hashes);
                for (unsigned at = 0; at < some; ++at) {
                    lean::Reader reader(*table_, keys[first + at], hashes[at]);
                    answers[first + at] = reader.get(draws.next(), found[first + at]);
                }
            }
        }

        Answer write(bench::Write write, const bench::Key& key, const bench::Value& value, std::uint32_t expected) {
            return writer_.write(write, key, value, expected);
        }

        Answer remove(const bench::Key& key) { return writer_.remove(key); }

    private:
        lean::Table* table_;
        lean::Writer writer_;
    };

    explicit Store(const bench::Plan& plan) : table_(std::make_unique<lean::Table>(plan)) {}

    Client client(std::uint32_t number) { return {*table_, number}; }

private:
    std::unique_ptr<lean::Table> table_;
};

}  // namespace

int main(int count, char** words) { return bench::measure<Store>(count, words); }
