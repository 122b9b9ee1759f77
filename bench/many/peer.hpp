// SPDX-License-Identifier: MIT
// A store of the measure's peers as one of many keys.
#pragma once

#include "many.hpp"

#include <atomic>

namespace bench {

template <class Peer>
class ManyOf {
public:
    class Client {
    public:
        Client(typename Peer::Client own, std::atomic<std::uint64_t>& wrong) : own_(own), wrong_(&wrong) {}

        void put(const Key& key, const Value& value) {
            if (own_.write(Write::Set, key, value, 0) != Answer::Hit) {
                ++*wrong_;
            }
        }

        // The value of a key; an empty one if it isn't there.
        Value get(const Key& key) {
            Value found;
            own_.get(key, 0, found);
            return found;
        }

        // Counts a value that isn't the one that was put under this number.
        void see(const Value& found, std::uint32_t number) {
            if (std::memcmp(found.bytes.data(), Value::of_number(number).bytes.data(), 16) != 0) {
                ++*wrong_;
            }
        }

        void get_all(const Key* keys, const std::uint32_t* numbers) {
            for (unsigned place = 0; place < at_hand; ++place) {
                see(get(keys[place]), numbers[place]);
            }
        }

    private:
        typename Peer::Client own_;
        std::atomic<std::uint64_t>* wrong_;
    };

    ManyOf(std::uint32_t keys, unsigned threads) : peer_(Plan{keys, threads, {}, 0}) {}

    Client client(unsigned number) { return Client(peer_.client(number), wrong_); }

    std::uint64_t wrong() const { return wrong_; }

private:
    Peer peer_;
    std::atomic<std::uint64_t> wrong_{0};
};

}  // namespace bench
