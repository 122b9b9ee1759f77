// SPDX-License-Identifier: MIT
// Many keys in the index, through the library for C.

#include "../../bindings/c/segcache.h"
#include "many.hpp"

#include <atomic>

namespace {

using bench::at_hand;
using bench::Key;
using bench::Value;

class Store {
public:
    class Client {
    public:
        Client(segcache_client* own, std::atomic<std::uint64_t>& wrong) : own_(own), wrong_(&wrong) {}

        void put(const Key& key, const Value& value) {
            std::uint32_t status;
            do {
                status = segcache_put(own_, key.bytes.data(), key.length, value.bytes.data(), value.length, 0);
            } while (status == SEGCACHE_BUSY);
            count_if(status != SEGCACHE_OK);
        }

        Value get(const Key& key) {
            Value found;
            std::size_t length = 0;
            while (segcache_get(own_, key.bytes.data(), key.length, 0, found.bytes.data(), found.bytes.size(),
                                &length) == SEGCACHE_BUSY) {
            }
            return found;
        }

        void see(const Value& found, std::uint32_t number) { see_bytes(found.bytes.data(), number); }

        void get_all(const Key* keys, const std::uint32_t* numbers) {
            segcache_lookup lookups[at_hand];
            for (unsigned place = 0; place < at_hand; ++place) {
                lookups[place].key_at = place * sizeof(Key);
                lookups[place].key_len = keys[place].length;
            }
            segcache_get_many(own_, keys, at_hand * sizeof(Key), 0, lookups, at_hand);
            for (unsigned place = 0; place < at_hand; ++place) {
                if (lookups[place].status == SEGCACHE_BUSY) {
                    see(get(keys[place]), numbers[place]);
                } else {
                    see_bytes(reinterpret_cast<const char*>(lookups[place].value), numbers[place]);
                }
            }
        }

    private:
        void count_if(bool is_wrong) {
            if (is_wrong) {
                ++*wrong_;
            }
        }

        // Counts a value that isn't the one that was put under this number.
        void see_bytes(const char* bytes, std::uint32_t number) {
            count_if(std::memcmp(bytes, Value::of_number(number).bytes.data(), 16) != 0);
        }

        segcache_client* own_;
        std::atomic<std::uint64_t>* wrong_;
    };

    Store(std::uint32_t keys, unsigned threads) : clients_(threads) {
        if (const std::uint32_t status = segcache_open(keys, threads, &cache_, clients_.data())) {
            std::fprintf(stderr, "segcache: %s\n", segcache_text(status));
            std::exit(3);
        }
    }

    Store(const Store&) = delete;

    ~Store() {
        for (segcache_client& client : clients_) {
            segcache_give_back(&cache_, &client);
        }
        segcache_free(&cache_);
    }

    Client client(unsigned number) { return Client(&clients_[number], wrong_); }

    std::uint64_t wrong() const { return wrong_; }

private:
    segcache cache_{};
    std::vector<segcache_client> clients_;
    std::atomic<std::uint64_t> wrong_{0};
};

}  // namespace

int main(int count, char** words) { return bench::measure_many<Store>(count, words); }
