// SPDX-License-Identifier: MIT
// Values of several sizes in the index, through the library for C: its wide build, or the default one up to 32 bytes.

#include "../../bindings/c/segcache.h"
#include "sizes.hpp"

#include <cstdio>
#include <cstdlib>
#include <string_view>
#include <vector>

namespace {

// No item expires.
constexpr std::uint32_t now = 2;

class Store {
public:
    class Client {
    public:
        explicit Client(segcache_client* own) : own_(own) {}

        std::size_t get(const bench::Key& key, bench::Buffer& found) {
            std::size_t length = 0;
            std::uint32_t status;
            do {
                status = segcache_get(own_, key.bytes.data(), key.length, now, found.data(), found.size(), &length);
            } while (status == SEGCACHE_BUSY);
            return status == SEGCACHE_OK ? length : bench::absent;
        }

        bool put(const bench::Key& key, std::string_view value) {
            std::uint32_t status;
            do {
                status = segcache_put(own_, key.bytes.data(), key.length, value.data(), value.size(), now);
            } while (status == SEGCACHE_BUSY);
            return status == SEGCACHE_OK;
        }

    private:
        segcache_client* own_;
    };

    // Of so many rows it has twice as many, as a cache for so many keys of one row has.
    explicit Store(const bench::Room& room) : clients_(room.threads) {
        const std::uint32_t status = room.bytes
                                         ? segcache_open_bytes(room.bytes, room.threads, &cache_, clients_.data())
                                         : segcache_open(room.rows, room.threads, &cache_, clients_.data());
        if (status != SEGCACHE_OK) {
            std::fprintf(stderr, "segcache: %s\n", segcache_text(status));
            std::exit(3);
        }
    }

    Store(const Store&) = delete;

    ~Store() {
        for (segcache_client& client : clients_) {
            segcache_give_back(&cache_, &client);
        }
        segcache_free(&cache_);
    }

    Client client(unsigned number) { return Client(&clients_[number]); }

private:
    segcache cache_{};
    std::vector<segcache_client> clients_;
};

}  // namespace

int main(int count, char** words) { return bench::measure_sizes<Store>(count, words); }
