// SPDX-License-Identifier: MIT
// The same in C++: a cache and its clients as classes that give back what they have.
#include "segcache.h"

#include <cstdio>
#include <optional>
#include <stdexcept>
#include <string>
#include <string_view>
#include <thread>
#include <vector>

// The cache of `threads` threads. Its clients are given back, and its memory is freed, at its end.
class Cache {
public:
  // What one thread calls the cache by. It is the cache's own, and can't be copied.
  class Client {
  public:
    Client() = default;
    Client(const Client &) = delete;
    Client &operator=(const Client &) = delete;

    // The value of the key. None if it is absent, or if others worked on its bucket all the while.
    std::optional<std::string> get(std::string_view key, std::uint32_t now) {
      std::string value(SEGCACHE_MAX_VALUE, '\0');
      std::size_t length = 0;
      std::uint32_t status = segcache_get(raw, key.data(), key.size(), now, value.data(), value.size(), &length);
      if (status == SEGCACHE_MISS || status == SEGCACHE_BUSY) return std::nullopt;
      check(status);
      value.resize(length);
      return value;
    }

    // Says whether the value was stored.
    bool put(std::string_view key, std::string_view value, std::uint32_t now) {
      std::uint32_t status = segcache_put(raw, key.data(), key.size(), value.data(), value.size(), now);
      if (status != SEGCACHE_NO_ROOM && status != SEGCACHE_BUCKET_FULL && status != SEGCACHE_BUSY) check(status);
      return status == SEGCACHE_OK;
    }

  private:
    friend class Cache;
    segcache_client *raw = nullptr;
  };

  Cache(std::uint32_t keys, std::uint32_t threads) : raw_clients(threads), clients(threads) {
    check(segcache_open(keys, threads, &cache, raw_clients.data()));
    for (std::size_t i = 0; i < clients.size(); i++) clients[i].raw = &raw_clients[i];
  }
  Cache(const Cache &) = delete;
  Cache &operator=(const Cache &) = delete;
  ~Cache() {
    for (segcache_client &client : raw_clients) segcache_give_back(&cache, &client);
    segcache_free(&cache);
  }

  Client &client(std::size_t number) { return clients.at(number); }

private:
  static void check(std::uint32_t status) {
    if (status != SEGCACHE_OK) throw std::runtime_error(segcache_text(status));
  }

  segcache cache{};
  std::vector<segcache_client> raw_clients;
  std::vector<Client> clients;
};

int main() {
  constexpr std::uint32_t threads = 4, looks = 100'000, pages = 1'000;
  Cache cache(pages, threads);
  std::vector<std::thread> running;
  for (std::uint32_t i = 0; i < threads; i++)
    running.emplace_back([&client = cache.client(i)] {
      std::size_t found = 0;
      for (std::uint32_t look = 0; look < looks; look++) {
        std::string key = "page:" + std::to_string(look * 7919 % pages);
        if (client.get(key, look / 1000)) found++;
        else client.put(key, "the page", look / 1000);
      }
      std::printf("found %zu of %u\n", found, looks);
    });
  for (std::thread &thread : running) thread.join();
  return 0;
}
