// SPDX-License-Identifier: MIT
/* Tests of caches that some of their clients fill: how many keys stay. */
#include "test.h"

enum { KEYS = 1000, THREADS = 4 };

static void put_all(segcache_client *client, uint32_t keys) {
  for (uint32_t key = 0; key < keys; key++)
    EXPECT(segcache_put(client, &key, sizeof key, &key, sizeof key, 0), SEGCACHE_OK);
}

/* How many of the keys are there, each with its value. */
static uint32_t found(segcache_client *client, uint32_t keys) {
  uint32_t sum = 0;
  for (uint32_t key = 0; key < keys; key++) {
    uint32_t value = 0;
    size_t length = 0;
    uint32_t status = segcache_get(client, &key, sizeof key, 0, &value, sizeof value, &length);
    sum += status == SEGCACHE_OK && length == sizeof value && value == key;
  }
  return sum;
}

static uint64_t evicted_by(segcache_client *client) {
  segcache_stats_t stats;
  EXPECT(segcache_stats(client, &stats), SEGCACHE_OK);
  return stats.keys_evicted;
}

static void give_back(segcache *cache, segcache_client *clients) {
  for (int i = 0; i < THREADS; i++) EXPECT(segcache_give_back(cache, &clients[i]), SEGCACHE_OK);
  EXPECT(segcache_free(cache), SEGCACHE_OK);
}

/* As many clients as were said have room for all keys. Fewer haven't. */
static void test_rooms(uint32_t keys, uint32_t writers, uint32_t used) {
  segcache cache;
  segcache_client clients[THREADS];
  EXPECT(segcache_open_for_writers(keys, THREADS, writers, &cache, clients), SEGCACHE_OK);
  for (uint32_t key = 0; key < keys; key++)
    EXPECT(segcache_put(&clients[key % used], &key, sizeof key, &key, sizeof key, 0), SEGCACHE_OK);
  uint64_t evicted = 0;
  for (uint32_t i = 0; i < THREADS; i++) evicted += evicted_by(&clients[i]);
  CHECK((evicted == 0) == (used >= writers));
  CHECK(found(&clients[THREADS - 1], keys) == keys - evicted);
  give_back(&cache, clients);
}

/* In a small cache each of several clients has room for all keys, and for eight times as many, if there are rows. */
static void test_small(void) {
  const struct {
    uint32_t keys, stored, evicts;
  } cases[] = {{KEYS, 8 * KEYS, 0}, {65536 / THREADS, 65536 / THREADS, 0}, {65536 / THREADS + 1, 65536 / THREADS, 1}};
  for (int i = 0; i < 3; i++) {
    segcache cache;
    segcache_client clients[THREADS];
    EXPECT(segcache_open(cases[i].keys, THREADS, &cache, clients), SEGCACHE_OK);
    put_all(&clients[1], cases[i].stored);
    CHECK((evicted_by(&clients[1]) > 0) == cases[i].evicts);
    CHECK((found(&clients[0], cases[i].stored) < cases[i].stored) == cases[i].evicts);
    give_back(&cache, clients);
  }
}

/* One client updates all keys many times, in a cache for one writer, and in a smaller one. */
static void test_updates(void) {
  for (uint32_t writers = 1; writers <= THREADS; writers += THREADS - 1) {
    segcache cache;
    segcache_client clients[THREADS];
    EXPECT(segcache_open_for_writers(KEYS, THREADS, writers, &cache, clients), SEGCACHE_OK);
    for (int i = 0; i < 20; i++) put_all(&clients[2], KEYS);
    CHECK((evicted_by(&clients[2]) == 0) == (writers == 1));
    CHECK((found(&clients[1], KEYS) == KEYS) == (writers == 1));
    give_back(&cache, clients);
  }
}

/* One thread fills the room of all clients. */
static void test_fill(void) {
  segcache cache;
  segcache_client clients[THREADS];
  EXPECT(segcache_open(KEYS, THREADS, &cache, clients), SEGCACHE_OK);
  for (int i = 0; i < 2; i++)
    for (uint32_t key = 0; key < KEYS; key++)
      EXPECT(segcache_fill(clients, THREADS, &key, sizeof key, &key, sizeof key, 0), SEGCACHE_OK);
  CHECK(found(&clients[3], KEYS) == KEYS);
  for (int i = 0; i < THREADS; i++) CHECK(evicted_by(&clients[i]) == 0);
  EXPECT(segcache_fill(clients, THREADS, "", 0, "", 0, 0), SEGCACHE_BAD_KEY);
  give_back(&cache, clients);
}

/* A cache for items of one row has room for them, whichever client stores them, as one for keys. */
static void test_items(void) {
  segcache cache;
  segcache_client clients[64];
  EXPECT(segcache_open_items(KEYS, 56, THREADS, &cache, clients), SEGCACHE_OK);
  put_all(&clients[1], KEYS);
  CHECK(found(&clients[2], KEYS) == KEYS && evicted_by(&clients[1]) == 0);
  give_back(&cache, clients);
  EXPECT(segcache_open_items(KEYS, 56, 0, &cache, clients), SEGCACHE_BAD_SHAPE);
  EXPECT(segcache_open_items(KEYS, 56, 65, &cache, clients), SEGCACHE_BAD_SHAPE);
  if (SEGCACHE_MAX_VALUE > 32) EXPECT(segcache_open_items(1u << 27, 4000, 4, &cache, clients), SEGCACHE_BAD_SHAPE);
  EXPECT(segcache_free(&cache), SEGCACHE_NO_HANDLE);
}

static void test_refusals(void) {
  segcache cache;
  segcache_client clients[64];
  EXPECT(segcache_open_for_writers(KEYS, 4, 0, &cache, clients), SEGCACHE_BAD_SHAPE);
  EXPECT(segcache_open_for_writers(KEYS, 4, 5, &cache, clients), SEGCACHE_BAD_SHAPE);
  EXPECT(segcache_open_for_writers(KEYS, 0, 0, &cache, clients), SEGCACHE_BAD_SHAPE);
  EXPECT(segcache_open_for_writers(KEYS, 65, 1, &cache, clients), SEGCACHE_BAD_SHAPE);
  EXPECT(segcache_open_for_writers((1u << 26) + 1, 64, 1, &cache, clients), SEGCACHE_BAD_SHAPE);
  EXPECT(segcache_free(&cache), SEGCACHE_NO_HANDLE);
}

void test_writers(void) {
  long before = out;
  test_rooms(KEYS, 1, 1);
  test_rooms(KEYS, 2, 2);
  test_rooms(KEYS, 4, 4);
  test_rooms(KEYS, 4, 1);
  test_rooms(100000, 1, 1); /* in two tables */
  test_small();
  test_updates();
  test_fill();
  test_items();
  test_refusals();
  CHECK(out == before);
}
