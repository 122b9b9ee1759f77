// SPDX-License-Identifier: MIT
/* Tests of memory: which calls ask the allocator for any, what a close takes,
 * and what caches by a number of bytes take and keep. */
#include "test.h"

enum {
  MOST_THREADS = 4,
  /* So many bytes for each key are enough. In the wide build they are planned for items of four rows. */
  KEY_BYTES = SEGCACHE_MAX_VALUE > 32 ? 1200 : 270,
};

static void give_back(segcache *cache, segcache_client *clients, uint32_t threads) {
  for (uint32_t i = 0; i < threads; i++) EXPECT(segcache_give_back(cache, &clients[i]), SEGCACHE_OK);
  EXPECT(segcache_free(cache), SEGCACHE_OK);
}

/* Puts keys by the clients in turn, and returns how many are there afterwards, each with its value. */
static uint32_t kept_of(segcache_client *clients, uint32_t threads, uint32_t keys) {
  uint32_t kept = 0;
  for (uint32_t key = 0; key < keys; key++)
    EXPECT(segcache_put(&clients[key % threads], &key, sizeof key, &key, sizeof key, 0), SEGCACHE_OK);
  for (uint32_t key = 0; key < keys; key++) {
    uint32_t value = 0;
    size_t length = 0;
    kept +=
        segcache_get(&clients[0], &key, sizeof key, 0, &value, sizeof value, &length) == SEGCACHE_OK && value == key;
  }
  return kept;
}

/* A cache takes no more than its bytes, from its opening on, and keeps so many keys. At least so many of a hundred bytes
   are used while it is opened. */
static void test_budget(long bytes, uint32_t threads, uint32_t keys, long percent) {
  segcache cache;
  segcache_client clients[MOST_THREADS];
  long before = bytes_out;
  most_bytes_out = before;
  EXPECT(segcache_open_bytes((uint64_t)bytes, threads, &cache, clients), SEGCACHE_OK);
  CHECK(kept_of(clients, threads, keys) == keys);
  CHECK(most_bytes_out - before <= bytes);
  CHECK(most_bytes_out - before >= bytes / 100 * percent);
  give_back(&cache, clients, threads);
  CHECK(bytes_out == before);
}

/* The smallest cache for a number of threads, and one byte less. */
static void test_smallest(uint32_t threads) {
  segcache cache;
  segcache_client clients[MOST_THREADS];
  uint64_t few = 0, enough = 1 << 20;
  while (enough - few > 1) {
    uint64_t bytes = few + (enough - few) / 2;
    if (segcache_open_bytes(bytes, threads, &cache, clients) == SEGCACHE_OK) {
      enough = bytes;
      give_back(&cache, clients, threads);
    } else {
      few = bytes;
    }
  }
  EXPECT(segcache_open_bytes(few, threads, &cache, clients), SEGCACHE_BAD_SHAPE);
  EXPECT(segcache_free(&cache), SEGCACHE_NO_HANDLE);
  test_budget((long)enough, threads, 1, 0);
}

/* Of the calls between an opening and its end only a note asks for memory, and no other for some that it drops.
   The keys are more than the cache keeps, so puts also clear, evict and refill. */
static void test_requests(void) {
  enum { KEYS = 20000 };
  segcache cache;
  segcache_client clients[2];
  segcache_stats_t counts;
  segcache_index_stats_t rows;
  EXPECT(segcache_open(1000, 2, &cache, clients), SEGCACHE_OK);
  segcache_client *one = &clients[0], *other = &clients[1];
  long before = requests;
  for (uint32_t key = 0; key < KEYS; key++) {
    char value[SEGCACHE_MAX_VALUE];
    size_t length;
    uint32_t version = 0;
    segcache_lookup lookup = {.key_len = sizeof key};
    segcache_lookup_into into = {&key, sizeof key, value, sizeof value, 0, 0, 0};
    segcache_put(&clients[key % 2], &key, sizeof key, "put", 3, key);
    segcache_get(other, &key, sizeof key, key, value, sizeof value, &length);
    segcache_gets(one, &key, sizeof key, key, value, sizeof value, &length, &version);
    segcache_cas(one, &key, sizeof key, "cas", 3, version, key);
    segcache_replace(other, &key, sizeof key, "replaced", 8, key);
    if (segcache_hold(one, &key, sizeof key, key) == SEGCACHE_OK) {
      segcache_held_value(one, value, sizeof value, &length);
      segcache_release(one);
    }
    segcache_get_many(other, &key, sizeof key, key, &lookup, 1);
    segcache_gets_many(other, &key, sizeof key, key, &lookup, 1);
    segcache_get_many_into(one, &into, 1, key);
    segcache_gets_many_into(other, &into, 1, key);
    if (key % 3 == 0) segcache_delete(other, &key, sizeof key, key);
    segcache_add(other, &key, sizeof key, "added", 5, key);
    segcache_set(one, &key, sizeof key, "set", 3, key);
    segcache_put_for(other, &key, sizeof key, "put for", 7, 60, key);
    segcache_fill(clients, 2, &key, sizeof key, "filled", 6, key);
    if (key % 100 == 0) segcache_make_room(one, key);
    if (key == KEYS / 4) segcache_set_time_to_live(one, 60);
    if (key == KEYS / 2) segcache_keep_from(one, 2);
    if (key == KEYS / 4 * 3) segcache_keep_nothing(other);
    if (key % 1000 == 0) segcache_index_stats(one, &rows);
  }
  EXPECT(segcache_stats(one, &counts), SEGCACHE_OK);
  CHECK(requests == before);
  CHECK(counts.hits >= KEYS && counts.stored >= KEYS && counts.segments_refilled > 0 && counts.keys_evicted > 0);
  give_back(&cache, clients, 2);
}

/* A close lists one key in less memory than 400 keys take. */
static void test_close(void) {
  segcache cache;
  segcache_client clients[1];
  segcache_cursor cursor;
  EXPECT(segcache_open(1000, 1, &cache, clients), SEGCACHE_OK);
  EXPECT(put(&clients[0], "key", "value", 0), SEGCACHE_OK);
  EXPECT(segcache_give_back(&cache, &clients[0]), SEGCACHE_OK);
  long before = bytes_out;
  most_bytes_out = before;
  EXPECT(segcache_close(&cache, &cursor), SEGCACHE_OK);
  CHECK(most_bytes_out - before < 400 * (SEGCACHE_MAX_KEY + SEGCACHE_MAX_VALUE));
  EXPECT(segcache_cursor_free(&cursor), SEGCACHE_OK);
}

void test_bytes(void) {
  segcache cache;
  segcache_client clients[64];
  long before = out;
  test_requests();
  test_close();
  test_smallest(1);
  test_smallest(4);
  test_budget(1 << 20, 1, (1 << 20) / KEY_BYTES, 40);
  test_budget(4 << 20, 4, (4 << 20) / KEY_BYTES, 40);
  test_budget(12 << 20, 2, (12 << 20) / KEY_BYTES, 60);
  test_budget(64 << 20, 4, (64 << 20) / KEY_BYTES, 70);
  test_budget(300l << 20, 4, (300l << 20) / KEY_BYTES, 70);
  EXPECT(segcache_open_bytes(0, 1, &cache, clients), SEGCACHE_BAD_SHAPE);
  EXPECT(segcache_open_bytes(1 << 30, 0, &cache, clients), SEGCACHE_BAD_SHAPE);
  EXPECT(segcache_open_bytes(1 << 30, 65, &cache, clients), SEGCACHE_BAD_SHAPE);
  CHECK(out == before);
}
