// SPDX-License-Identifier: MIT
/* Tests of the library through segcache.h: each call and its answers, and allocations that fail. */
#include "test.h"

uint32_t put(segcache_client *client, const char *key, const char *value, uint32_t now) {
  return segcache_put(client, key, strlen(key), value, strlen(value), now);
}

uint32_t put_for(segcache_client *client, const char *key, const char *value, uint32_t seconds, uint32_t now) {
  return segcache_put_for(client, key, strlen(key), value, strlen(value), seconds, now);
}

static uint32_t add(segcache_client *client, const char *key, const char *value) {
  return segcache_add(client, key, strlen(key), value, strlen(value), 0);
}

int reads(segcache_client *client, const char *key, uint32_t now, const char *wanted) {
  char value[SEGCACHE_MAX_VALUE];
  size_t length = 0;
  uint32_t status = segcache_get(client, key, strlen(key), now, value, sizeof value, &length);
  return wanted == NULL ? status == SEGCACHE_MISS
                        : status == SEGCACHE_OK && length == strlen(wanted) && memcmp(value, wanted, length) == 0;
}

/* The archive is of the header's version, as the text and the number have it. */
static void test_version(void) {
  unsigned first, second, third;
  int end = 0, parts = sscanf(SEGCACHE_VERSION, "%u.%u.%u%n", &first, &second, &third, &end);
  const char *rest = SEGCACHE_VERSION + end;
  CHECK(parts == 3 && (strcmp(rest, "") == 0 || strcmp(rest, "-dev") == 0));
  CHECK(segcache_version() == 1000000 * first + 10000 * second + 100 * third + (*rest == 0));
  CHECK(segcache_version() == SEGCACHE_VERSION_NUMBER);
}

static void test_opening(void) {
  segcache cache;
  segcache_client clients[65];
  segcache_shape shape = {4, 4, 2, 2, 8, 7}, bad;
  const segcache_shape bads[] = {{3, 0, 1, 2, 8, 0},     {131072, 0, 1, 2, 8, 0},
                                 {4, 65537, 1, 2, 8, 0}, {4, 0, 0, 2, 8, 0},
                                 {4, 0, 65, 2, 8, 0},    {4, 0, 1, 0, 8, 0},
                                 {4, 0, 1, 1025, 8, 0},  {4, 0, 1, 2, 0, 0},
                                 {4, 0, 1, 2, 4097, 0},  {65536, 65536, 64, 1024, 4096, 0}};
  long before = out;
  EXPECT(segcache_open(100, 0, &cache, clients), SEGCACHE_BAD_SHAPE);
  EXPECT(segcache_open(100, 65, &cache, clients), SEGCACHE_BAD_SHAPE);
  EXPECT(segcache_open(100, UINT32_MAX, &cache, clients), SEGCACHE_BAD_SHAPE);
  for (size_t i = 0; i < sizeof bads / sizeof *bads; i++) {
    bad = bads[i];
    EXPECT(segcache_open_shape(&bad, &cache, clients), SEGCACHE_BAD_SHAPE);
  }
  EXPECT(segcache_free(&cache), SEGCACHE_NO_HANDLE);
  CHECK(out == before);
  EXPECT(segcache_open_shape(&shape, &cache, clients), SEGCACHE_OK);
  EXPECT(put(&clients[0], "a", "1", 0), SEGCACHE_OK);
  char value[32];
  size_t length;
  uint32_t version = 0;
  EXPECT(segcache_gets(&clients[1], "a", 1, 0, value, 32, &length, &version), SEGCACHE_OK);
  CHECK(version == 8); /* 7 at first, and 1 for the put */
  EXPECT(segcache_give_back(&cache, &clients[0]), SEGCACHE_OK);
  EXPECT(segcache_give_back(&cache, &clients[1]), SEGCACHE_OK);
  EXPECT(segcache_free(&cache), SEGCACHE_OK);
  CHECK(out == before);
}

static void test_reading_and_writing(segcache_client *one, segcache_client *other) {
  char value[SEGCACHE_MAX_VALUE] = "", key[SEGCACHE_MAX_KEY], long_value[SEGCACHE_MAX_VALUE];
  size_t length = 99;
  uint32_t version = 0, later = 0;
  CHECK(reads(one, "k", 0, NULL));
  EXPECT(put(one, "k", "12345", 0), SEGCACHE_OK);
  CHECK(reads(other, "k", 0, "12345"));
  CHECK(reads(other, "K", 0, NULL));
  EXPECT(segcache_get(other, "k", 1, 0, value, 4, &length), SEGCACHE_SHORT_BUFFER);
  CHECK(length == 5 && value[0] == 0);
  EXPECT(segcache_gets(other, "k", 1, 0, value, 4, &length, &version), SEGCACHE_SHORT_BUFFER);
  EXPECT(segcache_gets(other, "k", 1, 0, value, 5, &length, &version), SEGCACHE_OK);
  CHECK(length == 5 && memcmp(value, "12345", 6) == 0); /* and no byte behind it */
  EXPECT(segcache_cas(other, "k", 1, "new", 3, version, 0), SEGCACHE_NO_ROOM);
  EXPECT(segcache_make_room(other, 0), SEGCACHE_OK);
  EXPECT(segcache_cas(other, "k", 1, "new", 3, version, 0), SEGCACHE_OK);
  EXPECT(segcache_cas(other, "k", 1, "newer", 5, version, 0), SEGCACHE_EXISTS);
  CHECK(reads(one, "k", 0, "new"));
  EXPECT(segcache_gets(one, "k", 1, 0, value, 32, &length, &later), SEGCACHE_OK);
  CHECK(later == version + 1);
  EXPECT(segcache_cas(one, "none", 4, "x", 1, 0, 0), SEGCACHE_NOT_FOUND);
  EXPECT(add(one, "k", "x"), SEGCACHE_NOT_STORED);
  EXPECT(add(one, "added", "x"), SEGCACHE_OK);
  EXPECT(segcache_replace(one, "none", 4, "y", 1, 0), SEGCACHE_NOT_STORED);
  EXPECT(segcache_replace(one, "added", 5, "y", 1, 0), SEGCACHE_OK);
  CHECK(reads(other, "added", 0, "y"));
  EXPECT(segcache_set(one, "added", 5, "", 0, 0), SEGCACHE_OK);
  CHECK(reads(other, "added", 0, ""));
  EXPECT(segcache_get(other, "added", 5, 0, NULL, 0, &length), SEGCACHE_OK);
  CHECK(length == 0);
  EXPECT(segcache_delete(other, "added", 5, 0), SEGCACHE_OK);
  EXPECT(segcache_delete(one, "added", 5, 0), SEGCACHE_NOT_FOUND);
  CHECK(reads(one, "added", 0, NULL));
  for (size_t i = 0; i < sizeof key; i++) key[i] = (char)('a' + i % 26);
  for (size_t i = 0; i < sizeof long_value; i++) long_value[i] = (char)(i % 251);
  EXPECT(segcache_put(one, key, sizeof key, long_value, sizeof long_value, 0), SEGCACHE_OK);
  EXPECT(segcache_get(other, key, sizeof key, 0, value, sizeof value, &length), SEGCACHE_OK);
  CHECK(length == sizeof long_value && memcmp(value, long_value, length) == 0);
  EXPECT(segcache_get(other, key, sizeof key - 1, 0, value, sizeof value, &length), SEGCACHE_MISS);
  key[sizeof key - 1] ^= 1;
  EXPECT(segcache_get(other, key, sizeof key, 0, value, sizeof value, &length), SEGCACHE_MISS);
}

/* Each key has its own answer, whatever the others have. */
static void test_many(segcache_client *one, segcache_client *other) {
  char keys[80] = "", value[3] = "v";
  segcache_lookup lookups[40];
  segcache_stats_t before, after;
  size_t length;
  EXPECT(segcache_stats(other, &before), SEGCACHE_OK);
  for (uint8_t i = 0; i < 40; i++) {
    keys[2 * i] = 'm', keys[2 * i + 1] = (char)i, value[1] = (char)i;
    if (i % 2 == 0) EXPECT(segcache_put(one, &keys[2 * i], 2, value, 2, 0), SEGCACHE_OK);
    lookups[i] =
        (segcache_lookup){.key_at = 2 * i, .key_len = 2, .value_len = 99, .status = 99, .version = 99, .value = "????"};
  }
  lookups[3].key_len = 0, lookups[5].key_len = SEGCACHE_MAX_KEY + 1, lookups[39].key_len = 3,
  lookups[38].key_at = SIZE_MAX;
  EXPECT(segcache_get_many(other, keys, sizeof keys, 0, lookups, 40), SEGCACHE_OK);
  for (uint8_t i = 0; i < 40; i++) {
    const segcache_lookup *it = &lookups[i];
    int is_bad = i == 3 || i == 5 || i >= 38, is_there = i % 2 == 0 && !is_bad;
    EXPECT(it->status, is_bad ? SEGCACHE_BAD_KEY : is_there ? SEGCACHE_OK : SEGCACHE_MISS);
    CHECK(it->value_len == (is_there ? 2 : 99) && it->version == 99);
    CHECK(is_there ? it->value[0] == 'v' && it->value[1] == i && it->value[2] == '?' : it->value[0] == '?');
  }
  EXPECT(segcache_stats(other, &after), SEGCACHE_OK);
  CHECK(after.hits == before.hits + 19 && after.misses == before.misses + 17);
  EXPECT(segcache_get_many(other, NULL, 0, 0, NULL, 0), SEGCACHE_OK);
  EXPECT(segcache_gets_many(other, keys, sizeof keys, 0, lookups, 40), SEGCACHE_OK);
  for (int i = 0; i < 40; i++) {
    uint32_t version = 99, status = segcache_gets(other, keys + 2 * i, 2, 0, value, 3, &length, &version);
    int is_bad = lookups[i].status == SEGCACHE_BAD_KEY;
    CHECK(is_bad ? lookups[i].version == 99 : lookups[i].status == status && lookups[i].version == version);
  }
}

/* The same keys into buffers, some of which are too short. */
static void test_many_into(segcache_client *client) {
  char keys[40][SEGCACHE_MAX_KEY + 1] = {""}, values[40][3], value[3];
  segcache_lookup_into lookups[40];
  size_t length;
  for (int versioned = 0; versioned < 2; versioned++) {
    for (uint8_t i = 0; i < 40; i++) {
      keys[i][0] = 'm', keys[i][1] = (char)i;
      memset(values[i], '?', sizeof values[i]);
      lookups[i] = (segcache_lookup_into){keys[i], 2, values[i], i % 8 == 4 ? 1 : 3, 99, 99, 99};
    }
    lookups[3].key_len = 0, lookups[5].key_len = SEGCACHE_MAX_KEY + 1;
    EXPECT(versioned ? segcache_gets_many_into(client, lookups, 40, 0) : segcache_get_many_into(client, lookups, 40, 0),
           SEGCACHE_OK);
    for (int i = 0; i < 40; i++) {
      const segcache_lookup_into *it = &lookups[i];
      int is_bad = i == 3 || i == 5, is_there = i % 2 == 0, is_short = is_there && i % 8 == 4;
      uint32_t version = 99;
      EXPECT(segcache_gets(client, keys[i], 2, 0, value, sizeof value, &length, &version),
             is_there ? SEGCACHE_OK : SEGCACHE_MISS);
      EXPECT(it->status, is_bad     ? SEGCACHE_BAD_KEY
                         : is_short ? SEGCACHE_SHORT_BUFFER
                         : is_there ? SEGCACHE_OK
                                    : SEGCACHE_MISS);
      CHECK(it->value_len == (is_there ? 2 : 99) && it->version == (versioned ? version : 99));
      CHECK(memcmp(values[i], it->status == SEGCACHE_OK ? (char[]){'v', (char)i, '?'} : "???", 3) == 0);
    }
  }
  EXPECT(segcache_get_many_into(client, NULL, 0, 0), SEGCACHE_OK);
}

static void test_bad_arguments(segcache_client *client) {
  char key[SEGCACHE_MAX_KEY + 1] = "k", value[SEGCACHE_MAX_VALUE + 1] = "v";
  size_t length = 7;
  uint32_t version;
  for (size_t bad = 0; bad <= sizeof key; bad += sizeof key) {
    EXPECT(segcache_get(client, key, bad, 0, value, 32, &length), SEGCACHE_BAD_KEY);
    EXPECT(segcache_gets(client, key, bad, 0, value, 32, &length, &version), SEGCACHE_BAD_KEY);
    EXPECT(segcache_put(client, key, bad, value, 1, 0), SEGCACHE_BAD_KEY);
    EXPECT(segcache_put_for(client, key, bad, value, 1, 1, 0), SEGCACHE_BAD_KEY);
    EXPECT(segcache_set(client, key, bad, value, 1, 0), SEGCACHE_BAD_KEY);
    EXPECT(segcache_add(client, key, bad, value, 1, 0), SEGCACHE_BAD_KEY);
    EXPECT(segcache_replace(client, key, bad, value, 1, 0), SEGCACHE_BAD_KEY);
    EXPECT(segcache_cas(client, key, bad, value, 1, 0, 0), SEGCACHE_BAD_KEY);
    EXPECT(segcache_delete(client, key, bad, 0), SEGCACHE_BAD_KEY);
  }
  EXPECT(segcache_put(client, key, 1, value, sizeof value, 0), SEGCACHE_BAD_VALUE);
  EXPECT(segcache_put_for(client, key, 1, value, sizeof value, 1, 0), SEGCACHE_BAD_VALUE);
  EXPECT(segcache_set(client, key, 1, value, sizeof value, 0), SEGCACHE_BAD_VALUE);
  EXPECT(segcache_add(client, key, 1, value, sizeof value, 0), SEGCACHE_BAD_VALUE);
  EXPECT(segcache_replace(client, key, 1, value, sizeof value, 0), SEGCACHE_BAD_VALUE);
  EXPECT(segcache_cas(client, key, 1, value, sizeof value, 0, 0), SEGCACHE_BAD_VALUE);
  EXPECT(segcache_keep_from(client, UINT32_MAX), SEGCACHE_OK); /* counts as 255 */
  EXPECT(segcache_keep_from(client, 0), SEGCACHE_OK);
}

/* What a client counts, against what this function makes it do. */
static void test_counts(void) {
  segcache cache;
  segcache_client client;
  segcache_stats_t stats;
  segcache_index_stats_t table;
  segcache_shape shape = {4, 0, 1, 2, 4, 0};
  EXPECT(segcache_open_shape(&shape, &cache, &client), SEGCACHE_OK);
  EXPECT(segcache_keep_nothing(&client), SEGCACHE_OK); /* by turns: so it can be counted by hand */
  EXPECT(segcache_set(&client, "a", 1, "1", 1, 0), SEGCACHE_NO_ROOM);
  EXPECT(put(&client, "a", "1", 0), SEGCACHE_OK);
  EXPECT(put(&client, "a", "2", 0), SEGCACHE_OK);
  EXPECT(put(&client, "b", "3", 0), SEGCACHE_OK);
  EXPECT(add(&client, "b", "4"), SEGCACHE_NOT_STORED);
  EXPECT(segcache_cas(&client, "c", 1, "5", 1, 0, 0), SEGCACHE_NOT_FOUND);
  EXPECT(segcache_cas(&client, "b", 1, "5", 1, 999, 0), SEGCACHE_EXISTS);
  CHECK(reads(&client, "a", 0, "2"));
  CHECK(reads(&client, "b", 0, "3"));
  CHECK(reads(&client, "c", 0, NULL));
  EXPECT(segcache_index_stats(&client, &table), SEGCACHE_OK);
  CHECK(table.overflow_buckets == 0 && table.used_rows == 3 && table.named_rows == 2);
  EXPECT(segcache_delete(&client, "b", 1, 0), SEGCACHE_OK);
  EXPECT(put(&client, "d", "6", 0), SEGCACHE_OK);
  EXPECT(put(&client, "e", "7", 0), SEGCACHE_OK); /* into the second segment */
  EXPECT(segcache_stats(&client, &stats), SEGCACHE_OK);
  CHECK(stats.hits == 2 && stats.misses == 1 && stats.stored == 5 && stats.not_stored == 1 && stats.exists == 1);
  CHECK(stats.not_found == 1 && stats.deleted == 1 && stats.no_room == 1 && stats.bucket_full == 0 && stats.busy == 0);
  CHECK(stats.segments_refilled == 2 && stats.items_kept == 0 && stats.keys_evicted == 0);
  for (uint32_t i = 0; i < 4; i++) EXPECT(put(&client, "e", "8", 0), SEGCACHE_OK); /* evicts a and d */
  EXPECT(segcache_stats(&client, &stats), SEGCACHE_OK);
  CHECK(stats.segments_refilled == 3 && stats.keys_evicted == 2);
  CHECK(reads(&client, "a", 0, NULL));
  CHECK(reads(&client, "e", 0, "8"));
  EXPECT(segcache_give_back(&cache, &client), SEGCACHE_OK);
  EXPECT(segcache_free(&cache), SEGCACHE_OK);
}

/* One client with sixteen segments of four rows. A key is read at each third put of another one. */
static void test_kept(uint32_t (*set)(segcache_client *), unsigned missed, int keeps) {
  segcache cache;
  segcache_client client;
  segcache_stats_t stats;
  segcache_shape shape = {64, 0, 1, 16, 4, 0};
  EXPECT(segcache_open_shape(&shape, &cache, &client), SEGCACHE_OK);
  if (set != NULL) EXPECT(set(&client), SEGCACHE_OK);
  EXPECT(put(&client, "often", "read", 0), SEGCACHE_OK);
  for (uint32_t i = 0; i < 300; i++) {
    EXPECT(segcache_put(&client, &i, sizeof i, "x", 1, 0), SEGCACHE_OK);
    if (i % 3 == 2) missed -= !reads(&client, "often", 0, "read");
  }
  CHECK(missed == 0);
  EXPECT(segcache_stats(&client, &stats), SEGCACHE_OK);
  CHECK((stats.items_kept > 0) == keeps && stats.stored == 301 && stats.keys_evicted >= 301 - 64);
  EXPECT(segcache_give_back(&cache, &client), SEGCACHE_OK);
  EXPECT(segcache_free(&cache), SEGCACHE_OK);
}

static uint32_t keep_from_2(segcache_client *client) { return segcache_keep_from(client, 2); }
static uint32_t keep_from_255(segcache_client *client) { return segcache_keep_from(client, UINT32_MAX); }

/* What is read is kept. With nothing kept the 64th of the other keys recycles its segment, after 21 of the 100
   reads. With a cutoff that is too high it is the 60th, since a segment is cleared ahead: after 19. */
static void test_keeping(void) {
  test_kept(NULL, 0, 1);
  test_kept(keep_from_2, 0, 1);
  test_kept(keep_from_255, 81, 0);
  test_kept(segcache_keep_nothing, 79, 0);
}

/* A bucket of seven words. */
static void test_refusals(void) {
  segcache cache;
  segcache_client clients[2];
  segcache_shape shape = {1, 0, 2, 1, 8, 0};
  char key[2] = "a";
  EXPECT(segcache_open_shape(&shape, &cache, clients), SEGCACHE_OK);
  for (int i = 0; i < 7; i++, key[0]++) EXPECT(put(&clients[0], key, "x", 0), SEGCACHE_OK);
  EXPECT(add(&clients[0], "8", "x"), SEGCACHE_BUCKET_FULL);
  EXPECT(segcache_set(&clients[0], "8", 1, "x", 1, 0), SEGCACHE_BUCKET_FULL);
  EXPECT(put(&clients[1], "8", "x", 0), SEGCACHE_BUCKET_FULL); /* it has no key of its own there to evict */
  EXPECT(segcache_give_back(&cache, &clients[1]), SEGCACHE_OK);
  EXPECT(segcache_give_back(&cache, &clients[0]), SEGCACHE_OK);
  EXPECT(segcache_free(&cache), SEGCACHE_OK);
}

static void test_no_handles(void) {
  segcache none = {0};
  segcache_client client;
  segcache_cursor cursor = {{0}};
  segcache_stats_t stats;
  segcache_index_stats_t table;
  segcache_lookup lookup = {.key_len = 1};
  segcache_lookup_into into = {"k", 1, NULL, 0, 0, 0, 0};
  char key[SEGCACHE_MAX_KEY] = "k", value[SEGCACHE_MAX_VALUE] = "v";
  size_t length, key_length;
  uint32_t version;
  memset(&client, 0, sizeof client);
  segcache_client *clients[] = {&client, NULL};
  for (int i = 0; i < 2; i++) {
    segcache_client *no = clients[i];
    EXPECT(segcache_get(no, key, 1, 0, value, 32, &length), SEGCACHE_NO_HANDLE);
    EXPECT(segcache_gets(no, key, 1, 0, value, 32, &length, &version), SEGCACHE_NO_HANDLE);
    EXPECT(segcache_get_many(no, key, 1, 0, &lookup, 1), SEGCACHE_NO_HANDLE);
    EXPECT(segcache_gets_many(no, key, 1, 0, &lookup, 1), SEGCACHE_NO_HANDLE);
    EXPECT(segcache_get_many_into(no, &into, 1, 0), SEGCACHE_NO_HANDLE);
    EXPECT(segcache_gets_many_into(no, &into, 1, 0), SEGCACHE_NO_HANDLE);
    EXPECT(segcache_get_many_into(no, NULL, 0, 0), SEGCACHE_NO_HANDLE);
    EXPECT(segcache_put(no, key, 1, value, 1, 0), SEGCACHE_NO_HANDLE);
    EXPECT(segcache_put_for(no, key, 1, value, 1, 1, 0), SEGCACHE_NO_HANDLE);
    EXPECT(segcache_set(no, key, 1, value, 1, 0), SEGCACHE_NO_HANDLE);
    EXPECT(segcache_add(no, key, 1, value, 1, 0), SEGCACHE_NO_HANDLE);
    EXPECT(segcache_replace(no, key, 1, value, 1, 0), SEGCACHE_NO_HANDLE);
    EXPECT(segcache_cas(no, key, 1, value, 1, 0, 0), SEGCACHE_NO_HANDLE);
    EXPECT(segcache_delete(no, key, 1, 0), SEGCACHE_NO_HANDLE);
    EXPECT(segcache_set_time_to_live(no, 1), SEGCACHE_NO_HANDLE);
    EXPECT(segcache_keep_from(no, 3), SEGCACHE_NO_HANDLE);
    EXPECT(segcache_keep_nothing(no), SEGCACHE_NO_HANDLE);
    EXPECT(segcache_make_room(no, 0), SEGCACHE_NO_HANDLE);
    EXPECT(segcache_stats(no, &stats), SEGCACHE_NO_HANDLE);
    EXPECT(segcache_index_stats(no, &table), SEGCACHE_NO_HANDLE);
    EXPECT(segcache_give_back(&none, no), SEGCACHE_NO_HANDLE);
  }
  EXPECT(segcache_close(&none, &cursor), SEGCACHE_NO_HANDLE);
  EXPECT(segcache_free(&none), SEGCACHE_NO_HANDLE);
  EXPECT(segcache_free(NULL), SEGCACHE_NO_HANDLE);
  EXPECT(segcache_next(&cursor, key, &key_length, value, &length), SEGCACHE_NO_HANDLE);
  EXPECT(segcache_cursor_free(&cursor), SEGCACHE_NO_HANDLE);
}

/* --- The end of a cache --- */

static void test_ends(void) {
  segcache cache, another;
  segcache_client clients[2], foreign;
  segcache_cursor cursor;
  char key[SEGCACHE_MAX_KEY], value[SEGCACHE_MAX_VALUE];
  size_t key_length, length;
  long before = out;
  EXPECT(segcache_open(100, 2, &cache, clients), SEGCACHE_OK);
  EXPECT(segcache_open(100, 1, &another, &foreign), SEGCACHE_OK);
  EXPECT(put(&clients[0], "b", "2", 0), SEGCACHE_OK);
  EXPECT(put(&clients[1], "ab", "3", 0), SEGCACHE_OK);
  EXPECT(put(&clients[0], "a", "1", 0), SEGCACHE_OK);
  EXPECT(segcache_give_back(&cache, &foreign), SEGCACHE_FOREIGN);
  EXPECT(put(&foreign, "b", "x", 0), SEGCACHE_OK);
  EXPECT(segcache_give_back(&another, &foreign), SEGCACHE_OK);
  EXPECT(segcache_give_back(&another, &foreign), SEGCACHE_NO_HANDLE);
  EXPECT(segcache_give_back(&cache, &clients[0]), SEGCACHE_OK);
  EXPECT(segcache_free(&cache), SEGCACHE_CLIENT_OUT);
  EXPECT(segcache_close(&cache, &cursor), SEGCACHE_CLIENT_OUT);
  CHECK(reads(&clients[1], "a", 0, "1")); /* nothing is lost */
  EXPECT(segcache_give_back(&cache, &clients[1]), SEGCACHE_OK);
  EXPECT(segcache_close(&cache, &cursor), SEGCACHE_OK);
  EXPECT(segcache_free(&cache), SEGCACHE_NO_HANDLE);
  const char *keys[] = {"a", "ab", "b"}, *values[] = {"1", "3", "2"};
  for (int i = 0; i < 3; i++) {
    EXPECT(segcache_next(&cursor, key, &key_length, value, &length), SEGCACHE_OK);
    CHECK(key_length == strlen(keys[i]) && memcmp(key, keys[i], key_length) == 0);
    CHECK(length == 1 && value[0] == values[i][0]);
  }
  EXPECT(segcache_next(&cursor, key, &key_length, value, &length), SEGCACHE_END);
  EXPECT(segcache_next(&cursor, key, &key_length, value, &length), SEGCACHE_END);
  EXPECT(segcache_cursor_free(&cursor), SEGCACHE_OK);
  EXPECT(segcache_cursor_free(&cursor), SEGCACHE_NO_HANDLE);
  EXPECT(segcache_free(&another), SEGCACHE_OK);
  CHECK(out == before);
}

/* Opens a cache; after so many allocations one is refused. */
static uint32_t open_refused(long until, segcache *cache, segcache_client clients[3]) {
  until_refused = until;
  uint32_t status = segcache_open(100, 3, cache, clients);
  until_refused = -1;
  return status;
}

/* Each allocation of an open is refused in turn, and nothing stays out. The calls between allocate nothing. */
static void test_memory_of_open(void) {
  segcache cache;
  segcache_client clients[3];
  long before = out, refused = 0;
  for (; open_refused(refused, &cache, clients) == SEGCACHE_OUT_OF_MEMORY; refused++) {
    CHECK(out == before);
    EXPECT(segcache_give_back(&cache, &clients[0]), SEGCACHE_NO_HANDLE);
    EXPECT(segcache_free(&cache), SEGCACHE_NO_HANDLE);
  }
  CHECK(refused >= 3);
  long opened = out;
  for (int i = 0; i < 3; i++) EXPECT(put(&clients[i], "key", "value", 0), SEGCACHE_OK);
  for (int i = 0; i < 3; i++) CHECK(reads(&clients[i], "key", 0, "value"));
  CHECK(out == opened && opened > before);
  for (int i = 0; i < 3; i++) EXPECT(segcache_give_back(&cache, &clients[i]), SEGCACHE_OK);
  EXPECT(segcache_free(&cache), SEGCACHE_OK);
  CHECK(out == before);
}

/* Each allocation of a close is refused in turn: the cache is whole or gone, and nothing stays out. */
static void test_memory_of_close(void) {
  segcache cache;
  segcache_client clients[3];
  segcache_cursor cursor;
  char key[SEGCACHE_MAX_KEY], value[SEGCACHE_MAX_VALUE];
  size_t key_length, length;
  uint32_t status = SEGCACHE_OUT_OF_MEMORY;
  long before = out, refused = 0;
  for (; status == SEGCACHE_OUT_OF_MEMORY; refused++) {
    EXPECT(open_refused(-1, &cache, clients), SEGCACHE_OK);
    EXPECT(put(&clients[0], "key", "value", 0), SEGCACHE_OK);
    for (int i = 0; i < 3; i++) EXPECT(segcache_give_back(&cache, &clients[i]), SEGCACHE_OK);
    until_refused = refused;
    status = segcache_close(&cache, &cursor);
    until_refused = -1;
    if (status == SEGCACHE_OUT_OF_MEMORY) EXPECT(segcache_cursor_free(&cursor), SEGCACHE_NO_HANDLE);
    if (status == SEGCACHE_OUT_OF_MEMORY) segcache_free(&cache);
    if (status == SEGCACHE_OUT_OF_MEMORY) CHECK(out == before);
  }
  CHECK(status == SEGCACHE_OK && refused >= 2);
  EXPECT(segcache_next(&cursor, key, &key_length, value, &length), SEGCACHE_OK);
  EXPECT(segcache_next(&cursor, key, &key_length, value, &length), SEGCACHE_END);
  EXPECT(segcache_cursor_free(&cursor), SEGCACHE_OK);
  CHECK(out == before);
}

/* As many clients as there may be share a cache. */
static void test_most_threads(void) {
  segcache cache;
  segcache_client clients[64];
  segcache_shape shape = {64, 64, 64, 2, 2, 0};
  for (int by_shape = 0; by_shape < 2; by_shape++) {
    EXPECT(by_shape ? segcache_open_shape(&shape, &cache, clients) : segcache_open(1000, 64, &cache, clients),
           SEGCACHE_OK);
    for (int i = 0; i < 64; i++) EXPECT(put(&clients[i], (char[]){(char)('0' + i), 0}, "v", 0), SEGCACHE_OK);
    for (int i = 0; i < 64; i++) CHECK(reads(&clients[63 - i], (char[]){(char)('0' + i), 0}, 0, "v"));
    for (int i = 0; i < 64; i++) EXPECT(segcache_give_back(&cache, &clients[i]), SEGCACHE_OK);
    EXPECT(segcache_free(&cache), SEGCACHE_OK);
  }
}

int main(void) {
  segcache cache;
  segcache_client clients[2];
  long before = out;
  test_debug();
  test_version();
  test_opening();
  test_most_threads();
  EXPECT(segcache_open(1000, 2, &cache, clients), SEGCACHE_OK);
  test_reading_and_writing(&clients[0], &clients[1]);
  test_many(&clients[0], &clients[1]);
  test_many_into(&clients[1]);
  test_bad_arguments(&clients[0]);
  for (int i = 0; i < 2; i++) EXPECT(segcache_give_back(&cache, &clients[i]), SEGCACHE_OK);
  EXPECT(segcache_free(&cache), SEGCACHE_OK);
  test_counts();
  test_keeping();
  test_refusals();
  test_clock();
  test_holds();
  test_notes();
  test_no_handles();
  test_ends();
  test_memory_of_open();
  test_memory_of_close();
  test_shards();
  test_writers();
  test_bytes();
  test_none();
  CHECK(out == before);
  printf("%d checks, %d faults\n", checks, faults);
  return faults == 0 ? 0 : 1;
}
