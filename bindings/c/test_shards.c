// SPDX-License-Identifier: MIT
/* Tests of a cache of several tables: each answer, and allocations that fail. */
#include "test.h"

enum {
  KEYS = 300000, /* more than one table has room for */
  FILLED = 5000, /* of these so many are put */
  THREADS = 2,
  TABLES = 3,
  MORE_KEYS = 500000, /* of these 200,000 have a table at most */
};

static size_t name(char key[16], unsigned i) { return (size_t)snprintf(key, 16, "key %u", i); }

/* Whether the pair is of the one key that its digits name; counts the key. */
static int is_pair(const char *key, size_t key_length, const char *value, size_t length, unsigned char *seen) {
  char text[25] = "", wanted[16];
  unsigned i = 0;
  memcpy(text, key, key_length);
  if (sscanf(text, "key %u", &i) != 1 || i >= FILLED || name(wanted, i) != key_length) return 0;
  seen[i]++;
  return memcmp(wanted, key, key_length) == 0 && length == sizeof i && memcmp(value, &i, sizeof i) == 0;
}

static void fill(segcache_client *clients) {
  char key[16];
  for (unsigned i = 0; i < FILLED; i++)
    EXPECT(segcache_put(&clients[i % THREADS], key, name(key, i), &i, sizeof i, 0), SEGCACHE_OK);
}

static void give_back(segcache *cache, segcache_client *clients) {
  for (int i = 0; i < THREADS; i++) EXPECT(segcache_give_back(cache, &clients[i]), SEGCACHE_OK);
}

/* Each key by a get, and by gets of several keys at a time. */
static void test_reads(segcache_client *client) {
  enum { PIECE = 40 };
  char keys[PIECE * 16], value[32];
  segcache_lookup lookups[PIECE];
  size_t length, at;
  uint32_t version;
  for (unsigned i = 0; i < FILLED; i++) {
    EXPECT(segcache_get(client, keys, name(keys, i), 0, value, sizeof value, &length), SEGCACHE_OK);
    CHECK(length == sizeof i && memcmp(value, &i, sizeof i) == 0);
  }
  for (unsigned first = 0; first < FILLED; first += PIECE) {
    at = 0;
    for (unsigned i = 0; i < PIECE; i++, at += 16)
      lookups[i] = (segcache_lookup){.key_at = at, .key_len = name(&keys[at], first + i)};
    EXPECT(segcache_gets_many(client, keys, sizeof keys, 0, lookups, PIECE), SEGCACHE_OK);
    for (unsigned i = 0; i < PIECE; i++) {
      unsigned wanted = first + i;
      EXPECT(lookups[i].status, SEGCACHE_OK);
      CHECK(lookups[i].value_len == sizeof i && memcmp(lookups[i].value, &wanted, sizeof i) == 0);
      EXPECT(segcache_gets(client, &keys[16 * i], lookups[i].key_len, 0, value, 32, &length, &version), SEGCACHE_OK);
      CHECK(version == lookups[i].version);
    }
  }
}

/* An item is held in one table, and no other in any. */
static void test_hold(segcache_client *client) {
  char key[16], value[32];
  size_t length;
  for (unsigned i = 0; i < 20; i++) {
    EXPECT(segcache_hold(client, key, name(key, i), 0), SEGCACHE_OK);
    for (unsigned j = 0; j < 20; j++) EXPECT(segcache_hold(client, key, name(key, j), 0), SEGCACHE_ALREADY_HOLDING);
    EXPECT(segcache_held_value(client, value, sizeof value, &length), SEGCACHE_OK);
    CHECK(length == sizeof i && memcmp(value, &i, sizeof i) == 0);
    EXPECT(segcache_release(client), SEGCACHE_OK);
    EXPECT(segcache_release(client), SEGCACHE_NOT_HOLDING);
    EXPECT(segcache_held_value(client, value, sizeof value, &length), SEGCACHE_NOT_HOLDING);
  }
  EXPECT(segcache_hold(client, "none", 4, 0), SEGCACHE_MISS);
  EXPECT(segcache_hold(client, key, name(key, 0), 0), SEGCACHE_OK); /* ends as the client is given back */
}

/* A client that has put nothing has no room in any table. It makes room in the one that a write asked for,
   and then in each. */
static void test_room(segcache *cache, segcache_client *client) {
  char key[16];
  unsigned none = 0;
  EXPECT(segcache_set(client, key, name(key, 0), "x", 1, 0), SEGCACHE_NO_ROOM);
  EXPECT(segcache_make_room(client, 0), SEGCACHE_OK);
  EXPECT(segcache_set(client, key, name(key, 0), "x", 1, 0), SEGCACHE_OK);
  for (unsigned i = 1; i < 100; i++) none += segcache_set(client, key, name(key, i), "x", 1, 0) == SEGCACHE_NO_ROOM;
  CHECK(none > 20 && none < 80); /* those of the other table */
  EXPECT(segcache_set(client, key, name(key, 0), "x", 1, 0), SEGCACHE_OK);
  EXPECT(segcache_make_room(client, 0), SEGCACHE_OK);
  for (unsigned i = 1; i < 100; i++) EXPECT(segcache_set(client, key, name(key, i), "x", 1, 0), SEGCACHE_OK);
  EXPECT(segcache_give_back(cache, client), SEGCACHE_OK);
}

static void test_calls(void) {
  segcache cache;
  segcache_client clients[THREADS];
  segcache_cursor cursor;
  segcache_note_t note = {{0}, 0};
  segcache_stats_t counts;
  segcache_index_stats_t table;
  static unsigned char seen[FILLED];
  char key[SEGCACHE_MAX_KEY], value[SEGCACHE_MAX_VALUE];
  size_t key_length, length, listed = 0;
  long before = out;
  EXPECT(segcache_open(KEYS, THREADS, &cache, clients), SEGCACHE_OK);
  test_room(&cache, &clients[1]);
  EXPECT(segcache_give_back(&cache, &clients[0]), SEGCACHE_OK);
  EXPECT(segcache_free(&cache), SEGCACHE_OK);
  CHECK(out == before);
  EXPECT(segcache_open(KEYS, THREADS, &cache, clients), SEGCACHE_OK);
  fill(clients);
  for (int i = 0; i < THREADS; i++) test_reads(&clients[i]);
  EXPECT(segcache_stats(&clients[0], &counts), SEGCACHE_OK);
  CHECK(counts.stored == FILLED / 2 && counts.hits == 3 * FILLED && counts.misses == 0);
  EXPECT(segcache_index_stats(&clients[0], &table), SEGCACHE_OK);
  CHECK(table.used_rows == FILLED / 2 && table.named_rows == FILLED / 2);
  EXPECT(segcache_note(&clients[0], &note), SEGCACHE_OK);
  EXPECT(segcache_learn(&clients[1], &note), SEGCACHE_OK);
  test_hold(&clients[1]);
  give_back(&cache, clients);
  EXPECT(segcache_close(&cache, &cursor), SEGCACHE_OK);
  for (; segcache_next(&cursor, key, &key_length, value, &length) == SEGCACHE_OK; listed++)
    CHECK(is_pair(key, key_length, value, length, seen));
  EXPECT(segcache_next(&cursor, key, &key_length, value, &length), SEGCACHE_END);
  CHECK(listed == FILLED);
  for (unsigned i = 0; i < FILLED; i++) CHECK(seen[i] == 1);
  EXPECT(segcache_cursor_free(&cursor), SEGCACHE_OK);
  CHECK(out == before);
}

/* Each allocation of an open is refused in turn, and nothing stays out. */
static void test_memory_of_open(void) {
  segcache cache;
  segcache_client clients[THREADS];
  long before = out, refused = 0;
  uint32_t status;
  do {
    until_refused = refused++;
    status = segcache_open(KEYS, THREADS, &cache, clients);
    until_refused = -1;
    if (status == SEGCACHE_OUT_OF_MEMORY) CHECK(out == before);
    if (status == SEGCACHE_OUT_OF_MEMORY) EXPECT(segcache_free(&cache), SEGCACHE_NO_HANDLE);
  } while (status == SEGCACHE_OUT_OF_MEMORY);
  EXPECT(status, SEGCACHE_OK);
  CHECK(refused > 12);
  give_back(&cache, clients);
  EXPECT(segcache_free(&cache), SEGCACHE_OK);
  CHECK(out == before);
}

/* Each allocation of a close, and of the cursor's, is refused in turn: what isn't lost is listed once. */
static void test_memory_of_close(void) {
  segcache cache;
  segcache_client clients[THREADS];
  segcache_cursor cursor;
  char key[SEGCACHE_MAX_KEY], value[SEGCACHE_MAX_VALUE];
  size_t key_length, length;
  long before = out, refused = 0, losses = 0;
  for (int whole = 0; !whole; refused++) {
    unsigned char seen[FILLED] = {0};
    size_t listed = 0;
    long losses_before = losses;
    uint32_t status;
    EXPECT(segcache_open(KEYS, THREADS, &cache, clients), SEGCACHE_OK);
    fill(clients);
    give_back(&cache, clients);
    until_refused = refused;
    status = segcache_close(&cache, &cursor);
    if (status == SEGCACHE_OK) {
      do {
        status = segcache_next(&cursor, key, &key_length, value, &length);
        losses += status == SEGCACHE_OUT_OF_MEMORY;
        listed += status == SEGCACHE_OK;
        if (status == SEGCACHE_OK) CHECK(is_pair(key, key_length, value, length, seen));
      } while (status == SEGCACHE_OK || status == SEGCACHE_OUT_OF_MEMORY);
      EXPECT(status, SEGCACHE_END);
      CHECK(listed > FILLED / 4 && listed <= FILLED);
      CHECK((listed == FILLED) == (losses == losses_before)); /* a table is left out only where an answer says so */
      whole = until_refused >= 0;
      CHECK(!whole || listed == FILLED);
      for (unsigned i = 0; i < FILLED; i++) CHECK(seen[i] <= 1);
      EXPECT(segcache_cursor_free(&cursor), SEGCACHE_OK);
    } else {
      EXPECT(status, SEGCACHE_OUT_OF_MEMORY);
      EXPECT(segcache_cursor_free(&cursor), SEGCACHE_NO_HANDLE);
      segcache_free(&cache);
    }
    until_refused = -1;
    CHECK(out == before);
  }
  CHECK(losses > 0);
}

/* How many tables are left out where memory is refused from this allocation of a close on. Each answer that isn't a pair
 * leaves one out, and then comes the end. `ends` has how many allocations there were when so many tables were closed. */
static unsigned left_out_of(long refused, long ends[TABLES]) {
  segcache cache;
  segcache_client clients[THREADS];
  segcache_cursor cursor;
  char key[SEGCACHE_MAX_KEY], value[SEGCACHE_MAX_VALUE];
  size_t key_length, length;
  unsigned char seen[FILLED] = {0};
  unsigned listed = 0, left_out = 0, closed = 0;
  uint32_t status;
  long before = out, begin;
  EXPECT(segcache_open(MORE_KEYS, THREADS, &cache, clients), SEGCACHE_OK);
  fill(clients);
  give_back(&cache, clients);
  begin = requests, until_refused = refused, stays_refused = 1;
  EXPECT(segcache_close(&cache, &cursor), SEGCACHE_OK);
  ends[closed++] = requests - begin;
  while (listed + left_out <= FILLED + TABLES) {
    long asked = requests;
    status = segcache_next(&cursor, key, &key_length, value, &length);
    if (requests > asked && closed < TABLES) ends[closed++] = requests - begin;
    if (status == SEGCACHE_END) break;
    if (status == SEGCACHE_OK) CHECK(left_out == 0 && is_pair(key, key_length, value, length, seen));
    else EXPECT(status, SEGCACHE_OUT_OF_MEMORY);
    if (status == SEGCACHE_OK) listed++;
    else left_out++;
  }
  EXPECT(segcache_next(&cursor, key, &key_length, value, &length), SEGCACHE_END);
  until_refused = -1, stays_refused = 0;
  for (unsigned i = 0; i < FILLED; i++) CHECK(seen[i] <= 1);
  CHECK((listed == FILLED) == (left_out == 0));
  /* Each table has about a third. */
  CHECK(listed > (TABLES - left_out) * (FILLED / 4) && (left_out == 0 || listed < (TABLES - left_out) * (FILLED / 2)));
  EXPECT(segcache_cursor_free(&cursor), SEGCACHE_OK);
  CHECK(out == before);
  return left_out;
}

/* The close of the second table is refused at each of its allocations, and with it that of the third. */
static void test_memory_that_stays_refused(void) {
  long ends[TABLES] = {0}, others[TABLES];
  CHECK(left_out_of(-1, ends) == 0);
  CHECK(0 < ends[0] && ends[0] < ends[1] && ends[1] < ends[2]);
  for (long refused = ends[0]; refused < ends[1]; refused++) CHECK(left_out_of(refused, others) == 2);
  CHECK(left_out_of(ends[1], others) == 1);
  CHECK(left_out_of(ends[2] - 1, others) == 1);
  CHECK(left_out_of(ends[2], others) == 0);
}

void test_shards(void) {
  test_calls();
  test_memory_that_stays_refused();
  test_memory_of_open();
  test_memory_of_close();
}
