// SPDX-License-Identifier: MIT
/* Tests of the wide build: items of several rows. They run over its archive; and over the stand-in of server/tests, a map
 * that has no rows, as far as it shows what they check. test_wide [COMMANDS OF A THREAD] */
#include "test.h"

#include <math.h>
#include <pthread.h>

#ifdef STAND_IN
enum { OF_LIBRARY = 0 };
#else
enum { OF_LIBRARY = 1 };
#endif

enum {
  NOW = 2, /* the stand-in refuses an earlier moment */
  MOST_THREADS = 4,
  GUARD = 0xa5,
  MEAN = 230, /* bytes of key and value of an item by its number */
};

/* --- Items: what they hold follows from a number and a length --- */

static uint32_t mixed(uint32_t number) {
  number = (number ^ number >> 16) * 0x7feb352du;
  number = (number ^ number >> 15) * 0x846ca68bu;
  return number ^ number >> 16;
}

/* The bytes of a key or a value, of which no two numbers or lengths have the same. */
static void write_bytes(uint32_t number, size_t length, uint8_t *to) {
  uint32_t state = mixed(number) ^ mixed((uint32_t)length + 7);
  for (size_t i = 0; i < length; i++) {
    if (i % 4 == 0) state = mixed(state + 1);
    to[i] = (uint8_t)(state >> i % 4 * 8);
  }
}

static int are_bytes(uint32_t number, size_t length, const uint8_t *bytes) {
  uint8_t wanted[SEGCACHE_MAX_VALUE];
  if (length > sizeof wanted) return 0;
  write_bytes(number, length, wanted);
  return memcmp(wanted, bytes, length) == 0;
}

/* The key of a number, which begins with the number. It has four bytes at least. */
static void write_key(uint32_t number, size_t length, uint8_t *key) {
  write_bytes(number, length, key);
  memcpy(key, &number, sizeof number);
}

static size_t key_length_of(uint32_t number) { return 8 + mixed(number + 1) % 33; }

/* Key and value have a log-normal length together, of mean MEAN. */
static size_t value_length_of(uint32_t number) {
  double one = (mixed(number + 2) + 1.0) / 4294967297.0, other = mixed(number + 3) / 4294967296.0;
  double length = exp(log(MEAN) - 0.5 + sqrt(-2 * log(one)) * cos(6.283185307179586 * other));
  double rest = length - (double)key_length_of(number);
  return rest < 0 ? 0 : rest > SEGCACHE_MAX_VALUE ? SEGCACHE_MAX_VALUE : (size_t)rest;
}

static uint32_t put_sized(segcache_client *client, uint32_t number, size_t key_length, size_t length) {
  uint8_t key[SEGCACHE_MAX_KEY], value[SEGCACHE_MAX_VALUE];
  write_key(number, key_length, key);
  write_bytes(number, length, value);
  return segcache_put(client, key, key_length, value, length, NOW);
}

static uint32_t put_number(segcache_client *client, uint32_t number) {
  return put_sized(client, number, key_length_of(number), value_length_of(number));
}

/* Whether the key of a number reads its value, of this length, into a buffer of just that room. */
static int is_sized(segcache_client *client, uint32_t number, size_t key_length, size_t length) {
  uint8_t key[SEGCACHE_MAX_KEY], value[SEGCACHE_MAX_VALUE + 1];
  size_t found = 0;
  write_key(number, key_length, key);
  memset(value, GUARD, sizeof value);
  uint32_t status = segcache_get(client, key, key_length, NOW, value, length, &found);
  if (status == SEGCACHE_MISS) return 0;
  CHECK(status == SEGCACHE_OK && found == length && are_bytes(number, length, value) && value[length] == GUARD);
  return 1;
}

static int is_there(segcache_client *client, uint32_t number) {
  return is_sized(client, number, key_length_of(number), value_length_of(number));
}

static uint32_t count_there(segcache_client *client, uint32_t numbers) {
  uint32_t there = 0;
  for (uint32_t number = 0; number < numbers; number++) there += (uint32_t)is_there(client, number);
  return there;
}

static segcache_stats_t counts_of(segcache_client *clients, uint32_t threads) {
  segcache_stats_t sum = {0}, stats;
  for (uint32_t i = 0; i < threads; i++) {
    EXPECT(segcache_stats(&clients[i], &stats), SEGCACHE_OK);
    sum.keys_evicted += stats.keys_evicted;
    sum.items_kept += stats.items_kept;
  }
  return sum;
}

static void give_back(segcache *cache, segcache_client *clients, uint32_t threads) {
  for (uint32_t i = 0; i < threads; i++) EXPECT(segcache_give_back(cache, &clients[i]), SEGCACHE_OK);
  EXPECT(segcache_free(cache), SEGCACHE_OK);
}

/* --- Lengths --- */

/* What each call that reads makes of a buffer of so much room. */
static void test_room(segcache_client *client, const uint8_t *key, size_t key_length, uint32_t number, size_t length,
                      size_t room) {
  for (int call = 0; call < 5; call++) {
    uint8_t value[SEGCACHE_MAX_VALUE + 1];
    size_t found = 77;
    uint32_t version = 0, status;
    segcache_lookup_into lookup = {key, key_length, value, room, 77, 99, 0};
    memset(value, GUARD, sizeof value);
    switch (call) {
    case 0: status = segcache_get(client, key, key_length, NOW, value, room, &found); break;
    case 1: status = segcache_gets(client, key, key_length, NOW, value, room, &found, &version); break;
    case 2: status = segcache_held_value(client, value, room, &found); break;
    default:
      EXPECT(call == 3 ? segcache_get_many_into(client, &lookup, 1, NOW)
                       : segcache_gets_many_into(client, &lookup, 1, NOW),
             SEGCACHE_OK);
      status = lookup.status, found = lookup.value_len;
    }
    EXPECT(status, room < length ? SEGCACHE_SHORT_BUFFER : SEGCACHE_OK);
    CHECK(found == length);
    if (room >= length) CHECK(are_bytes(number, length, value));
    for (size_t i = room < length ? 0 : length; i < sizeof value; i++)
      if (value[i] != GUARD) faults++, printf("byte %zu of a buffer of %zu is written\n", i, room);
  }
}

/* A cas by the version of a gets, in room that is made for it. */
static uint32_t swap(segcache_client *client, const uint8_t *key, size_t key_length, const uint8_t *value,
                     size_t length) {
  uint8_t old[SEGCACHE_MAX_VALUE];
  size_t old_length;
  uint32_t version = 0, status;
  EXPECT(segcache_gets(client, key, key_length, NOW, old, sizeof old, &old_length, &version), SEGCACHE_OK);
  status = segcache_cas(client, key, key_length, value, length, version, NOW);
  if (status != SEGCACHE_NO_ROOM) return status;
  EXPECT(segcache_make_room(client, NOW), SEGCACHE_OK);
  EXPECT(segcache_gets(client, key, key_length, NOW, old, sizeof old, &old_length, &version), SEGCACHE_OK);
  return segcache_cas(client, key, key_length, value, length, version, NOW);
}

static const size_t lengths[] = {0, 31, 32, 33, 96, 97, SEGCACHE_MAX_VALUE};
enum { LENGTHS = sizeof lengths / sizeof *lengths };

/* An item of each length, from its put to its delete. */
static void test_lengths(segcache_client *one, segcache_client *other) {
  const size_t key_lengths[] = {4, 24, 25, SEGCACHE_MAX_KEY};
  uint8_t key[SEGCACHE_MAX_KEY], value[SEGCACHE_MAX_VALUE];
  size_t length;
  for (uint32_t number = 0; number < 4 * LENGTHS; number++) {
    size_t key_length = key_lengths[number / LENGTHS], now_long = lengths[number % LENGTHS];
    size_t next_long = lengths[(number + 3) % LENGTHS];
    EXPECT(put_sized(one, number, key_length, now_long), SEGCACHE_OK);
    write_key(number, key_length, key);
    EXPECT(segcache_hold(other, key, key_length, NOW), SEGCACHE_OK);
    test_room(other, key, key_length, number, now_long, now_long);
    test_room(other, key, key_length, number, now_long, sizeof value);
    if (now_long > 0) test_room(other, key, key_length, number, now_long, now_long - 1);
    if (now_long > 0) test_room(other, key, key_length, number, now_long, 0);
    write_bytes(number, next_long, value);
    EXPECT(swap(one, key, key_length, value, next_long), SEGCACHE_OK);
    CHECK(is_sized(other, number, key_length, next_long));
    EXPECT(segcache_held_value(other, value, sizeof value, &length), SEGCACHE_OK); /* what was there before */
    CHECK(length == now_long && are_bytes(number, length, value));
    EXPECT(segcache_release(other), SEGCACHE_OK);
    key[key_length - 1] ^= 1;
    EXPECT(segcache_get(other, key, key_length, NOW, value, sizeof value, &length), SEGCACHE_MISS);
    key[key_length - 1] ^= 1;
    EXPECT(segcache_get(other, key, key_length - 1, NOW, value, sizeof value, &length), SEGCACHE_MISS);
    EXPECT(segcache_delete(other, key, key_length, NOW), SEGCACHE_OK);
    CHECK(!is_sized(one, number, key_length, next_long));
  }
}

/* One byte more than a key or a value has. */
static void test_bad_lengths(segcache_client *client) {
  uint8_t key[SEGCACHE_MAX_KEY + 1] = "key", value[SEGCACHE_MAX_VALUE + 1] = "value";
  const size_t key_length = sizeof key, length = sizeof value;
  size_t found;
  uint32_t version;
  segcache_lookup_into lookup = {key, key_length, value, length, 77, 99, 0};
  EXPECT(segcache_put(client, key, key_length, value, 1, NOW), SEGCACHE_BAD_KEY);
  EXPECT(segcache_put_for(client, key, key_length, value, 1, 9, NOW), SEGCACHE_BAD_KEY);
  EXPECT(segcache_add(client, key, key_length, value, 1, NOW), SEGCACHE_BAD_KEY);
  EXPECT(segcache_cas(client, key, key_length, value, 1, 0, NOW), SEGCACHE_BAD_KEY);
  EXPECT(segcache_delete(client, key, key_length, NOW), SEGCACHE_BAD_KEY);
  EXPECT(segcache_hold(client, key, key_length, NOW), SEGCACHE_BAD_KEY);
  EXPECT(segcache_get(client, key, key_length, NOW, value, length, &found), SEGCACHE_BAD_KEY);
  EXPECT(segcache_gets(client, key, key_length, NOW, value, length, &found, &version), SEGCACHE_BAD_KEY);
  EXPECT(segcache_get_many_into(client, &lookup, 1, NOW), SEGCACHE_OK);
  EXPECT(lookup.status, SEGCACHE_BAD_KEY);
  EXPECT(segcache_put(client, key, 3, value, length, NOW), SEGCACHE_BAD_VALUE);
  EXPECT(segcache_put_for(client, key, 3, value, length, 9, NOW), SEGCACHE_BAD_VALUE);
  EXPECT(segcache_add(client, key, 3, value, length, NOW), SEGCACHE_BAD_VALUE);
  EXPECT(segcache_cas(client, key, 3, value, length, 0, NOW), SEGCACHE_BAD_VALUE);
  EXPECT(segcache_get(client, key, 3, NOW, value, length, &found), SEGCACHE_MISS);
}

/* Each lookup of many has its own answer: a value, one that is a byte too long for its buffer, a miss, a key too long. */
static void test_many(segcache_client *one, segcache_client *other) {
  enum { MOST = 65 };
  static uint8_t keys[MOST][SEGCACHE_MAX_KEY + 1], values[MOST][SEGCACHE_MAX_VALUE];
  const size_t counts[] = {0, 1, 15, 16, 17, 33, MOST};
  segcache_lookup_into lookups[MOST];
  for (uint32_t number = 0; number < MOST; number++)
    if (number % 4 != 2) EXPECT(put_number(one, number), SEGCACHE_OK);
  for (size_t i = 0; i < 2 * sizeof counts / sizeof *counts; i++) {
    size_t count = counts[i / 2];
    for (uint32_t number = 0; number < MOST; number++) {
      size_t length = value_length_of(number), key_length = key_length_of(number);
      write_key(number, key_length, keys[number]);
      memset(values[number], GUARD, sizeof values[number]);
      if (number % 4 == 3) key_length = SEGCACHE_MAX_KEY + 1;
      if (number % 4 == 1 && length > 0) length--;
      lookups[number] = (segcache_lookup_into){keys[number], key_length, values[number], length, 77, 99, 0};
    }
    EXPECT(i % 2 ? segcache_gets_many_into(other, lookups, count, NOW)
                 : segcache_get_many_into(other, lookups, count, NOW),
           SEGCACHE_OK);
    for (uint32_t number = 0; number < MOST; number++) {
      const segcache_lookup_into *it = &lookups[number];
      size_t length = value_length_of(number);
      uint32_t wanted = number % 4 == 2     ? SEGCACHE_MISS
                        : number % 4 == 3   ? SEGCACHE_BAD_KEY
                        : it->room < length ? SEGCACHE_SHORT_BUFFER
                                            : SEGCACHE_OK;
      CHECK(it->status == (number < count ? wanted : 99));
      if (it->status == SEGCACHE_OK) CHECK(are_bytes(number, length, values[number]));
      else CHECK(values[number][0] == GUARD);
      CHECK(it->value_len == (it->status == SEGCACHE_OK || it->status == SEGCACHE_SHORT_BUFFER ? length : 77));
    }
  }
}

/* --- Room --- */

/* So many items fit into a cache for them, whose lengths have the mean that was said. */
static void test_items(uint32_t items, uint32_t threads) {
  segcache cache;
  segcache_client clients[MOST_THREADS];
  size_t sum = 0;
  EXPECT(segcache_open_items(items, MEAN, threads, &cache, clients), SEGCACHE_OK);
  for (uint32_t number = 0; number < items; number++) {
    EXPECT(put_number(&clients[number % threads], number), SEGCACHE_OK);
    sum += key_length_of(number) + value_length_of(number);
  }
  CHECK(sum / items > MEAN * 9 / 10 && sum / items < MEAN * 11 / 10);
  CHECK(count_there(&clients[threads - 1], items) == items);
  CHECK(counts_of(clients, threads).keys_evicted == 0);
  give_back(&cache, clients, threads);
}

/* The same for items of one length, from those of one row to the longest. For the mean a short key counts as one of 24
 * bytes. The cache takes 134 bytes for each planned row, 40 to 80 for each item, and some for the client. */
static void test_items_of(uint32_t items, size_t key, size_t length) {
  enum { LEAST_KEY = 24, CLIENT = 26000 };
  segcache cache;
  segcache_client client;
  size_t mean = (key < LEAST_KEY ? LEAST_KEY : key) + length;
  long planned = (long)((mean + 8 + 63) / 64), before = bytes_out;
  EXPECT(segcache_open_items(items, (uint32_t)mean, 1, &cache, &client), SEGCACHE_OK);
  if (OF_LIBRARY) {
    CHECK(bytes_out - before >= (long)items * (134 * planned + 40));
    CHECK(bytes_out - before <= (long)items * (134 * planned + 80) + CLIENT);
  }
  for (uint32_t number = 0; number < items; number++) EXPECT(put_sized(&client, number, key, length), SEGCACHE_OK);
  for (uint32_t number = 0; number < items; number++) CHECK(is_sized(&client, number, key, length));
  CHECK(counts_of(&client, 1).keys_evicted == 0);
  give_back(&cache, &client, 1);
}

/* A cache by bytes takes no more, from its opening on, whatever is stored. So many bytes for each item are enough, two
 * for one that the cache has for good, since an opening needs as much again. */
static void test_budget(long bytes, uint32_t threads, long percent) {
  segcache cache;
  segcache_client clients[MOST_THREADS];
  uint32_t items = (uint32_t)(bytes / 1200);
  long before = bytes_out;
  most_bytes_out = before;
  EXPECT(segcache_open_bytes((uint64_t)bytes, threads, &cache, clients), SEGCACHE_OK);
  for (uint32_t number = 0; number < items; number++)
    EXPECT(put_number(&clients[number % threads], number), SEGCACHE_OK);
  CHECK(count_there(&clients[0], items) == items);
  for (uint32_t number = items; number < 5 * items; number++)
    EXPECT(put_number(&clients[number % threads], number), SEGCACHE_OK);
  uint32_t there = count_there(&clients[0], 5 * items);
  CHECK(there >= items);
  if (OF_LIBRARY) {
    CHECK(counts_of(clients, threads).keys_evicted > 0);
    CHECK(most_bytes_out - before <= bytes);
    CHECK(most_bytes_out - before >= bytes / 100 * percent);
  }
  give_back(&cache, clients, threads);
  if (OF_LIBRARY) CHECK(bytes_out == before);
}

/* More items than there is room for. One of several rows that is read all the while is moved each time, and whole. No
 * call asks for memory. */
static void test_eviction(size_t often_long) {
  enum { OFTEN = 1000000, ITEMS = 1000, PUT = 12 * ITEMS };
  segcache cache;
  segcache_client client;
  uint32_t found = 0;
  EXPECT(segcache_open_items(ITEMS, MEAN, 1, &cache, &client), SEGCACHE_OK);
  long before = requests;
  EXPECT(put_sized(&client, OFTEN, 30, often_long), SEGCACHE_OK);
  for (uint32_t number = 0; number < PUT; number++) {
    EXPECT(put_number(&client, number), SEGCACHE_OK);
    if (number % 3 == 2) found += (uint32_t)is_sized(&client, OFTEN, 30, often_long);
  }
  uint32_t there = count_there(&client, PUT);
  segcache_stats_t counts = counts_of(&client, 1);
  CHECK(there >= ITEMS - 1 && there < PUT);
  CHECK(counts.keys_evicted >= PUT - there);
  if (OF_LIBRARY) CHECK(requests == before && found == PUT / 3 && counts.items_kept > 0);
  give_back(&cache, &client, 1);
}

/* An item of more rows than a segment has isn't stored, and others are. */
static void test_too_long(void) {
  segcache cache;
  segcache_client client;
  EXPECT(segcache_open_items(100, 64, 1, &cache, &client), SEGCACHE_OK); /* 7 rows in a segment */
  EXPECT(put_sized(&client, 1, 24, 7 * 64 - 32), SEGCACHE_OK);
  EXPECT(put_sized(&client, 2, 24, 7 * 64 - 31), SEGCACHE_NO_ROOM);
  CHECK(!is_sized(&client, 2, 24, 7 * 64 - 31));
  EXPECT(put_sized(&client, 3, 24, 7 * 64 - 32), SEGCACHE_OK);
  CHECK(is_sized(&client, 3, 24, 7 * 64 - 32));
  give_back(&cache, &client, 1);
}

/* --- The end of a cache --- */

static void test_content(void) {
  enum { ITEMS = 300 };
  segcache cache;
  segcache_client clients[2];
  segcache_cursor cursor;
  uint8_t key[SEGCACHE_MAX_KEY], value[SEGCACHE_MAX_VALUE], wanted[SEGCACHE_MAX_KEY];
  unsigned char seen[ITEMS] = {0};
  size_t key_length, length;
  EXPECT(segcache_open_items(5000, MEAN, 2, &cache, clients), SEGCACHE_OK);
  for (uint32_t number = 0; number < ITEMS; number++) EXPECT(put_number(&clients[number % 2], number), SEGCACHE_OK);
  for (int i = 0; i < 2; i++) EXPECT(segcache_give_back(&cache, &clients[i]), SEGCACHE_OK);
  EXPECT(segcache_close(&cache, &cursor), SEGCACHE_OK);
  while (segcache_next(&cursor, key, &key_length, value, &length) == SEGCACHE_OK) {
    uint32_t number;
    memcpy(&number, key, sizeof number);
    int is_item = number < ITEMS && key_length == key_length_of(number) && length == value_length_of(number);
    CHECK(is_item && are_bytes(number, length, value));
    if (!is_item) continue;
    write_key(number, key_length, wanted);
    CHECK(memcmp(key, wanted, key_length) == 0);
    seen[number]++;
  }
  for (int i = 0; i < ITEMS; i++) CHECK(seen[i] == 1);
  EXPECT(segcache_cursor_free(&cursor), SEGCACHE_OK);
}

/* --- Threads --- */

enum { KEYS = 300, AT_ONCE = 20 };
static int commands = 20000;

struct worker {
  segcache_client client;
  uint32_t seed;
  long wrong, hits, stored, refused;
};

static uint32_t draw(struct worker *worker, uint32_t below) {
  worker->seed = worker->seed * 1664525u + 1013904223u;
  return (uint32_t)((uint64_t)worker->seed * below >> 32);
}

/* Mostly short, up to the longest. */
static size_t draw_length(struct worker *worker) {
  uint32_t most = draw(worker, 8) ? 600 : SEGCACHE_MAX_VALUE + 1;
  return draw(worker, most);
}

/* The bytes of a value follow from its key and its length. So a part of another item, or of an older value of another
 * length, is seen. */
static void check_value(struct worker *worker, uint32_t status, uint32_t number, const uint8_t *value, size_t length) {
  if (status == SEGCACHE_OK && are_bytes(number, length, value)) worker->hits++;
  else if (status != SEGCACHE_MISS && status != SEGCACHE_BUSY) worker->wrong++;
}

static void check_write(struct worker *worker, uint32_t status) {
  if (status == SEGCACHE_OK) worker->stored++;
  else if (status == SEGCACHE_BUSY || status == SEGCACHE_NO_ROOM || status == SEGCACHE_BUCKET_FULL ||
           status == SEGCACHE_EXISTS)
    worker->refused++;
  else worker->wrong++;
}

static void read_many(struct worker *worker) {
  static _Thread_local uint8_t keys[AT_ONCE][SEGCACHE_MAX_KEY], values[AT_ONCE][SEGCACHE_MAX_VALUE];
  segcache_lookup_into lookups[AT_ONCE];
  uint32_t numbers[AT_ONCE];
  for (int i = 0; i < AT_ONCE; i++) {
    numbers[i] = draw(worker, KEYS);
    size_t length = key_length_of(numbers[i]);
    write_key(numbers[i], length, keys[i]);
    lookups[i] = (segcache_lookup_into){keys[i], length, values[i], sizeof values[i], 0, 99, 0};
  }
  if (segcache_get_many_into(&worker->client, lookups, AT_ONCE, NOW) != SEGCACHE_OK) worker->wrong++;
  for (int i = 0; i < AT_ONCE; i++) check_value(worker, lookups[i].status, numbers[i], values[i], lookups[i].value_len);
}

static void work_once(struct worker *worker) {
  segcache_client *client = &worker->client;
  uint32_t number = draw(worker, KEYS), version = 0, status;
  uint8_t key[SEGCACHE_MAX_KEY], value[SEGCACHE_MAX_VALUE];
  size_t key_length = key_length_of(number), length = draw_length(worker), found = 0;
  write_key(number, key_length, key);
  switch (draw(worker, 16)) {
  case 0:
    status = segcache_delete(client, key, key_length, NOW);
    if (status != SEGCACHE_OK && status != SEGCACHE_NOT_FOUND && status != SEGCACHE_BUSY) worker->wrong++;
    break;
  case 1: read_many(worker); break;
  case 2:
    status = segcache_hold(client, key, key_length, NOW);
    if (status == SEGCACHE_OK) {
      status = segcache_held_value(client, value, sizeof value, &found);
      if (segcache_release(client) != SEGCACHE_OK) worker->wrong++;
    }
    check_value(worker, status, number, value, found);
    break;
  case 3:
    status = segcache_gets(client, key, key_length, NOW, value, sizeof value, &found, &version);
    check_value(worker, status, number, value, found);
    if (status != SEGCACHE_OK) break;
    write_bytes(number, length, value);
    status = segcache_cas(client, key, key_length, value, length, version, NOW);
    if (status != SEGCACHE_NOT_FOUND) check_write(worker, status);
    break;
  case 4:
  case 5:
  case 6:
  case 7:
    write_bytes(number, length, value);
    check_write(worker, segcache_put(client, key, key_length, value, length, NOW));
    break;
  default:
    status = segcache_get(client, key, key_length, NOW, value, length, &found);
    if (status == SEGCACHE_SHORT_BUFFER && found > length) break;
    check_value(worker, status, number, value, found);
  }
}

static void *work(void *argument) {
  for (int i = 0; i < commands; i++) work_once(argument);
  return NULL;
}

static void test_threads(void) {
  segcache cache;
  segcache_client clients[MOST_THREADS];
  struct worker workers[MOST_THREADS];
  pthread_t threads[MOST_THREADS];
  EXPECT(segcache_open_items(2500, MEAN, MOST_THREADS, &cache, clients), SEGCACHE_OK);
  for (uint32_t i = 0; i < MOST_THREADS; i++) {
    workers[i] = (struct worker){.client = clients[i], .seed = 77 * i};
    pthread_create(&threads[i], NULL, work, &workers[i]);
  }
  for (int i = 0; i < MOST_THREADS; i++) pthread_join(threads[i], NULL);
  for (int i = 0; i < MOST_THREADS; i++) {
    struct worker *worker = &workers[i];
    printf("hits=%ld stored=%ld refused=%ld wrong=%ld\n", worker->hits, worker->stored, worker->refused, worker->wrong);
    CHECK(worker->wrong == 0 && worker->hits > 0 && worker->stored > 0);
    clients[i] = worker->client;
  }
  give_back(&cache, clients, MOST_THREADS);
}

int main(int count, char **words) {
  segcache cache;
  segcache_client clients[2];
  long before = out;
  if (count > 1) commands = atoi(words[1]); /* fewer under valgrind */
  EXPECT(segcache_open_items(1000, 4000, 2, &cache, clients), SEGCACHE_OK);
  test_lengths(&clients[0], &clients[1]);
  test_bad_lengths(&clients[0]);
  test_many(&clients[0], &clients[1]);
  give_back(&cache, clients, 2);
  test_debug();
  test_items(1000, 4); /* a small cache */
  test_items(20000, 4);
  test_items(OF_LIBRARY ? 60000 : 5000, 1); /* in two tables */
  test_items_of(5000, 24, 32);
  test_items_of(5000, 8, 48); /* which take two rows */
  test_items_of(5000, 24, 97);
  test_items_of(1000, 24, 2000);
  test_items_of(300, 24, SEGCACHE_MAX_VALUE);
  test_budget(1 << 20, 1, 40);
  test_budget(4 << 20, 4, 40);
  test_budget(12 << 20, 2, 60);
  if (OF_LIBRARY) test_budget(64 << 20, 4, 70); /* the map has too few buckets for as many items */
  test_eviction(300);
  test_eviction(3000);
  if (OF_LIBRARY) test_too_long();
  test_content();
  test_threads();
  if (OF_LIBRARY) CHECK(out == before);
  printf("%d checks, %d faults\n", checks, faults);
  return faults == 0 ? 0 : 1;
}
