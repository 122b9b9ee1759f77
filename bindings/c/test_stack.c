// SPDX-License-Identifier: MIT
/* Tests how much stack the calls need: rule 6 of segcache.h says it. Each call runs on a stack of its own that was
 * painted before; what isn't painted any longer was used. All calls are made with short items, and with the longest. */
#define _GNU_SOURCE
#include "segcache.h"

#include <pthread.h>
#include <stdio.h>
#include <stdlib.h>
#include <sys/mman.h>

enum { STACK = 1024 * 1024, PAINT = 0xa5, ITEMS = 5000, ROOM = 1000, MANY = 100, MOST_ROWS = 68 };

static segcache cache;
static segcache_client clients[2];
static segcache_cursor cursor;
static segcache_note_t note;
static int faults;

/* What the tests read into. It isn't part of a stack that is measured. */
static uint8_t read_key[SEGCACHE_MAX_KEY], read_value[SEGCACHE_MAX_VALUE];
static size_t read_len;
static uint32_t version;
static segcache_lookup lookups[MANY];
static segcache_lookup_into into[MANY];

/* The key of an item begins with its number. */
static size_t key_len, value_len;
static uint8_t key[SEGCACHE_MAX_KEY], value[SEGCACHE_MAX_VALUE];

static const void *key_of(uint32_t number) {
  memcpy(key, &number, sizeof number);
  return key;
}

static void expect(uint32_t status, uint32_t wanted) {
  if (status != wanted) faults++, printf("%s, and not: %s\n", segcache_text(status), segcache_text(wanted));
}

static void nothing(void) {}

static void free_all(uint32_t count) {
  for (uint32_t i = 0; i < count; i++) expect(segcache_give_back(&cache, &clients[i]), SEGCACHE_OK);
  expect(segcache_free(&cache), SEGCACHE_OK);
}

static void open_fill_and_free(void) {
  expect(segcache_open(ROOM, 2, &cache, clients), SEGCACHE_OK);
  expect(segcache_fill(clients, 2, "k", 1, "v", 1, 0), SEGCACHE_OK);
  free_all(2);
}

static void open_items(void) {
  expect(segcache_open_items(ROOM, (uint32_t)(key_len + value_len), 2, &cache, clients), SEGCACHE_OK);
  free_all(2);
}

static void open_bytes(void) {
  expect(segcache_open_bytes(1 << 20, 2, &cache, clients), SEGCACHE_OK);
  free_all(2);
}

static void open_shape(void) {
  segcache_shape shape = {.buckets = 64, .overflow = 16, .passes = 1, .segments_each = 4, .rows = 16};
  expect(segcache_open_shape(&shape, &cache, clients), SEGCACHE_OK);
  free_all(1);
}

/* With room for fewer items than are put, of whatever length. */
static void open_for_writers(void) {
  uint32_t rows = value_len > 32 ? MOST_ROWS : 1;
  expect(segcache_open_for_writers(ROOM * rows, 2, 2, &cache, clients), SEGCACHE_OK);
}

static void settings(void) {
  expect(segcache_set_time_to_live(&clients[1], 60), SEGCACHE_OK);
  expect(segcache_keep_from(&clients[1], 2), SEGCACHE_OK);
  expect(segcache_keep_nothing(&clients[1]), SEGCACHE_OK);
}

/* More than there is room for, so segments are recycled, with items that are kept. */
static void put(void) {
  for (uint32_t item = 0; item < ITEMS; item++) {
    expect(segcache_put(&clients[0], key_of(item), key_len, value, value_len, item), SEGCACHE_OK);
    segcache_get(&clients[0], key_of(item), key_len, item, read_value, sizeof read_value, &read_len);
  }
}

static void get(void) {
  expect(segcache_get(&clients[1], key_of(ITEMS - 1), key_len, 0, read_value, sizeof read_value, &read_len),
         SEGCACHE_OK);
  expect(segcache_gets(&clients[1], key_of(ITEMS - 1), key_len, 0, read_value, sizeof read_value, &read_len, &version),
         SEGCACHE_OK);
  expect(segcache_get(&clients[1], "absent", 6, 0, read_value, sizeof read_value, &read_len), SEGCACHE_MISS);
}

static void get_many(void) {
  for (size_t i = 0; i < MANY; i++) {
    lookups[i] = (segcache_lookup){.key_len = key_len};
    into[i] = (segcache_lookup_into){key_of(ITEMS - 1), key_len, read_value, sizeof read_value, 0, 0, 0};
  }
  expect(segcache_get_many(&clients[1], key_of(ITEMS - 1), key_len, 0, lookups, MANY), SEGCACHE_OK);
  expect(segcache_gets_many(&clients[1], key_of(ITEMS - 1), key_len, 0, lookups, MANY), SEGCACHE_OK);
  expect(segcache_get_many_into(&clients[1], into, MANY, 0), SEGCACHE_OK);
  expect(segcache_gets_many_into(&clients[1], into, MANY, 0), SEGCACHE_OK);
  if (lookups[0].status != SEGCACHE_OK || into[0].status != SEGCACHE_OK) faults++, printf("nothing was found\n");
}

static void write_and_delete(void) {
  const void *one = key_of(ITEMS);
  expect(segcache_make_room(&clients[0], 0), SEGCACHE_OK);
  expect(segcache_put_for(&clients[0], one, key_len, value, value_len, UINT32_MAX, 0), SEGCACHE_OK);
  expect(segcache_set(&clients[0], one, key_len, value, value_len, 0), SEGCACHE_OK);
  expect(segcache_add(&clients[0], one, key_len, value, value_len, 0), SEGCACHE_NOT_STORED);
  expect(segcache_replace(&clients[0], one, key_len, value, value_len, 0), SEGCACHE_OK);
  expect(segcache_gets(&clients[0], one, key_len, 0, read_value, sizeof read_value, &read_len, &version), SEGCACHE_OK);
  expect(segcache_cas(&clients[0], one, key_len, value, value_len, version, 0), SEGCACHE_OK);
  expect(segcache_delete(&clients[0], one, key_len, 0), SEGCACHE_OK);
}

static void hold(void) {
  expect(segcache_hold(&clients[1], key_of(ITEMS - 1), key_len, 0), SEGCACHE_OK);
  expect(segcache_held_value(&clients[1], read_value, sizeof read_value, &read_len), SEGCACHE_OK);
  expect(segcache_release(&clients[1]), SEGCACHE_OK);
}

static void take_note(void) {
  expect(segcache_note(&clients[0], &note), SEGCACHE_OK);
  expect(segcache_learn(&clients[1], &note), SEGCACHE_OK);
  expect(segcache_note(&clients[0], &note), SEGCACHE_OK);
  expect(segcache_note_free(&note), SEGCACHE_OK);
}

static void count(void) {
  segcache_stats_t stats;
  segcache_index_stats_t table;
  expect(segcache_stats(&clients[0], &stats), SEGCACHE_OK);
  expect(segcache_index_stats(&clients[0], &table), SEGCACHE_OK);
  if (stats.keys_evicted == 0 || stats.items_kept == 0) faults++, printf("no segment was recycled\n");
}

static void close_cache(void) {
  for (int i = 0; i < 2; i++) expect(segcache_give_back(&cache, &clients[i]), SEGCACHE_OK);
  expect(segcache_close(&cache, &cursor), SEGCACHE_OK);
}

static void list(void) {
  size_t read_key_len, pairs = 0;
  while (segcache_next(&cursor, read_key, &read_key_len, read_value, &read_len) == SEGCACHE_OK) pairs++;
  if (pairs == 0) faults++, printf("nothing is listed\n");
  expect(segcache_cursor_free(&cursor), SEGCACHE_OK);
}

static void *run(void *argument) {
  (*(void (**)(void))argument)();
  return NULL;
}

/* How many bytes of a stack a call uses, and the thread below it. */
static size_t used_by(void (*call)(void)) {
  uint8_t *stack = mmap(NULL, STACK, PROT_READ | PROT_WRITE, MAP_PRIVATE | MAP_ANONYMOUS | MAP_STACK, -1, 0);
  pthread_attr_t attributes;
  pthread_t thread;
  size_t unused = 0;
  if (stack == MAP_FAILED) exit(2);
  memset(stack, PAINT, STACK);
  pthread_attr_init(&attributes);
  pthread_attr_setstack(&attributes, stack, STACK);
  if (pthread_create(&thread, &attributes, run, &call) != 0) exit(2);
  pthread_join(thread, NULL);
  while (unused < STACK && stack[unused] == PAINT) unused++;
  munmap(stack, STACK);
  return STACK - unused;
}

/* Makes all calls with items whose keys and values have so many bytes. */
static void measure(size_t key_bytes, size_t value_bytes) {
  static const struct {
    const char *name;
    void (*call)(void);
  } calls[] = {{"open, fill, free", open_fill_and_free},
               {"open items", open_items},
               {"open bytes", open_bytes},
               {"open a shape", open_shape},
               {"open for writers", open_for_writers},
               {"put", put},
               {"get", get},
               {"get many", get_many},
               {"put_for, write, delete", write_and_delete},
               {"hold", hold},
               {"note", take_note},
               {"count", count},
               {"settings", settings},
               {"close", close_cache},
               {"list", list}};
  size_t bare = used_by(nothing);
  key_len = key_bytes, value_len = value_bytes;
  for (size_t i = 0; i < sizeof calls / sizeof *calls; i++) {
    size_t used = used_by(calls[i].call) - bare;
    printf("%s, values of %zu bytes: %zu bytes of stack\n", calls[i].name, value_bytes, used);
    if (used > SEGCACHE_STACK) faults++, printf("that is more than %u\n", SEGCACHE_STACK);
  }
}

int main(void) {
  measure(4, 32);
  measure(SEGCACHE_MAX_KEY, SEGCACHE_MAX_VALUE);
  return faults == 0 ? 0 : 1;
}
