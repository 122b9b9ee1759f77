// SPDX-License-Identifier: MIT
/* Tests that each function of segcache.h hands its arguments to its export, each in its place, and returns what that
 * one answers, whatever it is. The exports are made up here: each writes down what it was handed. So these tests need
 * no archive, and see what no run of the cache shows, as the moment of a set. */
#include "segcache.h"

#include <signal.h>
#include <stdarg.h>
#include <stdio.h>
#include <sys/wait.h>
#include <unistd.h>

static uint32_t answer;       /* what the exports answer */
static uint32_t answer_ahead; /* what a look ahead answers */
static int in_turn;           /* whether each next call of an export has the next answer */
static char told[400];        /* what the last one was handed */
static char story[40000];     /* what all of them were handed since this was emptied */
static int checks, faults;

/* Appends to the story, as far as it has room. */
static void append(const char *format, ...) {
  size_t end = strlen(story);
  va_list words;
  va_start(words, format);
  vsnprintf(story + end, sizeof story - end, format, words);
  va_end(words);
}

static uint32_t tell(const char *format, ...) {
  va_list words;
  va_start(words, format);
  vsnprintf(told, sizeof told, format, words);
  va_end(words);
  append("%s\n", told);
  return in_turn ? answer++ % 20 : answer;
}

/* Opening and closing fill handles, and so does a note. Each gets a byte of its own, as no two live at one address. */
static char fillings[1024];
static size_t fillings_used;

/* How many of these handles are empty, as all have to be that are to be filled. */
static size_t empty(const segcache_handle *handles, size_t count) {
  size_t found = 0;
  for (size_t i = 0; i < count; i++) found += handles[i].at == NULL && !handles[i].full;
  return found;
}

static uint32_t fill(segcache_handle *handles, size_t count) {
  for (size_t i = 0; answer == SEGCACHE_OK && i < count; i++) {
    handles[i].at = &fillings[fillings_used++];
    handles[i].full = 1;
  }
  return answer;
}

#define BYTES const uint8_t *key, size_t key_len
#define OUT uint8_t *value, size_t room, size_t *value_len
#define IN const uint8_t *value, size_t value_len
#define MANY const uint8_t *keys, size_t keys_len, segcache_lookup *lookups, size_t count, uint32_t now
#define WRITE segcache_handle *client, BYTES, IN, uint32_t now
#define H segcache_handle *
#define AT (void *)

static uint32_t of_version = SEGCACHE_VERSION_NUMBER; /* of the library that is made up */
uint32_t segcache_raw_version(void) { return of_version; }
static uint32_t of_sizes = SEGCACHE_SIZES;
uint32_t segcache_raw_sizes(void) { return of_sizes; }
uint32_t segcache_raw_open(uint32_t keys, uint32_t threads, H cache, H clients, size_t count) {
  tell("open %u %u %zu %zu %zu", keys, threads, count, empty(cache, 1), empty(clients, count));
  fill(cache, 1);
  return fill(clients, count);
}
uint32_t segcache_raw_open_for_writers(uint32_t keys, uint32_t writers, H cache, H clients, size_t count) {
  tell("open_for_writers %u %u %zu %zu %zu", keys, writers, count, empty(cache, 1), empty(clients, count));
  fill(cache, 1);
  return fill(clients, count);
}
uint32_t segcache_raw_open_items(uint32_t items, uint32_t mean_bytes, H cache, H clients, size_t count) {
  tell("open_items %u %u %zu %zu %zu", items, mean_bytes, count, empty(cache, 1), empty(clients, count));
  fill(cache, 1);
  return fill(clients, count);
}
uint32_t segcache_raw_open_bytes(uint64_t bytes, H cache, H clients, size_t count) {
  tell("open_bytes %llu %zu %zu %zu", (unsigned long long)bytes, count, empty(cache, 1), empty(clients, count));
  fill(cache, 1);
  return fill(clients, count);
}
uint32_t segcache_raw_open_shape(const segcache_shape *shape, H cache, H clients, size_t count) {
  tell("open_shape %p %zu %zu %zu", AT shape, count, empty(cache, 1), empty(clients, count));
  fill(cache, 1);
  return fill(clients, count);
}
uint32_t segcache_raw_get(H client, BYTES, OUT, uint32_t now) {
  return tell("get %p %p %zu %p %zu %p %u", AT client, AT key, key_len, AT value, room, AT value_len, now);
}
uint32_t segcache_raw_gets(H client, BYTES, OUT, uint32_t *version, uint32_t now) {
  return tell("gets %p %p %zu %p %zu %p %p %u", AT client, AT key, key_len, AT value, room, AT value_len, AT version,
              now);
}
uint32_t segcache_raw_get_many(H client, MANY) {
  return tell("get_many %p %p %zu %p %zu %u", AT client, AT keys, keys_len, AT lookups, count, now);
}
uint32_t segcache_raw_gets_many(H client, MANY) {
  return tell("gets_many %p %p %zu %p %zu %u", AT client, AT keys, keys_len, AT lookups, count, now);
}
/* The keys are told as texts, and those that aren't among the bytes as question marks. */
uint32_t segcache_raw_look_ahead(H client, const uint8_t *keys, size_t keys_len, const segcache_key_place *places,
                                 size_t count) {
  size_t known = 0;
  append("look_ahead %p %zu:", AT client, count);
  for (size_t i = 0; i < count; i++) {
    int is_among = places[i].key_at <= keys_len && places[i].key_len <= keys_len - places[i].key_at;
    const char *key = is_among ? (const char *)keys + places[i].key_at : "?";
    append(" %.*s", is_among ? (int)places[i].key_len : 1, key);
    known += places[i].key_len;
  }
  append("%s\n", known == keys_len ? "" : " and more");
  return answer_ahead;
}
#define TELL_WRITE(name) tell(name " %p %p %zu %p %zu %u", AT client, AT key, key_len, AT value, value_len, now)
uint32_t segcache_raw_put(WRITE) { return TELL_WRITE("put"); }
uint32_t segcache_raw_put_for(H client, BYTES, IN, uint32_t seconds, uint32_t now) {
  return tell("put_for %p %p %zu %p %zu %u %u", AT client, AT key, key_len, AT value, value_len, seconds, now);
}
uint32_t segcache_raw_set(WRITE) { return TELL_WRITE("set"); }
uint32_t segcache_raw_add(WRITE) { return TELL_WRITE("add"); }
uint32_t segcache_raw_replace(WRITE) { return TELL_WRITE("replace"); }
uint32_t segcache_raw_cas(H client, BYTES, IN, uint32_t version, uint32_t now) {
  return tell("cas %p %p %zu %p %zu %u %u", AT client, AT key, key_len, AT value, value_len, version, now);
}
uint32_t segcache_raw_delete(H client, BYTES, uint32_t now) {
  return tell("delete %p %p %zu %u", AT client, AT key, key_len, now);
}
uint32_t segcache_raw_hold(H client, BYTES, uint32_t now) {
  return tell("hold %p %p %zu %u", AT client, AT key, key_len, now);
}
uint32_t segcache_raw_held_value(H client, OUT) {
  return tell("held_value %p %p %zu %p", AT client, AT value, room, AT value_len);
}
uint32_t segcache_raw_release(H client) { return tell("release %p", AT client); }
uint32_t segcache_raw_note(H client, H note) {
  tell("note %p %p", AT client, AT note);
  return fill(note, 1);
}
uint32_t segcache_raw_learn(H client, H note) { return tell("learn %p %p", AT client, AT note); }
uint32_t segcache_raw_note_free(H note) { return tell("note_free %p", AT note); }
uint32_t segcache_raw_set_time_to_live(H client, uint32_t time) {
  return tell("set_time_to_live %p %u", AT client, time);
}
uint32_t segcache_raw_keep_from(H client, uint32_t cutoff) { return tell("keep_from %p %u", AT client, cutoff); }
uint32_t segcache_raw_make_room(H client, uint32_t now) { return tell("make_room %p %u", AT client, now); }
uint32_t segcache_raw_stats(H client, segcache_stats_t *counts) { return tell("stats %p %p", AT client, AT counts); }
uint32_t segcache_raw_index_stats(H client, segcache_index_stats_t *counts) {
  return tell("index_stats %p %p", AT client, AT counts);
}
uint32_t segcache_raw_give_back(H cache, H client) { return tell("give_back %p %p", AT cache, AT client); }
uint32_t segcache_raw_close(H cache, H cursor) {
  tell("close %p %zu", AT cache, empty(cursor, 1));
  return fill(cursor, 1);
}
uint32_t segcache_raw_next(H cursor, uint8_t *key, size_t key_room, size_t *key_len, OUT) {
  return tell("next %p %p %zu %p %p %zu %p", AT cursor, AT key, key_room, AT key_len, AT value, room, AT value_len);
}
uint32_t segcache_raw_cursor_free(H cursor) { return tell("cursor_free %p", AT cursor); }
uint32_t segcache_raw_free(H cache) { return tell("free %p", AT cache); }

static void check(int line, uint32_t status, uint32_t wanted_status, const char *wanted) {
  checks++;
  if (status == wanted_status && strcmp(told, wanted) == 0) return;
  faults++;
  printf("%d: %u (%s), and not %u (%s)\n", line, status, told, wanted_status, wanted);
}

/* Whatever the export answers, the call answers, and the export was handed this. */
#define PASSES(call, ...)                         \
  for (answer = 0; answer < 20; answer++) {       \
    char wanted[sizeof told];                     \
    told[0] = 0;                                  \
    uint32_t status = (call);                     \
    snprintf(wanted, sizeof wanted, __VA_ARGS__); \
    check(__LINE__, status, answer, wanted);      \
  }

/* The call answers this, and no export was called. */
#define STOPS(call, wanted_status)              \
  do {                                          \
    told[0] = 0;                                \
    uint32_t status = (call);                   \
    check(__LINE__, status, wanted_status, ""); \
  } while (0)

static void test_reads(segcache_client *client) {
  const char key[] = "key";
  uint8_t value[40];
  size_t length;
  uint32_t version;
  segcache_lookup lookups[3] = {{0}};
  void *raw = &client->raw;
  PASSES(segcache_get(client, key, 3, 101, value, 31, &length), "get %p %p 3 %p 31 %p 101", raw, AT key, AT value,
         AT & length);
  PASSES(segcache_gets(client, key, 3, 102, value, 30, &length, &version), "gets %p %p 3 %p 30 %p %p 102", raw, AT key,
         AT value, AT & length, AT & version);
  PASSES(segcache_get_many(client, key, 2, 103, lookups, 3), "get_many %p %p 2 %p 3 103", raw, AT key, AT lookups);
  PASSES(segcache_gets_many(client, key, 1, 104, lookups, 2), "gets_many %p %p 1 %p 2 104", raw, AT key, AT lookups);
  PASSES(segcache_hold(client, key, 2, 105), "hold %p %p 2 105", raw, AT key);
  PASSES(segcache_held_value(client, value, 29, &length), "held_value %p %p 29 %p", raw, AT value, AT & length);
  PASSES(segcache_release(client), "release %p", raw);
}

/* What the exports are to be handed for so many lookups: for each sixteen a look ahead, and then each by itself. */
static void tell_wanted(char *to, size_t room, segcache_client *client, segcache_lookup_into *lookups, size_t count,
                        int versioned) {
  size_t end = 0;
  if (count == 0) snprintf(to, room, "look_ahead %p 0:\n", AT & client->raw);
  for (size_t i = 0; i < count; i++) {
    segcache_lookup_into *it = &lookups[i];
    size_t piece = count - i < 16 ? count - i : 16;
    if (i % 16 == 0) end += (size_t)snprintf(to + end, room - end, "look_ahead %p %zu:", AT & client->raw, piece);
    for (size_t j = i; i % 16 == 0 && j < i + piece; j++) {
      int length = lookups[j].key_len <= SEGCACHE_MAX_KEY ? (int)lookups[j].key_len : 0;
      end += (size_t)snprintf(to + end, room - end, " %.*s", length, (const char *)lookups[j].key);
    }
    if (i % 16 == 0) end += (size_t)snprintf(to + end, room - end, "\n");
    end += (size_t)snprintf(to + end, room - end, "%s %p %p %zu %p %zu %p", versioned ? "gets" : "get",
                            AT & client->raw, AT it->key, it->key_len, it->value, it->room, AT & it->value_len);
    if (versioned) end += (size_t)snprintf(to + end, room - end, " %p", AT & it->version);
    end += (size_t)snprintf(to + end, room - end, " %d\n", versioned ? 107 : 106);
  }
}

/* Keys of many lengths, also of those that no key has, and buffers of many rooms, also of none. Each lookup has what its
 * own get answers, and nothing behind the last one is touched. */
static void test_lookups(segcache_client *client, size_t count, int versioned) {
  enum { MOST = 33, LONGEST = SEGCACHE_MAX_KEY + 2 };
  static char keys[MOST][LONGEST], wanted[sizeof story];
  static uint8_t values[MOST][MOST];
  segcache_lookup_into lookups[MOST + 1];
  for (size_t i = 0; i <= MOST; i++) {
    size_t at = i % MOST, length = i % 11 == 3 ? 0 : i % 11 == 5 ? LONGEST : 1 + i * 7 % SEGCACHE_MAX_KEY;
    memset(keys[at], 'a' + (int)at % 26, LONGEST);
    if (length == LONGEST && i % 2) length = SEGCACHE_MAX_KEY + 1;
    lookups[i] = (segcache_lookup_into){keys[at], length, i == 7 ? NULL : values[at], i == 7 ? 0 : i % MOST, 0, 99, 98};
  }
  tell_wanted(wanted, sizeof wanted, client, lookups, count, versioned);
  for (uint32_t first = 0; first < 20; first++) {
    answer = first, in_turn = 1, story[0] = 0;
    uint32_t status = versioned ? segcache_gets_many_into(client, lookups, count, 107)
                                : segcache_get_many_into(client, lookups, count, 106);
    in_turn = 0;
    checks += 2;
    if (status != SEGCACHE_OK || strcmp(story, wanted) != 0)
      faults++, printf("%zu lookups: %u (%s), and not %s\n", count, status, story, wanted);
    for (size_t i = 0; i <= MOST; i++)
      if (lookups[i].status != (i < count ? (first + i) % 20 : 99) || lookups[i].version != 98)
        faults++, printf("lookup %zu of %zu has %u\n", i, count, lookups[i].status);
  }
  /* Where there is no client, the lookups are as they were. */
  for (size_t i = 0; i < MOST; i++) lookups[i].status = 99;
  answer = SEGCACHE_OK, answer_ahead = SEGCACHE_NO_HANDLE;
  checks++;
  if ((versioned ? segcache_gets_many_into(client, lookups, count, 107)
                 : segcache_get_many_into(client, lookups, count, 106)) != SEGCACHE_NO_HANDLE)
    faults++, printf("%zu lookups of no client are answered\n", count);
  for (size_t i = 0; i < MOST; i++)
    if (lookups[i].status != 99) faults++, printf("lookup %zu of no client has %u\n", i, lookups[i].status);
  answer_ahead = SEGCACHE_OK;
}

static void test_many_into(segcache_client *client) {
  const size_t counts[] = {0, 1, 15, 16, 17, 32, 33};
  for (size_t i = 0; i < 2 * sizeof counts / sizeof *counts; i++) test_lookups(client, counts[i / 2], (int)i % 2);
  answer = SEGCACHE_OK, story[0] = 0;
  STOPS(segcache_get_many_into(client, NULL, 0, 108), SEGCACHE_OK);
}

static void test_writes(segcache_client *client) {
  const char key[] = "key", value[] = "value";
  void *raw = &client->raw;
  PASSES(segcache_put(client, key, 3, value, 5, 201), "put %p %p 3 %p 5 201", raw, AT key, AT value);
  PASSES(segcache_put_for(client, key, 2, value, 1, 78, 208), "put_for %p %p 2 %p 1 78 208", raw, AT key, AT value);
  PASSES(segcache_set(client, key, 2, value, 4, 202), "set %p %p 2 %p 4 202", raw, AT key, AT value);
  PASSES(segcache_add(client, key, 1, value, 3, 203), "add %p %p 1 %p 3 203", raw, AT key, AT value);
  PASSES(segcache_replace(client, key, 3, value, 2, 204), "replace %p %p 3 %p 2 204", raw, AT key, AT value);
  PASSES(segcache_cas(client, key, 2, value, 1, 77, 205), "cas %p %p 2 %p 1 77 205", raw, AT key, AT value);
  PASSES(segcache_delete(client, key, 1, 206), "delete %p %p 1 206", raw, AT key);
  PASSES(segcache_make_room(client, 207), "make_room %p 207", raw);
}

/* A fill is a put by one of the clients: by the only one, or by the same one each time. */
static void test_fill(segcache_client *client) {
  segcache_client clients[3];
  const char key[] = "key", value[] = "value";
  int puts[3] = {0};
  memset(clients, 0, sizeof clients);
  PASSES(segcache_fill(client, 1, key, 3, value, 5, 211), "put %p %p 3 %p 5 211", AT & client->raw, AT key, AT value);
  for (unsigned i = 0; i < 600; i++) {
    void *at = NULL;
    segcache_fill(clients, 3, &i, sizeof i, value, 5, 212);
    sscanf(told, "put %p", &at);
    for (int j = 0; j < 3; j++) puts[j] += at == &clients[j].raw;
    char first[sizeof told];
    strcpy(first, told);
    segcache_fill(clients, 3, &i, sizeof i, value, 5, 212);
    checks++;
    if (strcmp(first, told) != 0) faults++, printf("a key is filled by two clients: %s, %s\n", first, told);
  }
  for (int j = 0; j < 3; j++) {
    checks++;
    if (puts[j] < 150 || puts[j] > 250) faults++, printf("client %d fills %d of 600 keys\n", j, puts[j]);
  }
  STOPS(segcache_fill(clients, 0, key, 3, value, 5, 213), SEGCACHE_NO_HANDLE);
  STOPS(segcache_fill(NULL, 3, key, 3, value, 5, 214), SEGCACHE_NO_HANDLE);
}

static void test_settings(segcache_client *client) {
  segcache_stats_t stats;
  segcache_index_stats_t table;
  void *raw = &client->raw;
  PASSES(segcache_set_time_to_live(client, 301), "set_time_to_live %p 301", raw);
  PASSES(segcache_keep_from(client, 302), "keep_from %p 302", raw);
  PASSES(segcache_keep_nothing(client), "keep_from %p 0", raw);
  PASSES(segcache_stats(client, &stats), "stats %p %p", raw, AT & stats);
  PASSES(segcache_index_stats(client, &table), "index_stats %p %p", raw, AT & table);
}

/* Whether all is zeros. */
static int is_zeroed(const void *at, size_t length) {
  const char *bytes = at;
  while (length > 0 && bytes[length - 1] == 0) length--;
  return length == 0;
}

/* Each of the ways to open a cache with two clients. */
enum { WAYS = 5 };
static uint32_t open_by(int way, const segcache_shape *shape, segcache *cache, segcache_client *clients) {
  switch (way) {
  case 0: return segcache_open(100, 2, cache, clients);
  case 1: return segcache_open_for_writers(100, 2, 1, cache, clients);
  case 2: return segcache_open_items(100, 230, 2, cache, clients);
  case 3: return segcache_open_bytes(100, 2, cache, clients);
  default: return segcache_open_shape(shape, cache, clients);
  }
}

static void test_opening(void) {
  segcache cache;
  segcache_client clients[64];
  segcache_shape shape = {4, 4, 3, 2, 8, 7};
  PASSES(segcache_open(100, 64, &cache, clients), "open 100 64 64 1 64");
  PASSES(segcache_open(99, 0, &cache, clients), "open 99 0 0 1 0");
  PASSES(segcache_open_for_writers(98, 64, 5, &cache, clients), "open_for_writers 98 5 64 1 64");
  PASSES(segcache_open_for_writers(97, 2, 0, &cache, clients), "open_for_writers 97 0 2 1 2");
  PASSES(segcache_open_items(96, 230, 64, &cache, clients), "open_items 96 230 64 1 64");
  PASSES(segcache_open_items(UINT32_MAX, 0, 2, &cache, clients), "open_items 4294967295 0 2 1 2");
  PASSES(segcache_open_items(0, UINT32_MAX, 0, &cache, clients), "open_items 0 4294967295 0 1 0");
  PASSES(segcache_open_bytes(1ull << 40, 64, &cache, clients), "open_bytes 1099511627776 64 1 64");
  PASSES(segcache_open_bytes(3, 2, &cache, clients), "open_bytes 3 2 1 2");
  PASSES(segcache_open_shape(&shape, &cache, clients), "open_shape %p 3 1 3", AT & shape);
  shape.passes = 64;
  PASSES(segcache_open_shape(&shape, &cache, clients), "open_shape %p 64 1 64", AT & shape);
  shape.passes = 2;
  for (int i = 0; i < 2 * WAYS; i++) {
    memset(&cache, 1, sizeof cache);
    memset(clients, 1, sizeof clients);
    answer = i / WAYS ? SEGCACHE_OUT_OF_MEMORY : SEGCACHE_OK;
    open_by(i % WAYS, &shape, &cache, clients);
    int zeroed = is_zeroed(&cache, sizeof cache), of_one = is_zeroed(&clients[1], sizeof *clients);
    checks++;
    if (zeroed != (answer != SEGCACHE_OK) || of_one != zeroed || clients[2].raw.full != 1)
      faults++, printf("an open that answers %u: zeroed %d %d\n", answer, zeroed, of_one);
  }
  memset(clients, 1, sizeof clients);
  STOPS(segcache_open(100, 65, &cache, clients), SEGCACHE_BAD_SHAPE);
  STOPS(segcache_open_for_writers(100, 65, 1, &cache, clients), SEGCACHE_BAD_SHAPE);
  STOPS(segcache_open_items(100, 230, 65, &cache, clients), SEGCACHE_BAD_SHAPE);
  STOPS(segcache_open_bytes(1 << 20, 65, &cache, clients), SEGCACHE_BAD_SHAPE);
  shape.passes = 65;
  STOPS(segcache_open_shape(&shape, &cache, clients), SEGCACHE_BAD_SHAPE);
}

/* A library of another version or of other sizes opens nothing, whatever it is asked for, and the handles are zeroed. */
static void test_others(uint32_t *number, uint32_t (*shown)(void), uint32_t other, uint32_t wanted) {
  segcache cache;
  segcache_client clients[64];
  segcache_shape shape = {4, 4, 2, 2, 8, 7};
  uint32_t before = *number;
  *number = other;
  answer = SEGCACHE_OK;
  for (int i = 0; i < WAYS; i++) {
    memset(&cache, 1, sizeof cache);
    memset(clients, 1, sizeof clients);
    STOPS(open_by(i, &shape, &cache, clients), wanted);
    checks += 2;
    if (shown() != other) faults++, printf("the library has %u, and not %u\n", shown(), other);
    if (!is_zeroed(&cache, sizeof cache) || !is_zeroed(clients, 2 * sizeof *clients))
      faults++, printf("an open by a library that has %u leaves handles\n", other);
  }
  STOPS(segcache_open(100, 65, &cache, clients), wanted);
  *number = before;
}

static void test_belonging(void) {
  const uint32_t sizes[] = {SEGCACHE_SIZES - 1, SEGCACHE_SIZES + (1 << 16), 24 << 16 | 4064, 250 << 16 | 32};
  test_others(&of_version, segcache_version, SEGCACHE_VERSION_NUMBER - 1, SEGCACHE_OTHER_VERSION);
  test_others(&of_version, segcache_version, SEGCACHE_VERSION_NUMBER + 1, SEGCACHE_OTHER_VERSION);
  for (size_t i = 0; i < sizeof sizes / sizeof *sizes; i++)
    test_others(&of_sizes, segcache_sizes, sizes[i], SEGCACHE_OTHER_SIZES);
  of_sizes = 0;
  test_others(&of_version, segcache_version, SEGCACHE_VERSION_NUMBER + 1, SEGCACHE_OTHER_VERSION);
  of_sizes = SEGCACHE_SIZES;
}

/* Notes, and clients that go back: of the same cache, and of another one. */
static void test_homes(segcache *cache, segcache_client *client, segcache *other, segcache_client *foreign) {
  segcache_note_t note = {0}, none = {0};
  PASSES(segcache_note(client, &note), "note %p %p", AT & client->raw, AT & note.raw);
  PASSES(segcache_learn(client, &note), "learn %p %p", AT & client->raw, AT & note.raw);
  PASSES(segcache_note_free(&note), "note_free %p", AT & note.raw);
  PASSES(segcache_give_back(cache, client), "give_back %p %p", AT & cache->raw, AT & client->raw);
  STOPS(segcache_learn(foreign, &note), SEGCACHE_FOREIGN);
  STOPS(segcache_learn(foreign, &none), SEGCACHE_NO_HANDLE);
  STOPS(segcache_give_back(cache, foreign), SEGCACHE_FOREIGN);
  STOPS(segcache_give_back(other, client), SEGCACHE_FOREIGN);
  answer = SEGCACHE_OUT_OF_MEMORY;
  segcache_note(client, &none);
  checks++;
  if (!is_zeroed(&none, sizeof none)) faults++, printf("a note without memory isn't zeroed\n");
}

/* A null handle is none, and no export is needed to say so. The calls stand in none.h. */
enum { CALLS_BY_NONE = __LINE__ };
#define NONE(call)                                                                                 \
  do {                                                                                             \
    told[0] = 0, story[0] = 0;                                                                     \
    check(CALLS_BY_NONE, call, SEGCACHE_NO_HANDLE, "");                                            \
    if (story[0] != 0) faults++, printf("%d: an export has: %s: %s", CALLS_BY_NONE, #call, story); \
  } while (0)
#include "none.h"

static void test_null_handles(segcache *cache, segcache_client *client) {
  static written to;
  segcache_note_t note = {0}, none = {0};
  segcache_cursor cursor;
  answer = SEGCACHE_OK;
  segcache_note(client, &note);
  call_by_no_client(NULL, cache, &note, &to);
  call_by_no_note(NULL, client);
  call_by_no_cache(NULL, client, &cursor);
  call_by_no_cursor(NULL, &to);
  STOPS(segcache_learn(client, &none), SEGCACHE_NO_HANDLE);
  STOPS(segcache_give_back(cache, &(segcache_client){{0}, 0, {0}}), SEGCACHE_NO_HANDLE);
  STOPS(segcache_give_back(&(segcache){{0}, 0}, client), SEGCACHE_NO_HANDLE);
}

/* A look ahead by itself: of the lookups from one on, and of no more than it has room for. */
static void test_look_ahead(segcache_client *client) {
  enum { MOST = 40 };
  static char keys[MOST][4];
  char wanted[sizeof story];
  segcache_lookup_into lookups[MOST];
  for (size_t i = 0; i < MOST; i++)
    lookups[i] = (segcache_lookup_into){keys[i], (size_t)snprintf(keys[i], 4, "%zu", i), NULL, 0, 0, 0, 0};
  for (size_t first = 0; first < MOST; first += 7) {
    for (size_t count = 0; first + count <= MOST; count++) {
      size_t some = count < 16 ? count : 16, end = 0;
      end += (size_t)snprintf(wanted, sizeof wanted, "look_ahead %p %zu:", AT & client->raw, some);
      for (size_t i = 0; i < some; i++) end += (size_t)snprintf(wanted + end, sizeof wanted - end, " %zu", first + i);
      snprintf(wanted + end, sizeof wanted - end, "\n");
      story[0] = 0, answer_ahead = count % 2 ? SEGCACHE_OK : SEGCACHE_NO_HANDLE;
      checks++;
      if (segcache_look_ahead(client, lookups, first, count) != answer_ahead || strcmp(story, wanted) != 0)
        faults++, printf("%d: %zu lookups from %zu on: %s, and not %s\n", __LINE__, count, first, story, wanted);
    }
  }
  answer_ahead = SEGCACHE_OK;
}

#ifdef SEGCACHE_DEBUG
/* The call aborts, in a child. */
#define ABORTS(call)                                                                                                   \
  do {                                                                                                                 \
    int ended = 0;                                                                                                     \
    pid_t child = fork();                                                                                              \
    if (child == 0) {                                                                                                  \
      if (freopen("/dev/null", "w", stderr) == NULL) _exit(2);                                                         \
      (void)(call);                                                                                                    \
      _exit(0);                                                                                                        \
    }                                                                                                                  \
    waitpid(child, &ended, 0);                                                                                         \
    checks++;                                                                                                          \
    if (!WIFSIGNALED(ended) || WTERMSIG(ended) != SIGABRT) faults++, printf("%d: not stopped: %s\n", __LINE__, #call); \
  } while (0)

/* Each fault in one of forty lookups, whichever it is: of the keys and buffers of the sixteen before and behind it. */
static void test_lookups_apart(segcache_client *client) {
  enum { COUNT = 40, ROOM = 8 };
  static char keys[COUNT][4], values[COUNT][ROOM];
  segcache_lookup_into lookups[COUNT], good[COUNT];
  for (size_t i = 0; i < COUNT; i++) good[i] = (segcache_lookup_into){keys[i], 4, values[i], ROOM, 0, 0, 0};
  for (size_t i = 0; i < COUNT; i += 13) {
    size_t other = i >= 16 ? i - 16 : i + 16;
    for (int fault = 0; fault < 10; fault++) {
      memcpy(lookups, good, sizeof good);
      segcache_lookup_into *it = &lookups[i];
      switch (fault) {
      case 0: it->key = NULL; break;
      case 1: it->value = NULL; break;
      case 2: it->key = &lookups[other].status; break;
      case 3: it->value = &lookups[other].status; break;
      case 4: it->value = values[other] + ROOM - 1; break;
      case 5: it->value = keys[other] + 3; break;
      case 6: it->value = keys[i] + 3; break;
      case 7: it->key = values[other]; break;
      case 8: it->value = &lookups[COUNT - 1].version, it->room = 1; break;
      default: it->key = NULL, it->key_len = 0, it->value = NULL, it->room = 0; /* no fault */
      }
      if (fault == 9) {
        answer = SEGCACHE_OK;
        checks++;
        if (segcache_get_many_into(client, lookups, COUNT, 0) != SEGCACHE_OK) faults++, printf("no fault is one\n");
        continue;
      }
      ABORTS(segcache_get_many_into(client, lookups, COUNT, 0));
      ABORTS(segcache_gets_many_into(client, lookups, COUNT, 0));
    }
  }
  ABORTS(segcache_get_many_into(client, NULL, 1, 0));
  ABORTS(segcache_gets_many_into(client, NULL, 1, 0));
}

/* Null pointers with a length, and what is written over something else that is passed. */
static void test_pointers(segcache_client *client, segcache_cursor *cursor) {
  char bytes[100] = "key";
  size_t length, *inside = (size_t *)(void *)(bytes + 8);
  uint32_t version;
  segcache_lookup lookups[2] = {{0}};
  ABORTS(segcache_get(client, NULL, 1, 0, bytes, 32, &length));
  ABORTS(segcache_get(client, "k", 1, 0, NULL, 32, &length));
  ABORTS(segcache_get(client, "k", 1, 0, bytes, 32, NULL));
  ABORTS(segcache_get(client, bytes, 3, 0, bytes + 2, 32, &length));
  ABORTS(segcache_get(client, "k", 1, 0, bytes, 32, inside));
  ABORTS(segcache_gets(client, NULL, 1, 0, bytes, 32, &length, &version));
  ABORTS(segcache_gets(client, "k", 1, 0, NULL, 32, &length, &version));
  ABORTS(segcache_gets(client, "k", 1, 0, bytes, 32, NULL, &version));
  ABORTS(segcache_gets(client, bytes, 3, 0, bytes + 2, 32, &length, &version));
  ABORTS(segcache_gets(client, "k", 1, 0, bytes, 32, inside, &version));
  ABORTS(segcache_get_many(client, NULL, 1, 0, lookups, 1));
  ABORTS(segcache_get_many(client, "k", 1, 0, NULL, 1));
  ABORTS(segcache_get_many(client, &lookups[1], 1, 0, lookups, 2));
  ABORTS(segcache_gets_many(client, NULL, 1, 0, lookups, 1));
  ABORTS(segcache_gets_many(client, "k", 1, 0, NULL, 1));
  ABORTS(segcache_gets_many(client, &lookups[1], 1, 0, lookups, 2));
  test_lookups_apart(client);
  ABORTS(segcache_look_ahead(client, NULL, 0, 1));
  ABORTS(segcache_look_ahead(client, &(segcache_lookup_into){NULL, 1, NULL, 0, 0, 0, 0}, 0, 1));
  ABORTS(segcache_put(client, NULL, 1, "v", 1, 0));
  ABORTS(segcache_put(client, "k", 1, NULL, 1, 0));
  ABORTS(segcache_put_for(client, NULL, 1, "v", 1, 1, 0));
  ABORTS(segcache_put_for(client, "k", 1, NULL, 1, 1, 0));
  ABORTS(segcache_fill(client, 1, NULL, 1, "v", 1, 0));
  ABORTS(segcache_fill(client, 1, "k", 1, NULL, 1, 0));
  ABORTS(segcache_set(client, NULL, 1, "v", 1, 0));
  ABORTS(segcache_set(client, "k", 1, NULL, 1, 0));
  ABORTS(segcache_add(client, NULL, 1, "v", 1, 0));
  ABORTS(segcache_add(client, "k", 1, NULL, 1, 0));
  ABORTS(segcache_replace(client, NULL, 1, "v", 1, 0));
  ABORTS(segcache_replace(client, "k", 1, NULL, 1, 0));
  ABORTS(segcache_cas(client, NULL, 1, "v", 1, 0, 0));
  ABORTS(segcache_cas(client, "k", 1, NULL, 1, 0, 0));
  ABORTS(segcache_delete(client, NULL, 1, 0));
  ABORTS(segcache_hold(client, NULL, 1, 0));
  ABORTS(segcache_held_value(client, NULL, 32, &length));
  ABORTS(segcache_held_value(client, bytes, 32, NULL));
  ABORTS(segcache_held_value(client, bytes, 32, inside));
  ABORTS(segcache_next(cursor, bytes, &length, bytes + 23, &length));
}
#else
static void test_pointers(segcache_client *client, segcache_cursor *cursor) { (void)client, (void)cursor; }
#endif

static void test_end(segcache *cache, segcache_client *client) {
  segcache_cursor cursor;
  char key[SEGCACHE_MAX_KEY], value[SEGCACHE_MAX_VALUE];
  size_t key_len, value_len;
  for (answer = 0; answer <= SEGCACHE_OTHER_SIZES; answer++) {
    memset(&cursor, 1, sizeof cursor);
    uint32_t status = segcache_close(cache, &cursor);
    char wanted[100];
    snprintf(wanted, sizeof wanted, "close %p 1", AT & cache->raw); /* an empty handle, whatever the cursor was */
    check(__LINE__, status, answer, wanted);
    if (cursor.raw.full != (answer == SEGCACHE_OK)) faults++, printf("a cursor of a close that answers %u\n", answer);
  }
  answer = SEGCACHE_OK;
  segcache_close(cache, &cursor);
  test_pointers(client, &cursor);
  PASSES(segcache_next(&cursor, key, &key_len, value, &value_len), "next %p %p %u %p %p %u %p", AT & cursor.raw, AT key,
         SEGCACHE_MAX_KEY, AT & key_len, AT value, SEGCACHE_MAX_VALUE, AT & value_len);
  PASSES(segcache_cursor_free(&cursor), "cursor_free %p", AT & cursor.raw);
  PASSES(segcache_free(cache), "free %p", AT & cache->raw);
}

static void test_texts(void) {
  static const struct {
    uint32_t status;
    const char *text;
  } all[] = {{SEGCACHE_OK, "ok"},
             {SEGCACHE_MISS, "the key is absent"},
             {SEGCACHE_BUSY, "busy: others worked on the key's bucket"},
             {SEGCACHE_NO_ROOM, "no room: no segment can be had"},
             {SEGCACHE_BUCKET_FULL, "the key's bucket is full"},
             {SEGCACHE_NOT_STORED, "not stored"},
             {SEGCACHE_EXISTS, "the bucket was written since the gets"},
             {SEGCACHE_NOT_FOUND, "the key is not found"},
#ifdef SEGCACHE_WIDE
             {SEGCACHE_BAD_KEY, "a key has 1 to 250 bytes"},
             {SEGCACHE_BAD_VALUE, "a value has 4064 bytes at most"},
#else
             {SEGCACHE_BAD_KEY, "a key has 1 to 24 bytes"},
             {SEGCACHE_BAD_VALUE, "a value has 32 bytes at most"},
#endif
             {SEGCACHE_SHORT_BUFFER, "the buffer is too short"},
             {SEGCACHE_BAD_SHAPE, "such a shape cannot be"},
             {SEGCACHE_OUT_OF_MEMORY, "out of memory"},
             {SEGCACHE_NO_HANDLE, "no handle: zeroed, given back or freed"},
             {SEGCACHE_ALREADY_HOLDING, "the client holds an item already"},
             {SEGCACHE_NOT_HOLDING, "the client holds no item"},
             {SEGCACHE_CLIENT_OUT, "a client is still out"},
             {SEGCACHE_FOREIGN, "the client or the note is of another cache"},
             {SEGCACHE_END, "the end"},
             {SEGCACHE_OTHER_VERSION, "the library has another version than segcache.h"},
             {SEGCACHE_OTHER_SIZES, "the library has other sizes of keys and values than segcache.h"},
             {21, "no such status"},
             {UINT32_MAX, "no such status"}};
  for (size_t i = 0; i < sizeof all / sizeof *all; i++) {
    snprintf(told, sizeof told, "%s", segcache_text(all[i].status));
    check(__LINE__, all[i].status, all[i].status, all[i].text);
  }
  segcache_lookup lookup;
  snprintf(told, sizeof told, "%zu", sizeof(segcache_client));
  check(__LINE__, 0, 0, "64"); /* as a cache line */
  snprintf(told, sizeof told, "%u %u %zu", SEGCACHE_MAX_KEY, SEGCACHE_MAX_VALUE, sizeof lookup.value);
#ifdef SEGCACHE_WIDE
  check(__LINE__, SEGCACHE_SIZES, 250 << 16 | 4064, "250 4064 4064");
#else
  check(__LINE__, SEGCACHE_SIZES, 24 << 16 | 32, "24 32 32");
#endif
}

int main(void) {
  segcache cache, other;
  segcache_client client, foreign;
  test_texts();
  test_opening();
  test_belonging();
  answer = SEGCACHE_OK;
  segcache_open(100, 1, &cache, &client);
  segcache_open(100, 1, &other, &foreign);
  test_reads(&client);
  test_many_into(&client);
  test_look_ahead(&client);
  test_writes(&client);
  test_fill(&client);
  test_settings(&client);
  test_homes(&cache, &client, &other, &foreign);
  test_null_handles(&cache, &client);
  test_end(&cache, &client);
  if (fillings_used > sizeof fillings) faults++, printf("%zu handles were filled\n", fillings_used);
  printf("%d checks, %d faults\n", checks, faults);
  return faults == 0 ? 0 : 1;
}
