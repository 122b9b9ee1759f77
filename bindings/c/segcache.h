// SPDX-License-Identifier: MIT
/* The cache for C (C99 and later) and C++ (C++11 and later), by gcc or clang: a library over the proved index.
 *
 *     segcache cache; segcache_client clients[4];
 *     if (segcache_open(100000, 4, &cache, clients) != SEGCACHE_OK) return 1;
 *     ... each of four threads calls segcache_get(&clients[i], ..), segcache_put(&clients[i], ..) ...
 *     for (i = 0; i < 4; i++) segcache_give_back(&cache, &clients[i]);
 *     segcache_free(&cache);
 *
 * SHAPES. A key has 1 to 24 bytes, a value 0 to 32: SEGCACHE_MAX_KEY and SEGCACHE_MAX_VALUE. -DSEGCACHE_WIDE makes them
 * 250 and 4,064, for the library's wide build, libsegcachewide.a. A key is its bytes: a final NUL counts only if the
 * length counts it.
 *
 * CLOCK. `now` is the caller's clock, in units of the caller's choice (seconds since the start, say). Times to live have
 * the unit of `now`. When it is 4294967295 every key is absent; a clock in milliseconds is there after 49 days. With no
 * time to live set, any smaller number will do. Clocks of threads can differ and go back: a call with an earlier `now`
 * can find what has expired for others. So read the clock right before each call.
 *
 * ROWS. The room of a cache is rows of 64 bytes. In the default build each item takes one row. In the wide build an
 * item takes as many as hold 8 bytes, its key and its value, where key and value are rounded up to a multiple of 8, and
 * the key to 24 at least. That is one row for a key of 24 and a value of 32, and 68 for the longest. The rows of an item
 * stand in one segment. Of each table a client has 64 segments or more, unless a shape says otherwise. An item that has
 * more rows than a segment is never stored: a put or a set of it is NO_ROOM, whatever room is made. So a client that has
 * 4,352 rows in each table, 64 times 68, can store every item.
 *
 * ANSWERS. Each call on a handle returns a status, SEGCACHE_OK or another of the list below. A null or freed
 * handle and a key or value of a bad length are answers, and the call did nothing. A pointer that a call writes
 * through must not be null, nor the shape of an open. Of these only a value's buffer may be null, if its size is 0.
 * With a short buffer the read was made, a get or gets counted, and the length is written.
 *
 * WHAT IS PROVED, and under which conditions. In both builds the functions behind these
 * (segcache_raw_..) are proved under Rattle to be safe and to return, over a proved cache. Of each it is proved
 * what it did for which status: of a client's the client's own call, for the key, the value and the moment that
 * it was given, and what it wrote where; of open, which handles it wrote; of give_back, what went back where; of
 * close, that the cursor has the content. The repository's gate proves that, and PROVED.txt of a package says of
 * its archives by what they were proved. That memory is given back is tested. The proofs take for granted what no
 * prover checks of C. Keep all of these:
 *   1. A client serves one call at a time. Another thread may take it over by a lock, or at the start or
 *      the end (join) of a thread. The same goes for a cache, a cursor and a note. Different clients of a
 *      cache may be called at the same time; that is what they are for.
 *   2. A handle (segcache, segcache_client, segcache_cursor, segcache_note_t) comes from this library or is
 *      zeroed. It may be moved, but never used in two copies: a copy is dead once the other one was called.
 *   3. A pointer and its length are true: so many bytes can be read, or written. A pointer is null only
 *      with the length 0. What a call writes (value, lengths, version, handles) overlaps nothing else
 *      that is passed to it.
 *   4. malloc, realloc and free come from one allocator, and align to 16 bytes.
 *   5. No call from a signal handler, and none in a forked child of a program with threads.
 *   6. A thread that calls has SEGCACHE_STACK bytes of stack left, as each has that wasn't made with a small
 *      stack. The program has one copy of the library, and the names segcache_raw_.. and segcache_opened are its.
 * Compiled with -DSEGCACHE_DEBUG, each call checks some of 1, 2 and 3, and aborts with one line on standard
 * error where it finds a breach, or where more than 4,096 handles live. Its checks take a lock, so calls can wait for
 * each other there. Compile all files of a program alike.
 */
#ifndef SEGCACHE_H
#define SEGCACHE_H

#include <stddef.h>
#include <stdint.h>
#include <string.h>
#ifdef __GLIBC__
#include <malloc.h>
#endif

#ifdef __cplusplus
#pragma GCC diagnostic push /* what is right in C, and is written so for C++, too */
#pragma GCC diagnostic ignored "-Wold-style-cast"
#pragma GCC diagnostic ignored "-Wzero-as-null-pointer-constant"
extern "C" {
#endif

enum {
  SEGCACHE_OK = 0,
  SEGCACHE_MISS = 1,          /* the key was absent at a moment of the call */
  SEGCACHE_BUSY = 2,          /* others worked on the key's bucket all the while: call again */
  SEGCACHE_NO_ROOM = 3,       /* no segment that expires in time has a row left: make_room, or put again later */
  SEGCACHE_BUCKET_FULL = 4,   /* the key's bucket has no free word: go on without */
  SEGCACHE_NOT_STORED = 5,    /* an add of a key that is present, a replace of one that is not */
  SEGCACHE_EXISTS = 6,        /* a cas: the bucket was written since the gets */
  SEGCACHE_NOT_FOUND = 7,     /* a cas or a delete: the key is absent */
  SEGCACHE_BAD_KEY = 8,       /* no byte, or more than SEGCACHE_MAX_KEY */
  SEGCACHE_BAD_VALUE = 9,     /* more than SEGCACHE_MAX_VALUE bytes */
  SEGCACHE_SHORT_BUFFER = 10, /* nothing was copied; the length says how much room is needed */
  SEGCACHE_BAD_SHAPE = 11,    /* a shape, or a number of keys or of threads, that cannot be */
  SEGCACHE_OUT_OF_MEMORY = 12,
  SEGCACHE_NO_HANDLE = 13,       /* the handle is null, zeroed, given back or freed; or that of a new note is in use */
  SEGCACHE_ALREADY_HOLDING = 14, /* the client holds an item: release that first */
  SEGCACHE_NOT_HOLDING = 15,     /* the client holds no item */
  SEGCACHE_CLIENT_OUT = 16,      /* a client of the cache was not given back */
  SEGCACHE_FOREIGN = 17,         /* the client or the note is of another cache */
  SEGCACHE_END = 18,             /* of a cursor: no pair is left */
  SEGCACHE_OTHER_VERSION = 19,   /* of an open: the library isn't of this header's version */
  SEGCACHE_OTHER_SIZES = 20      /* of an open: the library has longer or shorter keys or values than this header */
};

/* The version of this header. segcache_version has the library's, as a number: 1,000,000 times the first number of the
   version, 10,000 times the second and 100 times the third. A release has 1 more than what came before it (-dev). */
#define SEGCACHE_VERSION "0.4.0-dev"
#define SEGCACHE_VERSION_NUMBER 40000u

/* SEGCACHE_STACK: bytes of stack that are enough for each call: measured with short and with the longest items. */
#ifdef SEGCACHE_WIDE
#define SEGCACHE_MAX_KEY 250u
#define SEGCACHE_MAX_VALUE 4064u
#define SEGCACHE_STACK 49152u
#else
#define SEGCACHE_MAX_KEY 24u
#define SEGCACHE_MAX_VALUE 32u
#define SEGCACHE_STACK 16384u
#endif
#define SEGCACHE_SIZES (SEGCACHE_MAX_KEY << 16 | SEGCACHE_MAX_VALUE) /* of this header: both numbers in one */
#define SEGCACHE_MAX_THREADS 64u
#define SEGCACHE_AHEAD 16u /* keys that a look ahead takes at a time */

/* What a handle is to the library. Its content is the library's own. */
typedef struct segcache_handle {
  void *at;
  uint8_t full; /* 0 or 1 */
} segcache_handle;

/* A cache. Zeroed, it is none. */
typedef struct segcache {
  segcache_handle raw;
  uint64_t number; /* no other cache of the program ever has it */
} segcache;

/* A client: what one thread calls the cache by. Zeroed, it is none. As large as a cache line, so that
   clients in an array do not slow each other down. */
typedef struct segcache_client {
  segcache_handle raw;
  uint64_t home; /* the number of its cache */
  char apart[64 - sizeof(segcache_handle) - sizeof(uint64_t)];
} segcache_client;

/* The content of a closed cache, from pair to pair. Zeroed, it is none. */
typedef struct segcache_cursor {
  segcache_handle raw;
} segcache_cursor;

/* What a client had seen when it made the note. Zeroed, it is none. */
typedef struct segcache_note_t {
  segcache_handle raw;
  uint64_t home; /* the number of that client's cache */
} segcache_note_t;

/* The size of a cache with one table. segcache_open makes shapes up from a number of keys. Each bucket, overflow bucket
   and row takes 64 bytes, and each segment 8: 512 MiB at most, and twice that for a moment while it is opened. Clients
   take 3 bytes more for each row, one for each eight rows of a segment, and 56 for each segment. Of several segments a
   client that keeps by queues holds two free, or three if they have one row; one that keeps from a frequency holds one,
   and one that keeps nothing none. */
typedef struct segcache_shape {
  uint32_t buckets;       /* a power of two, 65536 at most; a bucket has words for 7 keys */
  uint32_t overflow;      /* overflow buckets, 65536 at most, each for 6 keys more of one bucket */
  uint32_t passes;        /* clients, 1 to 64 */
  uint32_t segments_each; /* segments of each client, 1 to 1024 */
  uint32_t rows;          /* rows of a segment, 1 to 4096; in the default build each item takes one */
  uint32_t first_version; /* the version that all buckets begin with; 0 will do */
} segcache_shape;

/* How many calls of one client came to what; holds aren't counted. keys_evicted has the keys that stood, expired ones
   among them. Where nothing expires, more than 0 says that the client had too little room for what it stored, that a
   bucket was full, or that a segment was held. */
typedef struct segcache_stats_t {
  uint64_t hits, misses; /* of get and gets, and of each key of get_many and gets_many */
  uint64_t stored, not_stored, exists, not_found, deleted, no_room, bucket_full, busy;
  uint64_t segments_refilled, items_kept, keys_evicted; /* by make_room, and by all calls that store */
} segcache_stats_t;

/* How full the tables are: the sums over all tables of the cache. */
typedef struct segcache_index_stats_t {
  uint32_t overflow_buckets; /* in use, of all chains */
  uint32_t used_rows;        /* of this client's segments */
  uint32_t named_rows;       /* those of them that a key stands for; the others are dead */
} segcache_index_stats_t;

/* A key of segcache_get_many or segcache_gets_many, and what came of it. */
typedef struct segcache_lookup {
  size_t key_at, key_len, value_len; /* the key's bytes are those from keys + key_at on */
  uint32_t status, version;          /* version: of segcache_gets_many alone */
  uint8_t value[SEGCACHE_MAX_VALUE];
} segcache_lookup;

/* A key of segcache_get_many_into or segcache_gets_many_into, a buffer for its value, and what came of it. */
typedef struct segcache_lookup_into {
  const void *key;
  size_t key_len;
  void *value;
  size_t room, value_len;   /* the bytes of the buffer, and those of the value */
  uint32_t status, version; /* version: of segcache_gets_many_into alone */
} segcache_lookup_into;

/* The place of a key among the bytes of segcache_raw_look_ahead. */
typedef struct segcache_key_place {
  size_t key_at, key_len;
} segcache_key_place;

/* --- The exports of the library. Programs call the functions below these. ---------------------------- */

uint32_t segcache_raw_version(void);
uint32_t segcache_raw_sizes(void);
uint32_t segcache_raw_open(uint32_t keys, uint32_t threads, segcache_handle *cache, segcache_handle *clients,
                           size_t clients_len);
uint32_t segcache_raw_open_for_writers(uint32_t keys, uint32_t writers, segcache_handle *cache,
                                       segcache_handle *clients, size_t clients_len);
uint32_t segcache_raw_open_items(uint32_t items, uint32_t mean_bytes, segcache_handle *cache, segcache_handle *clients,
                                 size_t clients_len);
uint32_t segcache_raw_open_bytes(uint64_t bytes, segcache_handle *cache, segcache_handle *clients, size_t clients_len);
uint32_t segcache_raw_open_shape(const segcache_shape *shape, segcache_handle *cache, segcache_handle *clients,
                                 size_t clients_len);
uint32_t segcache_raw_get(segcache_handle *client, const uint8_t *key, size_t key_len, uint8_t *value, size_t room,
                          size_t *value_len, uint32_t now);
uint32_t segcache_raw_gets(segcache_handle *client, const uint8_t *key, size_t key_len, uint8_t *value, size_t room,
                           size_t *value_len, uint32_t *version, uint32_t now);
uint32_t segcache_raw_get_many(segcache_handle *client, const uint8_t *keys, size_t keys_len, segcache_lookup *lookups,
                               size_t count, uint32_t now);
uint32_t segcache_raw_gets_many(segcache_handle *client, const uint8_t *keys, size_t keys_len, segcache_lookup *lookups,
                                size_t count, uint32_t now);
uint32_t segcache_raw_look_ahead(segcache_handle *client, const uint8_t *keys, size_t keys_len,
                                 const segcache_key_place *places, size_t places_len);
uint32_t segcache_raw_put(segcache_handle *client, const uint8_t *key, size_t key_len, const uint8_t *value,
                          size_t value_len, uint32_t now);
uint32_t segcache_raw_put_for(segcache_handle *client, const uint8_t *key, size_t key_len, const uint8_t *value,
                              size_t value_len, uint32_t seconds, uint32_t now);
uint32_t segcache_raw_set(segcache_handle *client, const uint8_t *key, size_t key_len, const uint8_t *value,
                          size_t value_len, uint32_t now);
uint32_t segcache_raw_add(segcache_handle *client, const uint8_t *key, size_t key_len, const uint8_t *value,
                          size_t value_len, uint32_t now);
uint32_t segcache_raw_replace(segcache_handle *client, const uint8_t *key, size_t key_len, const uint8_t *value,
                              size_t value_len, uint32_t now);
uint32_t segcache_raw_cas(segcache_handle *client, const uint8_t *key, size_t key_len, const uint8_t *value,
                          size_t value_len, uint32_t version, uint32_t now);
uint32_t segcache_raw_delete(segcache_handle *client, const uint8_t *key, size_t key_len, uint32_t now);
uint32_t segcache_raw_hold(segcache_handle *client, const uint8_t *key, size_t key_len, uint32_t now);
uint32_t segcache_raw_held_value(segcache_handle *client, uint8_t *value, size_t room, size_t *value_len);
uint32_t segcache_raw_release(segcache_handle *client);
uint32_t segcache_raw_note(segcache_handle *client, segcache_handle *note);
uint32_t segcache_raw_learn(segcache_handle *client, segcache_handle *note);
uint32_t segcache_raw_note_free(segcache_handle *note);
uint32_t segcache_raw_set_time_to_live(segcache_handle *client, uint32_t seconds);
uint32_t segcache_raw_keep_from(segcache_handle *client, uint32_t cutoff);
uint32_t segcache_raw_make_room(segcache_handle *client, uint32_t now);
uint32_t segcache_raw_stats(segcache_handle *client, segcache_stats_t *counts);
uint32_t segcache_raw_index_stats(segcache_handle *client, segcache_index_stats_t *counts);
uint32_t segcache_raw_give_back(segcache_handle *cache, segcache_handle *client);
uint32_t segcache_raw_close(segcache_handle *cache, segcache_handle *cursor);
uint32_t segcache_raw_next(segcache_handle *cursor, uint8_t *key, size_t key_room, size_t *key_len, uint8_t *value,
                           size_t value_room, size_t *value_len);
uint32_t segcache_raw_cursor_free(segcache_handle *cursor);
uint32_t segcache_raw_free(segcache_handle *cache);

#ifdef SEGCACHE_DEBUG
#include "segcache_debug.h"
#else
#define SEGCACHE_CALL(of, call) ((of) == NULL ? (uint32_t)SEGCACHE_NO_HANDLE : (call))
#define SEGCACHE_BYTES(at, length) ((void)0)
#define SEGCACHE_APART(a, a_len, b, b_len) ((void)0)
#define SEGCACHE_LOOKUPS(lookups, count) ((void)0)
#define SEGCACHE_LIVES(handle) ((void)0)
#endif

/* --- Opening ---------------------------------------------------------------------------------------- */

/* The number of the library's version. It is SEGCACHE_VERSION_NUMBER, if header and library belong together. */
static inline uint32_t segcache_version(void) { return segcache_raw_version(); }

/* The library's longest key and value: 65,536 times the bytes of the one, and the bytes of the other. It is
   SEGCACHE_SIZES, if header and library belong together. */
static inline uint32_t segcache_sizes(void) { return segcache_raw_sizes(); }

/* Why so many clients can't be opened: header and library don't belong together, or there are too many. OK, if they
   can. */
static inline uint32_t segcache_may_open(uint32_t clients) {
  if (segcache_version() != SEGCACHE_VERSION_NUMBER) return SEGCACHE_OTHER_VERSION;
  if (segcache_sizes() != SEGCACHE_SIZES) return SEGCACHE_OTHER_SIZES;
  return clients <= SEGCACHE_MAX_THREADS ? SEGCACHE_OK : SEGCACHE_BAD_SHAPE;
}

/* How many caches were opened, by all files of the program. So each has a number of its own. */
extern uint64_t segcache_opened;
__attribute__((weak)) uint64_t segcache_opened;

/* What an open hands to the user: handles at their places. */
static inline uint32_t segcache_hand_out(uint32_t status, segcache_handle made, const segcache_handle *raw,
                                         uint32_t count, segcache *cache, segcache_client *clients) {
  uint32_t i;
  memset(cache, 0, sizeof *cache);
  for (i = 0; i < count; i++) memset(&clients[i], 0, sizeof clients[i]);
  if (status != SEGCACHE_OK) return status;
#ifdef __GLIBC__
  malloc_trim(0); /* The table that only the opening needed can lie between others, and would stay resident. */
#endif
  cache->raw = made;
  cache->number = __atomic_add_fetch(&segcache_opened, 1, __ATOMIC_RELAXED);
  SEGCACHE_LIVES(cache);
  for (i = 0; i < count; i++) {
    clients[i].raw = raw[i];
    clients[i].home = cache->number;
    SEGCACHE_LIVES(&clients[i]);
  }
  return status;
}

/* Makes a cache for so many keys, and a client for each of so many threads (1 to 64). Each client stores into its own
   equal share of the room. So all keys fit if the clients store about as many each. In a small cache, for at most
   65,536 / threads keys, all keys fit whichever clients store them: each of several clients has room for eight times
   the keys, or for 65,536 / threads if that is less. A client isn't told of what others delete: where they delete what
   it stores, in the same order all the while, it can evict keys that have room. There is a table for every 200,000
   keys, and each key belongs to one of the tables by its hash. A call on a key goes to that table alone.
   In the wide build there is room for so many keys if each item takes one row, as with 32 bytes of value: see
   segcache_open_items for longer ones.
   It takes all memory at once, but for that of notes and of a close: 174 to 214 bytes a key and up to 8 KB a thread in
   each table, for a small cache of several threads up to 11 MB in all, and up to 34 MB more for a moment. `cache` and
   `clients[threads]` are written, whatever they were: if they are of a cache that is still open, that one is lost. If
   the answer is not OK they are zeroed, of more than 64 clients the first 64. Answers: OK, BAD_SHAPE, OUT_OF_MEMORY;
   OTHER_VERSION or OTHER_SIZES, if the library has another version than this header, or other sizes, and nothing was
   made. */
static inline uint32_t segcache_open(uint32_t keys, uint32_t threads, segcache *cache, segcache_client *clients) {
  segcache_handle made, raw[SEGCACHE_MAX_THREADS];
  uint32_t status = segcache_may_open(threads);
  uint32_t count = threads <= SEGCACHE_MAX_THREADS ? threads : SEGCACHE_MAX_THREADS;
  memset(&made, 0, sizeof made);
  memset(raw, 0, sizeof raw);
  if (status == SEGCACHE_OK) status = segcache_raw_open(keys, threads, &made, raw, count);
  return segcache_hand_out(status, made, raw, count, cache, clients);
}

/* The same where only so many of the threads store, 1 to all of them, whichever these are. The share of each client is
   then its part of the keys among the writers: with one writer that one has room for all keys. A row takes 64 bytes,
   and each client has two rows for each key of its part. BAD_SHAPE comes also if keys * threads / writers is over 2^32.
   Answers as segcache_open. */
static inline uint32_t segcache_open_for_writers(uint32_t keys, uint32_t threads, uint32_t writers, segcache *cache,
                                                 segcache_client *clients) {
  segcache_handle made, raw[SEGCACHE_MAX_THREADS];
  uint32_t status = segcache_may_open(threads);
  uint32_t count = threads <= SEGCACHE_MAX_THREADS ? threads : SEGCACHE_MAX_THREADS;
  memset(&made, 0, sizeof made);
  memset(raw, 0, sizeof raw);
  if (status == SEGCACHE_OK) status = segcache_raw_open_for_writers(keys, writers, &made, raw, count);
  return segcache_hand_out(status, made, raw, count, cache, clients);
}

/* The same for so many items, whose key and value have so many bytes together on the mean. All of them have room, and
   to spare, if the clients store about as many each. In the default build an item takes one row whatever the mean is,
   and this is segcache_open. In the wide build count a key of fewer than 24 bytes as 24 for the mean, and round each key
   and each value up to a multiple of 8: items of 8 and 48 bytes have the mean 72. With the mean 56 some go, since two
   rows are needed where one is planned. The mean and 8 bytes are divided by 64 and rounded up: so many rows are planned
   for each item, 64 at most. The cache has two rows for each planned one. It takes 134 bytes for each planned row, 40 to
   80 for each item, and up to 8 KB a thread in each table. There is a table for every 200,000 planned rows. In a small
   cache, of at most 65,536 / threads planned rows, all items have room whichever clients store them, as of
   segcache_open. BAD_SHAPE comes also if more than 2^32 rows are planned. Answers as segcache_open. */
static inline uint32_t segcache_open_items(uint32_t items, uint32_t mean_bytes, uint32_t threads, segcache *cache,
                                           segcache_client *clients) {
  segcache_handle made, raw[SEGCACHE_MAX_THREADS];
  uint32_t status = segcache_may_open(threads);
  uint32_t count = threads <= SEGCACHE_MAX_THREADS ? threads : SEGCACHE_MAX_THREADS;
  memset(&made, 0, sizeof made);
  memset(raw, 0, sizeof raw);
  if (status == SEGCACHE_OK) status = segcache_raw_open_items(items, mean_bytes, &made, raw, count);
  return segcache_hand_out(status, made, raw, count, cache, clients);
}

/* The same for a number of bytes: a cache for so many threads that takes no more, also while it is opened. What the
   opening needs for a moment, one table, is free afterwards: half of a budget up to 8 MiB, a ninth of 64 to 256 MiB.
   Under glibc an opening gives it back to the system by malloc_trim, as it does with what else is free.
   Notes and a close take more. All threads are to store about as much each. In the wide build an item is taken to have
   four rows on the mean, about 230 bytes of key and value. Shorter ones run out of buckets first, and longer ones out of
   rows; the cache takes no more than its bytes in either case. BAD_SHAPE comes also if even the smallest cache takes
   more, which has some 18,000 bytes for one thread. Answers as segcache_open. */
static inline uint32_t segcache_open_bytes(uint64_t bytes, uint32_t threads, segcache *cache,
                                           segcache_client *clients) {
  segcache_handle made, raw[SEGCACHE_MAX_THREADS];
  uint32_t status = segcache_may_open(threads);
  uint32_t count = threads <= SEGCACHE_MAX_THREADS ? threads : SEGCACHE_MAX_THREADS;
  memset(&made, 0, sizeof made);
  memset(raw, 0, sizeof raw);
  if (status == SEGCACHE_OK) status = segcache_raw_open_bytes(bytes, &made, raw, count);
  return segcache_hand_out(status, made, raw, count, cache, clients);
}

/* The same for one table of a shape, with a client for each of its passes. Answers as segcache_open. */
static inline uint32_t segcache_open_shape(const segcache_shape *shape, segcache *cache, segcache_client *clients) {
  segcache_handle made, raw[SEGCACHE_MAX_THREADS];
  uint32_t status = segcache_may_open(shape->passes);
  uint32_t count = shape->passes <= SEGCACHE_MAX_THREADS ? shape->passes : SEGCACHE_MAX_THREADS;
  memset(&made, 0, sizeof made);
  memset(raw, 0, sizeof raw);
  if (status == SEGCACHE_OK) status = segcache_raw_open_shape(shape, &made, raw, count);
  return segcache_hand_out(status, made, raw, count, cache, clients);
}

/* --- Reading ---------------------------------------------------------------------------------------- */

/* Copies the value of a key into `value`, which has room for `room` bytes, and its length into
   `value_len`. It waits for nobody.
   Answers: OK; MISS; BUSY; SHORT_BUFFER, with the length that is needed; BAD_KEY, NO_HANDLE. At all but OK and
   SHORT_BUFFER nothing is written. */
static inline uint32_t segcache_get(segcache_client *client, const void *key, size_t key_len, uint32_t now, void *value,
                                    size_t room, size_t *value_len) {
  SEGCACHE_BYTES(key, key_len);
  SEGCACHE_BYTES(value, room);
  SEGCACHE_APART(value, room, key, key_len);
  SEGCACHE_BYTES(value_len, sizeof *value_len);
  SEGCACHE_APART(value, room, value_len, sizeof *value_len);
  return SEGCACHE_CALL(
      client, segcache_raw_get(&client->raw, (const uint8_t *)key, key_len, (uint8_t *)value, room, value_len, now));
}

/* A get that also gives the version of the key's bucket, for segcache_cas, with OK and SHORT_BUFFER. Answers as
   segcache_get. */
static inline uint32_t segcache_gets(segcache_client *client, const void *key, size_t key_len, uint32_t now,
                                     void *value, size_t room, size_t *value_len, uint32_t *version) {
  SEGCACHE_BYTES(key, key_len);
  SEGCACHE_BYTES(value, room);
  SEGCACHE_APART(value, room, key, key_len);
  SEGCACHE_BYTES(value_len, sizeof *value_len);
  SEGCACHE_APART(value, room, value_len, sizeof *value_len);
  return SEGCACHE_CALL(client, segcache_raw_gets(&client->raw, (const uint8_t *)key, key_len, (uint8_t *)value, room,
                                                 value_len, version, now));
}

/* Gets of several keys, one after another. In a cache for 6,554 keys or more, and for 820 or more of 2 to 9 threads
   (of 4,096 buckets or more), the waits for memory of 8 keys or more overlap, 16 keys at a time. Where gets wait for
   memory, each key then takes less time than a single get. Fewer keys are single gets, and so are any keys of a smaller
   cache, whose table fits into the processor's own caches.
   Each lookup names its key by key_at and key_len, among the `len` bytes of `keys`. Afterwards it has a status of its
   own, OK, MISS, BUSY or BAD_KEY (also where its bytes aren't all in `keys`), and with OK value and value_len. In the
   wide build a lookup takes 4,096 bytes: prefer segcache_get_many_into there.
   Answers: OK, whatever the lookups have; NO_HANDLE, and they are as they were. */
static inline uint32_t segcache_get_many(segcache_client *client, const void *keys, size_t len, uint32_t now,
                                         segcache_lookup *lookups, size_t count) {
  SEGCACHE_BYTES(keys, len);
  SEGCACHE_BYTES(lookups, count);
  SEGCACHE_APART(lookups, count * sizeof *lookups, keys, len);
  return SEGCACHE_CALL(client, segcache_raw_get_many(&client->raw, (const uint8_t *)keys, len, lookups, count, now));
}

/* The same with the version of each key's bucket, for segcache_cas. Answers as segcache_get_many. */
static inline uint32_t segcache_gets_many(segcache_client *client, const void *keys, size_t len, uint32_t now,
                                          segcache_lookup *lookups, size_t count) {
  SEGCACHE_BYTES(keys, len);
  SEGCACHE_BYTES(lookups, count);
  SEGCACHE_APART(lookups, count * sizeof *lookups, keys, len);
  return SEGCACHE_CALL(client, segcache_raw_gets_many(&client->raw, (const uint8_t *)keys, len, lookups, count, now));
}

/* The same as segcache_look_ahead, once the client is in a call. */
static inline uint32_t segcache_look_ahead_entered(segcache_client *client, const segcache_lookup_into *lookups,
                                                   size_t first, size_t count) {
  uint8_t keys[SEGCACHE_AHEAD * SEGCACHE_MAX_KEY];
  segcache_key_place places[SEGCACHE_AHEAD];
  size_t i, end = 0;
  if (client == NULL) return SEGCACHE_NO_HANDLE;
  if (count > SEGCACHE_AHEAD) count = SEGCACHE_AHEAD;
  for (i = 0; i < count; i++) {
    const segcache_lookup_into *it = &lookups[first + i];
    SEGCACHE_BYTES(it->key, it->key_len);
    places[i].key_at = end;
    places[i].key_len = it->key_len <= SEGCACHE_MAX_KEY ? it->key_len : 0;
    if (places[i].key_len > 0) memcpy(keys + end, it->key, places[i].key_len);
    end += places[i].key_len;
  }
  return segcache_raw_look_ahead(&client->raw, keys, end, places, count);
}

/* Loads what gets of so many lookups from this one on will read, of the first SEGCACHE_AHEAD where there are more. No
   answer depends on it. A key that is too long is passed over. Answers: OK, NO_HANDLE. */
static inline uint32_t segcache_look_ahead(segcache_client *client, const segcache_lookup_into *lookups, size_t first,
                                           size_t count) {
  SEGCACHE_BYTES(lookups, count);
  return SEGCACHE_CALL(client, segcache_look_ahead_entered(client, lookups, first, count));
}

/* The same as segcache_get_many_into or segcache_gets_many_into, once the client is in a call. */
static inline uint32_t segcache_look_up(segcache_client *client, segcache_lookup_into *lookups, size_t count,
                                        int versioned, uint32_t now) {
  size_t first = 0, end, i;
  uint32_t status;
  do {
    end = count - first < SEGCACHE_AHEAD ? count : first + SEGCACHE_AHEAD;
    status = segcache_look_ahead_entered(client, lookups, first, end - first);
    if (status != SEGCACHE_OK) return status;
    for (i = first; i < end; i++) {
      segcache_lookup_into *it = &lookups[i];
      const uint8_t *key = (const uint8_t *)it->key;
      uint8_t *value = (uint8_t *)it->value;
      if (versioned)
        it->status =
            segcache_raw_gets(&client->raw, key, it->key_len, value, it->room, &it->value_len, &it->version, now);
      else it->status = segcache_raw_get(&client->raw, key, it->key_len, value, it->room, &it->value_len, now);
    }
    first = end;
  } while (first < count);
  return SEGCACHE_OK;
}

/* Gets of several keys into buffers of yours, one after another. Waits for memory overlap as of segcache_get_many, and a
   lookup has no room for a value of its own: it has a pointer and a length for its key, and a pointer and a room for its
   value. Afterwards it has a status as of segcache_get: OK, MISS, BUSY, BAD_KEY; or SHORT_BUFFER, and the buffer is as it
   was. With OK and SHORT_BUFFER value_len is the length of the value.
   Answers: OK, whatever the lookups have; NO_HANDLE, and they are as they were. */
static inline uint32_t segcache_get_many_into(segcache_client *client, segcache_lookup_into *lookups, size_t count,
                                              uint32_t now) {
  SEGCACHE_LOOKUPS(lookups, count);
  return SEGCACHE_CALL(client, segcache_look_up(client, lookups, count, 0, now));
}

/* The same with the version of each key's bucket, for segcache_cas, where the status is OK or SHORT_BUFFER. Answers as
   segcache_get_many_into. */
static inline uint32_t segcache_gets_many_into(segcache_client *client, segcache_lookup_into *lookups, size_t count,
                                               uint32_t now) {
  SEGCACHE_LOOKUPS(lookups, count);
  return SEGCACHE_CALL(client, segcache_look_up(client, lookups, count, 1, now));
}

/* --- Writing ---------------------------------------------------------------------------------------- */

/* Each call that stores can evict keys of its client. Once it has stored, a client that keeps by queues goes over up to
   eight items of other segments of its own, while few of its segments are free or one has expired: it moves them, or
   evicts them. A client that keeps from a frequency, or nothing, evicts only by put, put_for, fill and
   make_room. Of a set, an add, a replace and a cas NO_ROOM comes first, also where the key's presence or version would
   refuse it. */

/* Stores a value under a key, and makes room for it. If no row is left, the client recycles segments of its own: it
   moves items that were read, and evicts the other keys; which ones no contract states. If the key's bucket is full,
   it evicts one item of its own there, or none. This is what a server's set command calls. A put that is not OK leaves the old value where it is, if it
   wasn't evicted: delete the key if nobody may read that any longer.
   Answers: OK; NO_ROOM, if no segment could be had, since somebody read or held there, or a bucket of its keys was
   busy; BUCKET_FULL; BUSY; BAD_KEY, BAD_VALUE, NO_HANDLE. */
static inline uint32_t segcache_put(segcache_client *client, const void *key, size_t key_len, const void *value,
                                    size_t value_len, uint32_t now) {
  SEGCACHE_BYTES(key, key_len);
  SEGCACHE_BYTES(value, value_len);
  return SEGCACHE_CALL(
      client, segcache_raw_put(&client->raw, (const uint8_t *)key, key_len, (const uint8_t *)value, value_len, now));
}

/* A put of an item with a time to live of its own, in place of the client's: it lives for that time at most, and for
   seven eighths of it at least, unless it is evicted, replaced or deleted before. Any number will do. At 0 the item is
   absent at once, and at 4294967295 it doesn't expire before `now` is 4294967295. Answers as segcache_put. */
static inline uint32_t segcache_put_for(segcache_client *client, const void *key, size_t key_len, const void *value,
                                        size_t value_len, uint32_t seconds, uint32_t now) {
  SEGCACHE_BYTES(key, key_len);
  SEGCACHE_BYTES(value, value_len);
  return SEGCACHE_CALL(client, segcache_raw_put_for(&client->raw, (const uint8_t *)key, key_len, (const uint8_t *)value,
                                                    value_len, seconds, now));
}

/* A put by one of the clients, which the key chooses: so one thread fills a cache, and uses the room of all clients. A
   key that is filled twice goes to the same client. Call it before the clients are handed to their threads, as each
   of them may be called here. Answers as segcache_put. */
static inline uint32_t segcache_fill(segcache_client *clients, uint32_t count, const void *key, size_t key_len,
                                     const void *value, size_t value_len, uint32_t now) {
  uint32_t hash = 2166136261u;
  size_t i;
  if (clients == NULL || count == 0) return SEGCACHE_NO_HANDLE;
  SEGCACHE_BYTES(key, key_len);
  for (i = 0; i < key_len; i++) hash = (hash ^ ((const uint8_t *)key)[i]) * 16777619u;
  return segcache_put(&clients[(hash ^ hash >> 15) % count], key, key_len, value, value_len, now);
}

/* Stores a value, and makes no room: NO_ROOM if the client finds no segment of its own with a row left in which the value
   lives as long as after a put, as before its first put; in the wide build also if the segment that it stores into has
   fewer rows left than the item takes. Then call segcache_make_room, and set again. Answers as put. */
static inline uint32_t segcache_set(segcache_client *client, const void *key, size_t key_len, const void *value,
                                    size_t value_len, uint32_t now) {
  SEGCACHE_BYTES(key, key_len);
  SEGCACHE_BYTES(value, value_len);
  return SEGCACHE_CALL(
      client, segcache_raw_set(&client->raw, (const uint8_t *)key, key_len, (const uint8_t *)value, value_len, now));
}

/* A set that stores only if the key is absent. Answers as set, and NOT_STORED. */
static inline uint32_t segcache_add(segcache_client *client, const void *key, size_t key_len, const void *value,
                                    size_t value_len, uint32_t now) {
  SEGCACHE_BYTES(key, key_len);
  SEGCACHE_BYTES(value, value_len);
  return SEGCACHE_CALL(
      client, segcache_raw_add(&client->raw, (const uint8_t *)key, key_len, (const uint8_t *)value, value_len, now));
}

/* A set that stores only if the key is present. Answers as set, and NOT_STORED. */
static inline uint32_t segcache_replace(segcache_client *client, const void *key, size_t key_len, const void *value,
                                        size_t value_len, uint32_t now) {
  SEGCACHE_BYTES(key, key_len);
  SEGCACHE_BYTES(value, value_len);
  return SEGCACHE_CALL(client, segcache_raw_replace(&client->raw, (const uint8_t *)key, key_len, (const uint8_t *)value,
                                                    value_len, now));
}

/* A set that stores only if no key of the bucket was stored or deleted since the segcache_gets that gave
   `version`. Another key of the bucket counts too, so EXISTS says: gets again. Versions have 32 bits, and begin again
   after the largest. Answers as set, and EXISTS, NOT_FOUND. */
static inline uint32_t segcache_cas(segcache_client *client, const void *key, size_t key_len, const void *value,
                                    size_t value_len, uint32_t version, uint32_t now) {
  SEGCACHE_BYTES(key, key_len);
  SEGCACHE_BYTES(value, value_len);
  return SEGCACHE_CALL(client, segcache_raw_cas(&client->raw, (const uint8_t *)key, key_len, (const uint8_t *)value,
                                                value_len, version, now));
}

/* Takes a key out. Answers: OK, NOT_FOUND, BUSY, BAD_KEY, NO_HANDLE. */
static inline uint32_t segcache_delete(segcache_client *client, const void *key, size_t key_len, uint32_t now) {
  SEGCACHE_BYTES(key, key_len);
  return SEGCACHE_CALL(client, segcache_raw_delete(&client->raw, (const uint8_t *)key, key_len, now));
}

/* --- Holds and notes -------------------------------------------------------------------------------- */

/* Holds the value of a key. Until the release segcache_held_value reads the same value, also past its deadline
   and whatever becomes of the key. A client holds one item at most, and may make all other calls meanwhile. The
   segment of a held item isn't recycled, and puts of its client pass over it: hold for a short time. A client
   that is given back holds nothing any longer.
   Answers: OK; MISS; BUSY; ALREADY_HOLDING, and the earlier hold stays; BAD_KEY, NO_HANDLE. */
static inline uint32_t segcache_hold(segcache_client *client, const void *key, size_t key_len, uint32_t now) {
  SEGCACHE_BYTES(key, key_len);
  return SEGCACHE_CALL(client, segcache_raw_hold(&client->raw, (const uint8_t *)key, key_len, now));
}

/* Copies the value that is held. Answers: OK; SHORT_BUFFER, as segcache_get; NOT_HOLDING, NO_HANDLE. */
static inline uint32_t segcache_held_value(segcache_client *client, void *value, size_t room, size_t *value_len) {
  SEGCACHE_BYTES(value, room);
  SEGCACHE_BYTES(value_len, sizeof *value_len);
  SEGCACHE_APART(value, room, value_len, sizeof *value_len);
  return SEGCACHE_CALL(client, segcache_raw_held_value(&client->raw, (uint8_t *)value, room, value_len));
}

/* Ends the hold. Answers: OK, NOT_HOLDING, NO_HANDLE. */
static inline uint32_t segcache_release(segcache_client *client) {
  return SEGCACHE_CALL(client, segcache_raw_release(&client->raw));
}

/* Makes a note of all that the client has seen, its own puts among it. Send it to another thread beside what you
   tell that one; a client there learns it, and its gets then read what this client has put, or what was stored
   since, or are Busy; or miss it, if it was deleted, evicted or expired since. That is proved. A get reads the same
   without a note of each put that had returned when the get began; so a program needs none.
   The note is zeroed before, and is learned or freed once. It may outlive its cache.
   Answers: OK; OUT_OF_MEMORY; NO_HANDLE, also if the note is in use. Unless OK, the note is as it was. */
static inline uint32_t segcache_note(segcache_client *client, segcache_note_t *note) {
  uint32_t status;
  if (note == NULL) return SEGCACHE_NO_HANDLE;
  status = SEGCACHE_CALL(client, segcache_raw_note(&client->raw, &note->raw));
  if (status != SEGCACHE_OK) return status;
  note->home = client->home;
  SEGCACHE_LIVES(note);
  return status;
}

/* The same as segcache_learn, once the client is in a call. */
static inline uint32_t segcache_learn_entered(segcache_client *client, segcache_note_t *note) {
  if (client == NULL) return SEGCACHE_NO_HANDLE;
  return SEGCACHE_CALL(note, segcache_raw_learn(&client->raw, &note->raw));
}

/* The client has then seen what the note has. The note is none afterwards.
   Answers: OK; FOREIGN, if the note is of another cache, also of one that was freed, and nothing changed;
   NO_HANDLE, of either. */
static inline uint32_t segcache_learn(segcache_client *client, segcache_note_t *note) {
  if (client == NULL || note == NULL || !client->raw.full || !note->raw.full) return SEGCACHE_NO_HANDLE;
  if (client->home != note->home) return SEGCACHE_FOREIGN;
  return SEGCACHE_CALL(client, segcache_learn_entered(client, note));
}

/* Frees a note that nobody is to learn. It is none afterwards. Answers: OK, NO_HANDLE. */
static inline uint32_t segcache_note_free(segcache_note_t *note) {
  return SEGCACHE_CALL(note, segcache_raw_note_free(&note->raw));
}

/* --- Settings, room and counts ---------------------------------------------------------------------- */

/* What a put, set, add, replace or cas stores from now on lives for this time at most, and for seven eighths of it at
   least, if `now` doesn't go back, unless it is evicted, replaced or deleted before. segcache_put_for has a time of
   its own. All but a put are
   NO_ROOM where the client finds no segment with such a deadline: segcache_make_room then begins one. At the start the
   time is 4294967295, and nothing expires before. A time of 0 isn't without end: what is stored is absent at once.
   A time that goes past the moment 4294967295 ends there.
   Answers: OK, NO_HANDLE. */
static inline uint32_t segcache_set_time_to_live(segcache_client *client, uint32_t time_to_live) {
  return SEGCACHE_CALL(client, segcache_raw_set_time_to_live(&client->raw, time_to_live));
}

/* From the start a client keeps what was read by two queues of segments. From now on it recycles them by turns, and
   keeps items of this frequency, 1 to 255, or more. 0 keeps nothing, and more than 255 counts as 255. No call goes
   back to the queues. Answers: OK, NO_HANDLE. */
static inline uint32_t segcache_keep_from(segcache_client *client, uint32_t cutoff) {
  return SEGCACHE_CALL(client, segcache_raw_keep_from(&client->raw, cutoff));
}

/* The same with nothing kept: where each key is to stay until the client's other rows were used. */
static inline uint32_t segcache_keep_nothing(segcache_client *client) {
  return SEGCACHE_CALL(client, segcache_raw_keep_from(&client->raw, 0));
}

/* Makes room, as a put does that finds no row: in the table of the client's last write, if that was answered by NO_ROOM,
   and else in each table. What is stored there next goes into a segment with a deadline for `now`: it lives for seven
   eighths of the time to live at least. A client that keeps by queues does nothing where its segment has the last such
   deadline that is a multiple of an eighth of the time, and room for the longest item, or no used row. Else each call
   begins another segment, also where the one before has rows left. So call it where a write found no room, and not
   before each. Answers: OK; NO_ROOM, of one table at least; NO_HANDLE. */
static inline uint32_t segcache_make_room(segcache_client *client, uint32_t now) {
  return SEGCACHE_CALL(client, segcache_raw_make_room(&client->raw, now));
}

/* What this client's calls came to so far. Answers: OK, NO_HANDLE. */
static inline uint32_t segcache_stats(segcache_client *client, segcache_stats_t *stats) {
  return SEGCACHE_CALL(client, segcache_raw_stats(&client->raw, stats));
}

/* How full the tables are. It looks at all rows of the client's segments. Answers: OK, NO_HANDLE. */
static inline uint32_t segcache_index_stats(segcache_client *client, segcache_index_stats_t *stats) {
  return SEGCACHE_CALL(client, segcache_raw_index_stats(&client->raw, stats));
}

/* --- The end ---------------------------------------------------------------------------------------- */

/* The same, once the cache is in a call. */
static inline uint32_t segcache_give_back_entered(segcache *cache, segcache_client *client) {
  if (cache == NULL) return SEGCACHE_NO_HANDLE;
  return SEGCACHE_CALL(client, segcache_raw_give_back(&cache->raw, &client->raw));
}

/* Gives a client back to its cache. The client is none afterwards. By rule 1 only one thread at a time gives a client
   back to a cache: where each thread does it at its end, under a lock.
   Answers: OK; FOREIGN, and nothing changed; NO_HANDLE, of either. */
static inline uint32_t segcache_give_back(segcache *cache, segcache_client *client) {
  if (client == NULL || cache == NULL || !client->raw.full || !cache->raw.full) return SEGCACHE_NO_HANDLE;
  if (client->home != cache->number) return SEGCACHE_FOREIGN;
  return SEGCACHE_CALL(cache, segcache_give_back_entered(cache, client));
}

/* Closes a cache whose clients were all given back. The cursor lists its content, and has to be freed. It is written,
   whatever it was. The cache is none afterwards. Keys that have expired are listed until they are evicted. One table is
   closed, and the cursor closes the others, one after another; each is freed once its pairs are listed.
   Answers: OK; CLIENT_OUT, and nothing changed; OUT_OF_MEMORY: the cache is as it was, or it is none and its
   content is lost; NO_HANDLE. BUSY, with the cache as it was, has come in no test, and may where rule 2 is broken. */
static inline uint32_t segcache_close(segcache *cache, segcache_cursor *cursor) {
  segcache_handle made;
  uint32_t status;
  memset(&made, 0, sizeof made);
  status = SEGCACHE_CALL(cache, segcache_raw_close(&cache->raw, &made));
  cursor->raw = made;
  if (status == SEGCACHE_OK) SEGCACHE_LIVES(cursor);
  return status;
}

/* Copies the next pair: `key[SEGCACHE_MAX_KEY]` and `value[SEGCACHE_MAX_VALUE]`, and their lengths. The pairs of one
   table come after those of another, and those of one in the order of the keys' bytes.
   Answers: OK, END, NO_HANDLE. Where a further table is to be closed, also OUT_OF_MEMORY: memory for that was refused. Or
   BUSY, as of segcache_close. By each of these two answers one table is left out, with all of its pairs, and the next
   call goes on with the next table. So calls come to END also where memory stays refused. */
static inline uint32_t segcache_next(segcache_cursor *cursor, void *key, size_t *key_len, void *value,
                                     size_t *value_len) {
  SEGCACHE_APART(key, SEGCACHE_MAX_KEY, value, SEGCACHE_MAX_VALUE);
  return SEGCACHE_CALL(cursor, segcache_raw_next(&cursor->raw, (uint8_t *)key, SEGCACHE_MAX_KEY, key_len,
                                                 (uint8_t *)value, SEGCACHE_MAX_VALUE, value_len));
}

/* Frees a cursor, wherever it is. It is none afterwards. Answers: OK, NO_HANDLE. */
static inline uint32_t segcache_cursor_free(segcache_cursor *cursor) {
  return SEGCACHE_CALL(cursor, segcache_raw_cursor_free(&cursor->raw));
}

/* Gives all memory of a cache back, whose clients were all given back. The cache is none afterwards.
   Answers: OK; CLIENT_OUT, and nothing changed; NO_HANDLE. */
static inline uint32_t segcache_free(segcache *cache) { return SEGCACHE_CALL(cache, segcache_raw_free(&cache->raw)); }

/* A status in words. */
static inline const char *segcache_text(uint32_t status) {
  static const char *const texts[] = {
      "ok",
      "the key is absent",
      "busy: others worked on the key's bucket",
      "no room: no segment can be had",
      "the key's bucket is full",
      "not stored",
      "the bucket was written since the gets",
      "the key is not found",
#ifdef SEGCACHE_WIDE
      "a key has 1 to 250 bytes",
      "a value has 4064 bytes at most",
#else
      "a key has 1 to 24 bytes",
      "a value has 32 bytes at most",
#endif
      "the buffer is too short",
      "such a shape cannot be",
      "out of memory",
      "no handle: zeroed, given back or freed",
      "the client holds an item already",
      "the client holds no item",
      "a client is still out",
      "the client or the note is of another cache",
      "the end",
      "the library has another version than segcache.h",
      "the library has other sizes of keys and values than segcache.h",
  };
  return status < sizeof texts / sizeof *texts ? texts[status] : "no such status";
}

#ifdef __cplusplus
}
#pragma GCC diagnostic pop
#endif
#endif
