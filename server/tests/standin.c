// SPDX-License-Identifier: MIT
/* A stand-in for the library: a map behind one lock, for tests of the server at sizes that the library's default build
 * hasn't: keys of 250 bytes and values of 4,064. It isn't the library, and nothing of it is proved. Its statuses are
 * the library's for the calls that the server and the tests of the wide build make; it has no other calls.
 *
 * It has few buckets, so that keys often share one: a cas then finds the bucket's version changed by others. It
 * evicts the oldest item once there are as many as it was opened for.
 *
 * A value is absent from the deadline of its segment on. A client's last segments are open, and never full. What is
 * stored goes into one whose deadline comes in its time to live, and not before seven eighths of it. If there is none,
 * put, put_for and make_room begin one, up to the last multiple of an eighth of the time that comes in it, and add and
 * cas have no room. Some keys have faults, which the library seldom has: see fault_of. Each call has to have a moment,
 * which the server begins at 2: without one the program is aborted. */
#include "segcache.h"
#include <pthread.h>
#include <stdbool.h>
#include <stdlib.h>
#include <string.h>
#include <time.h>

enum {
  BUCKETS = 4096, /* a power of two */
  FIRST_MOMENT = 2,
  OPEN = 16,                /* segments of a client */
  NO_ROOM_AT_FIRST = 40001, /* with this time to live a client's first room can't be made */
  NO_MEMORY_FOR = 40002,    /* a cache for so many keys can't be opened */
  ROW_NS = 120,             /* that a count of the rows takes for each */
};

struct entry {
  struct entry *next_of_bucket, *older, *newer;
  size_t bucket, key_len, value_len;
  uint32_t deadline;
  uint8_t bytes[]; /* the key's, and then the value's */
};

struct map {
  pthread_mutex_t lock;
  struct entry *buckets[BUCKETS], *oldest, *newest;
  uint32_t versions[BUCKETS];
  uint32_t count, most, clients;
};

struct client {
  struct map *map;
  bool first;          /* all items count as its own */
  uint32_t late, made; /* calls, and how often room was made */
  uint32_t time_to_live;
  uint32_t open[OPEN], begun; /* the deadlines of the last segments, and how many were begun */
  segcache_stats_t counts;
  struct held {
    size_t length;
    uint8_t bytes[SEGCACHE_MAX_VALUE];
  } * held; /* a copy of what is held, or NULL */
};

static size_t bucket_of(const uint8_t *key, size_t length) {
  uint64_t hash = 14695981039346656037u;
  for (size_t i = 0; i < length; i++) hash = (hash ^ key[i]) * 1099511628211u;
  return (size_t)(hash >> 32) & (BUCKETS - 1);
}

static struct entry **place_of(struct map *map, size_t bucket, const uint8_t *key, size_t length) {
  struct entry **place = &map->buckets[bucket];
  while (*place != NULL && ((*place)->key_len != length || memcmp((*place)->bytes, key, length) != 0))
    place = &(*place)->next_of_bucket;
  return place;
}

/* Takes an entry out of its bucket and out of the list by age. */
static void drop(struct map *map, struct entry *entry) {
  struct entry **place = &map->buckets[entry->bucket];
  while (*place != entry) place = &(*place)->next_of_bucket;
  *place = entry->next_of_bucket;
  if (entry->older == NULL) map->oldest = entry->newer;
  else entry->older->newer = entry->newer;
  if (entry->newer == NULL) map->newest = entry->older;
  else entry->newer->older = entry->older;
  map->versions[entry->bucket]++;
  map->count--;
  free(entry);
}

/* The entry of a key. One whose deadline has come is gone. */
static struct entry *find(struct map *map, size_t bucket, const uint8_t *key, size_t length, uint32_t now) {
  struct entry *entry = *place_of(map, bucket, key, length);
  if (entry == NULL || now < entry->deadline) return entry;
  drop(map, entry);
  return NULL;
}

enum call { GETS, STORE, DELETE };

/* The fault that a key's first letters ask for, or OK. `there`: the key is.
 *
 *   busy-  each call is Busy              late-   is Busy twice, and then goes well
 *   slow-  a store is Busy if it's there  tight-  has no room until room was made twice
 *   held-  a delete is Busy               full-   has no room if it's there
 *   race-  a cas finds it changed         gone-   a delete doesn't find it
 *   packed- has a bucket without a free word */
static uint32_t fault_of(struct client *client, enum call call, bool there, const uint8_t *key, size_t length) {
  const struct {
    const char *name;
    bool now;
    uint32_t status;
  } faults[] = {{"busy-", true, SEGCACHE_BUSY},
                {"slow-", call == STORE && there, SEGCACHE_BUSY},
                {"held-", call == DELETE, SEGCACHE_BUSY},
                {"late-", client->late++ % 3 < 2, SEGCACHE_BUSY},
                {"tight-", call == STORE && client->made % 3 < 2, SEGCACHE_NO_ROOM},
                {"full-", call == STORE && there, SEGCACHE_NO_ROOM},
                {"packed-", call == STORE, SEGCACHE_BUCKET_FULL},
                {"gone-", call == DELETE, SEGCACHE_NOT_FOUND}};
  for (size_t i = 0; i < sizeof faults / sizeof *faults; i++) {
    size_t known = strlen(faults[i].name);
    if (length < known || memcmp(key, faults[i].name, known) != 0 || !faults[i].now) continue;
    if (faults[i].status == SEGCACHE_BUSY) client->counts.busy++;
    if (faults[i].status == SEGCACHE_NO_ROOM) client->counts.no_room++;
    if (faults[i].status == SEGCACHE_BUCKET_FULL) client->counts.bucket_full++;
    return faults[i].status;
  }
  return SEGCACHE_OK;
}

uint32_t segcache_raw_version(void) { return SEGCACHE_VERSION_NUMBER; }
uint32_t segcache_raw_sizes(void) { return SEGCACHE_SIZES; }

uint32_t segcache_raw_open(uint32_t keys, uint32_t threads, segcache_handle *cache, segcache_handle *clients,
                           size_t clients_len) {
  if (threads == 0 || threads != clients_len) return SEGCACHE_BAD_SHAPE;
  if (keys == NO_MEMORY_FOR) return SEGCACHE_OUT_OF_MEMORY;
  struct map *map = calloc(1, sizeof *map);
  if (map == NULL) return SEGCACHE_OUT_OF_MEMORY;
  pthread_mutex_init(&map->lock, NULL);
  map->most = keys > 0 ? keys : 1;
  for (uint32_t i = 0; i < threads; i++) {
    struct client *client = calloc(1, sizeof *client);
    if (client == NULL) {
      while (i > 0) free(clients[--i].at);
      free(map);
      return SEGCACHE_OUT_OF_MEMORY;
    }
    client->map = map;
    client->first = i == 0;
    client->time_to_live = UINT32_MAX;
    clients[i] = (segcache_handle){client, 1};
  }
  map->clients = threads;
  *cache = (segcache_handle){map, 1};
  return SEGCACHE_OK;
}

/* There is room for so many items, however long they are. */
uint32_t segcache_raw_open_items(uint32_t items, uint32_t mean_bytes, segcache_handle *cache, segcache_handle *clients,
                                 size_t clients_len) {
  (void)mean_bytes;
  return segcache_raw_open(items, (uint32_t)clients_len, cache, clients, clients_len);
}

uint32_t segcache_raw_open_for_writers(uint32_t keys, uint32_t writers, segcache_handle *cache,
                                       segcache_handle *clients, size_t clients_len) {
  if (writers < 1 || writers > clients_len) return SEGCACHE_BAD_SHAPE;
  return segcache_raw_open(keys, (uint32_t)clients_len, cache, clients, clients_len);
}

/* Only the number of rows counts. */
uint32_t segcache_raw_open_shape(const segcache_shape *shape, segcache_handle *cache, segcache_handle *clients,
                                 size_t clients_len) {
  uint32_t rows = shape->passes * shape->segments_each * shape->rows;
  return segcache_raw_open(rows, shape->passes, cache, clients, clients_len);
}

/* With a number of bytes there is room for about as many keys as the library has room for. */
uint32_t segcache_raw_open_bytes(uint64_t bytes, segcache_handle *cache, segcache_handle *clients, size_t clients_len) {
  uint64_t keys = bytes / 192;
  return segcache_raw_open(keys < UINT32_MAX ? (uint32_t)keys : UINT32_MAX, (uint32_t)clients_len, cache, clients,
                           clients_len);
}

uint32_t segcache_raw_gets(segcache_handle *handle, const uint8_t *key, size_t key_len, uint8_t *value, size_t room,
                           size_t *value_len, uint32_t *version, uint32_t now) {
  struct client *client = handle->at;
  struct map *map = client->map;
  uint32_t status = SEGCACHE_MISS;
  if (now < FIRST_MOMENT) abort();
  if (key_len < 1 || key_len > SEGCACHE_MAX_KEY) return SEGCACHE_BAD_KEY;
  pthread_mutex_lock(&map->lock);
  size_t bucket = bucket_of(key, key_len);
  const struct entry *entry = find(map, bucket, key, key_len, now);
  uint32_t fault = fault_of(client, GETS, entry != NULL, key, key_len);
  if (fault != SEGCACHE_OK) return pthread_mutex_unlock(&map->lock), fault;
  if (entry != NULL) {
    *value_len = entry->value_len;
    *version = map->versions[bucket];
    status = entry->value_len > room ? SEGCACHE_SHORT_BUFFER : SEGCACHE_OK;
    if (status == SEGCACHE_OK) memcpy(value, entry->bytes + key_len, entry->value_len);
  }
  if (status == SEGCACHE_MISS) client->counts.misses++;
  else client->counts.hits++;
  pthread_mutex_unlock(&map->lock);
  return status;
}

uint32_t segcache_raw_get(segcache_handle *client, const uint8_t *key, size_t key_len, uint8_t *value, size_t room,
                          size_t *value_len, uint32_t now) {
  uint32_t version;
  return segcache_raw_gets(client, key, key_len, value, room, value_len, &version, now);
}

/* Loads nothing. Each place has to be among the bytes. */
uint32_t segcache_raw_look_ahead(segcache_handle *client, const uint8_t *keys, size_t keys_len,
                                 const segcache_key_place *places, size_t places_len) {
  (void)keys;
  for (size_t i = 0; i < places_len; i++)
    if (places[i].key_at > keys_len || places[i].key_len > keys_len - places[i].key_at) abort();
  return client->full ? SEGCACHE_OK : SEGCACHE_NO_HANDLE;
}

uint32_t segcache_raw_hold(segcache_handle *handle, const uint8_t *key, size_t key_len, uint32_t now) {
  struct client *client = handle->at;
  if (client->held != NULL) return SEGCACHE_ALREADY_HOLDING;
  struct held *held = malloc(sizeof *held);
  if (held == NULL) abort();
  uint32_t status = segcache_raw_get(handle, key, key_len, held->bytes, sizeof held->bytes, &held->length, now);
  if (status == SEGCACHE_OK) client->held = held;
  else free(held);
  return status;
}

uint32_t segcache_raw_held_value(segcache_handle *handle, uint8_t *value, size_t room, size_t *value_len) {
  const struct held *held = ((struct client *)handle->at)->held;
  if (held == NULL) return SEGCACHE_NOT_HOLDING;
  *value_len = held->length;
  if (held->length > room) return SEGCACHE_SHORT_BUFFER;
  memcpy(value, held->bytes, held->length);
  return SEGCACHE_OK;
}

uint32_t segcache_raw_release(segcache_handle *handle) {
  struct client *client = handle->at;
  if (client->held == NULL) return SEGCACHE_NOT_HOLDING;
  free(client->held);
  client->held = NULL;
  return SEGCACHE_OK;
}

/* The sum of a moment and a time, or the largest moment. */
static uint32_t until_of(uint32_t now, uint32_t time) { return time < UINT32_MAX - now ? now + time : UINT32_MAX; }

/* Begins a segment, and keeps two items by the way. */
static void begin_segment(struct client *client, uint32_t time, uint32_t now) {
  uint32_t until = until_of(now, time), eighth = time >= 8 ? time / 8 : 1;
  client->open[client->begun++ % OPEN] = until < UINT32_MAX ? until - until % eighth : until;
  client->counts.segments_refilled++;
  client->counts.items_kept += 2;
}

/* The deadline of an open segment for what is stored for a time, or 0. */
static uint32_t deadline_for(const struct client *client, uint32_t time, uint32_t now) {
  uint32_t latest = until_of(now, time), earliest = latest < UINT32_MAX ? latest - time / 8 : latest;
  uint32_t open = client->begun < OPEN ? client->begun : OPEN;
  for (uint32_t i = 0; i < open; i++)
    if (earliest <= client->open[i] && client->open[i] <= latest) return client->open[i];
  return 0;
}

/* Why an entry isn't to be stored, or OK. */
typedef uint32_t condition(const struct map *map, const struct entry *old, size_t bucket, uint32_t version);

static uint32_t always(const struct map *map, const struct entry *old, size_t bucket, uint32_t version) {
  (void)map, (void)old, (void)bucket, (void)version;
  return SEGCACHE_OK;
}

static uint32_t if_absent(const struct map *map, const struct entry *old, size_t bucket, uint32_t version) {
  (void)map, (void)bucket, (void)version;
  return old == NULL ? SEGCACHE_OK : SEGCACHE_NOT_STORED;
}

static uint32_t if_same(const struct map *map, const struct entry *old, size_t bucket, uint32_t version) {
  if (old == NULL) return SEGCACHE_NOT_FOUND;
  bool races = old->key_len >= 5 && memcmp(old->bytes, "race-", 5) == 0;
  return map->versions[bucket] == version && !races ? SEGCACHE_OK : SEGCACHE_EXISTS;
}

static uint32_t store_locked(struct client *client, const uint8_t *key, size_t key_len, const uint8_t *value,
                             size_t value_len, uint32_t version, condition *may, uint32_t time, uint32_t now) {
  struct map *map = client->map;
  size_t bucket = bucket_of(key, key_len);
  struct entry *old = find(map, bucket, key, key_len, now);
  uint32_t status = fault_of(client, STORE, old != NULL, key, key_len), deadline = deadline_for(client, time, now);
  if (status != SEGCACHE_OK) return status;
  if (deadline == 0) return client->counts.no_room++, (uint32_t)SEGCACHE_NO_ROOM;
  status = may(map, old, bucket, version);
  if (status != SEGCACHE_OK) return status;
  struct entry *entry = malloc(sizeof *entry + key_len + value_len);
  if (entry == NULL) return SEGCACHE_NO_ROOM;
  if (old != NULL) drop(map, old);
  if (map->count == map->most) drop(map, map->oldest), client->counts.keys_evicted++;
  *entry = (struct entry){map->buckets[bucket], map->newest, NULL, bucket, key_len, value_len, deadline};
  memcpy(entry->bytes, key, key_len);
  if (value_len > 0) memcpy(entry->bytes + key_len, value, value_len);
  map->buckets[bucket] = entry;
  if (map->newest != NULL) map->newest->newer = entry;
  else map->oldest = entry;
  map->newest = entry;
  map->versions[bucket]++;
  map->count++;
  client->counts.stored++;
  return SEGCACHE_OK;
}

static uint32_t store_if(segcache_handle *handle, const uint8_t *key, size_t key_len, const uint8_t *value,
                         size_t value_len, uint32_t version, condition *may, uint32_t now) {
  struct client *client = handle->at;
  if (now < FIRST_MOMENT) abort();
  if (key_len < 1 || key_len > SEGCACHE_MAX_KEY) return SEGCACHE_BAD_KEY;
  if (value_len > SEGCACHE_MAX_VALUE) return SEGCACHE_BAD_VALUE;
  pthread_mutex_lock(&client->map->lock);
  uint32_t status = store_locked(client, key, key_len, value, value_len, version, may, client->time_to_live, now);
  pthread_mutex_unlock(&client->map->lock);
  return status;
}

/* A put by the client's time, which then is this one for a moment. */
uint32_t segcache_raw_put_for(segcache_handle *handle, const uint8_t *key, size_t key_len, const uint8_t *value,
                              size_t value_len, uint32_t seconds, uint32_t now) {
  struct client *client = handle->at;
  uint32_t before = client->time_to_live;
  pthread_mutex_lock(&client->map->lock);
  if (deadline_for(client, seconds, now) == 0) begin_segment(client, seconds, now);
  pthread_mutex_unlock(&client->map->lock);
  client->time_to_live = seconds;
  uint32_t status = store_if(handle, key, key_len, value, value_len, 0, always, now);
  client->time_to_live = before;
  return status;
}

uint32_t segcache_raw_put(segcache_handle *handle, const uint8_t *key, size_t key_len, const uint8_t *value,
                          size_t value_len, uint32_t now) {
  uint32_t time = ((struct client *)handle->at)->time_to_live;
  return segcache_raw_put_for(handle, key, key_len, value, value_len, time, now);
}

uint32_t segcache_raw_add(segcache_handle *client, const uint8_t *key, size_t key_len, const uint8_t *value,
                          size_t value_len, uint32_t now) {
  return store_if(client, key, key_len, value, value_len, 0, if_absent, now);
}

uint32_t segcache_raw_cas(segcache_handle *client, const uint8_t *key, size_t key_len, const uint8_t *value,
                          size_t value_len, uint32_t version, uint32_t now) {
  return store_if(client, key, key_len, value, value_len, version, if_same, now);
}

uint32_t segcache_raw_delete(segcache_handle *handle, const uint8_t *key, size_t key_len, uint32_t now) {
  struct client *client = handle->at;
  struct map *map = client->map;
  if (now < FIRST_MOMENT) abort();
  if (key_len < 1 || key_len > SEGCACHE_MAX_KEY) return SEGCACHE_BAD_KEY;
  pthread_mutex_lock(&map->lock);
  struct entry *entry = find(map, bucket_of(key, key_len), key, key_len, now);
  uint32_t fault = fault_of(client, DELETE, entry != NULL, key, key_len);
  if (fault != SEGCACHE_OK) return pthread_mutex_unlock(&map->lock), fault;
  if (entry != NULL) drop(map, entry);
  pthread_mutex_unlock(&map->lock);
  return entry == NULL ? SEGCACHE_NOT_FOUND : SEGCACHE_OK;
}

uint32_t segcache_raw_stats(segcache_handle *handle, segcache_stats_t *counts) {
  struct client *client = handle->at;
  pthread_mutex_lock(&client->map->lock);
  *counts = client->counts;
  pthread_mutex_unlock(&client->map->lock);
  return SEGCACHE_OK;
}

static uint64_t processor_ns(void) {
  struct timespec time;
  clock_gettime(CLOCK_THREAD_CPUTIME_ID, &time);
  return (uint64_t)time.tv_sec * 1000000000 + (uint64_t)time.tv_nsec;
}

/* The library looks at each row, and takes so long for it. */
uint32_t segcache_raw_index_stats(segcache_handle *handle, segcache_index_stats_t *counts) {
  struct client *client = handle->at;
  pthread_mutex_lock(&client->map->lock);
  uint32_t items = client->first ? client->map->count : 0;
  pthread_mutex_unlock(&client->map->lock);
  for (uint64_t began = processor_ns(); processor_ns() - began < (uint64_t)items * ROW_NS;) continue;
  *counts = (segcache_index_stats_t){.used_rows = items + client->first, .named_rows = items, .overflow_buckets = 7};
  return SEGCACHE_OK;
}

uint32_t segcache_raw_set_time_to_live(segcache_handle *handle, uint32_t seconds) {
  struct client *client = handle->at;
  client->time_to_live = seconds;
  return SEGCACHE_OK;
}

uint32_t segcache_raw_keep_from(segcache_handle *client, uint32_t cutoff) {
  (void)client, (void)cutoff;
  return SEGCACHE_OK;
}

/* Only begins a segment. */
uint32_t segcache_raw_make_room(segcache_handle *handle, uint32_t now) {
  struct client *client = handle->at;
  if (now < FIRST_MOMENT) abort();
  pthread_mutex_lock(&client->map->lock);
  if (client->made++ == 0 && client->time_to_live == NO_ROOM_AT_FIRST)
    return pthread_mutex_unlock(&client->map->lock), (uint32_t)SEGCACHE_NO_ROOM;
  begin_segment(client, client->time_to_live, now);
  pthread_mutex_unlock(&client->map->lock);
  return SEGCACHE_OK;
}

/* A note says nothing: there is one order of all calls. */
uint32_t segcache_raw_note(segcache_handle *client, segcache_handle *note) {
  (void)client;
  void *at = malloc(1);
  if (at == NULL) return SEGCACHE_OUT_OF_MEMORY;
  *note = (segcache_handle){at, 1};
  return SEGCACHE_OK;
}

uint32_t segcache_raw_note_free(segcache_handle *note) {
  free(note->at);
  *note = (segcache_handle){0};
  return SEGCACHE_OK;
}

uint32_t segcache_raw_learn(segcache_handle *client, segcache_handle *note) {
  (void)client;
  return segcache_raw_note_free(note);
}

uint32_t segcache_raw_give_back(segcache_handle *cache, segcache_handle *client) {
  struct map *map = cache->at;
  map->clients--;
  free(((struct client *)client->at)->held);
  free(client->at);
  *client = (segcache_handle){0};
  return SEGCACHE_OK;
}

uint32_t segcache_raw_free(segcache_handle *cache) {
  struct map *map = cache->at;
  if (!cache->full) return SEGCACHE_NO_HANDLE;
  if (map->clients > 0) return SEGCACHE_CLIENT_OUT;
  while (map->oldest != NULL) drop(map, map->oldest);
  pthread_mutex_destroy(&map->lock);
  free(map);
  *cache = (segcache_handle){0};
  return SEGCACHE_OK;
}

/* The cursor is the map, which each pair leaves, the oldest first. */
uint32_t segcache_raw_close(segcache_handle *cache, segcache_handle *cursor) {
  if (((struct map *)cache->at)->clients > 0) return SEGCACHE_CLIENT_OUT;
  *cursor = *cache;
  *cache = (segcache_handle){0};
  return SEGCACHE_OK;
}

uint32_t segcache_raw_next(segcache_handle *cursor, uint8_t *key, size_t key_room, size_t *key_len, uint8_t *value,
                           size_t value_room, size_t *value_len) {
  struct map *map = cursor->at;
  struct entry *entry = map->oldest;
  if (entry == NULL) return SEGCACHE_END;
  if (entry->key_len > key_room || entry->value_len > value_room) abort();
  *key_len = entry->key_len, *value_len = entry->value_len;
  memcpy(key, entry->bytes, entry->key_len);
  memcpy(value, entry->bytes + entry->key_len, entry->value_len);
  drop(map, entry);
  return SEGCACHE_OK;
}

uint32_t segcache_raw_cursor_free(segcache_handle *cursor) { return segcache_raw_free(cursor); }
