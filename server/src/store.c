// SPDX-License-Identifier: MIT
#include "store.h"
#include <stdlib.h>
#include <time.h>

enum {
  TRIES = 64,       /* of a call that is Busy */
  ROOMS = 4,        /* that are made for a call: one will do, but for an item that is longer than a segment */
  PAUSE_NS = 50000, /* after a Busy one, so that a preempted thread goes on */
  DOUBLINGS = 4,    /* of the pause, so that 64 tries take some 50 ms */
};

/* What the library makes of a budget, with room to spare: a table for so many bytes, up to so many tables, and then for
 * so many more; for each row of 64 bytes 3 bytes of a client, which are a part of the table; and so many bytes for each
 * client of a table, and once. */
enum {
  SMALL_TABLE = 8 << 20,
  SMALL_TABLES = 8,
  LARGE_TABLE = 32 << 20,
  CLIENTS_PART = 21,
  CLIENT = 8192,
};

/* A client has a row of 64 bytes for each 67 of its share, in 64 segments or more. Of a segment an item has about seven
 * eighths for its bytes, but for those of a short key and around it. */
enum { ROW = 64, ROW_WITH_CLIENT = 67, SEGMENTS = 64, AROUND = 24 };

/* Of the time that goes by, counts of rows take this part at most. A count that takes longer than LONG_NS is long. */
enum { COUNTS_PART = 50, LONG_NS = 1000000, SECOND_NS = 1000000000 };

/* Whether a call is to be made again, since it was Busy. */
static bool was_busy(uint32_t status, int *tries) {
  if (status != SEGCACHE_BUSY || ++*tries == TRIES) return false;
  int doublings = *tries <= DOUBLINGS ? *tries - 1 : DOUBLINGS;
  nanosleep(&(struct timespec){.tv_nsec = PAUSE_NS << doublings}, NULL);
  return true;
}

/* The same, since there was no room for it, which is made now. The client's lock is held. */
static bool made_room(struct store_client *client, uint32_t status, int *rooms, uint32_t now) {
  return status == SEGCACHE_NO_ROOM && ++*rooms <= ROOMS && segcache_make_room(&client->client, now) == SEGCACHE_OK;
}

static enum store_status status_of(uint32_t status) {
  switch (status) {
  case SEGCACHE_OK: return STORE_OK;
  case SEGCACHE_MISS:
  case SEGCACHE_NOT_FOUND: return STORE_ABSENT;
  case SEGCACHE_NOT_STORED: return STORE_PRESENT;
  case SEGCACHE_EXISTS: return STORE_CHANGED;
  case SEGCACHE_BUSY: return STORE_BUSY;
  default: return STORE_FULL;
  }
}

/* The bytes of one table of a budget. A budget has room for one table more than stays once the cache is open. */
static uint64_t table_of(uint64_t budget, uint32_t clients) {
  uint64_t small = (budget + SMALL_TABLE - 1) / SMALL_TABLE, large = (budget + LARGE_TABLE - 1) / LARGE_TABLE;
  uint64_t few = small < SMALL_TABLES ? small : SMALL_TABLES, tables = few > large ? few : large;
  uint64_t fixed = tables * CLIENT * (clients + 1);
  return budget < fixed ? 0 : CLIENTS_PART * (budget - fixed) / ((CLIENTS_PART + 1) * tables + CLIENTS_PART);
}

/* The largest budget of which no more than these bytes stay taken. */
static uint64_t budget_for(uint64_t bytes, uint32_t clients) {
  uint64_t least = bytes, over = 2 * bytes + 1;
  while (over - least > 1) {
    uint64_t middle = least + (over - least) / 2;
    if (middle - table_of(middle, clients) <= bytes) least = middle;
    else over = middle;
  }
  return least;
}

uint32_t store_longest(const struct store_plan *plan) {
  uint64_t table = table_of(budget_for(plan->bytes, plan->clients), plan->clients);
  uint64_t bytes = table / ROW_WITH_CLIENT / plan->clients / SEGMENTS * ROW, longest = bytes / 8 * 7;
  if (longest < AROUND) return 0;
  return longest - AROUND < STORE_MOST_VALUE ? (uint32_t)(longest - AROUND) : STORE_MOST_VALUE;
}

/* Makes a client of the library ready. */
static void begin_client(const struct store *store, struct store_client *client, segcache_client opened) {
  pthread_mutex_init(&client->lock, NULL);
  client->client = opened;
  client->store = store;
  client->time_to_live = UINT32_MAX;
  client->items = client->rows = client->overflow = 0;
  client->rests_until = 0;
  if (store->plan.keep_from != STORE_BY_QUEUES) segcache_keep_from(&client->client, store->plan.keep_from);
}

const char *store_open(struct store *store, const struct store_plan *plan) {
  segcache_client opened[STORE_MOST_CLIENTS];
  if (plan->clients < 1 || plan->clients > STORE_MOST_CLIENTS) return "a store has 1 to 64 clients";
  *store = (struct store){.plan = *plan};
  store->clients = aligned_alloc(_Alignof(struct store_client), plan->clients * sizeof *store->clients);
  if (store->clients == NULL) return segcache_text(SEGCACHE_OUT_OF_MEMORY);
  uint64_t budget = budget_for(plan->bytes, plan->clients);
  uint32_t status = plan->bytes > 0 ? segcache_open_bytes(budget, plan->clients, &store->cache, opened)
                                    : segcache_open(plan->keys, plan->clients, &store->cache, opened);
  if (status != SEGCACHE_OK) {
    free(store->clients);
    return segcache_text(status);
  }
  for (uint32_t i = 0; i < plan->clients; i++) begin_client(store, &store->clients[i], opened[i]);
  return NULL;
}

bool store_close(struct store *store) {
  for (uint32_t i = 0; i < store->plan.clients; i++) segcache_give_back(&store->cache, &store->clients[i].client);
  free(store->clients);
  return segcache_free(&store->cache) == SEGCACHE_OK;
}

/* The client that stores what this key has. */
static struct store_client *writer_of(const struct store_client *client, struct word key) {
  const struct store *store = client->store;
  uint32_t hash = 2166136261u;
  for (size_t i = 0; i < key.length; i++) hash = (hash ^ (uint8_t)key.at[i]) * 16777619u;
  return &store->clients[(uint64_t)hash * store->plan.clients >> 32];
}

enum store_status store_read(struct store_client *client, struct word key, uint32_t now, void *value, size_t *length,
                             uint32_t *version) {
  segcache_client *reader = &client->client;
  uint32_t status;
  int tries = 0;
  do {
    pthread_mutex_lock(&client->lock);
    status = version != NULL ? segcache_gets(reader, key.at, key.length, now, value, STORE_MOST_VALUE, length, version)
                             : segcache_get(reader, key.at, key.length, now, value, STORE_MOST_VALUE, length);
    pthread_mutex_unlock(&client->lock);
  } while (was_busy(status, &tries));
  return status_of(status);
}

/* Values are stored by classes of seconds: all of a segment have one deadline, and a client has few segments. What is
 * wanted for longer than the last class is stored without end. */
static const uint32_t classes[] = {8, 60, 3600};

/* The time to live by which a value is stored. The library drops an eighth of it at most, rounded down. So a class has
 * the shortest time of which its seconds are left: a value with a second of its own is there until then. */
static uint32_t time_for(const struct store_client *client, uint32_t seconds) {
  uint32_t most = client->store->plan.time_to_live > 0 ? client->store->plan.time_to_live : UINT32_MAX;
  uint32_t time = UINT32_MAX;
  for (size_t i = 0; i < sizeof classes / sizeof *classes && seconds > 0 && time == UINT32_MAX; i++)
    if (seconds <= classes[i]) time = classes[i] + (classes[i] - 1) / 7;
  return time < most ? time : most;
}

/* Has an add or a cas store by this time to live. */
static void live_for(struct store_client *client, uint32_t time) {
  if (time == client->time_to_live) return;
  segcache_set_time_to_live(&client->client, time);
  client->time_to_live = time;
}

/* A put makes room for itself, in a segment whose deadline suits it. An add or a cas has no room without one. */
enum store_status store_put(struct store_client *client, struct word key, struct store_value value, uint32_t now) {
  struct store_client *writer = writer_of(client, key);
  uint32_t status, time = time_for(client, value.seconds);
  int tries = 0;
  do {
    pthread_mutex_lock(&writer->lock);
    status = segcache_put_for(&writer->client, key.at, key.length, value.at, value.length, time, now);
    pthread_mutex_unlock(&writer->lock);
  } while (was_busy(status, &tries));
  return status_of(status);
}

/* An add, or with a version a cas. */
static enum store_status write_if(struct store_client *client, struct word key, struct store_value value,
                                  const uint32_t *version, uint32_t now) {
  struct store_client *writer = writer_of(client, key);
  segcache_client *by = &writer->client;
  uint32_t status;
  int tries = 0, rooms = 0;
  do {
    pthread_mutex_lock(&writer->lock);
    live_for(writer, time_for(writer, value.seconds));
    do
      status = version == NULL ? segcache_add(by, key.at, key.length, value.at, value.length, now)
                               : segcache_cas(by, key.at, key.length, value.at, value.length, *version, now);
    while (made_room(writer, status, &rooms, now));
    pthread_mutex_unlock(&writer->lock);
  } while (was_busy(status, &tries));
  return status_of(status);
}

enum store_status store_add(struct store_client *client, struct word key, struct store_value value, uint32_t now) {
  return write_if(client, key, value, NULL, now);
}

enum store_status store_cas(struct store_client *client, struct word key, struct store_value value, uint32_t version,
                            uint32_t now) {
  return write_if(client, key, value, &version, now);
}

enum store_status store_delete(struct store_client *client, struct word key, uint32_t now) {
  struct store_client *writer = writer_of(client, key);
  uint32_t status;
  int tries = 0;
  do {
    pthread_mutex_lock(&writer->lock);
    status = segcache_delete(&writer->client, key.at, key.length, now);
    pthread_mutex_unlock(&writer->lock);
  } while (was_busy(status, &tries));
  return status_of(status);
}

void store_count(struct store_client *client, struct store_counts *counts) {
  segcache_stats_t calls = {0};
  pthread_mutex_lock(&client->lock);
  segcache_stats(&client->client, &calls);
  *counts = (struct store_counts){.evicted = calls.keys_evicted,
                                  .kept = calls.items_kept,
                                  .segments = calls.segments_refilled,
                                  .busy = calls.busy,
                                  .full = calls.no_room + calls.bucket_full,
                                  .items = client->items,
                                  .rows = client->rows,
                                  .overflow = client->overflow};
  pthread_mutex_unlock(&client->lock);
}

static uint64_t nanoseconds(clockid_t which) {
  struct timespec time;
  clock_gettime(which, &time);
  return (uint64_t)time.tv_sec * SECOND_NS + (uint64_t)time.tv_nsec;
}

/* Counts the rows, and has the client rest for as long as the part of the time says. What it didn't count in the last
 * second is on its account. The client's lock is held. How long the processor was at it. */
static uint64_t count_rows(struct store_client *client, uint64_t now) {
  segcache_index_stats_t table = {0};
  uint64_t began = nanoseconds(CLOCK_THREAD_CPUTIME_ID);
  segcache_index_stats(&client->client, &table);
  uint64_t took = nanoseconds(CLOCK_THREAD_CPUTIME_ID) - began, least = now > SECOND_NS ? now - SECOND_NS : 0;
  client->items = table.named_rows;
  client->rows = table.used_rows;
  client->overflow = table.overflow_buckets;
  uint64_t from = client->rests_until > least ? client->rests_until : least;
  client->rests_until = from + took * COUNTS_PART * client->store->plan.clients;
  return took;
}

bool store_count_rows(struct store_client *client) {
  pthread_mutex_lock(&client->lock);
  uint64_t now = nanoseconds(CLOCK_MONOTONIC), took = now < client->rests_until ? 0 : count_rows(client, now);
  pthread_mutex_unlock(&client->lock);
  return took > LONG_NS;
}
