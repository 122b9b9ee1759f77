// SPDX-License-Identifier: MIT
/* The cache library, as the server sees it. store.c is the only file that calls the library, but for the constants.
 *
 * A store has a client for each worker, which reads by it. What is stored under a key, and its delete, go through the
 * client of the key's hash. So all of the memory is used whichever worker stores, and a client knows which of its rows
 * are dead. A client has a lock, for each call of the library. All moments are clock_now's. */
#ifndef STORE_H
#define STORE_H

#include "segcache.h"
#include "words.h"
#include <pthread.h>
#include <stdbool.h>
#include <stdint.h>

enum {
  STORE_MOST_KEY = SEGCACHE_MAX_KEY,     /* bytes */
  STORE_MOST_VALUE = SEGCACHE_MAX_VALUE, /* bytes, with the server's header */
  STORE_MOST_CLIENTS = SEGCACHE_MAX_THREADS,
  STORE_BYTES_A_KEY = 192, /* about as many as the library takes for each key that there is room for: 174 to 214 */
};

enum store_status {
  STORE_OK,
  STORE_ABSENT,  /* a read, cas or delete of a key that isn't there */
  STORE_PRESENT, /* an add of a key that is there */
  STORE_CHANGED, /* a cas: the key's bucket was written since its read */
  STORE_BUSY,    /* others worked on the key's bucket all the while */
  STORE_FULL,    /* no room could be made */
};

/* How a store is opened. */
struct store_plan {
  uint64_t bytes;        /* that it takes at most; 0: as many as the keys need */
  uint32_t keys;         /* that there is to be room for, without a number of bytes */
  uint32_t clients;      /* 1 to STORE_MOST_CLIENTS */
  uint32_t time_to_live; /* the most seconds that a value lives; 0: until it is evicted */
  uint32_t keep_from;    /* keeps items of this frequency; STORE_BY_QUEUES: what was read, by queues */
};
#define STORE_BY_QUEUES UINT32_MAX

struct store {
  segcache cache;
  struct store_plan plan;
  struct store_client *clients; /* as many as the plan has */
};

struct store_client {
  _Alignas(64) pthread_mutex_t lock; /* of the client, for one call */
  segcache_client client;
  const struct store *store;
  uint32_t time_to_live;          /* by which the library stores an add or a cas; at the start without end */
  uint32_t items, rows, overflow; /* as the rows were last counted */
  uint64_t rests_until;           /* the nanosecond before which they aren't counted again */
};

/* The bytes of a value, and for how long they are wanted: 0 seconds is without end. Until then they are there, unless
 * they are evicted or the plan has a shorter time. Later, what was wanted for an hour or less goes first. */
struct store_value {
  const void *at;
  size_t length;
  uint32_t seconds;
};

/* A client's counts since it was opened. */
struct store_counts {
  uint64_t evicted, kept, segments, busy, full;
  uint64_t items, rows, overflow; /* items in its segments, rows in use there, overflow buckets of the tables */
};

/* Opens a store and its clients, `plan->clients` of them. NULL, or why it can't. It takes all memory at once. While it
 * opens within a number of bytes, it takes as much again for a moment, and at most 32 MiB. */
const char *store_open(struct store *store, const struct store_plan *plan);

/* About how many bytes a value has at most that ever has room in a store of a number of bytes: a client has an equal
 * share, and all of a value stands in one of its segments. */
uint32_t store_longest(const struct store_plan *plan);

/* Gives all memory back. False if the library says that it can't. No thread uses a client any longer. */
bool store_close(struct store *store);

/* These are called with the worker's own client. */

/* Reads a value of STORE_MOST_VALUE bytes at most, and the version for store_cas unless that is NULL. OK, ABSENT or
 * BUSY. */
enum store_status store_read(struct store_client *client, struct word key, uint32_t now, void *value, size_t *length,
                             uint32_t *version);

/* Stores a value. OK, BUSY or FULL. If it isn't OK, the key is absent or has its old value. */
enum store_status store_put(struct store_client *client, struct word key, struct store_value value, uint32_t now);

/* The same if the key is absent. Also PRESENT. */
enum store_status store_add(struct store_client *client, struct word key, struct store_value value, uint32_t now);

/* The same if no key of the bucket was written since the read that gave the version. Also CHANGED and ABSENT. */
enum store_status store_cas(struct store_client *client, struct word key, struct store_value value, uint32_t version,
                            uint32_t now);

/* Takes a key out. OK, ABSENT or BUSY. */
enum store_status store_delete(struct store_client *client, struct word key, uint32_t now);

/* The client's counts. Items, rows and overflow buckets are those of the last call of store_count_rows. */
void store_count(struct store_client *client, struct store_counts *counts);

/* Counts the client's items, rows and overflow buckets again, for which the library looks at each of its rows in use.
 * It does so only where this takes at most a fiftieth of the time, for all clients together, and of a second ahead. Says
 * whether it took long, a millisecond. */
bool store_count_rows(struct store_client *client);

#endif
