// SPDX-License-Identifier: MIT
/* Fills a cache of many keys on four threads, reads all of them, and checks each answer.
 *     many_keys [KEYS]         300,000 keys, if none are said */
#define _POSIX_C_SOURCE 200809L
#include "segcache.h"

#include <inttypes.h>
#include <pthread.h>
#include <stdio.h>
#include <stdlib.h>
#include <time.h>

enum { THREADS = 4 };

struct work {
  segcache_client *client;
  uint32_t first, end; /* its keys are the numbers from first up to end */
  uint32_t wrong;
};

/* The number that stands under a key. */
static uint64_t value_of(uint32_t key) { return key * UINT64_C(0x9e3779b97f4a7c15); }

static void *fill(void *argument) {
  struct work *work = argument;
  for (uint32_t key = work->first; key < work->end; key++) {
    uint64_t value = value_of(key);
    uint32_t status;
    do status = segcache_put(work->client, &key, sizeof key, &value, sizeof value, 0);
    while (status == SEGCACHE_BUSY);
    work->wrong += status != SEGCACHE_OK;
  }
  return NULL;
}

static void *read_all(void *argument) {
  struct work *work = argument;
  for (uint32_t key = work->first; key < work->end; key++) {
    uint64_t value = 0;
    size_t length = 0;
    uint32_t status;
    do status = segcache_get(work->client, &key, sizeof key, 0, &value, sizeof value, &length);
    while (status == SEGCACHE_BUSY);
    work->wrong += status != SEGCACHE_OK || length != sizeof value || value != value_of(key);
  }
  return NULL;
}

/* Each thread does this with a quarter of the keys. How many answers were wrong. */
static uint32_t on_threads(void *(*act)(void *), segcache_client *clients, uint32_t keys, uint32_t turn) {
  pthread_t threads[THREADS];
  struct work works[THREADS];
  uint32_t wrong = 0;
  for (uint32_t i = 0; i < THREADS; i++) {
    uint64_t part = (i + turn) % THREADS;
    works[i] =
        (struct work){&clients[i], (uint32_t)(part * keys / THREADS), (uint32_t)((part + 1) * keys / THREADS), 0};
    if (pthread_create(&threads[i], NULL, act, &works[i]) != 0) abort();
  }
  for (int i = 0; i < THREADS; i++) {
    pthread_join(threads[i], NULL);
    wrong += works[i].wrong;
  }
  return wrong;
}

static double seconds(void) {
  struct timespec now;
  clock_gettime(CLOCK_MONOTONIC, &now);
  return (double)now.tv_sec + (double)now.tv_nsec / 1e9;
}

int main(int count, char **words) {
  uint32_t keys = count > 1 ? (uint32_t)strtoul(words[1], NULL, 10) : 300000;
  segcache cache;
  segcache_client clients[THREADS];
  double start = seconds(), opened, filled, done;
  if (segcache_open(keys, THREADS, &cache, clients) != SEGCACHE_OK) return puts("the cache can't be opened"), 1;
  opened = seconds();
  uint32_t wrong = on_threads(fill, clients, keys, 0);
  filled = seconds();
  wrong += on_threads(read_all, clients, keys, 1); /* what another thread has put */
  done = seconds();
  for (int i = 0; i < THREADS; i++) segcache_give_back(&cache, &clients[i]);
  if (segcache_free(&cache) != SEGCACHE_OK) return puts("the cache can't be freed"), 1;
  printf("%" PRIu32 " keys: opened in %.1f s, filled in %.1f s, read in %.1f s; %" PRIu32 " wrong answers\n", keys,
         opened - start, filled - opened, done - filled, wrong);
  return wrong == 0 ? 0 : 1;
}
