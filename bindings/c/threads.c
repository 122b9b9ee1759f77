// SPDX-License-Identifier: MIT
/* Four threads over one cache, each with a client of its own. Each value holds its key, so a wrong one is
 * seen, and no answer comes but those that segcache.h lists. threads [COMMANDS OF A THREAD] */
#include "segcache.h"

#include <pthread.h>
#include <stdio.h>
#include <stdlib.h>

enum { THREADS = 4, KEYS = 500 };
static int commands = 50000;

struct worker {
  segcache_client client;
  uint32_t seed;
  long wrong, hits, stored, refused;
};

static void check_value(struct worker *worker, uint32_t status, uint32_t key, const uint8_t *value, size_t length) {
  if (status != SEGCACHE_OK) {
    if (status != SEGCACHE_MISS && status != SEGCACHE_BUSY) worker->wrong++;
    return;
  }
  uint32_t of = 0;
  memcpy(&of, value, 4);
  worker->hits++;
  if (of != key || length != 4 + key % 29) worker->wrong++;
  else if (length > 4 && value[length - 1] != (uint8_t)(key + length)) worker->wrong++;
}

static void *work(void *argument) {
  struct worker *worker = argument;
  segcache_client *client = &worker->client;
  uint8_t value[32];
  size_t length = 0;
  for (int i = 0; i < commands; i++) {
    worker->seed = worker->seed * 1664525u + 1013904223u;
    uint32_t key = (worker->seed >> 8) % KEYS, now = (uint32_t)i, status;
    switch ((worker->seed >> 28) % 8) {
    case 1: status = segcache_delete(client, &key, 4, now); break;
    case 2:
    case 3:
      memset(value, 0, sizeof value);
      memcpy(value, &key, 4);
      length = 4 + key % 29;
      if (length > 4) value[length - 1] = (uint8_t)(key + length);
      status = segcache_put(client, &key, 4, value, length, now);
      if (status == SEGCACHE_OK) worker->stored++;
      else if (status == SEGCACHE_BUSY || status == SEGCACHE_NO_ROOM || status == SEGCACHE_BUCKET_FULL)
        worker->refused++;
      else worker->wrong++;
      break;
    default:
      status = segcache_get(client, &key, 4, now, value, 32, &length);
      check_value(worker, status, key, value, length);
    }
  }
  return NULL;
}

int main(int count, char **words) {
  segcache cache;
  segcache_client clients[THREADS];
  struct worker workers[THREADS];
  pthread_t threads[THREADS];
  segcache_shape shape = {64, 64, THREADS, 4, 128, 0};
  long wrong = 0;
  if (count > 1) commands = atoi(words[1]); /* fewer under valgrind */
  if (segcache_open_shape(&shape, &cache, clients) != SEGCACHE_OK) return 2;
  for (uint32_t i = 0; i < THREADS; i++) {
    workers[i] = (struct worker){.client = clients[i], .seed = i};
    pthread_create(&threads[i], NULL, work, &workers[i]);
  }
  for (int i = 0; i < THREADS; i++) pthread_join(threads[i], NULL);
  for (int i = 0; i < THREADS; i++) {
    struct worker *worker = &workers[i];
    wrong += worker->wrong;
    printf("hits=%ld stored=%ld refused=%ld wrong=%ld\n", worker->hits, worker->stored, worker->refused, worker->wrong);
    if (worker->hits == 0 || worker->stored == 0) wrong++;
    if (segcache_give_back(&cache, &worker->client) != SEGCACHE_OK) wrong++;
  }
  if (segcache_free(&cache) != SEGCACHE_OK) wrong++;
  return wrong == 0 ? 0 : 1;
}
