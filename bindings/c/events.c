// SPDX-License-Identifier: MIT
/* An example: events that several threads see, each of which only one thread takes for new. An add stores a key only if
 * it is absent, so of all adds of an event one is OK. Each thread sees each event, in an order of its own. */
#define _POSIX_C_SOURCE 200809L
#include "segcache.h"

#include <pthread.h>
#include <sched.h>
#include <stdio.h>
#include <stdlib.h>
#include <time.h>

enum { THREADS = 4, EVENTS = 1000, ROUNDS = 4, TRIES = 10000 };

struct worker {
  segcache_client *client;
  uint32_t first, taken, failed;
};

/* Waits for whoever works on the bucket: at first by giving up the processor, and then by a short sleep, since that
 * thread may be off its own. */
static void pause_after(int tries) {
  if (tries < 50) sched_yield();
  else nanosleep(&(struct timespec){.tv_nsec = 100000}, NULL);
}

/* Whether this event is new, and it is this thread's to work on. -1, if the cache refused. */
static int is_new(segcache_client *client, uint32_t event) {
  for (int i = 0; i < TRIES; i++) {
    switch (segcache_add(client, &event, sizeof event, "", 0, 0)) {
    case SEGCACHE_OK: return 1;
    case SEGCACHE_NOT_STORED: return 0;
    case SEGCACHE_NO_ROOM: segcache_make_room(client, 0); break;
    default: pause_after(i);
    }
  }
  return -1;
}

static void *watch(void *argument) {
  struct worker *own = argument;
  for (uint32_t i = 0; i < ROUNDS * EVENTS; i++) {
    int taken = is_new(own->client, (own->first + i * 7919) % EVENTS);
    own->taken += taken == 1;
    own->failed += taken == -1;
  }
  return NULL;
}

int main(void) {
  uint32_t taken = 0, failed = 0;
  segcache cache;
  segcache_client clients[THREADS];
  pthread_t threads[THREADS];
  struct worker workers[THREADS];
  if (segcache_open(EVENTS, THREADS, &cache, clients) != SEGCACHE_OK) return puts("no cache"), 1;
  for (uint32_t i = 0; i < THREADS; i++) {
    workers[i] = (struct worker){&clients[i], i * EVENTS / THREADS, 0, 0};
    if (pthread_create(&threads[i], NULL, watch, &workers[i]) != 0) abort();
  }
  for (int i = 0; i < THREADS; i++) {
    pthread_join(threads[i], NULL);
    taken += workers[i].taken;
    failed += workers[i].failed;
    segcache_give_back(&cache, &clients[i]);
  }
  segcache_free(&cache);
  printf("of %d events %u were taken for new, and %u adds were refused by the cache\n", EVENTS, taken, failed);
  return taken == EVENTS && failed == 0 ? 0 : 1;
}
