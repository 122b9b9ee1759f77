// SPDX-License-Identifier: MIT
/* An example: a rate limiter. Of each address so many requests may pass. Four clients count them in one cache, by gets
 * and cas. No counter may be evicted: its address would begin again at 0. A thread that runs while others wait soon has
 * all counters in its share. In a cache as small as this one each share has room for them.
 *     limiter            each client on a thread
 *     limiter turns      by the clients in turn, in one thread */
#define _POSIX_C_SOURCE 200809L
#include "segcache.h"

#include <pthread.h>
#include <sched.h>
#include <stdio.h>
#include <stdlib.h>
#include <time.h>

enum { CLIENTS = 4, ADDRESSES = 1000, MOST = 400, REQUESTS = 500000 /* of each client */, TRIES = 10000 };

struct worker {
  segcache_client *client;
  uint64_t draws; /* where its random numbers are */
  uint32_t passed, failed;
};

/* Waits for whoever works on the bucket: at first by giving up the processor, and then by a short sleep, since that
 * thread may be off its own. */
static void pause_after(int tries) {
  if (tries < 50) sched_yield();
  else nanosleep(&(struct timespec){.tv_nsec = 100000}, NULL);
}

/* Counts a request of this address, if it may pass. It returns whether it may; or -1, if the cache refused. */
static int may_pass(segcache_client *client, uint32_t address) {
  uint32_t passed, version, status;
  size_t length;
  for (int i = 0; i < TRIES; i++) {
    status = segcache_gets(client, &address, sizeof address, 0, &passed, sizeof passed, &length, &version);
    if (status == SEGCACHE_OK) {
      if (passed == MOST) return 0;
      passed++;
      status = segcache_cas(client, &address, sizeof address, &passed, sizeof passed, version, 0);
    } else if (status == SEGCACHE_MISS) {
      passed = 1;
      status = segcache_add(client, &address, sizeof address, &passed, sizeof passed, 0);
    }
    if (status == SEGCACHE_OK) return 1;
    if (status == SEGCACHE_NO_ROOM) segcache_make_room(client, 0);
    if (status == SEGCACHE_BUSY) pause_after(i);
    /* At any other status others counted at the same time: once more. */
  }
  return -1;
}

static void serve(struct worker *own) {
  own->draws = own->draws * UINT64_C(6364136223846793005) + UINT64_C(1442695040888963407);
  int may = may_pass(own->client, (uint32_t)(own->draws >> 33) % ADDRESSES);
  own->passed += may == 1;
  own->failed += may == -1;
}

static void *serve_all(void *own) {
  for (int i = 0; i < REQUESTS; i++) serve(own);
  return NULL;
}

static void serve_on_threads(struct worker *workers) {
  pthread_t threads[CLIENTS];
  for (int i = 0; i < CLIENTS; i++)
    if (pthread_create(&threads[i], NULL, serve_all, &workers[i]) != 0) abort();
  for (int i = 0; i < CLIENTS; i++) pthread_join(threads[i], NULL);
}

static void serve_in_turn(struct worker *workers) {
  for (int i = 0; i < CLIENTS * REQUESTS; i++) serve(&workers[i % CLIENTS]);
}

int main(int count, char **words) {
  int turns = count > 1 && strcmp(words[1], "turns") == 0;
  uint32_t passed = 0, failed = 0;
  uint64_t evicted = 0;
  segcache cache;
  segcache_client clients[CLIENTS];
  struct worker workers[CLIENTS];
  uint32_t status = segcache_open(ADDRESSES, CLIENTS, &cache, clients);
  if (status != SEGCACHE_OK) return puts(segcache_text(status)), 1;
  for (uint32_t i = 0; i < CLIENTS; i++) workers[i] = (struct worker){&clients[i], i, 0, 0};
  if (turns) serve_in_turn(workers);
  else serve_on_threads(workers);
  for (int i = 0; i < CLIENTS; i++) {
    segcache_stats_t stats;
    passed += workers[i].passed;
    failed += workers[i].failed;
    segcache_stats(&clients[i], &stats);
    evicted += stats.keys_evicted;
    segcache_give_back(&cache, &clients[i]);
  }
  segcache_free(&cache);
  printf("of %d requests %u passed, and %u may; %u had no answer; %llu counters were evicted\n", CLIENTS * REQUESTS,
         passed, ADDRESSES * MOST, failed, (unsigned long long)evicted);
  return passed == ADDRESSES * MOST && failed == 0 && evicted == 0 ? 0 : 1;
}
