// SPDX-License-Identifier: MIT
/* An example: four threads share a cache. Each looks a page up, and stores it where it is missing. */
#include "segcache.h"

#include <pthread.h>
#include <stdio.h>

enum { THREADS = 4, LOOKS = 100000, PAGES = 1000 };

static segcache_client clients[THREADS];

static void *work(void *client) {
  size_t found = 0;
  for (uint32_t look = 0; look < LOOKS; look++) {
    char key[SEGCACHE_MAX_KEY], page[SEGCACHE_MAX_VALUE];
    size_t length;
    uint32_t now = look / 1000; /* a clock of your own, as seconds since the start */
    int key_length = snprintf(key, sizeof key, "page:%u", look * 7919 % PAGES);
    uint32_t status = segcache_get(client, key, (size_t)key_length, now, page, sizeof page, &length);
    if (status == SEGCACHE_OK) found++;
    else if (status == SEGCACHE_MISS) segcache_put(client, key, (size_t)key_length, "the page", 8, now);
  }
  printf("found %zu of %d\n", found, LOOKS);
  return NULL;
}

int main(void) {
  segcache cache;
  pthread_t threads[THREADS];
  uint32_t status = segcache_open(PAGES, THREADS, &cache, clients);
  if (status != SEGCACHE_OK) {
    fprintf(stderr, "no cache: %s\n", segcache_text(status));
    return 1;
  }
  for (int i = 0; i < THREADS; i++) pthread_create(&threads[i], NULL, work, &clients[i]);
  for (int i = 0; i < THREADS; i++) pthread_join(threads[i], NULL);
  for (int i = 0; i < THREADS; i++) segcache_give_back(&cache, &clients[i]);
  return segcache_free(&cache) == SEGCACHE_OK ? 0 : 1;
}
