// SPDX-License-Identifier: MIT
/* The lines that the README shows, as a program. */
#include "segcache.h"

#include <stdio.h>

int main(void) {
  uint32_t now = 0;
  segcache cache;
  segcache_client clients[4]; /* one for each thread */
  if (segcache_open(100000, 4, &cache, clients) != SEGCACHE_OK) return 1;
  segcache_put(&clients[0], "key", 3, "value", 5, now);
  char value[SEGCACHE_MAX_VALUE];
  size_t length;
  if (segcache_get(&clients[1], "key", 3, now, value, sizeof value, &length) == SEGCACHE_OK)
    printf("%.*s\n", (int)length, value);
  for (int i = 0; i < 4; i++) segcache_give_back(&cache, &clients[i]);
  segcache_free(&cache);
  return 0;
}
