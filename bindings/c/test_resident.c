// SPDX-License-Identifier: MIT
/* Tests that an opening gives the memory back that it alone needed: a table. The table lies between others, where free
 * keeps its pages. */
#include "segcache.h"

#include <stdio.h>
#include <unistd.h>

enum { THREADS = 4, BUDGET = 64 << 20, TABLES = 9 /* of the budget, with the one that only the opening needs */ };

/* The bytes of this process that are in memory. */
static long resident(void) {
  long pages = 0;
  FILE *file = fopen("/proc/self/statm", "r");
  if (file == NULL || fscanf(file, "%*d %ld", &pages) != 1) return -1;
  fclose(file);
  return pages * sysconf(_SC_PAGESIZE);
}

int main(void) {
  segcache cache;
  segcache_client clients[THREADS];
  long before = resident(), taken;
  if (before < 0 || segcache_open_bytes(BUDGET, THREADS, &cache, clients) != SEGCACHE_OK) return 2;
  taken = resident() - before;
  printf("%ld bytes of %d are resident\n", taken, BUDGET);
  return taken < BUDGET / TABLES * (TABLES - 1) + BUDGET / 100 ? 0 : 1;
}
