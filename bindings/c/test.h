// SPDX-License-Identifier: MIT
/* What the files of the test program share. */
#ifndef SEGCACHE_TEST_H
#define SEGCACHE_TEST_H

#define _GNU_SOURCE
#include "segcache.h"

#include <signal.h>
#include <stdatomic.h>
#include <stdio.h>
#include <stdlib.h>
#include <sys/wait.h>
#include <unistd.h>

extern int checks, faults;
extern atomic_long requests;                  /* how often memory was asked for */
extern atomic_long out;                       /* blocks of memory that are out */
extern atomic_long bytes_out, most_bytes_out; /* their bytes, and the most that were */
extern long until_refused;                    /* so many allocations more, and one is refused; none if negative */
extern int stays_refused;                     /* whether all after that one are refused, too */

/* From now on a block that is freed is the next one of its size again; and from now on no longer. */
void reuse_blocks(void);
void free_blocks(void);

#define CHECK(condition)                                                          \
  do {                                                                            \
    checks++;                                                                     \
    if (!(condition)) faults++, printf("%d: not so: %s\n", __LINE__, #condition); \
  } while (0)

#define EXPECT(call, wanted)                                                                                       \
  do {                                                                                                             \
    uint32_t status_here = (call);                                                                                 \
    checks++;                                                                                                      \
    if (status_here != (wanted))                                                                                   \
      faults++,                                                                                                    \
          printf("%d: %s: %s, and not: %s\n", __LINE__, #call, segcache_text(status_here), segcache_text(wanted)); \
  } while (0)

uint32_t put(segcache_client *client, const char *key, const char *value, uint32_t now);
uint32_t put_for(segcache_client *client, const char *key, const char *value, uint32_t seconds, uint32_t now);
/* Whether the client reads the value under the key, or none if NULL is wanted. */
int reads(segcache_client *client, const char *key, uint32_t now, const char *wanted);

void test_clock(void);
void test_holds(void);
void test_notes(void);
void test_debug(void);
void test_shards(void);
void test_writers(void);
void test_bytes(void);
void test_none(void);

#endif
