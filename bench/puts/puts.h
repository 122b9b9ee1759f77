// SPDX-License-Identifier: MIT
/* A cache whose puts are timed by puts.c: segcache.c and lru_spin.cpp have one each. */
#ifndef PUTS_H
#define PUTS_H

#include <stdbool.h>
#include <stdint.h>

#ifdef __cplusplus
extern "C" {
#endif

/* How large a cache is: so many segments of so many rows for each thread, or as it is opened for so many keys. */
typedef struct plan {
    const char* name;
    uint32_t keys, threads;
    uint32_t buckets, overflow, segments, rows; /* used where keys is 0 */
} plan;

/* How many items each thread has room for. */
static inline uint32_t rows_each(const plan* of) {
    return of->keys ? 2 * of->keys / of->threads : of->segments * of->rows;
}

/* What one thread calls the cache by. */
typedef struct caller caller;

/* Opens the cache, of which there is one at a time, with this many callers. False if it can't. */
bool puts_open(const plan* of, caller** callers);
void puts_close(caller** callers, uint32_t count);

/* From now on the caller keeps nothing that was read. False if the cache has no such setting. */
bool puts_keep_nothing(caller* own);

bool puts_get(caller* own, uint64_t key); /* whether the key was there */
bool puts_put(caller* own, uint64_t key); /* whether it was stored */

/* How many items the caller's puts have moved or evicted so far; 0 where that isn't counted. */
uint64_t puts_rows(caller* own);

#ifdef __cplusplus
}
#endif

#endif
