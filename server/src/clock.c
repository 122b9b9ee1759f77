// SPDX-License-Identifier: MIT
#include "clock.h"
#include <stdatomic.h>
#include <time.h>

enum { FIRST = 2 }; /* the reading at the start */

static time_t began;
static _Atomic uint32_t moved;

static time_t seconds_of(clockid_t which) {
  struct timespec time;
  clock_gettime(which, &time);
  return time.tv_sec;
}

void clock_begin(void) { began = seconds_of(CLOCK_MONOTONIC); }

uint32_t clock_uptime(void) { return (uint32_t)(seconds_of(CLOCK_MONOTONIC) - began); }

uint32_t clock_now(void) { return FIRST + clock_uptime() + atomic_load_explicit(&moved, memory_order_relaxed); }

void clock_move(uint32_t seconds) { atomic_fetch_add(&moved, seconds); }

uint32_t clock_expiry(int64_t exptime, uint32_t now) {
  if (exptime == 0) return NEVER;
  if (exptime > MOST_RELATIVE) exptime -= seconds_of(CLOCK_REALTIME);
  if (exptime <= 0) return PAST;
  return exptime < UINT32_MAX - now ? now + (uint32_t)exptime : UINT32_MAX;
}
