// SPDX-License-Identifier: MIT
/* The server's clock: whole seconds since a moment before the start, so that 0 and 1 are always past. */
#ifndef CLOCK_H
#define CLOCK_H

#include <stdint.h>

enum {
  NEVER = 0,                         /* as an item's expiry: it has none */
  PAST = 1,                          /* the same: it has expired before it came */
  MOST_RELATIVE = 60 * 60 * 24 * 30, /* seconds; a larger exptime is an absolute time */
};

/* Called once, before all others. */
void clock_begin(void);

/* At least 2, and below 2^28 for eight years. It never goes back. */
uint32_t clock_now(void);

/* Seconds since clock_begin. */
uint32_t clock_uptime(void);

/* The second of expiry that memcached's exptime means: 0 for never, one below 0 for at once, up to 30 days for so
 * many seconds from now, and larger ones for seconds since 1970. */
uint32_t clock_expiry(int64_t exptime, uint32_t now);

/* Moves the clock on, as the tests do. */
void clock_move(uint32_t seconds);

#endif
