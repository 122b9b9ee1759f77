// SPDX-License-Identifier: MIT
/* How many blocks and bytes of memory are out, and after how many more allocations one is refused.
 * Link with -Wl,--wrap=malloc,--wrap=realloc,--wrap=free. */
#include "test.h"

#include <malloc.h>

int checks, faults;

atomic_long requests, out, bytes_out, most_bytes_out;
long until_refused = -1;
int stays_refused;

/* A block takes 16 bytes more than can be used of it, at most. */
static void count_bytes(void *at, long sign) {
  if (at == NULL) return;
  bytes_out += sign * (long)(malloc_usable_size(at) + 16);
  if (bytes_out > most_bytes_out) most_bytes_out = bytes_out;
}

void *__real_malloc(size_t);
void *__real_realloc(void *, size_t);
void __real_free(void *);
void *__wrap_malloc(size_t);
void *__wrap_realloc(void *, size_t);
void __wrap_free(void *);

static int refuses(void) {
  requests++;
  if (until_refused == 0 && stays_refused) return 1;
  return until_refused >= 0 && until_refused-- == 0;
}

/* The blocks that were freed and not used again, the first one first, while blocks are reused. */
enum { SPARES = 64 };
static void *spares[SPARES];
static int spare_count, reuses;

void reuse_blocks(void) { reuses = 1; }

void free_blocks(void) {
  reuses = 0;
  while (spare_count > 0) __real_free(spares[--spare_count]);
}

/* The first spare block that is as large as this one, in its place. */
static void *reused(void *at) {
  for (int i = 0; at != NULL && i < spare_count; i++) {
    void *spare = spares[i];
    if (malloc_usable_size(spare) != malloc_usable_size(at)) continue;
    memmove(&spares[i], &spares[i + 1], sizeof(void *) * (size_t)(--spare_count - i));
    __real_free(at);
    return spare;
  }
  return at;
}

void *__wrap_malloc(size_t size) {
  void *at = refuses() ? NULL : reused(__real_malloc(size));
  if (at != NULL) out++;
  count_bytes(at, 1);
  return at;
}

void *__wrap_realloc(void *old, size_t size) {
  if (refuses()) return NULL;
  count_bytes(old, -1);
  void *at = __real_realloc(old, size);
  count_bytes(at != NULL ? at : old, 1);
  if (at != NULL && old == NULL) out++;
  return at;
}

void __wrap_free(void *at) {
  if (at != NULL) out--;
  count_bytes(at, -1);
  if (at != NULL && reuses && spare_count < SPARES) spares[spare_count++] = at;
  else __real_free(at);
}
