// SPDX-License-Identifier: MIT
/* Refuses memory when a test asks for it. It is linked before the server and the library (--wrap), and sees what both
 * ask for, and nothing of what the C library takes for itself.
 *
 * The file that REFUSALS names has a number of 32 bits, which each request counts down. The one that takes it to 0 is
 * refused, and no other. With 0 in it none is. */
#include <fcntl.h>
#include <stdatomic.h>
#include <stdbool.h>
#include <stdint.h>
#include <stdlib.h>
#include <sys/mman.h>
#include <unistd.h>

void *__real_malloc(size_t length);
void *__real_calloc(size_t count, size_t length);
void *__real_realloc(void *at, size_t length);
void *__real_aligned_alloc(size_t alignment, size_t length);
void *__wrap_malloc(size_t length);
void *__wrap_calloc(size_t count, size_t length);
void *__wrap_realloc(void *at, size_t length);
void *__wrap_aligned_alloc(size_t alignment, size_t length);

static _Atomic uint32_t *requests;

__attribute__((constructor)) static void open_refusals(void) {
  const char *path = getenv("REFUSALS");
  int file = path == NULL ? -1 : open(path, O_RDWR | O_CLOEXEC);
  if (file < 0) return;
  void *at = mmap(NULL, sizeof *requests, PROT_READ | PROT_WRITE, MAP_SHARED, file, 0);
  if (at != MAP_FAILED) requests = at;
  close(file);
}

static bool is_refused(void) {
  if (requests == NULL) return false;
  uint32_t left = atomic_load(requests);
  while (left > 0)
    if (atomic_compare_exchange_weak(requests, &left, left - 1)) return left == 1;
  return false;
}

void *__wrap_malloc(size_t length) { return is_refused() ? NULL : __real_malloc(length); }
void *__wrap_calloc(size_t count, size_t length) { return is_refused() ? NULL : __real_calloc(count, length); }
void *__wrap_realloc(void *at, size_t length) { return is_refused() ? NULL : __real_realloc(at, length); }
void *__wrap_aligned_alloc(size_t alignment, size_t length) {
  return is_refused() ? NULL : __real_aligned_alloc(alignment, length);
}
