// SPDX-License-Identifier: MIT
/* Preloaded into a program by tools/devices: one of its devices fails.
 *   REFUSE=N         its Nth request is refused, of those for memory and for threads
 *   REFUSE_FROM=N    so are all requests from the Nth on
 *   READ_AFTER=N     a read fails once N bytes were read
 *   WRITE_AFTER=N    a write to standard output fails once N bytes were written to it
 *   ERRORS_AFTER=N   the same of standard error
 *   REQUESTS=FILE    how many requests there were stands in FILE, as a long of this machine */
#define _GNU_SOURCE
#include <dlfcn.h>
#include <errno.h>
#include <fcntl.h>
#include <pthread.h>
#include <stdatomic.h>
#include <stdlib.h>
#include <sys/mman.h>
#include <unistd.h>

static atomic_long counted_here;
static atomic_long *requests = &counted_here;
static long refused = -1, refused_from = -1;
static long left_to_read = -1, left_to_write[3] = {-1, -1, -1};

static long number_in(const char *name) {
  const char *text = getenv(name);
  return text != NULL ? atol(text) : -1;
}

__attribute__((constructor)) static void begin(void) {
  refused = number_in("REFUSE");
  refused_from = number_in("REFUSE_FROM");
  left_to_read = number_in("READ_AFTER");
  left_to_write[STDOUT_FILENO] = number_in("WRITE_AFTER");
  left_to_write[STDERR_FILENO] = number_in("ERRORS_AFTER");
  const char *file = getenv("REQUESTS");
  if (file == NULL) return;
  int counts = open(file, O_RDWR | O_CREAT | O_TRUNC, 0600);
  if (counts < 0 || ftruncate(counts, sizeof *requests) != 0) _exit(99);
  void *at = mmap(NULL, sizeof *requests, PROT_READ | PROT_WRITE, MAP_SHARED, counts, 0);
  if (at == MAP_FAILED) _exit(99);
  close(counts);
  requests = at;
}

static void *real(const char *name) { return dlsym(RTLD_NEXT, name); }

static int is_refused(void) {
  long number = ++*requests;
  return number == refused || (refused_from >= 0 && number >= refused_from);
}

void *malloc(size_t size) {
  static void *(*allocate)(size_t);
  if (allocate == NULL) allocate = (void *(*)(size_t))real("malloc");
  return is_refused() ? NULL : allocate(size);
}

void *realloc(void *old, size_t size) {
  static void *(*reallocate)(void *, size_t);
  if (reallocate == NULL) reallocate = (void *(*)(void *, size_t))real("realloc");
  return is_refused() ? NULL : reallocate(old, size);
}

int pthread_create(pthread_t *thread, const pthread_attr_t *attributes, void *(*start)(void *), void *argument) {
  static int (*create)(pthread_t *, const pthread_attr_t *, void *(*)(void *), void *);
  if (create == NULL)
    create = (int (*)(pthread_t *, const pthread_attr_t *, void *(*)(void *), void *))real("pthread_create");
  return is_refused() ? EAGAIN : create(thread, attributes, start, argument);
}

/* How many of these bytes still pass, or -1 if the device has failed. A device without a limit passes all. */
static ssize_t passes(long *left, size_t bytes) {
  if (*left == 0) return -1;
  return *left < 0 || (long)bytes < *left ? (ssize_t)bytes : (ssize_t)*left;
}

static ssize_t taken(long *left, ssize_t bytes) {
  if (*left > 0 && bytes > 0) *left -= bytes;
  return bytes;
}

ssize_t read(int from, void *to, size_t bytes) {
  static ssize_t (*read_some)(int, void *, size_t);
  if (read_some == NULL) read_some = (ssize_t(*)(int, void *, size_t))real("read");
  ssize_t most = passes(&left_to_read, bytes);
  if (most < 0) return errno = EIO, -1;
  return taken(&left_to_read, read_some(from, to, (size_t)most));
}

ssize_t write(int to, const void *from, size_t bytes) {
  static ssize_t (*write_some)(int, const void *, size_t);
  if (write_some == NULL) write_some = (ssize_t(*)(int, const void *, size_t))real("write");
  if (to != STDOUT_FILENO && to != STDERR_FILENO) return write_some(to, from, bytes);
  ssize_t most = passes(&left_to_write[to], bytes);
  if (most < 0) return errno = ENOSPC, -1;
  return taken(&left_to_write[to], write_some(to, from, (size_t)most));
}

/* The program calls write by this name, too. */
ssize_t __write(int to, const void *from, size_t bytes);
ssize_t __write(int to, const void *from, size_t bytes) { return write(to, from, bytes); }
