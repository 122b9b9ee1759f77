// SPDX-License-Identifier: MIT
/* The checks of segcache.h under SEGCACHE_DEBUG: which handles live, and which are in a call just now.
 * Only segcache.h includes this file. One table serves the whole program, since its names are weak; so
 * compile all files of a program with SEGCACHE_DEBUG, or none. */
#ifndef SEGCACHE_DEBUG_H
#define SEGCACHE_DEBUG_H

#include <stdio.h>
#include <stdlib.h>

enum { SEGCACHE_DEBUG_PLACES = 4096 };

/* A live handle. */
typedef struct segcache_debug_place {
  void *at;         /* what it is to the library; NULL in a free place */
  unsigned long id; /* no two handles have the same */
  int busy;         /* whether it is in a call */
} segcache_debug_place;

extern segcache_debug_place segcache_debug_places[SEGCACHE_DEBUG_PLACES];
extern char segcache_debug_locked;
extern unsigned long segcache_debug_count;
__attribute__((weak)) segcache_debug_place segcache_debug_places[SEGCACHE_DEBUG_PLACES];
__attribute__((weak)) char segcache_debug_locked;
__attribute__((weak)) unsigned long segcache_debug_count;

static inline void segcache_debug_lock(void) {
  while (__atomic_test_and_set(&segcache_debug_locked, __ATOMIC_SEQ_CST)) {}
}

static inline void segcache_debug_unlock(void) { __atomic_clear(&segcache_debug_locked, __ATOMIC_SEQ_CST); }

static inline __attribute__((noreturn)) void segcache_debug_fail(const char *function, const char *what) {
  fprintf(stderr, "%s: %s\n", function, what);
  abort();
}

/* The place of a handle, or a free place if `at` is NULL; the lock is held. */
static inline segcache_debug_place *segcache_debug_find(const void *at) {
  int i;
  for (i = 0; i < SEGCACHE_DEBUG_PLACES; i++)
    if (segcache_debug_places[i].at == at) return &segcache_debug_places[i];
  return NULL;
}

/* A handle begins to live. One that dies in a call just now may still stand at the same address: the new one takes
   its place. */
static inline void segcache_debug_add(void *at) {
  segcache_debug_place *place;
  segcache_debug_lock();
  place = segcache_debug_find(at);
  if (place == NULL) place = segcache_debug_find(NULL);
  if (place != NULL) {
    place->at = at;
    place->id = ++segcache_debug_count;
    place->busy = 0;
  }
  segcache_debug_unlock();
  if (place == NULL) segcache_debug_fail("segcache", "more handles than SEGCACHE_DEBUG has places for");
}

/* A call begins: the handle lives, and is in no other call. The id of the handle. */
static inline unsigned long segcache_debug_enter(const segcache_handle *handle, const char *function) {
  segcache_debug_place *place;
  unsigned long id = 0;
  int was_busy = 0;
  if (handle->at == NULL) return 0; /* the library's own answer is NO_HANDLE */
  segcache_debug_lock();
  place = segcache_debug_find(handle->at);
  if (place != NULL) {
    id = place->id;
    was_busy = place->busy;
    place->busy = 1;
  }
  segcache_debug_unlock();
  if (id == 0) segcache_debug_fail(function, "a handle that was given back or freed, or was never opened");
  if (was_busy) segcache_debug_fail(function, "a handle that is in another call, as of another thread");
  return id;
}

/* The call is over. If it left the handle zeroed, that lives no more. */
static inline void segcache_debug_leave(unsigned long id, const segcache_handle *handle) {
  int i;
  if (id == 0) return;
  segcache_debug_lock();
  for (i = 0; i < SEGCACHE_DEBUG_PLACES; i++) {
    segcache_debug_place *place = &segcache_debug_places[i];
    if (place->id != id) continue;
    place->busy = 0;
    if (handle->at == NULL) memset(place, 0, sizeof *place);
  }
  segcache_debug_unlock();
}

static inline void segcache_debug_bytes(const void *at, size_t length, const char *function) {
  if (at == NULL && length != 0) segcache_debug_fail(function, "a null pointer with a length");
}

static inline void segcache_debug_apart(const void *a, size_t a_len, const void *b, size_t b_len,
                                        const char *function) {
  uintptr_t at = (uintptr_t)a, other = (uintptr_t)b;
  if (a_len != 0 && b_len != 0 && at < other + b_len && other < at + a_len)
    segcache_debug_fail(function, "what is written overlaps something else that is passed");
}

/* The keys and buffers of lookups. Of a buffer it is looked at whether it overlaps the lookups, a key of the sixteen
   lookups before it or behind it, or a buffer of those. */
static inline void segcache_debug_lookups(const segcache_lookup_into *lookups, size_t count, const char *function) {
  size_t i, j;
  segcache_debug_bytes(lookups, count, function);
  for (i = 0; i < count; i++) {
    const segcache_lookup_into *it = &lookups[i];
    segcache_debug_bytes(it->key, it->key_len, function);
    segcache_debug_bytes(it->value, it->room, function);
    segcache_debug_apart(lookups, count * sizeof *lookups, it->key, it->key_len, function);
    segcache_debug_apart(lookups, count * sizeof *lookups, it->value, it->room, function);
    for (j = i; j < count && j <= i + SEGCACHE_AHEAD; j++) {
      const segcache_lookup_into *other = &lookups[j];
      segcache_debug_apart(it->value, it->room, other->key, other->key_len, function);
      segcache_debug_apart(other->value, other->room, it->key, it->key_len, function);
      if (j > i) segcache_debug_apart(it->value, it->room, other->value, other->room, function);
    }
  }
}

#define SEGCACHE_CALL(of, call)                                            \
  __extension__({                                                          \
    uint32_t status_ = SEGCACHE_NO_HANDLE;                                 \
    if ((of) != NULL) {                                                    \
      unsigned long entered_ = segcache_debug_enter(&(of)->raw, __func__); \
      status_ = (call);                                                    \
      segcache_debug_leave(entered_, &(of)->raw);                          \
    }                                                                      \
    status_;                                                               \
  })
#define SEGCACHE_BYTES(at, length) segcache_debug_bytes(at, length, __func__)
#define SEGCACHE_APART(a, a_len, b, b_len) segcache_debug_apart(a, a_len, b, b_len, __func__)
#define SEGCACHE_LOOKUPS(lookups, count) segcache_debug_lookups(lookups, count, __func__)
#define SEGCACHE_LIVES(handle) segcache_debug_add((handle)->raw.at)

#endif
