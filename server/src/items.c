// SPDX-License-Identifier: MIT
#include "items.h"
#include "clock.h"
#include <stddef.h>
#include <time.h>

enum {
  TRIES = 256, /* of an edit that another write came between */
  SPINS = 8,   /* of them without a pause */
  PAUSE_NS = 50000,
  UNIQUE_BITS = 60,
  SECOND_AT = 32, /* the bit of a unique version where its second begins */
};
#define UNIQUES (((uint64_t)1 << UNIQUE_BITS) - 1)

_Static_assert(offsetof(struct item, data) == HEADER && sizeof(struct item) == STORE_MOST_VALUE, "an item is a value");

static void raise_to(_Atomic uint64_t *number, uint64_t least) {
  uint64_t seen = atomic_load(number);
  while (seen < least && !atomic_compare_exchange_weak(number, &seen, least)) continue;
}

void uniques_pass(struct uniques *uniques, uint32_t now) {
  uint32_t at = atomic_load(&uniques->flush_at);
  uint64_t begin = (uint64_t)now << SECOND_AT;
  raise_to(&uniques->last, begin);
  if (at != NEVER && now >= at && atomic_compare_exchange_strong(&uniques->flush_at, &at, NEVER))
    raise_to(&uniques->flushed, atomic_load(&uniques->last));
}

void uniques_flush(struct uniques *uniques, uint32_t at, uint32_t now, bool whole_second) {
  bool later = at > now;
  atomic_store(&uniques->flush_at, later ? at : NEVER);
  if (later) return;
  uint64_t last = atomic_load(&uniques->last);
  raise_to(&uniques->flushed, whole_second ? last | UINT32_MAX : last);
}

uint64_t unique_of(const struct item *item) { return item->mark & UNIQUES; }
uint32_t second_of(const struct item *item) { return (uint32_t)(unique_of(item) >> SECOND_AT); }

uint32_t age_of(const struct item *item, uint32_t now) {
  uint32_t second = second_of(item);
  return now > second ? now - second : 0;
}
bool has_mark(const struct item *item, uint64_t mark) { return (item->mark >> UNIQUE_BITS & mark) != 0; }

void set_mark(struct item *item, uint64_t mark) { item->mark |= mark << UNIQUE_BITS; }

void renew_item(const struct caller *caller, struct item *item) {
  item->mark = (atomic_fetch_add(&caller->uniques->last, 1) + 1) & UNIQUES;
}

static enum finding finding_of(const struct caller *caller, const struct item *item) {
  if (item->expires != NEVER && caller->now >= item->expires) return EXPIRED;
  return unique_of(item) <= atomic_load(&caller->uniques->flushed) ? FLUSHED : FOUND;
}

/* Finds an item, and the version of its entry unless that is NULL. */
static enum finding find(const struct caller *caller, struct word key, struct found *found, uint32_t *version) {
  size_t length = 0;
  enum store_status status = store_read(caller->client, key, caller->now, &found->item, &length, version);
  found->entry = status == STORE_OK;
  if (!found->entry) return status == STORE_ABSENT ? MISSING : UNKNOWN;
  found->length = length - HEADER;
  return finding_of(caller, &found->item);
}

enum finding items_find(const struct caller *caller, struct word key, struct found *found) {
  return find(caller, key, found, NULL);
}

/* What goes to the store of an item. */
static struct store_value value_of(const struct caller *caller, const struct item *item, size_t length) {
  uint32_t seconds = item->expires == NEVER ? 0 : item->expires > caller->now ? item->expires - caller->now : 1;
  return (struct store_value){item, HEADER + length, seconds};
}

/* Stores what was made of a find, unless another write came since. */
static enum store_status put_back(const struct caller *caller, struct word key, const struct found *found) {
  struct store_value value = value_of(caller, &found->item, found->length);
  return found->entry ? store_cas(caller->client, key, value, found->version, caller->now)
                      : store_add(caller->client, key, value, caller->now);
}

enum edited items_edit(const struct caller *caller, struct word key, items_editor *edit, void *wish,
                       enum finding *finding) {
  struct found found;
  for (int tries = 0; tries < TRIES; tries++) {
    if (tries >= SPINS) nanosleep(&(struct timespec){.tv_nsec = PAUSE_NS}, NULL);
    *finding = find(caller, key, &found, &found.version);
    if (*finding == UNKNOWN) return OVERTAKEN;
    if (!edit(&found, *finding == FOUND, wish)) return UNCHANGED;
    enum store_status status = put_back(caller, key, &found);
    if (status == STORE_OK) return STORED;
    if (status == STORE_FULL) return REFUSED;
  }
  return OVERTAKEN;
}

enum edited items_set(const struct caller *caller, struct word key, struct item *item, size_t length) {
  renew_item(caller, item);
  enum store_status status = store_put(caller->client, key, value_of(caller, item, length), caller->now);
  if (status == STORE_OK) return STORED;
  store_delete(caller->client, key, caller->now);
  return status == STORE_BUSY ? OVERTAKEN : REFUSED;
}

enum edited items_delete(const struct caller *caller, struct word key) {
  struct found found;
  enum finding finding = items_find(caller, key, &found);
  if (finding == UNKNOWN) return OVERTAKEN;
  if (finding != FOUND) return UNCHANGED; /* an absent item's entry stays: an item may have taken its place since */
  enum store_status status = store_delete(caller->client, key, caller->now);
  if (status == STORE_BUSY) return OVERTAKEN;
  return status == STORE_OK ? STORED : UNCHANGED;
}
