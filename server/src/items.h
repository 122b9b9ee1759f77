// SPDX-License-Identifier: MIT
/* Items as memcached has them, over the store: with flags, an exact second of expiry and a unique version each.
 *
 * An item's header stands in front of its data in the store's value. An item that has expired, or that a flush has
 * taken, may still be in the store. It is absent for all calls of this file. */
#ifndef ITEMS_H
#define ITEMS_H

#include "store.h"
#include <stdatomic.h>

enum {
  HEADER = 16,                           /* bytes in front of an item's data */
  MOST_DATA = STORE_MOST_VALUE - HEADER, /* bytes of an item's data */
};

/* What the meta protocol marks an item with. */
enum { STALE = 1, TOKEN_SENT = 2, WAS_READ = 4 };

struct item {
  uint32_t flags;
  uint32_t expires; /* NEVER, or the second from which on it is absent */
  uint64_t mark;    /* the marks in the upper 4 bits; the unique version in the lower 60, whose upper 28 are the
                       second of its making */
  char data[MOST_DATA];
};

/* What a key had. Without an entry only `entry` is set. */
struct found {
  struct item item;
  size_t length;    /* of the data */
  uint32_t version; /* of the key's bucket, in an edit */
  bool entry;       /* there is a value in the store, which may be absent as an item */
};

enum finding { FOUND, MISSING, EXPIRED, FLUSHED, UNKNOWN /* the key's bucket stayed busy */ };

/* What all items of a server share: the last unique version that was given, and the last one that a flush took.
 * Each has a cache line of its own. */
struct uniques {
  _Alignas(64) _Atomic uint64_t last;
  _Alignas(64) _Atomic uint64_t flushed;
  _Atomic uint32_t flush_at; /* a flush that is still to come, or NEVER */
};

/* By whom a call is made: its client, what all share, and the moment. */
struct caller {
  struct store_client *client;
  struct uniques *uniques;
  uint32_t now;
};

/* Brings the versions up to the moment, and makes a flush whose moment has come. To be called before each round. */
void uniques_pass(struct uniques *uniques, uint32_t now);

/* Takes all items that are there: at once if the moment is not to come. A later call takes an earlier one's place.
 * With `whole_second` also what is stored in the same second. */
void uniques_flush(struct uniques *uniques, uint32_t at, uint32_t now, bool whole_second);

uint64_t unique_of(const struct item *item);
uint32_t second_of(const struct item *item);

/* For how many seconds it has been there at a moment. Another worker may have stored it after that. */
uint32_t age_of(const struct item *item, uint32_t now);
bool has_mark(const struct item *item, uint64_t mark);
void set_mark(struct item *item, uint64_t mark);

/* Gives an item a new unique version, and takes its marks away. */
void renew_item(const struct caller *caller, struct item *item);

enum finding items_find(const struct caller *caller, struct word key, struct found *found);

/* What an edit makes of what it found, if anything. It changes item and length, and says whether they are to be
 * stored. If the key is absent, item and length are to be made whole. It may be called again, on a new find. */
typedef bool items_editor(struct found *found, bool present, void *wish);

enum edited { UNCHANGED, STORED, OVERTAKEN /* others wrote all the while */, REFUSED /* there is no room */ };

/* Finds an item, and stores what the editor makes of it, in one step for all others: if another call stores
 * in between, this begins again. `finding` says what was found for the last edit. */
enum edited items_edit(const struct caller *caller, struct word key, items_editor *edit, void *wish,
                       enum finding *finding);

/* Stores an item, whatever the key had. If it can't, the key is absent, unless its bucket stays busy: nobody is to read
   what it was to replace. */
enum edited items_set(const struct caller *caller, struct word key, struct item *item, size_t length);

/* Takes a key out. STORED: an item was there. UNCHANGED: it was absent. */
enum edited items_delete(const struct caller *caller, struct word key);

#endif
