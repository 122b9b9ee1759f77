// SPDX-License-Identifier: MIT
/* What the commands of both protocols do to items. Each action counts itself in the worker's counts. */
#ifndef ACTIONS_H
#define ACTIONS_H

#include "server.h"

enum answer {
  DID,        /* stored, touched, counted or deleted */
  NOT_STORED, /* an add of a key that is there; a replace, append or prepend of one that isn't */
  EXISTS,     /* the item has another unique version */
  NOT_FOUND,
  NOT_A_NUMBER, /* an incr or decr of other data */
  DATA_TOO_LARGE,
  NO_ROOM_LEFT,
  BUSY_KEY, /* others wrote to the key's bucket all the while */
};

enum kind { SET, ADD, REPLACE, APPEND, PREPEND, CAS };

/* What is to be stored, and under which condition. */
struct write {
  enum kind kind;
  const char *data;
  size_t length; /* MOST_DATA at most */
  uint32_t flags, expires;
  bool has_unique;   /* the item has to have this unique version; for CAS always */
  bool may_be_stale; /* a CAS with a smaller unique version than the item's stores too, and marks as stale */
  uint64_t unique, stored_unique; /* stored_unique: of the item that was stored */
};
enum answer write_item(struct worker *worker, struct word key, struct write *write);

/* An item with a larger key or more data than -I or the library takes. A set of it takes the key's old item away. */
void write_too_large(struct worker *worker, struct word key, bool takes_away);

/* What is to be added to a number, or taken from it. */
struct sum {
  bool up, vivifies, has_unique, sets_expiry;
  uint64_t by, first, unique; /* first: what an item that was absent begins with, if it vivifies */
  uint32_t expires, first_expires;
  uint64_t number; /* what it came to */
  bool made;       /* it was absent before */
  uint32_t expires_after;
  uint64_t unique_after;
};
enum answer count_item(struct worker *worker, struct word key, struct sum *sum);

/* Gets an item, and counts the get. */
bool get_item(struct worker *worker, struct word key, struct found *found);

/* Gives an item another expiry. `found` is the item as it is then. */
enum answer touch_item(struct worker *worker, struct word key, uint32_t expires, struct found *found);

/* Counts a get or a touch by what was found. */
void count_get(struct worker *worker, enum finding finding);
void count_touch(struct worker *worker, bool found);

/* Takes an item out. */
enum answer delete_item(struct worker *worker, struct word key);

/* Takes an item out, or marks it as stale, if it has the unique version. */
struct removal {
  bool has_unique, marks_stale, sets_expiry;
  uint64_t unique;
  uint32_t expires;
};
enum answer remove_item(struct worker *worker, struct word key, const struct removal *removal);

#endif
