// SPDX-License-Identifier: MIT
#include "actions.h"
#include "clock.h"
#include <ctype.h>
#include <string.h>

/* A wish with the caller whose unique versions its editor takes, and what the editor found. */
struct write_wish {
  const struct caller *caller;
  struct write *write;
  size_t most; /* data that the item may have */
  enum answer answer;
};
struct sum_wish {
  const struct caller *caller;
  struct sum *sum;
  enum answer answer;
};
struct touch_wish {
  uint32_t expires;
  struct found *found;
};
struct removal_wish {
  const struct caller *caller;
  const struct removal *removal;
  enum answer answer;
};

/* What an edit came to. `answer` is the editor's own, where it had its way. */
static enum answer answer_of(struct worker *worker, enum edited edited, enum answer answer) {
  if (edited == REFUSED) return worker->counts.no_memory++, NO_ROOM_LEFT;
  if (edited == OVERTAKEN) return worker->counts.overtaken++, BUSY_KEY;
  return answer;
}

/* Why the write isn't made, or DID. */
static enum answer check(const struct write_wish *wish, const struct found *found, bool present) {
  const struct write *write = wish->write;
  bool same = present && unique_of(&found->item) == write->unique;
  bool stale = write->may_be_stale && present && write->unique < unique_of(&found->item);
  switch (write->kind) {
  case SET: return DID;
  case ADD: return present ? NOT_STORED : DID;
  case REPLACE: return present ? DID : NOT_STORED;
  case APPEND:
  case PREPEND:
    if (!present) return NOT_STORED;
    if (write->has_unique && !same) return EXISTS;
    return found->length + write->length > wish->most ? DATA_TOO_LARGE : DID;
  case CAS: return !present ? NOT_FOUND : same || stale ? DID : EXISTS;
  }
  return NOT_STORED;
}

/* Makes the new item of the old one. */
static void apply(const struct caller *caller, const struct write *write, struct found *found) {
  struct item *item = &found->item;
  char *data = item->data;
  bool extends = write->kind == APPEND || write->kind == PREPEND;
  bool stale = write->kind == CAS && unique_of(item) != write->unique, token = has_mark(item, TOKEN_SENT);
  if (write->kind == PREPEND) memmove(data + write->length, data, found->length);
  memcpy(write->kind == APPEND ? data + found->length : data, write->data, write->length);
  found->length = write->length + (extends ? found->length : 0);
  if (!extends) item->flags = write->flags;
  if (!extends && !stale) item->expires = write->expires;
  renew_item(caller, item);
  if (stale) set_mark(item, STALE | (token ? TOKEN_SENT : 0));
}

static bool edit_write(struct found *found, bool present, void *argument) {
  struct write_wish *wish = argument;
  wish->answer = check(wish, found, present);
  if (wish->answer != DID) return false;
  apply(wish->caller, wish->write, found);
  wish->write->stored_unique = unique_of(&found->item);
  return true;
}

/* A set needs to know nothing of what it replaces. */
static enum answer set_item(struct worker *worker, struct word key, struct write *write) {
  struct caller caller = caller_of(worker);
  struct item item;
  item.flags = write->flags;
  item.expires = write->expires;
  memcpy(item.data, write->data, write->length);
  enum edited edited = items_set(&caller, key, &item, write->length);
  write->stored_unique = unique_of(&item);
  return answer_of(worker, edited, DID);
}

enum answer write_item(struct worker *worker, struct word key, struct write *write) {
  struct caller caller = caller_of(worker);
  size_t most = options_most_data(&worker->server->options, (uint32_t)key.length);
  struct write_wish wish = {&caller, write, most, DID};
  struct counts *counts = &worker->counts;
  enum finding finding;
  enum answer answer = write->kind == SET
                           ? set_item(worker, key, write)
                           : answer_of(worker, items_edit(&caller, key, edit_write, &wish, &finding), DID);
  if (write->kind != SET && answer == DID) answer = wish.answer;
  counts->sets++;
  counts->stored += answer == DID;
  counts->too_large += answer == DATA_TOO_LARGE;
  if (write->kind != CAS) return answer;
  counts->cas_hits += answer == DID;
  counts->cas_misses += answer == NOT_FOUND;
  counts->cas_bad += answer == EXISTS;
  return answer;
}

void write_too_large(struct worker *worker, struct word key, bool takes_away) {
  struct caller caller = caller_of(worker);
  worker->counts.too_large++;
  if (takes_away) items_delete(&caller, key);
}

/* The number that an item's data begins with. White space may stand before it, and anything behind white space after
 * it, as memcached has it. */
static bool number_of(const struct found *found, uint64_t *number) {
  const char *at = found->item.data, *end = at + found->length;
  while (at < end && isspace((unsigned char)*at)) at++;
  const char *stop = at;
  while (stop < end && !isspace((unsigned char)*stop)) stop++;
  return read_number((struct word){at, (size_t)(stop - at)}, UINT64_MAX, number);
}

static void make_number(struct sum *sum, struct found *found, bool present) {
  sum->made = !present;
  found->item.flags = present ? found->item.flags : 0;
  if (!present) found->item.expires = sum->first_expires;
  else if (sum->sets_expiry) found->item.expires = sum->expires;
  found->length = write_number(found->item.data, sum->number);
}

_Static_assert(MOST_DATA >= 16, "an item has room for the flags of a value; a number may need up to DIGITS bytes");

static bool edit_sum(struct found *found, bool present, void *argument) {
  struct sum_wish *wish = argument;
  struct sum *sum = wish->sum;
  uint64_t number = 0;
  char digits[DIGITS];
  wish->answer = !present && !sum->vivifies                                             ? NOT_FOUND
                 : present && sum->has_unique && unique_of(&found->item) != sum->unique ? EXISTS
                 : present && !number_of(found, &number)                                ? NOT_A_NUMBER
                                                                                        : DID;
  if (wish->answer != DID) return false;
  sum->number = !present ? sum->first : sum->up ? number + sum->by : number < sum->by ? 0 : number - sum->by;
  if (write_number(digits, sum->number) > MOST_DATA) {
    wish->answer = DATA_TOO_LARGE;
    return false;
  }
  make_number(sum, found, present);
  renew_item(wish->caller, &found->item);
  sum->expires_after = found->item.expires;
  sum->unique_after = unique_of(&found->item);
  return true;
}

enum answer count_item(struct worker *worker, struct word key, struct sum *sum) {
  struct caller caller = caller_of(worker);
  struct sum_wish wish = {&caller, sum, DID};
  struct counts *counts = &worker->counts;
  enum finding finding;
  enum answer answer = answer_of(worker, items_edit(&caller, key, edit_sum, &wish, &finding), DID);
  if (answer == DID) answer = wish.answer;
  counts->too_large += answer == DATA_TOO_LARGE;
  if (sum->up) counts->incr_hits += answer == DID && !sum->made, counts->incr_misses += answer == NOT_FOUND;
  else counts->decr_hits += answer == DID && !sum->made, counts->decr_misses += answer == NOT_FOUND;
  return answer;
}

void count_get(struct worker *worker, enum finding finding) {
  struct counts *counts = &worker->counts;
  counts->gets++;
  counts->get_hits += finding == FOUND;
  counts->get_misses += finding != FOUND;
  counts->get_expired += finding == EXPIRED;
  counts->get_flushed += finding == FLUSHED;
}

void count_touch(struct worker *worker, bool found) {
  worker->counts.touches++;
  worker->counts.touch_hits += found;
  worker->counts.touch_misses += !found;
}

bool get_item(struct worker *worker, struct word key, struct found *found) {
  struct caller caller = caller_of(worker);
  enum finding finding = items_find(&caller, key, found);
  count_get(worker, finding);
  return finding == FOUND;
}

static bool edit_expiry(struct found *found, bool present, void *argument) {
  struct touch_wish *wish = argument;
  if (!present) return false;
  found->item.expires = wish->expires;
  if (wish->found == NULL) return true;
  wish->found->length = found->length;
  memcpy(&wish->found->item, &found->item, HEADER + found->length);
  return true;
}

enum answer touch_item(struct worker *worker, struct word key, uint32_t expires, struct found *found) {
  struct caller caller = caller_of(worker);
  struct touch_wish wish = {expires, found};
  enum finding finding;
  enum edited edited = items_edit(&caller, key, edit_expiry, &wish, &finding);
  count_touch(worker, edited == STORED);
  return answer_of(worker, edited, edited == STORED ? DID : NOT_FOUND);
}

enum answer delete_item(struct worker *worker, struct word key) {
  struct caller caller = caller_of(worker);
  enum edited edited = items_delete(&caller, key);
  worker->counts.delete_hits += edited == STORED;
  worker->counts.delete_misses += edited == UNCHANGED;
  return answer_of(worker, edited, edited == STORED ? DID : NOT_FOUND);
}

/* The library deletes under no condition. So what is deleted for its unique version is stored again as an item without
 * data that has expired. */
static bool edit_removal(struct found *found, bool present, void *argument) {
  struct removal_wish *wish = argument;
  const struct removal *removal = wish->removal;
  wish->answer = !present                                                            ? NOT_FOUND
                 : removal->has_unique && unique_of(&found->item) != removal->unique ? EXISTS
                                                                                     : DID;
  if (wish->answer != DID) return false;
  if (removal->marks_stale) {
    renew_item(wish->caller, &found->item);
    set_mark(&found->item, STALE);
    if (removal->sets_expiry) found->item.expires = removal->expires;
  } else {
    found->item.expires = PAST;
    found->length = 0;
  }
  return true;
}

enum answer remove_item(struct worker *worker, struct word key, const struct removal *removal) {
  if (!removal->has_unique && !removal->marks_stale) return delete_item(worker, key);
  struct caller caller = caller_of(worker);
  struct removal_wish wish = {&caller, removal, DID};
  enum finding finding;
  enum answer answer = answer_of(worker, items_edit(&caller, key, edit_removal, &wish, &finding), DID);
  if (answer == DID) answer = wish.answer;
  worker->counts.delete_hits += answer == DID && !removal->marks_stale;
  worker->counts.delete_misses += answer == NOT_FOUND || answer == EXISTS;
  return answer;
}
