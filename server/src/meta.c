// SPDX-License-Identifier: MIT
/* The meta commands: mn, mg, ms, md, ma and me, with the flags of memcached 1.6. */
#include "actions.h"
#include "clock.h"
#include "connection.h"
#include <stddef.h>
#include <stdio.h>
#include <string.h>

enum {
  MOST_OPAQUE = 31,                                 /* bytes behind O */
  MOST_HEAD = 4 * MOST_ALL_KEYS + 8 * (DIGITS + 3), /* of a reply without its value */
};

/* The flags of a command, and its key, decoded. */
struct meta {
  struct word key, shown; /* shown: as the command had it */
  const struct word *flags;
  size_t count;
  bool quiet, value, vivifies, sets_expiry, recaches, keeps_unread, hit, stale, has_unique;
  char mode;
  uint32_t expires, first_expires, recache_at, item_flags;
  uint64_t unique, by, first;
  char decoded[MOST_ALL_KEYS];
};

/* A reply as it is made up. */
struct head {
  char *at, bytes[MOST_HEAD];
};

static void put_text(struct head *head, const char *text) {
  size_t length = strlen(text);
  memcpy(head->at, text, length);
  head->at += length;
}

static void put_word(struct head *head, struct word word) {
  *head->at++ = ' ';
  memcpy(head->at, word.at, word.length);
  head->at += word.length;
}

static void put_number(struct head *head, char flag, uint64_t number) {
  *head->at++ = ' ';
  *head->at++ = flag;
  head->at += write_number(head->at, number);
}

static void put_expiry(struct head *head, uint32_t expires, uint32_t now) {
  if (expires == NEVER) put_text(head, " t-1");
  else put_number(head, 't', expires > now ? expires - now : 0); /* T can set one that has passed */
}

/* O and k, which each reply has. */
static void put_echo(struct head *head, const struct meta *meta, struct word flag) {
  if (*flag.at == 'O') put_word(head, flag);
  if (*flag.at != 'k') return;
  put_text(head, " k");
  memcpy(head->at, meta->shown.at, meta->shown.length);
  head->at += meta->shown.length;
  if (meta->shown.at != meta->key.at) put_text(head, " b");
}

static bool read_expiry(struct word word, uint32_t now, uint32_t *expires) {
  int64_t exptime;
  if (!read_signed(word, &exptime)) return false;
  *expires = clock_expiry(exptime, now);
  return true;
}

/* Reads one flag. NULL, or what is wrong with it. */
static const char *read_flag(struct meta *meta, struct word flag, uint32_t now) {
  static const char bad_token[] = "CLIENT_ERROR bad token in command line format";
  struct word token = {flag.at + 1, flag.length - 1};
  uint64_t number;
  switch (*flag.at) {
  case 'N': return meta->vivifies = true, read_expiry(token, now, &meta->first_expires) ? NULL : bad_token;
  case 'T': return meta->sets_expiry = true, read_expiry(token, now, &meta->expires) ? NULL : bad_token;
  case 'R': return meta->recaches = true, read_expiry(token, now, &meta->recache_at) ? NULL : bad_token;
  case 'C': return meta->has_unique = true, read_number(token, UINT64_MAX, &meta->unique) ? NULL : bad_token;
  case 'J': return read_number(token, UINT64_MAX, &meta->first) ? NULL : "CLIENT_ERROR invalid numeric initial value";
  case 'D': return read_number(token, UINT64_MAX, &meta->by) ? NULL : "CLIENT_ERROR invalid numeric delta value";
  case 'F':
    if (!read_number(token, UINT32_MAX, &number)) return bad_token;
    return meta->item_flags = (uint32_t)number, NULL;
  case 'M':
    if (token.length != 1) return "CLIENT_ERROR incorrect length for M token";
    return meta->mode = *token.at, NULL;
  case 'O': return token.length <= MOST_OPAQUE ? NULL : "CLIENT_ERROR opaque token too long";
  case 'q': return meta->quiet = true, NULL;
  case 'v': return meta->value = true, NULL;
  case 'u': return meta->keeps_unread = true, NULL;
  case 'h': return meta->hit = true, NULL;
  case 'I': return meta->stale = true, NULL;
  case 'b':
    meta->key = (struct word){meta->decoded, decode_base64(meta->shown, meta->decoded)};
    return meta->key.length > 0 ? NULL : "CLIENT_ERROR error decoding key";
  case 'k':
  case 's':
  case 't':
  case 'c':
  case 'f':
  case 'l':
  case 'P':
  case 'L': return NULL;
  default: return "CLIENT_ERROR invalid flag";
  }
}

/* Reads the key, which has to be there, and flags, which begin with the word `at`. NULL, or what is wrong with them. */
static const char *read_meta(struct meta *meta, const struct request *request, size_t at, uint32_t now) {
  bool seen[128] = {false};
  memset(meta, 0, offsetof(struct meta, decoded));
  meta->by = 1;
  if (request->words[1].length > MOST_ALL_KEYS) return BAD_LINE;
  meta->key = meta->shown = request->words[1];
  if (request->count > MOST_WORDS - 4) return "CLIENT_ERROR options flags are too long";
  meta->flags = request->words + at;
  meta->count = request->count > at ? request->count - at : 0;
  for (size_t i = 0; i < meta->count; i++) {
    unsigned char letter = (unsigned char)*meta->flags[i].at;
    if (letter >= sizeof seen || seen[letter]) return "CLIENT_ERROR duplicate flag";
    seen[letter] = true;
    const char *wrong = read_flag(meta, meta->flags[i], now);
    if (wrong != NULL) return wrong;
  }
  return meta->key.length > STORE_MOST_KEY ? BAD_LINE : NULL;
}

static bool send_head(struct connection *connection, struct head *head, bool quiet) {
  if (quiet) return true;
  put_text(head, "\r\n");
  reply_bytes(connection, head->bytes, (size_t)(head->at - head->bytes));
  return true;
}

/* A reply of a status with O and k. */
static bool say_status(struct connection *connection, const struct meta *meta, const char *status, bool quiet) {
  struct head head;
  head.at = head.bytes;
  put_text(&head, status);
  for (size_t i = 0; i < meta->count; i++) put_echo(&head, meta, meta->flags[i]);
  return send_head(connection, &head, quiet);
}

static const char *status_of(enum answer answer) {
  switch (answer) {
  case DID: return "HD";
  case NOT_STORED: return "NS";
  case EXISTS: return "EX";
  case NOT_FOUND: return "NF";
  case NOT_A_NUMBER: return "CLIENT_ERROR cannot increment or decrement non-numeric value";
  case DATA_TOO_LARGE: return TOO_LARGE;
  case NO_ROOM_LEFT: return NO_MEMORY;
  case BUSY_KEY: return OVERTAKEN_TEXT;
  }
  return "ERROR";
}

/* An answer that is an error is a line of its own, and comes also to a quiet command. */
static bool is_error(enum answer answer) { return answer > NOT_FOUND; }

/* What mg finds, and makes of it. `found` is the item as it was. */
struct mget {
  const struct caller *caller;
  const struct meta *meta;
  struct found found;
  bool there, made, won;
};

/* The marks and the expiry change with some flags. Others only read. */
static bool edit_mget(struct found *found, bool present, void *argument) {
  struct mget *mget = argument;
  const struct meta *meta = mget->meta;
  struct item *item = &found->item;
  mget->there = present || meta->vivifies;
  mget->made = mget->there && !present;
  if (!mget->there) return false;
  if (mget->made) {
    item->flags = 0;
    item->expires = meta->first_expires;
    found->length = 0;
    renew_item(mget->caller, item);
  }
  mget->found.length = found->length;
  memcpy(&mget->found.item, item, HEADER + found->length);
  bool sent = has_mark(item, TOKEN_SENT);
  bool old = meta->recaches && item->expires != NEVER && item->expires < meta->recache_at;
  mget->won = mget->made || (!sent && (old || has_mark(item, STALE)));
  if (mget->won) set_mark(item, TOKEN_SENT);
  bool first_hit = meta->hit && !meta->keeps_unread && !has_mark(item, WAS_READ);
  if (first_hit) set_mark(item, WAS_READ);
  if (meta->sets_expiry) item->expires = meta->expires;
  return mget->won || first_hit || meta->sets_expiry;
}

/* The flags of mg's reply, in the order of the command's. A t behind T is the new time to live. */
static void put_item(struct head *head, const struct mget *mget, uint32_t now) {
  const struct meta *meta = mget->meta;
  const struct item *item = &mget->found.item;
  uint32_t expires = item->expires;
  for (size_t i = 0; i < meta->count; i++) {
    switch (*meta->flags[i].at) {
    case 'T': expires = meta->expires; break;
    case 's': put_number(head, 's', mget->found.length); break;
    case 't': put_expiry(head, expires, now); break;
    case 'c': put_number(head, 'c', unique_of(item)); break;
    case 'f': put_number(head, 'f', item->flags); break;
    case 'l': put_number(head, 'l', age_of(item, now)); break;
    case 'h': put_number(head, 'h', has_mark(item, WAS_READ)); break;
    default: put_echo(head, meta, meta->flags[i]);
    }
  }
  if (has_mark(item, TOKEN_SENT)) put_text(head, " Z");
  if (has_mark(item, STALE)) put_text(head, " X");
  if (mget->won) put_text(head, " W");
}

static bool serve_mget(struct connection *connection, const struct meta *meta) {
  struct worker *worker = connection->worker;
  struct caller caller = caller_of(worker);
  struct mget mget;
  struct head head;
  enum finding finding;
  mget.caller = &caller;
  mget.meta = meta;
  mget.there = false;
  enum edited edited = items_edit(&caller, meta->key, edit_mget, &mget, &finding);
  if (edited == REFUSED) return worker->counts.no_memory++, say(connection, false, NO_MEMORY);
  bool hit = mget.there && edited != OVERTAKEN;
  if (meta->sets_expiry) count_touch(worker, hit);
  else count_get(worker, hit ? FOUND : finding == FOUND ? MISSING : finding);
  if (!hit) return say_status(connection, meta, "EN", meta->quiet);
  head.at = head.bytes;
  put_text(&head, meta->value ? "VA " : "HD");
  if (meta->value) head.at += write_number(head.at, mget.found.length);
  put_item(&head, &mget, worker->now);
  send_head(connection, &head, false);
  if (!meta->value) return true;
  reply_bytes(connection, mget.found.item.data, mget.found.length);
  reply_bytes(connection, "\r\n", 2);
  return true;
}

/* The kind of write that a mode names. False if it names none. */
static bool kind_of(const struct meta *meta, enum kind *kind) {
  static const char modes[] = "SERAP";
  static const enum kind kinds[] = {SET, ADD, REPLACE, APPEND, PREPEND};
  const char *place = meta->mode == '\0' ? modes : strchr(modes, meta->mode);
  if (place == NULL) return false;
  *kind = kinds[place - modes];
  if (meta->has_unique && (*kind == SET || *kind == REPLACE)) *kind = CAS;
  return true;
}

/* ms KEY LENGTH FLAGS.., and the value, which is swallowed if anything is wrong. */
static bool serve_mset(struct connection *connection, struct meta *meta, struct request *request) {
  struct worker *worker = connection->worker;
  struct write write = {.kind = SET};
  uint64_t length;
  bool good;
  if (request->count < 3 || !read_number(request->words[2], INT32_MAX - 2, &length))
    return say(connection, false, BAD_LINE);
  const char *wrong = read_meta(meta, request, 3, worker->now);
  if (wrong == NULL && !kind_of(meta, &write.kind)) wrong = "CLIENT_ERROR invalid mode for ms M token";
  if (wrong != NULL) return refuse(connection, false, length, wrong);
  if (length > options_most_data(&worker->server->options, (uint32_t)meta->key.length)) {
    write_too_large(worker, meta->key, true);
    return refuse(connection, false, length, TOO_LARGE);
  }
  if (!take_data(request, length, &good)) return false;
  if (!good) return say(connection, false, "CLIENT_ERROR bad data chunk");
  write = (struct write){write.kind,  request->data.at, length, meta->item_flags, meta->expires, meta->has_unique,
                         meta->stale, meta->unique,     0};
  enum answer answer = write_item(worker, meta->key, &write);
  if (is_error(answer)) return say(connection, false, status_of(answer));
  struct head head;
  head.at = head.bytes;
  put_text(&head, status_of(answer));
  for (size_t i = 0; i < meta->count; i++) {
    if (*meta->flags[i].at == 'c') put_number(&head, 'c', answer == DID ? write.stored_unique : 0);
    else put_echo(&head, meta, meta->flags[i]);
  }
  return send_head(connection, &head, meta->quiet && answer == DID);
}

static bool serve_mdelete(struct connection *connection, const struct meta *meta) {
  struct removal removal = {meta->has_unique, meta->stale, meta->sets_expiry, meta->unique, meta->expires};
  enum answer answer = remove_item(connection->worker, meta->key, &removal);
  if (is_error(answer)) return say(connection, false, status_of(answer));
  return say_status(connection, meta, status_of(answer), meta->quiet && answer == DID);
}

static bool serve_marithmetic(struct connection *connection, const struct meta *meta) {
  static const char modes[] = "I+D-";
  const char *place = meta->mode == '\0' ? modes : strchr(modes, meta->mode);
  if (place == NULL) return say(connection, false, "CLIENT_ERROR invalid mode for ma M token");
  struct sum sum = {.up = place < modes + 2,
                    .vivifies = meta->vivifies,
                    .has_unique = meta->has_unique,
                    .sets_expiry = meta->sets_expiry,
                    .by = meta->by,
                    .first = meta->first,
                    .unique = meta->unique,
                    .expires = meta->expires,
                    .first_expires = meta->first_expires};
  enum answer answer = count_item(connection->worker, meta->key, &sum);
  if (is_error(answer)) return say(connection, false, status_of(answer));
  if (answer != DID) return say_status(connection, meta, status_of(answer), false);
  struct head head;
  char digits[DIGITS];
  size_t length = write_number(digits, sum.number);
  head.at = head.bytes;
  put_text(&head, meta->value ? "VA " : "HD");
  if (meta->value) head.at += write_number(head.at, length);
  for (size_t i = 0; i < meta->count; i++) {
    if (*meta->flags[i].at == 'c') put_number(&head, 'c', sum.unique_after);
    else if (*meta->flags[i].at == 't') put_expiry(&head, sum.expires_after, connection->worker->now);
    else put_echo(&head, meta, meta->flags[i]);
  }
  if (!meta->value) return send_head(connection, &head, meta->quiet);
  put_text(&head, "\r\n");
  memcpy(head.at, digits, length);
  head.at += length;
  return send_head(connection, &head, meta->quiet);
}

/* me KEY: what is known of an item, for people. */
static bool serve_mdebug(struct connection *connection, const struct meta *meta) {
  struct caller caller = caller_of(connection->worker);
  struct found found;
  char text[160];
  if (items_find(&caller, meta->key, &found) != FOUND) return say(connection, false, "EN");
  const struct item *item = &found.item;
  long long left = item->expires == NEVER ? -1 : (long long)item->expires - caller.now;
  snprintf(text, sizeof text, " exp=%lld la=%u cas=%llu fetch=%s cls=1 size=%zu", left, age_of(item, caller.now),
           (unsigned long long)unique_of(item), has_mark(item, WAS_READ) ? "yes" : "no",
           meta->key.length + HEADER + found.length);
  reply_bytes(connection, "ME ", 3);
  reply_bytes(connection, meta->shown.at, meta->shown.length);
  return say(connection, false, text);
}

bool serve_meta(struct connection *connection, struct request *request) {
  struct meta meta;
  char verb = request->words[0].at[1];
  if (verb == 'n') return say(connection, false, "MN");
  if (strchr("gsdae", verb) == NULL || verb == '\0' || request->count < 2) return say(connection, false, "ERROR");
  connection->worker->counts.metas++;
  if (verb == 's') return serve_mset(connection, &meta, request);
  const char *wrong = read_meta(&meta, request, 2, connection->worker->now);
  if (wrong != NULL) return say(connection, false, wrong);
  switch (verb) {
  case 'g': return serve_mget(connection, &meta);
  case 'd': return serve_mdelete(connection, &meta);
  case 'a': return serve_marithmetic(connection, &meta);
  default: return serve_mdebug(connection, &meta);
  }
}
