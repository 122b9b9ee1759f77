// SPDX-License-Identifier: MIT
/* The commands of memcached's text protocol. */
#include "actions.h"
#include "clock.h"
#include "connection.h"
#include <signal.h>
#include <string.h>
#include <unistd.h>

static bool is_key(struct word word) { return word.length >= 1 && word.length <= STORE_MOST_KEY; }

/* What an answer is called, where `did` is what was done. */
static const char *text_of(enum answer answer, const char *did) {
  switch (answer) {
  case DID: return did;
  case NOT_STORED: return "NOT_STORED";
  case EXISTS: return "EXISTS";
  case NOT_FOUND: return "NOT_FOUND";
  case NOT_A_NUMBER: return "CLIENT_ERROR cannot increment or decrement non-numeric value";
  case DATA_TOO_LARGE: return TOO_LARGE;
  case NO_ROOM_LEFT: return NO_MEMORY;
  case BUSY_KEY: return OVERTAKEN_TEXT;
  }
  return "ERROR";
}

/* Says whether the request has from `least` to `most` words. If not, it is answered. */
static bool has_words(struct connection *connection, const struct request *request, size_t least, size_t most) {
  return (request->count >= least && request->count <= most) || !say(connection, false, "ERROR");
}

/* The VALUE of an item that is there. */
static void reply_value(struct connection *connection, struct word key, const struct found *found) {
  struct buffer *reply = &connection->reply;
  if (!has_reply_room(connection, key.length + found->length + 3 * (DIGITS + 1) + 16)) return;
  char *at = reply->at + reply->length;
  memcpy(at, "VALUE ", 6), at += 6;
  memcpy(at, key.at, key.length), at += key.length;
  *at++ = ' ', at += write_number(at, found->item.flags);
  *at++ = ' ', at += write_number(at, found->length);
  if (connection->getting.with_unique) *at++ = ' ', at += write_number(at, unique_of(&found->item));
  memcpy(at, "\r\n", 2), at += 2;
  memcpy(at, found->item.data, found->length), at += found->length;
  memcpy(at, "\r\n", 2), at += 2;
  reply->length = (size_t)(at - reply->at);
}

static void serve_key(struct connection *connection, struct word key) {
  struct worker *worker = connection->worker;
  struct found found;
  bool there = connection->getting.touches ? touch_item(worker, key, connection->getting.expires, &found) == DID
                                           : get_item(worker, key, &found);
  if (there) reply_value(connection, key, &found);
}

size_t serve_keys(struct connection *connection, const char *keys, size_t length) {
  const char *newline = memchr(keys, '\n', length);
  const char *end = newline > keys && newline[-1] == '\r' ? newline - 1 : newline;
  struct word line = {keys, (size_t)(end - keys)}, key;
  while (connection->reply.length < MOST_REPLY) {
    key = next_word(&line);
    if (key.length == 0) {
      connection->getting.active = false;
      say(connection, false, "END");
      return (size_t)(newline + 1 - keys);
    }
    serve_key(connection, key);
  }
  return (size_t)(line.at - keys);
}

bool begin_get(struct connection *connection, struct word verb, struct word *rest) {
  struct getting getting = {
      .active = true, .with_unique = verb.at[verb.length - 1] == 's', .touches = verb.at[1] == 'a'};
  if (getting.touches) {
    int64_t exptime;
    if (!read_signed(next_word(rest), &exptime)) return !say(connection, false, BAD_TIME);
    getting.expires = clock_expiry(exptime, connection->worker->now);
  }
  struct word keys = *rest, key = next_word(&keys);
  if (key.length == 0) return !say(connection, false, "ERROR");
  for (; key.length > 0; key = next_word(&keys))
    if (!is_key(key)) return !say(connection, false, BAD_LINE);
  connection->getting = getting;
  return true;
}

/* set, add, replace, append, prepend and cas: VERB KEY FLAGS EXPTIME BYTES [UNIQUE] [noreply], and the value. */
static bool serve_write(struct connection *connection, enum kind kind, struct request *request) {
  struct worker *worker = connection->worker;
  struct word key = request->words[1], *words = request->words;
  struct write write = {.kind = kind};
  uint64_t flags, length;
  int64_t exptime;
  bool good, quiet = request->quiet;
  if (!has_words(connection, request, kind == CAS ? 6 : 5, kind == CAS ? 7 : 6)) return true;
  if (!read_number(words[2], UINT32_MAX, &flags) || !read_signed(words[3], &exptime) ||
      !read_number(words[4], INT32_MAX - 2, &length) ||
      (kind == CAS && !read_number(words[5], UINT64_MAX, &write.unique)))
    return say(connection, quiet, BAD_LINE);
  if (!is_key(key)) return refuse(connection, quiet, length, BAD_LINE);
  if (length > options_most_data(&worker->server->options, (uint32_t)key.length)) {
    write_too_large(worker, key, kind == SET);
    return refuse(connection, quiet, length, TOO_LARGE);
  }
  if (!take_data(request, length, &good)) return false;
  if (!good) return say(connection, quiet, "CLIENT_ERROR bad data chunk");
  write.data = request->data.at;
  write.length = length;
  write.flags = (uint32_t)flags;
  write.expires = clock_expiry(exptime, worker->now);
  return say(connection, quiet, text_of(write_item(worker, key, &write), "STORED"));
}

static bool serve_delete(struct connection *connection, const struct request *request) {
  const struct word *words = request->words;
  if (!has_words(connection, request, 2, 4)) return true;
  bool quiet = request->quiet && request->count > 2;        /* the second word is the key, also where it is noreply */
  bool zero = request->count > 2 && word_is(words[2], "0"); /* an old form: KEY 0 */
  bool plain = request->count == 2 + (size_t)zero + (size_t)quiet;
  if (!plain) return say(connection, quiet, BAD_LINE ".  Usage: delete <key> [noreply]");
  if (!is_key(words[1])) return say(connection, quiet, BAD_LINE);
  return say(connection, quiet, text_of(delete_item(connection->worker, words[1]), "DELETED"));
}

static bool serve_touch(struct connection *connection, const struct request *request) {
  int64_t exptime;
  if (!has_words(connection, request, 3, 4)) return true;
  if (!is_key(request->words[1])) return say(connection, request->quiet, BAD_LINE);
  if (!read_signed(request->words[2], &exptime)) return say(connection, request->quiet, BAD_TIME);
  uint32_t expires = clock_expiry(exptime, connection->worker->now);
  enum answer answer = touch_item(connection->worker, request->words[1], expires, NULL);
  return say(connection, request->quiet, text_of(answer, "TOUCHED"));
}

static bool serve_sum(struct connection *connection, const struct request *request, bool up) {
  struct sum sum = {.up = up};
  char text[DIGITS + 1] = {0};
  if (!has_words(connection, request, 3, 4)) return true;
  if (!is_key(request->words[1])) return say(connection, request->quiet, BAD_LINE);
  if (!read_number(request->words[2], UINT64_MAX, &sum.by))
    return say(connection, request->quiet, "CLIENT_ERROR invalid numeric delta argument");
  enum answer answer = count_item(connection->worker, request->words[1], &sum);
  write_number(text, sum.number);
  return say(connection, request->quiet, text_of(answer, text));
}

static bool serve_flush(struct connection *connection, const struct request *request) {
  struct worker *worker = connection->worker;
  int64_t exptime = 0;
  if (!has_words(connection, request, 1, 3)) return true;
  worker->counts.flushes++;
  if (worker->server->options.no_flush) return say(connection, request->quiet, "CLIENT_ERROR flush_all not allowed");
  if (request->count > 1 + (size_t)request->quiet && !read_signed(request->words[1], &exptime))
    return say(connection, request->quiet, BAD_TIME);
  uint32_t at = exptime > 0 ? clock_expiry(exptime, worker->now) : worker->now;
  uniques_flush(&worker->server->uniques, at, worker->now, worker->server->options.no_unique);
  return say(connection, request->quiet, "OK");
}

static bool serve_verbosity(struct connection *connection, const struct request *request) {
  uint64_t level;
  if (!has_words(connection, request, 2, 3)) return true;
  if (!read_number(request->words[1], UINT32_MAX, &level)) return say(connection, request->quiet, BAD_LINE);
  connection->worker->server->verbosity = level > 2 ? 2 : (uint32_t)level;
  return say(connection, request->quiet, "OK");
}

static bool serve_shutdown(struct connection *connection, const struct request *request) {
  if (!connection->worker->server->options.may_shut_down) return say(connection, false, "ERROR: shutdown not enabled");
  if (request->count > 1 && !word_is(request->words[1], "graceful"))
    return say(connection, false, "CLIENT_ERROR invalid shutdown mode");
  kill(getpid(), SIGTERM);
  return connection->closing = true;
}

/* Commands about what this server doesn't have get memcached's own words for "it is off". */
static bool serve_absent(struct connection *connection, const struct request *request) {
  uint64_t number;
  const struct word *words = request->words;
  if (word_is(words[0], "watch")) return say(connection, false, "CLIENT_ERROR watch commands not allowed");
  if (word_is(words[0], "lru_crawler")) return say(connection, false, "CLIENT_ERROR lru crawler disabled");
  if (word_is(words[0], "cache_memlimit"))
    return say(connection, request->quiet, "MEMLIMIT_ADJUST_FAILED out of bounds or unable to adjust");
  if (word_is(words[0], "slabs") && request->count > 2 && word_is(words[1], "reassign"))
    return say(connection, false, "CLIENT_ERROR slab reassignment disabled");
  if (word_is(words[0], "slabs") && request->count > 2 && word_is(words[1], "automove") &&
      !read_number(words[2], UINT32_MAX, &number))
    return say(connection, false, BAD_LINE);
  bool is_http = request->count > 1 && request->count <= MOST_WORDS && words[request->count - 1].length >= 5 &&
                 memcmp(words[request->count - 1].at, "HTTP/", 5) == 0;
  if (is_http) return connection->closing = true; /* a browser, or who makes one send commands in a body */
  return say(connection, false, "ERROR");
}

#ifdef SERVER_TEST
/* memcached's test suite moves the clock on. */
static bool serve_debugtime(struct connection *connection, const struct request *request) {
  uint64_t seconds;
  if (!has_words(connection, request, 2, 2)) return true;
  if (!read_number(request->words[1], UINT16_MAX, &seconds)) return say(connection, false, "ERROR");
  clock_move((uint32_t)seconds);
  connection->worker->now = clock_now();
  uniques_pass(&connection->worker->server->uniques, connection->worker->now);
  return say(connection, false, "OK");
}
#endif

bool serve_command(struct connection *connection, struct request *request) {
  struct word verb = request->words[0];
  if (request->count == 0) return say(connection, false, "ERROR");
  if (word_is(verb, "set")) return serve_write(connection, SET, request);
  if (word_is(verb, "add")) return serve_write(connection, ADD, request);
  if (word_is(verb, "replace")) return serve_write(connection, REPLACE, request);
  if (word_is(verb, "append")) return serve_write(connection, APPEND, request);
  if (word_is(verb, "prepend")) return serve_write(connection, PREPEND, request);
  if (word_is(verb, "cas")) return serve_write(connection, CAS, request);
  if (word_is(verb, "delete")) return serve_delete(connection, request);
  if (word_is(verb, "incr") || word_is(verb, "decr")) return serve_sum(connection, request, verb.at[0] == 'i');
  if (word_is(verb, "touch")) return serve_touch(connection, request);
  if (word_is(verb, "flush_all")) return serve_flush(connection, request);
  if (word_is(verb, "stats")) return serve_stats(connection, request);
  if (word_is(verb, "version")) return say(connection, false, "VERSION " SERVER_VERSION);
  if (word_is(verb, "verbosity")) return serve_verbosity(connection, request);
  if (word_is(verb, "quit") && request->count == 1) return connection->closing = true;
  if (word_is(verb, "shutdown")) return serve_shutdown(connection, request);
#ifdef SERVER_TEST
  if (word_is(verb, "debugtime")) return serve_debugtime(connection, request);
#endif
  return serve_absent(connection, request);
}
