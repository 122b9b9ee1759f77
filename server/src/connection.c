// SPDX-License-Identifier: MIT
#include "connection.h"
#include <errno.h>
#include <stdio.h>
#include <stdlib.h>
#include <string.h>
#include <sys/epoll.h>
#include <sys/socket.h>
#include <unistd.h>

enum { ONE_READ = 16 * 1024 }; /* bytes that are read at a time, at least */

struct connection *connection_new(struct worker *worker, int socket) {
  struct connection *connection = calloc(1, sizeof *connection);
  if (connection == NULL) return NULL;
  connection->socket = socket;
  connection->worker = worker;
  return connection;
}

void connection_end(struct connection *connection) {
  atomic_fetch_sub(&connection->worker->server->connections, 1);
  close(connection->socket);
  buffer_free(&connection->input);
  buffer_free(&connection->reply);
  free(connection);
}

bool has_reply_room(struct connection *connection, size_t length) {
  if (connection->closing) return false; /* what comes behind a gap would be taken for what stands in it */
  if (buffer_reserve(&connection->reply, length)) return true;
  connection->worker->counts.reply_refused++;
  connection->closing = true;
  return false;
}

void reply_bytes(struct connection *connection, const char *bytes, size_t length) {
  if (has_reply_room(connection, length)) buffer_append(&connection->reply, bytes, length);
}

bool say(struct connection *connection, bool quiet, const char *text) {
  size_t length = strlen(text);
  if (quiet || !has_reply_room(connection, length + 2)) return true;
  buffer_append(&connection->reply, text, length);
  buffer_append(&connection->reply, "\r\n", 2);
  return true;
}

bool refuse(struct connection *connection, bool quiet, uint64_t length, const char *text) {
  connection->swallow = length + 2;
  return say(connection, quiet, text);
}

bool take_data(struct request *request, uint64_t length, bool *good) {
  if (request->data.length < length + 2) return false;
  request->took = length + 2;
  *good = memcmp(request->data.at + length, "\r\n", 2) == 0;
  return true;
}

/* Whether a line that begins with the verb may be long. */
static bool is_get(struct word verb) {
  return word_is(verb, "get") || word_is(verb, "gets") || word_is(verb, "gat") || word_is(verb, "gats");
}

/* A line that isn't whole. If it is too long for one, the connection ends. */
static size_t wait_for_line(struct connection *connection, const char *input, size_t length) {
  struct word line = {input, length};
  if (length < (is_get(next_word(&line)) ? (size_t)MOST_GET_LINE : (size_t)MOST_LINE)) return 0;
  connection->closing = say(connection, false, "CLIENT_ERROR line too long");
  return length;
}

/* Serves the command that the input begins with. The bytes that it took, or 0 if it has not come whole. */
static size_t serve(struct connection *connection, const char *input, size_t length) {
  if (connection->getting.active) return serve_keys(connection, input, length);
  const char *newline = memchr(input + connection->searched, '\n', length - connection->searched);
  connection->searched = newline == NULL ? length : 0;
  if (newline == NULL) return wait_for_line(connection, input, length);
  size_t whole = (size_t)(newline + 1 - input);
  struct word line = {input, whole - (newline > input && newline[-1] == '\r' ? 2 : 1)}, rest = line;
  struct word verb = next_word(&rest);
  if (connection->worker->server->verbosity > 1)
    fprintf(stderr, "<%d %.*s\n", connection->socket, (int)line.length, input);
  if (is_get(verb)) {
    if (!begin_get(connection, verb, &rest)) return whole;
    size_t before = (size_t)(rest.at - input);
    return before + serve_keys(connection, rest.at, length - before);
  }
  struct request request = {.data = {newline + 1, length - whole}};
  struct word last = {0};
  for (struct word word; (word = next_word(&line)).length > 0; last = word, request.count++)
    if (request.count < MOST_WORDS) request.words[request.count] = word;
  request.quiet = request.count > 1 && word_is(last, "noreply");
  bool meta = request.words[0].length == 2 && request.words[0].at[0] == 'm';
  return (meta ? serve_meta : serve_command)(connection, &request) ? whole + request.took : 0;
}

/* Reads what has come. False if the connection is broken. */
static bool take_in(struct connection *connection) {
  struct buffer *input = &connection->input;
  buffer_drop_done(input);
  if (!buffer_reserve(input, ONE_READ)) {
    connection->worker->counts.read_refused++;
    return false;
  }
  ssize_t got = recv(connection->socket, input->at + input->length, input->room - input->length, 0);
  if (got == 0) connection->ended = true;
  if (got < 0) return errno == EAGAIN || errno == EINTR;
  input->length += (size_t)got;
  connection->worker->counts.read_bytes += (uint64_t)got;
  return true;
}

uint32_t connection_serve(struct connection *connection, uint32_t most) {
  struct buffer *input = &connection->input;
  const _Atomic bool *ends = &connection->worker->server->ends;
  uint32_t served = 0;
  for (size_t took = 1; !connection->closing && !connection->turn_over && took > 0 && served < most &&
                        input->done < input->length && connection->reply.length < MOST_REPLY && !*ends;
       input->done += took) {
    size_t left = input->length - input->done;
    took = connection->swallow < left ? connection->swallow : left;
    connection->swallow -= took;
    if (took > 0) continue;
    took = serve(connection, input->at + input->done, left);
    served += took > 0;
  }
  return served;
}

/* Sends what it can. False if the connection is broken. */
static bool send_replies(struct connection *connection) {
  struct buffer *reply = &connection->reply;
  while (reply->done < reply->length) {
    ssize_t sent = send(connection->socket, reply->at + reply->done, reply->length - reply->done, MSG_NOSIGNAL);
    if (sent < 0 && errno == EAGAIN) break;
    if (sent < 0 && errno != EINTR) return false;
    if (sent < 0) continue;
    reply->done += (size_t)sent;
    connection->worker->counts.written_bytes += (uint64_t)sent;
  }
  buffer_drop_done(reply);
  return true;
}

/* Puts the connection behind the others that have commands left over. */
static void wait_for_turn(struct connection *connection) {
  struct worker *worker = connection->worker;
  connection->waiting = true;
  connection->waiting_after = NULL;
  if (worker->waiting_last == NULL) worker->waiting_first = connection;
  else worker->waiting_last->waiting_after = connection;
  worker->waiting_last = connection;
}

/* Has epoll wait for what the connection needs. */
static bool wait_for(struct connection *connection, uint32_t events) {
  struct epoll_event event = {.events = events, .data.ptr = connection};
  if (events == connection->events) return true;
  connection->events = events;
  return epoll_ctl(connection->worker->epoll, EPOLL_CTL_MOD, connection->socket, &event) == 0;
}

/* Serves a turn, and sends. False once the connection has ended. */
static bool take_turn(struct connection *connection, uint32_t events) {
  uint32_t most = connection->worker->server->options.commands_a_turn, served = 0, more = 0;
  connection->turn_over = false;
  if ((events & ~(uint32_t)EPOLLOUT) != 0 && !connection->ended && !take_in(connection)) return false;
  do {
    if (!send_replies(connection)) return false;
    if (connection->reply.length > 0) break;
    more = connection_serve(connection, most - served);
    served += more;
    if (more > 0) worker_tell(connection->worker);
  } while (connection->reply.length > 0 || (more > 0 && served < most));
  if (connection->reply.length > 0) return wait_for(connection, EPOLLOUT);
  if (connection->closing) return false;
  if ((served == most || connection->turn_over) && connection->input.done < connection->input.length) {
    connection->worker->counts.yields += served == most;
    wait_for_turn(connection);
    return wait_for(connection, 0);
  }
  return !connection->ended && wait_for(connection, EPOLLIN);
}

bool connection_go_on(struct connection *connection, uint32_t events) {
  struct worker *worker = connection->worker;
  if (connection->waiting) return true;
  buffer_borrow(&connection->input, &worker->spare_input);
  buffer_borrow(&connection->reply, &worker->spare_reply);
  bool lives = take_turn(connection, events);
  buffer_drop_done(&connection->input);
  buffer_hand_back(&connection->input, &worker->spare_input);
  buffer_hand_back(&connection->reply, &worker->spare_reply);
  return lives;
}
