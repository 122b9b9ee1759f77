// SPDX-License-Identifier: MIT
/* Sends libFuzzer's bytes to a connection of the server in pieces, and takes what it replies. Sanitizers judge. */
#include "clock.h"
#include "connection.h"
#include <stdlib.h>
#include <string.h>

int LLVMFuzzerTestOneInput(const uint8_t *data, size_t size);

static struct server server = {.options = {.addresses = "-",
                                           .threads = 1,
                                           .keys = 64,
                                           .most_item = 1024,
                                           .megabytes = 1,
                                           .commands_a_turn = 16,
                                           .protocol = "ascii"}};
static struct worker worker;

static void begin(void) {
  const struct store_plan plan = {.keys = server.options.keys, .clients = 1, .keep_from = STORE_BY_QUEUES};
  if (worker.server != NULL) return;
  clock_begin();
  if (store_open(&server.store, &plan) != NULL) abort();
  worker.client = server.store.clients;
  worker.server = &server;
  server.workers = &worker;
  pthread_mutex_init(&server.reset_lock, NULL);
}

/* A reply is lines, and a value is no longer than its line says. */
static void check_replies(const struct buffer *reply) {
  if (reply->length > 0 && (reply->at[0] == '\n' || reply->at[reply->length - 1] != '\n')) abort();
}

/* One piece comes in, is served as far as it goes, and the replies are taken out. False once the connection ends. */
static bool send_piece(struct connection *connection, const uint8_t *piece, size_t length) {
  if (!buffer_reserve(&connection->input, length)) return false;
  buffer_append(&connection->input, (const char *)piece, length);
  while (connection_serve(connection, server.options.commands_a_turn) > 0) {
    check_replies(&connection->reply);
    connection->reply.length = 0;
    connection->turn_over = false;
  }
  buffer_drop_done(&connection->input);
  return !connection->closing;
}

int LLVMFuzzerTestOneInput(const uint8_t *data, size_t size) {
  struct connection connection = {.socket = -1, .worker = &worker};
  begin();
  worker.now = clock_now() + (uint32_t)(size % 3);
  uniques_pass(&server.uniques, worker.now);
  server.options.no_unique = size % 5 == 0;
  for (size_t at = 0, piece; at < size; at += piece) {
    piece = 1 + data[at] % 61 < size - at ? 1 + data[at] % 61 : size - at;
    if (!send_piece(&connection, data + at, piece)) break;
  }
  buffer_free(&connection.input);
  buffer_free(&connection.reply);
  return 0;
}
