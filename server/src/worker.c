// SPDX-License-Identifier: MIT
#include "clock.h"
#include "connection.h"
#include <errno.h>
#include <netinet/in.h>
#include <netinet/tcp.h>
#include <stdlib.h>
#include <string.h>
#include <sys/epoll.h>
#include <sys/eventfd.h>
#include <unistd.h>

enum { EVENTS = 256 }; /* of a round, at most */

/* Puts a connection at the end of its worker's list. */
static void link_connection(struct connection *connection) {
  struct worker *worker = connection->worker;
  connection->before = worker->last;
  connection->after = NULL;
  if (worker->last == NULL) worker->first = connection;
  else worker->last->after = connection;
  worker->last = connection;
}

static void unlink_connection(struct connection *connection) {
  struct worker *worker = connection->worker;
  if (connection->before == NULL) worker->first = connection->after;
  else connection->before->after = connection->after;
  if (connection->after == NULL) worker->last = connection->before;
  else connection->after->before = connection->before;
}

static void end_connection(struct connection *connection) {
  unlink_connection(connection);
  connection_end(connection);
}

/* Goes on with a connection, which then is the one that was active last. */
static void go_on(struct connection *connection, uint32_t events) {
  connection->active = connection->worker->now;
  unlink_connection(connection);
  link_connection(connection);
  if (!connection_go_on(connection, events)) end_connection(connection);
}

/* Gives each connection with commands left over one more turn. */
static void serve_waiting(struct worker *worker) {
  struct connection *connection = worker->waiting_first, *after;
  worker->waiting_first = worker->waiting_last = NULL;
  for (; connection != NULL; connection = after) {
    after = connection->waiting_after;
    connection->waiting = false;
    go_on(connection, 0);
  }
}

/* Closes the connections that were silent for too long. */
static void end_idle(struct worker *worker) {
  uint32_t idle = worker->server->options.idle_seconds;
  if (idle == 0) return;
  for (struct connection *it = worker->first, *after; it != NULL && worker->now - it->active >= idle; it = after) {
    after = it->after;
    if (it->waiting) continue;
    worker->counts.idle_kicks++;
    end_connection(it);
  }
}

/* Takes over what was handed to this worker. */
static void take_over(struct worker *worker) {
  eventfd_t ignored;
  eventfd_read(worker->wake, &ignored);
  pthread_mutex_lock(&worker->handed_lock);
  struct connection *handed = worker->handed, *after;
  worker->handed = NULL;
  pthread_mutex_unlock(&worker->handed_lock);
  for (; handed != NULL; handed = after) {
    after = handed->handed_after;
    handed->active = worker->now;
    handed->events = EPOLLIN;
    link_connection(handed);
    struct epoll_event event = {.events = EPOLLIN, .data.ptr = handed};
    if (epoll_ctl(worker->epoll, EPOLL_CTL_ADD, handed->socket, &event) != 0) end_connection(handed);
  }
}

/* One round of events. */
static void serve_round(struct worker *worker, const struct epoll_event *events, int count) {
  bool woken = false;
  for (int i = 0; i < count; i++) {
    struct connection *connection = events[i].data.ptr;
    if (connection == NULL) woken = true;
    else go_on(connection, events[i].events);
  }
  serve_waiting(worker);
  end_idle(worker);
  if (woken) take_over(worker);
}

static void *work(void *argument) {
  struct worker *worker = argument;
  struct epoll_event events[EVENTS];
  while (!worker->server->ends) {
    int wait = worker->waiting_first != NULL ? 0 : worker->server->options.idle_seconds > 0 ? 1000 : -1;
    int count = epoll_wait(worker->epoll, events, EVENTS, wait);
    worker->now = clock_now();
    uniques_pass(&worker->server->uniques, worker->now);
    serve_round(worker, events, count);
    worker_tell(worker);
  }
  take_over(worker);
  while (worker->first != NULL) end_connection(worker->first);
  return NULL;
}

bool worker_start(struct server *server, struct worker *worker) {
  struct epoll_event event = {.events = EPOLLIN, .data.ptr = NULL};
  worker->server = server;
  worker->epoll = epoll_create1(EPOLL_CLOEXEC);
  worker->wake = eventfd(0, EFD_CLOEXEC | EFD_NONBLOCK);
  pthread_mutex_init(&worker->handed_lock, NULL);
  return worker->epoll >= 0 && worker->wake >= 0 &&
         epoll_ctl(worker->epoll, EPOLL_CTL_ADD, worker->wake, &event) == 0 &&
         pthread_create(&worker->thread, NULL, work, worker) == 0;
}

void worker_stop(struct worker *worker) {
  eventfd_write(worker->wake, 1);
  pthread_join(worker->thread, NULL);
  buffer_free(&worker->spare_input);
  buffer_free(&worker->spare_reply);
  close(worker->epoll);
  close(worker->wake);
  pthread_mutex_destroy(&worker->handed_lock);
}

void worker_hand_over(struct worker *worker, int socket) {
  struct connection *connection = connection_new(worker, socket);
  if (connection == NULL) {
    close(socket);
    return;
  }
  atomic_fetch_add(&worker->server->connections, 1);
  setsockopt(socket, IPPROTO_TCP, TCP_NODELAY, &(int){1}, sizeof(int));
  setsockopt(socket, SOL_SOCKET, SO_KEEPALIVE, &(int){1}, sizeof(int)); /* else a client that vanished stays */
  pthread_mutex_lock(&worker->handed_lock);
  connection->handed_after = worker->handed;
  worker->handed = connection;
  pthread_mutex_unlock(&worker->handed_lock);
  eventfd_write(worker->wake, 1);
}

/* The counts of commands, as numbers in a row. */
struct row {
  uint64_t of[COUNTS];
};

static struct row row_of(const struct counts *counts) {
  struct row row;
  memcpy(row.of, counts, sizeof row.of);
  return row;
}

void worker_tell(struct worker *worker) {
  struct row row = row_of(&worker->counts);
  for (size_t i = 0; i < COUNTS; i++) atomic_store_explicit(&worker->told[i], row.of[i], memory_order_relaxed);
}

static void add_counts(struct totals *totals, struct worker *worker) {
  struct store_counts store;
  struct row sums = row_of(&totals->counts);
  for (size_t i = 0; i < COUNTS; i++) sums.of[i] += atomic_load_explicit(&worker->told[i], memory_order_relaxed);
  memcpy(&totals->counts, sums.of, sizeof sums.of);
  store_count(worker->client, &store);
  totals->store.evicted += store.evicted;
  totals->store.kept += store.kept;
  totals->store.segments += store.segments;
  totals->store.busy += store.busy;
  totals->store.full += store.full;
  totals->store.items += store.items;
  totals->store.rows += store.rows;
  totals->store.overflow = store.overflow;
}

/* The counts since the server began. They only grow. */
static struct totals count_from_start(struct worker *caller) {
  struct totals totals = {0};
  worker_tell(caller);
  for (uint32_t i = 0; i < caller->server->options.threads; i++) add_counts(&totals, &caller->server->workers[i]);
  return totals;
}

struct totals count_all(struct worker *caller) {
  struct server *server = caller->server;
  pthread_mutex_lock(&server->reset_lock); /* before the counts are read, which then are no less than at the reset */
  struct totals before = server->at_reset;
  pthread_mutex_unlock(&server->reset_lock);
  struct totals totals = count_from_start(caller);
  struct row sums = row_of(&totals.counts), less = row_of(&before.counts);
  for (size_t i = 0; i < COUNTS; i++) sums.of[i] -= less.of[i];
  memcpy(&totals.counts, sums.of, sizeof sums.of);
  totals.store.evicted -= before.store.evicted;
  return totals;
}

void reset_all(struct worker *caller) {
  struct server *server = caller->server;
  pthread_mutex_lock(&server->reset_lock);
  server->at_reset = count_from_start(caller);
  pthread_mutex_unlock(&server->reset_lock);
}
