// SPDX-License-Identifier: MIT
/* The server and its workers. Each worker is a thread with a client of the store, and serves many connections. */
#ifndef SERVER_H
#define SERVER_H

#include "buffer.h"
#include "items.h"
#include "options.h"
#include <pthread.h>

/* How many commands came to what. All fields are counts. */
struct counts {
  uint64_t gets, sets, flushes, touches, metas;
  uint64_t get_hits, get_misses, get_expired, get_flushed;
  uint64_t delete_hits, delete_misses, incr_hits, incr_misses, decr_hits, decr_misses;
  uint64_t cas_hits, cas_misses, cas_bad, touch_hits, touch_misses;
  uint64_t too_large, no_memory, overtaken, stored;
  uint64_t read_bytes, written_bytes, yields, idle_kicks, reply_refused, read_refused;
};

enum { COUNTS = sizeof(struct counts) / sizeof(uint64_t) };

/* The counts of all workers together, and those of the store. */
struct totals {
  struct counts counts;
  struct store_counts store;
};

struct connection;

struct worker {
  struct server *server;
  struct store_client *client;
  struct counts counts;          /* the worker's own, which no other thread reads */
  _Atomic uint64_t told[COUNTS]; /* the counts as others may read them: without the turn that is being served */
  pthread_t thread;
  int epoll, wake; /* wake: an eventfd, for connections that are handed over and for the end */
  uint32_t now;    /* the moment of this round */
  struct buffer spare_input, spare_reply;
  pthread_mutex_t handed_lock;
  struct connection *handed;                       /* accepted, and not yet taken over */
  struct connection *first, *last;                 /* all of this worker, the one that was silent for longest first */
  struct connection *waiting_first, *waiting_last; /* those with commands left over from their last turn */
};

struct server {
  struct options options;
  struct store store;
  struct uniques uniques;
  struct worker *workers;
  _Atomic uint32_t connections;
  _Atomic uint64_t accepted, rejected;
  _Atomic uint32_t verbosity;
  _Atomic bool ends; /* each worker serves the command that it is at, and no other one */
  pthread_mutex_t reset_lock;
  struct totals at_reset; /* what the totals were when they were last set back */
  int listeners[8];
  uint32_t listener_count;
  int spare_descriptor; /* is closed to refuse a connection where no descriptor is left */
};

/* Starts a worker's thread. False if memory, a descriptor or the thread is refused. */
bool worker_start(struct server *server, struct worker *worker);

/* Waits for the end of the worker's thread and of its connections, once the server ends. */
void worker_stop(struct worker *worker);

/* Lets others read the counts as they are now. To be called before replies are sent. */
void worker_tell(struct worker *worker);

/* Hands a socket over to a worker. It is closed if memory is refused. */
void worker_hand_over(struct worker *worker, int socket);

/* Whose calls a worker makes now. */
static inline struct caller caller_of(struct worker *worker) {
  return (struct caller){worker->client, &worker->server->uniques, worker->now};
}

/* Takes the counts of all workers together, or sets them back. It waits for no worker's turn, and looks at no rows. */
struct totals count_all(struct worker *caller);
void reset_all(struct worker *caller);

/* Writes what `stats` tells to standard error. Any thread may call it that is no worker's. */
void log_stats(struct server *server);

#endif
