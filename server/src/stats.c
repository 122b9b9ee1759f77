// SPDX-License-Identifier: MIT
/* The command stats, with memcached's names. */
#include "clock.h"
#include "connection.h"
#include <inttypes.h>
#include <stdio.h>
#include <string.h>
#include <sys/resource.h>
#include <time.h>
#include <unistd.h>

enum {
  ROW = 64, /* bytes of a row of the library */
  LOG = -1  /* in place of a socket: the counts go to standard error */
};

/* Tells a count to who asked for it. */
static void tell(struct connection *connection, const char *text) {
  if (connection->socket == LOG) fprintf(stderr, "segcache-server: %s\n", text);
  else say(connection, false, text);
}

static void stat_number(struct connection *connection, const char *name, uint64_t number) {
  char text[96];
  snprintf(text, sizeof text, "STAT %s %" PRIu64, name, number);
  tell(connection, text);
}

static void stat_text(struct connection *connection, const char *name, const char *value) {
  char text[512];
  snprintf(text, sizeof text, "STAT %s %s", name, value);
  tell(connection, text);
}

static void stat_yes(struct connection *connection, const char *name, bool is) {
  stat_text(connection, name, is ? "yes" : "no");
}

static void stat_time(struct connection *connection, const char *name, struct timeval time) {
  char text[48];
  snprintf(text, sizeof text, "%lld.%06ld", (long long)time.tv_sec, (long)time.tv_usec);
  stat_text(connection, name, text);
}

static void stat_process(struct connection *connection) {
  struct rusage usage = {0};
  getrusage(RUSAGE_SELF, &usage);
  stat_number(connection, "pid", (uint64_t)getpid());
  stat_number(connection, "uptime", clock_uptime());
  stat_number(connection, "time", (uint64_t)time(NULL));
  stat_text(connection, "version", SERVER_VERSION);
  stat_number(connection, "pointer_size", 8 * sizeof(void *));
  stat_time(connection, "rusage_user", usage.ru_utime);
  stat_time(connection, "rusage_system", usage.ru_stime);
}

static uint64_t limit_of(const struct options *options) {
  return options->keys > 0 ? (uint64_t)options->keys * STORE_BYTES_A_KEY : options_bytes(options);
}

/* What memcached counts of things that this server doesn't have. Programs that watch memcached read them. */
static const char *const zeros[] = {"auth_cmds",           "auth_errors",
                                    "listen_disabled_num", "time_in_listen_disabled_us",
                                    "hash_is_expanding",   "slab_reassign_running",
                                    "slabs_moved",         "lru_crawler_running",
                                    "log_worker_dropped",  "log_worker_written",
                                    "log_watcher_skipped", "log_watcher_sent",
                                    "log_watchers",        "expired_unfetched",
                                    "evicted_unfetched",   "evicted_active",
                                    "reclaimed",           "lrutail_reflocked",
                                    "hash_power_level",    "hash_bytes",
                                    "lru_crawler_starts",  "lru_maintainer_juggles",
                                    "crawler_reclaimed",   "crawler_items_checked",
                                    "direct_reclaims"};

static void stat_all(struct connection *connection) {
  struct server *server = connection->worker->server;
  struct totals totals = count_all(connection->worker);
  const struct counts *counts = &totals.counts;
  const struct {
    const char *name;
    uint64_t number;
  } stats[] = {{"max_connections", server->options.most_connections},
               {"curr_connections", server->connections},
               {"total_connections", server->accepted},
               {"rejected_connections", server->rejected},
               {"connection_structures", server->connections},
               {"response_obj_oom", counts->reply_refused},
               {"read_buf_oom", counts->read_refused},
               {"malloc_fails", counts->reply_refused + counts->read_refused},
               {"cmd_get", counts->gets},
               {"cmd_set", counts->sets},
               {"cmd_flush", counts->flushes},
               {"cmd_touch", counts->touches},
               {"cmd_meta", counts->metas},
               {"get_hits", counts->get_hits},
               {"get_misses", counts->get_misses},
               {"get_expired", counts->get_expired},
               {"get_flushed", counts->get_flushed},
               {"delete_misses", counts->delete_misses},
               {"delete_hits", counts->delete_hits},
               {"incr_misses", counts->incr_misses},
               {"incr_hits", counts->incr_hits},
               {"decr_misses", counts->decr_misses},
               {"decr_hits", counts->decr_hits},
               {"cas_misses", counts->cas_misses},
               {"cas_hits", counts->cas_hits},
               {"cas_badval", counts->cas_bad},
               {"touch_hits", counts->touch_hits},
               {"touch_misses", counts->touch_misses},
               {"store_too_large", counts->too_large},
               {"store_no_memory", counts->no_memory},
               {"store_busy", counts->overtaken},
               {"bytes_read", counts->read_bytes},
               {"bytes_written", counts->written_bytes},
               {"limit_maxbytes", limit_of(&server->options)},
               {"limit_maxkeys", options_keys(&server->options)},
               {"accepting_conns", 1},
               {"threads", server->options.threads},
               {"conn_yields", counts->yields},
               {"idle_kicks", counts->idle_kicks},
               {"curr_items", totals.store.items},
               {"total_items", counts->stored},
               {"bytes", totals.store.items * ROW},
               {"evictions", totals.store.evicted},
               {"kept_items", totals.store.kept},
               {"refilled_segments", totals.store.segments},
               {"used_rows", totals.store.rows},
               {"overflow_buckets", totals.store.overflow},
               {"busy_calls", totals.store.busy},
               {"full_calls", totals.store.full},
               {"most_key_bytes", STORE_MOST_KEY},
               {"most_data_bytes", MOST_DATA}};
  stat_process(connection);
  for (size_t i = 0; i < sizeof stats / sizeof *stats; i++) stat_number(connection, stats[i].name, stats[i].number);
  for (size_t i = 0; i < sizeof zeros / sizeof *zeros; i++) stat_number(connection, zeros[i], 0);
}

static void stat_settings(struct connection *connection) {
  const struct server *server = connection->worker->server;
  const struct options *options = &server->options;
  stat_number(connection, "maxbytes", limit_of(options));
  stat_number(connection, "maxconns", options->most_connections);
  stat_number(connection, "tcpport", options->port > 0 && options->socket_path == NULL ? (uint64_t)options->port : 0);
  stat_number(connection, "udpport", 0);
  stat_text(connection, "inter", options->addresses);
  stat_number(connection, "verbosity", server->verbosity);
  stat_text(connection, "evictions", "on");
  stat_text(connection, "domain_socket", options->socket_path == NULL ? "NULL" : options->socket_path);
  stat_yes(connection, "shutdown_command", options->may_shut_down);
  stat_number(connection, "num_threads", options->threads);
  stat_number(connection, "reqs_per_event", options->commands_a_turn);
  stat_yes(connection, "cas_enabled", !options->no_unique);
  stat_number(connection, "tcp_backlog", options->backlog);
  stat_text(connection, "binding_protocol", options->protocol);
  stat_yes(connection, "auth_enabled_sasl", false);
  stat_number(connection, "item_size_max", options_most_data(options, 0) + HEADER);
  stat_yes(connection, "flush_enabled", !options->no_flush);
  stat_yes(connection, "dump_enabled", false);
  stat_yes(connection, "lru_crawler", false);
  stat_number(connection, "idle_timeout", options->idle_seconds);
  stat_number(connection, "keys", options_keys(options));
  stat_number(connection, "time_to_live", options->time_to_live);
}

/* Items have one size of row, so there is one class. */
static void stat_items(struct connection *connection) {
  struct totals totals = count_all(connection->worker);
  if (totals.store.items == 0) return;
  stat_number(connection, "items:1:number", totals.store.items);
  stat_number(connection, "items:1:mem_requested", totals.store.items * ROW);
  stat_number(connection, "items:1:evicted", totals.store.evicted);
  stat_number(connection, "items:1:outofmemory", totals.counts.no_memory);
}

static void stat_slabs(struct connection *connection) {
  const struct options *options = &connection->worker->server->options;
  struct totals totals = count_all(connection->worker);
  stat_number(connection, "1:chunk_size", STORE_BYTES_A_KEY);
  stat_number(connection, "1:total_chunks", options_keys(options));
  stat_number(connection, "1:used_chunks", totals.store.items);
  stat_number(connection, "1:cmd_set", totals.counts.sets);
  stat_number(connection, "1:get_hits", totals.counts.get_hits);
  stat_number(connection, "1:mem_requested", totals.store.items * ROW);
  stat_number(connection, "active_slabs", 1);
  stat_number(connection, "total_malloced", (uint64_t)options_keys(options) * STORE_BYTES_A_KEY);
}

/* Has the rows of all clients counted, if they aren't to rest. Where one takes long, others are served before the next
 * client, and it is false. */
static bool rows_are_counted(struct connection *connection) {
  struct store *store = &connection->worker->server->store;
  while (connection->counted < store->plan.clients)
    if (store_count_rows(&store->clients[connection->counted++])) return false;
  connection->counted = 0;
  return true;
}

void log_stats(struct server *server) {
  struct worker nobody = {.server = server}; /* who serves no connection, and so has no counts of its own */
  struct connection log = {.socket = LOG, .worker = &nobody};
  while (!rows_are_counted(&log)) continue;
  stat_all(&log);
}

bool serve_stats(struct connection *connection, const struct request *request) {
  static const struct {
    const char *name;
    void (*show)(struct connection *);
    bool of_rows;
  } parts[] = {{"settings", stat_settings, false}, {"items", stat_items, true}, {"slabs", stat_slabs, true}};
  struct word part = request->words[1];
  connection->turn_over = true;
  if (request->count == 1) {
    if (!rows_are_counted(connection)) return false;
    return stat_all(connection), say(connection, false, "END");
  }
  if (word_is(part, "reset")) return reset_all(connection->worker), say(connection, false, "RESET");
  if (word_is(part, "cachedump")) return say(connection, false, "END"); /* the library doesn't list its keys */
  for (size_t i = 0; i < sizeof parts / sizeof *parts; i++) {
    if (!word_is(part, parts[i].name)) continue;
    if (parts[i].of_rows && !rows_are_counted(connection)) return false;
    return parts[i].show(connection), say(connection, false, "END");
  }
  return say(connection, false, "ERROR");
}
