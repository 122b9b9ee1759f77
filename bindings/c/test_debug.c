// SPDX-License-Identifier: MIT
/* What SEGCACHE_DEBUG stops: each fault in a child, which has to abort. */
#include "test.h"

#ifdef SEGCACHE_DEBUG

enum { NOW = 2 }; /* the stand-in aborts at an earlier moment */

/* A cache with a client, a note and copies of them, and a cursor of another cache. */
struct handles {
  segcache cache, cache_copy, closed;
  segcache_client client, client_copy, of_closed;
  segcache_note_t note, note_copy;
  segcache_cursor cursor, cursor_copy;
};

static void copied_client(struct handles *all) {
  segcache_give_back(&all->cache, &all->client);
  segcache_delete(&all->client_copy, "k", 1, NOW);
}

static void copied_cache(struct handles *all) {
  segcache_give_back(&all->cache, &all->client);
  segcache_free(&all->cache);
  segcache_free(&all->cache_copy);
}

static void copied_note(struct handles *all) {
  segcache_learn(&all->client, &all->note);
  segcache_note_free(&all->note_copy);
}

static void copied_cursor(struct handles *all) {
  segcache_cursor_free(&all->cursor);
  segcache_cursor_free(&all->cursor_copy);
}

static void client_in_use(struct handles *all) {
  segcache_debug_enter(&all->client.raw, "another thread");
  segcache_delete(&all->client, "k", 1, NOW);
}

static void note_in_use(struct handles *all) {
  segcache_debug_enter(&all->note.raw, "another thread");
  segcache_learn(&all->client, &all->note);
}

static void made_up(struct handles *all) {
  all->client.raw.at = all;
  segcache_delete(&all->client, "k", 1, NOW);
}

static void null_key(struct handles *all) { segcache_delete(&all->client, NULL, 1, NOW); }

static void null_length(struct handles *all) {
  char value[32];
  segcache_get(&all->client, "k", 1, NOW, value, sizeof value, NULL);
}

static void value_over_key(struct handles *all) {
  char bytes[40] = "key";
  size_t length;
  segcache_get(&all->client, bytes, 3, NOW, bytes + 2, 32, &length);
}

static void length_in_value(struct handles *all) {
  size_t value[4];
  segcache_held_value(&all->client, value, sizeof value, &value[1]);
}

static void no_fault(struct handles *all) {
  segcache_learn(&all->client, &all->note);
  segcache_give_back(&all->cache, &all->client);
  segcache_free(&all->cache);
  segcache_cursor_free(&all->cursor);
}

static const struct fault {
  const char *name;
  void (*commit)(struct handles *);
} fault_list[] = {
    {"copied client", copied_client},
    {"copied cache", copied_cache},
    {"copied note", copied_note},
    {"copied cursor", copied_cursor},
    {"client in use", client_in_use},
    {"note in use", note_in_use},
    {"made up", made_up},
    {"null key", null_key},
    {"null length", null_length},
    {"value over key", value_over_key},
    {"length in value", length_in_value},
    {"no fault", no_fault},
};

static void run(const struct fault *fault) {
  struct handles all = {0};
  if (freopen("/dev/null", "w", stderr) == NULL) _exit(2);
  if (segcache_open(100, 1, &all.cache, &all.client) || segcache_open(100, 1, &all.closed, &all.of_closed)) _exit(2);
  if (segcache_give_back(&all.closed, &all.of_closed) || segcache_close(&all.closed, &all.cursor)) _exit(2);
  if (segcache_note(&all.client, &all.note)) _exit(2);
  all.cache_copy = all.cache, all.client_copy = all.client, all.note_copy = all.note, all.cursor_copy = all.cursor;
  fault->commit(&all);
  _exit(0);
}

void test_debug(void) {
  for (size_t i = 0; i < sizeof fault_list / sizeof *fault_list; i++) {
    const struct fault *fault = &fault_list[i];
    int status = 0;
    pid_t child = fork();
    if (child == 0) run(fault);
    waitpid(child, &status, 0);
    checks++;
    if (fault->commit == no_fault ? status == 0 : WIFSIGNALED(status) && WTERMSIG(status) == SIGABRT) continue;
    faults++, printf("%s: the child ended with %d\n", fault->name, status);
  }
}
#else
void test_debug(void) {}
#endif
