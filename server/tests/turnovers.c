// SPDX-License-Identifier: MIT
/* Tests that a store hits as often after fifty turnovers as one whose buckets never lack overflow buckets.
 *
 * A turnover is as many puts as the store has rows. Over time all overflow buckets come into use, and they never leave
 * their buckets. If a put that finds its bucket full cost more than one item, a store would hit less with each turnover.
 *
 * Workers read keys that are drawn by a power law, and put what they miss. One command in fifty gives a key another
 * name. Beside each store, which is opened by a number of bytes, is one of the same tables, but with eight times the
 * overflow buckets. In each window their hit rates may differ by 0.3 percentage points. */
#include "../src/store.c"
#include <inttypes.h>
#include <stdio.h>

enum {
  NOW = 2, /* all along: the server's first moment */
  WORKERS = 4,
  MOST_TABLES = 2,
  AMPLE = 8,    /* times the overflow buckets of a table */
  RENAMES = 50, /* of so many commands one renames a key */
  WINDOWS = 12, /* of all commands; the first fills the store */
  TURNOVERS = 50,
  MOST = 3,      /* thousandths by which hit rates may differ: 0.3 percentage points */
  REFUSED = 1000 /* of so many puts one may be refused */
};

/* A store: its bytes, and the tables that the library makes of them. If plans change, these numbers do, too. */
struct opening {
  const char *name;
  uint64_t bytes;
  uint32_t tables;
  segcache_shape shape; /* of a table; as many overflow buckets as buckets */
  uint32_t keys;        /* that commands draw from at a time */
};

static const struct opening openings[] = {
    {"one table", 2400000, 1, {4096, 4096, WORKERS, 64, 103, 0}, 500000},
    {"two tables", 9400000, 2, {8192, 8192, WORKERS, 64, 205, 0}, 2000000},
};

static uint32_t next_number(uint64_t *state) {
  uint64_t x = *state;
  x ^= x << 13;
  x ^= x >> 7;
  x ^= x << 17;
  *state = x;
  return (uint32_t)(x * UINT64_C(0x2545f4914f6cdd1d) >> 32);
}

/* Of all commands the part that draws the first keys is the fifth root of their part. */
static uint32_t rank_of(uint64_t share, uint32_t keys) {
  uint64_t part = share;
  for (int i = 0; i < 4; i++) part = part * share >> 32;
  return (uint32_t)(part * keys >> 32);
}

/* The table of a key: 64-bit FNV-1a, of which its bits 20 to 51 say which. */
static uint32_t table_of_key(uint64_t name, uint32_t tables) {
  uint64_t hash = UINT64_C(0xcbf29ce484222325);
  for (int i = 0; i < 8; i++) hash = (hash ^ (name >> (8 * i) & 0xff)) * UINT64_C(0x100000001b3);
  return (uint32_t)((hash >> 20 & UINT32_MAX) * tables >> 32);
}

/* A store as store_open makes it, of one table of this shape. */
static bool open_table(struct store *store, const segcache_shape *shape) {
  segcache_client opened[WORKERS];
  *store = (struct store){.plan = {.clients = WORKERS, .keep_from = STORE_BY_QUEUES}};
  store->clients = aligned_alloc(_Alignof(struct store_client), WORKERS * sizeof *store->clients);
  if (store->clients == NULL || segcache_open_shape(shape, &store->cache, opened) != SEGCACHE_OK) return false;
  for (uint32_t i = 0; i < WORKERS; i++) begin_client(store, &store->clients[i], opened[i]);
  return true;
}

struct counts {
  uint64_t hits, refused;
};

/* A get of a key by a worker, and a put if it missed. */
static void fetch(struct store *store, uint32_t worker, uint64_t name, struct counts *counts) {
  struct word key = {(const char *)&name, sizeof name};
  char value[STORE_MOST_VALUE] = {0};
  size_t length;
  if (store_read(&store->clients[worker], key, NOW, value, &length, NULL) == STORE_OK) counts->hits++;
  else if (store_put(&store->clients[worker], key, (struct store_value){value, 16, 0}, NOW) != STORE_OK)
    counts->refused++;
}

/* A store with the tables beside it, and where the commands are. */
struct run {
  struct store store, ample[MOST_TABLES];
  const struct opening *opening;
  uint32_t *names; /* of the keys by their ranks */
  uint32_t last;   /* name that was given */
  uint64_t state;  /* of what is drawn */
};

static void serve(struct run *run, uint64_t commands, struct counts *of_store, struct counts *of_ample) {
  const struct opening *opening = run->opening;
  for (uint64_t i = 0; i < commands; i++) {
    if (next_number(&run->state) % RENAMES == 0)
      run->names[(uint64_t)next_number(&run->state) * opening->keys >> 32] = ++run->last;
    uint64_t name = run->names[rank_of(next_number(&run->state), opening->keys)];
    uint32_t worker = next_number(&run->state) % WORKERS;
    fetch(&run->store, worker, name, of_store);
    fetch(&run->ample[table_of_key(name, opening->tables)], worker, name, of_ample);
  }
}

/* Whether the store hits as often in a window of commands as the tables beside it, and refuses few puts. */
static bool is_right(struct counts of_store, struct counts of_ample, uint64_t window) {
  uint64_t most = of_store.hits > of_ample.hits ? of_store.hits : of_ample.hits;
  uint64_t least = of_store.hits + of_ample.hits - most;
  return (most - least) * 1000 <= window * MOST && of_store.refused * REFUSED <= window - of_store.hits;
}

static bool holds(struct run *run) {
  const struct opening *opening = run->opening;
  uint64_t rows = (uint64_t)opening->tables * WORKERS * opening->shape.segments_each * opening->shape.rows, puts = 0;
  uint64_t window = 2 * TURNOVERS * rows / (WINDOWS - 1); /* about half of the commands miss */
  bool right = true;
  for (int at = 0; at < WINDOWS; at++) {
    struct counts of_store = {0, 0}, of_ample = {0, 0};
    serve(run, window, &of_store, &of_ample);
    bool now_right = is_right(of_store, of_ample, window);
    puts += window - of_store.hits;
    printf("%s, after %2" PRIu64 " turnovers: %.2f %%, and %.2f %% with more overflow buckets; refused: %" PRIu64
           "%s\n",
           opening->name, puts / rows, 100.0 * (double)of_store.hits / (double)window,
           100.0 * (double)of_ample.hits / (double)window, of_store.refused, now_right ? "" : " <- wrong");
    right = right && now_right;
  }
  if (puts >= TURNOVERS * rows) return right;
  printf("%s: fewer than %d turnovers\n", opening->name, TURNOVERS);
  return false;
}

static bool test(const struct opening *opening) {
  const struct store_plan plan = {.bytes = opening->bytes, .clients = WORKERS, .keep_from = STORE_BY_QUEUES};
  struct run run = {.opening = opening, .last = opening->keys - 1, .state = UINT64_C(88172645463325252)};
  segcache_shape shape = opening->shape;
  shape.overflow *= AMPLE;
  run.names = malloc(opening->keys * sizeof *run.names);
  bool opened = run.names != NULL && store_open(&run.store, &plan) == NULL;
  for (uint32_t i = 0; i < opening->tables; i++) opened = opened && open_table(&run.ample[i], &shape);
  if (!opened) return printf("%s: can't be opened\n", opening->name), false;
  for (uint32_t i = 0; i < opening->keys; i++) run.names[i] = i;
  bool right = holds(&run);
  for (uint32_t i = 0; i < opening->tables; i++) right = store_close(&run.ample[i]) && right;
  right = store_close(&run.store) && right;
  free(run.names);
  return right;
}

int main(void) {
  bool right = true;
  for (size_t i = 0; i < sizeof openings / sizeof *openings; i++) right = test(&openings[i]) && right;
  return right ? 0 : 1;
}
