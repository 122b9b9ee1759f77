// SPDX-License-Identifier: MIT
/* Times each put into a full cache: what puts cost that make room, by load, shape and number of threads.
 * bench/puts/measure builds it for each cache, and makes turns: puts [--processor] [PUTS]
 *
 * Each thread has a caller of its own. By "zipf" it gets keys by Zipf's law with the exponent 0.99, six for each row,
 * and puts each that is missed. By "read twice" it puts new keys only, and gets each twice: the most work, since all
 * that is cleared was read. Puts are timed once each row was used twice.
 *
 * "Rows" is the most rows of one put that were kept or evicted, by the cache's counts.
 *
 * Times are of the processor's time stamp counter, read between fences, with the cost of the reading taken off.
 * Interruptions are in them. With --processor they are of the thread's processor time, for a machine that is busy:
 * only for puts of many microseconds, since a reading takes half of one.
 */
#define _GNU_SOURCE
#include "puts.h"

#include <math.h>
#include <pthread.h>
#include <stdio.h>
#include <stdlib.h>
#include <string.h>
#include <time.h>
#include <x86intrin.h>

enum { KEYS_A_ROW = 6, SEED = 42 };

/* What the threads do. */
typedef struct load {
    const char* name;
    bool is_twice;      /* new keys only, each read twice */
    bool keeps_nothing; /* nothing that was read */
} load;

static const load loads[] = {{"zipf", false, false}, {"read twice", true, false}, {"zipf, keep_nothing", false, true}};

typedef struct samples {
    uint64_t* ticks;
    size_t count;
} samples;

static int by_processor;
static double ns_a_tick = 1;
static uint64_t reading; /* what two readings of the clock take, at the least */

static void fail(const char* why) {
    fprintf(stderr, "puts: %s\n", why);
    exit(1);
}

/* --- The clock --- */

static uint64_t clock_ns(clockid_t id) {
    struct timespec at;
    clock_gettime(id, &at);
    return (uint64_t)at.tv_sec * 1000000000u + (uint64_t)at.tv_nsec;
}

static uint64_t tick(void) {
    uint64_t at;
    if (by_processor) return clock_ns(CLOCK_THREAD_CPUTIME_ID);
    _mm_lfence();
    at = __rdtsc();
    _mm_lfence();
    return at;
}

/* How long a tick is, and what a reading takes. */
static void calibrate(void) {
    uint64_t from, begun, took;
    int i;
    if (!by_processor) {
        from = clock_ns(CLOCK_MONOTONIC), begun = tick();
        while (clock_ns(CLOCK_MONOTONIC) - from < 200000000u) continue;
        ns_a_tick = (double)(clock_ns(CLOCK_MONOTONIC) - from) / (double)(tick() - begun);
    }
    reading = UINT64_MAX;
    for (i = 0; i < 100000; i++) {
        begun = tick();
        took = tick() - begun;
        if (took < reading) reading = took;
    }
}

/* --- Keys by Zipf's law: a table with two keys at each place, one of which is drawn --- */

typedef struct place {
    double part; /* of the first key, the place itself */
    uint32_t other;
} place;

static uint64_t next_random(uint64_t* state) {
    uint64_t mixed = *state += 0x9e3779b97f4a7c15u;
    mixed = (mixed ^ mixed >> 30) * 0xbf58476d1ce4e5b9u;
    mixed = (mixed ^ mixed >> 27) * 0x94d049bb133111ebu;
    return mixed ^ mixed >> 31;
}

static place* zipf_table(uint32_t keys) {
    place* table = malloc(keys * sizeof *table);
    uint32_t *small = malloc(keys * sizeof *small), *large = malloc(keys * sizeof *large);
    uint32_t smalls = 0, larges = 0, i;
    double sum = 0;
    if (!table || !small || !large) fail("no memory");
    for (i = 0; i < keys; i++) sum += table[i].part = pow(i + 1.0, -0.99);
    for (i = 0; i < keys; i++) {
        table[i].part *= keys / sum;
        table[i].other = i;
        if (table[i].part < 1)
            small[smalls++] = i;
        else
            large[larges++] = i;
    }
    while (smalls > 0 && larges > 0) {
        uint32_t less = small[--smalls], more = large[larges - 1];
        table[less].other = more;
        table[more].part -= 1 - table[less].part;
        if (table[more].part < 1) small[smalls++] = more, larges--;
    }
    free(small), free(large);
    return table;
}

static uint32_t draw(const place* table, uint32_t keys, uint64_t* state) {
    uint64_t random = next_random(state);
    uint32_t at = (uint32_t)((random >> 32) * keys >> 32);
    return (double)(uint32_t)random < table[at].part * 4294967296.0 ? at : table[at].other;
}

static int by_size(const void* left, const void* right) {
    uint64_t a = *(const uint64_t*)left, b = *(const uint64_t*)right;
    return (a > b) - (a < b);
}

static double ns_at(const samples* of, double share) {
    size_t at = (size_t)((double)of->count * share);
    uint64_t ticks = of->ticks[at < of->count ? at : of->count - 1];
    return (double)(ticks > reading ? ticks - reading : 0) * ns_a_tick;
}

/* --- A thread --- */

typedef struct worker {
    caller* caller;
    const load* load;
    const place* table;
    uint32_t keys;
    size_t puts;
    samples timed; /* none while the cache is filled */
    uint64_t state, fresh, gets, refused, rows;
} worker;

/* The next key that is to be put: one that was missed, or a new one. */
static uint64_t next_key(worker* own) {
    uint64_t key;
    if (own->load->is_twice) return own->fresh++;
    do {
        key = draw(own->table, own->keys, &own->state);
        own->gets++;
    } while (puts_get(own->caller, key));
    return key;
}

static void* drive(void* given) {
    worker* own = given;
    uint64_t before = puts_rows(own->caller), after;
    size_t done;
    own->gets = 0;
    for (done = 0; done < own->puts; done++) {
        uint64_t key = next_key(own), begun = tick(), ended;
        bool is_stored = puts_put(own->caller, key);
        ended = tick();
        if (own->load->is_twice) {
            puts_get(own->caller, key);
            puts_get(own->caller, key);
        }
        if (!own->timed.ticks) continue;
        own->refused += !is_stored;
        own->timed.ticks[own->timed.count++] = ended - begun;
        after = puts_rows(own->caller);
        if (after - before > own->rows) own->rows = after - before;
        before = after;
    }
    return NULL;
}

/* --- The cells --- */

enum { MOST_THREADS = 4 };

static void run_all(worker* workers, uint32_t count) {
    pthread_t threads[MOST_THREADS];
    uint32_t i;
    for (i = 0; i < count; i++)
        if (pthread_create(&threads[i], NULL, drive, &workers[i]) != 0) fail("no thread");
    for (i = 0; i < count; i++) pthread_join(threads[i], NULL);
}

static void print_row(const plan* of, const load* by, const worker* workers, samples* all) {
    uint64_t refused = 0, rows = 0, gets = 0;
    double sum = 0, hits = 0;
    size_t i;
    qsort(all->ticks, all->count, sizeof *all->ticks, by_size);
    for (i = 0; i < all->count; i++) sum += (double)all->ticks[i];
    for (i = 0; i < of->threads; i++) {
        gets += workers[i].gets, refused += workers[i].refused;
        if (workers[i].rows > rows) rows = workers[i].rows;
    }
    if (gets) hits = 100.0 * (double)(gets - all->count) / (double)gets;
    printf("| %s | %u | %s | %.0f | %.0f | %.0f | %.0f | %.0f | %llu | %.2f | %llu |\n", of->name, of->threads,
           by->name, ns_at(all, 0.5), ns_at(all, 0.999), ns_at(all, 0.9999), ns_at(all, 1),
           (sum / (double)all->count - (double)reading) * ns_a_tick, (unsigned long long)rows, hits,
           (unsigned long long)refused);
    fflush(stdout);
}

static void measure(const plan* of, const load* by, size_t puts) {
    caller* callers[MOST_THREADS];
    worker workers[MOST_THREADS] = {{0}};
    uint32_t each = rows_each(of), keys = KEYS_A_ROW * each * of->threads, i;
    size_t share = puts / of->threads;
    place* table = by->is_twice ? NULL : zipf_table(keys);
    samples all = {malloc(share * of->threads * sizeof(uint64_t)), 0};
    bool is_able = true;
    if (!all.ticks) fail("no memory");
    if (!puts_open(of, callers)) fail("the cache can't be opened");
    for (i = 0; i < of->threads; i++) {
        workers[i] = (worker){.caller = callers[i], .load = by, .table = table, .keys = keys, .puts = 2 * (size_t)each};
        workers[i].state = SEED + i, workers[i].fresh = (uint64_t)i << 40;
        if (by->keeps_nothing) is_able = puts_keep_nothing(callers[i]) && is_able;
    }
    if (is_able) {
        run_all(workers, of->threads);
        for (i = 0; i < of->threads; i++) workers[i].puts = share, workers[i].timed.ticks = all.ticks + i * share;
        run_all(workers, of->threads);
        all.count = share * of->threads;
        print_row(of, by, workers, &all);
    }
    puts_close(callers, of->threads);
    free(table), free(all.ticks);
}

int main(int count, char** words) {
    /* Of shapes there are overflow buckets enough that no bucket is full, so that room is made for rows alone. */
    static const plan plans[] = {
        {"128 x 448", 0, 1, 16384, 16384, 128, 448}, {"128 x 448", 0, 4, 65536, 65536, 128, 448},
        {"64 x 3125", 0, 1, 32768, 65536, 64, 3125}, {"for 100,000 keys", 100000, 1, 0, 0, 0, 0},
        {"for 400,000 keys", 400000, 4, 0, 0, 0, 0},
    };
    size_t puts = 3000000, i, j;
    int at = 1;
    if (at < count && strcmp(words[at], "--processor") == 0) by_processor = 1, at++;
    if (at < count && (puts = strtoul(words[at], NULL, 10)) == 0) fail("usage: puts [--processor] [PUTS]");
    calibrate();
    printf("Nanoseconds a put, by %s; a reading took %.0f.\n\n",
           by_processor ? "processor time" : "the time stamp counter", (double)reading * ns_a_tick);
    printf("| Segments x rows | Threads | Load | Median | 99.9 %% | 99.99 %% | Largest | Mean | Rows | Hits in %% | "
           "Refused |\n"
           "|---|---|---|---|---|---|---|---|---|---|---|\n");
    for (i = 0; i < sizeof loads / sizeof *loads; i++)
        for (j = 0; j < sizeof plans / sizeof *plans; j++) measure(&plans[j], &loads[i], puts);
    return 0;
}
