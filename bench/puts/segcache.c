// SPDX-License-Identifier: MIT
/* The index, through the library for C. */
#include "../../bindings/c/segcache.h"
#include "puts.h"

enum { MOST_CALLERS = 64 };

struct caller {
    segcache_client client;
};

static segcache cache;
static caller all[MOST_CALLERS];
static segcache_client clients[MOST_CALLERS];

bool puts_open(const plan* of, caller** callers) {
    segcache_shape shape = {of->buckets, of->overflow, of->threads, of->segments, of->rows, 0};
    uint32_t status =
        of->keys ? segcache_open(of->keys, of->threads, &cache, clients) : segcache_open_shape(&shape, &cache, clients);
    uint32_t i;
    for (i = 0; status == SEGCACHE_OK && i < of->threads; i++) {
        all[i].client = clients[i];
        callers[i] = &all[i];
    }
    return status == SEGCACHE_OK;
}

void puts_close(caller** callers, uint32_t count) {
    uint32_t i;
    for (i = 0; i < count; i++) segcache_give_back(&cache, &callers[i]->client);
    segcache_free(&cache);
}

bool puts_keep_nothing(caller* own) { return segcache_keep_from(&own->client, 0) == SEGCACHE_OK; }

bool puts_get(caller* own, uint64_t key) {
    char value[SEGCACHE_MAX_VALUE];
    size_t length;
    return segcache_get(&own->client, &key, sizeof key, 0, value, sizeof value, &length) != SEGCACHE_MISS;
}

bool puts_put(caller* own, uint64_t key) {
    return segcache_put(&own->client, &key, sizeof key, "0123456789abcdef", 16, 0) == SEGCACHE_OK;
}

uint64_t puts_rows(caller* own) {
    segcache_stats_t stats;
    segcache_stats(&own->client, &stats);
    return stats.items_kept + stats.keys_evicted;
}
