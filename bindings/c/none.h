// SPDX-License-Identifier: MIT
/* A call of each function of segcache.h that takes a handle, by one that is none. What includes this defines NONE, which
 * is handed each call and sees that it answers NO_HANDLE. The Makefile compares the list with the header (`listed`). */
#ifndef SEGCACHE_NONE_H
#define SEGCACHE_NONE_H

#include "segcache.h"

/* What the calls could write. */
typedef struct written {
  uint8_t key[SEGCACHE_MAX_KEY], value[SEGCACHE_MAX_VALUE];
  size_t key_len, value_len;
  uint32_t version;
  segcache_lookup lookups[9];
  segcache_lookup_into into[SEGCACHE_AHEAD + 4];
  segcache_stats_t stats;
  segcache_index_stats_t table;
  segcache_note_t note;
} written;

/* One handle is none, null or zeroed, and the others are those of a cache, where a call takes several. */
static void call_by_no_client(segcache_client *client, segcache *cache, segcache_note_t *note, written *to) {
  NONE(segcache_get(client, "k", 1, 2, to->value, sizeof to->value, &to->value_len));
  NONE(segcache_get(client, "k", 1, 2, NULL, 0, &to->value_len));
  NONE(segcache_get(client, NULL, 0, 2, NULL, 0, &to->value_len));
  NONE(segcache_gets(client, "k", 1, 2, to->value, sizeof to->value, &to->value_len, &to->version));
  NONE(segcache_gets(client, "k", 1, 2, NULL, 0, &to->value_len, &to->version));
  NONE(segcache_get_many(client, "k", 1, 2, to->lookups, 9));
  NONE(segcache_get_many(client, NULL, 0, 2, NULL, 0));
  NONE(segcache_gets_many(client, "k", 1, 2, to->lookups, 9));
  NONE(segcache_gets_many(client, NULL, 0, 2, NULL, 0));
  NONE(segcache_get_many_into(client, to->into, SEGCACHE_AHEAD + 4, 2));
  NONE(segcache_get_many_into(client, NULL, 0, 2));
  NONE(segcache_gets_many_into(client, to->into, SEGCACHE_AHEAD + 4, 2));
  NONE(segcache_gets_many_into(client, NULL, 0, 2));
  NONE(segcache_look_ahead(client, to->into, 0, SEGCACHE_AHEAD + 4));
  NONE(segcache_look_ahead(client, NULL, 0, 0));
  NONE(segcache_look_ahead_entered(client, to->into, 0, SEGCACHE_AHEAD + 4));
  NONE(segcache_look_ahead_entered(client, NULL, 0, 0));
  NONE(segcache_look_up(client, to->into, SEGCACHE_AHEAD + 4, 0, 2));
  NONE(segcache_look_up(client, to->into, SEGCACHE_AHEAD + 4, 1, 2));
  NONE(segcache_look_up(client, NULL, 0, 0, 2));
  NONE(segcache_put(client, "k", 1, "v", 1, 2));
  NONE(segcache_put(client, NULL, 0, NULL, 0, 2));
  NONE(segcache_put_for(client, "k", 1, "v", 1, 3, 2));
  NONE(segcache_fill(client, 1, "k", 1, "v", 1, 2));
  NONE(segcache_fill(client, 0, "k", 1, "v", 1, 2));
  NONE(segcache_set(client, "k", 1, "v", 1, 2));
  NONE(segcache_add(client, "k", 1, "v", 1, 2));
  NONE(segcache_replace(client, "k", 1, "v", 1, 2));
  NONE(segcache_cas(client, "k", 1, "v", 1, 0, 2));
  NONE(segcache_delete(client, "k", 1, 2));
  NONE(segcache_hold(client, "k", 1, 2));
  NONE(segcache_held_value(client, to->value, sizeof to->value, &to->value_len));
  NONE(segcache_held_value(client, NULL, 0, &to->value_len));
  NONE(segcache_release(client));
  NONE(segcache_note(client, &to->note));
  NONE(segcache_note(client, NULL));
  NONE(segcache_learn(client, note));
  NONE(segcache_learn_entered(client, note));
  NONE(segcache_set_time_to_live(client, 1));
  NONE(segcache_keep_from(client, 1));
  NONE(segcache_keep_nothing(client));
  NONE(segcache_make_room(client, 2));
  NONE(segcache_stats(client, &to->stats));
  NONE(segcache_index_stats(client, &to->table));
  NONE(segcache_give_back(cache, client));
  NONE(segcache_give_back_entered(cache, client));
}

static void call_by_no_note(segcache_note_t *note, segcache_client *client) {
  NONE(segcache_learn(client, note));
  NONE(segcache_learn_entered(client, note));
  NONE(segcache_learn(NULL, note));
  NONE(segcache_note(client, NULL));
  NONE(segcache_note_free(note));
}

static void call_by_no_cache(segcache *cache, segcache_client *client, segcache_cursor *cursor) {
  NONE(segcache_give_back(cache, client));
  NONE(segcache_give_back_entered(cache, client));
  NONE(segcache_give_back(cache, NULL));
  NONE(segcache_close(cache, cursor));
  NONE(segcache_free(cache));
}

static void call_by_no_cursor(segcache_cursor *cursor, written *to) {
  NONE(segcache_next(cursor, to->key, &to->key_len, to->value, &to->value_len));
  NONE(segcache_cursor_free(cursor));
}

#endif
