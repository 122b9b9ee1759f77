// SPDX-License-Identifier: MIT
/* Tests of handles that are none, at each function that segcache.h declares: null, zeroed, given back and freed ones. */
#include "test.h"

#define NONE(call) EXPECT(call, SEGCACHE_NO_HANDLE)
#include "none.h"

enum { LOOKUPS = sizeof((written *)0)->into / sizeof(segcache_lookup_into) };
static uint8_t buffers[LOOKUPS][SEGCACHE_MAX_VALUE];
static written before, after;

static int is_zeroed(const void *at, size_t size) {
  for (size_t i = 0; i < size; i++)
    if (((const uint8_t *)at)[i] != 0) return 0;
  return 1;
}

/* Marks all that a call could write, so that it is seen if one does. */
static void mark(void) {
  memset(buffers, '?', sizeof buffers);
  memset(&before, '?', sizeof before);
  memset(&before.note, 0, sizeof before.note);
  for (size_t i = 0; i < LOOKUPS; i++) {
    before.into[i].key = "k", before.into[i].key_len = 1;
    before.into[i].value = buffers[i], before.into[i].room = sizeof buffers[i];
  }
  memcpy(&after, &before, sizeof after);
}

static int is_marked(void) {
  for (size_t i = 0; i < LOOKUPS; i++)
    for (size_t j = 0; j < sizeof buffers[i]; j++)
      if (buffers[i][j] != '?') return 0;
  return memcmp(&after, &before, sizeof after) == 0;
}

/* Each export by zeroed handles. A null handle is what the functions of the header keep from them. */
static void test_exports(void) {
  segcache_handle none = {NULL, 0}, other = {NULL, 0};
  segcache_shape shape = {4, 4, 1, 2, 8, 0};
  segcache_key_place place = {0, 1};
  const uint8_t *key = (const uint8_t *)"k", *value = (const uint8_t *)"v";
  size_t *length = &after.value_len;
  NONE(segcache_raw_get(&none, key, 1, after.value, sizeof after.value, length, 2));
  NONE(segcache_raw_gets(&none, key, 1, after.value, sizeof after.value, length, &after.version, 2));
  NONE(segcache_raw_get_many(&none, key, 1, after.lookups, 9, 2));
  NONE(segcache_raw_gets_many(&none, key, 1, after.lookups, 9, 2));
  NONE(segcache_raw_look_ahead(&none, key, 1, &place, 1));
  NONE(segcache_raw_put(&none, key, 1, value, 1, 2));
  NONE(segcache_raw_put_for(&none, key, 1, value, 1, 3, 2));
  NONE(segcache_raw_set(&none, key, 1, value, 1, 2));
  NONE(segcache_raw_add(&none, key, 1, value, 1, 2));
  NONE(segcache_raw_replace(&none, key, 1, value, 1, 2));
  NONE(segcache_raw_cas(&none, key, 1, value, 1, 0, 2));
  NONE(segcache_raw_delete(&none, key, 1, 2));
  NONE(segcache_raw_hold(&none, key, 1, 2));
  NONE(segcache_raw_held_value(&none, after.value, sizeof after.value, length));
  NONE(segcache_raw_release(&none));
  NONE(segcache_raw_note(&none, &other));
  NONE(segcache_raw_learn(&none, &other));
  NONE(segcache_raw_note_free(&none));
  NONE(segcache_raw_set_time_to_live(&none, 1));
  NONE(segcache_raw_keep_from(&none, 1));
  NONE(segcache_raw_make_room(&none, 2));
  NONE(segcache_raw_stats(&none, &after.stats));
  NONE(segcache_raw_index_stats(&none, &after.table));
  NONE(segcache_raw_give_back(&none, &other));
  NONE(segcache_raw_close(&none, &other));
  NONE(segcache_raw_next(&none, after.key, sizeof after.key, &after.key_len, after.value, sizeof after.value, length));
  NONE(segcache_raw_cursor_free(&none));
  NONE(segcache_raw_free(&none));
  EXPECT(segcache_raw_open(100, 1, &none, NULL, 0), SEGCACHE_BAD_SHAPE);
  EXPECT(segcache_raw_open_for_writers(100, 1, &none, NULL, 0), SEGCACHE_BAD_SHAPE);
  EXPECT(segcache_raw_open_items(100, 50, &none, NULL, 0), SEGCACHE_BAD_SHAPE);
  EXPECT(segcache_raw_open_bytes(1000000, &none, NULL, 0), SEGCACHE_BAD_SHAPE);
  EXPECT(segcache_raw_open_shape(&shape, &none, NULL, 0), SEGCACHE_BAD_SHAPE);
  CHECK(segcache_raw_version() == SEGCACHE_VERSION_NUMBER);
  CHECK(segcache_raw_sizes() == SEGCACHE_SIZES);
  CHECK(is_zeroed(&none.at, sizeof none.at) && !none.full);
  CHECK(is_zeroed(&other.at, sizeof other.at) && !other.full);
}

/* An open for no thread writes no client, so that there need be none. */
static void test_opens(void) {
  segcache cache;
  segcache_shape shape = {4, 4, 0, 2, 8, 0};
  segcache_handle none = {NULL, 0};
  EXPECT(segcache_open(100, 0, &cache, NULL), SEGCACHE_BAD_SHAPE);
  EXPECT(segcache_open_for_writers(100, 0, 0, &cache, NULL), SEGCACHE_BAD_SHAPE);
  EXPECT(segcache_open_items(100, 50, 0, &cache, NULL), SEGCACHE_BAD_SHAPE);
  EXPECT(segcache_open_bytes(1000000, 0, &cache, NULL), SEGCACHE_BAD_SHAPE);
  EXPECT(segcache_open_shape(&shape, &cache, NULL), SEGCACHE_BAD_SHAPE);
  EXPECT(segcache_hand_out(SEGCACHE_BAD_SHAPE, none, NULL, 0, &cache, NULL), SEGCACHE_BAD_SHAPE);
  CHECK(is_zeroed(&cache, sizeof cache));
  EXPECT(segcache_may_open(0), SEGCACHE_OK);
  CHECK(segcache_version() == SEGCACHE_VERSION_NUMBER);
  CHECK(segcache_sizes() == SEGCACHE_SIZES);
  CHECK(segcache_text(SEGCACHE_NO_HANDLE) != NULL);
}

void test_none(void) {
  segcache cache, no_cache = {{0}, 0};
  segcache_client clients[2], no_client = {{0}, 0, {0}};
  segcache_cursor cursor, no_cursor = {{0}};
  segcache_note_t note = {{0}, 0}, no_note = {{0}, 0};
  long blocks = out;
  test_opens();
  mark();
  test_exports();
  CHECK(is_marked());
  EXPECT(segcache_open(100, 2, &cache, clients), SEGCACHE_OK);
  EXPECT(put(&clients[0], "k", "v", 2), SEGCACHE_OK);
  EXPECT(segcache_note(&clients[0], &note), SEGCACHE_OK);
  for (int zeroed = 0; zeroed < 2; zeroed++) {
    memset(&cursor, '?', sizeof cursor);
    call_by_no_client(zeroed ? &no_client : NULL, &cache, &note, &after);
    call_by_no_note(zeroed ? &no_note : NULL, &clients[1]);
    call_by_no_cache(zeroed ? &no_cache : NULL, &clients[1], &cursor);
    call_by_no_cursor(zeroed ? &no_cursor : NULL, &after);
    CHECK(is_marked() && is_zeroed(&cursor.raw.at, sizeof cursor.raw.at) && !cursor.raw.full);
  }
  CHECK(is_zeroed(&no_client, sizeof no_client) && is_zeroed(&no_note, sizeof no_note));
  CHECK(is_zeroed(&no_cache, sizeof no_cache) && is_zeroed(&no_cursor, sizeof no_cursor));
  /* All that lives does what it did before. */
  CHECK(reads(&clients[1], "k", 2, "v"));
  EXPECT(segcache_learn(&clients[1], &note), SEGCACHE_OK);
  for (int i = 0; i < 2; i++) EXPECT(segcache_give_back(&cache, &clients[i]), SEGCACHE_OK);
  EXPECT(segcache_close(&cache, &cursor), SEGCACHE_OK);
  EXPECT(segcache_next(&cursor, before.key, &before.key_len, before.value, &before.value_len), SEGCACHE_OK);
  CHECK(before.key_len == 1 && before.key[0] == 'k' && before.value_len == 1 && before.value[0] == 'v');
  EXPECT(segcache_cursor_free(&cursor), SEGCACHE_OK);
  CHECK(out == blocks);
  /* Each of them is none now. */
  mark();
  call_by_no_client(&clients[0], &cache, &note, &after);
  call_by_no_note(&note, &clients[1]);
  call_by_no_cursor(&cursor, &after);
  call_by_no_cache(&cache, &clients[1], &cursor);
  CHECK(is_marked() && out == blocks);
}
