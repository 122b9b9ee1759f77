// SPDX-License-Identifier: MIT
/* Tests of holds and notes. */
#include "test.h"

static int holds_value(segcache_client *client, const char *wanted) {
  char value[SEGCACHE_MAX_VALUE];
  size_t length = 0;
  uint32_t status = segcache_held_value(client, value, sizeof value, &length);
  return status == SEGCACHE_OK && length == strlen(wanted) && memcmp(value, wanted, length) == 0;
}

/* What is held reads the same until the release, whatever becomes of the key. */
static void test_reading_a_hold(segcache_client *one, segcache_client *other) {
  char value[SEGCACHE_MAX_VALUE] = "";
  size_t length = 99;
  EXPECT(segcache_hold(one, "k", 1, 0), SEGCACHE_MISS);
  EXPECT(segcache_held_value(one, value, sizeof value, &length), SEGCACHE_NOT_HOLDING);
  EXPECT(segcache_release(one), SEGCACHE_NOT_HOLDING);
  CHECK(length == 99);
  EXPECT(put(other, "k", "first", 0), SEGCACHE_OK);
  EXPECT(put(other, "l", "another", 0), SEGCACHE_OK);
  EXPECT(segcache_hold(one, "k", 1, 0), SEGCACHE_OK);
  CHECK(holds_value(one, "first"));
  EXPECT(segcache_hold(one, "l", 1, 0), SEGCACHE_ALREADY_HOLDING);
  CHECK(holds_value(one, "first"));
  EXPECT(segcache_held_value(one, value, 4, &length), SEGCACHE_SHORT_BUFFER);
  CHECK(length == 5 && value[0] == 0);
  EXPECT(put(other, "k", "second", 0), SEGCACHE_OK);
  CHECK(reads(one, "k", 0, "second") && holds_value(one, "first"));
  EXPECT(segcache_delete(one, "k", 1, 0), SEGCACHE_OK);
  CHECK(reads(one, "k", 0, NULL) && holds_value(one, "first"));
  EXPECT(segcache_release(one), SEGCACHE_OK);
  EXPECT(segcache_release(one), SEGCACHE_NOT_HOLDING);
  EXPECT(segcache_held_value(one, value, sizeof value, &length), SEGCACHE_NOT_HOLDING);
  EXPECT(segcache_hold(one, "l", 1, 0), SEGCACHE_OK);
  CHECK(holds_value(one, "another"));
  EXPECT(segcache_release(one), SEGCACHE_OK);
}

/* Past the deadline a value can't be held any longer, and one that is held stays. */
static void test_time_and_holds(segcache_client *client) {
  EXPECT(segcache_set_time_to_live(client, 10), SEGCACHE_OK);
  EXPECT(segcache_make_room(client, 100), SEGCACHE_OK);
  EXPECT(put(client, "short", "lived", 100), SEGCACHE_OK);
  EXPECT(segcache_hold(client, "short", 5, 109), SEGCACHE_OK);
  CHECK(reads(client, "short", 110, NULL) && holds_value(client, "lived"));
  EXPECT(segcache_release(client), SEGCACHE_OK);
  EXPECT(segcache_hold(client, "short", 5, 110), SEGCACHE_MISS);
}

/* The segment of a held item isn't recycled: its client has no other, so it has no room. */
static void test_room_and_holds(void) {
  segcache cache;
  segcache_client clients[2];
  segcache_shape shape = {16, 0, 2, 1, 4, 0};
  long before = out;
  EXPECT(segcache_open_shape(&shape, &cache, clients), SEGCACHE_OK);
  EXPECT(put(&clients[0], "a", "1", 0), SEGCACHE_OK);
  EXPECT(segcache_hold(&clients[1], "a", 1, 0), SEGCACHE_OK);
  for (int i = 0; i < 3; i++) EXPECT(put(&clients[0], "b", "2", 0), SEGCACHE_OK);
  EXPECT(put(&clients[0], "c", "3", 0), SEGCACHE_NO_ROOM);
  EXPECT(segcache_make_room(&clients[0], 0), SEGCACHE_NO_ROOM);
  CHECK(holds_value(&clients[1], "1"));
  /* A client that is given back holds nothing any longer. */
  EXPECT(segcache_give_back(&cache, &clients[1]), SEGCACHE_OK);
  EXPECT(segcache_release(&clients[1]), SEGCACHE_NO_HANDLE);
  EXPECT(put(&clients[0], "c", "3", 0), SEGCACHE_OK);
  EXPECT(segcache_hold(&clients[0], "c", 1, 0), SEGCACHE_OK);
  EXPECT(segcache_give_back(&cache, &clients[0]), SEGCACHE_OK);
  EXPECT(segcache_free(&cache), SEGCACHE_OK);
  CHECK(out == before);
}

void test_holds(void) {
  segcache cache;
  segcache_client clients[2], none;
  char key[SEGCACHE_MAX_KEY + 1] = "k", value[32];
  size_t length;
  memset(&none, 0, sizeof none);
  EXPECT(segcache_open(1000, 2, &cache, clients), SEGCACHE_OK);
  test_reading_a_hold(&clients[0], &clients[1]);
  test_time_and_holds(&clients[0]);
  for (size_t bad = 0; bad <= sizeof key; bad += sizeof key)
    EXPECT(segcache_hold(&clients[0], key, bad, 0), SEGCACHE_BAD_KEY);
  EXPECT(segcache_release(&clients[0]), SEGCACHE_NOT_HOLDING);
  for (int i = 0; i < 2; i++) EXPECT(segcache_give_back(&cache, &clients[i]), SEGCACHE_OK);
  EXPECT(segcache_free(&cache), SEGCACHE_OK);
  segcache_client *handles[] = {&none, NULL};
  for (int i = 0; i < 2; i++) {
    EXPECT(segcache_hold(handles[i], key, 1, 0), SEGCACHE_NO_HANDLE);
    EXPECT(segcache_held_value(handles[i], value, sizeof value, &length), SEGCACHE_NO_HANDLE);
    EXPECT(segcache_release(handles[i]), SEGCACHE_NO_HANDLE);
  }
  test_room_and_holds();
}

/* Each allocation of a note is refused in turn. */
static void test_memory_of_notes(segcache_client *client) {
  segcache_note_t note = {0};
  long before = out, refused = 0;
  uint32_t status = SEGCACHE_OUT_OF_MEMORY;
  for (; status == SEGCACHE_OUT_OF_MEMORY; refused++) {
    until_refused = refused;
    status = segcache_note(client, &note);
    until_refused = -1;
    if (status == SEGCACHE_OUT_OF_MEMORY) EXPECT(segcache_note_free(&note), SEGCACHE_NO_HANDLE);
    if (status == SEGCACHE_OUT_OF_MEMORY) CHECK(out == before);
  }
  CHECK(status == SEGCACHE_OK && refused >= 2);
  EXPECT(segcache_note_free(&note), SEGCACHE_OK);
  CHECK(out == before);
}

/* A note of a cache that was freed is of another cache than the next one, also where that has its address. */
static void test_late_notes(void) {
  segcache cache;
  segcache_client client;
  segcache_note_t note = {0}, next = {0};
  long before = out;
  EXPECT(segcache_open(100, 1, &cache, &client), SEGCACHE_OK);
  EXPECT(segcache_note(&client, &note), SEGCACHE_OK);
  const void *at = cache.raw.at;
  reuse_blocks();
  EXPECT(segcache_give_back(&cache, &client), SEGCACHE_OK);
  EXPECT(segcache_free(&cache), SEGCACHE_OK);
  EXPECT(segcache_open(100, 1, &cache, &client), SEGCACHE_OK);
  for (int tries = 0; tries < 20 && cache.raw.at != at; tries++) {
    EXPECT(segcache_give_back(&cache, &client), SEGCACHE_OK);
    EXPECT(segcache_free(&cache), SEGCACHE_OK);
    EXPECT(segcache_open(100, 1, &cache, &client), SEGCACHE_OK);
  }
  free_blocks();
  CHECK(cache.raw.at == at);
  EXPECT(segcache_learn(&client, &note), SEGCACHE_FOREIGN);
  EXPECT(segcache_note(&client, &next), SEGCACHE_OK);
  EXPECT(segcache_learn(&client, &next), SEGCACHE_OK);
  EXPECT(segcache_note_free(&note), SEGCACHE_OK); /* FOREIGN left it */
  EXPECT(segcache_give_back(&cache, &client), SEGCACHE_OK);
  EXPECT(segcache_free(&cache), SEGCACHE_OK);
  CHECK(out == before);
}

void test_notes(void) {
  segcache cache, another;
  segcache_client clients[2], foreign, none;
  segcache_note_t note = {0}, late = {0}, no_note = {0};
  long before = out;
  memset(&none, 0, sizeof none);
  EXPECT(segcache_open(1000, 2, &cache, clients), SEGCACHE_OK);
  EXPECT(segcache_open(1000, 1, &another, &foreign), SEGCACHE_OK);
  EXPECT(put(&clients[0], "k", "v", 0), SEGCACHE_OK);
  EXPECT(segcache_note(&clients[0], &note), SEGCACHE_OK);
  EXPECT(segcache_note(&clients[1], &note), SEGCACHE_NO_HANDLE); /* in use */
  EXPECT(segcache_note(&clients[0], NULL), SEGCACHE_NO_HANDLE);
  EXPECT(segcache_learn(&foreign, &note), SEGCACHE_FOREIGN);
  EXPECT(segcache_learn(&none, &note), SEGCACHE_NO_HANDLE);
  EXPECT(segcache_learn(NULL, &note), SEGCACHE_NO_HANDLE);
  EXPECT(segcache_learn(&clients[1], &note), SEGCACHE_OK);
  CHECK(reads(&clients[1], "k", 0, "v"));
  EXPECT(segcache_learn(&clients[1], &note), SEGCACHE_NO_HANDLE);
  EXPECT(segcache_learn(&clients[1], &no_note), SEGCACHE_NO_HANDLE);
  EXPECT(segcache_learn(&clients[1], NULL), SEGCACHE_NO_HANDLE);
  EXPECT(segcache_note(&none, &note), SEGCACHE_NO_HANDLE);
  EXPECT(segcache_note(NULL, &note), SEGCACHE_NO_HANDLE);
  EXPECT(segcache_note_free(&note), SEGCACHE_NO_HANDLE);
  EXPECT(segcache_note_free(NULL), SEGCACHE_NO_HANDLE);
  EXPECT(segcache_note(&clients[0], &note), SEGCACHE_OK);
  EXPECT(segcache_learn(&clients[0], &note), SEGCACHE_OK); /* its own */
  test_memory_of_notes(&clients[0]);
  EXPECT(segcache_note(&foreign, &late), SEGCACHE_OK);
  EXPECT(segcache_give_back(&another, &foreign), SEGCACHE_OK);
  EXPECT(segcache_free(&another), SEGCACHE_OK);
  EXPECT(segcache_note_free(&late), SEGCACHE_OK); /* a note may outlive its cache */
  for (int i = 0; i < 2; i++) EXPECT(segcache_give_back(&cache, &clients[i]), SEGCACHE_OK);
  EXPECT(segcache_free(&cache), SEGCACHE_OK);
  CHECK(out == before);
  test_late_notes();
}
