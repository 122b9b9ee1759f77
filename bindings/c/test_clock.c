// SPDX-License-Identifier: MIT
/* Tests of the clock: each call that is given one goes by it. */
#include "test.h"

/* Each call that reads, as a bit. */
enum { GET = 1, GETS = 2, GET_MANY = 4, GETS_MANY = 8, HOLD = 16, EACH = 31 };

/* Which of them find the key at this moment. */
static int readers(segcache_client *client, uint32_t now) {
  char value[SEGCACHE_MAX_VALUE];
  size_t length;
  uint32_t version;
  segcache_lookup plain = {.key_len = 1}, versioned = {.key_len = 1};
  int found = 0;
  if (segcache_get(client, "k", 1, now, value, sizeof value, &length) == SEGCACHE_OK) found |= GET;
  if (segcache_gets(client, "k", 1, now, value, sizeof value, &length, &version) == SEGCACHE_OK) found |= GETS;
  EXPECT(segcache_get_many(client, "k", 1, now, &plain, 1), SEGCACHE_OK);
  EXPECT(segcache_gets_many(client, "k", 1, now, &versioned, 1), SEGCACHE_OK);
  if (plain.status == SEGCACHE_OK) found |= GET_MANY;
  if (versioned.status == SEGCACHE_OK) found |= GETS_MANY;
  if (segcache_hold(client, "k", 1, now) == SEGCACHE_OK) found |= HOLD;
  if (found & HOLD) EXPECT(segcache_release(client), SEGCACHE_OK);
  return found;
}

/* A value can be read before 180, and from then on it is absent: for a read, and for a write that looks first. What is
 * written at 180 goes into a segment of its own. */
static void test_reads_and_writes(segcache_client *client) {
  char value[SEGCACHE_MAX_VALUE];
  size_t length;
  uint32_t version = 0;
  EXPECT(segcache_set(client, "k", 1, "v", 1, 105), SEGCACHE_OK);
  CHECK(readers(client, 105) == EACH);
  CHECK(readers(client, 179) == EACH);
  CHECK(readers(client, 180) == 0);
  CHECK(readers(client, 4294967294) == 0);
  EXPECT(segcache_gets(client, "k", 1, 109, value, sizeof value, &length, &version), SEGCACHE_OK);
  EXPECT(segcache_add(client, "k", 1, "w", 1, 109), SEGCACHE_NOT_STORED);
  EXPECT(segcache_make_room(client, 180), SEGCACHE_OK);
  EXPECT(segcache_replace(client, "k", 1, "w", 1, 180), SEGCACHE_NOT_STORED);
  EXPECT(segcache_cas(client, "k", 1, "w", 1, version, 180), SEGCACHE_NOT_FOUND);
  EXPECT(segcache_delete(client, "k", 1, 180), SEGCACHE_NOT_FOUND);
  EXPECT(segcache_cas(client, "k", 1, "w", 1, version, 109), SEGCACHE_OK);
  EXPECT(segcache_replace(client, "k", 1, "x", 1, 109), SEGCACHE_OK);
  CHECK(reads(client, "k", 109, "x"));
  EXPECT(segcache_delete(client, "k", 1, 109), SEGCACHE_OK);
  EXPECT(segcache_set(client, "k", 1, "v", 1, 109), SEGCACHE_OK);
  EXPECT(segcache_add(client, "k", 1, "w", 1, 180), SEGCACHE_OK); /* where the deadline of the key's segment has come */
  CHECK(reads(client, "k", 250, "w"));
}

/* What is stored lives for 80 at most, and for 70 at least. Where no segment has such a deadline, a write has no room,
 * and does nothing. */
static void test_late_writes(segcache_client *client) {
  EXPECT(segcache_make_room(client, 1000), SEGCACHE_OK); /* until 1080 */
  EXPECT(segcache_set(client, "late", 4, "v", 1, 1010), SEGCACHE_OK);
  EXPECT(segcache_set(client, "late", 4, "w", 1, 1011), SEGCACHE_NO_ROOM);
  EXPECT(segcache_add(client, "new", 3, "w", 1, 1011), SEGCACHE_NO_ROOM);
  EXPECT(segcache_replace(client, "late", 4, "w", 1, 1011), SEGCACHE_NO_ROOM);
  EXPECT(segcache_cas(client, "late", 4, "w", 1, 0, 1011), SEGCACHE_NO_ROOM);
  CHECK(reads(client, "late", 1079, "v"));
  CHECK(reads(client, "new", 1011, NULL));
  EXPECT(segcache_make_room(client, 1011), SEGCACHE_OK); /* until 1090 */
  EXPECT(segcache_add(client, "new", 3, "w", 1, 1011), SEGCACHE_OK);
  EXPECT(segcache_replace(client, "late", 4, "w", 1, 1011), SEGCACHE_OK);
  CHECK(reads(client, "new", 1089, "w"));
  CHECK(reads(client, "late", 1089, "w"));
  CHECK(reads(client, "new", 1090, NULL));
}

/* What is put lives for its time at most, and for seven eighths of it at least: here for 9 or 10. */
static void test_puts(segcache_client *client) {
  EXPECT(put(client, "k", "v", 109), SEGCACHE_OK);
  CHECK(readers(client, 117) == EACH);
  CHECK(readers(client, 119) == 0);
  EXPECT(put(client, "k", "w", 110), SEGCACHE_OK);
  CHECK(readers(client, 118) == EACH);
  CHECK(readers(client, 120) == 0);
}

/* Items of one client with several times to live, put by turns: each lives as its own time says. By turns it is the
 * put's own time, and the client's. */
static void test_several_times(segcache_client *client) {
  const struct {
    const char *key;
    uint32_t seconds;
  } kinds[] = {{"minutes", 300}, {"hours", 3600}, {"forever", UINT32_MAX}};
  for (uint32_t now = 1000; now < 1200; now += 50)
    for (int i = 0; i < 3; i++) {
      if (now % 100 == 0) EXPECT(segcache_set_time_to_live(client, kinds[i].seconds), SEGCACHE_OK);
      if (now % 100 == 0) EXPECT(put(client, kinds[i].key, "v", now), SEGCACHE_OK);
      else EXPECT(put_for(client, kinds[i].key, "v", kinds[i].seconds, now), SEGCACHE_OK);
    }
  CHECK(reads(client, "minutes", 1150 + 262, "v"));
  CHECK(reads(client, "minutes", 1150 + 300, NULL));
  CHECK(reads(client, "hours", 1150 + 3150, "v"));
  CHECK(reads(client, "hours", 1150 + 3600, NULL));
  CHECK(reads(client, "forever", 1150 + 3600, "v"));
  CHECK(reads(client, "forever", 4294967294, "v"));
}

/* A put for a time of its own leaves the client's time as it is. At 0 what is put is absent at once, and the value from
 * before is gone. */
static void test_own_time(segcache_client *client) {
  EXPECT(segcache_set_time_to_live(client, 80), SEGCACHE_OK);
  EXPECT(put_for(client, "short", "v", 8, 2000), SEGCACHE_OK);
  EXPECT(put(client, "long", "v", 2000), SEGCACHE_OK);
  CHECK(reads(client, "short", 2006, "v"));
  CHECK(reads(client, "short", 2008, NULL));
  CHECK(reads(client, "long", 2069, "v"));
  CHECK(reads(client, "long", 2080, NULL));
  EXPECT(put_for(client, "long", "w", 0, 2001), SEGCACHE_OK);
  CHECK(reads(client, "long", 2001, NULL));
  EXPECT(put_for(client, "k", "v", UINT32_MAX, 4294967294), SEGCACHE_OK);
  CHECK(readers(client, 4294967294) == EACH);
}

void test_clock(void) {
  segcache cache;
  segcache_client client;
  EXPECT(segcache_open(1000, 1, &cache, &client), SEGCACHE_OK); /* 16 rows in a segment */
  EXPECT(segcache_set_time_to_live(&client, 80), SEGCACHE_OK);
  EXPECT(segcache_make_room(&client, 100), SEGCACHE_OK); /* until 180 */
  test_reads_and_writes(&client);
  test_late_writes(&client);
  EXPECT(segcache_set_time_to_live(&client, 10), SEGCACHE_OK);
  test_puts(&client);
  test_several_times(&client);
  test_own_time(&client);
  EXPECT(segcache_give_back(&cache, &client), SEGCACHE_OK);
  EXPECT(segcache_free(&cache), SEGCACHE_OK);
}
