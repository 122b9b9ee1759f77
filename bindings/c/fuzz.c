// SPDX-License-Identifier: MIT
/* Makes the calls that libFuzzer's bytes name, each beside a model of one thread, with right and wrong handles and
 * lengths. It aborts where an answer, a buffer or a count is another than the model's. */
#include "segcache.h"
#include <stdbool.h>
#include <stdio.h>
#include <stdlib.h>

enum { CLIENTS = 3, KEYS = 64, CALLS = 23, GUARD = 0xA5, FRAME = 8, LONGEST = SEGCACHE_MAX_VALUE + 8 };

#define REQUIRE(condition) ((condition) ? (void)0 : (fprintf(stderr, "%d: %s\n", __LINE__, #condition), abort()))

struct bytes {
  const uint8_t *at;
  size_t left;
};

/* What one key was stored with, if it is stored. After an eviction it may be gone. */
struct entry {
  bool stored;
  uint8_t value[SEGCACHE_MAX_VALUE];
  size_t length;
};

struct model {
  struct entry entries[KEYS];
  segcache cache;
  segcache_client clients[CLIENTS];
  segcache_note_t note;
  bool out[CLIENTS], expires;
  struct {
    bool is;
    uint8_t value[SEGCACHE_MAX_VALUE];
    size_t length;
  } held[CLIENTS];
  uint32_t now, version, version_key; /* of the last gets, if nothing was written since */
  bool has_version;
  uint64_t gone; /* keys that were evicted, by the counts of clients that were given back */
};

/* A buffer of which so many bytes may be written. */
struct buffer {
  uint8_t at[LONGEST + FRAME];
  size_t room;
};

static uint32_t draw(struct bytes *bytes, uint32_t below) {
  if (bytes->left == 0) return 0;
  bytes->left--;
  uint32_t drawn = *bytes->at++;
  return (below <= 256 ? drawn : drawn << 8 | draw(bytes, 256)) % below;
}

static struct buffer empty(size_t room) {
  struct buffer buffer = {.room = room};
  memset(buffer.at, GUARD, sizeof buffer.at);
  return buffer;
}

/* Whether nothing is written behind so many bytes. */
static bool is_clean(const struct buffer *buffer, size_t from) {
  for (size_t i = from; i < sizeof buffer->at; i++)
    if (buffer->at[i] != GUARD) return false;
  return true;
}

/* A key has a length of its number, so that short and long ones are among them. */
static size_t key_of(uint32_t number, uint8_t *key) {
  size_t length = 1 + number * (1 + SEGCACHE_MAX_KEY / KEYS) % SEGCACHE_MAX_KEY;
  memset(key, (int)number, length);
  return length;
}

static uint64_t evicted(struct model *model) {
  uint64_t sum = model->gone;
  for (int i = 0; i < CLIENTS; i++) {
    segcache_stats_t stats = {0};
    uint32_t status = segcache_stats(&model->clients[i], &stats);
    REQUIRE(status == (model->out[i] ? SEGCACHE_OK : SEGCACHE_NO_HANDLE));
    sum += stats.keys_evicted;
  }
  return sum;
}

/* What a read came to: the model's value, or a miss of a key that isn't stored, expired or was evicted. */
static void check_read(struct model *model, uint32_t number, uint32_t status, const struct buffer *value,
                       size_t length) {
  struct entry *entry = &model->entries[number];
  if (status == SEGCACHE_MISS) {
    REQUIRE(!entry->stored || model->expires || evicted(model) > 0);
    entry->stored = entry->stored && model->expires; /* what expired is listed until it is evicted */
    REQUIRE(is_clean(value, 0));
    return;
  }
  REQUIRE(entry->stored && length == entry->length);
  if (status == SEGCACHE_SHORT_BUFFER) {
    REQUIRE(length > value->room && is_clean(value, 0));
    return;
  }
  REQUIRE(status == SEGCACHE_OK && length <= value->room && is_clean(value, length));
  REQUIRE(memcmp(value->at, entry->value, length) == 0);
}

static void read_key(struct model *model, struct bytes *bytes, segcache_client *client, bool with_version) {
  uint8_t key[SEGCACHE_MAX_KEY];
  uint32_t number = draw(bytes, KEYS), version = 0, status;
  size_t length = 77, key_length = key_of(number, key);
  struct buffer value = empty(draw(bytes, LONGEST));
  if (with_version)
    status = segcache_gets(client, key, key_length, model->now, value.at, value.room, &length, &version);
  else status = segcache_get(client, key, key_length, model->now, value.at, value.room, &length);
  if (!client->raw.full) {
    REQUIRE(status == SEGCACHE_NO_HANDLE && is_clean(&value, 0));
    return;
  }
  check_read(model, number, status, &value, length);
  if (!with_version || status != SEGCACHE_OK) return;
  model->has_version = true, model->version = version, model->version_key = number;
}

/* Sixteen keys by one call, each read again by a call of its own. */
static void read_many(struct model *model, struct bytes *bytes, segcache_client *client) {
  uint8_t keys[16 * SEGCACHE_MAX_KEY];
  segcache_lookup lookups[16] = {{0}};
  size_t count = draw(bytes, 17), end = 0;
  uint32_t numbers[16];
  for (size_t i = 0; i < count; i++) {
    numbers[i] = draw(bytes, KEYS);
    lookups[i].key_at = end, lookups[i].key_len = key_of(numbers[i], keys + end);
    end += lookups[i].key_len;
  }
  uint32_t status = segcache_get_many(client, keys, end, model->now, lookups, count);
  if (!client->raw.full) {
    REQUIRE(status == SEGCACHE_NO_HANDLE);
    return;
  }
  for (size_t i = 0; i < count; i++) {
    struct buffer value = empty(SEGCACHE_MAX_VALUE);
    if (lookups[i].status == SEGCACHE_OK) memcpy(value.at, lookups[i].value, lookups[i].value_len);
    check_read(model, numbers[i], lookups[i].status, &value, lookups[i].value_len);
  }
}

/* Up to 17 keys into buffers, some of which are too short. */
static void read_many_into(struct model *model, struct bytes *bytes, segcache_client *client) {
  uint8_t keys[17][SEGCACHE_MAX_KEY];
  struct buffer values[17];
  segcache_lookup_into lookups[17];
  size_t count = draw(bytes, 18);
  uint32_t numbers[17];
  for (size_t i = 0; i < count; i++) {
    numbers[i] = draw(bytes, KEYS), values[i] = empty(draw(bytes, LONGEST));
    lookups[i] = (segcache_lookup_into){.key = keys[i], .key_len = key_of(numbers[i], keys[i])};
    lookups[i].value = values[i].at, lookups[i].room = values[i].room;
  }
  uint32_t status = segcache_get_many_into(client, lookups, count, model->now);
  REQUIRE(status == (client->raw.full ? SEGCACHE_OK : SEGCACHE_NO_HANDLE));
  for (size_t i = 0; i < count && status == SEGCACHE_OK; i++)
    check_read(model, numbers[i], lookups[i].status, &values[i], lookups[i].value_len);
}

static bool is_there(struct model *model, segcache_client *client, const uint8_t *key, size_t length) {
  struct buffer value = empty(SEGCACHE_MAX_VALUE);
  size_t value_length = 0;
  return segcache_get(client, key, length, model->now, value.at, value.room, &value_length) == SEGCACHE_OK;
}

/* put, set, add, replace, cas: also with lengths that can't be. */
static void write_key(struct model *model, struct bytes *bytes, segcache_client *client, uint32_t call) {
  static uint32_t (*const calls[])(segcache_client *, const void *, size_t, const void *, size_t,
                                   uint32_t) = {segcache_put, segcache_set, segcache_add, segcache_replace};
  uint8_t key[LONGEST] = {0}, value[LONGEST];
  uint32_t number = draw(bytes, KEYS);
  size_t key_length = key_of(number, key), length = draw(bytes, LONGEST);
  struct entry *entry = &model->entries[number];
  memset(value, (int)draw(bytes, 256), sizeof value);
  if (draw(bytes, 32) == 31) key_length = SEGCACHE_MAX_KEY + 1 + draw(bytes, 8);
  bool live = client->raw.full,
       there = live && key_length <= SEGCACHE_MAX_KEY && is_there(model, client, key, key_length);
  bool fresh = model->has_version && model->version_key == number;
  uint32_t status = call == 4 ? segcache_cas(client, key, key_length, value, length, model->version, model->now)
                              : calls[call](client, key, key_length, value, length, model->now);
  if (!live) {
    REQUIRE(status == SEGCACHE_NO_HANDLE);
    return;
  }
  if (key_length > SEGCACHE_MAX_KEY) {
    REQUIRE(status == SEGCACHE_BAD_KEY);
    return;
  }
  if (length > SEGCACHE_MAX_VALUE) {
    REQUIRE(status == SEGCACHE_BAD_VALUE);
    return;
  }
  REQUIRE(status == SEGCACHE_OK || status == SEGCACHE_NO_ROOM || status == SEGCACHE_BUCKET_FULL ||
          (call == 2 && there && status == SEGCACHE_NOT_STORED) ||
          (call == 3 && !there && status == SEGCACHE_NOT_STORED) ||
          (call == 4 && there && !fresh && status == SEGCACHE_EXISTS) ||
          (call == 4 && !there && status == SEGCACHE_NOT_FOUND));
  if (status != SEGCACHE_OK) return;
  REQUIRE(!(call == 2 && there) && !(call >= 3 && !there));
  entry->stored = true, entry->length = length, model->has_version = false;
  memcpy(entry->value, value, length);
}

static void delete_key(struct model *model, struct bytes *bytes, segcache_client *client) {
  uint8_t key[SEGCACHE_MAX_KEY];
  uint32_t number = draw(bytes, KEYS);
  size_t length = key_of(number, key);
  bool there = client->raw.full && is_there(model, client, key, length);
  uint32_t status = segcache_delete(client, key, length, model->now);
  if (!client->raw.full) {
    REQUIRE(status == SEGCACHE_NO_HANDLE);
    return;
  }
  REQUIRE(status == (there ? SEGCACHE_OK : SEGCACHE_NOT_FOUND));
  if (there) model->entries[number].stored = false, model->has_version = false;
}

static void hold(struct model *model, struct bytes *bytes, uint32_t which) {
  segcache_client *client = &model->clients[which];
  uint8_t key[SEGCACHE_MAX_KEY];
  uint32_t number = draw(bytes, KEYS);
  struct entry *entry = &model->entries[number];
  uint32_t status = segcache_hold(client, key, key_of(number, key), model->now);
  if (!client->raw.full) {
    REQUIRE(status == SEGCACHE_NO_HANDLE);
    return;
  }
  if (model->held[which].is) {
    REQUIRE(status == SEGCACHE_ALREADY_HOLDING);
    return;
  }
  if (status != SEGCACHE_OK) {
    REQUIRE(status == SEGCACHE_MISS);
    return;
  }
  REQUIRE(entry->stored);
  model->held[which].is = true, model->held[which].length = entry->length;
  memcpy(model->held[which].value, entry->value, entry->length);
}

static void read_held(struct model *model, struct bytes *bytes, uint32_t which) {
  segcache_client *client = &model->clients[which];
  struct buffer value = empty(draw(bytes, LONGEST));
  size_t length = 0;
  uint32_t status = segcache_held_value(client, value.at, value.room, &length);
  if (!client->raw.full) {
    REQUIRE(status == SEGCACHE_NO_HANDLE);
    return;
  }
  if (!model->held[which].is) {
    REQUIRE(status == SEGCACHE_NOT_HOLDING);
    return;
  }
  REQUIRE(length == model->held[which].length);
  REQUIRE(status == (length > value.room ? SEGCACHE_SHORT_BUFFER : SEGCACHE_OK));
  REQUIRE(is_clean(&value, status == SEGCACHE_OK ? length : 0));
  if (status == SEGCACHE_OK) REQUIRE(memcmp(value.at, model->held[which].value, length) == 0);
}

static void pass_note(struct model *model, segcache_client *client, uint32_t call) {
  bool full = model->note.raw.full;
  uint32_t status = call == 0   ? segcache_note(client, &model->note)
                    : call == 1 ? segcache_learn(client, &model->note)
                                : segcache_note_free(&model->note);
  bool may = call == 0 ? client->raw.full && !full : call == 1 ? client->raw.full && full : full;
  REQUIRE(status == (may ? SEGCACHE_OK : SEGCACHE_NO_HANDLE));
  REQUIRE(model->note.raw.full == (may ? call == 0 : full));
}

static void give_back(struct model *model, uint32_t which) {
  segcache_client *client = &model->clients[which];
  segcache_stats_t stats = {0};
  segcache_stats(client, &stats);
  REQUIRE(segcache_give_back(&model->cache, client) == (model->out[which] ? SEGCACHE_OK : SEGCACHE_NO_HANDLE));
  model->gone += stats.keys_evicted, model->out[which] = false, model->held[which].is = false;
}

static void make_call(struct model *model, struct bytes *bytes) {
  uint32_t call = draw(bytes, CALLS), which = draw(bytes, CLIENTS);
  segcache_client *client = &model->clients[which];
  bool live = client->raw.full;
  switch (call) {
  case 0:
  case 1: read_key(model, bytes, client, call == 1); break;
  case 2: read_many(model, bytes, client); break;
  case 3:
  case 4:
  case 5:
  case 6:
  case 7: write_key(model, bytes, client, call - 3); break;
  case 8:
  case 9:
  case 10: write_key(model, bytes, client, 0); break;
  case 11: delete_key(model, bytes, client); break;
  case 12: hold(model, bytes, which); break;
  case 13: read_held(model, bytes, which); break;
  case 14:
    REQUIRE(segcache_release(client) == (!live                   ? SEGCACHE_NO_HANDLE
                                         : model->held[which].is ? SEGCACHE_OK
                                                                 : SEGCACHE_NOT_HOLDING));
    model->held[which].is = false;
    break;
  case 15:
  case 16:
  case 17: pass_note(model, client, call - 15); break;
  case 18: model->now += draw(bytes, 8); break;
  case 19:
    if (draw(bytes, 8) != 0) break;
    REQUIRE(segcache_set_time_to_live(client, 1 + draw(bytes, 32)) == (live ? SEGCACHE_OK : SEGCACHE_NO_HANDLE));
    model->expires = model->expires || live;
    break;
  case 20:
    if (draw(bytes, 4) == 0)
      REQUIRE(segcache_keep_from(client, draw(bytes, 6)) == (live ? SEGCACHE_OK : SEGCACHE_NO_HANDLE));
    else {
      uint32_t status = segcache_make_room(client, model->now);
      REQUIRE(live ? status == SEGCACHE_OK || status == SEGCACHE_NO_ROOM : status == SEGCACHE_NO_HANDLE);
    }
    break;
  case 21: read_many_into(model, bytes, client); break;
  default:
    if (draw(bytes, 16) == 0) give_back(model, which);
  }
}

/* The content of the cache after its close: each pair as the model has it, and all of them but the evicted. */
static void check_content(struct model *model) {
  segcache_cursor cursor = {{0}};
  size_t key_length, length, listed = 0, stored = 0;
  uint8_t key[SEGCACHE_MAX_KEY], last[SEGCACHE_MAX_KEY] = {0}, value[SEGCACHE_MAX_VALUE], wanted[SEGCACHE_MAX_KEY];
  uint64_t gone = evicted(model);
  REQUIRE(segcache_close(&model->cache, &cursor) == SEGCACHE_OK);
  while (segcache_next(&cursor, key, &key_length, value, &length) == SEGCACHE_OK) {
    REQUIRE(key[0] < KEYS && key_of(key[0], wanted) == key_length && memcmp(key, wanted, key_length) == 0);
    const struct entry *entry = &model->entries[key[0]];
    REQUIRE(entry->stored && entry->length == length && memcmp(entry->value, value, length) == 0);
    REQUIRE(listed == 0 || memcmp(last, key, 1) < 0);
    memcpy(last, key, key_length), listed++;
  }
  for (int i = 0; i < KEYS; i++) stored += model->entries[i].stored;
  REQUIRE(listed <= stored && stored - listed <= gone);
  REQUIRE(segcache_cursor_free(&cursor) == SEGCACHE_OK && segcache_cursor_free(&cursor) == SEGCACHE_NO_HANDLE);
}

int LLVMFuzzerTestOneInput(const uint8_t *data, size_t size) {
  struct bytes bytes = {data, size};
  struct model model = {0};
  segcache_shape shape = {.buckets = 1u << draw(&bytes, 4),
                          .overflow = draw(&bytes, 4),
                          .passes = CLIENTS,
                          .segments_each = 1 + draw(&bytes, 12),
                          .rows = 1 + draw(&bytes, SEGCACHE_MAX_VALUE > 32 ? 80 : 5),
                          .first_version = draw(&bytes, 2) ? UINT32_MAX >> 8 : 0};
  uint32_t status = segcache_open_shape(&shape, &model.cache, model.clients);
  if (status != SEGCACHE_OK) {
    REQUIRE(status == SEGCACHE_BAD_SHAPE && !model.cache.raw.full);
    return 0;
  }
  memset(model.out, true, sizeof model.out);
  while (bytes.left > 0) make_call(&model, &bytes);
  bool any = model.out[0] || model.out[1] || model.out[2];
  if (any) REQUIRE(segcache_free(&model.cache) == SEGCACHE_CLIENT_OUT);
  for (uint32_t i = 0; i < CLIENTS; i++)
    if (model.out[i]) give_back(&model, i);
  check_content(&model);
  if (model.note.raw.full) REQUIRE(segcache_note_free(&model.note) == SEGCACHE_OK);
  return 0;
}
