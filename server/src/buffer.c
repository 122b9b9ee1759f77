// SPDX-License-Identifier: MIT
#include "buffer.h"
#include <stdlib.h>
#include <string.h>

enum {
  FIRST_ROOM = 16 * 1024, /* of a buffer, at first */
  KEPT_ROOM = 256 * 1024, /* a larger buffer isn't kept as a spare one */
};

bool buffer_reserve(struct buffer *buffer, size_t more) {
  if (buffer->at != NULL && buffer->room - buffer->length >= more) return true;
  size_t room = buffer->room == 0 ? FIRST_ROOM : buffer->room;
  while (room - buffer->length < more) room *= 2;
  char *at = realloc(buffer->at, room);
  if (at == NULL) return false;
  buffer->at = at;
  buffer->room = room;
  return true;
}

void buffer_append(struct buffer *buffer, const char *bytes, size_t length) {
  memcpy(buffer->at + buffer->length, bytes, length);
  buffer->length += length;
}

void buffer_drop_done(struct buffer *buffer) {
  buffer->length -= buffer->done;
  if (buffer->done > 0 && buffer->length > 0) memmove(buffer->at, buffer->at + buffer->done, buffer->length);
  buffer->done = 0;
}

void buffer_borrow(struct buffer *buffer, struct buffer *spare) {
  if (buffer->at != NULL) return;
  *buffer = *spare;
  *spare = (struct buffer){0};
}

void buffer_hand_back(struct buffer *buffer, struct buffer *spare) {
  if (buffer->length > 0 || buffer->at == NULL) return;
  if (spare->at == NULL && buffer->room <= KEPT_ROOM) *spare = *buffer;
  else free(buffer->at);
  *buffer = (struct buffer){0};
}

void buffer_free(struct buffer *buffer) {
  free(buffer->at);
  *buffer = (struct buffer){0};
}
