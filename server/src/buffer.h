// SPDX-License-Identifier: MIT
/* Bytes that came on a connection, or are to be sent. */
#ifndef BUFFER_H
#define BUFFER_H

#include <stdbool.h>
#include <stddef.h>

/* Zeroed, it is empty and has no memory. */
struct buffer {
  char *at;
  size_t length, room;
  size_t done; /* so many bytes at the front are served or sent */
};

/* Makes room for so many bytes more. False if memory is refused; the buffer is then as it was. */
bool buffer_reserve(struct buffer *buffer, size_t more);

/* Appends bytes, for which there is room. */
void buffer_append(struct buffer *buffer, const char *bytes, size_t length);

/* Takes away what is done with. */
void buffer_drop_done(struct buffer *buffer);

/* Borrows the memory of a spare buffer, if there is one and the buffer has none. */
void buffer_borrow(struct buffer *buffer, struct buffer *spare);

/* Hands the memory of an empty buffer on as the spare one, or frees it. One that has bytes keeps its memory. */
void buffer_hand_back(struct buffer *buffer, struct buffer *spare);

void buffer_free(struct buffer *buffer);

#endif
