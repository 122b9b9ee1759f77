// SPDX-License-Identifier: MIT
/* The words of a line of the protocol, and the numbers and keys in them. */
#ifndef WORDS_H
#define WORDS_H

#include <stdbool.h>
#include <stddef.h>
#include <stdint.h>
#include <string.h>

/* Some bytes of somebody else's. They need not end with a NUL. */
struct word {
  const char *at;
  size_t length;
};

enum { DIGITS = 20 }; /* of the largest number of 64 bits */

/* The next word of a line, which then begins behind it. Words stand between spaces. One of no bytes says that there
 * is none. */
static inline struct word next_word(struct word *line) {
  const char *end = line->at + line->length, *begin = line->at;
  while (begin < end && *begin == ' ') begin++;
  const char *space = begin < end ? memchr(begin, ' ', (size_t)(end - begin)) : NULL;
  struct word word = {begin, (size_t)((space == NULL ? end : space) - begin)};
  line->at = begin + word.length;
  line->length = (size_t)(end - line->at);
  return word;
}

/* Here, so that it takes a few instructions where the text is written out: each command asks it of its words. */
static inline bool word_is(struct word word, const char *text) {
  return word.length == strlen(text) && memcmp(word.at, text, word.length) == 0;
}

/* A number of digits alone, `most` at most. False, and the number is unchanged, if the word is something else. */
bool read_number(struct word word, uint64_t most, uint64_t *number);

/* The same of a number that may have a sign, from -2^63 + 1 to 2^63 - 1. */
bool read_signed(struct word word, int64_t *number);

/* Writes a number in digits, DIGITS at most, without a NUL. How many there are. */
size_t write_number(char *to, uint64_t number);

/* Decodes base64 with its padding. `to` has room for 3 bytes for each 4 of the word. How many bytes it
 * has written, or 0 if the word is no base64, or that of no byte. */
size_t decode_base64(struct word word, char *to);

#endif
