// SPDX-License-Identifier: MIT
#include "words.h"
#include <string.h>

static const char base64[] = "ABCDEFGHIJKLMNOPQRSTUVWXYZabcdefghijklmnopqrstuvwxyz0123456789+/";

bool read_number(struct word word, uint64_t most, uint64_t *number) {
  uint64_t sum = 0;
  for (size_t i = 0; i < word.length; i++) {
    uint64_t digit = (uint64_t)(unsigned char)word.at[i] - '0';
    if (digit > 9 || digit > most || sum > (most - digit) / 10) return false;
    sum = sum * 10 + digit;
  }
  if (word.length == 0) return false;
  *number = sum;
  return true;
}

bool read_signed(struct word word, int64_t *number) {
  bool minus = word.length > 0 && *word.at == '-';
  struct word digits = {word.at + minus, word.length - minus};
  uint64_t size;
  if (!read_number(digits, INT64_MAX, &size)) return false;
  *number = minus ? -(int64_t)size : (int64_t)size;
  return true;
}

size_t write_number(char *to, uint64_t number) {
  size_t length = 1;
  for (uint64_t rest = number; rest >= 10; rest /= 10) length++;
  for (size_t i = length; i > 0; number /= 10) to[--i] = (char)('0' + number % 10);
  return length;
}

size_t decode_base64(struct word word, char *to) {
  size_t length = 0, padding = 0;
  if (word.length % 4 != 0) return 0;
  for (size_t at = 0; at < word.length; at += 4) {
    uint32_t bits = 0;
    for (size_t i = at; i < at + 4; i++) {
      const char *place = word.at[i] == '\0' ? NULL : strchr(base64, word.at[i]);
      if (place == NULL && (word.at[i] != '=' || i + 2 < word.length)) return 0;
      if (place != NULL && padding > 0) return 0;
      padding += place == NULL;
      bits = bits << 6 | (place == NULL ? 0 : (uint32_t)(place - base64));
    }
    to[length++] = (char)(bits >> 16);
    if (padding < 2) to[length++] = (char)(bits >> 8 & 0xff);
    if (padding < 1) to[length++] = (char)(bits & 0xff);
  }
  return length;
}
