// SPDX-License-Identifier: MIT
/* The options of the command line, with memcached's names. */
#ifndef OPTIONS_H
#define OPTIONS_H

#include <stdbool.h>
#include <stdint.h>

#define SERVER_VERSION "1.6.0-segcache"

enum { ANY_PORT = -1, NO_PORT = 0 };

struct options {
  const char *addresses;   /* names or numbers, with commas between them */
  const char *socket_path; /* of a UNIX socket in place of the addresses, or NULL */
  uint32_t socket_mode;    /* its access bits */
  int32_t port;            /* or ANY_PORT or NO_PORT */
  uint32_t megabytes, threads, most_connections, backlog;
  uint32_t commands_a_turn; /* of one connection, before its worker looks at the others */
  uint32_t idle_seconds;    /* after which a connection is closed; 0: never */
  uint32_t most_item;       /* bytes of key, header and data */
  uint32_t verbosity;
  uint32_t keys;         /* that there is to be room for; 0: as many as the megabytes hold */
  uint32_t time_to_live; /* the most seconds that an item lives; 0: until it is evicted */
  uint32_t keep_from;    /* STORE_BY_QUEUES, or the frequency from which on items are kept */
  bool daemon, may_shut_down, no_flush, no_unique, lock_memory, core_files;
  const char *pid_file, *user;
  const char *protocol; /* as it was given: "auto-negotiate" or "ascii" */
};

/* Whether the process has root's rights, or can take them again: its real, effective or saved user is root. */
bool may_be_root(void);

enum reading { RUN, SHOWN /* what was asked for; the program ends well */, BAD };

/* Reads the options. What is bad is said on standard error, in one line, and so is what has no effect. */
enum reading options_read(struct options *options, int count, char **words);

/* The bytes of -m. */
uint64_t options_bytes(const struct options *options);

/* For how many keys there is room: by --keys, or about so many by -m, 2^32 - 1 at most. */
uint32_t options_keys(const struct options *options);

/* The data of an item is no longer than this, with a key of so many bytes. */
uint32_t options_most_data(const struct options *options, uint32_t key_length);

#endif
