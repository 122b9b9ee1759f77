// SPDX-License-Identifier: MIT
/* A connection: what came on it, what is to be sent, and how its commands are told apart. */
#ifndef CONNECTION_H
#define CONNECTION_H

#include "server.h"
#include "words.h"

enum {
  MOST_WORDS = 24,             /* of a line that are looked at, but for the keys of a get */
  MOST_LINE = 8 * 1024,        /* bytes of a line whose end hasn't come; more end the connection */
  MOST_GET_LINE = 1024 * 1024, /* the same of a line that begins with get, gets, gat or gats */
  MOST_REPLY = 64 * 1024,      /* with so much unsent, no further command is served */
  MOST_ALL_KEYS = 250,         /* bytes of memcached's keys; those of the store may be shorter */
};

/* A get whose keys aren't all served: the input goes on with the others. */
struct getting {
  bool active, with_unique, touches;
  uint32_t expires; /* of a gat */
};

struct connection {
  int socket;
  struct worker *worker;
  bool closing;    /* after the replies are sent, the connection ends */
  bool ended;      /* the other side sends nothing more */
  bool waiting;    /* is in its worker's list of those with commands left over */
  bool turn_over;  /* others are to be served before the next command, or before the rest of this one */
  uint32_t events; /* what epoll waits for */
  uint32_t active; /* the second of its last event */
  struct buffer input, reply;
  size_t swallow;  /* bytes of a refused value that are still to come */
  size_t searched; /* so many bytes of what isn't served have no line's end */
  struct getting getting;
  uint32_t counted; /* of the stats that is being served: the clients of the store whose rows were counted */
  struct connection *before, *after; /* among all of its worker */
  struct connection *waiting_after, *handed_after;
};

/* The first words of a line, how many it has, and what has come behind it. */
struct request {
  struct word words[MOST_WORDS], data;
  size_t count, took; /* took: the bytes of the data that were the command's */
  bool quiet;         /* its last word is noreply */
};

/* A new connection of a worker. NULL if memory is refused. */
struct connection *connection_new(struct worker *worker, int socket);

/* Reads, serves and sends what it can. False once the connection has ended. */
bool connection_go_on(struct connection *connection, uint32_t events);

/* Closes the socket, and frees all. */
void connection_end(struct connection *connection);

/* Serves commands until none is whole, too much is unsent, so many were served, the turn is over or the server ends. How
 * many were served. */
uint32_t connection_serve(struct connection *connection, uint32_t most);

/* Makes room for a reply. If memory is refused, the connection ends, and nothing more is said on it. */
bool has_reply_room(struct connection *connection, size_t length);

/* Appends bytes to the replies, under the same rule. */
void reply_bytes(struct connection *connection, const char *bytes, size_t length);

/* Answers a line, if an answer is wanted. It is always true: the command has come whole. */
bool say(struct connection *connection, bool quiet, const char *text);

/* The same where a value of so many bytes follows that isn't taken. It is swallowed, so that the next
 * command is found. */
bool refuse(struct connection *connection, bool quiet, uint64_t length, const char *text);

/* The value of the command, if it has come whole: false, if it hasn't. If it doesn't end in a line's end,
 * `good` is false. */
bool take_data(struct request *request, uint64_t length, bool *good);

/* Serves the keys of a get, as far as the replies have room. How many bytes of them it took, up to the line's end. */
size_t serve_keys(struct connection *connection, const char *keys, size_t length);

/* Serve a whole line. False if its value has not come whole. A stats is a turn of its own, and may take several: then it is
 * false, and the line is to be served again in the next one. */
bool serve_command(struct connection *connection, struct request *request);
bool serve_meta(struct connection *connection, struct request *request);
bool serve_stats(struct connection *connection, const struct request *request);

/* A get, gets, gat or gats begins. `rest` is its line behind the verb, and then that behind the exptime.
 * False, and it is answered, if it is bad. */
bool begin_get(struct connection *connection, struct word verb, struct word *rest);

#define BAD_LINE "CLIENT_ERROR bad command line format"
#define BAD_TIME "CLIENT_ERROR invalid exptime argument"
#define TOO_LARGE "SERVER_ERROR object too large for cache"
#define NO_MEMORY "SERVER_ERROR out of memory storing object"
#define OVERTAKEN_TEXT "SERVER_ERROR busy: others write to this key"

#endif
