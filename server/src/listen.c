// SPDX-License-Identifier: MIT
#include "listen.h"
#include <errno.h>
#include <fcntl.h>
#include <inttypes.h>
#include <netdb.h>
#include <netinet/in.h>
#include <poll.h>
#include <signal.h>
#include <stdio.h>
#include <stdlib.h>
#include <string.h>
#include <sys/signalfd.h>
#include <sys/socket.h>
#include <sys/stat.h>
#include <sys/un.h>
#include <unistd.h>

enum { MOST_LISTENERS = sizeof((struct server *)NULL)->listeners / sizeof(int), PAUSE_MS = 10 };

static const char too_many[] = "ERROR Too many open connections\r\n";

static bool fault(const char *what, const char *why) {
  fprintf(stderr, "segcache-server: to listen, %s: %s\n", what, why);
  return false;
}

/* The same of an address that the system refuses, with its port. Both families have it at one place. */
static bool fault_at(const char *what, const struct sockaddr *address) {
  char place[512];
  unsigned port =
      address->sa_family == AF_UNIX ? 0 : ntohs(((const struct sockaddr_in *)(const void *)address)->sin_port);
  const char *why = strerror(errno);
  if (port == 0) return fault(what, why);
  snprintf(place, sizeof place, "%s, port %u", what, port);
  return fault(place, why);
}

/* Takes a socket among the listeners once it is bound. */
static bool listen_at(struct server *server, int socket, const struct sockaddr *address, socklen_t length,
                      const char *what) {
  if (server->listener_count == MOST_LISTENERS) return close(socket), fault(what, "too many addresses");
  if (bind(socket, address, length) != 0 || listen(socket, (int)server->options.backlog) != 0)
    return fault_at(what, address), close(socket), false;
  server->listeners[server->listener_count++] = socket;
  return true;
}

/* The port that the first listener has, for the others, if any free one will do. */
static in_port_t port_of(const struct server *server) {
  struct sockaddr_in6 address;
  socklen_t length = sizeof address;
  if (server->options.port != ANY_PORT) return htons((uint16_t)server->options.port);
  if (server->listener_count == 0) return 0;
  bool known = getsockname(server->listeners[0], (struct sockaddr *)&address, &length) == 0;
  return known ? address.sin6_port : 0; /* it stands where that of an IPv4 address does */
}

/* Cuts a port off that stands behind an address, and the brackets of one of IPv6. A port without them is one only if no
 * other colon stands there. False if it is no number of a port. */
static bool cut_port(char **name, in_port_t *port) {
  char *closing = **name == '[' ? strchr(*name, ']') : NULL;
  char *colon = strchr(closing != NULL ? closing : *name, ':');
  uint64_t number;
  if (closing != NULL) *closing = '\0', ++*name;
  if (colon == NULL || (closing == NULL && strchr(colon + 1, ':') != NULL)) return true;
  *colon++ = '\0';
  if (!read_number((struct word){colon, strlen(colon)}, UINT16_MAX, &number) || number == 0) return false;
  *port = htons((uint16_t)number);
  return true;
}

/* Listens at HOST, HOST:PORT, [HOST] or [HOST]:PORT, where a host is a name or an address, or `*` for all of them. */
static bool listen_name(struct server *server, char *name) {
  struct addrinfo wanted = {.ai_socktype = SOCK_STREAM, .ai_flags = AI_PASSIVE}, *found = NULL;
  in_port_t given = 0;
  if (!cut_port(&name, &given)) return fault(name, "a port is a number from 1 to 65535");
  int status = getaddrinfo(strcmp(name, "*") == 0 ? NULL : name, "0", &wanted, &found);
  if (status != 0) return fault(name, gai_strerror(status));
  bool listens = true;
  for (struct addrinfo *it = found; it != NULL && listens; it = it->ai_next) {
    if (it->ai_family != AF_INET && it->ai_family != AF_INET6) continue;
    int made = socket(it->ai_family, SOCK_STREAM | SOCK_NONBLOCK | SOCK_CLOEXEC, 0);
    if (made < 0) continue; /* a machine without IPv6 */
    in_port_t port = given != 0 ? given : port_of(server);
    setsockopt(made, SOL_SOCKET, SO_REUSEADDR, &(int){1}, sizeof(int));
    if (it->ai_family == AF_INET6) setsockopt(made, IPPROTO_IPV6, IPV6_V6ONLY, &(int){1}, sizeof(int));
    if (it->ai_family == AF_INET) ((struct sockaddr_in *)(void *)it->ai_addr)->sin_port = port;
    else ((struct sockaddr_in6 *)(void *)it->ai_addr)->sin6_port = port;
    listens = listen_at(server, made, it->ai_addr, it->ai_addrlen, name);
  }
  freeaddrinfo(found);
  return listens;
}

static bool listen_names(struct server *server) {
  char *names = strdup(server->options.addresses), *rest = names;
  bool listens = names != NULL;
  for (char *name; listens && (name = strsep(&rest, ",;")) != NULL;)
    listens = *name == '\0' || listen_name(server, name);
  free(names);
  return listens && (server->listener_count > 0 || fault(server->options.addresses, "no address"));
}

/* A file that was left behind by a server that is gone is taken away. Any other is left alone. */
static bool listen_file(struct server *server) {
  const char *path = server->options.socket_path;
  struct sockaddr_un address = {.sun_family = AF_UNIX};
  struct stat file;
  if (strlen(path) >= sizeof address.sun_path) return fault(path, "the name is too long");
  strcpy(address.sun_path, path);
  int made = socket(AF_UNIX, SOCK_STREAM | SOCK_NONBLOCK | SOCK_CLOEXEC, 0);
  if (made < 0) return fault(path, strerror(errno));
  if (lstat(path, &file) == 0) {
    bool in_use = !S_ISSOCK(file.st_mode) || connect(made, (struct sockaddr *)&address, sizeof address) == 0 ||
                  errno != ECONNREFUSED; /* as where a living server is behind with its connections */
    if (in_use || unlink(path) != 0) return close(made), fault(path, "the file is there and isn't a socket left over");
  }
  mode_t before = umask((mode_t)~server->options.socket_mode & 0777);
  bool listens = listen_at(server, made, (struct sockaddr *)&address, sizeof address, path);
  umask(before);
  return listens;
}

bool listen_open(struct server *server) {
  server->spare_descriptor = open("/dev/null", O_RDONLY | O_CLOEXEC);
  return server->options.socket_path != NULL ? listen_file(server) : listen_names(server);
}

void listen_places(const struct server *server, char *text, size_t room) {
  *text = '\0';
  if (server->options.socket_path != NULL) snprintf(text, room, "%s", server->options.socket_path);
  for (uint32_t i = 0; i < server->listener_count && server->options.socket_path == NULL; i++) {
    struct sockaddr_in6 address;
    socklen_t length = sizeof address;
    char host[64], port[8];
    size_t used = strlen(text);
    if (getsockname(server->listeners[i], (struct sockaddr *)&address, &length) == 0 &&
        getnameinfo((struct sockaddr *)&address, length, host, sizeof host, port, sizeof port,
                    NI_NUMERICHOST | NI_NUMERICSERV) == 0)
      snprintf(text + used, room - used, address.sin6_family == AF_INET ? "%s%s:%s" : "%s[%s]:%s", i > 0 ? ", " : "",
               host, port);
  }
}

bool listen_tell_ports(const struct server *server) {
  const char *path = getenv("MEMCACHED_PORT_FILENAME");
  char beside[4096];
  if (path == NULL || server->options.socket_path != NULL) return true;
  if (snprintf(beside, sizeof beside, "%s.new", path) >= (int)sizeof beside) return fault(path, "the name is too long");
  FILE *file = fopen(beside, "we");
  if (file == NULL) return fault(beside, strerror(errno));
  for (uint32_t i = 0; i < server->listener_count; i++) {
    struct sockaddr_in6 address;
    socklen_t length = sizeof address;
    if (getsockname(server->listeners[i], (struct sockaddr *)&address, &length) == 0)
      fprintf(file, "TCP %s: %u\n", address.sin6_family == AF_INET ? "INET" : "INET6", ntohs(address.sin6_port));
  }
  return (fclose(file) == 0 && rename(beside, path) == 0) || fault(path, strerror(errno));
}

/* Closes a connection that is one too many, with a line that says so. */
static void turn_away(struct server *server, int socket) {
  uint64_t before = atomic_fetch_add(&server->rejected, 1);
  if (server->verbosity > 0)
    fprintf(stderr, "segcache-server: too many connections: %" PRIu64 " refused\n", before + 1);
  ssize_t ignored = send(socket, too_many, sizeof too_many - 1, MSG_NOSIGNAL | MSG_DONTWAIT);
  (void)ignored;
  close(socket);
}

/* Where no descriptor is left, the spare one is given up for a moment, so that who comes is told. */
static void turn_away_without_descriptor(struct server *server, int listener) {
  if (server->spare_descriptor >= 0) close(server->spare_descriptor);
  int socket = accept4(listener, NULL, NULL, SOCK_NONBLOCK | SOCK_CLOEXEC);
  if (socket >= 0) turn_away(server, socket);
  server->spare_descriptor = open("/dev/null", O_RDONLY | O_CLOEXEC);
  if (server->spare_descriptor < 0) poll(NULL, 0, PAUSE_MS);
}

static void accept_one(struct server *server, int listener, uint32_t *turn) {
  int socket = accept4(listener, NULL, NULL, SOCK_NONBLOCK | SOCK_CLOEXEC);
  if (socket < 0) {
    if (errno == EMFILE || errno == ENFILE) turn_away_without_descriptor(server, listener);
    return;
  }
  atomic_fetch_add(&server->accepted, 1);
  if (server->connections >= server->options.most_connections) {
    turn_away(server, socket);
    return;
  }
  if (server->verbosity > 1) fprintf(stderr, "<%d new client connection\n", socket);
  worker_hand_over(&server->workers[(*turn)++ % server->options.threads], socket);
}

/* Whether the signal that came ends the server. SIGUSR1 has the counts written. */
static bool ends_it(struct server *server, int signals) {
  struct signalfd_siginfo signal;
  if (read(signals, &signal, sizeof signal) != sizeof signal) return false;
  if (signal.ssi_signo == SIGUSR1) return log_stats(server), false;
  if (server->verbosity > 0) fprintf(stderr, "segcache-server: ends: %s\n", strsignal((int)signal.ssi_signo));
  return true;
}

void listen_accept(struct server *server, int signals) {
  struct pollfd waits[MOST_LISTENERS + 1] = {{.fd = signals, .events = POLLIN}};
  for (uint32_t i = 0; i < server->listener_count; i++)
    waits[i + 1] = (struct pollfd){.fd = server->listeners[i], .events = POLLIN};
  for (uint32_t turn = 0;;) {
    if (poll(waits, server->listener_count + 1, -1) < 0) continue;
    if (waits[0].revents != 0 && ends_it(server, signals)) return;
    for (uint32_t i = 0; i < server->listener_count; i++)
      if (waits[i + 1].revents != 0) accept_one(server, server->listeners[i], &turn);
  }
}

void listen_close(struct server *server) {
  for (uint32_t i = 0; i < server->listener_count; i++) close(server->listeners[i]);
  if (server->spare_descriptor >= 0) close(server->spare_descriptor);
  if (server->listener_count > 0 && server->options.socket_path != NULL) unlink(server->options.socket_path);
}
