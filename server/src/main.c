// SPDX-License-Identifier: MIT
/* A cache server that takes memcached's place. README.md says what it serves. */
#include "clock.h"
#include "listen.h"
#include <errno.h>
#include <fcntl.h>
#include <grp.h>
#include <linux/capability.h>
#include <pwd.h>
#include <signal.h>
#include <stdio.h>
#include <stdlib.h>
#include <string.h>
#include <sys/mman.h>
#include <sys/prctl.h>
#include <sys/resource.h>
#include <sys/signalfd.h>
#include <sys/syscall.h>
#include <unistd.h>

enum { OTHER_DESCRIPTORS = 300 }; /* those of workers, listeners and the library */

static bool fault(const char *what, const char *why) {
  fprintf(stderr, "segcache-server: %s: %s\n", what, why);
  return false;
}

/* Asks for as many descriptors as the connections need. Without them those that are too many are turned away. */
static void raise_descriptors(const struct options *options) {
  struct rlimit limit;
  rlim_t wanted = (rlim_t)options->most_connections + OTHER_DESCRIPTORS;
  if (getrlimit(RLIMIT_NOFILE, &limit) != 0 || limit.rlim_cur >= wanted) return;
  limit.rlim_cur = limit.rlim_max < wanted ? limit.rlim_max : wanted;
  if (setrlimit(RLIMIT_NOFILE, &limit) != 0 || limit.rlim_cur < wanted)
    fprintf(stderr, "segcache-server: -c %u: only %llu descriptors may be had\n", options->most_connections,
            (unsigned long long)limit.rlim_cur);
}

/* Raises a limit as far as may be, and returns it. */
static rlim_t raise_limit(__rlimit_resource_t which) {
  struct rlimit limit = {RLIM_INFINITY, RLIM_INFINITY};
  if (setrlimit(which, &limit) == 0) return RLIM_INFINITY;
  if (getrlimit(which, &limit) != 0) return 0;
  limit.rlim_cur = limit.rlim_max;
  return setrlimit(which, &limit) == 0 ? limit.rlim_max : 0;
}

/* -k and -r, as far as root can do it: before its rights are given up. */
static bool raise_limits(const struct options *options) {
  if (options->lock_memory) raise_limit(RLIMIT_MEMLOCK);
  return !options->core_files || raise_limit(RLIMIT_CORE) > 0 || fault("-r", "the limit of core files is 0");
}

/* Locks in memory what the process has, and what it gets, unless a limit would refuse that. A fork loses it. */
static void lock_memory(void) {
  struct rlimit limit = {0};
  getrlimit(RLIMIT_MEMLOCK, &limit);
  int later = limit.rlim_cur == RLIM_INFINITY ? MCL_FUTURE | MCL_ONFAULT : 0;
  if (mlockall(MCL_CURRENT | later) != 0) fault("-k: memory can't be locked", strerror(errno));
}

/* Gives all capabilities up, and takes none from a program that this one would run. */
static bool give_up_capabilities(void) {
  struct __user_cap_header_struct head = {.version = _LINUX_CAPABILITY_VERSION_3};
  struct __user_cap_data_struct none[_LINUX_CAPABILITY_U32S_3] = {{0}};
  if (syscall(SYS_capset, &head, none) == 0 && prctl(PR_SET_NO_NEW_PRIVS, 1, 0, 0, 0) == 0) return true;
  return fault("capabilities can't be given up", strerror(errno));
}

/* Takes the rights of another user, if root is to give its own up. No capability is left, whoever starts it. */
static bool become_user(const char *name) {
  if (name == NULL || !may_be_root()) return give_up_capabilities();
  const struct passwd *user = getpwnam(name);
  if (user == NULL) return fault(name, "there is no such user");
  if (seteuid(0) != 0 || setgroups(0, NULL) != 0 || setgid(user->pw_gid) != 0 || setuid(user->pw_uid) != 0)
    return fault(name, strerror(errno));
  return give_up_capabilities();
}

/* Goes on in the background. The parent waits until the server serves, and then ends well; or badly if it never does,
 * which is said where the parent was started. `told` is then what serves_now tells it by. */
static bool become_daemon(int *told) {
  char byte;
  int ends[2];
  if (pipe2(ends, O_CLOEXEC) != 0) return fault("-d", strerror(errno));
  pid_t child = fork();
  if (child < 0) return fault("-d", strerror(errno));
  close(ends[child > 0]);
  if (child > 0) _exit(read(ends[0], &byte, 1) == 1 ? 0 : 1);
  *told = ends[1];
  return setsid() >= 0 || fault("-d", strerror(errno));
}

/* The server serves from now on. One in the background leaves input and outputs, but for the log that -v asks for, and
 * lets its parent end. */
static bool serves_now(const struct server *server, int told) {
  if (told < 0) return true;
  int null = open("/dev/null", O_RDWR | O_CLOEXEC);
  if (null < 0) return fault("-d", strerror(errno));
  for (int i = 0; i < (server->verbosity > 0 ? 2 : 3); i++) dup2(null, i);
  bool heard = write(told, "", 1) == 1; /* else the parent was killed, which is nothing to the server */
  (void)heard;
  close(null);
  return close(told) == 0;
}

/* Input and outputs that were closed are /dev/null, so that no socket gets their numbers. */
static void keep_outputs(void) {
  int null;
  while ((null = open("/dev/null", O_RDWR)) >= 0 && null <= 2) continue;
  if (null > 2) close(null);
}

static bool write_pid(const char *path) {
  if (path == NULL) return true;
  FILE *file = fopen(path, "we");
  if (file == NULL) return fault(path, strerror(errno));
  fprintf(file, "%ld\n", (long)getpid());
  return fclose(file) == 0 || fault(path, strerror(errno));
}

/* SIGINT and SIGTERM end the server, and SIGUSR1 has its counts written. SIGPIPE comes of a reply to who is gone. By SIGHUP memcached reads files
 * again that this server hasn't. */
static int catch_signals(void) {
  sigset_t taken;
  sigemptyset(&taken);
  sigaddset(&taken, SIGINT);
  sigaddset(&taken, SIGTERM);
  sigaddset(&taken, SIGUSR1);
  signal(SIGPIPE, SIG_IGN);
  signal(SIGHUP, SIG_IGN);
  pthread_sigmask(SIG_BLOCK, &taken, NULL);
  return signalfd(-1, &taken, SFD_CLOEXEC);
}

/* A file is made by the user, who can take it away again. A port below 1024 takes root. Who changed its user writes a
 * core file only if it asks for that. */
static bool listen_and_become_user(struct server *server) {
  const struct options *options = &server->options;
  bool is_user = options->socket_path != NULL ? become_user(options->user) && listen_open(server)
                                              : listen_open(server) && become_user(options->user);
  if (!is_user || !options->core_files || prctl(PR_SET_DUMPABLE, 1, 0, 0, 0) == 0) return is_user;
  return fault("-r", strerror(errno));
}

/* Opens the cache, and returns how many bytes of data ever have room in it, of those that the options allow. */
static bool open_store(struct server *server, uint32_t *longest) {
  const struct options *options = &server->options;
  struct store_plan plan = {options->keys > 0 ? 0 : options_bytes(options), options_keys(options), options->threads,
                            options->time_to_live, options->keep_from};
  const char *why = store_open(&server->store, &plan);
  if (why != NULL) return fault("the cache can't be opened", why);
  uint32_t value = plan.bytes > 0 ? store_longest(&plan) : STORE_MOST_VALUE;
  *longest = options_most_data(options, 0);
  if (value < HEADER + *longest) {
    *longest = value < HEADER ? 0 : value - HEADER;
    fprintf(stderr, "segcache-server: -m %u with -t %u: no item of more than about %u bytes has room\n",
            options->megabytes, options->threads, *longest);
  }
  for (uint32_t i = 0; i < options->threads; i++) server->workers[i].client = &server->store.clients[i];
  return true;
}

/* Says in a line what is served from now on. */
static void tell_start(const struct server *server, uint32_t longest) {
  const struct options *options = &server->options;
  char places[1024], room[32];
  listen_places(server, places, sizeof places);
  snprintf(room, sizeof room, options->keys > 0 ? "room for %u keys" : "%u MiB",
           options->keys > 0 ? options->keys : options->megabytes);
  fprintf(stderr, "segcache-server: serves %s: threads %u, %s, data of %u bytes at most\n", places, options->threads,
          room, longest);
}

/* Serves until a signal comes. */
static bool run(struct server *server, uint32_t longest, int signals, int told) {
  if (server->options.lock_memory) lock_memory();
  uint32_t started = 0, threads = server->options.threads;
  while (started < threads && worker_start(server, &server->workers[started])) started++;
  bool serves = started == threads || fault("a thread can't be had", strerror(errno));
  if (serves) tell_start(server, longest);
  serves = serves && serves_now(server, told);
  if (serves) listen_accept(server, signals);
  server->ends = true;
  for (uint32_t i = 0; i < started; i++) worker_stop(&server->workers[i]);
  return serves;
}

int main(int count, char **words) {
  static struct server server = {.reset_lock = PTHREAD_MUTEX_INITIALIZER};
  static struct worker workers[STORE_MOST_CLIENTS];
  keep_outputs();
  uint32_t longest = 0;
  enum reading reading = options_read(&server.options, count, words);
  if (reading != RUN) return reading == SHOWN ? 0 : 64;
  server.workers = workers;
  server.verbosity = server.options.verbosity;
  clock_begin();
  raise_descriptors(&server.options);
  bool ran = raise_limits(&server.options) && listen_and_become_user(&server) && open_store(&server, &longest);
  if (!ran) return listen_close(&server), 71;
  int signals = -1, told = -1;
  ran = (!server.options.daemon || become_daemon(&told)) && write_pid(server.options.pid_file) &&
        (signals = catch_signals()) >= 0 && listen_tell_ports(&server) && run(&server, longest, signals, told);
  listen_close(&server);
  if (server.options.pid_file != NULL) unlink(server.options.pid_file);
  return store_close(&server.store) && ran ? 0 : 1;
}
