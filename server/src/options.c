// SPDX-License-Identifier: MIT
#include "options.h"
#include "items.h"
#include "words.h"
#include <getopt.h>
#include <limits.h>
#include <stdio.h>
#include <stdlib.h>
#include <string.h>
#include <unistd.h>

enum { USUAL_ITEM = 1024 * 1024 };                                    /* bytes, without -I */
enum { KEYS = UCHAR_MAX + 1, TIME_TO_LIVE, KEEP_FROM, IDLE_TIMEOUT }; /* options without a letter */

static const char letters[] = ":p:s:a:l:dP:u:m:c:t:b:R:I:B:U:o:hViv" /* memcached's, which it has, too */
                              "ACFkrWXLf:n:D:N:MSZY:e:";

static const struct option names[] = {
    {"port", required_argument, NULL, 'p'},
    {"unix-socket", required_argument, NULL, 's'},
    {"unix-mask", required_argument, NULL, 'a'},
    {"listen", required_argument, NULL, 'l'},
    {"daemon", no_argument, NULL, 'd'},
    {"pidfile", required_argument, NULL, 'P'},
    {"user", required_argument, NULL, 'u'},
    {"memory-limit", required_argument, NULL, 'm'},
    {"conn-limit", required_argument, NULL, 'c'},
    {"threads", required_argument, NULL, 't'},
    {"listen-backlog", required_argument, NULL, 'b'},
    {"max-reqs-per-event", required_argument, NULL, 'R'},
    {"max-item-size", required_argument, NULL, 'I'},
    {"protocol", required_argument, NULL, 'B'},
    {"udp-port", required_argument, NULL, 'U'},
    {"extended", required_argument, NULL, 'o'},
    {"help", no_argument, NULL, 'h'},
    {"version", no_argument, NULL, 'V'},
    {"license", no_argument, NULL, 'i'},
    {"verbose", optional_argument, NULL, 'v'},
    {"enable-shutdown", no_argument, NULL, 'A'},
    {"disable-cas", no_argument, NULL, 'C'},
    {"disable-flush-all", no_argument, NULL, 'F'},
    {"lock-memory", no_argument, NULL, 'k'},
    {"enable-coredumps", no_argument, NULL, 'r'},
    {"disable-watch", no_argument, NULL, 'W'},
    {"disable-dumping", no_argument, NULL, 'X'},
    {"enable-largepages", no_argument, NULL, 'L'},
    {"slab-growth-factor", required_argument, NULL, 'f'},
    {"slab-min-size", required_argument, NULL, 'n'},
    {"napi-ids", required_argument, NULL, 'N'},
    {"disable-evictions", no_argument, NULL, 'M'},
    {"enable-sasl", no_argument, NULL, 'S'},
    {"enable-ssl", no_argument, NULL, 'Z'},
    {"auth-file", required_argument, NULL, 'Y'},
    {"memory-file", required_argument, NULL, 'e'},
    {"keys", required_argument, NULL, KEYS},
    {"time-to-live", required_argument, NULL, TIME_TO_LIVE},
    {"keep-from", required_argument, NULL, KEEP_FROM},
    {"idle_timeout", required_argument, NULL, IDLE_TIMEOUT},
    {NULL, 0, NULL, 0},
};

static const char help[] =
    "segcache-server " SERVER_VERSION ": serves memcached's text and meta protocols\n"
    "\n"
    "Where it listens\n"
    "  -p, --port=NUMBER             port (11211); 0: none, -1: any free one\n"
    "  -l, --listen=ADDRESSES        addresses or names, with commas between them (127.0.0.1); :PORT may stand\n"
    "                                behind each, [IPv6] in brackets then, and * is all addresses\n"
    "  -s, --unix-socket=FILE        a UNIX socket in place of a port\n"
    "  -a, --unix-mask=MODE          access to the UNIX socket, in octal (700)\n"
    "  -b, --listen-backlog=NUMBER   connections that wait to be accepted (1024)\n"
    "  The environment's MEMCACHED_PORT_FILENAME names a file that gets the ports.\n"
    "\n"
    "Memory and items\n"
    "  -m, --memory-limit=MEGABYTES  memory for items, all taken at the start (64)\n"
    "  -I, --max-item-size=SIZE      largest item; with k or m behind it, in KiB or MiB (1m, or half of -m)\n"
    "  -k, --lock-memory             keeps memory from being swapped, where the limit of locked memory allows it\n"
    "  -C, --disable-cas             flush_all also takes what is stored in the same second\n"
    "  -F, --disable-flush-all       refuses flush_all\n"
    "      --keys=NUMBER             room for so many keys, whatever -m says\n"
    "      --time-to-live=SECONDS    the most that any item lives\n"
    "      --keep-from=FREQUENCY     keeps items that were read so often, or nothing with 0\n"
    "\n"
    "Threads and connections\n"
    "  -t, --threads=NUMBER          worker threads, 1 to 64 (4)\n"
    "  -c, --conn-limit=NUMBER       connections at a time (1024)\n"
    "  -R, --max-reqs-per-event=N    commands of a connection before its worker looks at others (256)\n"
    "  -o, --extended=idle_timeout=SECONDS, or --idle_timeout=SECONDS\n"
    "                                closes connections that were silent for so long\n"
    "\n"
    "The process and its log\n"
    "  -u, --user=NAME               whose rights to take, if root starts it, which has to name one\n"
    "  -d, --daemon                  runs in the background\n"
    "  -P, --pidfile=FILE            writes the number of the process\n"
    "  -r, --enable-coredumps        raises the limit of core files\n"
    "  -A, --enable-shutdown         the command shutdown ends the server\n"
    "  -v, --verbose                 tells of refused connections and of the end on standard error, also with -d;\n"
    "                                twice: of each connection and command too\n"
    "  SIGTERM and SIGINT end the server, and SIGUSR1 has the counts of stats written to standard error.\n"
    "  -V, --version; -h, --help; -i, --license\n"
    "\n"
    "What memcached has and this server hasn't\n"
    "  -B, --protocol=auto|ascii     the text protocol, either way\n"
    "  -U, --udp-port=0              there is no UDP\n"
    "  -W, --disable-watch; -X, --disable-dumping; -o maxconns_fast: are so in any case\n"
    "  Without effect, and named at the start: -f, --slab-growth-factor; -n, --slab-min-size;\n"
    "  -L, --enable-largepages; -N, --napi-ids; -D; and of -o, also with no_ before them:\n";

static const char licence[] =
    "segcache-server " SERVER_VERSION ", copyright of the Segcache index authors, is under the MIT licence.\n"
    "The library in it has parts of others: bindings/README.md names their licences.";

/* Says what is wrong with an option. */
static enum reading bad(const char *name, const char *why) {
  fprintf(stderr, "segcache-server: %s: %s\n", name, why);
  return BAD;
}

/* A number from `least` to `most`. False, and said, if the text is something else. */
static bool number(const char *name, const char *text, uint64_t least, uint64_t most, uint32_t *to) {
  uint64_t read;
  if (read_number((struct word){text, strlen(text)}, most, &read) && read >= least) {
    *to = (uint32_t)read;
    return true;
  }
  fprintf(stderr, "segcache-server: %s: needs a number from %llu to %llu, and not \"%s\"\n", name,
          (unsigned long long)least, (unsigned long long)most, text);
  return false;
}

static bool port(const char *text, int32_t *to) {
  uint32_t read;
  if (strcmp(text, "-1") == 0) return *to = ANY_PORT, true;
  if (!number("-p", text, 0, UINT16_MAX, &read)) return false;
  *to = (int32_t)read;
  return true;
}

static bool item_size(const char *text, uint32_t *to) {
  size_t length = strlen(text);
  uint64_t unit = 1, read;
  if (length > 0 && strchr("kK", text[length - 1]) != NULL) unit = 1024, length--;
  else if (length > 0 && strchr("mM", text[length - 1]) != NULL) unit = 1024 * 1024, length--;
  if (!read_number((struct word){text, length}, UINT32_MAX / unit, &read) || read * unit < 1024)
    return bad("-I", "an item's size is at least 1024, as in -I 1024, -I 512k or -I 1m"), false;
  *to = (uint32_t)(read * unit);
  return true;
}

/* An option of memcached about what this server doesn't have, by which nobody is harmed. All are told in one line. */
static char unused[2048];

static bool without_effect(const char *name) {
  size_t used = strlen(unused), length = strlen(name);
  for (const char *it = unused; (it = strstr(it, name)) != NULL; it += length)
    if (it[length] == '\0' || it[length] == ',') return true; /* it was told before */
  snprintf(unused + used, sizeof unused - used, used > 0 ? ", %s" : "%s", name);
  return true;
}

/* Those that would weaken what protects the server, or mean something else, if they were passed over: what begins so is
 * refused. */
static const struct {
  const char *begin, *why;
} refused[] = {
    {"-M", "a full cache evicts, and can't answer with an error in place of that"},
    {"-S", "there is no SASL, and without it anybody would be served"},
    {"-Y", "there is no authentication, and without it anybody would be served"},
    {"-Z", "there is no TLS; stunnel before the server has it, as deploy/stunnel.conf shows"},
    {"-e", "the content doesn't outlive the server"},
    {"-o ssl_", "there is no TLS; stunnel before the server has it, as deploy/stunnel.conf shows"},
    {"-o ext_path", "there is no storage beside memory"},
    {"-o proxy_", "there is no proxy"},
    {"-o drop_privileges", "there is no filter of system calls; deploy/segcache-server.service has one"},
    {"-o sock_cookie_id", "sockets get no mark"},
};

static bool is_refused(const char *name) {
  for (size_t i = 0; i < sizeof refused / sizeof *refused; i++)
    if (strncmp(name, refused[i].begin, strlen(refused[i].begin)) == 0) return bad(name, refused[i].why) == BAD;
  return false;
}

/* The suboptions of memcached's -o about its slabs, queues, threads and buffers. `no_` may stand before them. */
static const char *const tuning[] = {"chunked_items",
                                     "drop_privileges",
                                     "ext_compact_under",
                                     "ext_drop_under",
                                     "ext_drop_unread",
                                     "ext_io_depth",
                                     "ext_item_age",
                                     "ext_item_size",
                                     "ext_low_ttl",
                                     "ext_max_frag",
                                     "ext_max_sleep",
                                     "ext_page_size",
                                     "ext_recache_rate",
                                     "ext_threads",
                                     "ext_wbuf_size",
                                     "hash_algorithm",
                                     "hashexpand",
                                     "hashpower",
                                     "hot_lru_pct",
                                     "hot_max_factor",
                                     "inline_ascii_resp",
                                     "lru_crawler",
                                     "lru_crawler_sleep",
                                     "lru_crawler_tocrawl",
                                     "lru_maintainer",
                                     "maxconns_fast",
                                     "modern",
                                     "relaxed_privileges",
                                     "read_buf_mem_limit",
                                     "resp_obj_mem_limit",
                                     "slab_automove",
                                     "slab_automove_freeratio",
                                     "slab_automove_ratio",
                                     "slab_automove_window",
                                     "slab_chunk_max",
                                     "slab_reassign",
                                     "slab_sizes",
                                     "tail_repair_time",
                                     "temporary_ttl",
                                     "track_sizes",
                                     "warm_lru_pct",
                                     "warm_max_factor",
                                     "watcher_logbuf_size",
                                     "worker_logbuf_size"};

/* What -h shows: behind the text the table. It names no suboption that is refused, since programs look there for what a
 * memcached has. */
static void show_help(void) {
  fputs(help, stdout);
  for (size_t i = 0, column = 0; i < sizeof tuning / sizeof *tuning; i++) {
    column += strlen(tuning[i]) + 1;
    bool ends = column > 90 || i + 1 == sizeof tuning / sizeof *tuning;
    printf("%s%s%s", column == strlen(tuning[i]) + 1 ? "    " : " ", tuning[i], ends ? "\n" : "");
    if (ends) column = 0;
  }
  puts("  Refused, with a line that says why: -M, -S, -Y, -Z, -e; and of -o what is about encryption, storage on "
       "disks, a\n"
       "  proxy, system calls or the mark of a socket.");
}

static bool is_tuning(const char *name) {
  for (size_t i = 0; i < sizeof tuning / sizeof *tuning; i++)
    if (strcmp(name, tuning[i]) == 0) return true;
  return false;
}

/* -o, with commas between its suboptions. */
static bool extended(struct options *options, char *text) {
  char name[64];
  for (char *value; (value = strsep(&text, ",")) != NULL;) {
    snprintf(name, sizeof name, "-o %s", strsep(&value, "="));
    const char *bare = name + 3;
    if (*bare == '\0') continue;
    if (strcmp(bare, "idle_timeout") == 0) {
      if (!number(name, value == NULL ? "" : value, 0, INT32_MAX, &options->idle_seconds)) return false;
    } else if (is_refused(name)) return false;
    else if (!is_tuning(strncmp(bare, "no_", 3) == 0 ? bare + 3 : bare))
      return bad(name, "isn't known; -h shows those that are"), false;
    else if (strcmp(bare, "maxconns_fast") != 0) without_effect(name); /* which this server always is */
  }
  return true;
}

static bool mode(const char *text, uint32_t *to) {
  char *end;
  unsigned long read = strtoul(text, &end, 8);
  if (*text == '\0' || *end != '\0' || read > 0777) return bad("-a", "needs access bits in octal, as 700"), false;
  *to = (uint32_t)read;
  return true;
}

/* -l, which may come several times. */
static bool also_listen(struct options *options, const char *argument) {
  static char all[4096];
  size_t used = strlen(all), room = sizeof all - used;
  int more = snprintf(all + used, room, used > 0 ? ",%s" : "%s", argument);
  if (more < 0 || (size_t)more >= room) return bad("-l", "too many addresses"), false;
  options->addresses = all;
  return true;
}

/* One option with an argument, or a flag. */
static bool take(struct options *options, int option, char *argument) {
  switch (option) {
  case 'p': return port(argument, &options->port);
  case 's': return options->socket_path = argument, true;
  case 'a': return mode(argument, &options->socket_mode);
  case 'l': return also_listen(options, argument);
  case 'd': return options->daemon = true;
  case 'P': return options->pid_file = argument, true;
  case 'u': return options->user = argument, true;
  case 'm': return number("-m", argument, 1, UINT32_MAX, &options->megabytes);
  case 'c': return number("-c", argument, 1, INT32_MAX, &options->most_connections);
  case 't': return number("-t", argument, 1, STORE_MOST_CLIENTS, &options->threads);
  case 'b': return number("-b", argument, 1, INT32_MAX, &options->backlog);
  case 'R': return number("-R", argument, 1, INT32_MAX, &options->commands_a_turn);
  case 'I': return item_size(argument, &options->most_item);
  case 'o': return extended(options, argument);
  case 'v': return options->verbosity++, true;
  case 'A': return options->may_shut_down = true;
  case 'C': return options->no_unique = true;
  case 'F': return options->no_flush = true;
  case 'k': return options->lock_memory = true;
  case 'r': return options->core_files = true;
  case 'W':
  case 'X': return true; /* there are no commands watch and dump */
  case KEYS: return number("--keys", argument, 1, UINT32_MAX, &options->keys);
  case TIME_TO_LIVE: return number("--time-to-live", argument, 1, INT32_MAX, &options->time_to_live);
  case KEEP_FROM: return number("--keep-from", argument, 0, UCHAR_MAX, &options->keep_from);
  case IDLE_TIMEOUT: return number("--idle_timeout", argument, 0, INT32_MAX, &options->idle_seconds);
  case 'U': return strcmp(argument, "0") == 0 || bad("-U", "there is no UDP: only -U 0") != BAD;
  case 'B':
    if (strcmp(argument, "auto") != 0 && strcmp(argument, "ascii") != 0)
      return bad("-B", "only the text protocol is served: -B auto or -B ascii"), false;
    return options->protocol = *argument == 'a' && argument[1] == 's' ? "ascii" : "auto-negotiate", true;
  default: return !is_refused((char[]){'-', (char)option, '\0'}) && without_effect((char[]){'-', (char)option, '\0'});
  }
}

/* What isn't known: a letter, which can stand in a word with others, or a whole word. */
static const char *unknown(char **words) {
  static char letter[] = "-?";
  if (optopt <= 0 || optopt > UCHAR_MAX || strchr(letters, optopt) != NULL) return words[optind - 1];
  letter[1] = (char)optopt;
  return letter;
}

bool may_be_root(void) {
  uid_t real, effective, saved;
  return getresuid(&real, &effective, &saved) != 0 || real == 0 || effective == 0 || saved == 0;
}

enum reading options_read(struct options *options, int count, char **words) {
  *options = (struct options){.addresses = "127.0.0.1",
                              .socket_mode = 0700,
                              .port = 11211,
                              .megabytes = 64,
                              .threads = 4,
                              .most_connections = 1024,
                              .backlog = 1024,
                              .commands_a_turn = 256,
                              .keep_from = STORE_BY_QUEUES,
                              .protocol = "auto-negotiate"};
  for (int option; (option = getopt_long(count, words, letters, names, NULL)) != -1;) {
    if (option == ':') return bad(words[optind - 1], "needs an argument; -h shows them all");
    if (option == '?') return bad(unknown(words), "isn't known; -h shows those that are");
    if (option == 'h') return show_help(), SHOWN;
    if (option == 'V') return puts("segcache-server " SERVER_VERSION), SHOWN;
    if (option == 'i') return puts(licence), SHOWN;
    if (!take(options, option, optarg)) return BAD;
  }
  if (optind < count) return bad(words[optind], "isn't an option; -h shows them");
  uint64_t half = options_bytes(options) / 2;
  uint32_t asked = options->most_item, most = STORE_MOST_KEY + HEADER + MOST_DATA;
  if (options->most_item > half) return bad("-I", "an item has half of -m at most");
  if (options->most_item == 0) options->most_item = half < USUAL_ITEM ? (uint32_t)half : USUAL_ITEM;
  if (options->socket_path == NULL && options->port == NO_PORT) return bad("-p 0", "needs a socket by -s");
  if (options->user == NULL && may_be_root()) return bad("-u", "root has to name a user whose rights to take");
  if (asked > most) fprintf(stderr, "segcache-server: -I %u: an item has %u bytes at most here\n", asked, most);
  if (*unused != '\0') fprintf(stderr, "segcache-server: without effect here: %s\n", unused);
  return RUN;
}

uint64_t options_bytes(const struct options *options) { return (uint64_t)options->megabytes << 20; }

uint32_t options_keys(const struct options *options) {
  uint64_t keys = options->keys > 0 ? options->keys : options_bytes(options) / STORE_BYTES_A_KEY;
  return keys < UINT32_MAX ? (uint32_t)keys : UINT32_MAX;
}

uint32_t options_most_data(const struct options *options, uint32_t key_length) {
  uint32_t around = key_length + HEADER, most = options->most_item < around ? 0 : options->most_item - around;
  return most < MOST_DATA ? most : MOST_DATA;
}
