// SPDX-License-Identifier: MIT
/* A load for a server of memcached's text protocol: threads, each over some connections. On each connection it
 * sends so many commands in one piece, and reads all replies before the next. It ends by itself.
 *
 *     load PORT THREADS CONNECTIONS DEPTH KEYS GETS(percent) SECONDS MEAN RATE
 *
 * Keys are drawn by Zipf's law with the exponent 0.99; a get that misses is not put. First each key is set once.
 * Values have 16 bytes if MEAN is 0. Else a key's value has a length of its own, by a log-normal law of that mean.
 * It prints a line once that is done, and at the end one of JSON: commands a second, hits, and how long a piece took, at
 * the median and the 99th percentile.
 *
 * With a rate above 0 it sends so many commands a second, one in a piece, each when its time has come, on a connection
 * that waits for no reply. A command took the time from then until its reply is there. Gets and sets are told apart. */
#include <arpa/inet.h>
#include <math.h>
#include <netinet/tcp.h>
#include <pthread.h>
#include <stdbool.h>
#include <stdint.h>
#include <stdio.h>
#include <stdlib.h>
#include <string.h>
#include <time.h>
#include <unistd.h>

enum {
  MOST_THREADS = 64,
  MOST_CONNECTIONS = 256,
  MOST_DEPTH = 256,
  PIECES = 1 << 21,
  MOST_VALUE = 4000,
  MOST_COMMAND = MOST_VALUE + 64,
};

static int port, threads, connections, depth, keys, gets;
static double rate, until;
static double *bounds; /* the share of draws up to each key */
static int *lengths;   /* of each key's value */

struct worker {
  pthread_t thread;
  int sockets[MOST_CONNECTIONS];
  uint64_t seed, commands, asked, hits, faults, pieces;
  float *took; /* microseconds of each piece; with a rate of each get */
  float *took_sets;
  uint64_t sets; /* that were timed */
};

/* A connection of a load with a rate. */
struct call {
  bool is_waiting, is_get;
  double due;
  bool is_value; /* a value was in it, so END comes behind */
};

static double now(void) {
  struct timespec time;
  clock_gettime(CLOCK_MONOTONIC, &time);
  return (double)time.tv_sec + (double)time.tv_nsec * 1e-9;
}

static uint64_t draw(struct worker *worker) {
  worker->seed ^= worker->seed << 13, worker->seed ^= worker->seed >> 7, worker->seed ^= worker->seed << 17;
  return worker->seed;
}

static int draw_key(struct worker *worker) {
  double share = (double)(draw(worker) >> 11) * 0x1p-53;
  int low = 0, high = keys - 1;
  while (low < high) {
    int middle = (low + high) / 2;
    if (bounds[middle] < share) low = middle + 1;
    else high = middle;
  }
  return low;
}

static int open_connection(void) {
  int connection = socket(AF_INET, SOCK_STREAM, 0);
  struct sockaddr_in address = {.sin_family = AF_INET, .sin_port = htons((uint16_t)port)};
  address.sin_addr.s_addr = htonl(INADDR_LOOPBACK);
  if (connect(connection, (struct sockaddr *)&address, sizeof address) != 0) perror("connect"), exit(1);
  setsockopt(connection, IPPROTO_TCP, TCP_NODELAY, &(int){1}, sizeof(int));
  return connection;
}

static size_t write_command(char *at, int key, bool is_get) {
  if (is_get) return (size_t)sprintf(at, "get key:%d\r\n", key);
  size_t length = (size_t)sprintf(at, "set key:%d 0 0 %d\r\n", key, lengths[key]);
  memset(at + length, 'v', (size_t)lengths[key]);
  length += (size_t)lengths[key];
  return length + (size_t)sprintf(at + length, "\r\n");
}

/* A length for each key, the same in each run. */
static void draw_lengths(double mean) {
  struct worker worker = {.seed = 1234567};
  lengths = malloc((size_t)keys * sizeof *lengths);
  for (int key = 0; key < keys; key++) {
    double one = ((double)(draw(&worker) >> 11) + 1) * 0x1p-53, other = (double)(draw(&worker) >> 11) * 0x1p-53;
    double normal = sqrt(-2 * log(one)) * cos(2 * M_PI * other), length = mean * exp(normal - 0.5);
    lengths[key] = mean == 0 ? 16 : length < 1 ? 1 : length > MOST_VALUE ? MOST_VALUE : (int)length;
  }
}

/* Reads the replies to so many commands: a line END, STORED or an error for each. Values begin with v. */
static void read_replies(struct worker *worker, int socket, int wanted) {
  char buffer[16384];
  size_t length = 0;
  while (wanted > 0) {
    ssize_t got = recv(socket, buffer + length, sizeof buffer - length, 0);
    if (got <= 0) perror("recv"), exit(1);
    length += (size_t)got;
    char *line = buffer, *end;
    while ((end = memchr(line, '\n', (size_t)(buffer + length - line))) != NULL) {
      if (*line == 'V') worker->hits++;
      else if (*line != 'v') wanted--;
      if (strncmp(line, "SERVER_E", 8) == 0 || strncmp(line, "CLIENT_E", 8) == 0 || strncmp(line, "ERROR", 5) == 0)
        worker->faults++;
      line = end + 1;
    }
    length = (size_t)(buffer + length - line);
    memmove(buffer, line, length);
  }
}

static void send_all(int socket, const char *at, size_t length) {
  while (length > 0) {
    ssize_t sent = send(socket, at, length, 0);
    if (sent <= 0) perror("send"), exit(1);
    at += sent, length -= (size_t)sent;
  }
}

static void *work(void *argument) {
  struct worker *worker = argument;
  char *piece = malloc((size_t)depth * MOST_COMMAND);
  double starts[MOST_CONNECTIONS];
  while (now() < until) {
    for (int i = 0; i < connections; i++) {
      size_t length = 0;
      for (int k = 0; k < depth; k++) {
        bool is_get = draw(worker) % 100 < (uint64_t)gets;
        worker->asked += is_get;
        length += write_command(piece + length, draw_key(worker), is_get);
      }
      starts[i] = now();
      send_all(worker->sockets[i], piece, length);
    }
    for (int i = 0; i < connections; i++) {
      read_replies(worker, worker->sockets[i], depth);
      worker->took[worker->pieces++ % PIECES] = (float)((now() - starts[i]) * 1e6);
    }
    worker->commands += (uint64_t)(connections * depth);
  }
  free(piece);
  return NULL;
}

/* Reads what there is of a reply. It returns whether the reply is whole. Replies are below a piece of 4 KB. */
static bool read_some(struct worker *worker, int socket, struct call *call) {
  char buffer[4096];
  ssize_t got = recv(socket, buffer, sizeof buffer, MSG_DONTWAIT);
  if (got < 0) return false;
  if (got == 0) perror("recv"), exit(1);
  if (buffer[0] == 'V' && !call->is_value) call->is_value = true, worker->hits++;
  if (buffer[0] != 'V' && buffer[0] != 'E' && !call->is_value && memcmp(buffer, "STORED", 6) != 0) worker->faults++;
  return buffer[got - 1] == '\n' && (!call->is_value || (got >= 5 && memcmp(buffer + got - 5, "END\r\n", 5) == 0));
}

static void note_time(struct worker *worker, const struct call *call) {
  float took = (float)((now() - call->due) * 1e6);
  if (call->is_get) worker->took[worker->pieces++ % PIECES] = took;
  else worker->took_sets[worker->sets++ % PIECES] = took;
  worker->commands++;
}

/* Sends the command that is due on this connection. */
static void send_due(struct worker *worker, int socket, struct call *call, double due) {
  char piece[MOST_COMMAND];
  bool is_get = draw(worker) % 100 < (uint64_t)gets;
  *call = (struct call){.is_waiting = true, .is_get = is_get, .due = due};
  worker->asked += is_get;
  send_all(socket, piece, write_command(piece, draw_key(worker), is_get));
}

static void *work_at_rate(void *argument) {
  struct worker *worker = argument;
  struct call calls[MOST_CONNECTIONS] = {0};
  double step = threads / rate, due = now() + step;
  int next = 0;
  while (now() < until) {
    for (int tried = 0; tried < connections && due <= now(); tried++, next = (next + 1) % connections) {
      if (calls[next].is_waiting) continue;
      send_due(worker, worker->sockets[next], &calls[next], due);
      due += step;
    }
    for (int i = 0; i < connections; i++) {
      if (!calls[i].is_waiting || !read_some(worker, worker->sockets[i], &calls[i])) continue;
      note_time(worker, &calls[i]);
      calls[i].is_waiting = false;
    }
  }
  return NULL;
}

static void fill(void) {
  struct worker worker = {0};
  char *piece = malloc(100 * MOST_COMMAND);
  int socket = open_connection();
  for (int key = 0; key < keys;) {
    size_t length = 0;
    int count = 0;
    for (; count < 100 && key < keys; count++) length += write_command(piece + length, key++, false);
    send_all(socket, piece, length);
    read_replies(&worker, socket, count);
  }
  free(piece);
  close(socket);
}

static int by_size(const void *left, const void *right) {
  float a = *(const float *)left, b = *(const float *)right;
  return (a > b) - (a < b);
}

static void print_times(const char *name, float *took, size_t count) {
  static const double shares[] = {0.5, 0.99, 0.999, 0.9999};
  static const char *const names[] = {"p50", "p99", "p999", "p9999"};
  qsort(took, count, sizeof *took, by_size);
  for (int i = 0; i < 4; i++) {
    size_t at = (size_t)((double)count * shares[i]);
    printf(", \"%s%s_us\": %.1f", name, names[i], count > 0 ? took[at < count ? at : count - 1] : 0);
  }
}

int main(int count, char **words) {
  static struct worker workers[MOST_THREADS];
  if (count != 10) return fprintf(stderr, "load PORT THREADS CONNECTIONS DEPTH KEYS GETS SECONDS MEAN RATE\n"), 2;
  port = atoi(words[1]), threads = atoi(words[2]), connections = atoi(words[3]), depth = atoi(words[4]);
  keys = atoi(words[5]), gets = atoi(words[6]);
  double seconds = atof(words[7]), sum = 0;
  rate = atof(words[9]);
  if (threads < 1 || threads > MOST_THREADS || connections < 1 || connections > MOST_CONNECTIONS || depth < 1 ||
      depth > MOST_DEPTH || keys < 1 || seconds > 120)
    return fprintf(stderr, "load: too many threads, connections or commands in a piece, or too long\n"), 2;
  bounds = malloc((size_t)keys * sizeof *bounds);
  for (int key = 0; key < keys; key++) bounds[key] = sum += pow(key + 1, -0.99);
  for (int key = 0; key < keys; key++) bounds[key] /= sum;
  draw_lengths(atof(words[8]));
  fill();
  puts("filled");
  fflush(stdout);
  double start = now();
  until = start + seconds;
  for (int i = 0; i < threads; i++) {
    workers[i].seed = 88172645463325252ull + (uint64_t)i * 0x9e3779b97f4a7c15ull;
    workers[i].took = malloc(PIECES * sizeof(float));
    workers[i].took_sets = malloc(PIECES * sizeof(float));
    for (int k = 0; k < connections; k++) workers[i].sockets[k] = open_connection();
    pthread_create(&workers[i].thread, NULL, rate > 0 ? work_at_rate : work, &workers[i]);
  }
  uint64_t commands = 0, asked = 0, hits = 0, faults = 0, pieces = 0, sets = 0;
  float *took = malloc((size_t)threads * PIECES * sizeof(float));
  float *took_sets = malloc((size_t)threads * PIECES * sizeof(float));
  for (int i = 0; i < threads; i++) {
    struct worker *worker = &workers[i];
    pthread_join(worker->thread, NULL);
    commands += worker->commands, asked += worker->asked, hits += worker->hits, faults += worker->faults;
    uint64_t kept = worker->pieces < PIECES ? worker->pieces : PIECES;
    memcpy(took + pieces, worker->took, kept * sizeof(float)), pieces += kept;
    kept = worker->sets < PIECES ? worker->sets : PIECES;
    memcpy(took_sets + sets, worker->took_sets, kept * sizeof(float)), sets += kept;
  }
  double elapsed = now() - start;
  printf("{\"commands\": %llu, \"commands_per_second\": %.0f, ", (unsigned long long)commands,
         (double)commands / elapsed);
  printf("\"hits\": %.4f, \"faults\": %llu", asked > 0 ? (double)hits / (double)asked : 0, (unsigned long long)faults);
  print_times(rate > 0 ? "get_" : "", took, pieces);
  if (rate > 0) print_times("set_", took_sets, sets);
  printf("}\n");
  return 0;
}
