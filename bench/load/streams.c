/* streams ADDRESS:PORT URL CLIENTS COUNT [SECONDS HOSTS FIRST PAUSE]
 * So many clients at once, COUNT asks in all: each connects, writes a GET of the URL in absolute form with `connection: close`, and reads until its peer closes.
 * In URL each # stands for the number of the ask, counted from FIRST on, and each @ for that number modulo HOSTS. Where COUNT is 0, it ends after SECONDS.
 * With PAUSE, a client whose answer is not 200 makes the same ask again, so many milliseconds later, until it is.
 * Prints how many were answered 200 in a second, how many in another way, and how many octets the answers had on average; and in milliseconds the median and
 * the 99th percentile of the times of those answered 200, from the beginning of a connection to its end, and the time of all together. */
#include <arpa/inet.h>
#include <errno.h>
#include <fcntl.h>
#include <limits.h>
#include <signal.h>
#include <stdio.h>
#include <stdlib.h>
#include <string.h>
#include <sys/epoll.h>
#include <sys/socket.h>
#include <unistd.h>

#include "seconds.h"

enum { MOST = 4096, SILENT = 20 };
static struct client { int at; int asked; long ask; size_t length; double begun; char front[16]; } clients[MOST];
/* the clients that make a pause, in a ring: each for as long, so the first one ends first */
static struct { int place; double until; } resting[MOST];
static long rest_first, rest_end;
static struct sockaddr_in to = {.sin_family = AF_INET};
static const char *url;
static char buffer[131072];
static int polled;
static long answered, others, octets, begun, count, hosts = 1, first;
static double patience;
static float *times;
static long room;

/* begins an ask of this number, by the client at this place */
static void begin(int place, long ask) {
  struct client *it = &clients[place];
  struct epoll_event event = {.events = EPOLLIN | EPOLLOUT, .data.u32 = place};
  *it = (struct client){.at = socket(AF_INET, SOCK_STREAM | SOCK_NONBLOCK, 0), .ask = ask, .begun = seconds()};
  if (connect(it->at, (void *)&to, sizeof to) < 0 && errno != EINPROGRESS) perror("connect"), exit(1);
  epoll_ctl(polled, EPOLL_CTL_ADD, it->at, &event);
}

/* writes a client's ask, and returns whether it was taken whole */
static int write_ask(struct client *it) {
  static char whole[2048], text[4096], host[256];
  size_t length = 0;
  for (const char *next = url; *next && length + 24 < sizeof whole; next++) {
    if (*next == '#' || *next == '@') length += sprintf(whole + length, "%ld", *next == '#' ? it->ask : it->ask % hosts);
    else whole[length++] = *next;
  }
  whole[length] = 0;
  sscanf(whole, "http://%255[^/]", host);
  int size = snprintf(text, sizeof text, "GET %s HTTP/1.1\r\nhost: %s\r\nconnection: close\r\n\r\n", whole, host);
  it->asked = 1;
  return write(it->at, text, size) == size;
}

/* whether the client has its answer, or will have none */
static int goes_on(int place, unsigned events) {
  struct client *it = &clients[place];
  if (!it->asked && (events & EPOLLOUT)) {
    struct epoll_event event = {.events = EPOLLIN, .data.u32 = place};
    if (!write_ask(it)) return 1;
    epoll_ctl(polled, EPOLL_CTL_MOD, it->at, &event);
  }
  while (events & (EPOLLIN | EPOLLHUP | EPOLLERR)) {
    ssize_t size = read(it->at, buffer, sizeof buffer);
    if (size < 0 && errno == EAGAIN) return 0;
    if (size <= 0) return 1;
    for (ssize_t i = 0; i < size && it->length + i < sizeof it->front; i++) it->front[it->length + i] = buffer[i];
    it->length += size;
  }
  return 0;
}

static void keep(double time) {
  if (answered == room) {
    room = room ? 2 * room : 65536;
    times = realloc(times, room * sizeof *times);
    if (!times) perror("realloc"), exit(1);
  }
  times[answered++] = time;
}

/* counts what a client got, and has it go on */
static void end(int place) {
  struct client *it = &clients[place];
  int is_good = it->length >= 12 && memcmp(it->front + 8, " 200", 4) == 0;
  double now = seconds();
  close(it->at);
  octets += it->length;
  if (is_good) keep(now - it->begun); else others++;
  if (!is_good && patience > 0) {
    resting[rest_end % MOST].place = place;
    resting[rest_end++ % MOST].until = now + patience;
  } else if (begun < count) {
    begin(place, first + begun++);
  }
}

static void wake(void) {
  for (double now = seconds(); rest_first < rest_end && resting[rest_first % MOST].until <= now; rest_first++) {
    int place = resting[rest_first % MOST].place;
    begin(place, clients[place].ask);
  }
}

/* how many milliseconds may be waited, where all is over at this moment */
static int most_wait(double over) {
  if (rest_first < rest_end && resting[rest_first % MOST].until < over) over = resting[rest_first % MOST].until;
  double left = over - seconds();
  return left > 0 ? 1000 * left + 1 : 0;
}

/* has the clients ask until all is answered, or the moment has come */
static void run(double over) {
  while (answered + (patience > 0 ? 0 : others) < count && seconds() < over) {
    struct epoll_event events[64];
    double silence = seconds() + SILENT;
    int ready = epoll_wait(polled, events, 64, most_wait(over < silence ? over : silence));
    if (ready == 0 && seconds() >= silence) fputs("no answers\n", stderr), exit(1);
    for (int i = 0; i < ready; i++)
      if (goes_on(events[i].data.u32, events[i].events)) end(events[i].data.u32);
    wake();
  }
}

static int by_size(const void *one, const void *other) {
  float a = *(const float *)one, b = *(const float *)other;
  return (a > b) - (a < b);
}

int main(int argc, char **argv) {
  if (argc != 5 && argc != 9) return 2;
  signal(SIGPIPE, SIG_IGN);
  double whole = argc > 5 ? atof(argv[5]) : 0;
  char *colon = strchr(argv[1], ':');
  int at_once = atoi(argv[3]) < MOST ? atoi(argv[3]) : MOST;
  count = atol(argv[4]) > 0 ? atol(argv[4]) : LONG_MAX;
  if (argc > 5) hosts = atol(argv[6]), first = atol(argv[7]), patience = atof(argv[8]) / 1000;
  *colon = 0;
  inet_pton(AF_INET, argv[1], &to.sin_addr);
  to.sin_port = htons(atoi(colon + 1));
  url = argv[2];
  polled = epoll_create1(0);
  double start = seconds();
  while (begun < at_once && begun < count) begin(begun, first + begun), begun++;
  run(whole > 0 ? start + whole : 1e18);
  double took = seconds() - start;
  qsort(times, answered, sizeof *times, by_size);
  float median = answered ? times[answered / 2] : 0, late = answered ? times[answered * 99 / 100] : 0;
  printf("%.0f %ld %ld %.1f %.1f %.1f\n", answered / took, others, octets / (answered + others ? answered + others : 1), 1000 * median, 1000 * late, 1000 * took);
}
