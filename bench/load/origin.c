/* origin ADDRESS DELAY PORT..
 * An origin at each of these ports, where a request comes on a connection of its own. DELAY milliseconds after it came, it answers the path /N/.. with N octets,
 * which may be kept for 600 seconds. At once it answers /asked, which may not be kept, with how many requests for other paths came to all of its ports. */
#define _GNU_SOURCE
#include <arpa/inet.h>
#include <errno.h>
#include <signal.h>
#include <stdio.h>
#include <stdlib.h>
#include <string.h>
#include <sys/epoll.h>
#include <sys/socket.h>
#include <sys/uio.h>
#include <unistd.h>

#include "seconds.h"

enum { MOST = 65536, LONGEST = 1 << 20 };
static struct stream { size_t read, front, sent, body; char head[2048]; } *streams[MOST];
/* the streams that wait, in a ring: each for as long, so the first one ends first */
static struct { int at; double until; } waiting[MOST];
static long wait_first, wait_end, asked;
static char body[LONGEST], is_listener[MOST];
static double delay;
static int polled;

static void watch(int at, int how, unsigned events) {
  struct epoll_event event = {.events = events, .data.fd = at};
  epoll_ctl(polled, how, at, &event);
}

static void open_listener(const char *address, int port) {
  struct sockaddr_in it = {.sin_family = AF_INET, .sin_port = htons(port)};
  int at = socket(AF_INET, SOCK_STREAM | SOCK_NONBLOCK, 0), yes = 1;
  inet_pton(AF_INET, address, &it.sin_addr);
  setsockopt(at, SOL_SOCKET, SO_REUSEADDR, &yes, sizeof yes);
  if (bind(at, (void *)&it, sizeof it) || listen(at, 4096)) perror("listen"), exit(1);
  is_listener[at] = 1;
  watch(at, EPOLL_CTL_ADD, EPOLLIN);
}

static void accept_all(int listener) {
  for (int at; (at = accept4(listener, NULL, NULL, SOCK_NONBLOCK)) >= 0;) {
    if (at >= MOST || !(streams[at] = calloc(1, sizeof **streams))) {
      close(at);
      continue;
    }
    watch(at, EPOLL_CTL_ADD, EPOLLIN);
  }
}

static void end(int at) {
  free(streams[at]);
  streams[at] = NULL;
  close(at);
}

/* makes the answer to the request that a stream has read, and returns whether it is due at once */
static int make_answer(struct stream *it) {
  static char date[64];
  time_t now = time(NULL);
  const char *path = strchr(it->head, ' '), *host = path ? strstr(path, "http://") : NULL;
  if (host && host == path + 1) path = strchr(host + 7, '/');
  else if (path) path++;
  int is_count = path && strncmp(path, "/asked ", 7) == 0;
  unsigned long length = path ? strtoul(path + 1, NULL, 10) : 0;
  asked += !is_count;
  it->body = is_count ? (size_t)snprintf(NULL, 0, "%ld", asked) : length < LONGEST ? length : LONGEST;
  strftime(date, sizeof date, "%a, %d %b %Y %H:%M:%S GMT", gmtime(&now));
  it->front = snprintf(it->head, sizeof it->head, "HTTP/1.1 200 OK\r\ndate: %s\r\ncache-control: max-age=%d\r\ncontent-length: %zu\r\nconnection: close\r\n\r\n", date,
                       is_count ? 0 : 600, it->body);
  if (is_count) it->front += sprintf(it->head + it->front, "%ld", asked), it->body = 0;
  return is_count;
}

/* writes on, and returns whether all is written, or no more can be */
static int is_written(int at) {
  struct stream *it = streams[at];
  size_t front = it->sent < it->front ? it->front - it->sent : 0, rest = it->front + it->body - it->sent - front;
  struct iovec parts[2] = {{it->head + it->front - front, front}, {body, rest}};
  ssize_t size = writev(at, parts, 2);
  if (size > 0) it->sent += size;
  return (size < 0 && errno != EAGAIN) || it->sent == it->front + it->body;
}

static void write_on(int at, int how) {
  if (is_written(at)) end(at);
  else if (how) watch(at, how, EPOLLOUT);
}

/* reads a request, and has its answer wait for its time */
static void read_on(int at) {
  struct stream *it = streams[at];
  ssize_t size = read(at, it->head + it->read, sizeof it->head - 1 - it->read);
  if (size <= 0) return end(at);
  it->read += size;
  it->head[it->read] = 0;
  if (!strstr(it->head, "\r\n\r\n")) return;
  watch(at, EPOLL_CTL_DEL, 0);
  if (make_answer(it)) return write_on(at, EPOLL_CTL_ADD);
  waiting[wait_end % MOST].at = at;
  waiting[wait_end++ % MOST].until = seconds() + delay;
}

static int most_wait(void) {
  if (wait_first == wait_end) return -1;
  double left = waiting[wait_first % MOST].until - seconds();
  return left > 0 ? 1000 * left + 1 : 0;
}

int main(int argc, char **argv) {
  if (argc < 4) return 2;
  signal(SIGPIPE, SIG_IGN);
  delay = atof(argv[2]) / 1000;
  memset(body, 'x', sizeof body);
  polled = epoll_create1(0);
  for (int i = 3; i < argc; i++) open_listener(argv[1], atoi(argv[i]));
  for (;;) {
    struct epoll_event events[256];
    int ready = epoll_wait(polled, events, 256, most_wait());
    for (int i = 0; i < ready; i++) {
      int at = events[i].data.fd;
      if (is_listener[at]) accept_all(at);
      else if (events[i].events & EPOLLOUT) write_on(at, 0);
      else read_on(at);
    }
    for (double now = seconds(); wait_first < wait_end && waiting[wait_first % MOST].until <= now; wait_first++)
      write_on(waiting[wait_first % MOST].at, EPOLL_CTL_ADD);
  }
}
