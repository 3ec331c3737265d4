/* flood FILE FROM HOST RATE: sends the datagrams of FILE from the address FROM to HOST, round and round, RATE of them a second, until standard input ends. A line of FILE is
 * a port and octets in hex. It prints `begun`, and at the end how many it sent and how many a second that were. What it could not send in time it leaves out. */
#define _GNU_SOURCE
#include <arpa/inet.h>
#include <poll.h>
#include <stdio.h>
#include <stdlib.h>
#include <sys/socket.h>
#include <time.h>

enum { MOST = 8192, OCTETS = 512, TOGETHER = 64 };
static unsigned char octets[MOST][OCTETS];
static struct sockaddr_in places[MOST];
static struct iovec pieces[MOST];
static struct mmsghdr messages[MOST + TOGETHER];

static double seconds(void) {
  struct timespec moment;
  clock_gettime(CLOCK_MONOTONIC, &moment);
  return moment.tv_sec + moment.tv_nsec * 1e-9;
}

static struct sockaddr_in address(const char *host, int port) {
  struct sockaddr_in it = {.sin_family = AF_INET, .sin_port = htons(port)};
  inet_pton(AF_INET, host, &it.sin_addr);
  return it;
}

static int read_all(FILE *file, const char *host) {
  char hex[2 * OCTETS + 2];
  int count = 0, port;
  while (count < MOST && fscanf(file, "%d %1024s", &port, hex) == 2) {
    size_t length = 0;
    for (char *it = hex; it[0] && it[1]; it += 2) {
      unsigned octet;
      sscanf(it, "%2x", &octet);
      octets[count][length++] = octet;
    }
    places[count] = address(host, port);
    pieces[count] = (struct iovec){octets[count], length};
    messages[count].msg_hdr = (struct msghdr){.msg_name = &places[count], .msg_namelen = sizeof *places, .msg_iov = &pieces[count], .msg_iovlen = 1};
    count++;
  }
  for (int at = 0; at < TOGETHER; at++) messages[count + at] = messages[at];
  return count;
}

int main(int argc, char **argv) {
  FILE *file = argc == 5 ? fopen(argv[1], "r") : NULL;
  if (!file) return 2;
  struct sockaddr_in from = address(argv[2], 0);
  double rate = atof(argv[4]);
  int count = read_all(file, argv[3]), at = 0, socket_of = socket(AF_INET, SOCK_DGRAM, 0);
  if (count < TOGETHER || bind(socket_of, (void *)&from, sizeof from)) return perror("bind"), 1;
  puts("begun");
  fflush(stdout);
  struct pollfd input = {0, POLLIN, 0};
  double start = seconds(), due = start;
  long sent = 0;
  while (poll(&input, 1, 0) == 0) {
    double now = seconds();
    if (now < due) {
      struct timespec pause = {0, (due - now) * 1e9};
      nanosleep(&pause, NULL);
      continue;
    }
    int some = sendmmsg(socket_of, messages + at, TOGETHER, 0);
    if (some > 0) sent += some;
    at = (at + TOGETHER) % count;
    due = (due < now - 0.02 ? now - 0.02 : due) + TOGETHER / rate;
  }
  printf("%s: %ld, %.0f a second\n", sent >= 20000 ? "tens of thousands were sent" : "few were sent", sent, sent / (seconds() - start));
}
