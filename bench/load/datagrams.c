/* datagrams FROM TO HEX OUTSTANDING SECONDS OFFSET WANTED [MOST]
 * Sends the datagram HEX from FROM to TO (addresses with ports), OUTSTANDING at a time, each with a number of its own in the four octets at OFFSET, and the
 * next one as soon as one is answered. What is not answered within 200 milliseconds is sent anew. Prints how many were answered in a second, how many of
 * them with another octet than WANTED (OCTET:HEX), and how many were sent anew; and then, in microseconds, the median of the times of the answers, their
 * 99.99th percentile, and the greatest. It ends after SECONDS, or after MOST answers. */
#include <arpa/inet.h>
#include <limits.h>
#include <poll.h>
#include <stdint.h>
#include <stdio.h>
#include <stdlib.h>
#include <string.h>
#include <sys/socket.h>

#include "seconds.h"

/* as many sending times as numbers can be outstanding, by their last bits; and a count of answers for each microsecond, the last for all beyond */
enum { SENT = 1 << 16, LONGEST = 1000000 };
static unsigned char message[65536], answer[65536];
static size_t length;
static uint32_t number;
static double sent[SENT];
static long times[LONGEST + 1];

static struct sockaddr_in address(char *text) {
  struct sockaddr_in it = {.sin_family = AF_INET};
  char *colon = strchr(text, ':');
  it.sin_port = htons(atoi(colon + 1));
  *colon = 0;
  inet_pton(AF_INET, text, &it.sin_addr);
  return it;
}

static void send_next(int at, int offset) {
  uint32_t octets = htonl(++number);
  memcpy(message + offset, &octets, 4);
  sent[number % SENT] = seconds();
  if (send(at, message, length, 0) < 0) perror("send"), exit(1);
}

static void note_time(int offset) {
  uint32_t octets;
  memcpy(&octets, answer + offset, 4);
  double took = (seconds() - sent[ntohl(octets) % SENT]) * 1e6;
  times[took < LONGEST ? (long)took : LONGEST]++;
}

/* The time that so many of the answers took at most. */
static long time_of(long count) {
  long at = 0;
  for (long so_far = times[0]; so_far < count && at < LONGEST; so_far += times[at]) at++;
  return at;
}

int main(int argc, char **argv) {
  if (argc != 8 && argc != 9) return 2;
  struct sockaddr_in from = address(argv[1]), to = address(argv[2]);
  int outstanding = atoi(argv[4]), offset = atoi(argv[6]), octet, large = 4 << 20;
  unsigned wanted;
  double whole = atof(argv[5]);
  long answered = 0, others = 0, anew = 0, most = argc > 8 ? atol(argv[8]) : LONG_MAX;
  sscanf(argv[7], "%d:%x", &octet, &wanted);
  for (char *hex = argv[3]; hex[0] && hex[1]; hex += 2) {
    unsigned it;
    sscanf(hex, "%2x", &it);
    message[length++] = it;
  }
  int at = socket(AF_INET, SOCK_DGRAM, 0);
  setsockopt(at, SOL_SOCKET, SO_RCVBUF, &large, sizeof large);
  if (bind(at, (void *)&from, sizeof from) || connect(at, (void *)&to, sizeof to)) return perror("bind"), 1;
  struct pollfd readable = {at, POLLIN, 0};
  for (int i = 0; i < outstanding; i++) send_next(at, offset);
  double start = seconds(), end;
  while ((end = seconds()) - start < whole && answered < most) {
    ssize_t size = recv(at, answer, sizeof answer, MSG_DONTWAIT);
    if (size < 0) {
      if (poll(&readable, 1, 200) == 0) {
        anew += outstanding;
        if (anew > 25L * outstanding) return fputs("no answers\n", stderr), 1;
        for (int i = 0; i < outstanding; i++) send_next(at, offset);
      }
      continue;
    }
    answered++;
    note_time(offset);
    others += size <= octet || answer[octet] != wanted;
    send_next(at, offset);
  }
  printf("%.0f %ld %ld %ld %ld %ld\n", answered / (end - start), others, anew, time_of((answered + 1) / 2), time_of(answered - answered / 10000), time_of(answered));
}
