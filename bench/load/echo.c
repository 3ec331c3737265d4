/* echo ADDRESS:PORT sends each datagram back: what one thread and the system can do at most. */
#include <arpa/inet.h>
#include <stdlib.h>
#include <string.h>
#include <sys/socket.h>

int main(int argc, char **argv) {
  static char datagram[65536];
  struct sockaddr_in it = {.sin_family = AF_INET}, from;
  int large = 4 << 20, at = socket(AF_INET, SOCK_DGRAM, 0);
  if (argc != 2) return 2;
  char *colon = strchr(argv[1], ':');
  it.sin_port = htons(atoi(colon + 1));
  *colon = 0;
  inet_pton(AF_INET, argv[1], &it.sin_addr);
  setsockopt(at, SOL_SOCKET, SO_RCVBUF, &large, sizeof large);
  if (bind(at, (void *)&it, sizeof it)) return 1;
  for (;;) {
    socklen_t length = sizeof from;
    ssize_t size = recvfrom(at, datagram, sizeof datagram, 0, (void *)&from, &length);
    if (size >= 0) sendto(at, datagram, size, 0, (void *)&from, length);
  }
}
