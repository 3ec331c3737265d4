// A library to preload (LD_PRELOAD): of the datagrams that a program sends, it drops LOSS of a hundred.
#define _GNU_SOURCE
#include <dlfcn.h>
#include <stdlib.h>
#include <sys/socket.h>

typedef ssize_t (*send_to)(int, const void *, size_t, int, const struct sockaddr *, socklen_t);

static int is_dropped(int socket) {
  static __thread unsigned state;
  int type = 0;
  socklen_t length = sizeof type;
  if (getsockopt(socket, SOL_SOCKET, SO_TYPE, &type, &length) || type != SOCK_DGRAM) return 0;
  if (!state) state = (unsigned)(size_t)&state ^ (unsigned)random();
  return rand_r(&state) % 100 < (unsigned)atoi(getenv("LOSS") ? getenv("LOSS") : "0");
}

ssize_t sendto(int socket, const void *octets, size_t length, int flags, const struct sockaddr *to, socklen_t size) {
  static send_to next;
  if (!next) next = (send_to)dlsym(RTLD_NEXT, "sendto");
  if (is_dropped(socket)) return (ssize_t)length;
  return next(socket, octets, length, flags, to, size);
}
