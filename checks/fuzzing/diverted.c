// A library to preload (LD_PRELOAD): what a program sends by UDP from the address and port DIVERTED (127.0.0.2:4827) comes to the address and port DIVERTED_TO, wherever it
// should go.
#define _GNU_SOURCE
#include <arpa/inet.h>
#include <dlfcn.h>
#include <stdlib.h>
#include <string.h>
#include <sys/socket.h>

typedef ssize_t (*send_to)(int, const void *, size_t, int, const struct sockaddr *, socklen_t);

static struct sockaddr_in place(const char *name) {
  struct sockaddr_in it = {.sin_family = AF_INET};
  char text[64] = "", *colon;
  strncpy(text, getenv(name) ? getenv(name) : "", sizeof text - 1);
  if ((colon = strchr(text, ':'))) {
    *colon = 0;
    inet_pton(AF_INET, text, &it.sin_addr);
    it.sin_port = htons(atoi(colon + 1));
  }
  return it;
}

ssize_t sendto(int socket, const void *octets, size_t length, int flags, const struct sockaddr *to, socklen_t size) {
  static send_to next;
  if (!next) next = (send_to)dlsym(RTLD_NEXT, "sendto");
  struct sockaddr_in own = {0}, from = place("DIVERTED"), other = place("DIVERTED_TO");
  socklen_t own_size = sizeof own;
  if (!getsockname(socket, (void *)&own, &own_size) && own.sin_port == from.sin_port && own.sin_addr.s_addr == from.sin_addr.s_addr)
    return next(socket, octets, length, flags, (void *)&other, sizeof other);
  return next(socket, octets, length, flags, to, size);
}
