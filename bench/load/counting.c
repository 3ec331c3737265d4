/* A library that is loaded before others (LD_PRELOAD). It counts the calls by which a process asks for memory, in the file that COUNTS names: the first eight octets of it, the lowest first. */
#define _GNU_SOURCE
#include <dlfcn.h>
#include <fcntl.h>
#include <stddef.h>
#include <stdlib.h>
#include <sys/mman.h>
#include <unistd.h>

static volatile unsigned long *counted;
static void *(*first_malloc)(size_t), *(*first_realloc)(void *, size_t);

static void *found(const char *name) { return dlsym(RTLD_NEXT, name); }

__attribute__((constructor)) static void begin(void) {
  const char *path = getenv("COUNTS");
  int file = path ? open(path, O_RDWR) : -1;
  if (file < 0 || ftruncate(file, sizeof *counted)) return;
  void *shared = mmap(NULL, sizeof *counted, PROT_READ | PROT_WRITE, MAP_SHARED, file, 0);
  close(file);
  if (shared != MAP_FAILED) counted = shared;
}

static void count(void) {
  if (counted) __atomic_fetch_add(counted, 1, __ATOMIC_RELAXED);
}

void *malloc(size_t size) {
  if (!first_malloc) first_malloc = found("malloc");
  count();
  return first_malloc(size);
}

void *realloc(void *old, size_t size) {
  if (!first_realloc) first_realloc = found("realloc");
  count();
  return first_realloc(old, size);
}
