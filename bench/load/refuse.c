/* Loaded before a program (LD_PRELOAD), refuses it memory: of its calls of malloc and realloc that of the number REFUSE, counted from 1, and where REFUSE_REST is set each
   later one too. Writes an octet to the descriptor REFUSE_TELL as it first refuses. */
#include <errno.h>
#include <stdatomic.h>
#include <stdlib.h>
#include <unistd.h>

extern void *__libc_malloc(size_t), *__libc_realloc(void *, size_t);

static atomic_ulong calls;
static unsigned long first;
static int rest, tell;

__attribute__((constructor)) static void begin(void) {
  const char *number = getenv("REFUSE"), *to = getenv("REFUSE_TELL");
  rest = getenv("REFUSE_REST") != NULL;
  tell = to ? atoi(to) : 2;
  atomic_store(&calls, 0);
  first = number ? strtoul(number, NULL, 10) : 0;
}

static int is_refused(void) {
  unsigned long call = atomic_fetch_add(&calls, 1) + 1;
  if (first == 0 || call < first || (call > first && !rest)) return 0;
  if (call == first && write(tell, "!", 1) != 1) abort();
  errno = ENOMEM;
  return 1;
}

void *malloc(size_t size) { return is_refused() ? NULL : __libc_malloc(size); }

void *realloc(void *old, size_t size) { return is_refused() ? NULL : __libc_realloc(old, size); }
