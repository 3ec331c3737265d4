/* The heap of the program of checks/refused-memory, in place of the kit's. It gives and takes as that one does, and can
   refuse each allocation of a call, in a copy of the program. The program tells it where, by requests for more memory
   than any call asks for:

   COPIED     from there on the program is copied at each allocation, also where that makes one larger; the copy is
              refused it
   ENDED      the program is copied no more, and the letters of its copies are written, in their order
   LEFT + n   a copy ends, with the letter n

   The kit's own clang compiles it, which has no headers. */
typedef unsigned long octets;

void *malloc(octets), *realloc(void *, octets);
void free(void *);
int fork(void), waitpid(int, int *, int);
long write(int, const void *, octets);
_Noreturn void _exit(int);

static const octets COPIED = 1ul << 40, ENDED = 2ul << 40, LEFT = 3ul << 40;

/* How many copies run at once, the least letter, and the status of a program that cannot go on. */
enum { MOST = 4, LEAST = '?', LOST = 1 };

/* The copies that run, the oldest first. */
static int copies[MOST], count;

static int is_copied, is_copy;

/* What compiled code is told of an allocation. */
struct given {
  unsigned long is_given;
  void *at;
};

static struct given given(void *at) {
  static char nowhere;
  struct given told = {at != 0, at ? at : &nowhere};
  return told;
}

/* Waits for the oldest copy, and writes its letter. Where it has none, the program ends as the copy did. */
static void finish_oldest(void) {
  int ended;
  if (waitpid(copies[0], &ended, 0) != copies[0]) _exit(LOST);
  int signal = ended & 127;
  char letter = ended >> 8 & 127;
  if (signal || letter < LEAST) _exit(signal ? 128 + signal : letter);
  if (write(1, &letter, 1) != 1) _exit(LOST);
  count--;
  for (int at = 0; at < count; at++) copies[at] = copies[at + 1];
}

static int is_refused(void) {
  if (!is_copied) return 0;
  if (count == MOST) finish_oldest();
  int copy = fork();
  if (copy < 0) _exit(LOST);
  if (copy > 0) {
    copies[count++] = copy;
    return 0;
  }
  is_copied = count = 0;
  is_copy = 1;
  return 1;
}

static struct given hear(octets request) {
  if (request >= LEFT && is_copy) _exit(request - LEFT);
  is_copied = request == COPIED;
  while (request == ENDED && count > 0) finish_oldest();
  return given(0);
}

struct given rattle_alloc(octets size, octets alignment) {
  if (size >= COPIED) return hear(size);
  return given(is_refused() ? 0 : malloc(size ? size : alignment));
}

struct given rattle_realloc(void *at, octets before, octets size, octets alignment) {
  (void)before;
  return given(is_refused() ? 0 : realloc(at, size ? size : alignment));
}

void rattle_dealloc(void *at) { free(at); }
