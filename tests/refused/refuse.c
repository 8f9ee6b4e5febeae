/* A library that is loaded before the C library. It refuses one of the requests that a program makes of a kind, and says so in the
   file 9. REFUSED says the kind and the request's number, from 1, as in growth12. The kinds:

   growth   a growth of memory
   start    a start of a thread
   read     a read. Each read before it gives one byte at most
   write    a write to standard output. Each before it takes one byte at most
   nothing  the same, and it takes nothing in place of failing

   At the end of the program the number of blocks of memory that are still held is written to the file 8, where that is open. */

typedef unsigned long size;

extern void *__libc_malloc(size bytes);
extern void *__libc_calloc(size count, size bytes);
extern void *__libc_realloc(void *place, size bytes);
extern void __libc_free(void *place);
extern void *dlsym(void *library, const char *name);
extern char *getenv(const char *name);
extern int *__errno_location(void);
extern int dprintf(int file, const char *form, ...);
extern long syscall(long number, ...);

#define NEXT(name) dlsym((void *)-1 /* RTLD_NEXT */, name)

enum { SYSTEM_READ = 0, SYSTEM_WRITE = 1, SYSTEM_EXIT_GROUP = 231, FAILED_INPUT_OUTPUT = 5, TRY_AGAIN = 11, STANDARD_OUTPUT = 1 };

static long growths, starts, reads, writes, held;

/* The number behind the kind, where REFUSED names that kind, else -1. */
static long number_of(const char *kind) {
  const char *word = getenv("REFUSED");
  long number = 0;
  while (word && *kind && *word == *kind)
    word++, kind++;
  if (!word || *kind)
    return -1;
  for (; *word; word++)
    number = 10 * number + *word - '0';
  return number;
}

/* Whether the next request of a kind, of which so many were made, is the one to refuse. */
static int is_refused(const char *kind, long *made) {
  long next = __atomic_add_fetch(made, 1, __ATOMIC_SEQ_CST);
  return next == number_of(kind) && syscall(SYSTEM_WRITE, 9, "refused\n", 8ul) == 8;
}

/* The block, which is one more that is held. */
static void *hold(void *block) {
  if (block)
    __atomic_add_fetch(&held, 1, __ATOMIC_SEQ_CST);
  return block;
}

void *malloc(size bytes) {
  return is_refused("growth", &growths) ? 0 : hold(__libc_malloc(bytes));
}

void *calloc(size count, size bytes) {
  return hold(__libc_calloc(count, bytes));
}

void *realloc(void *place, size bytes) {
  if (is_refused("growth", &growths))
    return 0;
  void *block = __libc_realloc(place, bytes);
  return place ? block : hold(block);
}

void free(void *place) {
  if (place)
    __atomic_sub_fetch(&held, 1, __ATOMIC_SEQ_CST);
  __libc_free(place);
}

typedef int start(void *thread, const void *attributes, void *(*run)(void *), void *argument);

int pthread_create(void *thread, const void *attributes, void *(*run)(void *), void *argument) {
  start *next = (start *)NEXT("pthread_create");
  return is_refused("start", &starts) ? TRY_AGAIN : next(thread, attributes, run, argument);
}

static long failed(void) {
  *__errno_location() = FAILED_INPUT_OUTPUT;
  return -1;
}

long read(int file, void *bytes, size count) {
  if (is_refused("read", &reads))
    return failed();
  return syscall(SYSTEM_READ, file, bytes, number_of("read") > 0 && count > 1 ? 1 : count);
}

long write(int file, const void *bytes, size count) {
  if (file != STANDARD_OUTPUT)
    return syscall(SYSTEM_WRITE, file, bytes, count);
  if (number_of("nothing") > 0 && is_refused("nothing", &writes))
    return 0;
  if (number_of("write") > 0 && is_refused("write", &writes))
    return failed();
  return syscall(SYSTEM_WRITE, file, bytes, (number_of("write") > 0 || number_of("nothing") > 0) && count > 1 ? 1 : count);
}

long __write(int file, const void *bytes, size count) {
  return write(file, bytes, count);
}

void _exit(int status) {
  dprintf(8, "%ld\n", held);
  for (;;)
    syscall(SYSTEM_EXIT_GROUP, status);
}
