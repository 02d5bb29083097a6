// Loaded before a program, makes calls of the C library fail that it makes: requests of memory, new threads, reads of
// standard input, and writes to standard output or standard error. The environment says which:
//   FAIL   memory, thread, read, write (to standard output) or tell (to standard error)
//   AT     which call of that kind, counted from 1; 0 for none
//   HOW    once: this call fails; on: this one and all after it; short: it takes one byte; nothing: it takes none, and
//          doesn't fail; interrupted: it fails as one does that a signal interrupts
//   PIECE  the most bytes that a read or a write takes, in each call; 0 for as many as are asked for
//   TOLD   a descriptor to which `!` is written where a call was made to do otherwise than it would, and `t` where a
//          thread isn't made, be it for this or for want of memory
//   LISTS  where in the program the code stands by which all its lists get memory, and LENGTH how long it is: what asks
//          for memory elsewhere makes a thread; 0 where that isn't asked
#define _GNU_SOURCE
#include <dlfcn.h>
#include <errno.h>
#include <link.h>
#include <stdint.h>
#include <pthread.h>
#include <stdatomic.h>
#include <stdlib.h>
#include <string.h>
#include <sys/syscall.h>
#include <unistd.h>

extern void *__libc_malloc(size_t);
extern void *__libc_calloc(size_t, size_t);
extern void *__libc_realloc(void *, size_t);
extern void *__libc_memalign(size_t, size_t);

static atomic_long calls;

static int is(const char *name, const char *value) {
  const char *found = getenv(name);
  return found && !strcmp(found, value);
}

static long number(const char *name) {
  const char *found = getenv(name);
  return found ? atol(found) : 0;
}

static void tell(const char *mark) {
  if (getenv("TOLD")) syscall(SYS_write, number("TOLD"), mark, 1L);
}

// Whether this call of the kind is one that is to do otherwise.
static int struck(const char *kind) {
  if (!is("FAIL", kind)) return 0;
  long at = number("AT"), call = atomic_fetch_add(&calls, 1) + 1;
  if (!at || call < at || (call > at && !is("HOW", "on"))) return 0;
  tell("!");
  return 1;
}

static int first(struct dl_phdr_info *info, size_t size, void *at) {
  *(uintptr_t *)at = info->dlpi_addr;
  return 1;
}

// Whether memory isn't asked for by what serves all lists of the program, but by what makes a thread.
static int is_for_thread(uintptr_t caller) {
  uintptr_t base = 0;
  dl_iterate_phdr(first, &base);
  return number("LISTS") && (caller - base < number("LISTS") || caller - base > number("LISTS") + number("LENGTH"));
}

static int refused(void *caller) {
  if (!struck("memory")) return 0;
  if (caller && is_for_thread((uintptr_t)caller)) tell("t");
  errno = ENOMEM;
  return 1;
}

#define CALLER __builtin_return_address(0)

void *malloc(size_t size) { return refused(CALLER) ? 0 : __libc_malloc(size); }
void *calloc(size_t count, size_t size) { return refused(CALLER) ? 0 : __libc_calloc(count, size); }
void *realloc(void *from, size_t size) { return refused(0) ? 0 : __libc_realloc(from, size); }
void *aligned_alloc(size_t align, size_t size) { return refused(CALLER) ? 0 : __libc_memalign(align, size); }
void *memalign(size_t align, size_t size) { return refused(CALLER) ? 0 : __libc_memalign(align, size); }

int posix_memalign(void **out, size_t align, size_t size) {
  if (refused(CALLER)) return ENOMEM;
  *out = __libc_memalign(align, size);
  return *out ? 0 : ENOMEM;
}

int pthread_create(pthread_t *thread, const pthread_attr_t *attributes, void *(*job)(void *), void *with) {
  int (*real)(pthread_t *, const pthread_attr_t *, void *(*)(void *), void *) = dlsym(RTLD_NEXT, "pthread_create");
  int fault = struck("thread") ? EAGAIN : real(thread, attributes, job, with);
  if (fault) tell("t");
  return fault;
}

// How many bytes a read or a write may take, of so many; -1 where it fails.
static ssize_t allowed(const char *kind, size_t size) {
  long piece = number("PIECE");
  if (piece && size > (size_t)piece) size = piece;
  if (!struck(kind)) return size;
  if (is("HOW", "short")) return size > 1 ? 1 : size;
  if (is("HOW", "nothing")) return 0;
  errno = is("HOW", "interrupted") ? EINTR : EIO;
  return -1;
}

ssize_t read(int from, void *to, size_t size) {
  ssize_t take = from ? (ssize_t)size : allowed("read", size);
  return take < 0 ? take : syscall(SYS_read, from, to, take);
}

ssize_t write(int to, const void *from, size_t size) {
  ssize_t take = to == 1 ? allowed("write", size) : to == 2 ? allowed("tell", size) : (ssize_t)size;
  return take <= 0 ? take : syscall(SYS_write, to, from, take);
}

ssize_t __write(int to, const void *from, size_t size) { return write(to, from, size); }
