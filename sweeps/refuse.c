/* Refuses memory to a program that loads this before the C library: the allocation of the number in REFUSE, counted from
 * 1, or with REFUSE_FROM each from that number on. It writes one byte to descriptor 9 for each that it refuses. */
#define _GNU_SOURCE
#include <dirent.h>
#include <dlfcn.h>
#include <errno.h>
#include <pthread.h>
#include <stddef.h>
#include <stdlib.h>
#include <sys/syscall.h>
#include <unistd.h>

static int is_ending;

static unsigned long refused_at(const char *name) {
  const char *said = getenv(name);
  return said ? strtoul(said, NULL, 10) : 0;
}

/* Whether the next allocation is refused. */
static int is_refused(void) {
  static unsigned long count, at, from;
  static int known;
  if (!known) {
    known = 1;
    at = refused_at("REFUSE");
    from = refused_at("REFUSE_FROM");
  }
  if (is_ending) return 0;
  unsigned long number = __atomic_add_fetch(&count, 1, __ATOMIC_SEQ_CST);
  if (number != at && (from == 0 || number < from)) return 0;
  if (write(9, "r", 1) != 1) _exit(125);
  errno = ENOMEM;
  return 1;
}

void *malloc(size_t size) {
  static void *(*next)(size_t);
  if (!next) next = dlsym(RTLD_NEXT, "malloc");
  return is_refused() ? NULL : next(size);
}

void *realloc(void *old, size_t size) {
  static void *(*next)(void *, size_t);
  if (!next) next = dlsym(RTLD_NEXT, "realloc");
  return is_refused() ? NULL : next(old, size);
}

void *aligned_alloc(size_t alignment, size_t size) {
  static void *(*next)(size_t, size_t);
  if (!next) next = dlsym(RTLD_NEXT, "aligned_alloc");
  return is_refused() ? NULL : next(alignment, size);
}

/* Refuses the start of the thread of the number in REFUSE_THREAD, counted from 1. */
int pthread_create(pthread_t *thread, const pthread_attr_t *how, void *(*start)(void *), void *argument) {
  static int (*next)(pthread_t *, const pthread_attr_t *, void *(*)(void *), void *);
  static unsigned long count;
  if (!next) next = dlsym(RTLD_NEXT, "pthread_create");
  if (__atomic_add_fetch(&count, 1, __ATOMIC_SEQ_CST) == refused_at("REFUSE_THREAD")) {
    if (write(9, "t", 1) != 1) _exit(125);
    return EAGAIN;
  }
  return next(thread, how, start, argument);
}

/* How many threads this process has. */
static int threads(void) {
  int count = 0;
  DIR *tasks = opendir("/proc/self/task");
  if (!tasks) return 0;
  while (readdir(tasks)) count++;
  closedir(tasks);
  return count - 2;
}

/* At the end: one byte where no thread but the first is left within a second. */
__attribute__((destructor)) static void end(void) {
  if (is_ending) return;
  is_ending = 1;
  for (int k = 0; k < 1000; k++) {
    if (threads() == 1) {
      if (write(9, "e", 1) != 1) _exit(125);
      return;
    }
    usleep(1000);
  }
}

/* A program that ends in this way calls no destructors. */
void _exit(int status) {
  end();
  syscall(SYS_exit_group, status);
  __builtin_unreachable();
}
