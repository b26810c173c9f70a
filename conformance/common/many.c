/* Lets a program read many inputs one after another, each in a process of its own that begins where its main does: what
 * stands before main is done once. It is loaded before the C library.
 *
 * MANY has the numbers of two descriptors. An input comes on the first, a length of 4 bytes and then so many; its answer goes
 * to the second: the status as wait tells it, the lengths of standard output and standard error, 4 bytes each, and both. A
 * process that takes longer than a minute is ended. Where the first descriptor ends, so does this. conformance/common/many.py is the other
 * side. */
#define _GNU_SOURCE
#include <dlfcn.h>
#include <stddef.h>
#include <stdint.h>
#include <stdio.h>
#include <stdlib.h>
#include <sys/mman.h>
#include <sys/wait.h>
#include <unistd.h>

enum { MOST_SECONDS = 60 };

typedef int main_function(int, char **, char **);

static main_function *begin;
static int asked, told;

static void must(int is_done) {
  if (!is_done) _exit(125);
}

/* Reads so many bytes, or answers that the input had ended before the first. */
static int take(int from, void *to, size_t count) {
  for (size_t at = 0; at < count;) {
    ssize_t more = read(from, (char *)to + at, count - at);
    if (more == 0 && at == 0) return 0;
    must(more > 0);
    at += (size_t)more;
  }
  return 1;
}

static void give(int to, const void *from, size_t count) {
  for (size_t at = 0; at < count;) {
    ssize_t more = write(to, (const char *)from + at, count - at);
    must(more > 0);
    at += (size_t)more;
  }
}

/* Makes a stream a file in memory. */
static void make(int stream) {
  int file = memfd_create("stream", 0);
  must(file >= 0 && dup2(file, stream) == stream);
  close(file);
}

static void clear(int stream) { must(ftruncate(stream, 0) == 0 && lseek(stream, 0, SEEK_SET) == 0); }

static void copy(int from, int to, size_t count) {
  char part[1 << 16];
  while (count > 0) {
    size_t size = count < sizeof part ? count : sizeof part;
    must(take(from, part, size));
    give(to, part, size);
    count -= size;
  }
}

/* Runs the program once on what standard input holds, and answers its status. */
static int run(int count, char **words, char **names) {
  pid_t child = fork();
  must(child >= 0);
  if (child == 0) {
    close(asked);
    close(told);
    alarm(MOST_SECONDS);
    return -1 - begin(count, words, names);
  }
  int status = 0;
  must(waitpid(child, &status, 0) == child);
  return status;
}

static int serve(int count, char **words, char **names) {
  uint32_t size;
  const char *said = getenv("MANY");
  must(said && sscanf(said, "%d %d", &asked, &told) == 2);
  for (int stream = 0; stream < 3; stream++) make(stream);
  while (take(asked, &size, sizeof size)) {
    for (int stream = 0; stream < 3; stream++) clear(stream);
    copy(asked, 0, size);
    must(lseek(0, 0, SEEK_SET) == 0);
    int status = run(count, words, names);
    if (status < 0) return -1 - status; /* in the child: the program's own end */
    uint32_t ends[3] = {(uint32_t)status, (uint32_t)lseek(1, 0, SEEK_END), (uint32_t)lseek(2, 0, SEEK_END)};
    give(told, ends, sizeof ends);
    for (int stream = 1; stream < 3; stream++) {
      must(lseek(stream, 0, SEEK_SET) == 0);
      copy(stream, told, ends[stream]);
    }
  }
  return 0;
}

int __libc_start_main(
    main_function *own, int count, char **words, void (*init)(void), void (*fini)(void), void (*rtld_fini)(void), void *stack_end) {
  int (*next)(main_function *, int, char **, void (*)(void), void (*)(void), void (*)(void), void *) =
      dlsym(RTLD_NEXT, "__libc_start_main");
  begin = own;
  return next(serve, count, words, init, fini, rtld_fini, stack_end);
}
