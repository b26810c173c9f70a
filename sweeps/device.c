/* Makes standard input and standard output of a program that loads this before the C library devices of other kinds.
 *
 * DEVICE_0 is what reads of descriptor 0 meet, DEVICE_1 what writes to descriptor 1 meet: four words, which are the most
 * bytes that a call moves (0: any number), what fails (`fail`, `interrupt`, `nothing`: the call moves none), at which call first,
 * counted from 1, and at which last (0: never, or to the end). Descriptor 9 is a file in which it counts the calls of both,
 * 8 bytes each. */
#define _GNU_SOURCE
#include <errno.h>
#include <limits.h>
#include <stdint.h>
#include <stdio.h>
#include <stdlib.h>
#include <string.h>
#include <sys/mman.h>
#include <sys/syscall.h>
#include <unistd.h>

struct device {
  size_t most;
  char how[16];
  uint64_t first, last;
};

static struct device devices[2];
static uint64_t *counts;

__attribute__((constructor)) static void open_devices(void) {
  const char *names[2] = {"DEVICE_0", "DEVICE_1"};
  for (int k = 0; k < 2; k++) {
    const char *said = getenv(names[k]);
    struct device *it = &devices[k];
    if (said && sscanf(said, "%zu %15s %lu %lu", &it->most, it->how, &it->first, &it->last) != 4) _exit(125);
  }
  counts = mmap(NULL, 2 * sizeof *counts, PROT_READ | PROT_WRITE, MAP_SHARED, 9, 0);
  if (counts == MAP_FAILED) _exit(125);
}

/* Moves bytes by the call of this number, as the device lets it. */
static ssize_t move(int fd, long number, void *bytes, size_t size) {
  if ((number == SYS_read) != (fd == 0) || fd > 1) return syscall(number, fd, bytes, size);
  const struct device *it = &devices[fd];
  uint64_t count = ++counts[fd];
  if (it->first && count >= it->first && (it->last == 0 || count <= it->last)) {
    if (strcmp(it->how, "nothing") == 0) return 0;
    errno = strcmp(it->how, "interrupt") == 0 ? EINTR : EIO;
    return -1;
  }
  return syscall(number, fd, bytes, it->most && it->most < size ? it->most : size);
}

ssize_t read(int fd, void *to, size_t size) { return move(fd, SYS_read, to, size); }

ssize_t write(int fd, const void *from, size_t size) { return move(fd, SYS_write, (void *)from, size); }

ssize_t __write(int fd, const void *from, size_t size) { return move(fd, SYS_write, (void *)from, size); }
