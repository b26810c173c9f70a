/* Rows, for the programs that end with them. A row compares what one call answers, or what it changed, with what cf.h says, and prints a
 * line if that differs. */
#include "cf.h"
#include <stdio.h>

static int rows, wrong;

/* One row: a call's code, and the one that is wanted. */
static inline void row(const char *what, uint32_t code, uint32_t wanted) {
  rows++;
  if (code == wanted) return;
  wrong++;
  printf("%s: code %u, not %u\n", what, (unsigned)code, (unsigned)wanted);
}

/* The same of a fact. */
static inline void holds(const char *what, bool fact) { row(what, fact, true); }

/* The last line, which counts them, and the status with which main ends: 1 if a row was wrong. */
static inline int end_rows(void) {
  printf("%d rows, %d wrong\n", rows, wrong);
  return wrong != 0;
}
