/* What the programs of bench/library/run that measure from C have in common: times of many rounds, how they are shown, and plans. */
#ifndef TIMES_H
#define TIMES_H
#include "cf.h"
#include <stdio.h>
#include <stdlib.h>
#include <time.h>

enum { ME = 0, MOST_ROUNDS = 20000 };

static inline void must(uint32_t code, const char *call) {
  if (code == CF_OK) return;
  fprintf(stderr, "%s: answered %u\n", call, (unsigned)code);
  exit(1);
}
#define MUST(call) must((call), #call)

static inline void must_be(bool is_so, const char *what) { must(is_so ? CF_OK : CF_NOTHING, what); }

/* ---- Times ---- */

struct times {
  const char *name;
  uint64_t nanos[MOST_ROUNDS];
  size_t rounds;
};

static inline uint64_t moment(void) {
  struct timespec now;
  if (clock_gettime(CLOCK_MONOTONIC, &now) != 0) must(CF_NOTHING, "clock_gettime");
  return (uint64_t)now.tv_sec * 1000000000u + (uint64_t)now.tv_nsec;
}

static inline void add(struct times *times, uint64_t since) { times->nanos[times->rounds++] = moment() - since; }

static inline int compare(const void *a, const void *b) {
  uint64_t x = *(const uint64_t *)a, y = *(const uint64_t *)b;
  return (x > y) - (x < y);
}

/* Prints the best and the median of a part of each round, in picoseconds, as crates/cf_bench does. */
static inline void show(struct times *times, uint64_t parts) {
  qsort(times->nanos, times->rounds, sizeof times->nanos[0], compare);
  unsigned long long best = times->nanos[0] * 1000 / parts, median = times->nanos[times->rounds / 2] * 1000 / parts;
  printf("%s: best %llu ps, median %llu ps, %zu rounds\n", times->name, best, median, times->rounds);
}

/* ---- Plans ---- */

enum shape { CHAIN, FAN_OUT, SOURCES, ALL_OF };

/* So many stages: a source and the others applies of the stage below or of the source; sources alone; or sources and an allOf of them. */
static inline cf_handle plan_of(enum shape shape, uint16_t stages) {
  cf_handle plan = {0};
  uint16_t *below = malloc(stages * sizeof *below), number;
  must_be(below != NULL, "malloc");
  MUST(cf_builder_new(&plan, stages, (uint16_t)(2 * stages)));
  for (uint16_t i = 0; i < stages; i++) {
    const uint16_t of = shape == CHAIN && i > 0 ? (uint16_t)(i - 1) : 0;
    below[i] = i;
    if (shape == ALL_OF && i == stages - 1) MUST(cf_builder_stage(&plan, CF_ALL_OF, below, i, CF_NO_FUNCTION, &number));
    else if (shape == SOURCES || shape == ALL_OF || i == 0) MUST(cf_builder_stage(&plan, CF_SOURCE, NULL, 0, CF_NO_FUNCTION, &number));
    else MUST(cf_builder_stage(&plan, CF_APPLY, &of, 1, 0, &number));
  }
  MUST(cf_build(&plan));
  free(below);
  return plan;
}

static inline cf_value number(int32_t number) { return (cf_value){CF_INT, number}; }

/* One more than the argument, as the function of all stages answers. */
static inline cf_answer answer(const cf_args *args) {
  return (cf_answer){.kind = CF_GIVE, .value = {CF_INT, (int32_t)((uint32_t)args->first.number + 1u)}};
}

#endif
