/* Races one question on desks with a thread for each caller, each worker and the clock, and counts the ends that it comes to.
 *
 * conformance/desks/raced writes the question in numbers, in the order of `read_question`. Each end is a line: how often it came, and the outcomes
 * of all stages, as reports have them. */
#define _GNU_SOURCE
#include "cf.h"
#include <pthread.h>
#include <sched.h>
#include <stdatomic.h>
#include <stdio.h>
#include <stdlib.h>
#include <string.h>

enum { MOST = 64, STAGES = 64, DESKS = 64, LOG = 4096, CALLS = 1024, BLIND = 12, ENDS = 1 << 16, TEXT = 34 };

/* Functions of scripts: `kind` is a letter of conformance/desks/raced, and `k` what stands behind it. */
struct function {
  char kind;
  int has_k;
  int32_t k;
};
struct stage {
  uint32_t form, function;
  size_t n;
  uint16_t of[STAGES];
};
struct limit {
  uint16_t stage;
  uint32_t at, kind, code;
  cf_value value;
};
struct step {
  char kind;
  uint16_t stage;
  uint32_t number;
  cf_value value;
  cf_answer answer;
  struct stage attached;
};
struct caller {
  size_t n;
  struct step *steps;
};

static struct function functions[MOST];
static struct stage stages[STAGES];
static struct limit limits[STAGES];
static struct caller callers[MOST];
static uint32_t room, function_count, stage_count, limit_count, caller_count, worker_count, is_free, races;
static uint64_t seed;

static cf_handle plan;
static cf_handle desks[DESKS][MOST];
static atomic_uint arrived[DESKS], busy[DESKS];
static uint32_t people, in_round;
static pthread_barrier_t begun, ended;

struct end {
  char *text;
  uint64_t count;
};
static struct end ends[ENDS];

static void must(int is_so, const char *what) {
  if (is_so) return;
  fprintf(stderr, "raced: %s\n", what);
  exit(2);
}

/* ---- The question ---- */

static int64_t number(void) {
  long long it = 0;
  must(scanf("%lld", &it) == 1, "the question ends too soon");
  return it;
}

static char letter(void) {
  char it = 0;
  must(scanf(" %c", &it) == 1, "the question ends too soon");
  return it;
}

static cf_value value(void) {
  cf_value it = {0};
  it.kind = (uint32_t)number(), it.number = (int32_t)number();
  return it;
}

static uint32_t count(uint32_t most) {
  int64_t it = number();
  must(it >= 0 && it <= most, "too many");
  return (uint32_t)it;
}

static struct stage read_stage(void) {
  struct stage it = {0};
  it.form = (uint32_t)number(), it.n = count(STAGES);
  for (size_t k = 0; k < it.n; k++) it.of[k] = (uint16_t)number();
  it.function = (uint32_t)number();
  return it;
}

static struct step read_step(void) {
  struct step it = {0};
  it.kind = letter();
  if (it.kind == 'a') {
    it.attached = read_stage();
    return it;
  }
  it.stage = (uint16_t)number();
  switch (it.kind) {
  case 'c':
  case 'n': it.value = value(); break;
  case 'f':
  case 't':
  case 'j': it.number = (uint32_t)number(); break;
  case 'F':
    it.answer.kind = (uint32_t)number(), it.answer.code = (uint32_t)number(), it.answer.value = value();
    it.answer.stage = (uint16_t)number();
    break;
  default: break;
  }
  return it;
}

static void read_question(void) {
  room = (uint32_t)number(), function_count = count(MOST);
  for (uint32_t k = 0; k < function_count; k++)
    functions[k].kind = letter(), functions[k].has_k = (int)number(), functions[k].k = (int32_t)number();
  stage_count = count(STAGES);
  for (uint32_t k = 0; k < stage_count; k++) stages[k] = read_stage();
  limit_count = count(STAGES);
  for (uint32_t k = 0; k < limit_count; k++) {
    limits[k].stage = (uint16_t)number(), limits[k].at = (uint32_t)number(), limits[k].kind = (uint32_t)number();
    limits[k].code = (uint32_t)number(), limits[k].value = value();
  }
  caller_count = count(MOST / 2);
  for (uint32_t c = 0; c < caller_count; c++) {
    callers[c].n = count(1000), callers[c].steps = calloc(callers[c].n + 1, sizeof(struct step));
    must(callers[c].steps != NULL, "no memory");
    for (size_t k = 0; k < callers[c].n; k++) callers[c].steps[k] = read_step();
  }
  worker_count = count(MOST / 4), is_free = count(1), races = count(100000000), seed = (uint64_t)number();
  people = caller_count + worker_count + is_free;
  must(people > 0, "nobody is there");
}

static void build(void) {
  uint16_t made = 0;
  must(cf_builder_new(&plan, 0, 0) == CF_OK, "builder");
  for (uint32_t k = 0; k < stage_count; k++)
    must(cf_builder_stage(&plan, stages[k].form, stages[k].of, stages[k].n, stages[k].function, &made) == CF_OK, "stage");
  for (uint32_t k = 0; k < limit_count; k++)
    must(cf_builder_limit(&plan, limits[k].stage, limits[k].at, limits[k].kind, limits[k].code, limits[k].value) == CF_OK, "limit");
  must(cf_build(&plan) == CF_OK, "plan");
}

/* ---- Who does what on a desk ---- */

struct person {
  uint32_t number;
  uint64_t state;
};

static uint64_t chance(struct person *me) {
  me->state ^= me->state << 13, me->state ^= me->state >> 7, me->state ^= me->state << 17;
  return me->state;
}

/* Lets some time go by, or none. */
static void dawdle(struct person *me) {
  uint64_t it = chance(me) >> 20;
  if (it % 4 == 0) return;
  if (it % 16 == 1) {
    sched_yield();
    return;
  }
  for (volatile uint64_t k = (it >> 8) % (it % 3 == 0 ? 2000 : 100); k > 0; k--) {}
}

static void done(uint32_t code) { must(code == CF_OK || code == CF_NO_STAGE, "a call was refused"); }

/* What a function is called with: its first argument as a number, and its fault if it has one. */
static int32_t wrapped(int64_t it) { return (int32_t)(uint32_t)(uint64_t)it; }

static int32_t of_value(cf_value it) { return it.kind == CF_NIL ? 0 : it.number; }

static cf_value first(const cf_args *args) {
  cf_value nil = {0};
  if (args->kind == CF_NO_ARGS) return nil;
  if (args->kind != CF_GOT) return args->first;
  return args->outcome.kind == CF_VALUE ? args->outcome.value : nil;
}

static cf_answer give(int has, int32_t k) {
  cf_answer it = {0};
  it.kind = CF_GIVE;
  if (has) it.value.kind = CF_INT, it.value.number = k;
  return it;
}

static cf_answer answer(uint16_t function, const cf_args *args) {
  struct function f = functions[function];
  int failed = args->kind == CF_GOT && args->outcome.kind != CF_VALUE;
  cf_answer it = {0};
  switch (f.kind) {
  case 'c': return give(f.has_k, f.k);
  case 't': it.kind = CF_THROW, it.code = (uint32_t)f.k; return it;
  case 'g': it.kind = CF_LINK, it.stage = (uint16_t)f.k; return it;
  case 'r':
    if (failed) return give(f.has_k, f.k);
    it.kind = CF_GIVE, it.value = first(args);
    return it;
  default: break;
  }
  if (failed) {
    it.kind = CF_THROW, it.code = args->outcome.kind == CF_THROWN ? args->outcome.code : 0;
    return it;
  }
  int64_t x = of_value(first(args));
  switch (f.kind) {
  case 'a': return give(1, wrapped(x + f.k));
  case 'm': return give(1, wrapped(x * f.k));
  case 'n': return give(1, wrapped(-x));
  default: return give(1, args->kind == CF_TWO ? wrapped(x + of_value(args->second)) : (int32_t)x);
  }
}

static void call(cf_handle *desk, const struct step *it) {
  cf_reply reply;
  cf_outcome outcome;
  cf_now now;
  switch (it->kind) {
  case 'c': done(cf_desk_complete(desk, it->stage, it->value, &reply)); break;
  case 'f': done(cf_desk_fail(desk, it->stage, it->number, &reply)); break;
  case 'x': done(cf_desk_cancel(desk, it->stage, &reply)); break;
  case 'l': done(cf_desk_claim(desk, it->stage, &reply)); break;
  case 'F': done(cf_desk_finish_with(desk, it->stage, &it->answer, &reply)); break;
  case 't': done(cf_desk_tick(desk, it->number, &reply)); break;
  case 'a': done(cf_desk_attach(desk, it->attached.form, it->attached.of, it->attached.n, it->attached.function, &reply)); break;
  case 'n': done(cf_desk_read_now(desk, it->stage, it->value, &now)); break;
  case 'o': done(cf_desk_read(desk, it->stage, &outcome)); break;
  case 'j': done(cf_desk_join(desk, it->stage, it->number, &now)); break;
  default: must(0, "no such step");
  }
}

/* A claim of any stage, ready or not, or of the lowest that is ready. It says whether none was ready. */
static int claimed(struct person *me, cf_handle *desk, uint32_t *blind, uint16_t *stage, cf_reply *reply, int *is_granted) {
  *is_granted = 0;
  if (*blind > 0 && chance(me) % 2) {
    *blind -= 1, *stage = (uint16_t)(chance(me) % (stage_count + room));
    uint32_t code = cf_desk_claim(desk, *stage, reply);
    done(code);
    *is_granted = code == CF_OK && reply->answer == CF_GRANTED;
    return 0;
  }
  uint32_t code = cf_desk_ready(desk, stage);
  if (code == CF_NOTHING) return 1;
  must(code == CF_OK, "what is ready isn't told");
  dawdle(me);
  must(cf_desk_claim(desk, *stage, reply) == CF_OK, "a ready stage can't be claimed");
  *is_granted = reply->answer == CF_GRANTED;
  return 0;
}

/* A worker's loop. It ends once nobody has anything in hand and nothing is ready; who makes something ready later sees it himself. */
static void work(struct person *me, cf_handle *desk, atomic_uint *at_work) {
  uint32_t blind = BLIND;
  for (;;) {
    uint16_t stage = 0, function = 0;
    cf_reply reply;
    int is_granted, is_quiet = atomic_load(at_work) == 0;
    atomic_fetch_add(at_work, 1);
    int is_idle = claimed(me, desk, &blind, &stage, &reply, &is_granted);
    if (is_granted) {
      must(cf_desk_function(desk, stage, &function) == CF_OK, "a claimed stage has no function");
      cf_answer given = answer(function, &reply.args);
      dawdle(me);
      must(cf_desk_finish_with(desk, stage, &given, &reply) == CF_OK, "a finish was refused");
      dawdle(me);
    }
    atomic_fetch_sub(at_work, 1);
    if (is_idle && is_quiet) return;
    if (is_idle) sched_yield();
  }
}

/* The clock: some of the limits' moments, one after another. */
static void tick(struct person *me, cf_handle *desk) {
  cf_reply reply;
  uint64_t left = chance(me) % (limit_count + 1);
  for (uint32_t k = 0; k < left; k++) {
    dawdle(me);
    done(cf_desk_tick(desk, limits[k].at, &reply));
  }
}

static void act(struct person *me, uint32_t d) {
  cf_handle *desk = &desks[d][me->number];
  if (me->number >= caller_count && me->number < caller_count + worker_count) {
    work(me, desk, &busy[d]);
    return;
  }
  if (me->number < caller_count) {
    for (size_t k = 0; k < callers[me->number].n; k++) {
      dawdle(me);
      call(desk, &callers[me->number].steps[k]);
    }
  } else {
    tick(me, desk);
  }
  atomic_fetch_sub(&busy[d], 1);
}

static void *run(void *given) {
  struct person *me = given;
  for (;;) {
    pthread_barrier_wait(&begun);
    if (in_round == 0) return NULL;
    for (uint32_t d = 0; d < in_round; d++) {
      atomic_fetch_add(&arrived[d], 1);
      for (uint32_t spins = 0; atomic_load(&arrived[d]) < people; spins++)
        if (spins > 100) sched_yield();
      dawdle(me);
      act(me, d);
    }
    pthread_barrier_wait(&ended);
  }
}

/* ---- Ends ---- */

static void open_desk(uint32_t d) {
  cf_desk_sizes sizes = {0};
  sizes.log = LOG, sizes.calls = CALLS, sizes.room = (uint16_t)room, sizes.functions = function_count;
  memset(desks[d], 0, sizeof desks[d]);
  must(cf_desk_open_with(&plan, desks[d], people, &sizes) == CF_OK, "a desk can't be opened");
  atomic_store(&arrived[d], 0), atomic_store(&busy[d], caller_count + is_free);
}

static void note(const char *text) {
  uint64_t hash = 1469598103934665603u;
  for (const char *c = text; *c; c++) hash = (hash ^ (unsigned char)*c) * 1099511628211u;
  for (uint64_t k = hash;; k++) {
    struct end *it = &ends[k % ENDS];
    must(k - hash < ENDS / 2, "too many ends");
    if (it->text == NULL) it->text = strdup(text), must(it->text != NULL, "no memory");
    if (strcmp(it->text, text)) continue;
    it->count++;
    return;
  }
}

static void close_desk(uint32_t d) {
  cf_handle *desk = &desks[d][0];
  char text[(TEXT + 1) * STAGES * 2 + 1], *at = text;
  uint16_t n = 0;
  must(cf_close_begin(desk) == CF_OK, "a desk can't be closed");
  for (uint32_t k = 1; k < people; k++) must(cf_close_add(desk, &desks[d][k]) == CF_OK, "a caller can't be given back");
  must(cf_close_end(desk) == CF_OK && cf_closed_graph(desk) == CF_OK && cf_stages(desk, &n) == CF_OK && n <= 2 * STAGES,
      "a desk isn't closed");
  for (uint16_t i = 0; i < n; i++) {
    cf_outcome outcome;
    size_t length = 0;
    must(cf_get(desk, i, &outcome) == CF_OK && cf_outcome_text(outcome, (uint8_t *)at, TEXT, &length) == CF_OK && length <= TEXT,
        "no outcome");
    at += length, *at++ = i + 1 < n ? '|' : 0;
  }
  note(n ? text : "");
  cf_free(desk);
}

int main(void) {
  static struct person everybody[MOST];
  static pthread_t threads[MOST];
  read_question();
  build();
  must(!pthread_barrier_init(&begun, NULL, people + 1) && !pthread_barrier_init(&ended, NULL, people + 1), "barrier");
  for (uint32_t k = 0; k < people; k++) {
    everybody[k].number = k, everybody[k].state = (seed + 1) * 0x9e3779b97f4a7c15u + (k + 1) * 0xbf58476d1ce4e5b9u;
    must(!pthread_create(&threads[k], NULL, run, &everybody[k]), "thread");
  }
  for (uint32_t raced = 0; raced < races; raced += in_round) {
    in_round = races - raced < DESKS ? races - raced : DESKS;
    for (uint32_t d = 0; d < in_round; d++) open_desk(d);
    pthread_barrier_wait(&begun);
    pthread_barrier_wait(&ended);
    for (uint32_t d = 0; d < in_round; d++) close_desk(d);
  }
  in_round = 0;
  pthread_barrier_wait(&begun);
  for (uint32_t k = 0; k < people; k++) pthread_join(threads[k], NULL);
  for (uint32_t k = 0; k < ENDS; k++)
    if (ends[k].text) printf("%llu\t%s\n", (unsigned long long)ends[k].count, ends[k].text);
  cf_free(&plan);
  return 0;
}
