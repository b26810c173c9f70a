/* Calls of eight threads on one desk that overlap, judged for real time: some order of them, in which a call that returned before
 * another began stands before it, has to be answered so by a sequential graph (the check of Wing and Gong). No contract speaks of
 * instants.
 *
 *     overlaps [ROUNDS [SEED]]
 *
 * In a round each thread makes one to three calls on the round's one to three stages, each between two ticks of one counter; two
 * threads at a time begin it together. Its calls are judged by what the callers were told alone, over the model below, which
 * calls nothing of the library. A desk serves 64 rounds. Then it is closed, and its history has to be such an order of all its
 * calls, too. The program goes on until calls of different threads overlapped in so many rounds (1,000,000), and prints how many
 * rounds and calls did. The status is 0 where every round and history is right, 1 where one isn't, which is shown, and 2 where
 * that can't be told, as calls hardly overlap. */
#define _POSIX_C_SOURCE 200809L
#include "cf.h"
#include <inttypes.h>
#include <pthread.h>
#include <sched.h>
#include <stdatomic.h>
#include <stdio.h>
#include <stdlib.h>
#include <string.h>

enum { THREADS = 8, CALLS = 3, STAGES = 3, ROUNDS = 64, MOST = THREADS * CALLS, LOG = ROUNDS * MOST };
enum { TRIES = 100, SPINS = 200, MOMENT = 20000, SHOWN = 3 };

static void must(bool is_so, const char *what) {
  if (is_so) return;
  fprintf(stderr, "overlaps: %s\n", what);
  exit(2);
}

/* ---- A sequential graph of a few stages ---- */

/* The stages of a round, by their forms. Their sources are stages of the round, too. */
struct shape {
  uint32_t count, form[STAGES];
  uint16_t of[STAGES][2];
};
static const struct shape SHAPES[] = {
    {1, {CF_SOURCE}, {{0}}},
    {1, {CF_SUPPLY}, {{0}}},
    {2, {CF_SOURCE, CF_APPLY}, {{0}}},
    {2, {CF_SUPPLY, CF_HANDLE}, {{0}}},
    {3, {CF_SOURCE, CF_APPLY, CF_HANDLE}, {{0}, {0}, {1}}},
    {3, {CF_SOURCE, CF_SOURCE, CF_COMBINE}, {{0}, {0}, {0, 1}}},
    {3, {CF_SOURCE, CF_SUPPLY, CF_ANY_OF}, {{0}, {0}, {0, 1}}},
};
enum { SHAPE_COUNT = sizeof SHAPES / sizeof *SHAPES };

static uint32_t sources_of(uint32_t form) {
  return form == CF_SOURCE || form == CF_SUPPLY ? 0 : form == CF_COMBINE || form == CF_ANY_OF ? 2 : 1;
}

/* An outcome as one number: its kind, whether it is wrapped, and its value or code. 0 is none. */
static uint64_t outcome(uint64_t kind, uint64_t wrapped, uint64_t number) { return kind | wrapped << 4 | number << 5; }
static uint64_t kind_of(uint64_t it) { return it & 15; }
static uint64_t number_of(uint64_t it) { return it >> 5; }
static uint64_t wrap(uint64_t it) { return kind_of(it) == CF_VALUE ? it : it | 1 << 4; }

/* What a function is called with, as one number. */
static uint64_t args(uint64_t kind, uint64_t first, uint64_t second) { return kind | first << 3 | second << 34; }

/* What a stage is. `is` has a ready one's arguments, or a settled one's outcome; `holder` is 1 more than the caller whose claim
 * is open, or 0. */
enum { PENDING, READY, CLAIMED, SETTLED };
struct stage {
  uint32_t kind, holder;
  uint64_t is;
};
struct state {
  struct stage stages[STAGES];
};

/* A call, and what it was told: `args` are those of a claim that was granted. */
enum { COMPLETE, FAIL, CANCEL, CLAIM, FINISH, THROW, READ };
static const char *const NAMES[] = {"complete", "fail", "cancel", "claim", "finish", "throw", "read"};
struct told {
  uint64_t answer, args;
};
struct call {
  uint64_t begin, end;
  uint32_t who, what;
  uint16_t stage;
  uint32_t number;
  struct told told;
};

static void settle(struct stage *it, uint64_t with) { it->kind = SETTLED, it->is = with; }
static void be_ready(struct stage *it, uint64_t with) { it->kind = READY, it->is = with; }

/* What a pending stage takes from one source that is settled. */
static void take_one(struct stage *it, uint32_t form, uint64_t source) {
  if (form == CF_ANY_OF) settle(it, wrap(source));
  else if (form == CF_HANDLE) be_ready(it, args(CF_GOT, source, 0));
  else if (kind_of(source) == CF_VALUE) be_ready(it, args(CF_ONE, number_of(source), 0));
  else settle(it, wrap(source));
}

static void take_both(struct stage *it, uint64_t first, uint64_t second) {
  if (kind_of(first) != CF_VALUE) settle(it, wrap(first));
  else if (kind_of(second) != CF_VALUE) settle(it, wrap(second));
  else be_ready(it, args(CF_TWO, number_of(first), number_of(second)));
}

/* All that follows from what is settled. */
static void follow(const struct shape *shape, struct state *s) {
  for (uint32_t i = 0; i < shape->count; i++) {
    struct stage *it = &s->stages[i];
    const struct stage *first = &s->stages[shape->of[i][0]], *second = &s->stages[shape->of[i][1]];
    const uint32_t form = shape->form[i];
    if (it->kind != PENDING || form == CF_SOURCE) continue;
    if (form == CF_SUPPLY) be_ready(it, args(CF_NO_ARGS, 0, 0));
    else if (form == CF_COMBINE && first->kind == SETTLED && second->kind == SETTLED) take_both(it, first->is, second->is);
    else if (form == CF_COMBINE) continue;
    else if (first->kind == SETTLED) take_one(it, form, first->is);
    else if (form == CF_ANY_OF && second->kind == SETTLED) take_one(it, form, second->is);
  }
}

static struct state start(const struct shape *shape) {
  struct state s;
  memset(&s, 0, sizeof s);
  follow(shape, &s);
  return s;
}

/* Settles a stage from outside, unless it is settled: whether it was settled so. */
static uint64_t settle_once(struct stage *it, uint64_t with) {
  if (it->kind == SETTLED) return 0;
  settle(it, with);
  return 1;
}

static uint64_t finish(struct stage *it, uint32_t who, uint64_t with) {
  if (it->holder != who + 1) return CF_NOT_YOURS;
  it->holder = 0;
  return settle_once(it, with) ? CF_WON : CF_LATE;
}

static uint64_t claim(struct stage *it, uint32_t who, uint64_t *args) {
  if (it->kind == SETTLED) return CF_SETTLED;
  if (it->kind == CLAIMED) return CF_TAKEN;
  if (it->kind == PENDING) return CF_NOT_READY;
  *args = it->is, it->is = 0, it->kind = CLAIMED, it->holder = who + 1;
  return CF_GRANTED;
}

/* What the graph tells of a call, and the state that it leaves. */
static struct told answered(const struct shape *shape, struct state *s, const struct call *c) {
  struct stage *it = &s->stages[c->stage];
  struct told told = {0, 0};
  switch (c->what) {
  case COMPLETE: told.answer = settle_once(it, outcome(CF_VALUE, 0, c->number)); break;
  case FAIL: told.answer = settle_once(it, outcome(CF_THROWN, 0, c->number)); break;
  case CANCEL: settle_once(it, outcome(CF_CANCELLED, 0, 0)), told.answer = it->is == outcome(CF_CANCELLED, 0, 0); break;
  case FINISH: told.answer = finish(it, c->who, outcome(CF_VALUE, 0, c->number)); break;
  case THROW: told.answer = finish(it, c->who, outcome(CF_THROWN, 1, c->number)); break;
  case READ: told.answer = it->kind == SETTLED ? it->is : 0; break;
  default: told.answer = claim(it, c->who, &told.args);
  }
  follow(shape, s);
  return told;
}

/* ---- Is there such an order? ---- */

/* The calls of a round, in the order of their begins, and what the search has come to: which were done, and the state then. */
enum { SEEN = 1 << 15 };
struct seen {
  uint64_t of;
  uint64_t done;
  struct state state;
};
struct judge {
  uint64_t searches, count;
  const struct shape *shape;
  const struct call *calls;
  size_t n;
  struct seen *seen;
};

static struct judge new_judge(void) {
  struct judge it = {0, 0, NULL, NULL, 0, calloc(SEEN, sizeof(struct seen))};
  must(it.seen != NULL, "no memory");
  return it;
}

/* Whether this search wasn't there before. */
static bool is_new(struct judge *j, uint64_t done, const struct state *state) {
  const struct seen now = {j->searches, done, *state};
  uint64_t hash = 1469598103934665603u;
  for (size_t k = 0; k < sizeof now; k++) hash = (hash ^ ((const unsigned char *)&now)[k]) * 1099511628211u;
  for (uint64_t k = hash;; k++) {
    struct seen *it = &j->seen[(k ^ k >> 32) % SEEN];
    if (it->of != now.of) {
      *it = now;
      must(++j->count < SEEN / 2, "a round has too many orders");
      return true;
    }
    if (memcmp(it, &now, sizeof now) == 0) return false;
  }
}

/* Whether the calls that aren't done yet can be done from here. Next is one that began before any of them returned. */
static bool goes_on(struct judge *j, uint64_t done, const struct state *from) {
  uint64_t returned = UINT64_MAX;
  if (done == ((uint64_t)1 << j->n) - 1) return true;
  if (!is_new(j, done, from)) return false;
  for (size_t k = 0; k < j->n; k++)
    if (!(done >> k & 1) && j->calls[k].end < returned) returned = j->calls[k].end;
  for (size_t k = 0; k < j->n && j->calls[k].begin < returned; k++) {
    struct state now = *from;
    if (done >> k & 1) continue;
    const struct told told = answered(j->shape, &now, &j->calls[k]);
    if (told.answer != j->calls[k].told.answer || told.args != j->calls[k].told.args) continue;
    if (goes_on(j, done | (uint64_t)1 << k, &now)) return true;
  }
  return false;
}

static int by_begin(const void *a, const void *b) {
  const uint64_t x = ((const struct call *)a)->begin, y = ((const struct call *)b)->begin;
  return (x > y) - (x < y);
}

/* Sorts the calls, and says whether some order of them is right. */
static bool is_right(struct judge *j, const struct shape *shape, struct call *calls, size_t n) {
  const struct state from = start(shape);
  qsort(calls, n, sizeof *calls, by_begin);
  j->searches++, j->count = 0, j->shape = shape, j->calls = calls, j->n = n;
  return goes_on(j, 0, &from);
}

/* Whether calls that are sorted by where they stand keep time: none returned before one began that stands before it. */
struct placed {
  uint64_t place;
  const struct call *call;
  size_t round;
};

static int by_place(const void *a, const void *b) {
  const struct placed *x = a, *y = b;
  if (x->place != y->place) return x->place < y->place ? -1 : 1;
  return by_begin(x->call, y->call);
}

static bool keep_time(const struct placed *placed, size_t n) {
  uint64_t begun = 0;
  for (size_t k = 0; k < n; k++) {
    if (placed[k].call->end < begun) return false;
    if (placed[k].call->begin > begun) begun = placed[k].call->begin;
  }
  return true;
}

/* ---- Does the judge tell? ---- */

enum { ONE_SOURCE, ONE_SUPPLY, SOURCE_APPLY }; /* of SHAPES */
#define VALUE(number) (CF_VALUE | (number) << 5)
#define ONE_ARG(number) (CF_ONE | (number) << 3)

/* Up to three calls of a round, and whether some order of them is right. */
struct row {
  const char *name;
  bool is_right;
  uint32_t shape;
  size_t n;
  struct call calls[CALLS];
};

static void judge_rows(void) {
  const struct row rows[] = {
      {"a read behind a complete", true, ONE_SOURCE, 2, {{1, 2, 0, COMPLETE, 0, 5, {1, 0}}, {3, 4, 1, READ, 0, 0, {VALUE(5), 0}}}},
      {"a stale read", false, ONE_SOURCE, 2, {{1, 2, 0, COMPLETE, 0, 5, {1, 0}}, {3, 4, 1, READ, 0, 0, {0, 0}}}},
      {"a read beside a complete", true, ONE_SOURCE, 2, {{1, 3, 0, COMPLETE, 0, 5, {1, 0}}, {2, 4, 1, READ, 0, 0, {0, 0}}}},
      {"a read too soon", false, ONE_SOURCE, 2, {{3, 4, 0, COMPLETE, 0, 5, {1, 0}}, {1, 2, 1, READ, 0, 0, {VALUE(5), 0}}}},
      {"reads within a complete", true, ONE_SOURCE, 3,
          {{1, 6, 0, COMPLETE, 0, 5, {1, 0}}, {2, 3, 1, READ, 0, 0, {0, 0}}, {4, 5, 2, READ, 0, 0, {VALUE(5), 0}}}},
      {"reads that go back", false, ONE_SOURCE, 3,
          {{1, 6, 0, COMPLETE, 0, 5, {1, 0}}, {2, 3, 1, READ, 0, 0, {VALUE(5), 0}}, {4, 5, 2, READ, 0, 0, {0, 0}}}},
      {"two that win", false, ONE_SOURCE, 2, {{1, 3, 0, COMPLETE, 0, 5, {1, 0}}, {2, 4, 1, COMPLETE, 0, 6, {1, 0}}}},
      {"one that loses", true, ONE_SOURCE, 2, {{1, 3, 0, COMPLETE, 0, 5, {0, 0}}, {2, 4, 1, COMPLETE, 0, 6, {1, 0}}}},
      {"one that loses too soon", false, ONE_SOURCE, 2, {{1, 2, 0, COMPLETE, 0, 5, {0, 0}}, {3, 4, 1, COMPLETE, 0, 6, {1, 0}}}},
      {"a loser's value", false, ONE_SOURCE, 3,
          {{1, 4, 0, COMPLETE, 0, 5, {1, 0}}, {2, 5, 1, COMPLETE, 0, 6, {0, 0}}, {3, 6, 2, READ, 0, 0, {VALUE(6), 0}}}},
      {"two grants", false, ONE_SUPPLY, 2, {{1, 3, 0, CLAIM, 0, 0, {CF_GRANTED, 0}}, {2, 4, 1, CLAIM, 0, 0, {CF_GRANTED, 0}}}},
      {"one grant", true, ONE_SUPPLY, 2, {{1, 3, 0, CLAIM, 0, 0, {CF_TAKEN, 0}}, {2, 4, 1, CLAIM, 0, 0, {CF_GRANTED, 0}}}},
      {"another's finish", false, ONE_SUPPLY, 2, {{1, 2, 0, CLAIM, 0, 0, {CF_GRANTED, 0}}, {3, 4, 1, FINISH, 0, 5, {CF_WON, 0}}}},
      {"a claim that comes too late", false, SOURCE_APPLY, 2,
          {{1, 2, 0, COMPLETE, 0, 5, {1, 0}}, {3, 4, 1, CLAIM, 1, 0, {CF_NOT_READY, 0}}}},
      {"its arguments", true, SOURCE_APPLY, 2, {{1, 3, 0, COMPLETE, 0, 5, {1, 0}}, {2, 4, 1, CLAIM, 1, 0, {CF_GRANTED, ONE_ARG(5)}}}},
      {"others", false, SOURCE_APPLY, 2, {{1, 3, 0, COMPLETE, 0, 5, {1, 0}}, {2, 4, 1, CLAIM, 1, 0, {CF_GRANTED, ONE_ARG(6)}}}},
  };
  struct judge judge = new_judge();
  for (size_t k = 0; k < sizeof rows / sizeof *rows; k++) {
    struct call calls[CALLS];
    memcpy(calls, rows[k].calls, sizeof calls);
    must(is_right(&judge, &SHAPES[rows[k].shape], calls, rows[k].n) == rows[k].is_right, rows[k].name);
  }
  free(judge.seen);
  const struct call reads[] = {{1, 2, 0, READ, 0, 0, {0, 0}}, {1, 3, 1, READ, 0, 0, {0, 0}}, {3, 4, 0, READ, 0, 0, {0, 0}}};
  const struct placed kept[] = {{0, &reads[0], 0}, {1, &reads[1], 0}, {2, &reads[2], 0}};
  const struct placed lost[] = {{0, &reads[2], 0}, {1, &reads[1], 0}, {2, &reads[0], 0}};
  must(keep_time(kept, 3) && !keep_time(lost, 3), "what keeps time");
}

/* ---- Calls of the library ---- */

/* A round: its stages, the number of the first, how many threads have begun it, and what each called. */
struct round {
  const struct shape *shape;
  uint16_t first;
  atomic_uint begun;
  size_t n[THREADS];
  struct call calls[THREADS][CALLS];
};
static struct round rounds[ROUNDS];
static cf_handle callers[THREADS];
static atomic_ullong ticks;

static cf_value value(uint32_t number) {
  cf_value it = {CF_INT, 0};
  it.number = (int32_t)number;
  return it;
}

static uint64_t of_outcome(const cf_outcome *it) {
  if (it->kind == CF_PENDING) return 0;
  must(it->kind != CF_VALUE || it->value.kind == CF_INT, "a value is nil");
  return outcome(it->kind, it->wrapped, it->kind == CF_VALUE ? (uint32_t)it->value.number : it->code);
}

static uint64_t of_args(const cf_args *it) {
  if (it->kind == CF_GOT) return args(CF_GOT, of_outcome(&it->outcome), 0);
  return args(it->kind, (uint32_t)it->first.number, (uint32_t)it->second.number);
}

/* Makes the call between two ticks. */
static void make(cf_handle *caller, uint16_t first, struct call *c) {
  cf_answer answer = {CF_GIVE, 0, {CF_INT, 0}, 0};
  cf_reply reply;
  cf_outcome outcome;
  uint32_t code = CF_NULL;
  const uint16_t stage = (uint16_t)(first + c->stage);
  memset(&reply, 0, sizeof reply);
  answer.kind = c->what == THROW ? CF_THROW : CF_GIVE, answer.code = c->number, answer.value = value(c->number);
  c->begin = atomic_fetch_add(&ticks, 1);
  switch (c->what) {
  case COMPLETE: code = cf_desk_complete(caller, stage, answer.value, &reply); break;
  case FAIL: code = cf_desk_fail(caller, stage, c->number, &reply); break;
  case CANCEL: code = cf_desk_cancel(caller, stage, &reply); break;
  case CLAIM: code = cf_desk_claim(caller, stage, &reply); break;
  case READ: code = cf_desk_read(caller, stage, &outcome); break;
  default: code = cf_desk_finish_with(caller, stage, &answer, &reply);
  }
  c->end = atomic_fetch_add(&ticks, 1);
  must(code == CF_OK, "a call was refused");
  c->told.answer = c->what == READ ? of_outcome(&outcome) : reply.answer;
  c->told.args = c->what == CLAIM && reply.answer == CF_GRANTED ? of_args(&reply.args) : 0;
}

/* ---- A desk, and its rounds ---- */

struct person {
  uint32_t number;
  uint64_t chance;
  struct judge judge;
  uint64_t wrong, rounds, overlapped, calls, beside;
};
static struct person people[THREADS];
static uint64_t wanted, served, wrong_histories;
static atomic_uint arrived, turn;
static bool is_over;

static uint64_t chance(struct person *me, uint64_t below) {
  me->chance ^= me->chance << 13, me->chance ^= me->chance >> 7, me->chance ^= me->chance << 17;
  return (me->chance >> 20) % below;
}

/* Waits until all threads are here. It yields and doesn't sleep, so that threads go on together where processors are rare. */
static void meet(void) {
  const unsigned now = atomic_load(&turn);
  if (atomic_fetch_add(&arrived, 1) == THREADS - 1) {
    atomic_store(&arrived, 0);
    atomic_store(&turn, now + 1);
    return;
  }
  for (uint32_t spins = 1; atomic_load(&turn) == now; spins++)
    if (spins % SPINS == 0) sched_yield();
}

/* Waits a moment for another thread, so that two begin a round together, where the machine has processors for both. */
static void begin(atomic_uint *begun) {
  const unsigned pair = (atomic_fetch_add(begun, 1) / 2 + 1) * 2;
  for (uint32_t spins = 0; atomic_load(begun) < pair && spins < MOMENT; spins++) {}
}

/* Some call. Who holds a claim mostly finishes it. */
static void choose(struct person *me, const struct shape *shape, int held, struct call *c) {
  static const uint32_t WHAT[] = {COMPLETE, COMPLETE, FAIL, CANCEL, CLAIM, CLAIM, CLAIM, FINISH, READ, READ, READ, READ};
  memset(c, 0, sizeof *c);
  c->who = me->number, c->what = WHAT[chance(me, sizeof WHAT / sizeof *WHAT)], c->stage = (uint16_t)chance(me, shape->count);
  if (held >= 0 && chance(me, 3)) c->what = chance(me, 4) ? FINISH : THROW, c->stage = (uint16_t)held;
  if (c->what != CANCEL && c->what != CLAIM && c->what != READ) c->number = 1 + (uint32_t)chance(me, 1000000);
}

static void act(struct person *me, struct round *round) {
  int held = -1;
  round->n[me->number] = 1 + chance(me, CALLS);
  for (size_t k = 0; k < round->n[me->number]; k++) {
    struct call *c = &round->calls[me->number][k];
    choose(me, round->shape, held, c);
    for (volatile uint64_t wait = chance(me, 100); wait > 0; wait--) {}
    make(&callers[me->number], round->first, c);
    if (c->what == CLAIM && c->told.answer == CF_GRANTED) held = c->stage;
    if (c->what == FINISH || c->what == THROW) held = -1;
  }
}

static void show(const char *what, const struct shape *shape, const struct call *calls, size_t n) {
  printf("%s: stages of forms", what);
  for (uint32_t i = 0; i < shape->count; i++) printf(" %" PRIu32, shape->form[i]);
  printf("\n");
  for (const struct call *c = calls; c < calls + n; c++)
    printf("  %" PRIu64 " to %" PRIu64 ": caller %" PRIu32 ": %s %" PRIu16 " %" PRIu32 ": %" PRIx64 " %" PRIx64 "\n", c->begin, c->end,
        c->who, NAMES[c->what], c->stage, c->number, c->told.answer, c->told.args);
}

static size_t all_calls(const struct round *round, struct call *calls) {
  size_t n = 0;
  for (size_t t = 0; t < THREADS; t++)
    for (size_t k = 0; k < round->n[t]; k++) calls[n++] = round->calls[t][k];
  return n;
}

static void judge(struct person *me, const struct round *round) {
  struct call calls[MOST];
  const size_t n = all_calls(round, calls);
  uint64_t beside = 0;
  if (!is_right(&me->judge, round->shape, calls, n) && me->wrong++ < SHOWN) show("no order is right", round->shape, calls, n);
  for (size_t k = 0; k < n; k++) {
    bool is_beside = false;
    for (size_t l = 0; l < n && !is_beside; l++)
      is_beside = calls[k].who != calls[l].who && calls[k].begin < calls[l].end && calls[l].begin < calls[k].end;
    beside += is_beside;
  }
  me->rounds++, me->overlapped += beside > 0, me->calls += n, me->beside += beside;
}

/* Where each call of a caller stands in the history: a changing call at twice its place, a look right behind what it saw. */
static size_t place_all(cf_handle *closed, uint32_t t, struct placed *placed) {
  uint16_t records = 0;
  size_t n = 0;
  for (size_t r = 0; r < ROUNDS; r++)
    for (size_t k = 0; k < rounds[r].n[t]; k++, n++) {
      cf_record record;
      must(cf_closed_record(closed, (uint8_t)t, (uint16_t)n, &record) == CF_OK, "a call has no record");
      placed[n].place = 2 * (uint64_t)record.place + (record.kind == CF_SAW);
      placed[n].call = &rounds[r].calls[t][k], placed[n].round = r;
    }
  must(cf_closed_records(closed, (uint8_t)t, &records) == CF_OK && records == n, "a record has no call");
  return n;
}

/* Closes the desk: its history keeps time, and is answered so by the model, round for round. */
static void close_desk(void) {
  static struct placed placed[LOG];
  cf_handle *closed = &callers[0];
  struct state now[ROUNDS];
  size_t n = 0;
  must(cf_close_begin(closed) == CF_OK, "a desk can't be closed");
  for (size_t t = 1; t < THREADS; t++) must(cf_close_add(closed, &callers[t]) == CF_OK, "a caller can't be given back");
  must(cf_close_end(closed) == CF_OK, "a closing doesn't end");
  for (uint32_t t = 0; t < THREADS; t++) n += place_all(closed, t, placed + n);
  qsort(placed, n, sizeof *placed, by_place);
  bool is_right = keep_time(placed, n);
  for (size_t r = 0; r < ROUNDS; r++) now[r] = start(rounds[r].shape);
  for (size_t k = 0; k < n; k++) {
    const struct call *c = placed[k].call;
    const struct told told = answered(rounds[placed[k].round].shape, &now[placed[k].round], c);
    is_right = is_right && told.answer == c->told.answer && told.args == c->told.args;
  }
  if (!is_right && wrong_histories++ < SHOWN) printf("the history of desk %" PRIu64 " isn't such an order\n", served);
  cf_free(closed);
}

/* Opens a desk, whose plan has the stages of all rounds. */
static void open_desk(struct person *me) {
  cf_handle plan = {NULL, false};
  uint16_t next = 0, made;
  must(cf_builder_new(&plan, 0, 0) == CF_OK, "no builder");
  for (size_t r = 0; r < ROUNDS; r++) {
    const struct shape *shape = &SHAPES[chance(me, SHAPE_COUNT)];
    rounds[r].shape = shape, rounds[r].first = next, atomic_store(&rounds[r].begun, 0);
    for (uint32_t i = 0; i < shape->count; i++, next++) {
      const uint16_t of[] = {(uint16_t)(rounds[r].first + shape->of[i][0]), (uint16_t)(rounds[r].first + shape->of[i][1])};
      const uint32_t form = shape->form[i], function = form == CF_SOURCE || form == CF_ANY_OF ? CF_NO_FUNCTION : 0;
      must(cf_builder_stage(&plan, form, of, sources_of(form), function, &made) == CF_OK && made == next, "no stage");
    }
  }
  must(cf_build(&plan) == CF_OK && cf_desk_open(&plan, callers, THREADS, LOG, ROUNDS * CALLS) == CF_OK, "no desk");
  cf_free(&plan);
}

static uint64_t overlapped(void) {
  uint64_t sum = 0;
  for (size_t t = 0; t < THREADS; t++) sum += people[t].overlapped;
  return sum;
}

/* A thread. The first one alone is at work between the meeting after the judging and the one before the next desk's rounds. */
static void *take_part(void *given) {
  struct person *me = given;
  for (;;) {
    meet();
    if (is_over) return NULL;
    for (size_t r = 0; r < ROUNDS; r++) {
      begin(&rounds[r].begun);
      act(me, &rounds[r]);
    }
    meet();
    for (size_t r = me->number; r < ROUNDS; r += THREADS) judge(me, &rounds[r]);
    meet();
    if (me->number > 0) continue;
    close_desk();
    served++;
    is_over = overlapped() >= wanted || served * ROUNDS >= TRIES * wanted + ROUNDS;
    if (!is_over) open_desk(me);
  }
}

static uint64_t word(int n, char **words, int at, uint64_t absent) { return n > at ? strtoull(words[at], NULL, 10) : absent; }

int main(int n, char **words) {
  pthread_t threads[THREADS];
  struct person all = {0};
  const uint64_t seed = word(n, words, 2, 0);
  wanted = word(n, words, 1, 1000000);
  judge_rows();
  for (uint32_t t = 0; t < THREADS; t++) {
    people[t].number = t, people[t].judge = new_judge();
    people[t].chance = (seed + 1) * 0x9e3779b97f4a7c15u + (t + 1) * 0xbf58476d1ce4e5b9u;
  }
  open_desk(&people[0]);
  for (uint32_t t = 0; t < THREADS; t++) must(pthread_create(&threads[t], NULL, take_part, &people[t]) == 0, "no thread");
  for (uint32_t t = 0; t < THREADS; t++) {
    const struct person *it = &people[t];
    pthread_join(threads[t], NULL);
    all.rounds += it->rounds, all.overlapped += it->overlapped, all.calls += it->calls, all.beside += it->beside;
    all.wrong += it->wrong;
    free(it->judge.seen);
  }
  printf("calls of different threads overlapped in %" PRIu64 " of %" PRIu64 " rounds, %" PRIu64 " of %" PRIu64 " calls did\n",
      all.overlapped, all.rounds, all.beside, all.calls);
  printf("%" PRIu64 " rounds and %" PRIu64 " of %" PRIu64 " histories are wrong\n", all.wrong, wrong_histories, served);
  if (all.wrong + wrong_histories > 0) return 1;
  must(all.overlapped >= wanted, "calls hardly overlap here");
  return 0;
}
