/* A service that makes a page of six parts. Four threads share one desk: each claims what is ready, runs its C function by its number
 * and finishes it. All parts are asked for at once and joined by allOf. One has a value for its limit, and one a fallback behind its
 * limit; one is asked of two replicas, and the function behind their anyOf cancels the loser; one fails twice, and is tried again by
 * stages that are attached meanwhile. The time is the machine's, and what is printed doesn't depend on it.
 *
 * Then the desk is closed, and its history done again, event by event, to a graph that one thread has: every caller has to have been
 * told what that graph tells at the place of its call or look. */
#define _POSIX_C_SOURCE 200809L
#include "cf.h"
#include <pthread.h>
#include <stdio.h>
#include <string.h>
#include <time.h>

/* Moments are milliseconds, told in steps. At the last one every limit has fired: so a thread tells no more than so many MOMENTS, and
 * looks no more often while it waits, and neither the log nor the records can be full. */
enum { THREADS = 4, TRIES = 3, STEP = 5, SOON = 20, LAST = 20000, MOMENTS = LAST / STEP + 2 };
enum { ROOM = TRIES - 1, WORK = 200, LOG = THREADS * (MOMENTS + WORK), CALLS = 2 * (MOMENTS + WORK), BUSY = 503 };

/* The stages, by the numbers that they get in this order. */
enum { PROFILE, BASKET, ADS, NEWS, NEWS_OR, REPLICA_A, REPLICA_B, FIRST, PRICE, STOCK_TRY, STOCK, PARTS, PAGE, STAGES };
static const uint16_t parts[] = {PROFILE, BASKET, ADS, NEWS_OR, PRICE, STOCK};
enum { PARTS_COUNT = sizeof parts / sizeof parts[0] };

struct service {
  cf_handle plan, callers[THREADS], fresh;
  struct timespec began;
};

/* A thread: its caller, the last moment that it told, and how it ended. */
struct worker {
  struct service *service;
  cf_handle *caller;
  uint32_t told, code;
};

static uint32_t said(const char *call, uint32_t code) {
  fprintf(stderr, "%s: answered %u\n", call, (unsigned)code);
  return code;
}
#define TRY(call)                                                                                                                          \
  do {                                                                                                                                     \
    uint32_t code_ = (call);                                                                                                               \
    if (code_ != CF_OK) return said(#call, code_);                                                                                         \
  } while (0)

/* ---- Time ---- */

static void rest(void) {
  const struct timespec step = {.tv_nsec = STEP * 1000000L};
  nanosleep(&step, NULL);
}

/* Hands the desk the moment, where a step has passed since this thread last did. Another may have told a later one: CF_PAST. */
static uint32_t tell_time(struct worker *me) {
  const struct timespec *began = &me->service->began;
  struct timespec now;
  cf_reply reply;
  if (clock_gettime(CLOCK_MONOTONIC, &now) != 0) return said("clock_gettime", CF_NOTHING);
  int64_t passed = (int64_t)(now.tv_sec - began->tv_sec) * 1000 + (now.tv_nsec - began->tv_nsec) / 1000000;
  uint32_t moment = passed < LAST ? (uint32_t)(passed / STEP * STEP) : LAST;
  if (moment <= me->told) return CF_OK;
  TRY(cf_desk_tick(me->caller, moment, &reply));
  me->told = moment;
  return CF_OK;
}

/* Waits until a stage is settled. Meanwhile the time goes on. */
static uint32_t wait_for(struct worker *me, uint16_t stage) {
  for (;;) {
    cf_now now;
    TRY(tell_time(me));
    TRY(cf_desk_join(me->caller, stage, 1, &now));
    if (now.kind != CF_ABSENT) return CF_OK;
    rest();
  }
}

/* ---- Functions of stages ---- */

struct job {
  uint16_t stage, function;
  cf_args args;
};

static cf_answer give(int32_t number) { return (cf_answer){.kind = CF_GIVE, .value = {CF_INT, number}}; }

/* What each part gives is a bit of its own, so the sum tells who gave. */
static int32_t bit(uint16_t stage) { return (int32_t)1 << stage; }

static uint32_t ask(struct worker *me, const struct job *job, cf_answer *answer) {
  (void)me;
  *answer = give(bit(job->stage));
  return CF_OK;
}

/* A backend that answers when nobody waits any more: its stage has timed out by then, or was cancelled. */
static uint32_t ask_too_slow(struct worker *me, const struct job *job, cf_answer *answer) {
  TRY(wait_for(me, job->stage));
  *answer = give(-1);
  return CF_OK;
}

static uint32_t old_news(struct worker *me, const struct job *job, cf_answer *answer) {
  (void)me;
  *answer = job->args.outcome.kind == CF_TIMED_OUT ? give(bit(job->stage)) : (cf_answer){.kind = CF_THROW, .code = job->args.outcome.code};
  return CF_OK;
}

/* Takes the replica that was first, and cancels the other: to cancel a stage that has a value changes nothing. */
static uint32_t take_first(struct worker *me, const struct job *job, cf_answer *answer) {
  cf_reply reply;
  for (uint16_t replica = REPLICA_A; replica <= REPLICA_B; replica++) TRY(cf_desk_cancel(me->caller, replica, &reply));
  *answer = (cf_answer){.kind = CF_GIVE, .value = job->args.first};
  return CF_OK;
}

enum { F_ASK, F_ASK_TOO_SLOW, F_OLD_NEWS, F_TAKE_FIRST, F_ADD_UP, F_TRY };

/* The first tries throw, each behind having attached the next one; the last completes the part that the page waits for. */
static uint32_t try_stock(struct worker *me, const struct job *job, cf_answer *answer) {
  cf_reply reply;
  int number = job->function - F_TRY + 1;
  if (number < TRIES) {
    TRY(cf_desk_attach(me->caller, CF_EXCEPTIONALLY, &job->stage, 1, job->function + 1u, &reply));
    if (reply.answer != CF_AT) return said("to attach a try", reply.answer);
    *answer = (cf_answer){.kind = CF_THROW, .code = BUSY};
    return CF_OK;
  }
  *answer = give(bit(STOCK));
  TRY(cf_desk_complete(me->caller, STOCK, answer->value, &reply));
  return CF_OK;
}

/* All parts are settled here. */
static uint32_t add_up(struct worker *me, const struct job *job, cf_answer *answer) {
  int32_t sum = 0;
  (void)job;
  for (size_t i = 0; i < PARTS_COUNT; i++) {
    cf_now now;
    TRY(cf_desk_join(me->caller, parts[i], 1, &now));
    if (now.kind != CF_GOT_VALUE) return said("to join a part", now.kind);
    sum += now.outcome.value.number;
  }
  *answer = give(sum);
  return CF_OK;
}

static uint32_t (*const functions[])(struct worker *, const struct job *, cf_answer *) = {
    ask, ask_too_slow, old_news, take_first, add_up, try_stock, try_stock, try_stock};
enum { FUNCTIONS = sizeof functions / sizeof functions[0] };
_Static_assert(FUNCTIONS == F_TRY + TRIES, "each try has a number of its own");

/* ---- The plan ---- */

enum { ONE = 1, TWO = 2 };
static const struct {
  uint32_t form;
  const uint16_t *of;
  size_t n;
  uint32_t function, limit, kind;
} stages[STAGES] = {
    [PROFILE] = {CF_SUPPLY, NULL, 0, F_ASK, LAST, CF_TIMEOUT},
    [BASKET] = {CF_SUPPLY, NULL, 0, F_ASK, LAST, CF_TIMEOUT},
    [ADS] = {CF_SUPPLY, NULL, 0, F_ASK_TOO_SLOW, SOON, CF_GIVE_VALUE},
    [NEWS] = {CF_SUPPLY, NULL, 0, F_ASK_TOO_SLOW, SOON, CF_TIMEOUT},
    [NEWS_OR] = {CF_EXCEPTIONALLY, (const uint16_t[]){NEWS}, ONE, F_OLD_NEWS, LAST, CF_TIMEOUT},
    [REPLICA_A] = {CF_SUPPLY, NULL, 0, F_ASK_TOO_SLOW, LAST, CF_TIMEOUT},
    [REPLICA_B] = {CF_SUPPLY, NULL, 0, F_ASK, LAST, CF_TIMEOUT},
    [FIRST] = {CF_ANY_OF, (const uint16_t[]){REPLICA_A, REPLICA_B}, TWO, CF_NO_FUNCTION, LAST, CF_TIMEOUT},
    [PRICE] = {CF_APPLY, (const uint16_t[]){FIRST}, ONE, F_TAKE_FIRST, LAST, CF_TIMEOUT},
    [STOCK_TRY] = {CF_SUPPLY, NULL, 0, F_TRY, LAST, CF_TIMEOUT},
    [STOCK] = {CF_SOURCE, NULL, 0, CF_NO_FUNCTION, LAST, CF_TIMEOUT},
    [PARTS] = {CF_ALL_OF, parts, PARTS_COUNT, CF_NO_FUNCTION, LAST, CF_TIMEOUT},
    [PAGE] = {CF_APPLY, (const uint16_t[]){PARTS}, ONE, F_ADD_UP, LAST, CF_TIMEOUT},
};

static uint32_t open_service(struct service *service) {
  TRY(cf_builder_new(&service->plan, STAGES, 0));
  for (size_t i = 0; i < STAGES; i++) {
    uint16_t number;
    TRY(cf_builder_stage(&service->plan, stages[i].form, stages[i].of, stages[i].n, stages[i].function, &number));
    if (number != i) return said("the stage's number", CF_NO_STAGE);
    TRY(cf_builder_limit(&service->plan, number, stages[i].limit, stages[i].kind, 0, (cf_value){CF_INT, bit(number)}));
  }
  TRY(cf_build(&service->plan));
  TRY(cf_desk_open_growing(&service->plan, service->callers, THREADS, LOG, CALLS, ROOM, FUNCTIONS));
  TRY(cf_graph_new(&service->plan, ROOM, &service->fresh));
  return CF_OK;
}

/* ---- Threads ---- */

/* Runs the function of a ready stage, unless another caller has claimed or settled it first. */
static uint32_t run(struct worker *me, uint16_t stage) {
  struct job job = {.stage = stage};
  cf_answer answer;
  cf_reply reply;
  TRY(cf_desk_claim(me->caller, stage, &reply));
  if (reply.answer != CF_GRANTED) return CF_OK;
  job.args = reply.args;
  TRY(cf_desk_function(me->caller, stage, &job.function));
  TRY(functions[job.function](me, &job, &answer));
  TRY(cf_desk_finish(me->caller, stage, answer, &reply));
  return reply.answer == CF_NOT_YOURS ? said("to finish a claimed stage", reply.answer) : CF_OK;
}

/* Works until the page is settled. */
static uint32_t work(struct worker *me) {
  for (;;) {
    cf_now now;
    uint16_t stage;
    TRY(tell_time(me));
    uint32_t code = cf_desk_ready(me->caller, &stage);
    if (code == CF_OK) {
      TRY(run(me, stage));
      continue;
    }
    if (code != CF_NOTHING) return said("cf_desk_ready", code);
    TRY(cf_desk_read_now(me->caller, PAGE, (cf_value){CF_NIL, 0}, &now));
    if (now.kind != CF_ABSENT) return CF_OK;
    rest();
  }
}

/* Cancels every stage, so that nobody waits for one any longer. What is refused then, as where the log is full, the limits end. */
static void give_up(cf_handle *caller) {
  cf_reply reply;
  for (uint16_t stage = 0; stage < STAGES; stage++) (void)cf_desk_cancel(caller, stage, &reply);
}

static void *begin(void *worker) {
  struct worker *me = worker;
  me->code = work(me);
  if (me->code != CF_OK) give_up(me->caller);
  return NULL;
}

static uint32_t serve(struct service *service) {
  struct worker workers[THREADS];
  pthread_t threads[THREADS];
  size_t started = 0;
  uint32_t code = CF_OK;
  if (clock_gettime(CLOCK_MONOTONIC, &service->began) != 0) return said("clock_gettime", CF_NOTHING);
  for (; started < THREADS; started++) {
    workers[started] = (struct worker){.service = service, .caller = &service->callers[started]};
    if (pthread_create(&threads[started], NULL, begin, &workers[started]) != 0) {
      code = said("pthread_create", CF_NO_MEMORY);
      give_up(&service->callers[started]);
      break;
    }
  }
  for (size_t k = 0; k < started; k++) {
    pthread_join(threads[k], NULL); /* of a thread that was started and isn't joined yet, so it can't fail */
    if (workers[k].code != CF_OK) code = workers[k].code;
  }
  return code;
}

/* ---- The history, done again ---- */

/* How many replies, looks and outcomes were compared, and how many weren't the fresh graph's; how many stages were claimed twice. */
struct found {
  unsigned compared, different, twice;
};

/* No padding is in these, so equal ones have equal bytes. */
_Static_assert(sizeof(cf_reply) == 12 * sizeof(uint32_t) && sizeof(cf_outcome) == 5 * sizeof(uint32_t), "no padding");
_Static_assert(sizeof(cf_now) == 6 * sizeof(uint32_t), "no padding");

static void compare(struct found *found, bool is_same) {
  found->compared++;
  found->different += !is_same;
}

static uint32_t check_look(cf_handle *fresh, const cf_record *record, struct found *found) {
  cf_outcome outcome;
  cf_now now;
  if (record->asked == CF_ASKED_OUTCOME) {
    TRY(cf_get(fresh, record->stage, &outcome));
    compare(found, memcmp(&outcome, &record->outcome, sizeof outcome) == 0);
  } else {
    TRY(cf_get_now(fresh, record->stage, record->absent, &now));
    compare(found, memcmp(&now, &record->now, sizeof now) == 0);
  }
  return CF_OK;
}

/* The looks of all callers at this place of the history. `next` says for each which record is its next. */
static uint32_t check_looks(cf_handle *closed, cf_handle *fresh, uint16_t place, uint16_t next[THREADS], struct found *found) {
  for (uint8_t who = 0; who < THREADS; who++) {
    uint16_t records;
    TRY(cf_closed_records(closed, who, &records));
    for (; next[who] < records; next[who]++) {
      cf_record record;
      TRY(cf_closed_record(closed, who, next[who], &record));
      if (record.kind != CF_SAW || record.place != place) break;
      TRY(check_look(fresh, &record, found));
    }
  }
  return CF_OK;
}

/* Does the event at this place to the fresh graph, whose reply has to be the next record of its caller. */
static uint32_t check_event(cf_handle *closed, cf_handle *fresh, uint16_t place, uint16_t next[THREADS], struct found *found) {
  static bool claimed[STAGES + ROOM];
  uint64_t word;
  cf_event event;
  cf_reply reply;
  cf_record record;
  TRY(cf_closed_word(closed, place, &word));
  TRY(cf_event_of(word, &event));
  TRY(cf_apply(fresh, word, &reply));
  TRY(cf_closed_record(closed, event.who, next[event.who]++, &record));
  compare(found,
      record.kind == CF_DID && record.word == word && record.place == place + 1u && memcmp(&reply, &record.reply, sizeof reply) == 0);
  if (event.call == CF_CALL_CLAIM && reply.answer == CF_GRANTED) {
    found->twice += claimed[event.stage];
    claimed[event.stage] = true;
  }
  return CF_OK;
}

static uint32_t check_history(cf_handle *closed, cf_handle *fresh, struct found *found) {
  uint16_t events, records, next[THREADS] = {0};
  TRY(cf_closed_events(closed, &events));
  for (uint16_t place = 0; place < events; place++) {
    TRY(check_looks(closed, fresh, place, next, found));
    TRY(check_event(closed, fresh, place, next, found));
  }
  TRY(check_looks(closed, fresh, events, next, found));
  for (uint8_t who = 0; who < THREADS; who++) {
    TRY(cf_closed_records(closed, who, &records));
    compare(found, next[who] == records);
  }
  return CF_OK;
}

static uint32_t check_outcomes(cf_handle *graph, cf_handle *fresh, struct found *found) {
  uint16_t count, fresh_count;
  TRY(cf_stages(graph, &count));
  TRY(cf_stages(fresh, &fresh_count));
  compare(found, count == fresh_count && count == STAGES + ROOM);
  for (uint16_t stage = 0; stage < count; stage++) {
    cf_outcome outcome, wanted;
    TRY(cf_get(graph, stage, &outcome));
    TRY(cf_get(fresh, stage, &wanted));
    compare(found, memcmp(&outcome, &wanted, sizeof outcome) == 0);
  }
  return CF_OK;
}

/* ---- What is printed ---- */

static uint32_t show(cf_handle *graph, const char *what, uint16_t stage) {
  uint8_t text[64];
  size_t length;
  cf_outcome outcome;
  TRY(cf_get(graph, stage, &outcome));
  TRY(cf_outcome_text(outcome, text, sizeof text, &length));
  if (length > sizeof text) return said("the length of an outcome", CF_ROOM);
  printf("%-12s%.*s\n", what, (int)length, (const char *)text);
  return CF_OK;
}

static uint32_t show_page(cf_handle *graph) {
  TRY(show(graph, "ads", ADS));
  TRY(show(graph, "news", NEWS));
  TRY(show(graph, "old news", NEWS_OR));
  TRY(show(graph, "replica A", REPLICA_A));
  TRY(show(graph, "replica B", REPLICA_B));
  TRY(show(graph, "price", PRICE));
  TRY(show(graph, "stock", STOCK));
  TRY(show(graph, "first try", STOCK_TRY));
  TRY(show(graph, "second try", STAGES));
  TRY(show(graph, "third try", STAGES + 1));
  return show(graph, "page", PAGE);
}

/* The closing, and then the closed desk and its graph, stand behind the handle of the first caller. */
static uint32_t close_and_check(struct service *service) {
  cf_handle *closed = &service->callers[0];
  struct found found = {0};
  TRY(cf_close_begin(closed));
  for (size_t k = 1; k < THREADS; k++) TRY(cf_close_add(closed, &service->callers[k]));
  TRY(cf_close_end(closed));
  TRY(check_history(closed, &service->fresh, &found));
  TRY(cf_closed_graph(closed));
  TRY(check_outcomes(closed, &service->fresh, &found));
  TRY(show_page(closed));
  printf("replies, looks and outcomes that differ: %u\n", found.different);
  printf("stages claimed twice: %u\n", found.twice);
  return found.compared == 0 || found.different + found.twice > 0 ? said("the history done again", CF_NOTHING) : CF_OK;
}

int main(void) {
  struct service service = {0};
  uint32_t code = open_service(&service);
  if (code == CF_OK) code = serve(&service);
  if (code == CF_OK) code = close_and_check(&service);
  for (size_t k = 0; k < THREADS; k++) cf_free(&service.callers[k]);
  cf_free(&service.fresh);
  cf_free(&service.plan);
  return code == CF_OK ? 0 : 1;
}
