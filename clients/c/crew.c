/* Two threads share a desk, each with one call a step: cf_desk_next finishes what the task holds, and claims what is ready. The sources come by
 * one call, cf_desk_complete_many. Then what these refuse, and that a task that is refused stays as it was. */
#include "cf.h"
#include "rows.h"
#include <pthread.h>
#include <sched.h>
#include <stdio.h>
#include <string.h>

enum { SOURCES = 100, STAGES = 2 * SOURCES, CREW = 2, LOG = 2000, CALLS = 1000 };
enum { FEW = 3, SHORT_LOG = 4 };

/* So many sources, and a double of each. */
static void build(cf_handle *plan, uint16_t sources) {
  uint16_t stage;
  row("builder", cf_builder_new(plan, 0, 0), CF_OK);
  for (uint16_t i = 0; i < 2 * sources; i++) {
    const uint16_t of = (uint16_t)(i - sources);
    const uint32_t code = i < sources ? cf_builder_stage(plan, CF_SOURCE, NULL, 0, CF_NO_FUNCTION, &stage)
                                      : cf_builder_stage(plan, CF_APPLY, &of, 1, 0, &stage);
    if (code != CF_OK) row("stage", code, CF_OK);
  }
  row("build", cf_build(plan), CF_OK);
}

struct worker {
  cf_handle caller;
  uint32_t last;
  int done;
};

/* A caller's loop. It ends once all stages are settled, or with a code that it doesn't know. */
static void *work(void *given) {
  struct worker *me = given;
  cf_task task = {0};
  cf_outcome outcome;
  for (;;) {
    const uint32_t code = cf_desk_next(&me->caller, &task);
    me->last = code;
    if (code == CF_OK) {
      task.answer = (cf_answer){.kind = CF_GIVE, .value = {CF_INT, 2 * task.args.first.number}};
      me->done++;
    } else if (code == CF_LOST) {
      continue;
    } else if (code == CF_NOTHING) {
      bool all = true;
      for (uint16_t i = SOURCES; all && i < STAGES; i++) all = cf_desk_read(&me->caller, i, &outcome) == CF_OK && outcome.kind == CF_VALUE;
      if (all) return NULL;
      sched_yield();
    } else {
      return NULL;
    }
  }
}

static void by_crew(void) {
  static cf_given given[SOURCES];
  cf_handle plan = {0}, callers[CREW + 1] = {{0}};
  struct worker crew[CREW];
  pthread_t threads[CREW];
  cf_outcome outcome;
  size_t done = 0;
  build(&plan, SOURCES);
  row("desk", cf_desk_open(&plan, callers, CREW + 1, LOG, UINT16_MAX), CF_OK);
  cf_free(&plan);
  for (uint16_t i = 0; i < SOURCES; i++) given[i] = (cf_given){.stage = i, .value = {CF_INT, i}};
  for (int i = 0; i < CREW; i++) {
    crew[i] = (struct worker){.caller = callers[i]};
    memset(&callers[i], 0, sizeof callers[i]);
    row("thread", (uint32_t)pthread_create(&threads[i], NULL, work, &crew[i]), 0);
  }
  row("the sources", cf_desk_complete_many(&callers[CREW], given, SOURCES, &done), CF_OK);
  holds("all of them", done == SOURCES);
  int functions = 0;
  for (int i = 0; i < CREW; i++) {
    pthread_join(threads[i], NULL);
    row("a thread's last step", crew[i].last, CF_NOTHING);
    functions += crew[i].done;
  }
  int32_t sum = 0;
  for (uint16_t i = SOURCES; i < STAGES; i++)
    if (cf_desk_read(&callers[CREW], i, &outcome) == CF_OK && outcome.kind == CF_VALUE) sum += outcome.value.number;
  printf("by a crew of %d: %d functions, sum %d\n", CREW, functions, sum);
  for (int i = 0; i < CREW; i++) cf_free(&crew[i].caller);
  cf_free(&callers[CREW]);
}

/* Whether a step has this code, and leaves the task and the caller's records as they were. */
static void is_refused(const char *what, cf_handle *caller, cf_task *task, uint32_t wanted) {
  cf_task kept;
  uint16_t before = 0, after = 1;
  memcpy(&kept, task, sizeof kept);
  row("left", cf_desk_left(caller, &before), CF_OK);
  row(what, cf_desk_next(caller, task), wanted);
  row("left", cf_desk_left(caller, &after), CF_OK);
  holds("the task stays", !memcmp(&kept, task, sizeof kept) && before == after);
}

static void steps_refused(cf_handle *plan) {
  cf_handle empty = {0}, callers[2] = {{0}};
  cf_task task, other;
  cf_reply reply;
  cf_outcome outcome;
  memset(&task, 0, sizeof task), memset(&other, 0, sizeof other);
  row("desk", cf_desk_open(plan, callers, 2, LOG, CALLS), CF_OK);
  row("no caller", cf_desk_next(NULL, &task), CF_NULL);
  row("no task", cf_desk_next(callers, NULL), CF_NULL);
  row("an empty handle", cf_desk_next(&empty, &task), CF_EMPTY);
  row("a plan", cf_desk_next(plan, &task), CF_WRONG_KIND);
  row("a step where none is ready", cf_desk_next(callers, &task), CF_NOTHING);
  row("complete", cf_desk_complete(callers, 0, (cf_value){CF_INT, 4}, &reply), CF_OK);
  row("complete", cf_desk_complete(callers, 1, (cf_value){CF_INT, 5}, &reply), CF_OK);
  row("a step", cf_desk_next(callers, &task), CF_OK);
  holds("stage 3 is held", task.held == 1 && task.stage == FEW && task.args.kind == CF_ONE && task.args.first.number == 4);
  row("the other's step", cf_desk_next(&callers[1], &other), CF_OK);
  holds("stage 4 is held", other.held == 1 && other.stage == FEW + 1 && other.args.first.number == 5);

  task.stage = 2 * FEW;
  is_refused("a stage that isn't there", callers, &task, CF_NO_STAGE);
  task.stage = UINT16_MAX;
  is_refused("the highest number", callers, &task, CF_NO_STAGE);
  task.stage = 0;
  is_refused("a source", callers, &task, CF_NOT_HELD);
  task.stage = FEW + 1;
  is_refused("the other's stage", callers, &task, CF_NOT_HELD);
  task.stage = FEW;
  is_refused("of the wrong caller", &callers[1], &task, CF_NOT_HELD);

  row("the stage is cancelled", cf_desk_cancel(&callers[1], FEW, &reply), CF_OK);
  task.held = UINT32_MAX, task.answer.kind = UINT32_MAX;
  row("its finish is late", cf_desk_next(callers, &task), CF_NOTHING);
  holds("that is told", task.finished == CF_LATE && !task.held);
  task.held = 1, task.stage = FEW;
  is_refused("once more", callers, &task, CF_NOT_HELD);
  other.answer = (cf_answer){.kind = CF_THROW, .code = 9};
  row("a throw", cf_desk_next(&callers[1], &other), CF_NOTHING);
  holds("it won", other.finished == CF_WON && !other.held);
  row("a time-out", cf_desk_fail_as(callers, 2, CF_TIMED_OUT, 7, &reply), CF_OK);
  row("what depends on it", cf_desk_read(&callers[1], FEW + 2, &outcome), CF_OK);
  holds("it timed out with the same code", outcome.kind == CF_TIMED_OUT && outcome.code == 7 && outcome.wrapped == 1);
  for (int i = 0; i < 2; i++) cf_free(&callers[i]);
}

/* A desk whose records or whose log is full in the midst of a step. */
static void full(cf_handle *plan) {
  cf_handle caller = {0};
  cf_task task = {0};
  cf_reply reply;
  uint16_t left;
  row("desk of three records", cf_desk_open(plan, &caller, 1, LOG, 3), CF_OK);
  row("complete", cf_desk_complete(&caller, 0, (cf_value){CF_INT, 4}, &reply), CF_OK);
  row("complete", cf_desk_complete(&caller, 1, (cf_value){CF_INT, 5}, &reply), CF_OK);
  row("a step", cf_desk_next(&caller, &task), CF_OK);
  is_refused("no record for the finish", &caller, &task, CF_PASS_FULL);
  cf_free(&caller);

  row("desk of four records", cf_desk_open(plan, &caller, 1, LOG, 4), CF_OK);
  memset(&task, 0, sizeof task);
  row("complete", cf_desk_complete(&caller, 0, (cf_value){CF_INT, 4}, &reply), CF_OK);
  row("complete", cf_desk_complete(&caller, 1, (cf_value){CF_INT, 5}, &reply), CF_OK);
  row("a step", cf_desk_next(&caller, &task), CF_OK);
  row("no record for the claim", cf_desk_next(&caller, &task), CF_PASS_FULL);
  holds("it is finished", !task.held && task.finished == CF_WON && cf_desk_left(&caller, &left) == CF_OK && left == 0);
  cf_free(&caller);

  row("desk of a short log", cf_desk_open(plan, &caller, 1, SHORT_LOG, CALLS), CF_OK);
  memset(&task, 0, sizeof task);
  row("complete", cf_desk_complete(&caller, 0, (cf_value){CF_INT, 4}, &reply), CF_OK);
  row("complete", cf_desk_complete(&caller, 1, (cf_value){CF_INT, 5}, &reply), CF_OK);
  row("complete", cf_desk_complete(&caller, 2, (cf_value){CF_INT, 6}, &reply), CF_OK);
  row("a step", cf_desk_next(&caller, &task), CF_OK);
  is_refused("no place for the finish", &caller, &task, CF_LOG_FULL);
  cf_free(&caller);
}

static void rows_refused(cf_handle *plan) {
  cf_handle empty = {0}, caller = {0};
  cf_given given[] = {{0, {CF_INT, 1}}, {1, {CF_NIL, 0}}, {2 * FEW, {CF_INT, 3}}, {2, {CF_INT, 4}}};
  cf_outcome outcome;
  size_t done = 77;
  row("desk", cf_desk_open(plan, &caller, 1, LOG, 4), CF_OK);
  row("no caller", cf_desk_complete_many(NULL, given, 1, &done), CF_NULL);
  row("no stages", cf_desk_complete_many(&caller, NULL, 1, &done), CF_NULL);
  row("nowhere to tell", cf_desk_complete_many(&caller, given, 1, NULL), CF_NULL);
  row("an empty handle", cf_desk_complete_many(&empty, given, 1, &done), CF_EMPTY);
  row("a plan", cf_desk_complete_many(plan, given, 1, &done), CF_WRONG_KIND);
  holds("nothing is told by these", done == 77);
  row("none", cf_desk_complete_many(&caller, NULL, 0, &done), CF_OK);
  holds("none was done", done == 0);
  row("the third isn't there", cf_desk_complete_many(&caller, given, 4, &done), CF_NO_STAGE);
  holds("two were done",
      done == 2 && cf_desk_read(&caller, 1, &outcome) == CF_OK && outcome.kind == CF_VALUE && outcome.value.kind == CF_NIL);
  row("the second has no record", cf_desk_complete_many(&caller, given, 2, &done), CF_PASS_FULL);
  holds("one was done", done == 1);
  cf_free(&caller);
  row("desk of a short log", cf_desk_open(plan, &caller, 1, 1, CALLS), CF_OK);
  row("the second has no place", cf_desk_complete_many(&caller, given, 2, &done), CF_LOG_FULL);
  holds("one was done", done == 1);
  cf_free(&caller);
}

int main(void) {
  cf_handle plan = {0};
  by_crew();
  build(&plan, FEW);
  steps_refused(&plan);
  full(&plan);
  rows_refused(&plan);
  cf_free(&plan);
  return end_rows();
}
