/* A graph settled in one sweep: cf_sweep_next takes the answer of the last stage and gives the next one. Then what a sweep refuses, and that
 * a call that is refused changes nothing; sweeps that are freed under way, and that begin where stages are claimed, settled and attached. */
#include "cf.h"
#include "sum.h"
#include <stdio.h>
#include <string.h>

enum { LINKED = SUM + 1, STAGES };

/* The plan of sum.h, and a stage that takes another's outcome over. */
static void build(cf_handle *plan) {
  uint16_t stage;
  begin_plan(plan);
  row("compose", cf_builder_stage(plan, CF_COMPOSE, (uint16_t[]){SUM}, 1, BOTH, &stage), CF_OK);
  row("build", cf_build(plan), CF_OK);
}

static cf_answer given_to(const cf_task *task) {
  return task->stage == LINKED ? (cf_answer){.kind = CF_LINK, .stage = 2} : answer_to(task);
}

static cf_outcome outcome_of(cf_handle *graph, uint16_t stage) {
  cf_outcome outcome = {0};
  row("get", cf_get(graph, stage, &outcome), CF_OK);
  return outcome;
}

static bool has(cf_handle *graph, uint16_t stage, int32_t number) {
  const cf_outcome outcome = outcome_of(graph, stage);
  return outcome.kind == CF_VALUE && outcome.value.kind == CF_INT && outcome.value.number == number;
}

/* Goes on to the end, and says how many functions were called. */
static int swept(cf_handle *sweep, cf_task *task) {
  int calls = 0;
  uint32_t code;
  while ((code = cf_sweep_next(sweep, task)) == CF_OK) {
    task->answer = given_to(task);
    calls++;
  }
  row("the last step", code, CF_NOTHING);
  holds("nothing is held then", !task->held && task->finished == CF_WON);
  return calls;
}

static void by_sweep(cf_handle *graph) {
  cf_task task = {0};
  row("begin", cf_sweep_begin(graph), CF_OK);
  const int calls = swept(graph, &task);
  row("once more, nothing is ready", cf_sweep_next(graph, &task), CF_NOTHING);
  row("end", cf_sweep_end(graph), CF_OK);
  holds("the linked stage", has(graph, LINKED, 14));
  printf("by a sweep: %d functions, sum %d\n", calls, outcome_of(graph, SUM).value.number);
}

/* Whether a step has this code, and leaves the task as it was. */
static void is_refused(const char *what, cf_handle *sweep, cf_task *task, uint32_t wanted) {
  cf_task kept;
  memcpy(&kept, task, sizeof kept);
  row(what, cf_sweep_next(sweep, task), wanted);
  holds("the task stays", !memcmp(&kept, task, sizeof kept));
}

static void refused(cf_handle *plan, cf_handle *graph) {
  cf_handle empty = {0};
  cf_task task;
  cf_reply reply;
  uint16_t stage;
  memset(&task, 0, sizeof task);
  row("no graph", cf_sweep_begin(NULL), CF_NULL);
  row("no sweep", cf_sweep_next(NULL, &task), CF_NULL);
  row("no task", cf_sweep_next(graph, NULL), CF_NULL);
  row("no sweep to end", cf_sweep_end(NULL), CF_NULL);
  row("an empty handle", cf_sweep_begin(&empty), CF_EMPTY);
  is_refused("an empty handle's step", &empty, &task, CF_EMPTY);
  row("an empty handle's end", cf_sweep_end(&empty), CF_EMPTY);
  row("a plan", cf_sweep_begin(plan), CF_WRONG_KIND);
  is_refused("a graph's step", graph, &task, CF_WRONG_KIND);
  row("a graph's end", cf_sweep_end(graph), CF_WRONG_KIND);

  row("begin", cf_sweep_begin(graph), CF_OK);
  row("a second begin", cf_sweep_begin(graph), CF_WRONG_KIND);
  row("the graph is lent", cf_get(graph, 0, &(cf_outcome){0}), CF_WRONG_KIND);
  row("a call of the graph", cf_complete(graph, 0, (cf_value){CF_INT, 1}, &reply), CF_WRONG_KIND);
  row("a step of the graph", cf_next(graph, ME, &task), CF_WRONG_KIND);
  row("a graph of it", cf_graph_new(graph, 0, &empty), CF_WRONG_KIND);
  row("an end too early", cf_sweep_end(graph), CF_NOT_OVER);
  task.held = 1;
  is_refused("a stage that wasn't given", graph, &task, CF_NOT_HELD);
  task.held = 0;
  row("a step", cf_sweep_next(graph, &task), CF_OK);
  holds("stage 0 is held", task.held == 1 && task.stage == 0 && task.function == GIVE_SEVEN && task.args.kind == CF_NO_ARGS);
  row("an end before the answer", cf_sweep_end(graph), CF_NOT_OVER);
  for (uint32_t other = 1; other <= UINT16_MAX; other = other * 2 + 1) {
    task.stage = (uint16_t)other;
    is_refused("another stage", graph, &task, CF_NOT_HELD);
  }
  task.stage = 0, task.held = 0;
  is_refused("no stage", graph, &task, CF_NOT_HELD);
  task.held = UINT32_MAX, task.answer = (cf_answer){.kind = CF_THROW, .code = 9};
  row("a throw", cf_sweep_next(graph, &task), CF_OK);
  holds("stage 1 is held", task.held == 1 && task.stage == 1 && task.finished == CF_WON);
  task.answer = (cf_answer){.kind = UINT32_MAX, .stage = UINT16_MAX};
  row("a link that supply can't give", cf_sweep_next(graph, &task), CF_NOTHING);
  is_refused("at the end", graph, &(cf_task){.held = 1, .stage = 4}, CF_NOT_HELD);
  row("end", cf_sweep_end(graph), CF_OK);
  row("a second end", cf_sweep_end(graph), CF_WRONG_KIND);
  holds("the throw", outcome_of(graph, 0).kind == CF_THROWN && outcome_of(graph, 0).code == 9);
  holds("what followed from it", outcome_of(graph, SUM).kind == CF_THROWN && outcome_of(graph, SUM).wrapped == 1);
  holds("the bad answer", outcome_of(graph, 1).kind == CF_BAD_ANSWER);
  row("nothing is ready", cf_lowest_ready(graph, &stage), CF_NOTHING);
}

/* A sweep is freed where it stands at a stage, and where it is over. */
static void freed(cf_handle *plan) {
  for (int steps = 0; steps < 4; steps++) {
    cf_handle graph = {0};
    cf_task task = {0};
    row("graph", cf_graph_new(plan, 1, &graph), CF_OK);
    row("begin", cf_sweep_begin(&graph), CF_OK);
    for (int step = 0; step < steps; step++) {
      row("a step", cf_sweep_next(&graph, &task), CF_OK);
      task.answer = given_to(&task);
    }
    if (steps == 3) swept(&graph, &task);
    cf_free(&graph);
    row("it is empty then", cf_sweep_next(&graph, &task), CF_EMPTY);
  }
}

/* A graph in which a stage is claimed, one settled and one attached: the sweep passes what isn't ready, and the claim stays open. */
static void in_the_midst(cf_handle *plan) {
  cf_handle graph = {0};
  cf_reply reply;
  cf_task task = {0};
  row("graph", cf_graph_new(plan, 1, &graph), CF_OK);
  row("claim", cf_claim(&graph, ME, 1, &reply), CF_OK);
  row("complete", cf_complete(&graph, 0, (cf_value){CF_INT, 5}, &reply), CF_OK);
  row("attach", cf_attach(&graph, CF_APPLY, (uint16_t[]){2}, 1, DOUBLE, &reply), CF_OK);
  holds("it is stage 5", reply.number == STAGES);
  row("begin", cf_sweep_begin(&graph), CF_OK);
  printf("in the midst: %d functions\n", swept(&graph, &task));
  row("end", cf_sweep_end(&graph), CF_OK);
  holds("the double, and its double", has(&graph, 2, 10) && has(&graph, STAGES, 20));
  holds("the sum waits", outcome_of(&graph, SUM).kind == CF_PENDING);
  row("finish", cf_finish(&graph, ME, 1, (cf_answer){.kind = CF_GIVE, .value = {CF_INT, 8}}, &reply), CF_OK);
  holds("the claim was open", reply.answer == CF_WON);
  row("begin", cf_sweep_begin(&graph), CF_OK);
  printf("after the finish: %d functions\n", swept(&graph, &task));
  row("end", cf_sweep_end(&graph), CF_OK);
  holds("the sum, and what is linked", has(&graph, SUM, 18) && has(&graph, LINKED, 10));
  row("restart", cf_restart(&graph), CF_OK);
  by_sweep(&graph);
  cf_free(&graph);
}

int main(void) {
  cf_handle plan = {0}, graph = {0};
  build(&plan);
  row("graph", cf_graph_new(&plan, 0, &graph), CF_OK);
  by_sweep(&graph);
  row("restart", cf_restart(&graph), CF_OK);
  refused(&plan, &graph);
  freed(&plan);
  in_the_midst(&plan);
  cf_free(&graph);
  cf_free(&plan);
  return end_rows();
}
