/* A caller's loop in one call a step: cf_next finishes what the task holds and claims what is ready; cf_work is the whole loop. Then what
 * these refuse, and that a task that is refused stays as it was. */
#include "cf.h"
#include "sum.h"
#include <stdio.h>
#include <string.h>

enum { OTHER = 2, FUNCTIONS = 3 };

static void give(void *context, const cf_task *task, cf_answer *answer) {
  ++*(int *)context;
  *answer = answer_to(task);
}

static int32_t sum_of(cf_handle *graph) {
  cf_outcome sum;
  row("get", cf_get(graph, SUM, &sum), CF_OK);
  return sum.kind == CF_VALUE ? sum.value.number : -1;
}

static void by_steps(cf_handle *graph) {
  cf_task task = {0};
  int steps = 0;
  uint32_t code;
  while ((code = cf_next(graph, ME, &task)) == CF_OK) {
    task.answer = answer_to(&task);
    steps++;
  }
  row("the last step", code, CF_NOTHING);
  holds("nothing is held then", !task.held && task.finished == CF_WON);
  printf("by steps: %d functions, sum %d\n", steps, sum_of(graph));
}

static void by_work(cf_handle *graph) {
  static const cf_stage_function functions[FUNCTIONS] = {give, give, give};
  uint32_t calls = 9;
  int counted = 0;
  row("too few functions", cf_work(graph, ME, functions, BOTH, &counted, &calls), CF_FUNCTIONS);
  holds("none was called", calls == 0 && counted == 0);
  row("work", cf_work(graph, ME, functions, FUNCTIONS, &counted, &calls), CF_OK);
  holds("each was counted", calls == (uint32_t)counted);
  printf("by work: %u functions, sum %d\n", calls, sum_of(graph));
}

static void refused(cf_handle *plan, cf_handle *graph) {
  cf_handle empty = {0};
  cf_task task, kept;
  uint32_t calls;
  uint16_t ready;
  memset(&task, 0, sizeof task);
  row("no graph", cf_next(NULL, ME, &task), CF_NULL);
  row("no task", cf_next(graph, ME, NULL), CF_NULL);
  row("an empty handle", cf_next(&empty, ME, &task), CF_EMPTY);
  row("a plan", cf_next(plan, ME, &task), CF_WRONG_KIND);
  row("work without functions", cf_work(graph, ME, NULL, 1, NULL, &calls), CF_NULL);
  row("work of a plan", cf_work(plan, ME, NULL, 0, NULL, &calls), CF_WRONG_KIND);
  row("a step", cf_next(graph, ME, &task), CF_OK);
  holds("stage 0 is held", task.held == 1 && task.stage == 0 && task.function == GIVE_SEVEN && task.args.kind == CF_NO_ARGS);

  task.stage = 4;
  memcpy(&kept, &task, sizeof task);
  row("a stage that isn't there", cf_next(graph, ME, &task), CF_NO_STAGE);
  task.stage = UINT16_MAX;
  row("the highest number", cf_next(graph, ME, &task), CF_NO_STAGE);
  task.stage = 4;
  holds("the task stays", !memcmp(&kept, &task, sizeof task));
  task.stage = 1;
  row("a stage that nobody has claimed", cf_next(graph, ME, &task), CF_NOT_HELD);
  task.stage = 0;
  memcpy(&kept, &task, sizeof task);
  row("a stage of another caller", cf_next(graph, OTHER, &task), CF_NOT_HELD);
  holds("the task stays, and the next stage is ready",
      !memcmp(&kept, &task, sizeof task) && cf_lowest_ready(graph, &ready) == CF_OK && ready == 1);

  cf_reply reply;
  row("the stage is cancelled", cf_cancel(graph, 0, &reply), CF_OK);
  task.held = UINT32_MAX, task.answer.kind = UINT32_MAX, task.answer.stage = UINT16_MAX;
  row("its finish is late", cf_next(graph, ME, &task), CF_OK);
  holds("that is told", task.finished == CF_LATE && task.held == 1 && task.stage == 1);
  task.answer = (cf_answer){.kind = CF_LINK, .stage = 0};
  row("a link that supply can't give", cf_next(graph, ME, &task), CF_NOTHING);
  cf_outcome outcome;
  holds("it is a bad answer", cf_get(graph, 1, &outcome) == CF_OK && outcome.kind == CF_BAD_ANSWER && outcome.code == 0);
}

int main(void) {
  cf_handle plan = {0}, graph = {0};
  begin_plan(&plan);
  row("build", cf_build(&plan), CF_OK);
  row("graph", cf_graph_new(&plan, 0, &graph), CF_OK);
  by_steps(&graph);
  row("restart", cf_restart(&graph), CF_OK);
  by_work(&graph);
  row("restart", cf_restart(&graph), CF_OK);
  refused(&plan, &graph);
  cf_free(&graph);
  cf_free(&plan);
  return end_rows();
}
