/* Several stages at once: cf_round finishes what the tasks of one caller hold, and claims a ready stage for each. Then what it refuses, and
 * that a round that is refused changes nothing. */
#include "cf.h"
#include "rows.h"
#include <stdio.h>
#include <string.h>

enum { ME = 1, OTHER = 2, TASKS = 3, WIDTH = 5, SUM = WIDTH };

/* Five supplies, and an allOf of them. */
static void build(cf_handle *plan) {
  uint16_t stage, of[WIDTH];
  row("builder", cf_builder_new(plan, 0, 0), CF_OK);
  for (uint16_t i = 0; i < WIDTH; i++) {
    row("supply", cf_builder_stage(plan, CF_SUPPLY, NULL, 0, i, &stage), CF_OK);
    of[i] = stage;
  }
  row("allOf", cf_builder_stage(plan, CF_ALL_OF, of, WIDTH, CF_NO_FUNCTION, &stage), CF_OK);
  row("build", cf_build(plan), CF_OK);
}

static cf_answer ten_times(const cf_task *task) { return (cf_answer){.kind = CF_GIVE, .value = {CF_INT, task->function * 10}}; }

/* What a round of workers is: all that is held is answered at once, and the next round is claimed. */
static void by_rounds(cf_handle *graph) {
  cf_task tasks[TASKS] = {{0}};
  cf_outcome outcome;
  uint32_t code;
  while ((code = cf_round(graph, ME, tasks, TASKS)) == CF_OK) {
    printf("a round:");
    for (int i = 0; i < TASKS; i++) {
      if (!tasks[i].held) continue;
      printf(" %d", tasks[i].stage);
      tasks[i].answer = ten_times(&tasks[i]);
    }
    printf("\n");
  }
  row("the last round", code, CF_NOTHING);
  for (int i = 0; i < TASKS; i++) holds("nothing is held then", !tasks[i].held && tasks[i].finished == CF_WON);
  holds("all are settled", cf_get(graph, SUM, &outcome) == CF_OK && outcome.kind == CF_VALUE);
  for (uint16_t i = 0; i < WIDTH; i++)
    holds("each has its answer", cf_get(graph, i, &outcome) == CF_OK && outcome.kind == CF_VALUE && outcome.value.number == i * 10);
}

/* Whether a round has this code, and leaves the tasks and the stages as they were. */
static void is_refused(const char *what, cf_handle *graph, uint8_t who, cf_task *tasks, uint32_t wanted) {
  cf_task kept[TASKS];
  cf_outcome outcome;
  memcpy(kept, tasks, sizeof kept);
  row(what, cf_round(graph, who, tasks, TASKS), wanted);
  holds("the tasks stay", !memcmp(kept, tasks, sizeof kept));
  holds("the stages stay", cf_get(graph, 1, &outcome) == CF_OK && outcome.kind == CF_PENDING);
}

static void refused(cf_handle *plan, cf_handle *graph) {
  cf_handle empty = {0};
  cf_task tasks[TASKS];
  cf_reply reply;
  uint16_t ready;
  memset(tasks, 0, sizeof tasks);
  row("no graph", cf_round(NULL, ME, tasks, TASKS), CF_NULL);
  row("no tasks", cf_round(graph, ME, NULL, TASKS), CF_NULL);
  row("an empty handle", cf_round(&empty, ME, tasks, TASKS), CF_EMPTY);
  row("a plan", cf_round(plan, ME, tasks, TASKS), CF_WRONG_KIND);
  row("a round of none", cf_round(graph, ME, NULL, 0), CF_NOTHING);
  holds("nothing is claimed by these", !tasks[0].held && cf_lowest_ready(graph, &ready) == CF_OK && ready == 0);
  row("a round of one", cf_round(graph, ME, tasks, 1), CF_OK);
  holds("the others stay", tasks[0].held && tasks[0].stage == 0 && !tasks[1].held);
  row("a round", cf_round(graph, ME, tasks, TASKS), CF_OK);
  holds("stages 1, 2 and 3", tasks[0].stage == 1 && tasks[1].stage == 2 && tasks[2].stage == 3);

  tasks[2].stage = SUM + 1;
  is_refused("a stage that isn't there", graph, ME, tasks, CF_NO_STAGE);
  tasks[2].stage = UINT16_MAX;
  is_refused("the highest number", graph, ME, tasks, CF_NO_STAGE);
  tasks[2].stage = 4;
  is_refused("a stage that nobody has claimed", graph, ME, tasks, CF_NOT_HELD);
  tasks[2].stage = 3;
  is_refused("another caller", graph, OTHER, tasks, CF_NOT_HELD);
  tasks[1].stage = 0, tasks[2].stage = UINT16_MAX;
  is_refused("the first that can't be finished", graph, ME, tasks, CF_NOT_HELD);

  tasks[1].stage = 1, tasks[2].held = 0;
  row("cancelled", cf_cancel(graph, 3, &reply), CF_OK);
  row("two tasks with one stage", cf_round(graph, ME, tasks, TASKS), CF_OK);
  holds("the second isn't its", tasks[0].finished == CF_WON && tasks[1].finished == CF_NOT_YOURS && tasks[2].finished == CF_WON);
  holds("one stage was left", tasks[0].held && tasks[0].stage == 4 && !tasks[1].held && !tasks[2].held);
  tasks[1] = (cf_task){.held = UINT32_MAX, .stage = 2, .answer = {.kind = CF_THROW, .code = 7}};
  tasks[2] = (cf_task){.held = 1, .stage = 3};
  row("the last round", cf_round(graph, ME, tasks, TASKS), CF_NOTHING);
  holds("one is late", tasks[0].finished == CF_WON && tasks[1].finished == CF_WON && tasks[2].finished == CF_LATE);
}

int main(void) {
  cf_handle plan = {0}, graph = {0};
  build(&plan);
  row("graph", cf_graph_new(&plan, 0, &graph), CF_OK);
  by_rounds(&graph);
  row("restart", cf_restart(&graph), CF_OK);
  refused(&plan, &graph);
  cf_free(&graph);
  cf_free(&plan);
  return end_rows();
}
