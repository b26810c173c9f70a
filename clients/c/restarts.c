/* One plan for many requests: cf_restart_with starts a graph again with what a request brings, and cf_work does the rest. cf_plan_of gives
 * the plan of a graph, for another. Then what both refuse, and that a graph which refuses stays as it was. */
#include "cf.h"
#include "rows.h"
#include <stdio.h>

enum { ME = 1, WIDTH = 0, HEIGHT = 1, AREA = 2, LATER = 3, TIMES = 0 };

static void times(void *context, const cf_task *task, cf_answer *answer) {
  (void)context;
  *answer = (cf_answer){.kind = CF_GIVE, .value = {CF_INT, task->args.first.number * task->args.second.number}};
}

/* Two sources and their product. */
static void build(cf_handle *plan) {
  uint16_t stage;
  row("builder", cf_builder_new(plan, 0, 0), CF_OK);
  row("width", cf_builder_stage(plan, CF_SOURCE, NULL, 0, CF_NO_FUNCTION, &stage), CF_OK);
  row("height", cf_builder_stage(plan, CF_SOURCE, NULL, 0, CF_NO_FUNCTION, &stage), CF_OK);
  row("area", cf_builder_stage(plan, CF_COMBINE, (uint16_t[]){WIDTH, HEIGHT}, 2, TIMES, &stage), CF_OK);
  row("build", cf_build(plan), CF_OK);
}

static int32_t area_of(cf_handle *graph) {
  static const cf_stage_function functions[] = {times};
  uint32_t calls;
  cf_outcome area = {0};
  row("work", cf_work(graph, ME, functions, 1, NULL, &calls), CF_OK);
  row("area", cf_get(graph, AREA, &area), CF_OK);
  return area.kind == CF_VALUE ? area.value.number : -1;
}

static void requests(cf_handle *graph) {
  for (int32_t k = 1; k <= 3; k++) {
    const cf_given given[] = {{WIDTH, {CF_INT, 2 * k}}, {HEIGHT, {CF_INT, 3 * k}}, {WIDTH, {CF_INT, 99}}};
    row("restart", cf_restart_with(graph, given, 3), CF_OK);
    printf("%d by %d: %d\n", 2 * k, 3 * k, area_of(graph));
  }
}

/* What is refused leaves the graph as it was: the last request's area stands. */
static void refused(cf_handle *plan, cf_handle *graph) {
  const cf_given none[] = {{WIDTH, {CF_INT, 1}}, {LATER, {CF_INT, 1}}}, area[] = {{AREA, {CF_INT, 5}}};
  cf_handle empty = {0}, ledger = {0};
  cf_reply reply;
  row("ledger", cf_ledger_new(plan, 0, &ledger), CF_OK);
  row("a stage that isn't there", cf_restart_with(graph, none, 2), CF_NO_STAGE);
  row("attach", cf_attach(graph, CF_THEN_RUN, (uint16_t[]){AREA}, 1, TIMES, &reply), CF_OK);
  holds("there is room for one", reply.answer == CF_AT && reply.number == LATER);
  row("nor is an attached one once it starts again", cf_restart_with(graph, none, 2), CF_NO_STAGE);
  row("null", cf_restart_with(graph, NULL, 1), CF_NULL);
  row("an empty handle", cf_restart_with(&empty, area, 1), CF_EMPTY);
  row("a plan is no graph", cf_restart_with(plan, area, 1), CF_WRONG_KIND);
  row("nor is a ledger", cf_restart_with(&ledger, area, 1), CF_WRONG_KIND);
  holds("the area stays", area_of(graph) == 54);
  row("a null plan", cf_plan_of(graph, NULL), CF_NULL);
  row("the plan of nothing, behind a full handle", cf_plan_of(&empty, &ledger), CF_FULL);
  row("the plan of a plan", cf_plan_of(plan, &empty), CF_WRONG_KIND);
  row("a full handle", cf_plan_of(graph, &ledger), CF_FULL);
  holds("nothing stands there", !empty.full);
  row("no stages", cf_restart_with(graph, NULL, 0), CF_OK);
  holds("the graph has just started", area_of(graph) == -1);
  row("a stage with a function", cf_restart_with(graph, area, 1), CF_OK);
  holds("needs no call of it", area_of(graph) == 5);
  cf_free(&ledger);
}

/* The plan of a graph outlives it. */
static void another(cf_handle *graph) {
  const cf_given given[] = {{WIDTH, {CF_INT, 4}}, {HEIGHT, {CF_INT, 5}}};
  cf_handle plan = {0}, second = {0};
  uint16_t stages = 0;
  row("plan", cf_plan_of(graph, &plan), CF_OK);
  cf_free(graph);
  row("another graph", cf_graph_new(&plan, 0, &second), CF_OK);
  row("stages", cf_stages(&second, &stages), CF_OK);
  row("restart", cf_restart_with(&second, given, 2), CF_OK);
  printf("another graph of %u stages: %d\n", stages, area_of(&second));
  cf_free(&second);
  cf_free(&plan);
}

int main(void) {
  cf_handle plan = {0}, graph = {0};
  build(&plan);
  row("graph", cf_graph_new(&plan, 1, &graph), CF_OK);
  requests(&graph);
  refused(&plan, &graph);
  another(&graph);
  cf_free(&plan);
  return end_rows();
}
