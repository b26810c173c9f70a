/* A request, answered by one thread over one graph: eight backends are asked, of which one doesn't answer before its limit; what they
 * give is summed. Beside that a hedge: two replicas, anyOf takes the first, and the other is cancelled. A worker's loop claims what is
 * ready, runs its C function and finishes it. */
#include "cf.h"
#include <stdio.h>
#include <stdlib.h>

enum { BACKENDS = 8, SLOW = 5, LIMIT = 60, ME = 1 };
enum { ASK, ADD };

static void must(uint32_t code, const char *what) {
  if (code != CF_OK) {
    fprintf(stderr, "%s: code %u\n", what, code);
    exit(1);
  }
}

static cf_answer give(int32_t number) { return (cf_answer){.kind = CF_GIVE, .value = {CF_INT, number}}; }

/* The functions of stages. */
static cf_answer ask(const cf_args *args) { return give(args->first.number * 10); }
static cf_answer add(const cf_args *args) { return give((int32_t)((uint32_t)args->first.number + (uint32_t)args->second.number)); }

typedef cf_answer (*stage_function)(const cf_args *);
static const stage_function FUNCTIONS[] = {ask, add};

static uint16_t stage(cf_handle *plan, uint32_t form, const uint16_t *of, size_t n, uint32_t function) {
  uint16_t number = 0;
  must(cf_builder_stage(plan, form, of, n, function, &number), "stage");
  return number;
}

/* Runs the functions of all stages that are ready, and says how many. */
static int work(cf_handle *graph) {
  int ran = 0;
  uint16_t ready = 0, function = 0;
  while (cf_lowest_ready(graph, &ready) == CF_OK) {
    cf_reply reply = {0};
    must(cf_claim(graph, ME, ready, &reply), "claim");
    must(cf_function(graph, ready, &function), "function");
    must(cf_finish(graph, ME, ready, FUNCTIONS[function](&reply.args), &reply), "finish");
    ran += reply.answer == CF_WON;
  }
  return ran;
}

int main(void) {
  cf_handle plan = {0}, graph = {0};
  cf_reply reply = {0};
  must(cf_builder_new(&plan, 0, 0), "builder");
  uint16_t answers[BACKENDS], replicas[2];
  for (int i = 0; i < BACKENDS; i++) {
    answers[i] = stage(&plan, CF_SOURCE, 0, 0, CF_NO_FUNCTION);
    must(cf_builder_limit(&plan, answers[i], LIMIT, CF_GIVE_VALUE, 0, (cf_value){CF_INT, 0}), "limit");
  }
  uint16_t sum = answers[0];
  for (int i = 0; i < BACKENDS; i++) {
    uint16_t scaled = stage(&plan, CF_APPLY, &answers[i], 1, ASK);
    sum = i == 0 ? scaled : stage(&plan, CF_COMBINE, (uint16_t[]){sum, scaled}, 2, ADD);
  }
  for (int i = 0; i < 2; i++) replicas[i] = stage(&plan, CF_SOURCE, 0, 0, CF_NO_FUNCTION);
  uint16_t hedge = stage(&plan, CF_ANY_OF, replicas, 2, CF_NO_FUNCTION);
  must(cf_build(&plan), "build");
  must(cf_graph_new(&plan, 1, &graph), "graph");

  for (int i = 0; i < BACKENDS; i++)
    if (i != SLOW) must(cf_complete(&graph, answers[i], (cf_value){CF_INT, i + 1}, &reply), "complete");
  printf("functions run before the limit: %d\n", work(&graph));
  must(cf_tick(&graph, LIMIT, &reply), "tick");
  printf("limits fired: %u\n", reply.number);
  printf("functions run after it: %d\n", work(&graph));
  cf_outcome outcome = {0};
  must(cf_get(&graph, sum, &outcome), "sum");
  printf("sum: %d\n", outcome.value.number);

  must(cf_complete(&graph, replicas[1], (cf_value){CF_INT, 2}, &reply), "replica");
  must(cf_cancel(&graph, replicas[0], &reply), "cancel");
  must(cf_get(&graph, hedge, &outcome), "hedge");
  printf("hedge: %d, the other replica cancelled: %u\n", outcome.value.number, reply.answer);

  must(cf_attach(&graph, CF_APPLY, &sum, 1, ASK, &reply), "attach");
  uint16_t attached = (uint16_t)reply.number;
  printf("attached stage %u, functions run: %d\n", attached, work(&graph));
  must(cf_get(&graph, attached, &outcome), "attached");
  printf("it gives: %d\n", outcome.value.number);
  must(cf_restart(&graph), "restart");
  printf("after a restart that stage: code %u\n", cf_get(&graph, attached, &outcome));
  printf("a graph isn't a builder: code %u\n", cf_build(&graph));
  cf_free(&graph);
  cf_free(&plan);
  printf("a freed handle is empty: code %u\n", cf_restart(&graph));
  return 0;
}
