/* A graph that one thread has: stage 1 doubles what stage 0 gives. A worker claims it, calls its function and finishes it. */
#include "cf.h"
#include <stdio.h>

enum { ME, DOUBLE, SLOW = 7 };

int main(void) {
  cf_handle plan = {0}, graph = {0};
  uint16_t source, twice, ready;
  cf_reply reply;
  cf_outcome outcome;
  cf_now now;
  cf_builder_new(&plan, 0, 0);
  cf_builder_stage(&plan, CF_SOURCE, NULL, 0, CF_NO_FUNCTION, &source);
  cf_builder_stage(&plan, CF_APPLY, &source, 1, DOUBLE, &twice);
  if (cf_build(&plan) != CF_OK || cf_graph_new(&plan, 0, &graph) != CF_OK) return 1;

  printf("%s\n", cf_code_name(cf_lowest_ready(&graph, &ready)));
  cf_complete(&graph, source, (cf_value){CF_INT, 21}, &reply);
  while (cf_lowest_ready(&graph, &ready) == CF_OK) {
    cf_claim(&graph, ME, ready, &reply);
    const int32_t number = reply.args.first.number;
    cf_finish(&graph, ME, ready, (cf_answer){.kind = CF_GIVE, .value = {CF_INT, 2 * number}}, &reply);
    printf("stage %d: %s\n", ready, reply.answer == CF_WON ? "won" : "late");
  }
  cf_get(&graph, twice, &outcome);
  printf("value %d\n", outcome.value.number);

  cf_restart(&graph);
  cf_fail(&graph, source, 404, &reply); /* no function of apply is called with a fault */
  cf_get_now(&graph, twice, (cf_value){CF_NIL, 0}, &now);
  printf("%s %u\n", now.kind == CF_COMPLETION ? "CompletionException" : "?", now.outcome.code);

  cf_restart(&graph);
  cf_fail_as(&graph, source, CF_TIMED_OUT, SLOW, &reply);
  cf_get(&graph, twice, &outcome);
  printf("%s %u\n", outcome.kind == CF_TIMED_OUT ? "timed out" : "?", outcome.code);
  cf_free(&graph);
  cf_free(&plan);
  return 0;
}
