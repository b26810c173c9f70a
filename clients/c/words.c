/* Words of events: a call is written as a 64-bit word, read back, and done to a graph. */
#include "cf.h"
#include <inttypes.h>
#include <stdio.h>

int main(void) {
  cf_handle plan = {0}, graph = {0};
  uint16_t source;
  uint64_t word;
  cf_event event = {.call = CF_CALL_COMPLETE, .who = 3, .stage = 0, .value = {CF_INT, 7}}, back;
  cf_reply reply;
  cf_outcome outcome;
  cf_builder_new(&plan, 0, 0);
  cf_builder_stage(&plan, CF_SOURCE, NULL, 0, CF_NO_FUNCTION, &source);
  if (cf_build(&plan) != CF_OK || cf_graph_new(&plan, 0, &graph) != CF_OK) return 1;

  if (cf_word_of(event, &word) != CF_OK || cf_event_of(word, &back) != CF_OK) return 1;
  printf("%" PRIu64 ": caller %d completes stage %d with %d\n", word, back.who, back.stage, back.value.number);
  for (int i = 0; i < 2; i++) {
    cf_apply(&graph, word, &reply);
    printf("answer %u\n", reply.answer);
  }
  cf_get(&graph, source, &outcome);
  printf("value %d\n", outcome.value.number);
  event = (cf_event){.call = CF_CALL_FAIL_AS, .kind = CF_TIMED_OUT, .who = 3, .code = 7};
  if (cf_word_of(event, &word) != CF_OK || cf_event_of(word, &back) != CF_OK) return 1;
  printf("%" PRIu64 ": caller %d times stage %d out with %u: %d\n", word, back.who, back.stage, back.code, back.kind == CF_TIMED_OUT);
  cf_apply(&graph, word, &reply);
  printf("answer %u\n", reply.answer);
  printf("%s\n", cf_code_name(cf_apply(&graph, 0, &reply)));
  event.who = 64;
  printf("%s\n", cf_code_name(cf_word_of(event, &word)));
  cf_free(&graph);
  cf_free(&plan);
  return 0;
}
