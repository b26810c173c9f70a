/* Stages that wait for any number of others: for all of them, and for the first, by cf_request_gather; for the first that
 * succeeds, and for two that do, by cf_request_join. */
#include "cf.h"
#include <stdio.h>
#include <stdlib.h>

enum { OFFERS = 5, BEST = OFFERS, TWO, STAGES, ME = 1, OWN = 0, ROOM = 2 * (OFFERS - 1), TOLD = STAGES + ROOM };

#define DO(call)                                                                                                                           \
  do {                                                                                                                                     \
    if ((call) != CF_OK) {                                                                                                                 \
      fprintf(stderr, "%s\n", #call);                                                                                                      \
      exit(1);                                                                                                                             \
    }                                                                                                                                      \
  } while (0)

static uint16_t all, quickest;
static cf_todo todo = {.moment = CF_NEVER};

/* Says so where a stage that waits is told. */
static void say(const cf_told *told, size_t n) {
  for (size_t k = 0; k < n; k++) {
    const bool is_value = told[k].outcome.kind == CF_VALUE;
    if (told[k].stage == quickest) printf("the first has answered: %s\n", is_value ? "with an offer" : "it has failed");
    if (told[k].stage == BEST) printf("the first offer: %d\n", told[k].outcome.value.number);
    if (told[k].stage == TWO) printf("two offers: %s\n", is_value ? "they are there" : "too many have failed");
    if (told[k].stage == all) printf("all have answered: %s\n", is_value ? "with offers" : "one has failed");
  }
}

static void answer(cf_handle *request, uint16_t offer, cf_event event) {
  cf_told told[TOLD];
  cf_reply reply;
  uint64_t word;
  event.who = ME, event.stage = offer;
  DO(cf_word_of_event(&event, &word));
  DO(cf_request_apply(request, word, 0, &reply, told, TOLD, &todo));
  say(told, todo.told);
}

int main(void) {
  const cf_request_sizes sizes = {.room = ROOM, .lanes = 1, .own = OWN};
  const uint8_t lanes[STAGES] = {0};
  cf_handle plan = {0}, request = {0};
  uint16_t offers[STAGES], stages;
  cf_request_gathering gathering = {.who = ME};
  cf_told told[TOLD];
  DO(cf_builder_new(&plan, 0, 0));
  for (int k = 0; k < STAGES; k++) DO(cf_builder_stage(&plan, CF_SOURCE, NULL, 0, CF_NO_FUNCTION, &offers[k]));
  DO(cf_build(&plan));
  DO(cf_request_new(&plan, &sizes, lanes, STAGES, &request));
  cf_free(&plan);

  gathering.form = CF_ALL_OF;
  DO(cf_request_gather(&request, &gathering, offers, OFFERS, told, TOLD, &todo));
  all = gathering.root;
  gathering.form = CF_ANY_OF;
  DO(cf_request_gather(&request, &gathering, offers, OFFERS, told, TOLD, &todo));
  quickest = gathering.root;
  DO(cf_ledger_stages(&request, &stages));
  printf("%d offers, %u stages\n", OFFERS, (unsigned)stages);
  const uint32_t code = cf_request_gather(&request, &gathering, offers, OFFERS, told, TOLD, &todo);
  printf("once more: %s\n", cf_code_name(code));
  DO(cf_request_join(&request, &(cf_request_joining){.stage = BEST, .wanted = 1}, offers, OFFERS, told, TOLD, &todo));
  DO(cf_request_join(&request, &(cf_request_joining){.stage = TWO, .wanted = 2}, offers, OFFERS, told, TOLD, &todo));

  answer(&request, offers[2], (cf_event){.call = CF_CALL_FAIL, .code = 503});
  answer(&request, offers[3], (cf_event){.call = CF_CALL_COMPLETE, .value = {CF_INT, 52}});
  answer(&request, offers[0], (cf_event){.call = CF_CALL_COMPLETE, .value = {CF_INT, 49}});
  answer(&request, offers[4], (cf_event){.call = CF_CALL_COMPLETE, .value = {CF_INT, 61}});
  answer(&request, offers[1], (cf_event){.call = CF_CALL_COMPLETE, .value = {CF_INT, 50}});
  cf_free(&request);
  return 0;
}
