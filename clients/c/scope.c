/* Stages that are cancelled together: a scope that ends with the answer, and one within it that ends by itself. */
#include "cf.h"
#include <stdio.h>
#include <stdlib.h>

enum { WHOLE, PART, LOAD, PRICE, RATES, ANSWER, LATE, STAGES, ME = 1, OWN = 0 };

static const char *const names[STAGES] = {"the whole", "the part", "load", "price", "rates", "the answer", "late"};

#define DO(call)                                                                                                                           \
  do {                                                                                                                                     \
    if ((call) != CF_OK) {                                                                                                                 \
      fprintf(stderr, "line %d\n", __LINE__);                                                                                              \
      exit(1);                                                                                                                             \
    }                                                                                                                                      \
  } while (0)

static cf_told told[STAGES];
static cf_todo todo = {.moment = CF_NEVER};

static void say(void) {
  for (size_t k = 0; k < todo.told; k++) {
    const char *name = names[told[k].stage];
    if (told[k].outcome.kind == CF_VALUE) printf("%s: %d\n", name, told[k].outcome.value.number);
    if (told[k].outcome.kind == CF_CANCELLED) printf("%s: cancelled\n", name);
  }
}

/* From now on a stage is cancelled once a source is settled: it is of that scope. */
static void put(cf_handle *request, uint16_t stage, uint16_t scope) {
  DO(cf_request_join(request, &(cf_request_joining){.stage = stage, .wanted = 1, .cancels = 1}, &scope, 1, told, STAGES, &todo));
  say();
}

static void tell(cf_handle *request, cf_event event) {
  cf_reply reply;
  uint64_t word;
  event.who = ME;
  DO(cf_word_of_event(&event, &word));
  DO(cf_request_apply(request, word, 0, &reply, told, STAGES, &todo));
  say();
}

int main(void) {
  const cf_request_sizes sizes = {.lanes = 1, .own = OWN};
  const uint8_t lanes[STAGES] = {0};
  cf_handle plan = {0}, request = {0};
  DO(cf_builder_new(&plan, 0, 0));
  for (int k = 0; k < STAGES; k++) DO(cf_builder_stage(&plan, CF_SOURCE, NULL, 0, CF_NO_FUNCTION, &(uint16_t){0}));
  DO(cf_build(&plan));
  DO(cf_request_new(&plan, &sizes, lanes, STAGES, &request));
  cf_free(&plan);

  put(&request, PART, WHOLE);
  put(&request, LOAD, WHOLE);
  put(&request, PRICE, PART);
  put(&request, RATES, PART);
  put(&request, WHOLE, ANSWER);

  tell(&request, (cf_event){.call = CF_CALL_COMPLETE, .stage = PRICE, .value = {CF_INT, 52}});
  puts("the part ends:");
  tell(&request, (cf_event){.call = CF_CALL_CANCEL, .stage = PART});
  puts("the answer is there:");
  tell(&request, (cf_event){.call = CF_CALL_COMPLETE, .stage = ANSWER, .value = {CF_INT, 49}});
  puts("too late for the whole:");
  put(&request, LATE, WHOLE);
  cf_free(&request);
  return 0;
}
