/* A compose whose function answers a stage that comes later, by cf_request_compose and cf_request_link. */
#include "cf.h"
#include <stdio.h>
#include <stdlib.h>

enum { ME = 1, OWN = 0, ROOM = 3, TOLD = 8, CUSTOMER = 0, FIND_CARD = 7 };

#define DO(call)                                                                                                                           \
  do {                                                                                                                                     \
    if ((call) != CF_OK) {                                                                                                                 \
      fprintf(stderr, "%s\n", #call);                                                                                                      \
      exit(1);                                                                                                                             \
    }                                                                                                                                      \
  } while (0)

static cf_told told[TOLD];
static cf_todo todo = {.moment = CF_NEVER};

static void say(void) {
  for (size_t k = 0; k < todo.told; k++) printf("stage %u: %d\n", (unsigned)told[k].stage, told[k].outcome.value.number);
}

static void apply(cf_handle *request, cf_event event, cf_reply *reply) {
  uint64_t word;
  event.who = ME;
  DO(cf_word_of_event(&event, &word));
  DO(cf_request_apply(request, word, 0, reply, told, TOLD, &todo));
  say();
}

int main(void) {
  const cf_request_sizes sizes = {.room = ROOM, .lanes = 1, .own = OWN};
  cf_handle plan = {0}, request = {0};
  cf_request_composing paid = {.who = ME, .form = CF_COMPOSE, .source = CUSTOMER, .function = FIND_CARD};
  cf_task task = {0};
  cf_reply reply;
  uint16_t customer;
  DO(cf_builder_new(&plan, 0, 0));
  DO(cf_builder_stage(&plan, CF_SOURCE, NULL, 0, CF_NO_FUNCTION, &customer));
  DO(cf_build(&plan));
  DO(cf_request_new(&plan, &sizes, (uint8_t[]){0}, 1, &request));
  cf_free(&plan);

  DO(cf_request_compose(&request, &paid, told, TOLD, &todo));
  printf("the payment is stage %u, and its relay stage %u\n", (unsigned)paid.stage, (unsigned)paid.relay);
  apply(&request, (cf_event){.call = CF_CALL_COMPLETE, .stage = customer, .value = {CF_INT, 17}}, &reply);
  DO(cf_request_next(&request, ME, 0, &task, told, TOLD, &todo));

  /* The function of the payment attaches a source, which a card's terminal settles, and answers it. */
  printf("function %u is called with %d\n", (unsigned)task.function, task.args.first.number);
  apply(&request, (cf_event){.call = CF_CALL_ATTACH, .form = CF_SOURCE, .function = CF_NO_FUNCTION}, &reply);
  const uint16_t card = reply.number;
  const cf_request_linking linking = {.who = ME, .relay = paid.relay, .stage = card};
  DO(cf_request_link(&request, &linking, &task, told, TOLD, &todo));
  say();
  printf("the payment waits for stage %u\n", (unsigned)card);
  apply(&request, (cf_event){.call = CF_CALL_COMPLETE, .stage = card, .value = {CF_INT, 49}}, &reply);
  cf_free(&request);
  return 0;
}
