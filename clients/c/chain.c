/* A chain of stages that one thread makes while it runs them: one call a stage, by cf_request_do. Then the same request starts again. At
 * last it is filled, grows, is filled again, and is cancelled. */
#include "cf.h"
#include <stdio.h>
#include <stdlib.h>

enum { LENGTH = 16, ME = 1, OWN = 0, LANE = 0, ROOM = 4 };

#define DO(call)                                                                                                                           \
  do {                                                                                                                                     \
    if ((call) != CF_OK) {                                                                                                                 \
      fprintf(stderr, "%s\n", #call);                                                                                                      \
      exit(1);                                                                                                                             \
    }                                                                                                                                      \
  } while (0)

static cf_todo todo = {.moment = CF_NEVER};

static uint64_t word_of(cf_event event) {
  uint64_t word;
  event.who = ME;
  DO(cf_word_of_event(&event, &word));
  return word;
}

/* The word that completes the source, or attaches a stage behind another. */
static uint64_t complete(int32_t number) { return word_of((cf_event){.call = CF_CALL_COMPLETE, .stage = 0, .value = {CF_INT, number}}); }

static uint64_t attach(uint16_t before) {
  return word_of((cf_event){.call = CF_CALL_ATTACH, .form = CF_APPLY, .sources = 1, .first = before, .function = 0});
}

/* Each call attaches a stage, finishes the one before, and claims the next. What the source is given waits for the first of them. */
static void run(cf_handle *request, int32_t number) {
  cf_request_call calls[3] = {{.call = CF_DO_APPLY}, {.call = CF_DO_APPLY}, {.call = CF_DO_NEXT, .who = ME}};
  cf_task *const task = &calls[2].task;
  cf_told told[ROOM];
  size_t done;
  calls[0].word = complete(number);
  for (uint16_t stage = 0; stage <= LENGTH; stage++) {
    cf_request_call *const from = stage == 0 ? calls : stage < LENGTH ? calls + 1 : calls + 2;
    calls[1].word = attach(stage);
    DO(cf_request_do(request, from, (size_t)(calls + 3 - from), &done, told, ROOM, &todo));
    if (task->held) task->answer = (cf_answer){.kind = CF_GIVE, .value = {CF_INT, task->args.first.number + 1}};
  }
  printf("%d calls for %d stages; stage %u gives %d\n", LENGTH + 1, LENGTH, (unsigned)told[0].stage, told[0].outcome.value.number);
}

/* Attaches stages behind the source until there is no room. */
static void fill(cf_handle *request) {
  cf_reply reply;
  uint16_t stages;
  uint32_t code;
  do code = cf_request_apply(request, attach(0), LANE, &reply, NULL, 0, &todo);
  while (code == CF_OK);
  DO(cf_ledger_stages(request, &stages));
  printf("%u stages: %s\n", (unsigned)stages, cf_code_name(code));
}

int main(void) {
  const cf_request_sizes sizes = {.room = LENGTH, .lanes = 1, .own = OWN};
  cf_handle plan = {0}, request = {0};
  cf_request_call wrong[2] = {{.call = CF_DO_FOLLOW, .relay = 0, .stage = 0}, {.call = CF_DO_REFUSE, .lane = 1}};
  cf_told told[ROOM];
  uint16_t stage;
  size_t done;
  DO(cf_builder_new(&plan, 0, 0));
  DO(cf_builder_stage(&plan, CF_SOURCE, NULL, 0, CF_NO_FUNCTION, &stage));
  DO(cf_build(&plan));
  DO(cf_request_new(&plan, &sizes, (uint8_t[]){LANE}, 1, &request));
  cf_free(&plan);

  run(&request, 0);
  DO(cf_request_restart(&request));
  run(&request, 100);
  DO(cf_request_restart(&request));

  const uint32_t code = cf_request_do(&request, wrong, 2, &done, told, ROOM, &todo);
  printf("%zu of 2 calls: %s\n", done, cf_code_name(code));
  fill(&request);
  DO(cf_request_grow(&request));
  fill(&request);
  DO(cf_request_cancel_all(&request, ME, told, ROOM, &todo));
  printf("cancelled: %zu\n", todo.told);
  cf_free(&request);
  return 0;
}
