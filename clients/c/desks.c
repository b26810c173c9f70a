/* A desk that two threads share without a lock: main completes stage 0, a worker runs the function of stage 1, and main joins it. */
#include "cf.h"
#include <pthread.h>
#include <sched.h>
#include <stdio.h>

enum { MAIN, WORKER, CALLERS, LOG = 16, CALLS = 16, LOOKS = 1000 };

static void *work(void *handle) {
  cf_handle *caller = handle;
  cf_reply reply;
  uint16_t ready;
  while (cf_desk_ready(caller, &ready) == CF_NOTHING) sched_yield();
  if (cf_desk_claim(caller, ready, &reply) == CF_OK && reply.answer == CF_GRANTED)
    cf_desk_finish(caller, ready, (cf_answer){.kind = CF_GIVE, .value = {CF_INT, 2 * reply.args.first.number}}, &reply);
  return NULL;
}

int main(void) {
  cf_handle plan = {0}, callers[CALLERS] = {{0}};
  uint16_t source, twice;
  cf_reply reply;
  cf_now now = {0};
  pthread_t thread;
  cf_builder_new(&plan, 0, 0);
  cf_builder_stage(&plan, CF_SOURCE, NULL, 0, CF_NO_FUNCTION, &source);
  cf_builder_stage(&plan, CF_APPLY, &source, 1, 0, &twice);
  if (cf_build(&plan) != CF_OK || cf_desk_open(&plan, callers, CALLERS, LOG, CALLS) != CF_OK) return 1;
  cf_free(&plan);
  if (pthread_create(&thread, NULL, work, &callers[WORKER]) != 0) return 1;
  cf_desk_complete(&callers[MAIN], source, (cf_value){CF_INT, 21}, &reply);
  pthread_join(thread, NULL);
  cf_desk_join(&callers[MAIN], twice, LOOKS, &now);
  printf("%s %d\n", now.kind == CF_GOT_VALUE ? "value" : "?", now.outcome.value.number);
  uint16_t seen, left;
  cf_desk_seen(&callers[MAIN], &seen);
  cf_desk_left(&callers[MAIN], &left);
  printf("%d events seen, %d records left\n", seen, left);
  for (int i = 0; i < CALLERS; i++) cf_free(&callers[i]);
  return 0;
}
