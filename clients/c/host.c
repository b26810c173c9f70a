/* One request by a host: what a service writes over cf_request_..., on one thread. After each call it wakes those who wait for what was told,
 * and sets its alarm and starts jobs as the request's cf_todo says. */
#define _POSIX_C_SOURCE 200809L /* nanosleep */
#include "cf.h"
#include <stdio.h>
#include <stdlib.h>
#include <time.h>

enum { STOCK, PRICE, TOTAL, ANSWER, COUPON, GIFT, MAIL, STAGES }; /* MAIL is attached */
enum { WORKERS, MAILER, LANES, ME = 1, OWN = 0, ROW = 2, NOBODY_MAILS = 503, NO_COUPON = 408 };
enum { ASK_STOCK, MULTIPLY, SEND };
static const char *const names[STAGES] = {"stock", "price", "total", "answer", "coupon", "gift", "mail"};

static cf_handle request;
static cf_told told[ROW];
static cf_todo todo = {.moment = CF_NEVER};

#define DO(call)                                                                                                                           \
  do {                                                                                                                                     \
    if ((call) != CF_OK) {                                                                                                                 \
      fprintf(stderr, "%s\n", #call);                                                                                                      \
      exit(1);                                                                                                                             \
    }                                                                                                                                      \
  } while (0)

/* The functions of the stages. */
static cf_answer call(const cf_task *task) {
  const int32_t number = task->function == ASK_STOCK ? 6 : task->args.first.number * task->args.second.number;
  printf("%s: its function gives %d\n", names[task->stage], number);
  return (cf_answer){.kind = CF_GIVE, .value = {CF_INT, number}};
}

/* What the host does after each call of the request, by its code. Whoever waits for a stage is woken: here it prints what is told. Nobody
 * runs the mailer's lane. */
static uint32_t heed(uint32_t code) {
  if (code != CF_OK && code != CF_NOTHING) exit(1);
  for (size_t k = 0; k < todo.told && k < ROW; k++) {
    uint8_t text[34];
    size_t length;
    DO(cf_outcome_text(told[k].outcome, text, sizeof text, &length));
    printf("%s: %.*s\n", names[told[k].stage], (int)length, (const char *)text);
  }
  if (todo.news & CF_NEWS_MOMENT && todo.moment != CF_NEVER) printf("the alarm is set to %u ms\n", (unsigned)todo.moment);
  if (todo.news & CF_NEWS_READY) todo.jobs[WORKERS] += todo.ready[WORKERS];
  if (todo.told > ROW) heed(cf_request_told(&request, told, ROW, &todo));
  return code;
}

/* A job of the workers: it calls what is ready. */
static void work(void) {
  cf_task task = {0};
  todo.jobs[WORKERS]--;
  while (heed(cf_request_next(&request, ME, WORKERS, &task, told, ROW, &todo)) == CF_OK) task.answer = call(&task);
}

/* The host runs its jobs, and else sleeps until the alarm, in milliseconds. It ends when nothing is left that it could wait for. */
static void serve(void) {
  for (uint64_t now = 0; todo.jobs[WORKERS] || todo.moment != CF_NEVER;)
    if (todo.jobs[WORKERS]) work();
    else {
      nanosleep(&(struct timespec){.tv_nsec = (long)(todo.moment - now) * 1000000}, NULL); /* it is never before now */
      now = todo.moment;
      printf("%u ms have passed\n", (unsigned)now);
      heed(cf_request_pass(&request, now, told, ROW, &todo));
    }
}

/* A stage is added while the request is open, in the lane of the mailer. */
static void attach(void) {
  const cf_event event = {.call = CF_CALL_ATTACH, .who = ME, .form = CF_ACCEPT, .sources = 1, .first = TOTAL, .function = SEND};
  cf_reply reply;
  uint64_t word;
  DO(cf_word_of_event(&event, &word));
  heed(cf_request_apply(&request, word, MAILER, &reply, told, ROW, &todo));
}

int main(void) {
  const cf_request_sizes sizes = {.room = 1, .lanes = LANES, .own = OWN};
  cf_handle plan = {0};
  uint16_t stage;
  DO(cf_builder_new(&plan, 0, 0));
  DO(cf_builder_stage(&plan, CF_SUPPLY, NULL, 0, ASK_STOCK, &stage));
  DO(cf_builder_stage(&plan, CF_SOURCE, NULL, 0, CF_NO_FUNCTION, &stage));
  DO(cf_builder_stage(&plan, CF_COMBINE, (uint16_t[]){STOCK, PRICE}, 2, MULTIPLY, &stage));
  for (stage = TOTAL; stage < GIFT;) DO(cf_builder_stage(&plan, CF_SOURCE, NULL, 0, CF_NO_FUNCTION, &stage));
  DO(cf_build(&plan));
  DO(cf_request_new(&plan, &sizes, (uint8_t[]){WORKERS, WORKERS, WORKERS, WORKERS, WORKERS, WORKERS}, MAIL, &request));
  cf_free(&plan);

  heed(cf_request_follow(&request, ANSWER, TOTAL, told, ROW, &todo));                             /* the customer waits for the answer */
  heed(cf_request_follow(&request, GIFT, COUPON, told, ROW, &todo));                              /* the gift that the coupon is for */
  heed(cf_request_deadline(&request, PRICE, 20, CF_GIVE_VALUE, 0, (cf_value){CF_INT, 7}, &todo)); /* the price that it gets by then */
  heed(cf_request_deadline(&request, COUPON, 10, CF_TIMEOUT, NO_COUPON, (cf_value){CF_NIL, 0}, &todo));
  attach();
  serve();

  printf("left for the mailer: %u\n", (unsigned)todo.ready[MAILER]);
  heed(cf_request_refuse(&request, MAILER, NOBODY_MAILS, told, ROW, &todo));
  cf_free(&request);
  return 0;
}
