/* A travel desk: one customer's booking, served by four threads that share one desk of completable futures. Thread 0 is the customer,
 * who orders, waits, cancels and attaches; threads 1 to 3 are clerks, who claim what is ready, run its function and finish it. */
#include <pthread.h>
#include <stdatomic.h>
#include <stdio.h>
#include <stdlib.h>
#include <string.h>
#include "cf.h"

enum { THREADS = 4, LOG = 128, CALLS = 256, ROOM = 2, LATEST = 10, LOOKS = 16 };
enum { TRAVELLERS = 2, FLIGHT_PRICE = 180, HOTEL_PRICE = 150, HOTEL_FALLBACK = 220, CAR_A_PRICE = 90, CAR_B_PRICE = 80, REFUSED = 51 };
enum { ORDER, FLIGHT, HOTEL, CAR_A, CAR_B, CAR, BEDS, TOTAL, PAY, PLANNED };
enum { F_FLIGHT, F_HOTEL, F_CAR_A, F_CAR_B, F_SUM, F_PAY, F_OTHER_CARD, F_RETRY, FUNCTIONS };
static const char *const names[PLANNED + ROOM] = {
    "order", "flight", "hotel", "car firm A", "car firm B", "car", "flight + hotel", "total", "payment", "other card", "paid"};

/* The one place where codes are tested: it answers the code if it is CF_OK or the other that is expected, and else ends the program. */
static uint32_t must(uint32_t code, uint32_t also, const char *call) {
  if (code == CF_OK || code == also) return code;
  uint8_t text[32];
  size_t length = 0;
  if (cf_code_text(code, text, sizeof text, &length) != CF_OK) length = 0;
  fprintf(stderr, "%s: code %u %.*s\n", call, (unsigned)code, (int)length, (const char *)text);
  exit(1);
}
#define DO(call) ((void)must((call), CF_OK, #call))
#define DO_OR(call, other) must((call), (other), #call)
#define THREAD(call) ((void)must((call) == 0 ? CF_OK : CF_NOTHING, CF_OK, #call))

/* A bell by which threads rest: rung after each changing call, so that nobody has to look again before something was done. */
static struct {
  pthread_mutex_t lock;
  pthread_cond_t changed;
  unsigned rung;
  bool over;
} bell = {PTHREAD_MUTEX_INITIALIZER, PTHREAD_COND_INITIALIZER, 0, false};
static void ring(bool over) {
  THREAD(pthread_mutex_lock(&bell.lock));
  bell.rung++;
  bell.over = bell.over || over;
  THREAD(pthread_cond_broadcast(&bell.changed));
  THREAD(pthread_mutex_unlock(&bell.lock));
}
/* Waits until the bell has been rung more often than `heard`, which is then what it was rung; false where the booking is over. */
static bool listen_after(unsigned *heard, bool wait) {
  THREAD(pthread_mutex_lock(&bell.lock));
  while (wait && bell.rung == *heard && !bell.over) THREAD(pthread_cond_wait(&bell.changed, &bell.lock));
  *heard = bell.rung;
  bool open = !bell.over;
  THREAD(pthread_mutex_unlock(&bell.lock));
  return open;
}
/* Joins a stage, with a rest until the next ring wherever it isn't settled. */
static cf_now await(cf_handle *caller, uint16_t stage) {
  cf_now now;
  unsigned heard = 0;
  bool open = listen_after(&heard, false);
  for (;;) {
    DO(cf_desk_join(caller, stage, LOOKS, &now));
    if (now.kind != CF_ABSENT || !open) return now;
    open = listen_after(&heard, true);
  }
}

/* The functions of the stages, by their numbers. */
static atomic_uint other_card; /* the attached stage that the retry links to: written before the retry is attached */
typedef cf_answer job(cf_handle *caller, uint16_t stage, const cf_args *args);
static cf_value number(int32_t n) { return (cf_value){CF_INT, n}; }
static cf_answer give(int32_t n) { return (cf_answer){.kind = CF_GIVE, .value = number(n)}; }

static cf_answer flight(cf_handle *caller, uint16_t stage, const cf_args *args) {
  (void)caller, (void)stage;
  return give(args->first.number * FLIGHT_PRICE);
}
static cf_answer hotel(cf_handle *caller, uint16_t stage, const cf_args *args) { /* answers only after its limit */
  (void)await(caller, stage);
  return give(args->first.number * HOTEL_PRICE);
}
static cf_answer car_a(cf_handle *caller, uint16_t stage, const cf_args *args) {
  (void)caller, (void)stage, (void)args;
  return give(CAR_A_PRICE);
}
static cf_answer car_b(cf_handle *caller, uint16_t stage, const cf_args *args) { /* cheaper, and answers only once it is cancelled */
  (void)await(caller, stage), (void)args;
  return give(CAR_B_PRICE);
}
static cf_answer sum(cf_handle *caller, uint16_t stage, const cf_args *args) {
  (void)caller, (void)stage;
  return give(args->first.number + args->second.number);
}
static cf_answer pay(cf_handle *caller, uint16_t stage, const cf_args *args) {
  (void)caller, (void)stage, (void)args;
  return (cf_answer){.kind = CF_THROW, .code = REFUSED};
}
static cf_answer pay_by_other_card(cf_handle *caller, uint16_t stage, const cf_args *args) {
  (void)caller, (void)stage;
  return give(args->first.number);
}
static cf_answer retry(cf_handle *caller, uint16_t stage, const cf_args *args) {
  (void)caller, (void)stage;
  if (args->outcome.kind != CF_THROWN || args->outcome.code != REFUSED) return (cf_answer){.kind = CF_THROW, .code = args->outcome.code};
  return (cf_answer){.kind = CF_LINK, .stage = (uint16_t)atomic_load(&other_card)};
}
static job *const jobs[FUNCTIONS] = {flight, hotel, car_a, car_b, sum, pay, pay_by_other_card, retry};

/* A clerk: claims the lowest ready stage, runs its function and finishes it, or rests until the bell rings. */
static void *clerk(void *handle) {
  cf_handle *caller = handle;
  unsigned heard = 0;
  bool open = listen_after(&heard, false);
  for (;;) {
    uint16_t stage, function;
    cf_reply reply;
    if (DO_OR(cf_desk_ready(caller, &stage), CF_NOTHING) == CF_NOTHING) {
      if (!open) return NULL;
      open = listen_after(&heard, true);
      continue;
    }
    DO(cf_desk_claim(caller, stage, &reply));
    if (reply.answer != CF_GRANTED) continue;
    DO(cf_desk_function(caller, stage, &function));
    DO(cf_desk_finish(caller, stage, jobs[function](caller, stage, &reply.args), &reply));
    ring(false);
  }
}

/* The customer: orders, waits for a car, cancels the firm that lost, lets the hotel's time be over, and has the payment retried. */
static void *customer(void *handle) {
  cf_handle *caller = handle;
  cf_reply reply;
  DO(cf_desk_complete(caller, ORDER, number(TRAVELLERS), &reply));
  ring(false);
  (void)await(caller, CAR);
  for (uint16_t firm = CAR_A; firm <= CAR_B; firm++) {
    cf_outcome outcome;
    DO(cf_desk_read(caller, firm, &outcome));
    if (outcome.kind == CF_PENDING) DO(cf_desk_cancel(caller, firm, &reply));
  }
  ring(false);
  DO(cf_desk_tick(caller, LATEST, &reply));
  ring(false);
  uint16_t whole = PAY;
  cf_now now = await(caller, whole);
  if (now.kind == CF_COMPLETION && now.outcome.code == REFUSED) {
    const uint16_t total = TOTAL, payment = PAY;
    DO(cf_desk_attach(caller, CF_APPLY, &total, 1, F_OTHER_CARD, &reply));
    atomic_store(&other_card, reply.number);
    DO(cf_desk_attach(caller, CF_EXCEPTIONALLY_COMPOSE, &payment, 1, F_RETRY, &reply));
    whole = (uint16_t)reply.number;
    ring(false);
  }
  (void)await(caller, whole);
  ring(true);
  return NULL;
}

static void stage(cf_handle *builder, uint32_t form, uint16_t first, uint16_t second, size_t n, uint32_t function) {
  const uint16_t of[2] = {first, second};
  uint16_t at;
  DO(cf_builder_stage(builder, form, of, n, function, &at));
}
static void plan_booking(cf_handle *plan) {
  DO(cf_builder_new(plan, PLANNED, 16));
  stage(plan, CF_SOURCE, 0, 0, 0, CF_NO_FUNCTION);
  stage(plan, CF_APPLY, ORDER, 0, 1, F_FLIGHT);
  stage(plan, CF_APPLY, ORDER, 0, 1, F_HOTEL);
  stage(plan, CF_APPLY, ORDER, 0, 1, F_CAR_A);
  stage(plan, CF_APPLY, ORDER, 0, 1, F_CAR_B);
  stage(plan, CF_ANY_OF, CAR_A, CAR_B, 2, CF_NO_FUNCTION);
  stage(plan, CF_COMBINE, FLIGHT, HOTEL, 2, F_SUM);
  stage(plan, CF_COMBINE, BEDS, CAR, 2, F_SUM);
  stage(plan, CF_APPLY, TOTAL, 0, 1, F_PAY);
  DO(cf_builder_limit(plan, HOTEL, LATEST, CF_GIVE_VALUE, 0, number(HOTEL_FALLBACK)));
  DO(cf_build(plan));
}

/* Does the history again on a graph, and compares: of a call its word and reply, of a look what the graph tells there. */
static bool agrees(cf_handle *closed, cf_handle *graph, const cf_record *record) {
  cf_reply reply;
  uint64_t word = 0;
  memset(&reply, 0, sizeof reply);
  DO(cf_restart(graph));
  for (uint32_t i = 0; i < record->place; i++) {
    DO(cf_closed_word(closed, (uint16_t)i, &word));
    DO(cf_apply(graph, word, &reply));
  }
  if (record->kind == CF_DID) return word == record->word && memcmp(&reply, &record->reply, sizeof reply) == 0;
  cf_outcome outcome;
  cf_now now;
  DO(cf_get(graph, record->stage, &outcome));
  DO(cf_get_now(graph, record->stage, record->absent, &now));
  return record->asked == CF_ASKED_NOW ? memcmp(&now, &record->now, sizeof now) == 0
                                       : memcmp(&outcome, &record->outcome, sizeof outcome) == 0;
}

int main(void) {
  cf_handle plan = {0}, graph = {0}, callers[THREADS] = {{0}};
  plan_booking(&plan);
  DO(cf_desk_open_growing(&plan, callers, THREADS, LOG, CALLS, ROOM, FUNCTIONS));
  DO(cf_graph_new(&plan, ROOM, &graph));
  cf_free(&plan);
  pthread_t threads[THREADS];
  for (int i = 0; i < THREADS; i++) THREAD(pthread_create(&threads[i], NULL, i == 0 ? customer : clerk, &callers[i]));
  for (int i = 0; i < THREADS; i++) THREAD(pthread_join(threads[i], NULL));

  cf_handle *closed = &callers[0];
  DO(cf_close_begin(closed));
  for (int i = 1; i < THREADS; i++) DO(cf_close_add(closed, &callers[i]));
  DO(cf_close_end(closed));

  uint16_t events, records, stages;
  unsigned told = 0, wrong = 0, completions = 0, won = 0;
  DO(cf_closed_events(closed, &events));
  for (uint8_t who = 0; who < THREADS; who++) {
    DO(cf_closed_records(closed, who, &records));
    for (uint16_t at = 0; at < records; at++) {
      cf_record record;
      cf_event event;
      DO(cf_closed_record(closed, who, at, &record));
      if (!agrees(closed, &graph, &record)) wrong++;
      if (record.kind != CF_DID) continue;
      DO(cf_event_of(record.word, &event));
      told++;
      if (event.call == CF_CALL_COMPLETE && record.reply.answer == 1) completions++;
      if (event.call == CF_CALL_FINISH && record.reply.answer == CF_WON) won++;
    }
  }
  DO(cf_closed_graph(closed));
  DO(cf_stages(closed, &stages));
  for (uint16_t i = 0; i < stages; i++) {
    cf_outcome outcome;
    uint8_t text[34];
    size_t length;
    DO(cf_get(closed, i, &outcome));
    DO(cf_outcome_text(outcome, text, sizeof text, &length));
    printf("%2u %-14s %.*s\n", (unsigned)i, names[i], (int)length, (const char *)text);
  }
  printf("completions that settled: %u, finishes that won: %u\n", completions, won);
  printf("each record agrees with the history: %s\n", wrong == 0 ? "yes" : "no");
  printf("each event is in one record: %s\n", told == events ? "yes" : "no");
  cf_free(closed);
  cf_free(&graph);
  return wrong == 0 && told == events ? 0 : 1;
}
