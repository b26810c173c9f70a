/* Opens what the library for C opens, one after another, each with a line that says what it gave, or that memory was refused it and
 * what the same opening gave then. Before them stand a graph and a desk whose calls take no memory once they are opened; to close a
 * desk takes some where that begins, and a script where it is run. sweeps/refused runs this with each allocation refused in turn, and
 * with all refused from one on.
 *
 * A row of OPENINGS is a name and a function, which frees all that it opened, answers a code of the library, and where that is 0
 * has set three numbers, of which the last is how often a builder's refused call was made again. */
#include "cf.h"
#include <stdarg.h>
#include <stdio.h>
#include <string.h>
#include <unistd.h>

typedef uint32_t opening(long numbers[3]);

/* Prints a line without a buffer of the C library's, which would take memory. */
static void say(const char *how, ...) {
  char line[200];
  va_list rest;
  va_start(rest, how);
  int size = vsnprintf(line, sizeof line, how, rest);
  va_end(rest);
  if (size < 0 || size >= (int)sizeof line || write(1, line, (size_t)size) != size) _exit(125);
}

static cf_answer four(void) { return (cf_answer){.kind = CF_GIVE, .value = {CF_INT, 4}}; }

/* Adds a stage, and where memory was refused it the same once more. */
static uint32_t add(cf_handle *builder, uint32_t form, size_t n, uint32_t function, long *again) {
  static const uint16_t sources[] = {0, 1};
  uint16_t stage = 0;
  uint32_t code = cf_builder_stage(builder, form, sources, n, function, &stage);
  if (code == CF_NO_MEMORY) {
    ++*again;
    code = cf_builder_stage(builder, form, sources, n, function, &stage);
  }
  return code;
}

/* Gives a stage a limit, in the same way. */
static uint32_t limit(cf_handle *builder, long *again) {
  uint32_t code = cf_builder_limit(builder, 2, 10, CF_TIMEOUT, 7, (cf_value){CF_NIL, 0});
  if (code == CF_NO_MEMORY) {
    ++*again;
    code = cf_builder_limit(builder, 2, 10, CF_TIMEOUT, 7, (cf_value){CF_NIL, 0});
  }
  return code;
}

/* A builder with a source, a function over it, one over both, and a limit. */
static uint32_t begin(cf_handle *builder, uint16_t stages, uint16_t edges, long *again) {
  uint32_t code = cf_builder_new(builder, stages, edges);
  if (code == CF_OK) code = add(builder, CF_SOURCE, 0, CF_NO_FUNCTION, again);
  if (code == CF_OK) code = add(builder, CF_APPLY, 1, 0, again);
  if (code == CF_OK) code = add(builder, CF_COMBINE, 2, 1, again);
  return code == CF_OK ? limit(builder, again) : code;
}

/* How many stages and limits a builder took. */
static uint32_t begun(long numbers[3], uint16_t stages, uint16_t edges) {
  cf_handle builder = {0};
  numbers[0] = 3;
  numbers[1] = 1;
  numbers[2] = 0;
  uint32_t code = begin(&builder, stages, edges, &numbers[2]);
  cf_free(&builder);
  return code;
}

static uint32_t small_builder(long numbers[3]) { return begun(numbers, 0, 0); }

static uint32_t roomy_builder(long numbers[3]) { return begun(numbers, 3, 3); }

static uint32_t make_plan(cf_handle *plan, long *again) {
  uint32_t code = begin(plan, 0, 0, again);
  return code == CF_OK ? cf_build(plan) : code;
}

/* What a plan answers where it is built once more, and where it is asked for a stage. */
static uint32_t plan(long numbers[3]) {
  cf_handle plan = {0};
  numbers[2] = 0;
  uint32_t code = make_plan(&plan, &numbers[2]);
  if (code == CF_OK) {
    cf_outcome outcome;
    numbers[0] = cf_build(&plan);
    numbers[1] = cf_get(&plan, 0, &outcome);
  }
  cf_free(&plan);
  return code;
}

/* Calls the functions of all stages that are ready. */
static long work(cf_handle *graph) {
  long won = 0;
  uint16_t stage;
  cf_reply reply;
  while (cf_lowest_ready(graph, &stage) == CF_OK && cf_claim(graph, 1, stage, &reply) == CF_OK)
    won += cf_finish(graph, 1, stage, four(), &reply) == CF_OK && reply.answer == CF_WON;
  return won;
}

/* How many stages a graph has in the end, and how many functions were called. */
static uint32_t graph_with(long numbers[3], uint16_t room) {
  static const uint16_t first[] = {0};
  cf_handle plan = {0}, graph = {0};
  numbers[2] = 0;
  uint32_t code = make_plan(&plan, &numbers[2]);
  if (code == CF_OK) code = cf_graph_new(&plan, room, &graph);
  if (code == CF_OK) {
    cf_reply reply;
    uint16_t stages = 0;
    cf_attach(&graph, CF_THEN_RUN, first, 1, 0, &reply);
    cf_complete(&graph, 0, (cf_value){CF_INT, 3}, &reply);
    numbers[1] = work(&graph);
    cf_stages(&graph, &stages);
    numbers[0] = stages;
  }
  cf_free(&graph);
  cf_free(&plan);
  return code;
}

static uint32_t graph(long numbers[3]) { return graph_with(numbers, 0); }

static uint32_t growing_graph(long numbers[3]) { return graph_with(numbers, 2); }

enum { CALLERS = 3, LOG = 20, CALLS = 10, FUNCTIONS = 2 };

/* A plan, and the callers of a desk of it. */
static uint32_t make_desk(cf_handle *plan, cf_handle callers[CALLERS], uint16_t room, long *again) {
  uint32_t code = make_plan(plan, again);
  if (code == CF_OK && room == 0) code = cf_desk_open(plan, callers, CALLERS, LOG, CALLS);
  else if (code == CF_OK) code = cf_desk_open_growing(plan, callers, CALLERS, LOG, CALLS, room, FUNCTIONS);
  return code;
}

static void free_desk(cf_handle *plan, cf_handle callers[CALLERS]) {
  for (size_t k = 0; k < CALLERS; k++) cf_free(&callers[k]);
  cf_free(plan);
}

/* Closes a desk, and tells how many events and how many records there are. */
static uint32_t close_desk(cf_handle callers[CALLERS], long numbers[3]) {
  uint16_t events = 0, records = 0;
  uint32_t code = cf_close_begin(&callers[0]);
  for (size_t k = 1; k < CALLERS && code == CF_OK; k++) code = cf_close_add(&callers[0], &callers[k]);
  if (code == CF_OK) code = cf_close_end(&callers[0]);
  if (code == CF_OK) code = cf_closed_events(&callers[0], &events);
  numbers[0] = events;
  numbers[1] = 0;
  for (uint8_t k = 0; k < CALLERS && code == CF_OK; k++) {
    code = cf_closed_records(&callers[0], k, &records);
    numbers[1] += records;
  }
  return code == CF_OK ? cf_closed_graph(&callers[0]) : code;
}

static uint32_t desk_with(long numbers[3], uint16_t room) {
  static const uint16_t first[] = {0};
  cf_handle plan = {0}, callers[CALLERS] = {{0}, {0}, {0}};
  numbers[2] = 0;
  uint32_t code = make_desk(&plan, callers, room, &numbers[2]);
  if (code == CF_OK) {
    cf_reply reply;
    cf_outcome outcome;
    cf_desk_attach(&callers[0], CF_THEN_RUN, first, 1, 0, &reply);
    cf_desk_complete(&callers[1], 0, (cf_value){CF_INT, 3}, &reply);
    cf_desk_claim(&callers[2], 1, &reply);
    cf_desk_finish(&callers[2], 1, four(), &reply);
    cf_desk_read(&callers[0], 1, &outcome);
    code = close_desk(callers, numbers);
  }
  free_desk(&plan, callers);
  return code;
}

static uint32_t desk(long numbers[3]) { return desk_with(numbers, 0); }

static uint32_t growing_desk(long numbers[3]) { return desk_with(numbers, 2); }

static size_t words_of(cf_handle *ledger) {
  size_t n = 0;
  cf_ledger_words(ledger, 0, NULL, 0, &n);
  return n;
}

enum { CHANGED = CF_STILL_SHARED }; /* a code that no call of a ledger answers: what was refused has changed something */

/* One step of a ledger. Where memory is refused all has to be as it was. */
static uint32_t step_of(cf_handle *ledger, cf_step *step, cf_task *task) {
  const cf_task had = *task;
  const size_t before = words_of(ledger);
  size_t n = 99;
  uint32_t code = cf_ledger_step(ledger, step, task, NULL, 0, &n);
  bool same = task->held == had.held && task->stage == had.stage && task->answer.value.number == had.answer.value.number;
  if (code == CF_NO_MEMORY && !(same && n == 99 && words_of(ledger) == before)) return CHANGED;
  task->answer = four();
  return code;
}

/* A request by a ledger: sources by words, the rest by steps; grown, started again, and its row of words done once more. */
static uint32_t serve(cf_handle *ledger, long numbers[3]) {
  uint64_t words[16], given = 0;
  cf_step step = {.who = 1};
  cf_task task = {0};
  cf_reply reply;
  size_t n = 0, done = 0;
  cf_word_of((cf_event){.call = CF_CALL_COMPLETE, .who = 1, .value = {CF_INT, 3}}, &given);
  uint32_t code = cf_ledger_apply(ledger, given, &reply, NULL, 0, &n);
  if (code == CF_NO_MEMORY && words_of(ledger) != 0) return CHANGED;
  while (code == CF_OK) code = step_of(ledger, &step, &task);
  if (code != CF_NOTHING) return code;
  if ((code = cf_ledger_words(ledger, 0, words, 16, &n)) != CF_OK) return code;
  if ((code = cf_ledger_grow(ledger, 1)) != CF_OK || (code = cf_ledger_restart(ledger)) != CF_OK)
    return words_of(ledger) == n ? code : CHANGED;
  code = cf_ledger_apply_all(ledger, words, n, &done);
  numbers[0] = (long)n;
  numbers[1] = (long)done;
  return words_of(ledger) == done ? code : CHANGED;
}

static uint32_t ledger(long numbers[3]) {
  cf_handle plan = {0}, it = {0};
  numbers[2] = 0;
  uint32_t code = make_plan(&plan, &numbers[2]);
  if (code == CF_OK) code = cf_ledger_new(&plan, 1, &it);
  if (code == CF_OK) code = serve(&it, numbers);
  cf_free(&it);
  cf_free(&plan);
  return code;
}

/* What a host can ask of a request, as a sum. */
static uint64_t asked_of(cf_handle *request) {
  static uint64_t words[1000];
  size_t n = 0;
  cf_todo todo = {0};
  cf_deadline next = {0};
  uint64_t sum = cf_request_next_deadline(request, &next) + 31 * next.stage + 97 * next.moment;
  cf_ledger_words(request, 0, words, 1000, &n);
  for (size_t k = 0; k < n; k++) sum = sum * 1000003 + words[k];
  for (uint8_t lane = 0; lane < 2; lane++) {
    uint16_t ready = 0;
    cf_request_ready(request, lane, &ready);
    sum = sum * 1000003 + ready;
  }
  cf_request_told(request, NULL, 0, &todo);
  return sum * 1000003 + todo.told;
}

/* A call of a request: what it is, and the stages, the moment or the lane that it names. */
typedef enum { ATTACH, GATHER, FOLLOW, JOIN, DEADLINE, COMPLETE, NEXT, PASS, REFUSE, CANCEL, GROW, DO } request_call;
typedef struct {
  request_call call;
  uint16_t first, second;
} request_step;

/* Attaches a source, or completes a stage. */
static uint32_t apply_to(cf_handle *request, const request_step *step, cf_told *told, cf_todo *todo) {
  cf_event event = {.call = CF_CALL_ATTACH, .who = 1, .form = CF_SOURCE, .function = CF_NO_FUNCTION};
  if (step->call == COMPLETE) event = (cf_event){.call = CF_CALL_COMPLETE, .who = 1, .stage = step->first, .value = {CF_INT, 3}};
  cf_reply reply;
  uint64_t word = 0;
  cf_word_of(event, &word);
  return cf_request_apply(request, word, (uint8_t)step->second, &reply, told, 2, todo);
}

static uint32_t call_request(cf_handle *request, const request_step *step, cf_task *task, cf_told *told, cf_todo *todo) {
  cf_request_gathering gathering = {.who = 1, .form = CF_ALL_OF};
  cf_todo then = *todo;
  size_t done;
  uint32_t code = CF_OK;
  switch (step->call) {
  case GATHER: /* both stages, and the first once more, which takes two words */
    return cf_request_gather(request, &gathering, (uint16_t[]){step->first, step->second, step->first}, 3, told, 2, todo);
  case FOLLOW: return cf_request_follow(request, step->first, step->second, told, 2, todo);
  case JOIN: /* the first of two, one of which is the stage itself */
    return cf_request_join(request, &(cf_request_joining){step->first, 1, 0}, (uint16_t[]){step->first, step->second}, 2, told, 2, todo);
  case DEADLINE: return cf_request_deadline(request, step->first, step->second, CF_TIMEOUT, 7, (cf_value){CF_NIL, 0}, todo);
  case PASS: return cf_request_pass(request, step->first, told, 2, todo);
  case REFUSE: return cf_request_refuse(request, (uint8_t)step->first, 7, told, 2, todo);
  case CANCEL: return cf_request_cancel_all(request, (uint8_t)step->first, told, 2, todo);
  case GROW: return cf_request_grow(request);
  case DO: /* one call, which is done or not; the todo is written in both cases */
    code = cf_request_do(
        request, &(cf_request_call){.call = CF_DO_FOLLOW, .relay = step->first, .stage = step->second}, 1, &done, told, 2, &then);
    if (code == CF_OK) *todo = then;
    return done == (code == CF_OK) ? code : CHANGED;
  case NEXT:
    code = cf_request_next(request, 2, (uint8_t)step->first, task, told, 2, todo);
    task->answer = four();
    return code == CF_NOTHING ? CF_OK : code;
  default: return apply_to(request, step, told, todo);
  }
}

/* Makes a call, and where memory was refused it the same once more. It has to have changed nothing then. */
static uint32_t step_request(cf_handle *request, const request_step *step, cf_task *task, long *again) {
  cf_told told = {.stage = 99};
  cf_told row[2] = {told, told};
  const cf_task had = *task;
  const uint64_t before = asked_of(request);
  cf_todo todo, marked;
  memset(&marked, 99, sizeof marked);
  todo = marked;
  uint32_t code = call_request(request, step, task, row, &todo);
  if (code != CF_NO_MEMORY) return code;
  bool same = task->held == had.held && task->stage == had.stage && row[0].stage == 99 && row[1].stage == 99;
  same = same && memcmp(&todo, &marked, sizeof todo) == 0;
  if (!same || asked_of(request) != before) return CHANGED;
  ++*again;
  return call_request(request, step, task, row, &todo);
}

/* A request with these calls: how many words it has then, and what a host can ask of it. */
static uint32_t request_with(long numbers[3], const request_step *steps, size_t count) {
  static const uint8_t lanes[] = {0, 0, 1};
  cf_handle plan = {0}, request = {0};
  cf_task task = {0};
  numbers[2] = 0;
  uint32_t code = make_plan(&plan, &numbers[2]);
  cf_request_sizes sizes = {.room = 200, .lanes = 2, .own = 63};
  if (code == CF_OK) code = cf_request_new(&plan, &sizes, lanes, 3, &request);
  for (size_t k = 0; k < count && code == CF_OK; k++) code = step_request(&request, &steps[k], &task, &numbers[2]);
  numbers[0] = (long)words_of(&request);
  numbers[1] = (long)(asked_of(&request) % 1000000);
  cf_free(&request);
  cf_free(&plan);
  return code;
}

/* One call of each kind: relays, of which one settles by a word, one by a finish and one at once, and deadlines before and behind them. */
static uint32_t request(long numbers[3]) {
  static const request_step steps[] = {
      {ATTACH, 0, 1},
      {ATTACH, 0, 0},
      {ATTACH, 0, 1},
      {FOLLOW, 3, 0},
      {FOLLOW, 4, 1},
      {DEADLINE, 5, 20},
      {DEADLINE, 2, 30},
      {COMPLETE, 0, 0},
      {NEXT, 0, 0},
      {NEXT, 0, 0},
      {FOLLOW, 5, 4},
      {PASS, 10, 0},
      {NEXT, 1, 0},
      {GROW, 0, 0},
      {ATTACH, 0, 1},
      {REFUSE, 1, 0},
      {DEADLINE, 6, 12},
      {PASS, 30, 0},
      {PASS, 30, 0},
      {ATTACH, 0, 1},
      {DO, 7, 0},
      {ATTACH, 0, 1},
      {GATHER, 0, 1},
      {JOIN, 8, 0},
      {CANCEL, 1, 0},
  };
  return request_with(numbers, steps, sizeof steps / sizeof *steps);
}

/* A hundred stages are attached. Each has a deadline, and the last fifty follow the stage below them, so that one call settles many.
 * Each call of a request that takes memory finds some that it lacks, here or in the request before. */
static uint32_t long_request(long numbers[3]) {
  request_step steps[253];
  size_t count = 0;
  for (uint16_t k = 0; k < 100; k++) {
    steps[count++] = (request_step){ATTACH, 0, k % 2};
    steps[count++] = (request_step){DEADLINE, k + 3, 100 - k};
    if (k >= 50) steps[count++] = (request_step){FOLLOW, k + 3, k + 2};
  }
  steps[count++] = (request_step){REFUSE, 1, 0};
  steps[count++] = (request_step){PASS, 60, 0};
  steps[count++] = (request_step){PASS, 200, 0};
  return request_with(numbers, steps, count);
}

/* A call of a view: an entry of a word is seen, or a put of it is planned and then given up, or there is more room. */
typedef enum { SEE, PLAN, MORE } view_call;

static uint32_t call_view(cf_handle *view, view_call call, uint64_t word, size_t *n) {
  const cf_entry entry = {.word = word, .token = *n};
  cf_reply reply;
  uint64_t token = 99;
  uint32_t code;
  switch (call) {
  case PLAN: code = cf_row_plan(view, &word, 1, &token); return code != CF_OK ? (token == 99 ? code : CHANGED) : cf_row_give_up(view);
  case MORE: return cf_row_grow(view, 1);
  default: return cf_row_saw(view, &entry, &reply, NULL, 0, n);
  }
}

/* Makes a call, and where memory was refused it the same once more. It has to have changed nothing then. */
static uint32_t step_view(cf_handle *view, view_call call, uint64_t word, long *again) {
  const size_t before = words_of(view);
  size_t n = 99;
  uint8_t who = 99, now = 99;
  cf_row_number(view, &who);
  uint32_t code = call_view(view, call, word, &n);
  if (code != CF_NO_MEMORY) return code;
  if (n != 99 || words_of(view) != before || cf_row_number(view, &now) != CF_OK || now != who) return CHANGED;
  ++*again;
  return call_view(view, call, word, &n);
}

/* A view that sees a hundred completions of session 0, plans one as another session, and has more room twice: how many words it has seen,
 * and its number. */
static uint32_t view(long numbers[3]) {
  cf_handle plan = {0}, it = {0};
  uint64_t word = 0;
  uint8_t who = 0;
  numbers[2] = 0;
  uint32_t code = make_plan(&plan, &numbers[2]);
  const cf_row_opening opening = {.room = 1, .session = 1};
  cf_word_of((cf_event){.call = CF_CALL_COMPLETE, .value = {CF_INT, 3}}, &word);
  if (code == CF_OK) code = cf_row_new(&plan, &opening, &it);
  for (int k = 0; k < 100 && code == CF_OK; k++) code = step_view(&it, SEE, word, &numbers[2]);
  cf_word_of((cf_event){.call = CF_CALL_COMPLETE, .who = 1, .value = {CF_INT, 3}}, &word);
  for (int k = 0; k < 40 && code == CF_OK; k++) code = step_view(&it, k % 20 == 0 ? MORE : PLAN, word, &numbers[2]);
  cf_row_number(&it, &who);
  numbers[0] = (long)words_of(&it);
  numbers[1] = who;
  cf_free(&it);
  cf_free(&plan);
  return code;
}

/* The row of the one request of a store, and the moment by the hosts' clock. */
typedef struct {
  cf_noted row[64];
  size_t entries;
  uint64_t now;
} store;

/* Puts a host's entries into the row. */
static uint32_t put(cf_handle *host, const cf_host_order *order, store *store) {
  cf_host_want wants[8];
  size_t n = 0;
  uint32_t code = cf_host_put(host, order->request, wants, 8, &n);
  for (size_t k = 0; k < n; k++) store->row[store->entries++] = wants[k].entry;
  return code == CF_OK ? cf_host_answered(host, store->now, order->ticket, CF_STANDS) : code;
}

/* Does an order of a host. What isn't a question needs no answer. */
static uint32_t obey(cf_handle *host, cf_handle *plan, const cf_host_order *order, store *store) {
  static const cf_note notes[] = {{0, 0}, {CF_NOTE_CALLS(1), 0}, {CF_NOTE_CALLS(2), 0}};
  static const cf_host_beat beats[] = {{7, 1}, {8, 1}, {9, 1}};
  static const cf_host_length lengths[] = {{1, 0}, {2, 0}, {3, 0}};
  switch (order->kind) {
  case CF_ORDER_BEAT: return cf_host_beats(host, store->now, order->ticket, 0, beats, 3);
  case CF_ORDER_LIST:
  case CF_ORDER_NEWS: return cf_host_news(host, store->now, order->ticket, 1, lengths, 3);
  case CF_ORDER_OPEN: return cf_host_opened(host, order->ticket, plan, 20, 0, notes, 3);
  case CF_ORDER_READ: return cf_host_read(host, store->now, order->ticket, store->row + order->place, store->entries - order->place);
  case CF_ORDER_PUT: return put(host, order, store);
  case CF_ORDER_CLOSE: return cf_host_answered(host, store->now, order->ticket, CF_CLOSED);
  case CF_ORDER_CALL: return cf_host_ended(host, order->ticket, CF_ENDS_GIVE, 0, 0);
  default: return CF_OK;
  }
}

/* A host's next order, which is done. A call that is refused memory is made again. The sum is of what is put, called and told. */
static uint32_t serve_next(cf_handle *host, cf_handle *plan, store *store, cf_host_order *order, long numbers[3]) {
  uint32_t code = cf_host_turn(host, store->now, order);
  if (code == CF_NO_MEMORY) {
    ++numbers[2];
    code = cf_host_turn(host, store->now, order);
  }
  if (code != CF_OK) return code;
  if (order->kind >= CF_ORDER_PUT)
    numbers[0] = (31 * numbers[0] + (long)(order->kind + 16 * order->told + 256 * order->stage + 4096 * order->place)) % 1000003;
  code = obey(host, plan, order, store);
  if (code != CF_NO_MEMORY) return code;
  ++numbers[2];
  return obey(host, plan, order, store);
}

/* Serves a host for a tenth of a second at least. It asks a question again for which it was refused memory. */
static uint32_t serve_host(cf_handle *host, cf_handle *plan, store *store, long numbers[3]) {
  const uint64_t until = store->now + 100;
  cf_host_order order = {0};
  uint32_t code = CF_OK;
  while (code == CF_OK && store->now < until) {
    code = serve_next(host, plan, store, &order, numbers);
    if (code == CF_OK && order.kind == CF_ORDER_SLEEP) store->now = order.moment < until ? order.moment : until;
  }
  return code;
}

/* A user's call: the request is followed, an act is asked for, or it is ended. */
typedef enum { WORK_ON, COMPLETE_IT, ATTACH_TO_IT, END_IT } user_call;

static uint32_t call_host(cf_handle *host, user_call call, uint64_t now) {
  const cf_host_acting complete = {.kind = CF_ACT_COMPLETE},
                       attach = {.kind = CF_ACT_ATTACH, .form = CF_SOURCE, .function = CF_NO_FUNCTION};
  uint64_t ticket;
  switch (call) {
  case WORK_ON: return cf_host_follow(host, 1);
  case END_IT: return cf_host_end(host, now, 1, &ticket);
  default: return cf_host_act(host, now, 1, call == COMPLETE_IT ? &complete : &attach, &ticket);
  }
}

/* The same, and once more where it was refused memory. */
static uint32_t use_host(cf_handle *host, user_call call, uint64_t now, long *again) {
  uint32_t code = call_host(host, call, now);
  if (code != CF_NO_MEMORY) return code;
  ++*again;
  return call_host(host, call, now);
}

/* Uses it, or the first host alone, and serves it. */
static uint32_t run_host(cf_handle *host, cf_handle *plan, store *store, bool is_first, long numbers[3]) {
  static const user_call calls[] = {COMPLETE_IT, ATTACH_TO_IT, ATTACH_TO_IT, ATTACH_TO_IT, ATTACH_TO_IT, ATTACH_TO_IT, END_IT};
  cf_host_view seen = {0};
  uint32_t code = use_host(host, WORK_ON, store->now, &numbers[2]);
  if (code == CF_OK) code = serve_host(host, plan, store, numbers);
  for (size_t k = 0; is_first && k < sizeof calls / sizeof *calls && code == CF_OK; k++)
    code = use_host(host, calls[k], store->now, &numbers[2]);
  if (code == CF_OK) code = serve_host(host, plan, store, numbers);
  if (code == CF_OK) code = cf_host_seen(host, 1, &seen);
  numbers[1] = (long)seen.words;
  return code == CF_OK && seen.words != store->entries ? CF_NO_MEMORY : code; /* it may read later what it couldn't */
}

/* A host works on a request and ends it, and another one reads its whole row: a sum of what was put, called and told, and how many words the
 * second has seen. */
static uint32_t host(long numbers[3]) {
  cf_handle plan = {0};
  store store = {.entries = 0};
  numbers[0] = numbers[1] = numbers[2] = 0;
  uint32_t code = make_plan(&plan, &numbers[2]);
  for (uint64_t session = 7; session < 9 && code == CF_OK; session++) {
    cf_handle it = {0};
    code = cf_host_new(&(cf_host_opening){.session = session, .workers = 2, .lease = 3000}, &it);
    if (code == CF_OK) code = run_host(&it, &plan, &store, session == 7, numbers);
    cf_free(&it);
  }
  cf_free(&plan);
  return code;
}

/* The words of a completion, a claim, a finish, and an attach for which there is no room. */
static size_t words_in(uint64_t words[4]) {
  const cf_event events[] = {
      {.call = CF_CALL_COMPLETE, .who = 1, .stage = 0, .value = {CF_INT, 1}},
      {.call = CF_CALL_CLAIM, .who = 2, .stage = 1},
      {.call = CF_CALL_FINISH, .who = 2, .stage = 1, .answer = four()},
      {.call = CF_CALL_ATTACH, .who = 1, .function = CF_NO_FUNCTION},
  };
  for (size_t k = 0; k < 4; k++) cf_word_of(events[k], &words[k]);
  return 4;
}

/* Says what has the number of a kind of text and when events were done, and tells the history as that kind, or only tells it: how long the
 * text is. */
static uint32_t tell_history(cf_handle *it, uint32_t kind, size_t *length, bool also_says) {
  static const size_t ends[] = {5, 5, 11};
  static const uint64_t times[] = {1, 2, 3, 4};
  const size_t count = kind == CF_SAY_NAME ? 1 : 3;
  uint32_t code = also_says ? cf_history_say(it, kind, (const uint8_t *)"pricetotals", 11, ends, count) : CF_OK;
  if (code == CF_OK && also_says) code = cf_history_times(it, times, 4);
  return code == CF_OK ? cf_history_text(it, kind, NULL, 0, length) : code;
}

/* A history of which everything is said: how long its texts are together, and how long the first is once more. */
static uint32_t history(long numbers[3]) {
  cf_handle plan = {0}, it = {0};
  uint64_t words[4];
  size_t length = 0;
  numbers[0] = numbers[2] = 0;
  uint32_t code = make_plan(&plan, &numbers[2]);
  if (code == CF_OK) code = cf_history_new(&plan, 0, words, words_in(words), &it);
  for (uint32_t kind = CF_LINES; kind <= CF_REPORT && code == CF_OK; kind++) {
    code = tell_history(&it, kind, &length, true);
    if (code == CF_NO_MEMORY) {
      ++numbers[2];
      code = tell_history(&it, kind, &length, true);
    }
    numbers[0] += (long)length;
  }
  if (code == CF_OK) code = tell_history(&it, CF_LINES, &length, false);
  numbers[1] = (long)length;
  cf_free(&it);
  cf_free(&plan);
  return code;
}

/* The code of a script's run, and how long what it prints is. */
static uint32_t script_of(const char *text, uint32_t wanted, long numbers[3]) {
  uint8_t report[100];
  size_t size = 0, length = 0;
  while (text[size] != 0) size++;
  uint32_t code = cf_run_script((const uint8_t *)text, size, report, sizeof report, &length);
  numbers[0] = code;
  numbers[1] = (long)length;
  numbers[2] = 0;
  return code == wanted ? CF_OK : code;
}

static uint32_t script(long numbers[3]) {
  return script_of("{\"cf\": 1, \"stages\": [{\"form\": \"source\"}], \"steps\": [[\"complete\", 0, 3]]}", CF_OK, numbers);
}

static uint32_t wrong_script(long numbers[3]) { return script_of("{\"cf\": 1, \"stages\": 5}", CF_BAD_SCRIPT, numbers); }

static const struct {
  const char *name;
  opening *open;
} OPENINGS[] = {
    {"C builder", small_builder},
    {"C builder with room", roomy_builder},
    {"C plan", plan},
    {"C graph", graph},
    {"C growing graph", growing_graph},
    {"C desk", desk},
    {"C growing desk", growing_desk},
    {"C ledger", ledger},
    {"C request", request},
    {"C long request", long_request},
    {"C view", view},
    {"C host", host},
    {"C history", history},
    {"C script", script},
    {"C wrong script", wrong_script},
};

static void show(const char *name, opening *open) {
  long numbers[3] = {0};
  uint32_t code = open(numbers);
  if (code == CF_NO_MEMORY) {
    say("%s: no memory\n", name);
    code = open(numbers);
  }
  if (code == CF_OK) say("%s: %ld, %ld, %ld\n", name, numbers[0], numbers[1], numbers[2]);
  else say("%s: refused\n", name);
}

/* A line of what a changing call answered. */
static void tell(uint32_t code, const cf_reply *reply) {
  say("  code %u: %u, %u, first %u %d\n", code, reply->answer, reply->number, reply->args.first.kind, reply->args.first.number);
}

/* Each call of a graph, of which none takes memory. */
static void call_each(cf_handle *graph) {
  static const uint16_t first[] = {0};
  cf_reply reply = {0};
  cf_outcome outcome = {0};
  cf_now now = {0};
  uint16_t stage = 0, function = 0, stages = 0;
  uint64_t turns = 0;
  tell(cf_attach(graph, CF_THEN_RUN, first, 1, 0, &reply), &reply);
  tell(cf_attach(graph, CF_THEN_RUN, first, 1, 0, &reply), &reply);
  tell(cf_complete(graph, 0, (cf_value){CF_INT, 3}, &reply), &reply);
  tell(cf_fail(graph, 0, 7, &reply), &reply);
  uint32_t ready = cf_lowest_ready(graph, &stage);
  tell(cf_claim(graph, 1, 1, &reply), &reply);
  tell(cf_cancel(graph, 1, &reply), &reply);
  tell(cf_finish(graph, 1, 1, four(), &reply), &reply);
  tell(cf_tick(graph, 5, &reply), &reply);
  uint32_t got = cf_get(graph, 0, &outcome), told = cf_get_now(graph, 1, (cf_value){CF_NIL, 0}, &now);
  say("  ready %u %u, outcome %u %d, now %u %u\n", ready, stage, got, outcome.value.number, told, now.kind);
  uint32_t named = cf_function(graph, 1, &function), restarted = cf_restart(graph);
  cf_stages(graph, &stages);
  cf_turns(graph, &turns);
  say("  function %u %u, restarted %u: %u stages, %lu turns\n", named, function, restarted, stages, turns);
}

static void show_calls(void) {
  cf_handle plan = {0}, graph = {0};
  long again = 0;
  uint32_t code = make_plan(&plan, &again);
  if (code == CF_OK) code = cf_graph_new(&plan, 1, &graph);
  if (code == CF_OK && again == 0) {
    say("C calls:\n");
    call_each(&graph);
  } else {
    say("C calls: no memory\n");
  }
  cf_free(&graph);
  cf_free(&plan);
}

/* Each call of a desk's callers, of which none takes memory, and the words and texts that C gets. */
static void call_desk(cf_handle callers[CALLERS]) {
  static const uint16_t first[] = {0};
  cf_handle *a = &callers[0], *b = &callers[1];
  cf_reply reply = {0};
  cf_outcome outcome = {0};
  cf_now now = {0}, joined = {0};
  cf_event event = {0};
  uint16_t stage = 0, function = 0, seen = 0, left = 0;
  uint8_t number = 0, text[34];
  uint64_t word = 0;
  size_t length = 0;
  tell(cf_desk_attach(a, CF_THEN_RUN, first, 1, 0, &reply), &reply);
  tell(cf_desk_attach(b, CF_THEN_RUN, first, 1, 0, &reply), &reply);
  tell(cf_desk_complete(a, 0, (cf_value){CF_INT, 3}, &reply), &reply);
  tell(cf_desk_fail(b, 0, 7, &reply), &reply);
  uint32_t ready = cf_desk_ready(a, &stage);
  tell(cf_desk_claim(b, 1, &reply), &reply);
  tell(cf_desk_cancel(a, 1, &reply), &reply);
  tell(cf_desk_finish(b, 1, four(), &reply), &reply);
  tell(cf_desk_tick(a, 5, &reply), &reply);
  uint32_t read = cf_desk_read(b, 0, &outcome), told = cf_desk_read_now(a, 1, (cf_value){CF_NIL, 0}, &now);
  say("  ready %u %u, outcome %u %d, now %u %u\n", ready, stage, read, outcome.value.number, told, now.kind);
  uint32_t join = cf_desk_join(a, 0, 2, &joined), met = cf_desk_meet(a, &callers[2]);
  uint32_t named = cf_desk_function(a, 1, &function), counted = cf_desk_seen(&callers[2], &seen);
  say("  joined %u %u, met %u, function %u %u, seen %u %u\n", join, joined.kind, met, named, function, counted, seen);
  uint32_t room = cf_desk_left(a, &left), who = cf_desk_caller(b, &number);
  say("  left %u %u, caller %u %u\n", room, left, who, number);
  uint32_t decoded = cf_event_of(0x0100000100000003, &event), encoded = cf_word_of(event, &word);
  uint32_t written = cf_outcome_text(outcome, text, sizeof text, &length);
  say("  event %u %u, word %u %lx, text %u %zu\n", decoded, event.call, encoded, word, written, length);
}

static void show_desk_calls(void) {
  cf_handle plan = {0}, callers[CALLERS] = {{0}, {0}, {0}};
  long again = 0;
  uint32_t code = make_desk(&plan, callers, 1, &again);
  if (code == CF_OK && again == 0) {
    say("C desk calls:\n");
    call_desk(callers);
  } else {
    say("C desk calls: no memory\n");
  }
  free_desk(&plan, callers);
}

/* What a caller and another are refused once there is no place for a record, or for a word. To refuse takes no memory, nor do looks then. */
static void call_full(cf_handle callers[2]) {
  cf_handle *a = &callers[0], *b = &callers[1];
  cf_reply reply = {0};
  cf_outcome outcome = {0};
  uint16_t left = 0;
  tell(cf_desk_complete(a, 0, (cf_value){CF_INT, 3}, &reply), &reply);
  tell(cf_desk_cancel(a, 0, &reply), &reply);
  tell(cf_desk_tick(b, 5, &reply), &reply); /* the log is full */
  uint32_t read = cf_desk_read(b, 0, &outcome), first = cf_desk_left(b, &left);
  say("  read %u %d, left %u %u\n", read, outcome.value.number, first, left);
  uint32_t again = cf_desk_read(b, 0, &outcome), third = cf_desk_read(b, 0, &outcome), full = cf_desk_read(b, 0, &outcome);
  say("  read %u, %u, and with no place for a record %u\n", again, third, full);
  tell(cf_desk_claim(b, 1, &reply), &reply); /* so is what b may hold */
}

static void show_full(void) {
  cf_handle plan = {0}, callers[2] = {{0}, {0}};
  long again = 0;
  uint32_t code = make_plan(&plan, &again);
  if (code == CF_OK) code = cf_desk_open(&plan, callers, 2, 2, 3);
  if (code == CF_OK && again == 0) {
    say("C full desk:\n");
    call_full(callers);
  } else {
    say("C full desk: no memory\n");
  }
  cf_free(&callers[0]);
  cf_free(&callers[1]);
  cf_free(&plan);
}

int main(void) {
  show_calls();
  show_desk_calls();
  show_full();
  for (size_t k = 0; k < sizeof OPENINGS / sizeof *OPENINGS; k++) show(OPENINGS[k].name, OPENINGS[k].open);
  return 0;
}
