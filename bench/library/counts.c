/* What the calls of the library for C cost in instructions: bench/library/counts builds this and runs it under callgrind.
 *
 *     counts chain|fan-out|sources
 *
 * Each row has a function of its own here, with the row's name, that makes the calls and nothing else that is counted: what callgrind finds
 * in the exported calls that this function makes is the row's figure. So opening, checking and this program's own code aren't in it. A line
 * for each row says of how many parts it is: claims, finishes, words, stages or completions. Before a ledger's calls are counted, all its
 * words were done once, so that it has its memory.
 *
 * Over a chain and a fan-out of 512, whose source is completed before:
 *
 *   ledger_claim, ledger_finish   a word by cf_ledger_apply, with its reply and its news: of a stage, its claim and then its finish
 *   ledger_words                  the same words in one row by cf_ledger_apply_all; a word
 *   ledger_row                    these words behind that of the source's completion, in one row; a word
 *   ledger_step                   cf_ledger_step; a stage
 *   request_claim, request_finish the same words by cf_request_apply, with the reply and what is told
 *   request_next, request_idle    cf_request_next; a stage. One of them that finds nothing
 *   request_deadline              cf_request_deadline, where the deadline before it is to be forgotten
 *   request_do                    these words in one row by cf_request_do; a word
 *   request_grow                  cf_request_grow behind them, which does them again in twice the room; a word
 *   request_attach, request_run   over one source: a chain of 16 that is attached, by cf_request_apply, and run, by cf_request_next; a stage
 *   request_gather                cf_request_gather of 17 of these stages, before they are run; a stage that it attaches
 *   row_claim, row_finish         a put of one of the words by a view: cf_row_plan, cf_row_met and cf_row_saw
 *   row_pair                      a finish with the claim of the next stage, or of one that is ready, as one put; a put
 *   row_saw                       the same words by cf_row_saw, as another session put them; a word
 *   row_number                    cf_row_number, where the first entry of the row is the session's own
 *   row_whose, row_held           of the last of the stages, once it is claimed: cf_row_open_claim, and cf_row_held
 *   graph_claim, graph_finish     cf_claim and cf_finish_with
 *   apply_claim, apply_finish       the same as words by cf_apply
 *   graph_ready, graph_get        the lowest ready stage asked for before each claim; the outcome of each stage
 *   graph_next, graph_sweep       cf_next; cf_sweep_next, with the sweep's beginning and end; a stage
 *   graph_work                    cf_work, with the function in C that it calls; a stage
 *   graph_round                   cf_round of 16 tasks; a stage
 *   desk_claim, desk_finish       cf_desk_claim and cf_desk_finish_with of a desk's one caller
 *   desk_next                     cf_desk_next of one; a stage
 *   desk_replay                   a look of a second caller that finds all these claims and finishes; a word
 *
 * Over sources alone:
 *
 *   request_complete, request_fail  a completion and a failure by cf_request_apply, where nothing joins
 *   request_beside_16             a completion where 16 joins are open, none of which has this stage
 *   join_all_2, _8, _64, _512     a join that wants all of so many stages, which are completed; a completion, with its part of the end
 *   join_first_2, _8, _64, _512   a join that wants one of so many stages, which fail; a failure, with its part of the end
 *   scope_end_8, _64, _511        a scope of so many open stages ends, by the word that cancels its own stage; a stage of the scope
 *   cancel_all_8, _64, _511       cf_request_cancel_all of as many stages and one; a stage, without that one
 *   handle                        cf_stages, which looks behind its handle and does little else
 *   graph_complete                cf_complete; a completion
 *   graph_restart_with            cf_restart_with, which completes them all; a completion
 *   desk_complete, desk_many      cf_desk_complete and cf_desk_complete_many; a completion
 *
 * There, too, over a host that works on so many requests, which all are open and at rest:
 *
 *   host_idle_1, _100, _1000      a turn that finds nothing to do
 *   host_act_1, _100, _1000       cf_host_act: the source of the last request is to be completed
 *   host_put_1, _100, _1000       the turn that tells a put, cf_host_put and the answer that it stands
 *   host_call_1, _100, _1000      the turn that tells a call, and cf_host_ended */
#define _POSIX_C_SOURCE 200809L
#include "times.h"
#include <string.h>

#define COUNTED static __attribute__((noinline)) void

enum { STAGES = 512, APPLIES = STAGES - 1, TASKS = 16, CHAINED = 16, WORDS = 2 * STAGES - 1, RECORDS = 3 * STAGES };

static void say(const char *row, int parts) { printf("%s %d\n", row, parts); }

/* ---- Ledgers ---- */

static uint64_t words[WORDS]; /* the completion of the source, and then of each other stage its claim and its finish */

static uint64_t word_of(cf_event event) {
  uint64_t word = 0;
  event.who = ME;
  MUST(cf_word_of_event(&event, &word));
  return word;
}

static void make_words(void) {
  words[0] = word_of((cf_event){.call = CF_CALL_COMPLETE, .value = number(1)});
  for (uint16_t i = 1; i < STAGES; i++) {
    words[2 * i - 1] = word_of((cf_event){.call = CF_CALL_CLAIM, .stage = i});
    words[2 * i] = word_of((cf_event){.call = CF_CALL_FINISH, .stage = i, .answer = {.kind = CF_GIVE, .value = number(i + 1)}});
  }
}

static cf_reply reply;
static cf_news news[4];
static size_t n;

COUNTED ledger_claim(cf_handle *ledger, uint64_t word) {
  MUST(cf_ledger_apply(ledger, word, &reply, news, 4, &n));
  must_be(reply.answer == CF_GRANTED && n == 1, "a ledger's claim");
}

COUNTED ledger_finish(cf_handle *ledger, uint64_t word) {
  MUST(cf_ledger_apply(ledger, word, &reply, news, 4, &n));
  must_be(reply.answer == CF_WON && n >= 1, "a ledger's finish");
}

COUNTED ledger_words(cf_handle *ledger) {
  size_t done;
  MUST(cf_ledger_apply_all(ledger, words + 1, WORDS - 1, &done));
}

COUNTED ledger_step(cf_handle *ledger) {
  cf_step step = {.who = ME};
  cf_task task = {0};
  while (cf_ledger_step(ledger, &step, &task, news, 4, &n) == CF_OK) {
    step.from = task.stage;
    task.answer = answer(&task.args);
  }
  must_be(!task.held && task.finished == CF_WON, "a ledger's last step");
}

COUNTED ledger_row(cf_handle *ledger) {
  size_t done;
  MUST(cf_ledger_apply_all(ledger, words, WORDS, &done));
}

static void start_ledger(cf_handle *ledger) {
  MUST(cf_ledger_restart(ledger));
  MUST(cf_ledger_apply(ledger, words[0], &reply, news, 4, &n));
}

static void count_ledger(cf_handle *plan) {
  cf_handle ledger = {0};
  size_t done;
  make_words();
  MUST(cf_ledger_new(plan, 0, &ledger));
  MUST(cf_ledger_apply_all(&ledger, words, WORDS, &done));
  MUST(cf_ledger_apply_all(&ledger, words, 2, &done)); /* a step makes room for two words at once */
  start_ledger(&ledger);
  for (int i = 1; i < WORDS; i += 2) {
    ledger_claim(&ledger, words[i]);
    ledger_finish(&ledger, words[i + 1]);
  }
  start_ledger(&ledger);
  ledger_words(&ledger);
  MUST(cf_ledger_restart(&ledger));
  ledger_row(&ledger);
  start_ledger(&ledger);
  ledger_step(&ledger);
  cf_free(&ledger);
  say("ledger_claim", APPLIES), say("ledger_finish", APPLIES), say("ledger_words", WORDS - 1), say("ledger_row", WORDS);
  say("ledger_step", APPLIES);
}

/* ---- Views ---- */

static cf_entry entries[WORDS]; /* the row, as the session put it whose words went one by one */

static void put_by(cf_handle *view, size_t first, size_t count) {
  cf_entry stands = {.word = words[first]};
  uint8_t landed;
  MUST(cf_row_plan(view, words + first, count, &stands.token));
  MUST(cf_row_met(view, &stands, &landed));
  must_be(landed, "a put of a view");
  for (size_t i = first; i < first + count; i++, stands.token++) {
    stands.word = words[i];
    MUST(cf_row_saw(view, &stands, &reply, news, 4, &n));
    entries[i] = stands;
  }
}

COUNTED row_claim(cf_handle *view, size_t at) { put_by(view, at, 1); }

COUNTED row_finish(cf_handle *view, size_t at) { put_by(view, at, 1); }

COUNTED row_pair(cf_handle *view, size_t at) { put_by(view, at, 2); }

COUNTED row_saw(cf_handle *view, size_t at) { MUST(cf_row_saw(view, &entries[at], &reply, news, 4, &n)); }

COUNTED row_number(cf_handle *view) {
  uint8_t who;
  MUST(cf_row_number(view, &who));
}

COUNTED row_whose(cf_handle *view, uint64_t session) {
  cf_row_claim claim;
  MUST(cf_row_open_claim(view, STAGES - 1, &claim));
  must_be(claim.stage == STAGES - 1 && claim.session == session, "whose a claim is");
}

COUNTED row_held(cf_handle *view, uint64_t session) {
  uint16_t stage;
  MUST(cf_row_held(view, session, STAGES - 1, &stage));
}

static cf_handle view_of(cf_handle *plan, uint64_t session) {
  cf_handle view = {0};
  MUST(cf_row_new(plan, &(cf_row_opening){.session = session}, &view));
  return view;
}

static void count_views(cf_handle *plan) {
  cf_handle one = view_of(plan, 1), two = view_of(plan, 2), other = view_of(plan, 3);
  put_by(&one, 0, 1);
  put_by(&two, 0, 2);
  for (size_t i = 1; i < WORDS - 1; i += 2) {
    row_claim(&one, i);
    if (i == WORDS - 2) row_whose(&one, 1), row_held(&one, 1);
    row_finish(&one, i + 1);
    if (i < WORDS - 2) row_pair(&two, i + 1);
  }
  for (size_t i = 0; i < WORDS; i++) row_saw(&other, i);
  row_number(&one);
  cf_free(&one), cf_free(&two), cf_free(&other);
  say("row_claim", APPLIES), say("row_finish", APPLIES), say("row_pair", APPLIES - 1), say("row_saw", WORDS);
  say("row_number", 1), say("row_whose", 1), say("row_held", 1);
}

/* ---- Requests ---- */

static cf_reply answered;
static cf_told told[4];
static cf_todo todo = {.moment = CF_NEVER};

COUNTED request_claim(cf_handle *request, uint64_t word) {
  MUST(cf_request_apply(request, word, 0, &answered, told, 4, &todo));
  must_be(answered.answer == CF_GRANTED && todo.told == 0, "a request's claim");
}

COUNTED request_finish(cf_handle *request, uint64_t word) {
  MUST(cf_request_apply(request, word, 0, &answered, told, 4, &todo));
  must_be(answered.answer == CF_WON && todo.told == 1, "a request's finish");
}

COUNTED request_next(cf_handle *request) {
  cf_task task = {0};
  while (cf_request_next(request, ME, 0, &task, told, 4, &todo) == CF_OK) task.answer = answer(&task.args);
  must_be(!task.held && task.finished == CF_WON, "a request's last step");
}

COUNTED request_idle(cf_handle *request) {
  cf_task task = {0};
  must_be(cf_request_next(request, ME, 0, &task, told, 4, &todo) == CF_NOTHING, "a step that finds nothing");
}

COUNTED request_deadline(cf_handle *request, uint16_t stage) {
  MUST(cf_request_deadline(request, stage, stage, CF_TIMEOUT, 0, number(0), &todo));
}

COUNTED request_attach(cf_handle *request, uint64_t word) { MUST(cf_request_apply(request, word, 0, &answered, told, 4, &todo)); }

COUNTED request_run(cf_handle *request) {
  cf_task task = {0};
  while (cf_request_next(request, ME, 0, &task, told, 4, &todo) == CF_OK) task.answer = answer(&task.args);
}

COUNTED request_do(cf_handle *request, cf_request_call *calls) {
  size_t done;
  MUST(cf_request_do(request, calls, WORDS - 1, &done, told, 4, &todo));
}

COUNTED request_grow(cf_handle *request) { MUST(cf_request_grow(request)); }

COUNTED request_gather(cf_handle *request, const uint16_t *sources) {
  cf_request_gathering step = {.who = ME, .form = CF_ALL_OF};
  MUST(cf_request_gather(request, &step, sources, CHAINED + 1, told, 4, &todo));
  must_be(step.root == 2 * CHAINED, "a gathering's root");
}

/* A request whose first stage is completed. */
static cf_handle open_request(cf_handle *plan, uint16_t stages, uint16_t room) {
  static const uint8_t lanes[STAGES];
  const cf_request_sizes sizes = {.room = room, .lanes = 1, .own = ME};
  cf_handle request = {0};
  MUST(cf_request_new(plan, &sizes, lanes, stages, &request));
  MUST(cf_request_apply(&request, words[0], 0, &answered, told, 4, &todo));
  return request;
}

static void count_chained(void) {
  cf_handle plan = plan_of(SOURCES, 1), request = open_request(&plan, 1, 2 * CHAINED);
  uint16_t sources[CHAINED + 1];
  for (uint16_t i = 0; i <= CHAINED; i++) sources[i] = i;
  for (uint16_t i = 0; i < CHAINED; i++)
    request_attach(&request, word_of((cf_event){.call = CF_CALL_ATTACH, .form = CF_APPLY, .sources = 1, .first = i}));
  request_run(&request);
  must_be(told[0].stage == CHAINED, "the end of a chain");
  cf_free(&request);
  request = open_request(&plan, 1, 2 * CHAINED);
  for (uint16_t i = 0; i < CHAINED; i++)
    MUST(cf_request_apply(
        &request, word_of((cf_event){.call = CF_CALL_ATTACH, .form = CF_APPLY, .sources = 1, .first = i}), 0, &answered, told, 4, &todo));
  request_gather(&request, sources);
  cf_free(&request), cf_free(&plan);
  say("request_attach", CHAINED), say("request_run", CHAINED), say("request_gather", CHAINED);
}

static void count_request(cf_handle *plan) {
  cf_handle request = open_request(plan, STAGES, 0);
  for (int i = 1; i < WORDS; i += 2) {
    request_claim(&request, words[i]);
    request_finish(&request, words[i + 1]);
  }
  cf_free(&request);
  request = open_request(plan, STAGES, 0);
  request_next(&request);
  request_idle(&request);
  cf_free(&request);
  request = open_request(plan, STAGES, 0);
  for (uint16_t i = 1; i < STAGES; i++) {
    request_deadline(&request, i);
    MUST(cf_request_apply(&request, words[2 * i - 1], 0, &answered, told, 4, &todo));
    MUST(cf_request_apply(&request, words[2 * i], 0, &answered, told, 4, &todo));
  }
  cf_free(&request);
  request = open_request(plan, STAGES, 0);
  static cf_request_call calls[WORDS - 1];
  for (int i = 1; i < WORDS; i++) calls[i - 1] = (cf_request_call){.call = CF_DO_APPLY, .word = words[i]};
  request_do(&request, calls);
  request_grow(&request);
  cf_free(&request);
  say("request_claim", APPLIES), say("request_finish", APPLIES), say("request_next", APPLIES), say("request_idle", 1);
  say("request_deadline", APPLIES), say("request_do", WORDS - 1), say("request_grow", WORDS);
  count_chained();
}

/* ---- Joins and scopes ---- */

enum { JOINED = 512, BESIDE = 64, OPEN_JOINS = 16 };

static uint64_t joined[JOINED]; /* the words of a row */

static void apply_first(cf_handle *request, int count) {
  for (int i = 0; i < count; i++) MUST(cf_request_apply(request, joined[i], 0, &answered, told, 4, &todo));
}

/* Rows that make the same calls, over more or fewer stages. */
#define APPLIED(row)                                                                                                                       \
  COUNTED row(cf_handle *request, int count) { apply_first(request, count); }
#define ENDED(row)                                                                                                                         \
  COUNTED row(cf_handle *request, int count) { MUST(cf_request_apply(request, joined[count], 0, &answered, told, 4, &todo)); }
#define CANCELLED(row)                                                                                                                     \
  COUNTED row(cf_handle *request, int count) { MUST(cf_request_cancel_all(request, ME, told, 4, &todo)), (void)count; }

APPLIED(request_complete)
APPLIED(request_fail)
APPLIED(request_beside_16)
APPLIED(join_all_2)
APPLIED(join_all_8)
APPLIED(join_all_64)
APPLIED(join_all_512)
APPLIED(join_first_2)
APPLIED(join_first_8)
APPLIED(join_first_64)
APPLIED(join_first_512)
ENDED(scope_end_8)
ENDED(scope_end_64)
ENDED(scope_end_511)
CANCELLED(cancel_all_8)
CANCELLED(cancel_all_64)
CANCELLED(cancel_all_511)

static void joins(cf_handle *request, uint16_t stage, uint16_t wanted, bool cancels, const uint16_t *sources, size_t n) {
  const cf_request_joining step = {.stage = stage, .wanted = wanted, .cancels = cancels};
  MUST(cf_request_join(request, &step, sources, n, told, 4, &todo));
}

static void join_first(cf_handle *request, int count, uint16_t wanted) {
  uint16_t sources[JOINED];
  for (uint16_t i = 0; i < count; i++) sources[i] = i;
  joins(request, JOINED, wanted, false, sources, (size_t)count);
}

static void wants_all(cf_handle *request, int count) { join_first(request, count, (uint16_t)count); }

static void wants_one(cf_handle *request, int count) { join_first(request, count, 1); }

/* The first so many stages are in the scope of the next one. */
static void are_in_scope(cf_handle *request, int count) {
  const uint16_t scope = (uint16_t)count;
  for (uint16_t i = 0; i < scope; i++) joins(request, i, 1, true, &scope, 1);
}

/* Behind the first so many stages, some join the two behind them. */
static void others_join(cf_handle *request, int count) {
  for (int i = 0; i < OPEN_JOINS; i++) {
    const uint16_t at = (uint16_t)(count + 3 * i), sources[] = {(uint16_t)(at + 1), (uint16_t)(at + 2)};
    joins(request, at, 2, false, sources, 2);
  }
}

static void none_joins(cf_handle *request, int count) { (void)request, (void)count; }

static int open_stages(cf_handle *request, int stages) {
  int count = 0;
  cf_stage stage;
  for (int i = 0; i < stages; i++) {
    MUST(cf_ledger_stage(request, (uint16_t)i, &stage));
    count += stage.kind != CF_IS_SETTLED;
  }
  return count;
}

static void count_joins(void) {
  static const struct {
    const char *name;
    void (*set)(cf_handle *request, int count), (*run)(cf_handle *request, int count);
    uint32_t call;
    int count, stages, left; /* the parts, the stages, and how many of these are open at the end */
  } rows[] = {
      {"request_complete", none_joins, request_complete, CF_CALL_COMPLETE, BESIDE, 2 * BESIDE, BESIDE},
      {"request_fail", none_joins, request_fail, CF_CALL_FAIL, BESIDE, 2 * BESIDE, BESIDE},
      {"request_beside_16", others_join, request_beside_16, CF_CALL_COMPLETE, BESIDE, 2 * BESIDE, BESIDE},
      {"join_all_2", wants_all, join_all_2, CF_CALL_COMPLETE, 2, JOINED + 1, JOINED - 2},
      {"join_all_8", wants_all, join_all_8, CF_CALL_COMPLETE, 8, JOINED + 1, JOINED - 8},
      {"join_all_64", wants_all, join_all_64, CF_CALL_COMPLETE, 64, JOINED + 1, JOINED - 64},
      {"join_all_512", wants_all, join_all_512, CF_CALL_COMPLETE, 512, JOINED + 1, 0},
      {"join_first_2", wants_one, join_first_2, CF_CALL_FAIL, 2, JOINED + 1, JOINED - 2},
      {"join_first_8", wants_one, join_first_8, CF_CALL_FAIL, 8, JOINED + 1, JOINED - 8},
      {"join_first_64", wants_one, join_first_64, CF_CALL_FAIL, 64, JOINED + 1, JOINED - 64},
      {"join_first_512", wants_one, join_first_512, CF_CALL_FAIL, 512, JOINED + 1, 0},
      {"scope_end_8", are_in_scope, scope_end_8, CF_CALL_CANCEL, 8, 9, 0},
      {"scope_end_64", are_in_scope, scope_end_64, CF_CALL_CANCEL, 64, 65, 0},
      {"scope_end_511", are_in_scope, scope_end_511, CF_CALL_CANCEL, 511, 512, 0},
      {"cancel_all_8", none_joins, cancel_all_8, CF_CALL_CANCEL, 8, 9, 0},
      {"cancel_all_64", none_joins, cancel_all_64, CF_CALL_CANCEL, 64, 65, 0},
      {"cancel_all_511", none_joins, cancel_all_511, CF_CALL_CANCEL, 511, 512, 0},
  };
  static const uint8_t lanes[JOINED + 1];
  for (size_t row = 0; row < sizeof rows / sizeof rows[0]; row++) {
    cf_handle plan = plan_of(SOURCES, (uint16_t)rows[row].stages), request = {0};
    MUST(cf_request_new(&plan, &(cf_request_sizes){.lanes = 1, .own = ME}, lanes, (size_t)rows[row].stages, &request));
    for (uint16_t i = 0; i < JOINED; i++)
      joined[i] = word_of((cf_event){.call = rows[row].call, .stage = i, .value = number(1), .code = 1});
    rows[row].set(&request, rows[row].count);
    rows[row].run(&request, rows[row].count);
    must_be(open_stages(&request, rows[row].stages) == rows[row].left, rows[row].name);
    cf_free(&request), cf_free(&plan);
    say(rows[row].name, rows[row].count);
  }
}

/* ---- Graphs ---- */

COUNTED graph_ready(cf_handle *graph) {
  uint16_t stage;
  MUST(cf_lowest_ready(graph, &stage));
}

COUNTED graph_claim(cf_handle *graph, uint16_t stage) {
  MUST(cf_claim(graph, ME, stage, &reply));
  must_be(reply.answer == CF_GRANTED, "a claim");
}

COUNTED graph_finish(cf_handle *graph, uint16_t stage, const cf_answer *given) {
  MUST(cf_finish_with(graph, ME, stage, given, &reply));
  must_be(reply.answer == CF_WON, "a finish");
}

COUNTED graph_get(cf_handle *graph, uint16_t stage) {
  cf_outcome outcome;
  MUST(cf_get(graph, stage, &outcome));
  must_be(outcome.kind == CF_VALUE, "an outcome");
}

COUNTED apply_claim(cf_handle *graph, uint64_t word) {
  MUST(cf_apply(graph, word, &reply));
  must_be(reply.answer == CF_GRANTED, "a graph's word of a claim");
}

COUNTED apply_finish(cf_handle *graph, uint64_t word) {
  MUST(cf_apply(graph, word, &reply));
  must_be(reply.answer == CF_WON, "a graph's word of a finish");
}

COUNTED graph_next(cf_handle *graph) {
  cf_task task = {0};
  while (cf_next(graph, ME, &task) == CF_OK) task.answer = answer(&task.args);
  must_be(!task.held && task.finished == CF_WON, "a finish by cf_next");
}

COUNTED graph_sweep(cf_handle *graph) {
  cf_task task = {0};
  MUST(cf_sweep_begin(graph));
  while (cf_sweep_next(graph, &task) == CF_OK) task.answer = answer(&task.args);
  MUST(cf_sweep_end(graph));
  must_be(!task.held && task.finished == CF_WON, "a finish in a sweep");
}

static void one_more(void *context, const cf_task *task, cf_answer *given) {
  (void)context;
  *given = answer(&task->args);
}

COUNTED graph_work(cf_handle *graph) {
  static const cf_stage_function functions[] = {one_more};
  uint32_t calls;
  MUST(cf_work(graph, ME, functions, 1, NULL, &calls));
  must_be(calls == APPLIES, "the calls of cf_work");
}

COUNTED graph_round(cf_handle *graph) {
  cf_task tasks[TASKS] = {{0}};
  while (cf_round(graph, ME, tasks, TASKS) == CF_OK)
    for (int at = 0; at < TASKS && tasks[at].held; at++) tasks[at].answer = answer(&tasks[at].args);
  must_be(!tasks[0].held && tasks[0].finished == CF_WON, "a finish by cf_round");
}

static void start_graph(cf_handle *graph) {
  MUST(cf_restart(graph));
  MUST(cf_complete(graph, 0, number(1), &reply));
}

static void count_calls(cf_handle *graph) {
  start_graph(graph);
  for (uint16_t i = 1; i < STAGES; i++) {
    graph_ready(graph);
    graph_claim(graph, i);
    const cf_answer given = answer(&reply.args);
    graph_finish(graph, i, &given);
    graph_get(graph, i);
  }
  start_graph(graph);
  for (int i = 1; i < WORDS; i += 2) {
    apply_claim(graph, words[i]);
    apply_finish(graph, words[i + 1]);
  }
  say("graph_ready", APPLIES), say("graph_claim", APPLIES), say("graph_finish", APPLIES), say("graph_get", APPLIES);
  say("apply_claim", APPLIES), say("apply_finish", APPLIES);
}

static void count_graph(cf_handle *plan) {
  static void (*const ways[])(cf_handle * graph) = {graph_next, graph_sweep, graph_work, graph_round};
  cf_handle graph = {0};
  MUST(cf_graph_new(plan, 0, &graph));
  count_calls(&graph);
  for (int i = 0; i < 4; i++) {
    start_graph(&graph);
    ways[i](&graph);
  }
  cf_free(&graph);
  say("graph_next", APPLIES), say("graph_sweep", APPLIES), say("graph_work", APPLIES), say("graph_round", APPLIES);
}

/* ---- Desks ---- */

COUNTED desk_claim(cf_handle *caller, uint16_t stage) {
  MUST(cf_desk_claim(caller, stage, &reply));
  must_be(reply.answer == CF_GRANTED, "a desk's claim");
}

COUNTED desk_finish(cf_handle *caller, uint16_t stage, const cf_answer *given) {
  MUST(cf_desk_finish_with(caller, stage, given, &reply));
  must_be(reply.answer == CF_WON, "a desk's finish");
}

COUNTED desk_next(cf_handle *caller) {
  cf_task task = {0};
  while (cf_desk_next(caller, &task) == CF_OK) task.answer = answer(&task.args);
  must_be(!task.held && task.finished == CF_WON, "a finish by cf_desk_next");
}

COUNTED desk_replay(cf_handle *caller) {
  uint16_t stage;
  must_be(cf_desk_ready(caller, &stage) == CF_NOTHING, "a look at the end");
}

static void open_desk(cf_handle *plan, cf_handle callers[2], size_t count) {
  uint16_t stage;
  MUST(cf_desk_open(plan, callers, count, RECORDS, RECORDS));
  MUST(cf_desk_complete(&callers[0], 0, number(1), &reply));
  for (size_t i = 0; i < count; i++) MUST(cf_desk_ready(&callers[i], &stage));
}

static void count_desk(cf_handle *plan) {
  cf_handle callers[2] = {{0}, {0}};
  uint16_t seen;
  open_desk(plan, callers, 1);
  for (uint16_t i = 1; i < STAGES; i++) {
    desk_claim(&callers[0], i);
    const cf_answer given = answer(&reply.args);
    desk_finish(&callers[0], i, &given);
  }
  cf_free(&callers[0]);
  open_desk(plan, callers, 2);
  desk_next(&callers[0]);
  desk_replay(&callers[1]);
  MUST(cf_desk_seen(&callers[1], &seen));
  must_be(seen == WORDS, "the events of a desk");
  cf_free(&callers[0]), cf_free(&callers[1]);
  say("desk_claim", APPLIES), say("desk_finish", APPLIES), say("desk_next", APPLIES), say("desk_replay", WORDS - 1);
}

/* ---- Completions ---- */

static cf_given given[STAGES];

COUNTED handle(cf_handle *graph) {
  uint16_t stages;
  MUST(cf_stages(graph, &stages));
}

COUNTED graph_complete(cf_handle *graph, uint16_t stage) {
  MUST(cf_complete(graph, stage, number(stage), &reply));
  must_be(reply.answer == 1, "a completion");
}

COUNTED graph_restart_with(cf_handle *graph) { MUST(cf_restart_with(graph, given, STAGES)); }

COUNTED desk_complete(cf_handle *caller, uint16_t stage) {
  MUST(cf_desk_complete(caller, stage, number(stage), &reply));
  must_be(reply.answer == 1, "a desk's completion");
}

COUNTED desk_many(cf_handle *caller) {
  size_t done;
  MUST(cf_desk_complete_many(caller, given, STAGES, &done));
}

static void count_completions(cf_handle *plan) {
  cf_handle graph = {0}, caller = {0};
  for (uint16_t i = 0; i < STAGES; i++) given[i] = (cf_given){.stage = i, .value = number(i)};
  MUST(cf_graph_new(plan, 0, &graph));
  for (uint16_t i = 0; i < STAGES; i++) handle(&graph), graph_complete(&graph, i);
  graph_restart_with(&graph);
  cf_free(&graph);
  MUST(cf_desk_open(plan, &caller, 1, STAGES, STAGES));
  for (uint16_t i = 0; i < STAGES; i++) desk_complete(&caller, i);
  cf_free(&caller);
  MUST(cf_desk_open(plan, &caller, 1, STAGES, STAGES));
  desk_many(&caller);
  cf_free(&caller);
  say("handle", STAGES), say("graph_complete", STAGES), say("graph_restart_with", STAGES);
  say("desk_complete", STAGES), say("desk_many", STAGES);
}

/* ---- Hosts ---- */

static cf_host_order order;

/* A host's next order, which has to be of this kind. */
static inline __attribute__((always_inline)) void take_order(cf_handle *host, uint32_t kind) {
  MUST(cf_host_turn(host, 0, &order));
  must_be(order.kind == kind, "the kind of an order");
}

#define ROWS_OF_HOST(requests)                                                                                                             \
  COUNTED host_idle_##requests(cf_handle *host) { take_order(host, CF_ORDER_SLEEP); }                                                      \
  COUNTED host_act_##requests(cf_handle *host) {                                                                                           \
    MUST(cf_host_act(host, 0, requests, &(cf_host_acting){.kind = CF_ACT_COMPLETE}, &order.ticket));                                       \
  }                                                                                                                                        \
  COUNTED host_put_##requests(cf_handle *host) {                                                                                           \
    cf_host_want wants[8];                                                                                                                 \
    take_order(host, CF_ORDER_PUT);                                                                                                        \
    MUST(cf_host_put(host, requests, wants, 8, &n));                                                                                       \
    MUST(cf_host_answered(host, 0, order.ticket, CF_STANDS));                                                                              \
  }                                                                                                                                        \
  COUNTED host_call_##requests(cf_handle *host) {                                                                                          \
    take_order(host, CF_ORDER_CALL);                                                                                                       \
    MUST(cf_host_ended(host, order.ticket, CF_ENDS_GIVE, 0, 0));                                                                           \
  }
ROWS_OF_HOST(1)
ROWS_OF_HOST(100)
ROWS_OF_HOST(1000)

/* A host over the requests 1 to so many of a plan. All are open, and in their rows stands nothing. */
static void open_host(cf_handle *host, cf_handle *plan, uint64_t requests) {
  static const cf_note notes[] = {{0, 0}, {CF_NOTE_CALLS(1), 0}};
  MUST(cf_host_new(&(cf_host_opening){.session = 7, .workers = 1, .lease = 3000}, host));
  for (uint64_t k = 1; k <= requests; k++) MUST(cf_host_follow(host, k));
  take_order(host, CF_ORDER_BEAT);
  MUST(cf_host_beats(host, 0, order.ticket, 0, &(cf_host_beat){.session = 7, .count = 1}, 1));
  take_order(host, CF_ORDER_LIST);
  MUST(cf_host_news(host, 0, order.ticket, 1, NULL, 0));
  for (uint64_t k = 1; k <= requests; k++) {
    take_order(host, CF_ORDER_OPEN);
    MUST(cf_host_opened(host, order.ticket, plan, 0, 0, notes, 2));
  }
  for (uint64_t k = 1; k <= requests; k++) {
    take_order(host, CF_ORDER_READ);
    MUST(cf_host_read(host, 0, order.ticket, NULL, 0));
  }
}

/* The last request is worked on: a completion, a claim, a call and a finish. */
static void count_hosts(void) {
  static const struct {
    uint64_t requests;
    void (*idle)(cf_handle *host), (*act)(cf_handle *host), (*put)(cf_handle *host), (*call)(cf_handle *host);
  } hosts[] = {
      {1, host_idle_1, host_act_1, host_put_1, host_call_1},
      {100, host_idle_100, host_act_100, host_put_100, host_call_100},
      {1000, host_idle_1000, host_act_1000, host_put_1000, host_call_1000},
  };
  cf_handle plan = plan_of(CHAIN, 2);
  for (size_t row = 0; row < sizeof hosts / sizeof hosts[0]; row++) {
    cf_handle host = {0};
    open_host(&host, &plan, hosts[row].requests);
    hosts[row].idle(&host);
    hosts[row].act(&host);
    hosts[row].put(&host);
    take_order(&host, CF_ORDER_TELL);
    hosts[row].put(&host);
    hosts[row].call(&host);
    hosts[row].put(&host);
    cf_free(&host);
  }
  cf_free(&plan);
  say("host_idle_1", 1), say("host_act_1", 1), say("host_put_1", 3), say("host_call_1", 1);
  say("host_idle_100", 1), say("host_act_100", 1), say("host_put_100", 3), say("host_call_100", 1);
  say("host_idle_1000", 1), say("host_act_1000", 1), say("host_put_1000", 3), say("host_call_1000", 1);
}

int main(int count, char **given_words) {
  static const struct {
    const char *name;
    enum shape shape;
  } shapes[] = {{"chain", CHAIN}, {"fan-out", FAN_OUT}, {"sources", SOURCES}};
  for (size_t i = 0; i < sizeof shapes / sizeof shapes[0]; i++) {
    if (count != 2 || strcmp(given_words[1], shapes[i].name) != 0) continue;
    cf_handle plan = plan_of(shapes[i].shape, STAGES);
    if (shapes[i].shape == SOURCES) {
      count_joins();
      count_completions(&plan);
      count_hosts();
    } else {
      count_ledger(&plan);
      count_views(&plan);
      count_request(&plan);
      count_graph(&plan);
      count_desk(&plan);
    }
    cf_free(&plan);
    return 0;
  }
  fprintf(stderr, "usage: counts chain|fan-out|sources\n");
  return 2;
}
