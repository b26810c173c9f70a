/* What each call of the header is answered where its handle is null, empty or of another kind, where another pointer is null, and where a
 * number is out of range or a buffer too short; and that what stands behind the handles is as it was then. */
#include "cf.h"
#include "rows.h"
#include <string.h>

enum { SOURCE = 0, TWICE = 1, STAGES = 2, NOT_THERE = STAGES, CALLERS = 2, LOG = 64, CALLS = 64, TEXT = 64, OWN = 63 };
static const uint16_t NEVER = UINT16_MAX;

#define ROW(call, wanted) row(#call, (call), (wanted))
#define HOLDS(fact) holds(#fact, (fact))

/* What calls write. Each is filled with one byte before, and has to be so afterwards. */
static struct {
  cf_reply reply;
  cf_task task;
  cf_outcome outcome;
  cf_now now;
  cf_record record;
  cf_event event;
  cf_stage stage;
  cf_step step;
  cf_request_gathering gathering;
  cf_request_joining joining;
  cf_request_composing composing;
  cf_request_linking linking;
  cf_told told[2];
  cf_deadline deadline;
  cf_todo todo;
  cf_request_call call;
  cf_news news[2];
  uint64_t words[2];
  uint16_t stages[2];
  uint8_t text[TEXT];
  uint16_t number;
  uint8_t small;
  uint32_t calls;
  uint64_t word;
  cf_row_claim claim;
  cf_host_order order;
  cf_host_want wants[2];
  cf_host_view host_view;
  size_t n;
} out;

static void fill(void) { memset(&out, 0xa5, sizeof out); }

static bool is_filled(void) {
  const unsigned char *bytes = (const unsigned char *)&out;
  for (size_t at = 0; at < sizeof out; at++)
    if (bytes[at] != 0xa5) return false;
  return true;
}

static const cf_value value = {CF_INT, 5};
static const cf_answer given = {.kind = CF_GIVE, .value = {CF_INT, 6}};
static const cf_desk_sizes sizes = {.log = LOG, .calls = CALLS, .room = 1, .functions = 1};
static const cf_request_sizes lanes = {.room = 1, .lanes = 2, .own = OWN};
static const uint8_t lane_of[] = {0, 1};
static const cf_row_opening opening = {.room = 1, .session = 700};
static const cf_entry entry = {.word = 1};
static const cf_host_opening host_opening = {.session = 700, .workers = 1, .lease = 1000};
static const cf_host_acting acting = {.kind = CF_ACT_CANCEL, .stage = SOURCE};
static const cf_note notes[] = {{0, 0}, {CF_NOTE_CALLS(1), 0}};
static const cf_given first = {.stage = SOURCE, .value = {CF_INT, 5}};
static const uint16_t of = SOURCE;
static const uint16_t many_of[] = {SOURCE, TWICE, NOT_THERE};

/* ---- Each call, by the kind of handle that it is for ---- */

static void builder_calls(cf_handle *h, uint32_t wanted) {
  ROW(cf_builder_stage(h, CF_APPLY, &of, 1, 0, &out.number), wanted);
  ROW(cf_builder_limit(h, SOURCE, 1, CF_TIMEOUT, 7, value), wanted);
  ROW(cf_build(h), wanted);
}

static void plan_calls(cf_handle *h, uint32_t wanted) {
  cf_handle empty = {0}, callers[CALLERS] = {{0}};
  ROW(cf_graph_new(h, 0, &empty), wanted);
  ROW(cf_ledger_new(h, 0, &empty), wanted);
  ROW(cf_ledger_of(h, 0, NULL, 0, &empty, &out.n), wanted);
  ROW(cf_request_new(h, &lanes, lane_of, STAGES, &empty), wanted);
  ROW(cf_row_new(h, &opening, &empty), wanted);
  ROW(cf_history_new(h, 0, NULL, 0, &empty), wanted);
  ROW(cf_desk_open(h, callers, CALLERS, LOG, CALLS), wanted);
  ROW(cf_desk_open_with(h, callers, CALLERS, &sizes), wanted);
  HOLDS(!empty.full && !callers[0].full && !callers[1].full);
}

static void graph_calls(cf_handle *h, uint32_t wanted) {
  cf_handle empty = {0};
  ROW(cf_complete(h, SOURCE, value, &out.reply), wanted);
  ROW(cf_fail(h, SOURCE, 1, &out.reply), wanted);
  ROW(cf_fail_as(h, SOURCE, CF_TIMED_OUT, 7, &out.reply), wanted);
  ROW(cf_cancel(h, SOURCE, &out.reply), wanted);
  ROW(cf_claim(h, 0, TWICE, &out.reply), wanted);
  ROW(cf_finish_with(h, 0, TWICE, &given, &out.reply), wanted);
  ROW(cf_next(h, 0, &out.task), wanted);
  ROW(cf_round(h, 0, &out.task, 1), wanted);
  ROW(cf_work(h, 0, NULL, 0, NULL, &out.calls), wanted);
  ROW(cf_sweep_begin(h), wanted);
  ROW(cf_tick(h, 1, &out.reply), wanted);
  ROW(cf_attach(h, CF_APPLY, &of, 1, 0, &out.reply), wanted);
  ROW(cf_get(h, SOURCE, &out.outcome), wanted);
  ROW(cf_get_now(h, SOURCE, value, &out.now), wanted);
  ROW(cf_lowest_ready(h, &out.number), wanted);
  ROW(cf_function(h, TWICE, &out.number), wanted);
  ROW(cf_stages(h, &out.number), wanted);
  ROW(cf_turns(h, &out.word), wanted);
  ROW(cf_restart(h), wanted);
  ROW(cf_restart_with(h, &first, 1), wanted);
  ROW(cf_plan_of(h, &empty), wanted);
  ROW(cf_apply(h, 1, &out.reply), wanted == CF_EMPTY || wanted == CF_NULL ? wanted : CF_WRONG_KIND);
  HOLDS(!empty.full);
}

static void sweep_calls(cf_handle *h, uint32_t wanted) {
  ROW(cf_sweep_next(h, &out.task), wanted);
  ROW(cf_sweep_end(h), wanted);
}

static const cf_handle *request, *view; /* which are asked as a ledger is */

static void ledger_calls(cf_handle *h, uint32_t wanted) {
  ROW(cf_ledger_apply(h, 1, &out.reply, out.news, 2, &out.n), wanted);
  ROW(cf_ledger_step(h, &out.step, &out.task, out.news, 2, &out.n), wanted);
  ROW(cf_ledger_apply_all(h, NULL, 0, &out.n), wanted);
  ROW(cf_ledger_grow(h, 1), wanted);
  ROW(cf_ledger_restart(h), wanted);
  if (h && (h == request || h == view)) return;
  ROW(cf_ledger_words(h, 0, out.words, 2, &out.n), wanted);
  ROW(cf_ledger_news(h, 0, out.stages, 2, &out.n), wanted);
  ROW(cf_ledger_ready(h, 0, &out.number), wanted);
  ROW(cf_ledger_stage(h, SOURCE, &out.stage), wanted);
  ROW(cf_ledger_function(h, TWICE, &out.number), wanted);
  ROW(cf_ledger_stages(h, &out.number), wanted);
}

static void request_calls(cf_handle *h, uint32_t wanted) {
  ROW(cf_request_apply(h, 1, 0, &out.reply, out.told, 2, &out.todo), wanted);
  ROW(cf_request_gather(h, &out.gathering, &of, 1, out.told, 2, &out.todo), wanted);
  ROW(cf_request_compose(h, &out.composing, out.told, 2, &out.todo), wanted);
  ROW(cf_request_link(h, &out.linking, &out.task, out.told, 2, &out.todo), wanted);
  ROW(cf_request_next(h, 0, 0, &out.task, out.told, 2, &out.todo), wanted);
  ROW(cf_request_follow(h, SOURCE, TWICE, out.told, 2, &out.todo), wanted);
  ROW(cf_request_join(h, &out.joining, &of, 1, out.told, 2, &out.todo), wanted);
  ROW(cf_request_deadline(h, SOURCE, 1, CF_TIMEOUT, 7, value, &out.todo), wanted);
  ROW(cf_request_pass(h, 1, out.told, 2, &out.todo), wanted);
  ROW(cf_request_next_deadline(h, &out.deadline), wanted);
  ROW(cf_request_refuse(h, 0, 1, out.told, 2, &out.todo), wanted);
  ROW(cf_request_told(h, out.told, 2, &out.todo), wanted);
  ROW(cf_request_ready(h, 0, &out.number), wanted);
  ROW(cf_request_cancel_all(h, 0, out.told, 2, &out.todo), wanted);
  ROW(cf_request_grow(h), wanted);
  ROW(cf_request_restart(h), wanted);
  ROW(cf_request_do(h, &out.call, 1, &out.n, out.told, 2, &out.todo), wanted);
}

static void view_calls(cf_handle *h, uint32_t wanted) {
  ROW(cf_row_plan(h, out.words, 1, &out.word), wanted);
  ROW(cf_row_met(h, &entry, &out.small), wanted);
  ROW(cf_row_give_up(h), wanted);
  ROW(cf_row_saw(h, &entry, &out.reply, out.news, 2, &out.n), wanted);
  ROW(cf_row_grow(h, 1), wanted);
  ROW(cf_row_number(h, &out.small), wanted);
  ROW(cf_row_number_of(h, 1, &out.small), wanted);
  ROW(cf_row_open_claim(h, 0, &out.claim), wanted);
  ROW(cf_row_held(h, 1, 0, &out.number), wanted);
  ROW(cf_row_abandon(h, 1, 0, 1, &out.word), wanted);
  ROW(cf_row_finish(h, &out.task, &out.word), wanted);
  ROW(cf_row_next_claim(h, &out.task, 0, &out.number), wanted);
}

static void host_calls(cf_handle *h, uint32_t wanted) {
  cf_handle empty = {0};
  ROW(cf_host_follow(h, 7), wanted);
  ROW(cf_host_act(h, 0, 7, &acting, &out.word), wanted);
  ROW(cf_host_end(h, 0, 7, &out.word), wanted);
  ROW(cf_host_wants(h, 7, SOURCE), wanted);
  ROW(cf_host_lets_go(h, 7, SOURCE), wanted);
  ROW(cf_host_unread(h, 0, 7, SOURCE), wanted);
  ROW(cf_host_grow(h, 7, 1), wanted);
  ROW(cf_host_stirred(h, 0), wanted);
  ROW(cf_host_stop(h), wanted);
  ROW(cf_host_turn(h, 0, &out.order), wanted);
  ROW(cf_host_put(h, 7, out.wants, 2, &out.n), wanted);
  ROW(cf_host_opened(h, 1, &empty, 0, 0, notes, STAGES), wanted == CF_WRONG_KIND ? CF_EMPTY : wanted);
  ROW(cf_host_read(h, 0, 1, NULL, 0), wanted);
  ROW(cf_host_beats(h, 0, 1, 0, NULL, 0), wanted);
  ROW(cf_host_news(h, 0, 1, 0, NULL, 0), wanted);
  ROW(cf_host_answered(h, 0, 1, CF_UNKNOWN), wanted);
  ROW(cf_host_ended(h, 1, CF_ENDS_NIL, 0, 0), wanted);
  ROW(cf_host_stage(h, 7, SOURCE, &out.stage), wanted);
  ROW(cf_host_seen(h, 7, &out.host_view), wanted);
}

static void history_calls(cf_handle *h, uint32_t wanted) {
  ROW(cf_history_times(h, NULL, 0), wanted);
  ROW(cf_history_say(h, CF_SAY_NAME, NULL, 0, NULL, 0), wanted);
  ROW(cf_history_text(h, CF_LINES, out.text, TEXT, &out.n), wanted);
}

static void caller_calls(cf_handle *h, uint32_t wanted) {
  cf_handle empty = {0};
  ROW(cf_desk_complete(h, SOURCE, value, &out.reply), wanted);
  ROW(cf_desk_fail(h, SOURCE, 1, &out.reply), wanted);
  ROW(cf_desk_fail_as(h, SOURCE, CF_TIMED_OUT, 7, &out.reply), wanted);
  ROW(cf_desk_cancel(h, SOURCE, &out.reply), wanted);
  ROW(cf_desk_claim(h, TWICE, &out.reply), wanted);
  ROW(cf_desk_finish_with(h, TWICE, &given, &out.reply), wanted);
  ROW(cf_desk_tick(h, 1, &out.reply), wanted);
  ROW(cf_desk_attach(h, CF_APPLY, &of, 1, 0, &out.reply), wanted);
  ROW(cf_desk_complete_many(h, &first, 1, &out.n), wanted);
  ROW(cf_desk_next(h, &out.task), wanted);
  ROW(cf_desk_read(h, SOURCE, &out.outcome), wanted);
  ROW(cf_desk_read_now(h, SOURCE, value, &out.now), wanted);
  ROW(cf_desk_join(h, SOURCE, 1, &out.now), wanted);
  ROW(cf_desk_ready(h, &out.number), wanted);
  ROW(cf_desk_seen(h, &out.number), wanted);
  ROW(cf_desk_left(h, &out.number), wanted);
  ROW(cf_desk_function(h, TWICE, &out.number), wanted);
  ROW(cf_desk_caller(h, &out.small), wanted);
  ROW(cf_close_begin(h), wanted);
  ROW(cf_desk_meet(h, &empty), wanted == CF_WRONG_KIND ? CF_EMPTY : wanted);
  ROW(cf_desk_notice(h, &empty), wanted);
  ROW(cf_desk_heed(h, &empty), wanted);
}

static void closing_calls(cf_handle *h, uint32_t wanted) { ROW(cf_close_end(h), wanted); }

static void closed_calls(cf_handle *h, uint32_t wanted) {
  ROW(cf_closed_events(h, &out.number), wanted);
  ROW(cf_closed_word(h, 0, &out.word), wanted);
  ROW(cf_closed_records(h, 0, &out.number), wanted);
  ROW(cf_closed_record(h, 0, 0, &out.record), wanted);
  ROW(cf_closed_graph(h), wanted);
}

/* ---- One handle of each kind ---- */

enum kind { BUILDER, PLAN, GRAPH, SWEEP, LEDGER, REQUEST, VIEW, HOST, HISTORY, CALLER, CLOSING, CLOSED, KINDS };
static void (*const calls_of[KINDS])(cf_handle *h, uint32_t wanted) = {builder_calls, plan_calls, graph_calls, sweep_calls, ledger_calls,
    request_calls, view_calls, host_calls, history_calls, caller_calls, closing_calls, closed_calls};
static cf_handle held[KINDS], other_caller;

static void build(cf_handle *builder) {
  ROW(cf_builder_new(builder, 0, 0), CF_OK);
  ROW(cf_builder_stage(builder, CF_SOURCE, NULL, 0, CF_NO_FUNCTION, &out.number), CF_OK);
  ROW(cf_builder_stage(builder, CF_APPLY, &of, 1, 0, &out.number), CF_OK);
}

static void make_all(void) {
  cf_handle callers[CALLERS] = {{0}};
  build(&held[BUILDER]);
  build(&held[PLAN]);
  ROW(cf_build(&held[PLAN]), CF_OK);
  ROW(cf_graph_new(&held[PLAN], 1, &held[GRAPH]), CF_OK);
  ROW(cf_graph_new(&held[PLAN], 1, &held[SWEEP]), CF_OK);
  ROW(cf_sweep_begin(&held[SWEEP]), CF_OK);
  ROW(cf_ledger_new(&held[PLAN], 1, &held[LEDGER]), CF_OK);
  ROW(cf_request_new(&held[PLAN], &lanes, lane_of, STAGES, &held[REQUEST]), CF_OK);
  request = &held[REQUEST];
  ROW(cf_row_new(&held[PLAN], &opening, &held[VIEW]), CF_OK);
  view = &held[VIEW];
  ROW(cf_host_new(&host_opening, &held[HOST]), CF_OK);
  ROW(cf_history_new(&held[PLAN], 1, NULL, 0, &held[HISTORY]), CF_OK);
  ROW(cf_desk_open_with(&held[PLAN], callers, CALLERS, &sizes), CF_OK);
  held[CALLER] = callers[0], other_caller = callers[1];
  memset(callers, 0, sizeof callers);
  ROW(cf_desk_open(&held[PLAN], callers, 2, LOG, CALLS), CF_OK);
  ROW(cf_close_begin(&callers[0]), CF_OK);
  held[CLOSING] = callers[0];
  cf_free(&callers[1]);
  memset(callers, 0, sizeof callers);
  ROW(cf_desk_open(&held[PLAN], callers, 1, LOG, CALLS), CF_OK);
  ROW(cf_close_begin(&callers[0]), CF_OK);
  ROW(cf_close_end(&callers[0]), CF_OK);
  held[CLOSED] = callers[0];
}

/* Nothing was settled, attached, claimed or recorded by what was refused. */
static void are_as_before(void) {
  cf_outcome outcome;
  cf_stage stage;
  cf_deadline deadline;
  uint16_t number;
  cf_todo todo = {.jobs = {3, 5}};
  size_t n;
  ROW(cf_get(&held[GRAPH], SOURCE, &outcome), CF_OK);
  HOLDS(outcome.kind == CF_PENDING);
  HOLDS(cf_stages(&held[GRAPH], &number) == CF_OK && number == STAGES);
  HOLDS(cf_sweep_end(&held[SWEEP]) == CF_NOT_OVER);
  ROW(cf_ledger_stage(&held[LEDGER], SOURCE, &stage), CF_OK);
  HOLDS(stage.kind == CF_IS_PENDING && stage.who == CF_NOBODY);
  HOLDS(cf_ledger_words(&held[LEDGER], 0, NULL, 0, &n) == CF_OK && n == 0);
  HOLDS(cf_ledger_words(&held[REQUEST], 0, NULL, 0, &n) == CF_OK && n == 0);
  HOLDS(cf_ledger_words(&held[VIEW], 0, NULL, 0, &n) == CF_OK && n == 0);
  HOLDS(cf_request_told(&held[REQUEST], NULL, 0, &todo) == CF_OK && todo.told == 0);
  HOLDS(todo.news == CF_NEWS_MOMENT && todo.moment == CF_NEVER && todo.ready[0] == 0 && todo.jobs[0] == 3 && todo.jobs[1] == 5);
  HOLDS(cf_request_next_deadline(&held[REQUEST], &deadline) == CF_NOTHING);
  HOLDS(cf_desk_left(&held[CALLER], &number) == CF_OK && number == CALLS);
  HOLDS(cf_desk_seen(&held[CALLER], &number) == CF_OK && number == 0);
  HOLDS(cf_close_end(&held[CLOSING]) == CF_NOT_ALL);
  HOLDS(cf_closed_events(&held[CLOSED], &number) == CF_OK && number == 0);
}

static void by_handles(void) {
  cf_handle empty = {0};
  fill();
  for (int of_kind = 0; of_kind < KINDS; of_kind++) {
    calls_of[of_kind](NULL, CF_NULL);
    calls_of[of_kind](&empty, CF_EMPTY);
    for (int kind = 0; kind < KINDS; kind++)
      if (kind != of_kind) calls_of[of_kind](&held[kind], CF_WRONG_KIND);
  }
  HOLDS(is_filled() && !empty.full);
  ROW(cf_close_add(&held[CALLER], &other_caller), CF_WRONG_KIND);
  ROW(cf_close_add(&held[CLOSING], &held[GRAPH]), CF_WRONG_KIND);
  ROW(cf_close_add(&held[CLOSING], &empty), CF_EMPTY);
  ROW(cf_close_add(&held[CLOSING], NULL), CF_NULL);
  ROW(cf_close_add(NULL, &other_caller), CF_NULL);
  ROW(cf_desk_meet(&held[CALLER], &held[GRAPH]), CF_WRONG_KIND);
  ROW(cf_desk_meet(&held[CALLER], NULL), CF_NULL);
  ROW(cf_desk_notice(&held[CALLER], NULL), CF_NULL);
  ROW(cf_desk_heed(&held[CALLER], NULL), CF_NULL);
  cf_free(NULL);
  cf_free(&empty);
  HOLDS(other_caller.full && held[CALLER].full && held[CLOSING].full);
}

/* ---- Other pointers that are null ---- */

static void by_pointers(void) {
  cf_handle *builder = &held[BUILDER], *plan = &held[PLAN], *graph = &held[GRAPH], *ledger = &held[LEDGER], *caller = &held[CALLER];
  cf_handle empty = {0}, *asked = &held[REQUEST], *seen = &held[VIEW];
  fill();
  ROW(cf_builder_new(NULL, 0, 0), CF_NULL);
  ROW(cf_builder_stage(builder, CF_APPLY, NULL, 1, 0, &out.number), CF_NULL);
  ROW(cf_builder_stage(builder, CF_APPLY, &of, 1, 0, NULL), CF_NULL);
  ROW(cf_graph_new(plan, 0, NULL), CF_NULL);
  ROW(cf_ledger_new(plan, 0, NULL), CF_NULL);
  ROW(cf_ledger_of(plan, 0, NULL, 1, &empty, &out.n), CF_NULL);
  ROW(cf_ledger_of(plan, 0, NULL, 0, NULL, &out.n), CF_NULL);
  ROW(cf_ledger_of(plan, 0, NULL, 0, &empty, NULL), CF_NULL);
  ROW(cf_desk_open(plan, NULL, 1, LOG, CALLS), CF_NULL);
  ROW(cf_desk_open_with(plan, NULL, 1, &sizes), CF_NULL);
  ROW(cf_desk_open_with(plan, &empty, 1, NULL), CF_NULL);
  ROW(cf_complete(graph, SOURCE, value, NULL), CF_NULL);
  ROW(cf_fail(graph, SOURCE, 1, NULL), CF_NULL);
  ROW(cf_fail_as(graph, SOURCE, CF_TIMED_OUT, 7, NULL), CF_NULL);
  ROW(cf_cancel(graph, SOURCE, NULL), CF_NULL);
  ROW(cf_claim(graph, 0, TWICE, NULL), CF_NULL);
  ROW(cf_finish_with(graph, 0, TWICE, NULL, &out.reply), CF_NULL);
  ROW(cf_finish_with(graph, 0, TWICE, &given, NULL), CF_NULL);
  ROW(cf_next(graph, 0, NULL), CF_NULL);
  ROW(cf_round(graph, 0, NULL, 1), CF_NULL);
  ROW(cf_work(graph, 0, NULL, 1, NULL, &out.calls), CF_NULL);
  ROW(cf_work(graph, 0, NULL, 0, NULL, NULL), CF_NULL);
  ROW(cf_sweep_next(&held[SWEEP], NULL), CF_NULL);
  ROW(cf_tick(graph, 1, NULL), CF_NULL);
  ROW(cf_attach(graph, CF_APPLY, NULL, 1, 0, &out.reply), CF_NULL);
  ROW(cf_attach(graph, CF_APPLY, &of, 1, 0, NULL), CF_NULL);
  ROW(cf_get(graph, SOURCE, NULL), CF_NULL);
  ROW(cf_get_now(graph, SOURCE, value, NULL), CF_NULL);
  ROW(cf_lowest_ready(graph, NULL), CF_NULL);
  ROW(cf_function(graph, TWICE, NULL), CF_NULL);
  ROW(cf_stages(graph, NULL), CF_NULL);
  ROW(cf_turns(graph, NULL), CF_NULL);
  ROW(cf_restart_with(graph, NULL, 1), CF_NULL);
  ROW(cf_plan_of(graph, NULL), CF_NULL);
  ROW(cf_apply(graph, 1, NULL), CF_NULL);
  ROW(cf_ledger_apply(ledger, 1, NULL, out.news, 2, &out.n), CF_NULL);
  ROW(cf_ledger_apply(ledger, 1, &out.reply, NULL, 2, &out.n), CF_NULL);
  ROW(cf_ledger_apply(ledger, 1, &out.reply, out.news, 2, NULL), CF_NULL);
  ROW(cf_ledger_step(ledger, NULL, &out.task, out.news, 2, &out.n), CF_NULL);
  ROW(cf_ledger_step(ledger, &out.step, NULL, out.news, 2, &out.n), CF_NULL);
  ROW(cf_ledger_step(ledger, &out.step, &out.task, NULL, 2, &out.n), CF_NULL);
  ROW(cf_ledger_step(ledger, &out.step, &out.task, out.news, 2, NULL), CF_NULL);
  ROW(cf_ledger_apply_all(ledger, NULL, 1, &out.n), CF_NULL);
  ROW(cf_ledger_apply_all(ledger, NULL, 0, NULL), CF_NULL);
  ROW(cf_ledger_words(ledger, 0, NULL, 1, &out.n), CF_NULL);
  ROW(cf_ledger_words(ledger, 0, out.words, 2, NULL), CF_NULL);
  ROW(cf_ledger_news(ledger, 0, NULL, 1, &out.n), CF_NULL);
  ROW(cf_ledger_news(ledger, 0, out.stages, 2, NULL), CF_NULL);
  ROW(cf_ledger_ready(ledger, 0, NULL), CF_NULL);
  ROW(cf_ledger_stage(ledger, SOURCE, NULL), CF_NULL);
  ROW(cf_ledger_function(ledger, TWICE, NULL), CF_NULL);
  ROW(cf_ledger_stages(ledger, NULL), CF_NULL);
  ROW(cf_request_new(plan, NULL, lane_of, STAGES, &empty), CF_NULL);
  ROW(cf_request_new(plan, &lanes, NULL, STAGES, &empty), CF_NULL);
  ROW(cf_request_new(plan, &lanes, lane_of, STAGES, NULL), CF_NULL);
  ROW(cf_request_apply(asked, 1, 0, NULL, out.told, 2, &out.todo), CF_NULL);
  ROW(cf_request_apply(asked, 1, 0, &out.reply, NULL, 2, &out.todo), CF_NULL);
  ROW(cf_request_apply(asked, 1, 0, &out.reply, out.told, 2, NULL), CF_NULL);
  ROW(cf_request_gather(asked, &out.gathering, NULL, 1, out.told, 2, &out.todo), CF_NULL);
  ROW(cf_request_gather(asked, NULL, &of, 1, out.told, 2, &out.todo), CF_NULL);
  ROW(cf_request_gather(asked, &out.gathering, &of, 1, NULL, 2, &out.todo), CF_NULL);
  ROW(cf_request_gather(asked, &out.gathering, &of, 1, out.told, 2, NULL), CF_NULL);
  ROW(cf_request_compose(asked, NULL, out.told, 2, &out.todo), CF_NULL);
  ROW(cf_request_compose(asked, &out.composing, NULL, 2, &out.todo), CF_NULL);
  ROW(cf_request_compose(asked, &out.composing, out.told, 2, NULL), CF_NULL);
  ROW(cf_request_link(asked, NULL, &out.task, out.told, 2, &out.todo), CF_NULL);
  ROW(cf_request_link(asked, &out.linking, NULL, out.told, 2, &out.todo), CF_NULL);
  ROW(cf_request_link(asked, &out.linking, &out.task, NULL, 2, &out.todo), CF_NULL);
  ROW(cf_request_link(asked, &out.linking, &out.task, out.told, 2, NULL), CF_NULL);
  ROW(cf_request_next(asked, 0, 0, NULL, out.told, 2, &out.todo), CF_NULL);
  ROW(cf_request_next(asked, 0, 0, &out.task, NULL, 2, &out.todo), CF_NULL);
  ROW(cf_request_next(asked, 0, 0, &out.task, out.told, 2, NULL), CF_NULL);
  ROW(cf_request_follow(asked, SOURCE, TWICE, NULL, 2, &out.todo), CF_NULL);
  ROW(cf_request_follow(asked, SOURCE, TWICE, out.told, 2, NULL), CF_NULL);
  ROW(cf_request_join(asked, NULL, &of, 1, out.told, 2, &out.todo), CF_NULL);
  ROW(cf_request_join(asked, &out.joining, NULL, 1, out.told, 2, &out.todo), CF_NULL);
  ROW(cf_request_join(asked, &out.joining, &of, 1, NULL, 2, &out.todo), CF_NULL);
  ROW(cf_request_join(asked, &out.joining, &of, 1, out.told, 2, NULL), CF_NULL);
  ROW(cf_request_deadline(asked, SOURCE, 1, CF_TIMEOUT, 7, value, NULL), CF_NULL);
  ROW(cf_request_pass(asked, 1, NULL, 2, &out.todo), CF_NULL);
  ROW(cf_request_pass(asked, 1, out.told, 2, NULL), CF_NULL);
  ROW(cf_request_next_deadline(asked, NULL), CF_NULL);
  ROW(cf_request_refuse(asked, 0, 1, NULL, 2, &out.todo), CF_NULL);
  ROW(cf_request_refuse(asked, 0, 1, out.told, 2, NULL), CF_NULL);
  ROW(cf_request_told(asked, NULL, 2, &out.todo), CF_NULL);
  ROW(cf_request_told(asked, out.told, 2, NULL), CF_NULL);
  ROW(cf_request_ready(asked, 0, NULL), CF_NULL);
  ROW(cf_request_cancel_all(asked, 0, NULL, 2, &out.todo), CF_NULL);
  ROW(cf_request_cancel_all(asked, 0, out.told, 2, NULL), CF_NULL);
  ROW(cf_request_do(asked, NULL, 1, &out.n, out.told, 2, &out.todo), CF_NULL);
  ROW(cf_request_do(asked, &out.call, 1, NULL, out.told, 2, &out.todo), CF_NULL);
  ROW(cf_request_do(asked, &out.call, 1, &out.n, NULL, 2, &out.todo), CF_NULL);
  ROW(cf_request_do(asked, &out.call, 1, &out.n, out.told, 2, NULL), CF_NULL);
  ROW(cf_row_new(plan, NULL, &empty), CF_NULL);
  ROW(cf_row_new(plan, &opening, NULL), CF_NULL);
  ROW(cf_row_plan(seen, NULL, 1, &out.word), CF_NULL);
  ROW(cf_row_plan(seen, out.words, 1, NULL), CF_NULL);
  ROW(cf_row_met(seen, NULL, &out.small), CF_NULL);
  ROW(cf_row_met(seen, &entry, NULL), CF_NULL);
  ROW(cf_row_saw(seen, NULL, &out.reply, out.news, 2, &out.n), CF_NULL);
  ROW(cf_row_saw(seen, &entry, NULL, out.news, 2, &out.n), CF_NULL);
  ROW(cf_row_saw(seen, &entry, &out.reply, NULL, 2, &out.n), CF_NULL);
  ROW(cf_row_saw(seen, &entry, &out.reply, out.news, 2, NULL), CF_NULL);
  ROW(cf_row_number(seen, NULL), CF_NULL);
  ROW(cf_row_number_of(seen, 1, NULL), CF_NULL);
  ROW(cf_row_open_claim(seen, 0, NULL), CF_NULL);
  ROW(cf_row_held(seen, 1, 0, NULL), CF_NULL);
  ROW(cf_row_abandon(seen, 1, 0, 1, NULL), CF_NULL);
  ROW(cf_row_finish(seen, NULL, &out.word), CF_NULL);
  ROW(cf_row_finish(seen, &out.task, NULL), CF_NULL);
  ROW(cf_row_next_claim(seen, NULL, 0, &out.number), CF_NULL);
  ROW(cf_row_next_claim(seen, &out.task, 0, NULL), CF_NULL);
  ROW(cf_history_new(plan, 0, NULL, 1, &empty), CF_NULL);
  ROW(cf_history_new(plan, 0, NULL, 0, NULL), CF_NULL);
  ROW(cf_history_times(&held[HISTORY], NULL, 1), CF_NULL);
  ROW(cf_history_say(&held[HISTORY], CF_SAY_NAME, NULL, 1, NULL, 0), CF_NULL);
  ROW(cf_history_say(&held[HISTORY], CF_SAY_NAME, NULL, 0, NULL, 1), CF_NULL);
  ROW(cf_history_text(&held[HISTORY], CF_LINES, NULL, 1, &out.n), CF_NULL);
  ROW(cf_history_text(&held[HISTORY], CF_LINES, out.text, TEXT, NULL), CF_NULL);
  ROW(cf_desk_complete(caller, SOURCE, value, NULL), CF_NULL);
  ROW(cf_desk_fail(caller, SOURCE, 1, NULL), CF_NULL);
  ROW(cf_desk_fail_as(caller, SOURCE, CF_TIMED_OUT, 7, NULL), CF_NULL);
  ROW(cf_desk_cancel(caller, SOURCE, NULL), CF_NULL);
  ROW(cf_desk_claim(caller, TWICE, NULL), CF_NULL);
  ROW(cf_desk_finish_with(caller, TWICE, NULL, &out.reply), CF_NULL);
  ROW(cf_desk_finish_with(caller, TWICE, &given, NULL), CF_NULL);
  ROW(cf_desk_tick(caller, 1, NULL), CF_NULL);
  ROW(cf_desk_attach(caller, CF_APPLY, NULL, 1, 0, &out.reply), CF_NULL);
  ROW(cf_desk_attach(caller, CF_APPLY, &of, 1, 0, NULL), CF_NULL);
  ROW(cf_desk_complete_many(caller, NULL, 1, &out.n), CF_NULL);
  ROW(cf_desk_complete_many(caller, &first, 1, NULL), CF_NULL);
  ROW(cf_desk_next(caller, NULL), CF_NULL);
  ROW(cf_desk_read(caller, SOURCE, NULL), CF_NULL);
  ROW(cf_desk_read_now(caller, SOURCE, value, NULL), CF_NULL);
  ROW(cf_desk_join(caller, SOURCE, 1, NULL), CF_NULL);
  ROW(cf_desk_ready(caller, NULL), CF_NULL);
  ROW(cf_desk_seen(caller, NULL), CF_NULL);
  ROW(cf_desk_left(caller, NULL), CF_NULL);
  ROW(cf_desk_function(caller, TWICE, NULL), CF_NULL);
  ROW(cf_desk_caller(caller, NULL), CF_NULL);
  ROW(cf_closed_events(&held[CLOSED], NULL), CF_NULL);
  ROW(cf_closed_word(&held[CLOSED], 0, NULL), CF_NULL);
  ROW(cf_closed_records(&held[CLOSED], 0, NULL), CF_NULL);
  ROW(cf_closed_record(&held[CLOSED], 0, 0, NULL), CF_NULL);
  ROW(cf_word_of_event(NULL, &out.word), CF_NULL);
  ROW(cf_word_of_event(&out.event, NULL), CF_NULL);
  ROW(cf_event_of(1, NULL), CF_NULL);
  ROW(cf_run_script(NULL, 1, out.text, TEXT, &out.n), CF_NULL);
  ROW(cf_run_script(out.text, 1, NULL, 1, &out.n), CF_NULL);
  ROW(cf_run_script(out.text, 1, out.text, TEXT, NULL), CF_NULL);
  ROW(cf_text_of_outcome(NULL, out.text, TEXT, &out.n), CF_NULL);
  ROW(cf_text_of_outcome(&out.outcome, NULL, 1, &out.n), CF_NULL);
  ROW(cf_text_of_outcome(&out.outcome, out.text, TEXT, NULL), CF_NULL);
  ROW(cf_code_text(0, NULL, 1, &out.n), CF_NULL);
  ROW(cf_code_text(0, out.text, TEXT, NULL), CF_NULL);
  HOLDS(!cf_code_name(CF_NULL - 1) && cf_layout(NULL) == SIZE_MAX);
  ROW(cf_host_new(NULL, &empty), CF_NULL);
  ROW(cf_host_new(&host_opening, NULL), CF_NULL);
  ROW(cf_host_act(&held[HOST], 0, 7, NULL, &out.word), CF_NULL);
  ROW(cf_host_act(&held[HOST], 0, 7, &acting, NULL), CF_NULL);
  ROW(cf_host_end(&held[HOST], 0, 7, NULL), CF_NULL);
  ROW(cf_host_turn(&held[HOST], 0, NULL), CF_NULL);
  ROW(cf_host_put(&held[HOST], 7, NULL, 1, &out.n), CF_NULL);
  ROW(cf_host_put(&held[HOST], 7, out.wants, 2, NULL), CF_NULL);
  ROW(cf_host_opened(&held[HOST], 1, NULL, 0, 0, notes, STAGES), CF_NULL);
  ROW(cf_host_opened(&held[HOST], 1, plan, 0, 0, NULL, STAGES), CF_NULL);
  ROW(cf_host_read(&held[HOST], 0, 1, NULL, 1), CF_NULL);
  ROW(cf_host_beats(&held[HOST], 0, 1, 0, NULL, 1), CF_NULL);
  ROW(cf_host_news(&held[HOST], 0, 1, 0, NULL, 1), CF_NULL);
  ROW(cf_host_stage(&held[HOST], 7, SOURCE, NULL), CF_NULL);
  ROW(cf_host_seen(&held[HOST], 7, NULL), CF_NULL);
  HOLDS(is_filled() && !empty.full);
}

/* ---- Numbers out of range ---- */

static void by_numbers(uint16_t stage) {
  cf_handle *builder = &held[BUILDER], *graph = &held[GRAPH], *ledger = &held[LEDGER], *caller = &held[CALLER];
  cf_handle *asked = &held[REQUEST];
  const cf_given late[] = {first, {.stage = stage}};
  cf_task task = {.held = 1, .stage = stage};
  cf_step step = {0};
  cf_event event = {.call = CF_CALL_CANCEL, .stage = stage};
  fill();
  ROW(cf_builder_stage(builder, CF_APPLY, &stage, 1, 0, &out.number), CF_SOURCE_NOT_LOWER);
  ROW(cf_builder_limit(builder, stage, 1, CF_TIMEOUT, 7, value), CF_NO_SUCH_STAGE);
  ROW(cf_complete(graph, stage, value, &out.reply), CF_NO_STAGE);
  ROW(cf_fail(graph, stage, 1, &out.reply), CF_NO_STAGE);
  ROW(cf_fail_as(graph, stage, CF_TIMED_OUT, 7, &out.reply), CF_NO_STAGE);
  ROW(cf_cancel(graph, stage, &out.reply), CF_NO_STAGE);
  ROW(cf_claim(graph, 0, stage, &out.reply), CF_NO_STAGE);
  ROW(cf_finish_with(graph, 0, stage, &given, &out.reply), CF_NO_STAGE);
  ROW(cf_next(graph, 0, &task), CF_NO_STAGE);
  ROW(cf_round(graph, 0, &task, 1), CF_NO_STAGE);
  ROW(cf_sweep_next(&held[SWEEP], &task), CF_NOT_HELD);
  ROW(cf_attach(graph, CF_APPLY, &stage, 1, 0, &out.reply), CF_NO_STAGE);
  ROW(cf_get(graph, stage, &out.outcome), CF_NO_STAGE);
  ROW(cf_get_now(graph, stage, value, &out.now), CF_NO_STAGE);
  ROW(cf_function(graph, stage, &out.number), CF_NO_STAGE);
  ROW(cf_restart_with(graph, late, 2), CF_NO_STAGE);
  ROW(cf_ledger_stage(ledger, stage, &out.stage), CF_NO_STAGE);
  ROW(cf_ledger_function(ledger, stage, &out.number), CF_NO_STAGE);
  ROW(cf_ledger_ready(ledger, stage, &out.number), CF_NOTHING);
  ROW(cf_ledger_step(ledger, &step, &task, out.news, 2, &out.n), CF_NO_STAGE);
  ROW(cf_request_next(asked, 0, 0, &task, out.told, 2, &out.todo), CF_NO_STAGE);
  ROW(cf_request_follow(asked, stage, SOURCE, out.told, 2, &out.todo), CF_NO_STAGE);
  ROW(cf_request_follow(asked, SOURCE, stage, out.told, 2, &out.todo), CF_NO_STAGE);
  ROW(cf_request_join(asked, &(cf_request_joining){stage, 1, 0}, &of, 1, out.told, 2, &out.todo), CF_NO_STAGE);
  ROW(cf_request_join(asked, &(cf_request_joining){SOURCE, 1, 0}, (uint16_t[]){SOURCE, stage}, 2, out.told, 2, &out.todo), CF_NO_STAGE);
  ROW(cf_request_deadline(asked, stage, 1, CF_TIMEOUT, 7, value, &out.todo), CF_NO_STAGE);
  ROW(cf_ledger_stage(asked, stage, &out.stage), CF_NO_STAGE);
  ROW(cf_ledger_stage(&held[VIEW], stage, &out.stage), CF_NO_STAGE);
  ROW(cf_row_open_claim(&held[VIEW], stage, &out.claim), CF_NOTHING);
  ROW(cf_row_held(&held[VIEW], opening.session, stage, &out.number), CF_NOTHING);
  ROW(cf_row_abandon(&held[VIEW], opening.session, stage, 1, &out.word), CF_NOTHING);
  ROW(cf_row_finish(&held[VIEW], &task, &out.word), CF_NOTHING);
  ROW(cf_row_next_claim(&held[VIEW], &task, stage, &out.number), CF_NOTHING);
  ROW(cf_desk_complete(caller, stage, value, &out.reply), CF_NO_STAGE);
  ROW(cf_desk_fail(caller, stage, 1, &out.reply), CF_NO_STAGE);
  ROW(cf_desk_fail_as(caller, stage, CF_TIMED_OUT, 7, &out.reply), CF_NO_STAGE);
  ROW(cf_desk_cancel(caller, stage, &out.reply), CF_NO_STAGE);
  ROW(cf_desk_claim(caller, stage, &out.reply), CF_NO_STAGE);
  ROW(cf_desk_finish_with(caller, stage, &given, &out.reply), CF_NO_STAGE);
  ROW(cf_desk_attach(caller, CF_APPLY, &stage, 1, 0, &out.reply), CF_NO_STAGE);
  ROW(cf_desk_next(caller, &task), CF_NO_STAGE);
  ROW(cf_desk_read(caller, stage, &out.outcome), CF_NO_STAGE);
  ROW(cf_desk_read_now(caller, stage, value, &out.now), CF_NO_STAGE);
  ROW(cf_desk_join(caller, stage, 1, &out.now), CF_NO_STAGE);
  ROW(cf_desk_function(caller, stage, &out.number), CF_NO_STAGE);
  ROW(cf_closed_word(&held[CLOSED], stage, &out.word), CF_NOTHING);
  ROW(cf_closed_record(&held[CLOSED], 0, stage, &out.record), CF_NOTHING);
  ROW(cf_closed_record(&held[CLOSED], 1, 0, &out.record), CF_NOTHING);
  ROW(cf_ledger_news(ledger, stage, out.stages, 2, &out.n), CF_NOTHING);
  if (stage > 4095) ROW(cf_word_of_event(&event, &out.word), CF_NO_WORD);
  HOLDS(is_filled());
  HOLDS(task.held == 1 && task.stage == stage && step.place == 0);
}

static void by_other_numbers(void) {
  cf_handle *builder = &held[BUILDER], *plan = &held[PLAN], *graph = &held[GRAPH], *ledger = &held[LEDGER], *caller = &held[CALLER];
  const uint16_t three[3] = {SOURCE, SOURCE, SOURCE};
  cf_handle empty = {0}, full = {0}, many[65] = {{0}};
  cf_event event = {.call = 8};
  cf_task task = {.held = 1, .stage = TWICE};
  cf_step step = {.who = 64};
  cf_request_gathering gathering = {.who = 64, .form = CF_APPLY};
  cf_request_composing composing = {.who = 64, .lane = 2, .form = CF_APPLY, .source = STAGES, .function = 4096};
  cf_request_linking linking = {.who = 64, .relay = TWICE, .stage = SOURCE};
  cf_request_call calls[] = {{.call = CF_DO_PASS}, {.call = 7}};
  cf_todo todo = {.jobs = {0, 7}};
  size_t done;
  cf_handle *asked = &held[REQUEST];
  fill();
  ROW(cf_builder_new(&held[GRAPH], 0, 0), CF_FULL);
  ROW(cf_builder_stage(builder, 19, &of, 1, 0, &out.number), CF_NO_SUCH_NUMBER);
  ROW(cf_builder_stage(builder, UINT32_MAX, &of, 1, 0, &out.number), CF_NO_SUCH_NUMBER);
  ROW(cf_builder_stage(builder, CF_APPLY, NULL, 0, 0, &out.number), CF_WRONG_SOURCE_COUNT);
  ROW(cf_builder_stage(builder, CF_APPLY, &of, 1, CF_NO_FUNCTION, &out.number), CF_FUNCTION_MISSING);
  ROW(cf_builder_stage(builder, CF_SOURCE, NULL, 0, 0, &out.number), CF_FUNCTION_UNWANTED);
  ROW(cf_graph_new(plan, 4095, &empty), CF_ROOM);
  ROW(cf_graph_new(plan, 0, &held[GRAPH]), CF_FULL);
  ROW(cf_ledger_new(plan, NEVER, &empty), CF_ROOM);
  ROW(cf_ledger_new(plan, 0, &held[GRAPH]), CF_FULL);
  ROW(cf_plan_of(graph, &held[LEDGER]), CF_FULL);
  ROW(cf_desk_open(plan, many, 0, LOG, CALLS), CF_CALLERS);
  ROW(cf_desk_open(plan, many, 65, LOG, CALLS), CF_CALLERS);
  ROW(cf_desk_open(plan, many, 1, 0, CALLS), CF_LOG);
  ROW(cf_desk_open(plan, many, 1, LOG, 0), CF_CALLS);
  ROW(cf_desk_open(plan, &held[GRAPH], 1, LOG, CALLS), CF_FULL);
  ROW(cf_desk_open_with(plan, many, 1, &(cf_desk_sizes){.log = LOG, .calls = CALLS, .room = 4095, .functions = 1}), CF_ROOM);
  ROW(cf_desk_open_with(plan, many, 1, &(cf_desk_sizes){.log = LOG, .calls = CALLS}), CF_FUNCTIONS);
  ROW(cf_attach(graph, 19, &of, 1, 0, &out.reply), CF_NO_SUCH_NUMBER);
  ROW(cf_attach(graph, CF_ALL_OF, three, 3, CF_NO_FUNCTION, &out.reply), CF_WRONG_SOURCE_COUNT);
  ROW(cf_attach(graph, CF_COMBINE, &of, 1, 0, &out.reply), CF_BAD_ATTACH);
  ROW(cf_desk_attach(caller, 19, &of, 1, 0, &out.reply), CF_NO_SUCH_NUMBER);
  ROW(cf_desk_attach(caller, CF_ALL_OF, three, 3, CF_NO_FUNCTION, &out.reply), CF_WRONG_SOURCE_COUNT);
  ROW(cf_desk_attach(caller, CF_COMBINE, &of, 1, 0, &out.reply), CF_BAD_ATTACH);
  ROW(cf_desk_attach(caller, CF_APPLY, &of, 1, 1, &out.reply), CF_BAD_ATTACH);
  ROW(cf_next(graph, 0, &task), CF_NOT_HELD);
  ROW(cf_round(graph, 0, &task, 1), CF_NOT_HELD);
  ROW(cf_sweep_next(&held[SWEEP], &task), CF_NOT_HELD);
  ROW(cf_desk_next(caller, &task), CF_NOT_HELD);
  ROW(cf_ledger_step(ledger, &step, &task, out.news, 2, &out.n), CF_NO_WORD);
  step.who = 0;
  ROW(cf_ledger_step(ledger, &step, &task, out.news, 2, &out.n), CF_NOT_HELD);
  ROW(cf_ledger_grow(ledger, NEVER), CF_ROOM);
  ROW(cf_ledger_apply(ledger, 0, &out.reply, out.news, 2, &out.n), CF_NO_WORD);
  ROW(cf_request_new(plan, &(cf_request_sizes){.room = 4095, .lanes = 2}, lane_of, STAGES, &empty), CF_ROOM);
  ROW(cf_request_new(plan, &(cf_request_sizes){.lanes = 0}, lane_of, STAGES, &empty), CF_LANES);
  ROW(cf_request_new(plan, &(cf_request_sizes){.lanes = 17}, lane_of, STAGES, &empty), CF_LANES);
  ROW(cf_request_new(plan, &lanes, lane_of, STAGES - 1, &empty), CF_LANES);
  ROW(cf_request_new(plan, &(cf_request_sizes){.lanes = 1}, lane_of, STAGES, &empty), CF_NO_LANE);
  ROW(cf_request_new(plan, &(cf_request_sizes){.lanes = 2, .own = 64}, lane_of, STAGES, &empty), CF_NO_WORD);
  ROW(cf_request_new(plan, &lanes, lane_of, STAGES, &held[GRAPH]), CF_FULL);
  ROW(cf_request_next(asked, 64, 0, &task, out.told, 2, &out.todo), CF_NO_WORD);
  ROW(cf_request_next(asked, 0, 0, &task, out.told, 2, &out.todo), CF_NOT_HELD);
  ROW(cf_request_next(asked, 64, 2, &task, out.told, 2, &out.todo), CF_NO_LANE);
  ROW(cf_request_apply(asked, 0, 0, &out.reply, out.told, 2, &out.todo), CF_NO_WORD);
  ROW(cf_request_apply(asked, 0, 2, &out.reply, out.told, 2, &out.todo), CF_NO_LANE);
  ROW(cf_request_gather(asked, &gathering, many_of, 3, out.told, 2, &out.todo), CF_NO_SUCH_NUMBER);
  gathering.form = CF_ANY_OF;
  ROW(cf_request_gather(asked, &gathering, many_of, 3, out.told, 2, &out.todo), CF_NO_WORD);
  gathering.who = 0;
  ROW(cf_request_gather(asked, &gathering, many_of, 3, out.told, 2, &out.todo), CF_NO_STAGE);
  ROW(cf_request_gather(asked, &gathering, (uint16_t[]){SOURCE, TWICE, SOURCE}, 3, out.told, 2, &out.todo), CF_NO_ROOM);
  HOLDS(gathering.root == 0);
  ROW(cf_request_join(asked, &(cf_request_joining){STAGES, 0, 0}, &of, 1, out.told, 2, &out.todo), CF_NO_QUORUM);
  ROW(cf_request_join(asked, &(cf_request_joining){STAGES, 2, 0}, &of, 1, out.told, 2, &out.todo), CF_NO_QUORUM);
  ROW(cf_request_join(asked, &(cf_request_joining){STAGES, 1, 0}, NULL, 0, out.told, 2, &out.todo), CF_NO_QUORUM);
  ROW(cf_request_compose(asked, &composing, out.told, 2, &out.todo), CF_NO_LANE);
  composing.lane = 1;
  ROW(cf_request_compose(asked, &composing, out.told, 2, &out.todo), CF_NO_SUCH_NUMBER);
  composing.form = CF_COMPOSE;
  ROW(cf_request_compose(asked, &composing, out.told, 2, &out.todo), CF_NO_WORD);
  composing.who = 0;
  ROW(cf_request_compose(asked, &composing, out.told, 2, &out.todo), CF_NO_WORD);
  composing.function = 4095;
  ROW(cf_request_compose(asked, &composing, out.told, 2, &out.todo), CF_NO_STAGE);
  composing.source = SOURCE;
  ROW(cf_request_compose(asked, &composing, out.told, 2, &out.todo), CF_NO_ROOM);
  HOLDS(composing.relay == 0 && composing.stage == 0);
  ROW(cf_request_link(asked, &linking, &(cf_task){.stage = TWICE}, out.told, 2, &out.todo), CF_NOT_HELD);
  ROW(cf_request_link(asked, &linking, &task, out.told, 2, &out.todo), CF_NO_WORD);
  linking.who = 0;
  ROW(cf_request_link(asked, &linking, &task, out.told, 2, &out.todo), CF_NO_STAGE); /* the relay isn't below the compose */
  linking.relay = SOURCE, linking.stage = STAGES;
  ROW(cf_request_link(asked, &linking, &task, out.told, 2, &out.todo), CF_NO_STAGE);
  linking.stage = SOURCE;
  ROW(cf_request_link(asked, &linking, &task, out.told, 2, &out.todo), CF_NOT_HELD);
  HOLDS(task.held == 1);
  ROW(cf_request_refuse(asked, 2, 1, out.told, 2, &out.todo), CF_NO_LANE);
  ROW(cf_request_ready(asked, 2, &out.number), CF_NO_LANE);
  ROW(cf_request_cancel_all(asked, 64, out.told, 2, &out.todo), CF_NO_WORD);
  HOLDS(cf_request_new(plan, &(cf_request_sizes){.room = 4096 - STAGES, .lanes = 2}, lane_of, STAGES, &full) == CF_OK);
  ROW(cf_request_grow(&full), CF_ROOM);
  cf_free(&full);
  ROW(cf_request_do(asked, calls, 2, &done, out.told, 2, &todo), CF_NO_SUCH_NUMBER);
  HOLDS(done == 1 && todo.told == 0 && todo.moment == CF_NEVER && todo.jobs[1] == 7);
  ROW(cf_apply(graph, UINT64_MAX, &out.reply), CF_NO_WORD);
  ROW(cf_event_of(0, &out.event), CF_NO_WORD);
  ROW(cf_word_of_event(&event, &out.word), CF_NO_SUCH_NUMBER);
  event.call = CF_CALL_FAIL_AS, event.kind = CF_CANCELLED, event.code = CF_TIMED_OUT;
  ROW(cf_word_of_event(&event, &out.word), CF_NO_SUCH_NUMBER);
  ROW(cf_fail_as(graph, SOURCE, CF_CANCELLED, 7, &out.reply), CF_NO_SUCH_NUMBER);
  ROW(cf_desk_fail_as(&held[CALLER], SOURCE, CF_VALUE, 7, &out.reply), CF_NO_SUCH_NUMBER);
  event.call = CF_CALL_ATTACH, event.form = 19;
  ROW(cf_word_of_event(&event, &out.word), CF_NO_SUCH_NUMBER);
  event.form = CF_APPLY, event.sources = 3;
  ROW(cf_word_of_event(&event, &out.word), CF_WRONG_SOURCE_COUNT);
  ROW(cf_code_text(99, out.text, TEXT, &out.n), CF_NO_SUCH_NUMBER);
  HOLDS(is_filled() && !empty.full && !many[0].full && task.held == 1 && task.stage == TWICE);
}

/* ---- A view: what it refuses while no put is under way, while one is, and once a session has no token left ---- */

static const cf_event settles = {.call = CF_CALL_COMPLETE, .stage = SOURCE, .value = {CF_INT, 5}};

/* A word of the first caller that no graph of this plan takes, and one of the second caller. */
static void by_wrong_words(cf_handle *seen) {
  cf_event event = settles;
  uint64_t word;
  event.stage = NOT_THERE;
  ROW(cf_word_of(event, &word), CF_OK);
  ROW(cf_row_plan(seen, &word, 1, &out.word), CF_NO_WORD);
  ROW(cf_row_saw(seen, &(cf_entry){.word = word}, &out.reply, out.news, 2, &out.n), CF_NO_STAGE);
  event.stage = SOURCE, event.who = 1;
  ROW(cf_word_of(event, &word), CF_OK);
  ROW(cf_row_plan(seen, &word, 1, &out.word), CF_NO_WORD);
  ROW(cf_row_saw(seen, &(cf_entry){0}, &out.reply, out.news, 2, &out.n), CF_NO_WORD);
}

static void by_views(void) {
  const cf_event attaches = {.call = CF_CALL_ATTACH, .form = CF_SOURCE, .function = CF_NO_FUNCTION};
  cf_handle *plan = &held[PLAN], *seen = &held[VIEW], empty = {0}, last = {0};
  uint64_t words[2], token;
  uint8_t small;
  fill();
  ROW(cf_word_of(settles, &words[0]), CF_OK);
  words[1] = words[0];
  ROW(cf_row_new(plan, &(cf_row_opening){.room = 4095}, &empty), CF_ROOM);
  ROW(cf_row_new(plan, &(cf_row_opening){.session = UINT64_C(1) << 39}, &empty), CF_NO_TOKENS);
  ROW(cf_row_new(plan, &(cf_row_opening){.first = (1 << 23) + 1}, &empty), CF_NO_TOKENS);
  ROW(cf_row_new(plan, &opening, &held[GRAPH]), CF_FULL);
  ROW(cf_row_met(seen, &entry, &out.small), CF_NOTHING);
  ROW(cf_row_plan(seen, words, 0, &out.word), CF_NOTHING);
  ROW(cf_row_grow(seen, NEVER), CF_ROOM);
  ROW(cf_row_number_of(seen, opening.session, &out.small), CF_NOTHING);
  by_wrong_words(seen);
  HOLDS(cf_row_number(seen, &small) == CF_OK && small == 0);

  HOLDS(cf_row_plan(seen, words, 2, &token) == CF_OK && token == opening.session << 23);
  ROW(cf_row_plan(seen, words, 1, &out.word), CF_UNDER_WAY);
  ROW(cf_row_saw(seen, &(cf_entry){.word = words[0]}, &out.reply, out.news, 2, &out.n), CF_UNDER_WAY);
  ROW(cf_row_grow(seen, 0), CF_UNDER_WAY);
  HOLDS(cf_row_met(seen, &(cf_entry){.word = words[0], .token = token + 1}, &small) == CF_OK && small == 0);
  HOLDS(cf_row_plan(seen, words, 1, &token) == CF_OK && token == (opening.session << 23) + 2);
  HOLDS(cf_row_met(seen, &(cf_entry){.token = token}, &small) == CF_OK && small == 1);
  HOLDS(cf_row_plan(seen, words, 1, &token) == CF_OK && token == (opening.session << 23) + 3);
  ROW(cf_row_give_up(seen), CF_OK);

  ROW(cf_row_new(plan, &(cf_row_opening){.first = (1 << 23) - 1}, &last), CF_OK);
  ROW(cf_row_plan(&last, words, 2, &out.word), CF_NO_TOKENS);
  ROW(cf_word_of(attaches, &words[0]), CF_OK);
  ROW(cf_row_plan(&last, words, 1, &out.word), CF_NO_WORD);
  ROW(cf_row_grow(&last, 1), CF_OK);
  HOLDS(cf_row_plan(&last, words, 1, &token) == CF_OK && token == (1 << 23) - 1);
  ROW(cf_row_give_up(&last), CF_OK);
  ROW(cf_row_plan(&last, words, 1, &out.word), CF_NO_TOKENS);
  cf_free(&last);
  HOLDS(is_filled() && !empty.full);
}

/* The caller's number after all others: 64 sessions put one word each, and the next one shares its own modulo 64. Of two
 * sessions of a number, which claim one stage, the first has it, until another caller fails it. */
static void by_sessions(void) {
  cf_handle crowd = {0};
  cf_row_claim claim;
  uint16_t number;
  uint64_t word;
  cf_event event = settles;
  cf_entry one = {0};
  cf_reply reply;
  uint8_t small;
  size_t n;
  ROW(cf_row_new(&held[PLAN], &opening, &crowd), CF_OK);
  for (uint8_t who = 0; who < 64; who++) {
    HOLDS(cf_row_number(&crowd, &small) == CF_OK && small == who);
    event.who = who, one.token = (uint64_t)(who + 1) << 23;
    HOLDS(cf_word_of(event, &one.word) == CF_OK && cf_row_saw(&crowd, &one, &reply, NULL, 0, &n) == CF_OK && n == (who == 0 ? 2 : 0));
  }
  HOLDS(cf_row_number(&crowd, &small) == CF_OK && small == opening.session % 64);
  fill();
  event.who = (uint8_t)((small + 1) % 64);
  HOLDS(cf_word_of(event, &one.word) == CF_OK);
  ROW(cf_row_plan(&crowd, &one.word, 1, &out.word), CF_NO_WORD);
  HOLDS(cf_row_number_of(&crowd, 64, &small) == CF_OK && small == 63);
  ROW(cf_row_open_claim(&crowd, 0, &out.claim), CF_NOTHING);
  ROW(cf_row_held(&crowd, 900, 0, &out.number), CF_NOTHING);
  event = (cf_event){.call = CF_CALL_CLAIM, .who = 3, .stage = TWICE};
  HOLDS(cf_word_of(event, &one.word) == CF_OK);
  for (uint64_t session = 900; session < 902; session++) {
    one.token = session << 23;
    HOLDS(cf_row_saw(&crowd, &one, &reply, NULL, 0, &n) == CF_OK && reply.answer == (session == 900 ? 0 : 2));
  }
  HOLDS(cf_row_held(&crowd, 900, 0, &number) == CF_OK && number == TWICE);
  ROW(cf_row_held(&crowd, 900, TWICE + 1, &out.number), CF_NOTHING);
  ROW(cf_row_held(&crowd, 901, 0, &out.number), CF_NOTHING);
  const cf_task anothers = {.held = 1, .stage = TWICE}, none = {0};
  ROW(cf_row_finish(&crowd, &anothers, &out.word), CF_NOTHING);
  ROW(cf_row_finish(&crowd, &none, &out.word), CF_NOTHING);
  ROW(cf_row_next_claim(&crowd, &anothers, 0, &out.number), CF_NOTHING);
  event = (cf_event){.call = CF_CALL_FAIL, .who = (uint8_t)(opening.session % 64), .stage = TWICE, .code = 1};
  HOLDS(cf_word_of(event, &one.word) == CF_OK && cf_row_abandon(&crowd, 900, 0, 1, &word) == CF_OK && word == one.word);
  HOLDS(cf_row_saw(&crowd, &one, &reply, NULL, 0, &n) == CF_OK);
  ROW(cf_row_held(&crowd, 900, 0, &out.number), CF_NOTHING);
  ROW(cf_row_abandon(&crowd, 900, 0, 1, &out.word), CF_NOTHING);
  HOLDS(cf_row_open_claim(&crowd, 0, &claim) == CF_OK && claim.stage == TWICE && claim.session == 900);
  HOLDS(is_filled());
  cf_free(&crowd);
}

/* ---- What a host refuses: answers to no ticket or another question's, acts of no kind, and requests that aren't opened ---- */

/* The next order but sleeping, which has this kind. */
static uint64_t ordered(cf_handle *host, uint64_t now, uint32_t kind) {
  cf_host_order order = {0};
  HOLDS(cf_host_turn(host, now, &order) == CF_OK && order.kind == kind);
  return order.ticket;
}

static void by_hosts(void) {
  static const cf_noted no_note = {.word = 1, .note = {UINT64_MAX, 0}};
  const cf_host_opening too_high = {.session = (uint64_t)1 << 39};
  const cf_host_acting no_act = {.kind = 8}, no_form = {.kind = CF_ACT_ATTACH, .form = 19}, many = {.kind = CF_ACT_ATTACH, .sources = 3},
                       unfit = {.kind = CF_ACT_ATTACH, .form = CF_APPLY, .function = CF_NO_FUNCTION};
  cf_handle host = {0}, empty = {0};
  fill();
  ROW(cf_host_new(&too_high, &host), CF_NO_TOKENS);
  ROW(cf_host_new(&host_opening, &host), CF_OK);
  ROW(cf_host_new(&host_opening, &host), CF_FULL);
  ROW(cf_host_act(&host, 0, 7, &no_act, &out.word), CF_NO_SUCH_NUMBER);
  ROW(cf_host_act(&host, 0, 7, &no_form, &out.word), CF_NO_SUCH_NUMBER);
  ROW(cf_host_act(&host, 0, 7, &many, &out.word), CF_WRONG_SOURCE_COUNT);
  ROW(cf_host_act(&host, 0, 7, &unfit, &out.word), CF_BAD_ATTACH);
  ROW(cf_host_act(&host, 0, 7, &acting, &out.word), CF_NOT_OPEN);
  ROW(cf_host_follow(&host, 7), CF_OK);
  ROW(cf_host_act(&host, 0, 7, &acting, &out.word), CF_NOT_OPEN);
  ROW(cf_host_end(&host, 0, 7, &out.word), CF_NOT_OPEN);
  ROW(cf_host_wants(&host, 7, SOURCE), CF_NOT_OPEN);
  ROW(cf_host_lets_go(&host, 7, SOURCE), CF_NOT_OPEN);
  ROW(cf_host_unread(&host, 0, 7, SOURCE), CF_NOT_OPEN);
  ROW(cf_host_grow(&host, 7, 1), CF_NOT_OPEN);
  ROW(cf_host_put(&host, 7, out.wants, 2, &out.n), CF_NOT_OPEN);
  ROW(cf_host_stage(&host, 7, SOURCE, &out.stage), CF_NOT_OPEN);
  ROW(cf_host_seen(&host, 7, &out.host_view), CF_NOT_OPEN);
  ROW(cf_host_answered(&host, 0, 1, CF_UNKNOWN), CF_NO_TICKET);
  ROW(cf_host_answered(&host, 0, 1, 6), CF_NO_SUCH_NUMBER);
  ROW(cf_host_ended(&host, 1, CF_ENDS_GIVE, 0, 0), CF_NO_TICKET);
  ROW(cf_host_ended(&host, 1, 5, 0, 0), CF_NO_SUCH_NUMBER);
  const uint64_t beat = ordered(&host, 0, CF_ORDER_BEAT), list = ordered(&host, 0, CF_ORDER_LIST);
  const uint64_t opening_of = ordered(&host, 0, CF_ORDER_OPEN);
  ROW(cf_host_news(&host, 0, beat, 0, NULL, 0), CF_UNFIT);
  ROW(cf_host_beats(&host, 0, list, 0, NULL, 0), CF_UNFIT);
  ROW(cf_host_read(&host, 0, opening_of, NULL, 0), CF_UNFIT);
  ROW(cf_host_read(&host, 0, opening_of, &no_note, 1), CF_NO_NOTE);
  ROW(cf_host_answered(&host, 0, opening_of, CF_STANDS), CF_UNFIT);
  ROW(cf_host_answered(&host, 0, beat, CF_DROPPED), CF_UNFIT);
  ROW(cf_host_opened(&host, opening_of, &empty, 0, 0, notes, STAGES), CF_EMPTY);
  ROW(cf_host_opened(&host, opening_of, &held[GRAPH], 0, 0, notes, STAGES), CF_WRONG_KIND);
  ROW(cf_host_opened(&host, opening_of, &held[PLAN], 4096, 0, notes, STAGES), CF_ROOM);
  ROW(cf_host_opened(&host, opening_of, &held[PLAN], 0, 0, notes, 1), CF_UNFIT);
  ROW(cf_host_opened(&host, opening_of, &held[PLAN], 0, 0, &no_note.note, 1), CF_NO_NOTE);
  ROW(cf_host_opened(&host, opening_of, &held[PLAN], 0, 0, notes, STAGES), CF_OK);
  ROW(cf_host_opened(&host, opening_of, &held[PLAN], 0, 0, notes, STAGES), CF_NO_TICKET);
  ROW(cf_host_wants(&host, 7, NOT_THERE), CF_NO_STAGE);
  ROW(cf_host_unread(&host, 0, 7, NOT_THERE), CF_NO_STAGE);
  ROW(cf_host_grow(&host, 7, 4096), CF_ROOM);
  ROW(cf_host_wants(&host, 7, STAGES), CF_NO_STAGE);
  ROW(cf_host_grow(&host, 7, 1), CF_OK);
  ROW(cf_host_wants(&host, 7, STAGES), CF_OK);
  ROW(cf_host_stage(&host, 7, NOT_THERE, &out.stage), CF_NO_STAGE);
  HOLDS(is_filled() && !empty.full);
  cf_free(&host);
}

/* ---- Buffers that are too short: what is told is whole, and nothing behind the buffer's end is written ---- */

static void by_buffers(void) {
  static const char script[] = "{\"cf\": 1, \"stages\": [{\"form\": \"source\"}], \"steps\": [[\"complete\", 0, 3]]}";
  static const char report[] = "true\nstage 0 value 3\n";
  cf_handle *ledger = &held[LEDGER];
  const cf_outcome thrown = {.kind = CF_THROWN, .code = 7};
  const cf_outcome longest = {.kind = CF_BAD_ANSWER, .wrapped = 1, .code = UINT32_MAX};
  const cf_event event = {.call = CF_CALL_COMPLETE, .stage = SOURCE, .value = {CF_INT, 5}};
  uint64_t words[2] = {0, 77}, word;
  cf_news news[2];
  uint16_t stages[2] = {88, 99};
  cf_reply reply;
  uint8_t text[TEXT];
  size_t n;
  memset(text, '#', TEXT);
  ROW(cf_code_text(CF_NO_STAGE, text, 3, &n), CF_OK);
  HOLDS(n == 7 && !memcmp(text, "NoS#", 4));
  ROW(cf_code_text(CF_NO_STAGE, NULL, 0, &n), CF_OK);
  HOLDS(n == 7);
  memset(text, '#', TEXT);
  ROW(cf_text_of_outcome(&thrown, text, 5, &n), CF_OK);
  HOLDS(n == 18 && !memcmp(text, "fault#", 6));
  ROW(cf_text_of_outcome(&longest, text, TEXT, &n), CF_OK);
  HOLDS(n == 34 && !memcmp(text, "fault badanswer 4294967295 wrapped", 34));
  memset(text, '#', TEXT);
  ROW(cf_run_script((const uint8_t *)script, strlen(script), text, 5, &n), CF_OK);
  HOLDS(n == strlen(report) && !memcmp(text, "true\n#", 6));
  ROW(cf_run_script((const uint8_t *)script, strlen(script), text, n, &n), CF_OK);
  HOLDS(!memcmp(text, report, n));
  ROW(cf_run_script(NULL, 0, text, 1, &n), CF_BAD_SCRIPT);
  HOLDS(n > 1 && text[0] == 'f');

  ROW(cf_word_of_event(&event, &word), CF_OK);
  memset(news, 0xa5, sizeof news);
  ROW(cf_ledger_apply(ledger, word, &reply, news, 1, &n), CF_OK);
  HOLDS(n == 2 && news[0].stage == SOURCE && news[0].now.kind == CF_IS_SETTLED && news[1].stage == 0xa5a5);
  ROW(cf_ledger_apply(ledger, word, &reply, NULL, 0, &n), CF_OK);
  HOLDS(n == 0 && reply.answer == 0);
  ROW(cf_ledger_words(ledger, 0, words, 1, &n), CF_OK);
  HOLDS(n == 2 && words[0] == word && words[1] == 77);
  ROW(cf_ledger_words(ledger, SIZE_MAX, words, 2, &n), CF_OK);
  HOLDS(n == 0 && words[0] == word && words[1] == 77);
  ROW(cf_ledger_news(ledger, 0, stages, 1, &n), CF_OK);
  HOLDS(n == 2 && stages[0] == SOURCE && stages[1] == 99);
  ROW(cf_ledger_restart(ledger), CF_OK);
}

int main(void) {
  make_all();
  by_handles();
  are_as_before();
  by_pointers();
  are_as_before();
  by_numbers(NOT_THERE);
  by_numbers(4096);
  by_numbers(NEVER);
  by_other_numbers();
  by_views();
  by_sessions();
  by_hosts();
  are_as_before();
  by_buffers();
  are_as_before();
  for (int kind = 0; kind < KINDS; kind++) cf_free(&held[kind]);
  cf_free(&other_caller);
  return end_rows();
}
