/* The memory that calls of the library for C ask for, in bytes, to the byte. No contract says how much a call takes, so a call that takes
 * more than it needs, or a ledger that gives up what it is to keep, shows here alone.
 *
 *     bytes
 *
 * It prints each step whose bytes aren't those of the table in its text, then how many steps there were, and ends with status 0 where all
 * are. */
#define _GNU_SOURCE
#include "cf.h"

#include <dlfcn.h>
#include <stdio.h>
#include <stdlib.h>

enum { STAGES = 100, ROOM = 50, CALLERS = 4, LOG = 1000, CALLS = 500, FEW = 50 };

static size_t asked;

void *malloc(size_t size) {
  static void *(*next)(size_t);
  if (!next) *(void **)&next = dlsym(RTLD_NEXT, "malloc");
  asked += size;
  return next(size);
}

void *realloc(void *old, size_t size) {
  static void *(*next)(void *, size_t);
  if (!next) *(void **)&next = dlsym(RTLD_NEXT, "realloc");
  asked += size;
  return next(old, size);
}

void *aligned_alloc(size_t alignment, size_t size) {
  static void *(*next)(size_t, size_t);
  if (!next) *(void **)&next = dlsym(RTLD_NEXT, "aligned_alloc");
  asked += size;
  return next(alignment, size);
}

static unsigned steps, wrong;

/* What was asked for since the last step. */
static void takes(const char *step, uint32_t code, size_t bytes) {
  size_t took = asked;
  ++steps;
  if (code != CF_OK || took != bytes) {
    ++wrong;
    printf("%s: code %u, %zu bytes, and not %zu\n", step, (unsigned)code, took, bytes);
  }
  asked = 0;
}

/* A source, and a chain of applies behind it. */
static uint32_t chain(cf_handle *plan) {
  uint16_t at, before = 0;
  uint32_t code = cf_builder_stage(plan, CF_SOURCE, NULL, 0, CF_NO_FUNCTION, &at);
  for (uint16_t i = 1; i < STAGES && code == CF_OK; ++i, before = at) code = cf_builder_stage(plan, CF_APPLY, &before, 1, 0, &at);
  return code;
}

static uint32_t close_all(cf_handle *callers) {
  uint32_t code = cf_close_begin(&callers[0]);
  for (uint32_t k = 1; k < CALLERS && code == CF_OK; ++k) code = cf_close_add(&callers[0], &callers[k]);
  return code == CF_OK ? cf_close_end(&callers[0]) : code;
}

static uint32_t fill(cf_handle *ledger) {
  uint64_t word;
  cf_event event = {.call = CF_CALL_COMPLETE, .value = {CF_INT, 1}};
  uint32_t code = cf_word_of_event(&event, &word);
  for (int k = 0; k < 200 && code == CF_OK; ++k) {
    cf_reply reply;
    size_t n;
    code = cf_ledger_apply(ledger, word, &reply, NULL, 0, &n);
  }
  return code;
}

/* 200 entries of another session. */
static uint32_t see(cf_handle *view) {
  cf_entry entry = {0};
  cf_event event = {.call = CF_CALL_COMPLETE, .value = {CF_INT, 1}};
  uint32_t code = cf_word_of_event(&event, &entry.word);
  for (int k = 0; k < 200 && code == CF_OK; ++k) {
    cf_reply reply;
    size_t n;
    code = cf_row_saw(view, &entry, &reply, NULL, 0, &n);
  }
  return code;
}

/* A put of a word, which is given up. */
static uint32_t plan_put(cf_handle *view) {
  uint64_t word, token;
  cf_event event = {.call = CF_CALL_COMPLETE, .who = 1, .value = {CF_INT, 1}};
  uint32_t code = cf_word_of_event(&event, &word);
  if (code == CF_OK) code = cf_row_plan(view, &word, 1, &token);
  return code == CF_OK ? cf_row_give_up(view) : code;
}

static cf_host_order order;

/* A host asks for beats and for news, and is answered. */
static uint32_t look(cf_handle *host) {
  static const cf_host_beat beats[CALLERS] = {{7, 1}, {8, 1}, {9, 1}, {10, 1}};
  static const cf_host_length lengths[FEW] = {{1, 0}};
  uint32_t code = cf_host_turn(host, 0, &order);
  if (code == CF_OK) code = cf_host_beats(host, 0, order.ticket, 0, beats, CALLERS);
  if (code == CF_OK) code = cf_host_turn(host, 0, &order);
  return code == CF_OK ? cf_host_news(host, 0, order.ticket, 1, lengths, 1) : code;
}

/* It opens a request, and reads its empty row. */
static uint32_t begin(cf_handle *host, cf_handle *plan) {
  static const cf_note notes[STAGES];
  uint32_t code = cf_host_turn(host, 0, &order);
  if (code == CF_OK) code = cf_host_opened(host, order.ticket, plan, ROOM, 0, notes, STAGES);
  if (code == CF_OK) code = cf_host_turn(host, 0, &order);
  return code == CF_OK ? cf_host_read(host, 0, order.ticket, NULL, 0) : code;
}

/* Its turns until it sleeps: what it asks to be put stands, and functions end at once. */
static uint32_t work(cf_handle *host) {
  uint32_t code = cf_host_turn(host, 0, &order);
  while (code == CF_OK && order.kind != CF_ORDER_SLEEP) {
    if (order.kind == CF_ORDER_PUT) code = cf_host_answered(host, 0, order.ticket, CF_STANDS);
    if (order.kind == CF_ORDER_CALL) code = cf_host_ended(host, order.ticket, CF_ENDS_GIVE, 0, 0);
    if (code == CF_OK) code = cf_host_turn(host, 0, &order);
  }
  return code;
}

int main(void) {
  cf_handle plan = {0}, grown = {0}, again = {0}, graph = {0}, callers[CALLERS] = {{0}}, ledger = {0}, view = {0};
  const cf_row_opening opening = {.room = ROOM, .session = 7};
  cf_handle host = {0};
  const cf_host_opening open_host = {.session = 7, .workers = 1, .lease = 3000};
  const cf_host_acting complete = {.kind = CF_ACT_COMPLETE};
  uint64_t ticket;
  static const char SCRIPT[] = "{\"cf\":1,\"stages\":[{\"form\":\"source\"}],\"steps\":[[\"complete\",0,3],[\"outcome\",0]]}";
  static uint8_t report[1000];
  size_t length;
  asked = 0;
  takes("a builder with room", cf_builder_new(&plan, STAGES, STAGES), 2488);
  takes("stages in that room", chain(&plan), 0);
  takes("a limit", cf_builder_limit(&plan, 0, 5, CF_TIMEOUT, 0, (cf_value){CF_INT, 1}), 80);
  takes("the plan", cf_build(&plan), 1558);
  takes("a builder without room", cf_builder_new(&grown, 0, 0), 688);
  takes("stages without room", chain(&grown), 4536);
  takes("the plan without room", cf_build(&grown), 1558);
  takes("a graph", cf_graph_new(&plan, 0, &graph), 3512);
  takes("its plan", cf_plan_of(&graph, &again), 688);
  takes("its restart", cf_restart(&graph), 0);
  cf_free(&graph);
  takes("a graph with room", cf_graph_new(&plan, ROOM, &graph), 9612);
  takes("a desk", cf_desk_open(&plan, callers, CALLERS, LOG, CALLS), 144217);
  takes("its closing", close_all(callers), 1856);
  for (int k = 0; k < CALLERS; ++k) cf_free(&callers[k]);
  takes("a desk of few records", cf_desk_open(&plan, callers, CALLERS, LOG, FEW), 57817);
  for (int k = 0; k < CALLERS; ++k) cf_free(&callers[k]);
  takes("a desk with room", cf_desk_open_growing(&plan, callers, CALLERS, LOG, CALLS, ROOM, 8), 168617);
  takes("a ledger", cf_ledger_new(&plan, ROOM, &ledger), 10124);
  takes("its words", fill(&ledger), 8068);
  takes("its restart", cf_ledger_restart(&ledger), 0);
  takes("its words again", fill(&ledger), 0);
  takes("more room for it", cf_ledger_grow(&ledger, ROOM), 19304);
  takes("a view", cf_row_new(&plan, &opening, &view), 11724);
  takes("its entries", see(&view), 21380);
  takes("a put of it", plan_put(&view), 0);
  takes("more room for it", cf_row_grow(&view, ROOM), 22104);
  takes("a host", cf_host_new(&open_host, &host), 936);
  takes("a request that it follows", cf_host_follow(&host, 1), 1080);
  takes("its beats and news", look(&host), 2592);
  takes("a request's opening", begin(&host, &plan), 28690);
  takes("an act", cf_host_act(&host, 0, 1, &complete, &ticket), 256);
  takes("a host's work", work(&host), 8492);
  takes("its next turn", cf_host_turn(&host, 0, &order), 0);
  takes("a script", cf_run_script((const uint8_t *)SCRIPT, sizeof SCRIPT - 1, report, sizeof report, &length), 3845);
  cf_free(&plan);
  cf_free(&grown);
  cf_free(&again);
  cf_free(&graph);
  for (int k = 0; k < CALLERS; ++k) cf_free(&callers[k]);
  cf_free(&ledger);
  cf_free(&view);
  cf_free(&host);
  printf("%u of %u steps asked for other memory\n", wrong, steps);
  return wrong != 0;
}
