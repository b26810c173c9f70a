/* What single calls of the library for C take: bench/library/run builds and runs it. A line for each, as crates/cf_bench prints those of the same
 * names: the best and the median of many rounds, in picoseconds a call, and how many rounds there were.
 *
 *   handle graph, handle desk   a call that looks behind its handle and does nothing else (cf_stages, cf_desk_seen)
 *   call graph ..               over a fan-out of 512 whose source is completed: the lowest ready stage asked for so many times, each
 *                               stage claimed, each finished, the outcome of each
 *   call graph complete         a source of an allOf of 512 completed
 *   call desk ..                the same by a desk's one caller, where ready and the outcome are looks that find nothing new
 *   attach                      a stage attached to a chain of 2,048 whose first half is settled
 *   read                        a read that finds nothing new */
#define _POSIX_C_SOURCE 200809L
#include "times.h"

enum { FAN = 512, ATTACHED = 2048, RACED = 4095, READS = 60000, ROUNDS = 300 };

/* ---- Graphs ---- */

static struct times handle_graph = {.name = "handle graph"}, graph_ready = {.name = "call graph ready"},
                    graph_claim = {.name = "call graph claim"}, graph_finish = {.name = "call graph finish"},
                    graph_outcome = {.name = "call graph outcome"}, graph_complete = {.name = "call graph complete"},
                    attach = {.name = "attach"};

/* The four calls over the fan-out, in loops of their own, so that a clock isn't asked at each. */
static void time_graph(cf_handle *graph) {
  cf_reply reply = {0};
  cf_outcome outcome;
  uint16_t told;
  uint64_t since;
  MUST(cf_restart(graph));
  MUST(cf_complete(graph, 0, number(1), &reply));
  since = moment();
  for (uint16_t i = 1; i < FAN; i++) MUST(cf_stages(graph, &told));
  add(&handle_graph, since);
  since = moment();
  for (uint16_t i = 1; i < FAN; i++) MUST(cf_lowest_ready(graph, &told));
  add(&graph_ready, since);
  since = moment();
  for (uint16_t i = 1; i < FAN; i++) MUST(cf_claim(graph, ME, i, &reply));
  add(&graph_claim, since);
  must_be(reply.answer == CF_GRANTED, "a claim");
  const cf_answer given = answer(&reply.args);
  since = moment();
  for (uint16_t i = 1; i < FAN; i++) MUST(cf_finish_with(graph, ME, i, &given, &reply));
  add(&graph_finish, since);
  must_be(reply.answer == CF_WON, "a finish");
  since = moment();
  for (uint16_t i = 1; i < FAN; i++) MUST(cf_get(graph, i, &outcome));
  add(&graph_outcome, since);
  must_be(outcome.value.number == 2, "an outcome");
}

static void time_completions(cf_handle *graph) {
  cf_reply reply = {0};
  MUST(cf_restart(graph));
  uint64_t since = moment();
  for (uint16_t i = 0; i < FAN - 1; i++) MUST(cf_complete(graph, i, number(2), &reply));
  add(&graph_complete, since);
  must_be(reply.answer == 1, "a completion");
}

static void time_attach(cf_handle *plan) {
  cf_handle graph = {0};
  cf_reply reply = {0};
  MUST(cf_graph_new(plan, ATTACHED, &graph));
  MUST(cf_complete(&graph, 0, number(1), &reply));
  for (uint16_t i = 1; i < ATTACHED / 2; i++) {
    MUST(cf_claim(&graph, ME, i, &reply));
    const cf_answer given = answer(&reply.args);
    MUST(cf_finish_with(&graph, ME, i, &given, &reply));
  }
  uint64_t since = moment();
  for (uint16_t i = 0; i < ATTACHED; i++) MUST(cf_attach(&graph, CF_APPLY, &i, 1, 0, &reply));
  add(&attach, since);
  must_be(reply.answer == CF_AT && reply.number == 2 * ATTACHED - 1, "an attached stage");
  cf_free(&graph);
}

static void time_graphs(void) {
  cf_handle plan = plan_of(FAN_OUT, FAN), graph = {0};
  MUST(cf_graph_new(&plan, 0, &graph));
  for (int i = 0; i < ROUNDS; i++) time_graph(&graph);
  cf_free(&graph);
  cf_free(&plan);
  plan = plan_of(ALL_OF, FAN);
  MUST(cf_graph_new(&plan, 0, &graph));
  for (int i = 0; i < ROUNDS; i++) time_completions(&graph);
  cf_free(&graph);
  cf_free(&plan);
  plan = plan_of(CHAIN, ATTACHED);
  for (int i = 0; i < ROUNDS; i++) time_attach(&plan);
  cf_free(&plan);
}

/* ---- Desks ---- */

static struct times handle_desk = {.name = "handle desk"}, desk_ready = {.name = "call desk ready"},
                    desk_claim = {.name = "call desk claim"}, desk_finish = {.name = "call desk finish"},
                    desk_outcome = {.name = "call desk outcome"}, reading = {.name = "read"};

static void time_desk(cf_handle *plan) {
  cf_handle caller = {0};
  cf_reply reply = {0};
  cf_outcome outcome;
  uint16_t told;
  uint64_t since;
  MUST(cf_desk_open(plan, &caller, 1, 2 * FAN, 3 * FAN));
  MUST(cf_desk_complete(&caller, 0, number(1), &reply));
  since = moment();
  for (uint16_t i = 1; i < FAN; i++) MUST(cf_desk_seen(&caller, &told));
  add(&handle_desk, since);
  since = moment();
  for (uint16_t i = 1; i < FAN; i++) MUST(cf_desk_ready(&caller, &told));
  add(&desk_ready, since);
  since = moment();
  for (uint16_t i = 1; i < FAN; i++) MUST(cf_desk_claim(&caller, i, &reply));
  add(&desk_claim, since);
  must_be(reply.answer == CF_GRANTED, "a claim");
  const cf_answer given = answer(&reply.args);
  since = moment();
  for (uint16_t i = 1; i < FAN; i++) MUST(cf_desk_finish_with(&caller, i, &given, &reply));
  add(&desk_finish, since);
  must_be(reply.answer == CF_WON, "a finish");
  since = moment();
  for (uint16_t i = 1; i < FAN; i++) MUST(cf_desk_read(&caller, i, &outcome));
  add(&desk_outcome, since);
  must_be(outcome.value.number == 2, "an outcome");
  cf_free(&caller);
}

static void time_reads(cf_handle *plan) {
  cf_handle caller = {0};
  cf_outcome outcome;
  MUST(cf_desk_open(plan, &caller, 1, 1, READS));
  uint64_t since = moment();
  for (uint16_t i = 0; i < READS; i++) MUST(cf_desk_read(&caller, 0, &outcome));
  add(&reading, since);
  cf_free(&caller);
}

static void time_desks(void) {
  cf_handle plan = plan_of(FAN_OUT, FAN);
  for (int i = 0; i < ROUNDS; i++) time_desk(&plan);
  cf_free(&plan);
  plan = plan_of(SOURCES, RACED);
  for (int i = 0; i < ROUNDS; i++) time_reads(&plan);
  cf_free(&plan);
}

int main(void) {
  struct times *const calls[] = {&handle_graph, &graph_ready, &graph_claim, &graph_finish, &graph_outcome, &graph_complete, &handle_desk,
      &desk_ready, &desk_claim, &desk_finish, &desk_outcome};
  time_graphs();
  time_desks();
  for (size_t i = 0; i < sizeof calls / sizeof calls[0]; i++) show(calls[i], FAN - 1);
  show(&attach, ATTACHED);
  show(&reading, READS);
  return 0;
}
