/* Calls of all sizes in ample memory, over the library for C: none may answer that memory was refused, and each answers the code that its
 * sizes ask for. No contract can say so.
 *
 *     ample [short]
 *
 * The sizes are those that code compares with: the powers of two, one less and one more, and the bounds of plans, desks and scripts.
 * `short` leaves out most pairs of sizes. It prints the calls that answered otherwise, then how many were made, and ends with status 0
 * where none did. It needs 1 GB of memory. */
#include "cf.h"

#include <stdio.h>
#include <stdlib.h>
#include <string.h>

static const uint32_t SIZES[] = {0, 1, 2, 3, 4, 5, 7, 8, 9, 15, 16, 17, 31, 32, 33, 63, 64, 65, 127, 128, 129, 255, 256, 257, 511, 512, 513,
    1000, 1001, 1023, 1024, 1025, 2047, 2048, 2049, 4094, 4095, 4096, 4097, 8191, 8192, 8193, 16383, 16384, 16385, 20000, 20001, 32767,
    32768, 32769, 65534, 65535};
enum { COUNT = sizeof SIZES / sizeof *SIZES, STAGES = 4096, EDGES = 16384, LIMITS = 4096, CALLERS = 64, STEPS = 20000, TEXT = 1048576 };
enum { WORDS = 131073 }; /* of a ledger, which has no bound */

static long made, wrong;
static int is_short;

static uint32_t wants(uint32_t code, uint32_t wanted, const char *call, uint32_t a, uint32_t b) {
  ++made;
  if (code != wanted) {
    ++wrong;
    printf("%s of %u and %u: %u, and not %u\n", call, (unsigned)a, (unsigned)b, (unsigned)code, (unsigned)wanted);
  }
  return code;
}

/* The most sources of one stage here. */
enum { WIDE = 256 };

static uint16_t zeros[WIDE];

/* A plan of so many stages and edges: stage 0 is a source, the last few are allOf of it, and the others chain on. */
static uint32_t plan_of(cf_handle *plan, uint32_t stages, uint32_t edges, uint16_t room_stages, uint16_t room_edges) {
  uint32_t code = wants(cf_builder_new(plan, room_stages, room_edges), CF_OK, "builder_new", room_stages, room_edges);
  uint16_t at;
  for (uint32_t i = 0; i < stages && code == CF_OK; ++i) {
    uint32_t takes = edges > WIDE ? WIDE : edges;
    if (i == 0) takes = 0;
    edges -= takes;
    code = takes == 0 ? cf_builder_stage(plan, CF_SOURCE, NULL, 0, CF_NO_FUNCTION, &at)
                      : cf_builder_stage(plan, CF_ALL_OF, zeros, takes, CF_NO_FUNCTION, &at);
    wants(code, CF_OK, "builder_stage", i, takes);
  }
  return code;
}

static void builders(void) {
  for (size_t i = 0; i < COUNT; ++i)
    for (size_t j = 0; j < COUNT; j += is_short ? 7 : 1) {
      cf_handle plan = {0};
      plan_of(&plan, 2, 1, (uint16_t)SIZES[i], (uint16_t)SIZES[j]);
      wants(cf_build(&plan), CF_OK, "build", SIZES[i], SIZES[j]);
      cf_free(&plan);
    }
}

/* Plans of each number of stages and of edges, in rooms that are right, short and none; and one stage, edge and limit too much. */
static void plans(void) {
  for (size_t i = 1; i < COUNT && SIZES[i] <= STAGES; ++i)
    for (size_t j = 0; j < COUNT && SIZES[j] <= EDGES; j += is_short ? 5 : 1) {
      uint32_t stages = SIZES[i], edges = SIZES[j];
      if (edges > (stages - 1) * WIDE) continue;
      for (int room = 0; room < (is_short ? 1 : 3); ++room) {
        cf_handle plan = {0};
        uint16_t at;
        plan_of(&plan, stages, edges, (uint16_t)(room == 1 ? stages : room == 2 ? stages - 1 : 0), (uint16_t)(room == 0 ? 0 : edges));
        if (stages == STAGES)
          wants(cf_builder_stage(&plan, CF_SOURCE, NULL, 0, CF_NO_FUNCTION, &at), CF_TOO_MANY_STAGES, "builder_stage", stages, 0);
        if (edges == EDGES && stages < STAGES)
          wants(cf_builder_stage(&plan, CF_ALL_OF, zeros, 1, CF_NO_FUNCTION, &at), CF_TOO_MANY_EDGES, "builder_stage", stages, 1);
        wants(cf_build(&plan), CF_OK, "build", stages, edges);
        cf_free(&plan);
      }
    }
  for (size_t i = 0; i < COUNT && SIZES[i] <= LIMITS; ++i) {
    cf_handle plan = {0}, graph = {0};
    cf_reply reply;
    plan_of(&plan, 1, 0, 1, 0);
    for (uint32_t k = 0; k < SIZES[i]; ++k)
      wants(cf_builder_limit(&plan, 0, 5 - k % 3, k % 2, k, (cf_value){CF_INT, 1}), CF_OK, "builder_limit", SIZES[i], k);
    if (SIZES[i] == LIMITS)
      wants(cf_builder_limit(&plan, 0, 1, 0, 0, (cf_value){CF_INT, 1}), CF_TOO_MANY_LIMITS, "builder_limit", LIMITS, 0);
    wants(cf_build(&plan), CF_OK, "build", 1, SIZES[i]);
    wants(cf_graph_new(&plan, 0, &graph), CF_OK, "graph_new", 1, 0);
    wants(cf_tick(&graph, 9, &reply), CF_OK, "tick", 9, 0);
    cf_free(&graph);
    cf_free(&plan);
  }
}

/* Graphs with each room beside each number of stages, filled by attaches. */
static void graphs(void) {
  static const uint16_t first[] = {0, 0};
  for (size_t i = 1; i < COUNT && SIZES[i] <= STAGES; i += is_short ? 4 : 1) {
    uint32_t stages = SIZES[i];
    cf_handle plan = {0};
    plan_of(&plan, stages, 0, 0, 0);
    wants(cf_build(&plan), CF_OK, "build", stages, 0);
    for (size_t j = 0; j < COUNT; ++j) {
      uint32_t room = SIZES[j], has = stages + room <= STAGES && 2 * room <= EDGES;
      cf_handle graph = {0};
      cf_reply reply = {0};
      if (wants(cf_graph_new(&plan, (uint16_t)room, &graph), has ? CF_OK : CF_ROOM, "graph_new", stages, room) == CF_OK)
        for (uint32_t k = 0; k <= room; ++k) {
          wants(cf_attach(&graph, CF_COMBINE, first, 2, 7, &reply), CF_OK, "attach", room, k);
          wants(reply.answer, k < room ? CF_AT : CF_STAGES_FULL, "what attach answers", room, k);
        }
      cf_free(&graph);
    }
    cf_free(&plan);
  }
}

/* The caller of another desk. */
static cf_handle stranger;

/* Closes a desk, whose callers met and were refused before, and which is refused as long as one is missing. */
static void close_all(cf_handle *callers, uint32_t n) {
  for (uint32_t k = 1; k < n; ++k) wants(cf_desk_meet(&callers[k], &callers[k - 1]), CF_OK, "desk_meet", n, k);
  wants(cf_desk_meet(&callers[0], &stranger), CF_OTHER_DESK, "desk_meet with a stranger", n, 0);
  wants(cf_close_begin(&callers[0]), CF_OK, "close_begin", n, 0);
  for (uint32_t k = 1; k < n; ++k) {
    wants(cf_close_end(&callers[0]), CF_NOT_ALL, "close_end", n, k);
    wants(cf_close_add(&callers[0], &stranger), CF_OTHER_DESK, "close_add of a stranger", n, k);
    wants(cf_close_add(&callers[0], &callers[k]), CF_OK, "close_add", n, k);
  }
  wants(cf_close_end(&callers[0]), CF_OK, "close_end", n, 0);
}

static void desk(cf_handle *plan, uint32_t n, uint32_t log, uint32_t calls, uint32_t room) {
  cf_handle callers[CALLERS + 1] = {{0}};
  uint32_t wanted = n == 0 || n > CALLERS                   ? CF_CALLERS
                    : log == 0                              ? CF_LOG
                    : calls == 0                            ? CF_CALLS
                    : 1 + room > STAGES || 2 * room > EDGES ? CF_ROOM
                                                            : CF_OK;
  uint32_t code = room == 0 ? cf_desk_open(plan, callers, n, (uint16_t)log, (uint16_t)calls)
                            : cf_desk_open_growing(plan, callers, n, (uint16_t)log, (uint16_t)calls, (uint16_t)room, 8);
  if (wants(code, wanted, "desk_open", log, calls) == CF_OK) {
    uint32_t done = 0;
    cf_reply reply;
    for (uint32_t k = 0; k < n; ++k)
      for (uint32_t own = 0; own < calls && done < log && own < 70; ++own, ++done)
        wants(cf_desk_complete(&callers[k], 0, (cf_value){CF_INT, 1}, &reply), CF_OK, "desk_complete", k, own);
    close_all(callers, n);
  }
  for (uint32_t k = 0; k < n; ++k) cf_free(&callers[k]);
}

static void desks(void) {
  cf_handle plan = {0};
  plan_of(&plan, 1, 0, 0, 0);
  wants(cf_build(&plan), CF_OK, "build", 1, 0);
  wants(cf_desk_open(&plan, &stranger, 1, 1, 1), CF_OK, "desk_open", 1, 1);
  for (uint32_t n = 0; n <= CALLERS + 1; ++n) {
    desk(&plan, n, 100, 10, 0);
    desk(&plan, n, 65535, 1, 3);
    desk(&plan, n, 1, 4097, 0);
  }
  for (size_t i = 0; i < COUNT; ++i)
    for (size_t j = 0; j < COUNT; j += is_short ? 6 : 1) {
      desk(&plan, 1, SIZES[i], SIZES[j], 0);
      if (SIZES[j] <= 4097) desk(&plan, 9, SIZES[i], SIZES[j], 2);
    }
  for (size_t i = 0; i < COUNT; ++i) desk(&plan, 2, 9, 9, SIZES[i]);
  cf_free(&stranger);
  cf_free(&plan);
}

/* Ledgers of each number of words, done one by one, in a row and read back, and past 65,535 of them; with each room, filled and grown. */
static void ledgers(void) {
  static uint64_t words[WORDS];
  cf_handle plan = {0}, ledger = {0}, again = {0};
  cf_event complete = {.call = CF_CALL_COMPLETE, .value = {CF_INT, 1}};
  cf_event attach = {.call = CF_CALL_ATTACH, .form = CF_COMBINE, .sources = 2, .function = 7};
  cf_reply reply;
  uint64_t attached;
  size_t n = 0;
  plan_of(&plan, 1, 0, 0, 0);
  wants(cf_build(&plan), CF_OK, "build", 1, 0);
  for (size_t k = 0; k < WORDS; ++k) wants(cf_word_of_event(&complete, &words[k]), CF_OK, "word_of_event", (uint32_t)k, 0);
  wants(cf_ledger_new(&plan, 0, &ledger), CF_OK, "ledger_new", 0, 0);
  for (size_t k = 0; k < WORDS; ++k) wants(cf_ledger_apply(&ledger, words[k], &reply, NULL, 0, &n), CF_OK, "ledger_apply", (uint32_t)k, 0);
  for (size_t i = 0; i <= COUNT; ++i) {
    size_t of = i == COUNT ? WORDS : SIZES[i], done = 0;
    wants(cf_ledger_restart(&ledger), CF_OK, "ledger_restart", (uint32_t)of, 0);
    wants(cf_ledger_apply_all(&ledger, words, of, &done), CF_OK, "ledger_apply_all", (uint32_t)of, 0);
    wants((uint32_t)done, (uint32_t)of, "what ledger_apply_all did", (uint32_t)of, 0);
    wants(cf_ledger_of(&plan, 0, words, of, &again, &done), CF_OK, "ledger_of", (uint32_t)of, 0);
    cf_free(&again);
  }
  cf_free(&ledger);
  wants(cf_word_of_event(&attach, &attached), CF_OK, "word_of_event", 7, 0);
  for (size_t i = 0; i < COUNT && SIZES[i] < STAGES; i += is_short ? 4 : 1) {
    uint32_t room = SIZES[i];
    wants(cf_ledger_new(&plan, (uint16_t)room, &ledger), CF_OK, "ledger_new", room, 0);
    for (uint32_t k = 0; k <= room; ++k)
      wants(cf_ledger_apply(&ledger, attached, &reply, NULL, 0, &n), k < room ? CF_OK : CF_NO_ROOM, "ledger_apply", room, k);
    wants(cf_ledger_grow(&ledger, 1), room + 2 <= STAGES ? CF_OK : CF_ROOM, "ledger_grow", room, 1);
    cf_free(&ledger);
  }
  cf_free(&plan);
}

/* Attaches stages until there is no room, and tells how many there are. */
static uint32_t filled(cf_handle *request, uint64_t attached) {
  cf_todo todo = {.moment = CF_NEVER};
  cf_reply reply;
  uint16_t stages = 0;
  while (cf_request_apply(request, attached, 0, &reply, NULL, 0, &todo) == CF_OK) continue;
  wants(cf_request_apply(request, attached, 0, &reply, NULL, 0, &todo), CF_NO_ROOM, "request_apply", 0, 0);
  wants(cf_ledger_stages(request, &stages), CF_OK, "ledger_stages", 0, 0);
  return stages;
}

/* A request of a plan of so many stages and edges, with so much room: it grows until it is full, each time as it should. */
static void request(uint32_t stages, uint32_t edges, uint32_t room) {
  static const uint8_t lanes[STAGES];
  const uint32_t most = STAGES < stages + (EDGES - edges) / 2 ? STAGES : stages + (EDGES - edges) / 2;
  const cf_request_sizes sizes = {.room = (uint16_t)room, .lanes = 1};
  cf_handle plan = {0}, it = {0};
  cf_event attach = {.call = CF_CALL_ATTACH, .form = CF_SOURCE, .function = CF_NO_FUNCTION};
  uint64_t attached;
  uint32_t there = stages + room;
  wants(cf_word_of_event(&attach, &attached), CF_OK, "word_of_event", 0, 0);
  plan_of(&plan, stages, edges, 0, 0);
  wants(cf_build(&plan), CF_OK, "build", stages, edges);
  wants(cf_request_new(&plan, &sizes, lanes, stages, &it), CF_OK, "request_new", stages, room);
  wants(filled(&it, attached), there, "the stages of a request", stages, room);
  while (there < most && wants(cf_request_grow(&it), CF_OK, "request_grow", there, edges) == CF_OK) {
    const uint32_t more = there < 16 ? 16 : there;
    there = there + more < most ? there + more : most;
    wants(filled(&it, attached), there, "the stages of a request that grew", stages, room);
  }
  wants(cf_request_grow(&it), CF_ROOM, "request_grow", there, edges);
  cf_free(&it);
  cf_free(&plan);
}

/* Requests of each room, and of each number of edges. */
static void requests(void) {
  for (size_t i = 0; i < COUNT && SIZES[i] < STAGES; i += is_short ? 4 : 1) request(1, 0, SIZES[i]);
  for (size_t i = 0; i < COUNT && SIZES[i] <= EDGES; i += is_short ? 6 : 1) request(65, SIZES[i], 0);
  for (uint32_t left = 0; left <= 4; ++left) request(65, EDGES - left, 0);
}

/* The one request of a store: its plan, and its row, into which one host puts. */
static struct {
  cf_handle plan;
  uint16_t stages, room;
  cf_note notes[STAGES];
  cf_noted row[4 * STAGES];
  size_t entries;
} stored;

/* How often each order came since a host began to be served. */
static uint32_t orders[CF_ORDER_TELL + 1];

/* A request of a source and so many applies of it, each with a function of its own. */
static void store(uint32_t applies, uint32_t room) {
  uint16_t at;
  plan_of(&stored.plan, 1, 0, 0, 0);
  for (uint32_t k = 1; k <= applies; ++k) {
    wants(cf_builder_stage(&stored.plan, CF_APPLY, zeros, 1, 0, &at), CF_OK, "builder_stage", applies, k);
    stored.notes[k].what = CF_NOTE_CALLS(k);
  }
  wants(cf_build(&stored.plan), CF_OK, "build", applies, 0);
  stored.stages = (uint16_t)(1 + applies);
  stored.room = (uint16_t)room;
  stored.entries = 0;
}

/* Puts a host's entries into the row. */
static uint32_t put(cf_handle *host, const cf_host_order *order) {
  cf_host_want given[8];
  size_t n = 0;
  wants(cf_host_put(host, order->request, given, 8, &n), CF_OK, "host_put", (uint32_t)n, 0);
  for (size_t k = 0; k < n; ++k) stored.row[stored.entries++] = given[k].entry;
  return cf_host_answered(host, 0, order->ticket, CF_STANDS);
}

/* Does an order of a host. Functions end at once. */
static uint32_t obey(cf_handle *host, const cf_host_order *order) {
  const cf_host_beat beat = {.session = 7, .count = 1};
  switch (order->kind) {
  case CF_ORDER_BEAT: return cf_host_beats(host, 0, order->ticket, 0, &beat, 1);
  case CF_ORDER_LIST:
  case CF_ORDER_NEWS: return cf_host_news(host, 0, order->ticket, 1, NULL, 0);
  case CF_ORDER_OPEN: return cf_host_opened(host, order->ticket, &stored.plan, stored.room, 0, stored.notes, stored.stages);
  case CF_ORDER_READ: return cf_host_read(host, 0, order->ticket, stored.row + order->place, stored.entries - order->place);
  case CF_ORDER_PUT: return put(host, order);
  case CF_ORDER_CLOSE: return cf_host_answered(host, 0, order->ticket, CF_CLOSED);
  case CF_ORDER_CALL: return cf_host_ended(host, order->ticket, CF_ENDS_GIVE, 0, 0);
  case CF_ORDER_TELL: return order->told == CF_TOLD_STANDS || order->told == CF_TOLD_CLOSED ? CF_OK : CF_UNFIT;
  default: return CF_OK;
  }
}

/* Does its orders until it sleeps. */
static void serve(cf_handle *host, uint32_t size) {
  cf_host_order order = {0};
  memset(orders, 0, sizeof orders);
  while (wants(cf_host_turn(host, 0, &order), CF_OK, "host_turn", size, 0) == CF_OK && order.kind != CF_ORDER_SLEEP) {
    ++orders[order.kind];
    wants(obey(host, &order), CF_OK, "the answer to an order", order.kind, size);
  }
}

/* A host that follows so many requests. */
static void host_new(cf_handle *host, uint32_t workers, uint64_t requests) {
  const cf_host_opening opening = {.session = 7, .workers = workers, .lease = 3000, .takes_all = 1};
  wants(cf_host_new(&opening, host), CF_OK, "host_new", workers, 0);
  for (uint64_t k = 0; k < requests; ++k) wants(cf_host_follow(host, k), CF_OK, "host_follow", (uint32_t)k, 0);
}

/* A host is told of so many sessions and so many requests, of which it follows some. */
static void host_of_lists(uint32_t size) {
  static cf_host_beat beats[8193];
  static cf_host_length lengths[8193];
  cf_handle host = {0};
  cf_host_order order = {0};
  for (uint32_t k = 0; k < size; ++k) beats[k].session = lengths[k].request = k;
  host_new(&host, 1, size < 1000 ? size : 1000);
  wants(cf_host_turn(&host, 0, &order), CF_OK, "host_turn", size, 0);
  wants(cf_host_beats(&host, 0, order.ticket, 0, beats, size), CF_OK, "host_beats", size, 0);
  wants(cf_host_turn(&host, 0, &order), CF_OK, "host_turn", size, 1);
  wants(cf_host_news(&host, 0, order.ticket, 1, lengths, size), CF_OK, "host_news", size, 0);
  cf_free(&host);
}

/* A host attaches so many stages by as many acts, for as many waiters, and ends the request. Another one reads the whole row. */
static void host_of_acts(uint32_t size) {
  const cf_host_acting attach = {.kind = CF_ACT_ATTACH, .form = CF_SOURCE, .function = CF_NO_FUNCTION};
  cf_handle host = {0}, reader = {0};
  uint64_t ticket;
  store(0, size);
  host_new(&host, 1, 1);
  serve(&host, size);
  for (uint32_t k = 0; k < size; ++k) wants(cf_host_act(&host, 0, 0, &attach, &ticket), CF_OK, "host_act", size, k);
  for (uint32_t k = 0; k <= size; ++k) wants(cf_host_wants(&host, 0, (uint16_t)k), CF_OK, "host_wants", size, k);
  wants(cf_host_end(&host, 0, 0, &ticket), CF_OK, "host_end", size, 0);
  serve(&host, size);
  wants(orders[CF_ORDER_TELL], size + 1, "what users are told", size, 0);
  wants((uint32_t)stored.entries, size, "the entries of a row", size, 0);
  host_new(&reader, 1, 1);
  serve(&reader, size);
  wants(orders[CF_ORDER_READ], 1, "the reads of a row", size, 0);
  cf_free(&host);
  cf_free(&reader);
  cf_free(&stored.plan);
}

/* A host runs so many functions at a time. */
static void host_of_calls(uint32_t size) {
  const cf_host_acting complete = {.kind = CF_ACT_COMPLETE};
  cf_handle host = {0};
  uint64_t ticket;
  store(size, 0);
  host_new(&host, size, 1);
  serve(&host, size);
  wants(cf_host_act(&host, 0, 0, &complete, &ticket), CF_OK, "host_act", size, 0);
  serve(&host, size);
  wants(orders[CF_ORDER_CALL], size, "the calls of functions", size, 0);
  cf_free(&host);
  cf_free(&stored.plan);
}

static void hosts(void) {
  for (size_t i = 0; i < COUNT; i += is_short ? 3 : 1) {
    if (SIZES[i] <= 8193) host_of_lists(SIZES[i]);
    if (SIZES[i] < STAGES) host_of_acts(SIZES[i]);
    if (SIZES[i] <= 1025) host_of_calls(SIZES[i]);
  }
}

static uint8_t text[TEXT + 2], report[TEXT];

static void run(size_t n, size_t room, uint32_t wanted, uint32_t number) {
  size_t length = 0;
  wants(cf_run_script(text, n, report, room, &length), wanted, "run_script", number, (uint32_t)room);
  if (wanted == CF_OK && length == 0) wants(0, 1, "the report's length", number, 0);
}

/* Scripts of each number of steps, of the greatest length, and with reports that don't fit. */
static void scripts(void) {
  for (size_t i = 0; i < COUNT; ++i) {
    size_t n = (size_t)sprintf((char *)text, "{\"cf\": 1, \"stages\": [{\"form\": \"source\"}], \"steps\": [");
    for (uint32_t k = 0; k < SIZES[i]; ++k) n += (size_t)sprintf((char *)text + n, "%s[\"outcome\",0]", k ? "," : "");
    n += (size_t)sprintf((char *)text + n, "]}");
    uint32_t wanted = SIZES[i] > STEPS ? CF_BAD_SCRIPT : CF_OK;
    run(n, sizeof report, wanted, SIZES[i]);
    run(n, 5, wanted, SIZES[i]);
    run(n, 0, wanted, SIZES[i]);
    if (i % (is_short ? 16 : 4) == 0) {
      memset(text + n, ' ', TEXT + 1 - n);
      run(TEXT - 1, sizeof report, wanted, SIZES[i]);
      run(TEXT, sizeof report, wanted, SIZES[i]);
      run(TEXT + 1, sizeof report, CF_BAD_SCRIPT, SIZES[i]);
    }
  }
}

int main(int n, char **words) {
  is_short = n > 1 && strcmp(words[1], "short") == 0;
  builders();
  plans();
  graphs();
  desks();
  ledgers();
  requests();
  hosts();
  scripts();
  printf("%ld of %ld calls answered otherwise\n", wrong, made);
  return wrong != 0;
}
