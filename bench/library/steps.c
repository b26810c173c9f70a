/* What it takes to settle graphs and desks from C by one call a step, beside several: bench/library/run builds and runs it. A line for each, as
 * bench/library/calls.c prints them; all ways of one kind take their rounds in turn. Where a name has a comma, the way stands behind it, and
 * crates/cf_bench prints what stands in front of it, where the product has that.
 *
 *   from scratch ..   a plan built, a graph of it opened, and settled by cf_work; a stage
 *   per request ..    a graph that is there restarted, its source completed, and settled: the lowest ready stage asked for, claimed and
 *                     finished, a call each; by cf_next; by cf_work, which calls the function; by cf_round, so many tasks at once; in a
 *                     sweep, by cf_sweep_next. The product does it by one call of work. An allOf is settled by the completions of its
 *                     sources. A stage
 *   ledger ..         a ledger that is there started again, its source completed, and settled: the next ready stage asked for, claimed and
 *                     finished by a word each; by cf_ledger_step; or its row of words done again by one call. A stage
 *   ledger            a ledger of a chain of 16 opened of a plan that is there, and freed; or one that is there started again; all of it
 *   word              a word of that chain, of which all are known: by cf_ledger_apply to a new ledger, or to one that was started again; by
 *                     cf_apply to a graph
 *   desk chain        a chain on a new desk settled by its one caller: by ready, claim and finish, or by cf_desk_next; a stage
 *   desk 1            a desk of one caller opened of a plan that is there, its chain of 16 settled so, and closed; all of it
 *   race 1            a stage of 4,095 completed by a desk's one caller: by a call each, or by cf_desk_complete_many */
#define _POSIX_C_SOURCE 200809L
#include "times.h"

enum { STAGES = 512, RACED = 4095, SMALL = 16, SMALL_ROOM = 64, TASKS = 16 };
enum { ROUNDS = 300, SETTLED_ROUNDS = 2000, SMALL_ROUNDS = MOST_ROUNDS };

/* ---- Graphs ---- */

static void by_three(cf_handle *graph) {
  cf_reply reply = {0};
  uint16_t stage;
  while (cf_lowest_ready(graph, &stage) == CF_OK) {
    MUST(cf_claim(graph, ME, stage, &reply));
    const cf_answer given = answer(&reply.args);
    MUST(cf_finish_with(graph, ME, stage, &given, &reply));
  }
  must_be(reply.answer == CF_WON, "a finish");
}

static void by_next(cf_handle *graph) {
  cf_task task = {0};
  while (cf_next(graph, ME, &task) == CF_OK) task.answer = answer(&task.args);
  must_be(!task.held && task.finished == CF_WON, "a finish");
}

static void one_more(void *context, const cf_task *task, cf_answer *given) {
  (void)context;
  *given = answer(&task->args);
}

static void by_work(cf_handle *graph) {
  static void (*const functions[])(void *, const cf_task *, cf_answer *) = {one_more};
  uint32_t calls;
  MUST(cf_work(graph, ME, functions, 1, NULL, &calls));
  must_be(calls == STAGES - 1, "the calls of functions");
}

static void by_round(cf_handle *graph) {
  cf_task tasks[TASKS] = {{0}};
  while (cf_round(graph, ME, tasks, TASKS) == CF_OK)
    for (int at = 0; at < TASKS && tasks[at].held; at++) tasks[at].answer = answer(&tasks[at].args);
  must_be(!tasks[0].held && tasks[0].finished == CF_WON, "a finish");
}

static void by_sweep(cf_handle *graph) {
  cf_task task = {0};
  MUST(cf_sweep_begin(graph));
  while (cf_sweep_next(graph, &task) == CF_OK) task.answer = answer(&task.args);
  must_be(!task.held && task.finished == CF_WON, "a finish");
  MUST(cf_sweep_end(graph));
}

enum { WAYS = 5 };
static void (*const ways[WAYS])(cf_handle *graph) = {by_three, by_next, by_work, by_round, by_sweep};

static struct times chain[WAYS] = {{.name = "per request chain 512"}, {.name = "per request chain 512, by cf_next"},
    {.name = "per request chain 512, by cf_work"}, {.name = "per request chain 512, by cf_round"},
    {.name = "per request chain 512, by cf_sweep_next"}};
static struct times fan_out[WAYS] = {{.name = "per request fan-out 512"}, {.name = "per request fan-out 512, by cf_next"},
    {.name = "per request fan-out 512, by cf_work"}, {.name = "per request fan-out 512, by cf_round"},
    {.name = "per request fan-out 512, by cf_sweep_next"}};
static struct times all_of = {.name = "per request allOf 512"};

static void must_hold(cf_handle *graph, uint16_t stage, uint32_t kind, int32_t number) {
  cf_outcome outcome;
  MUST(cf_get(graph, stage, &outcome));
  must_be(outcome.kind == CF_VALUE && outcome.value.kind == kind && outcome.value.number == number, "an outcome");
}

static struct times scratch_chain = {.name = "from scratch chain 512"}, scratch_fan_out = {.name = "from scratch fan-out 512"};

static void time_scratch(enum shape shape, struct times *times) {
  for (int i = 0; i < SETTLED_ROUNDS; i++) {
    cf_handle graph = {0};
    cf_reply reply;
    uint64_t since = moment();
    cf_handle plan = plan_of(shape, STAGES);
    MUST(cf_graph_new(&plan, 0, &graph));
    MUST(cf_complete(&graph, 0, number(1), &reply));
    by_work(&graph);
    add(times, since);
    cf_free(&graph);
    cf_free(&plan);
  }
}

/* A chain's last stage holds one more for each stage below, a fan-out's one more than the source. */
static void time_ways(enum shape shape, struct times times[WAYS]) {
  cf_handle plan = plan_of(shape, STAGES), graph = {0};
  cf_reply reply;
  MUST(cf_graph_new(&plan, 0, &graph));
  for (int i = 0; i < WAYS * SETTLED_ROUNDS; i++) {
    uint64_t since = moment();
    MUST(cf_restart(&graph));
    MUST(cf_complete(&graph, 0, number(1), &reply));
    ways[i % WAYS](&graph);
    add(&times[i % WAYS], since);
    must_hold(&graph, STAGES - 1, CF_INT, shape == CHAIN ? STAGES : 2);
  }
  cf_free(&graph);
  cf_free(&plan);
}

static void time_all_of(void) {
  cf_handle plan = plan_of(ALL_OF, STAGES), graph = {0};
  cf_reply reply;
  MUST(cf_graph_new(&plan, 0, &graph));
  for (int i = 0; i < SETTLED_ROUNDS; i++) {
    uint64_t since = moment();
    MUST(cf_restart(&graph));
    for (uint16_t at = 0; at < STAGES - 1; at++) MUST(cf_complete(&graph, at, number(at), &reply));
    add(&all_of, since);
    must_hold(&graph, STAGES - 1, CF_NIL, 0);
  }
  cf_free(&graph);
  cf_free(&plan);
}

/* ---- Ledgers ---- */

enum { LEDGER_WAYS = 3, MOST_WORDS = 2 * STAGES };

static uint64_t word_of(cf_event event) {
  uint64_t word = 0;
  event.who = ME;
  MUST(cf_word_of_event(&event, &word));
  return word;
}

static void apply(cf_handle *ledger, cf_event event, cf_reply *reply) {
  cf_news news[4];
  size_t n;
  MUST(cf_ledger_apply(ledger, word_of(event), reply, news, 4, &n));
}

static void by_words(cf_handle *ledger) {
  cf_reply reply = {0};
  uint16_t stage = 0;
  while (cf_ledger_ready(ledger, stage, &stage) == CF_OK) {
    apply(ledger, (cf_event){.call = CF_CALL_CLAIM, .stage = stage}, &reply);
    apply(ledger, (cf_event){.call = CF_CALL_FINISH, .stage = stage, .answer = answer(&reply.args)}, &reply);
  }
  must_be(reply.answer == CF_WON, "a finish");
}

static void by_ledger_step(cf_handle *ledger) {
  cf_step step = {.who = ME};
  cf_task task = {0};
  cf_news news[4];
  size_t n;
  while (cf_ledger_step(ledger, &step, &task, news, 4, &n) == CF_OK) {
    step.from = task.stage;
    task.answer = answer(&task.args);
  }
  must_be(!task.held && task.finished == CF_WON, "a finish");
}

static struct times ledger_chain[LEDGER_WAYS] = {
    {.name = "ledger chain 512"}, {.name = "ledger chain 512, by cf_ledger_step"}, {.name = "ledger chain 512, by cf_ledger_apply_all"}};

/* The ways in turn; the last does the words that the first has written. */
static void time_ledgers(void) {
  static uint64_t words[MOST_WORDS];
  cf_handle plan = plan_of(CHAIN, STAGES), ledger = {0};
  size_t n = 0, done = 0;
  MUST(cf_ledger_new(&plan, 0, &ledger));
  for (int i = 0; i < LEDGER_WAYS * ROUNDS; i++) {
    cf_reply reply;
    cf_stage last;
    uint64_t since = moment();
    MUST(cf_ledger_restart(&ledger));
    if (i % LEDGER_WAYS == 2) {
      MUST(cf_ledger_apply_all(&ledger, words, n, &done));
    } else {
      apply(&ledger, (cf_event){.call = CF_CALL_COMPLETE, .value = number(1)}, &reply);
      (i % LEDGER_WAYS == 0 ? by_words : by_ledger_step)(&ledger);
    }
    add(&ledger_chain[i % LEDGER_WAYS], since);
    MUST(cf_ledger_stage(&ledger, STAGES - 1, &last));
    must_be(last.kind == CF_IS_SETTLED && last.outcome.value.number == STAGES, "a ledger's last stage");
    MUST(cf_ledger_words(&ledger, 0, words, MOST_WORDS, &n));
    must_be(n == 2 * STAGES - 1, "the words of a ledger");
  }
  cf_free(&ledger);
  cf_free(&plan);
}

enum { SMALL_WORDS = 2 * SMALL - 1 };
static struct times opened = {.name = "ledger, opened and freed"}, started = {.name = "ledger, started again"};
static struct times new_word = {.name = "word, of a new ledger"}, next_word = {.name = "word, of one that was started again"},
                    graph_word = {.name = "word, of a graph"};

static void apply_all(cf_handle *ledger, const uint64_t words[SMALL_WORDS], struct times *times) {
  cf_reply reply = {0};
  cf_news news[4];
  size_t n;
  uint64_t since = moment();
  for (int at = 0; at < SMALL_WORDS; at++) MUST(cf_ledger_apply(ledger, words[at], &reply, news, 4, &n));
  add(times, since);
  must_be(reply.answer == CF_WON && n == 1, "the last word");
}

static void time_small_ledgers(void) {
  uint64_t words[SMALL_WORDS];
  cf_handle plan = plan_of(CHAIN, SMALL), kept = {0}, graph = {0};
  cf_reply reply = {0};
  MUST(cf_ledger_new(&plan, 0, &kept));
  MUST(cf_graph_new(&plan, 0, &graph));
  words[0] = word_of((cf_event){.call = CF_CALL_COMPLETE, .value = number(1)});
  for (uint16_t stage = 1; stage < SMALL; stage++) {
    words[2 * stage - 1] = word_of((cf_event){.call = CF_CALL_CLAIM, .stage = stage});
    words[2 * stage] = word_of((cf_event){.call = CF_CALL_FINISH, .stage = stage, .answer = {.kind = CF_GIVE, .value = number(stage + 1)}});
  }
  for (int i = 0; i < SMALL_ROUNDS; i++) {
    cf_handle ledger = {0};
    uint64_t since = moment();
    MUST(cf_ledger_new(&plan, 0, &ledger));
    cf_free(&ledger);
    add(&opened, since);
    MUST(cf_ledger_new(&plan, 0, &ledger));
    apply_all(&ledger, words, &new_word);
    cf_free(&ledger);
    since = moment();
    MUST(cf_ledger_restart(&kept));
    add(&started, since);
    apply_all(&kept, words, &next_word);
    MUST(cf_restart(&graph));
    since = moment();
    for (int at = 0; at < SMALL_WORDS; at++) MUST(cf_apply(&graph, words[at], &reply));
    add(&graph_word, since);
    must_be(reply.answer == CF_WON, "the last word");
  }
  cf_free(&graph);
  cf_free(&kept);
  cf_free(&plan);
}

/* ---- Desks ---- */

enum { DESK_WAYS = 2 };
static struct times desk_chain[DESK_WAYS] = {{.name = "desk chain 512"}, {.name = "desk chain 512, by cf_desk_next"}},
                    small[DESK_WAYS] = {{.name = "desk 1"}, {.name = "desk 1, by cf_desk_next"}},
                    race[DESK_WAYS] = {{.name = "race 1"}, {.name = "race 1, by cf_desk_complete_many"}};

static void desk_by_three(cf_handle *caller) {
  cf_reply reply = {0};
  uint16_t stage;
  while (cf_desk_ready(caller, &stage) == CF_OK) {
    MUST(cf_desk_claim(caller, stage, &reply));
    const cf_answer given = answer(&reply.args);
    MUST(cf_desk_finish_with(caller, stage, &given, &reply));
  }
  must_be(reply.answer == CF_WON, "a finish");
}

static void desk_by_next(cf_handle *caller) {
  cf_task task = {0};
  while (cf_desk_next(caller, &task) == CF_OK) task.answer = answer(&task.args);
  must_be(!task.held && task.finished == CF_WON, "a finish");
}

static void (*const desk_ways[DESK_WAYS])(cf_handle *caller) = {desk_by_three, desk_by_next};

static void time_desk_chain(cf_handle *plan, int way) {
  cf_handle caller = {0};
  cf_reply reply;
  uint16_t events;
  MUST(cf_desk_open(plan, &caller, 1, 3 * STAGES, 3 * STAGES));
  uint64_t since = moment();
  MUST(cf_desk_complete(&caller, 0, number(1), &reply));
  desk_ways[way](&caller);
  add(&desk_chain[way], since);
  MUST(cf_desk_seen(&caller, &events));
  must_be(events == 2 * STAGES - 1, "the events of a desk");
  cf_free(&caller);
}

static void time_small(cf_handle *plan, int way) {
  cf_handle desk = {0};
  cf_reply reply;
  uint16_t events;
  uint64_t since = moment();
  MUST(cf_desk_open(plan, &desk, 1, SMALL_ROOM, SMALL_ROOM));
  MUST(cf_desk_complete(&desk, 0, number(0), &reply));
  desk_ways[way](&desk);
  MUST(cf_close_begin(&desk));
  MUST(cf_close_end(&desk));
  MUST(cf_closed_events(&desk, &events));
  cf_free(&desk);
  add(&small[way], since);
  must_be(events == 2 * SMALL - 1, "the events of a desk");
}

static void time_race(cf_handle *plan, int way) {
  static cf_given given[RACED];
  cf_handle caller = {0};
  cf_reply reply = {0};
  cf_outcome last;
  size_t done;
  for (uint16_t i = 0; i < RACED; i++) given[i] = (cf_given){.stage = i, .value = number(i)};
  MUST(cf_desk_open(plan, &caller, 1, RACED, RACED + 1));
  uint64_t since = moment();
  if (way == 0)
    for (uint16_t i = 0; i < RACED; i++) MUST(cf_desk_complete(&caller, i, number(i), &reply));
  else MUST(cf_desk_complete_many(&caller, given, RACED, &done));
  add(&race[way], since);
  MUST(cf_desk_read(&caller, RACED - 1, &last));
  must_be(last.kind == CF_VALUE && last.value.number == RACED - 1, "a completion");
  cf_free(&caller);
}

static void time_rounds(void (*round)(cf_handle *plan, int way), enum shape shape, uint16_t stages, int rounds) {
  cf_handle plan = plan_of(shape, stages);
  for (int i = 0; i < rounds; i++) round(&plan, i % DESK_WAYS);
  cf_free(&plan);
}

static void show_all(struct times *times, int count, uint64_t parts) {
  for (int i = 0; i < count; i++) show(&times[i], parts);
}

int main(void) {
  time_scratch(CHAIN, &scratch_chain);
  time_scratch(FAN_OUT, &scratch_fan_out);
  time_ways(CHAIN, chain);
  time_ways(FAN_OUT, fan_out);
  time_all_of();
  time_ledgers();
  time_small_ledgers();
  time_rounds(time_desk_chain, CHAIN, STAGES, DESK_WAYS * ROUNDS);
  time_rounds(time_small, CHAIN, SMALL, SMALL_ROUNDS);
  time_rounds(time_race, SOURCES, RACED, DESK_WAYS * ROUNDS);
  show(&scratch_chain, STAGES);
  show(&scratch_fan_out, STAGES);
  show_all(chain, WAYS, STAGES);
  show_all(fan_out, WAYS, STAGES);
  show(&all_of, STAGES);
  show_all(ledger_chain, LEDGER_WAYS, STAGES);
  show(&opened, 1);
  show(&started, 1);
  show(&new_word, SMALL_WORDS);
  show(&next_word, SMALL_WORDS);
  show(&graph_word, SMALL_WORDS);
  show_all(desk_chain, DESK_WAYS, STAGES);
  show_all(small, DESK_WAYS, 1);
  show_all(race, DESK_WAYS, RACED);
  return 0;
}
