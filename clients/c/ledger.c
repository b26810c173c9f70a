/* One request as a ledger: each call is a word, and each word tells which stages it changed, so that whoever waits for one is woken. The
 * words are kept, and a ledger is made again of them, which says the same. Then what a ledger refuses, and that it stays then. */
#include "cf.h"
#include "rows.h"
#include <stdio.h>
#include <string.h>

enum { ME = 1, STOCK = 0, PRICE = 1, TOTAL = 2, LATE = 3, STAGES = 4, WORDS = 16, BUDGET = 30 };
#define TOO_LATE UINT32_MAX

static const char *const names[] = {"stock", "price", "total", "receipt"};

static uint64_t word_of(cf_event event) {
  uint64_t word = 0;
  event.who = ME;
  row("word", cf_word_of(event, &word), CF_OK);
  return word;
}

static uint64_t complete(uint16_t stage, int32_t number) {
  return word_of((cf_event){.call = CF_CALL_COMPLETE, .stage = stage, .value = {CF_INT, number}});
}

static uint64_t claim(uint16_t stage) { return word_of((cf_event){.call = CF_CALL_CLAIM, .stage = stage}); }

static uint64_t finish(uint16_t stage, int32_t number) {
  return word_of((cf_event){.call = CF_CALL_FINISH, .stage = stage, .answer = {.kind = CF_GIVE, .value = {CF_INT, number}}});
}

static uint64_t attach(uint16_t source) {
  return word_of((cf_event){.call = CF_CALL_ATTACH, .form = CF_APPLY, .sources = 1, .first = source, .function = 7});
}

/* Two sources and their sum, and a limit on the price. */
static void build(cf_handle *plan) {
  uint16_t stage;
  row("builder", cf_builder_new(plan, 0, 0), CF_OK);
  row("stock", cf_builder_stage(plan, CF_SOURCE, NULL, 0, CF_NO_FUNCTION, &stage), CF_OK);
  row("price", cf_builder_stage(plan, CF_SOURCE, NULL, 0, CF_NO_FUNCTION, &stage), CF_OK);
  row("total", cf_builder_stage(plan, CF_COMBINE, (uint16_t[]){STOCK, PRICE}, 2, 0, &stage), CF_OK);
  row("limit", cf_builder_limit(plan, PRICE, BUDGET, CF_TIMEOUT, TOO_LATE, (cf_value){CF_NIL, 0}), CF_OK);
  row("build", cf_build(plan), CF_OK);
}

static void print_stage(uint16_t stage, const cf_stage *now) {
  static const char *const kinds[] = {"pending", "ready", "claimed", "linked", "settled"};
  printf("  %s is %s", names[stage], kinds[now->kind]);
  if (now->who != CF_NOBODY) printf(" by %u", now->who);
  if (now->kind == CF_IS_SETTLED) {
    uint8_t text[34];
    size_t length;
    row("text", cf_outcome_text(now->outcome, text, sizeof text, &length), CF_OK);
    printf(": %.*s", (int)length, text);
  }
  printf("\n");
}

/* Does a word, and prints what it changed. */
static void apply(cf_handle *ledger, const char *what, uint64_t word) {
  cf_reply reply;
  cf_news news[STAGES];
  size_t n;
  row(what, cf_ledger_apply(ledger, word, &reply, news, STAGES, &n), CF_OK);
  printf("%s\n", what);
  for (size_t i = 0; i < n; i++) print_stage(news[i].stage, &news[i].now);
}

static void serve(cf_handle *ledger) {
  uint16_t ready, function;
  apply(ledger, "stock is 3", complete(STOCK, 3));
  apply(ledger, "price is 7", complete(PRICE, 7));
  row("total is ready", cf_ledger_ready(ledger, 0, &ready), CF_OK);
  holds("it is the lowest", ready == TOTAL);
  row("none above it", cf_ledger_ready(ledger, TOTAL + 1, &ready), CF_NOTHING);
  row("its function", cf_ledger_function(ledger, TOTAL, &function), CF_OK);
  row("a source has none", cf_ledger_function(ledger, STOCK, &function), CF_NOTHING);
  apply(ledger, "total is claimed", claim(TOTAL));
  apply(ledger, "total is finished with 21", finish(TOTAL, 21));
  apply(ledger, "price is 8, too late", complete(PRICE, 8));
}

/* There was no room for the receipt: some is made, and nothing else changes. */
static void grow(cf_handle *ledger) {
  cf_reply reply;
  cf_news news;
  size_t n = 99;
  uint16_t stages = 0;
  uint64_t word = attach(TOTAL);
  row("no room", cf_ledger_apply(ledger, word, &reply, &news, 1, &n), CF_NO_ROOM);
  holds("nothing is told then", n == 99);
  row("too much room", cf_ledger_grow(ledger, 4096), CF_ROOM);
  row("room for one", cf_ledger_grow(ledger, 1), CF_OK);
  row("stages", cf_ledger_stages(ledger, &stages), CF_OK);
  holds("there are 3", stages == LATE);
  apply(ledger, "a receipt is attached", word);
}

/* The words, and a ledger that is made of them. */
static void again(cf_handle *plan, cf_handle *ledger) {
  uint64_t words[WORDS], last = 0;
  uint16_t changed[STAGES];
  size_t n = 0, one = 0, place = 99;
  cf_handle copy = {0};
  row("words", cf_ledger_words(ledger, 0, words, WORDS, &n), CF_OK);
  printf("%zu words\n", n);
  row("the last word", cf_ledger_words(ledger, n - 1, &last, 1, &one), CF_OK);
  holds("is one", one == 1 && last == words[n - 1]);
  row("past the end", cf_ledger_words(ledger, n + 1, NULL, 0, &one), CF_OK);
  holds("is none", one == 0);
  row("what the second word changed", cf_ledger_news(ledger, 1, changed, STAGES, &one), CF_OK);
  holds("is price and total", one == 2 && changed[0] == PRICE && changed[1] == TOTAL);
  row("a word that isn't there", cf_ledger_news(ledger, n, changed, STAGES, &one), CF_NOTHING);

  row("no room for the receipt", cf_ledger_of(plan, 0, words, n, &copy, &place), CF_NO_ROOM);
  holds("that is the last word", place == n - 1);
  row("a copy", cf_ledger_of(plan, 1, words, n, &copy, &place), CF_OK);
  for (uint16_t stage = 0; stage < STAGES; stage++) {
    cf_stage ours, theirs;
    row("a stage", cf_ledger_stage(ledger, stage, &ours), CF_OK);
    row("the same of the copy", cf_ledger_stage(&copy, stage, &theirs), CF_OK);
    holds("they are the same",
        ours.kind == theirs.kind && ours.who == theirs.who && ours.outcome.value.number == theirs.outcome.value.number);
  }
  row("a full handle", cf_ledger_of(plan, 1, words, n, &copy, &place), CF_FULL);
  cf_free(&copy);
  place = 99;
  row("words that are none", cf_ledger_of(plan, 1, (uint64_t[]){words[0], 0}, 2, &copy, &place), CF_NO_WORD);
  holds("the second", place == 1);
  row("a stage that isn't there", cf_ledger_of(plan, 1, (uint64_t[]){claim(LATE)}, 1, &copy, &place), CF_NO_STAGE);
  holds("the first", place == 0);
  row("too much room", cf_ledger_of(plan, 4096, words, n, &copy, &place), CF_ROOM);
  holds("no place is told", place == 0);
}

static void refused(cf_handle *plan, cf_handle *ledger) {
  cf_handle empty = {0};
  cf_reply reply = {.answer = 77};
  cf_stage now;
  uint16_t number;
  size_t n = 99;
  row("a null ledger", cf_ledger_words(NULL, 0, NULL, 0, &n), CF_NULL);
  row("null news with room", cf_ledger_apply(ledger, claim(0), &reply, NULL, 1, &n), CF_NULL);
  row("no word", cf_ledger_apply(ledger, 0, &reply, NULL, 0, &n), CF_NO_WORD);
  row("no stage", cf_ledger_apply(ledger, claim(STAGES), &reply, NULL, 0, &n), CF_NO_STAGE);
  holds("the reply stays", reply.answer == 77 && n == 99);
  row("no stage to be told", cf_ledger_stage(ledger, STAGES, &now), CF_NO_STAGE);
  row("nor its function", cf_ledger_function(ledger, STAGES, &number), CF_NO_STAGE);
  row("an empty handle", cf_ledger_stages(&empty, &number), CF_EMPTY);
  row("a plan is no ledger", cf_ledger_ready(plan, 0, &number), CF_WRONG_KIND);
  row("a ledger is no graph", cf_stages(ledger, &number), CF_WRONG_KIND);
  row("a ledger is no plan", cf_ledger_new(ledger, 0, &empty), CF_WRONG_KIND);
  row("a full handle", cf_ledger_new(plan, 0, ledger), CF_FULL);
  row("too much room", cf_ledger_new(plan, 4096, &empty), CF_ROOM);
  row("a word with no room for its news", cf_ledger_apply(ledger, claim(LATE), &reply, NULL, 0, &n), CF_OK);
  holds("one stage changed", n == 1 && reply.answer == CF_GRANTED);
}

/* The same plan again, whose price isn't told within its limit. */
static void late(cf_handle *ledger) {
  row("restart", cf_ledger_restart(ledger), CF_OK);
  apply(ledger, "stock is 4", complete(STOCK, 4));
  apply(ledger, "the price is late", word_of((cf_event){.call = CF_CALL_TICK, .now = BUDGET}));
}

int main(void) {
  cf_handle plan = {0}, ledger = {0};
  build(&plan);
  row("ledger", cf_ledger_new(&plan, 0, &ledger), CF_OK);
  serve(&ledger);
  grow(&ledger);
  again(&plan, &ledger);
  refused(&plan, &ledger);
  late(&ledger);
  cf_free(&plan);
  cf_free(&ledger);
  return end_rows();
}
