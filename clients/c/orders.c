/* A shop that takes orders: for each it asks for stock, price and address, each with a time limit and a fallback, asks a second
 * supplier of prices where the first is slow, and asks once more where a price is refused. One graph serves all orders, started
 * again for each. Moments are simulated, so it prints the same each time. Every code is checked, and all is freed at the end. */
#include "cf.h"
#include <stdio.h>

enum { WORKER = 1, HEDGE_AT = 20, LAST_MOMENT = 100, NEVER = 1000, FEE_HOME = 7, LIST_PRICE = 30, STOCK_SEEN = 1 };
enum { NO_STOCK = 1, UNREACHABLE = 2, REFUSED = 3 };

/* The stages of an order, by the numbers that they get in this order. A stage links to lower ones alone: PRICE to PRICE_AGAIN. */
enum { STOCK, PRICE_A, PRICE_B, PRICE_AGAIN, ADDRESS, SOURCES };
enum { STOCK_OR = SOURCES, PRICE_ANY, PRICE, PRICE_OR, ADDRESS_OR, COST, ORDER, RECEIPT, STAGES };
static const char *const names[SOURCES] = {"stock", "price A", "price B", "the retry", "address"};

/* A supplier's answer: how long after it is asked, and the value, or the fault where that isn't 0. */
struct supply {
  uint32_t after, fault;
  int32_t value;
};
struct order {
  const char *name;
  int32_t count;
  uint32_t cancelled_at;
  struct supply supplies[SOURCES];
};

/* `due`: when a supplier that was asked answers. */
struct shop {
  cf_handle plan, graph;
  const struct order *order;
  uint32_t now, due[SOURCES];
};

static uint32_t said(const char *call, uint32_t code) {
  fprintf(stderr, "%s: answered %u\n", call, (unsigned)code);
  return code;
}
#define TRY(call)                                                                                                                          \
  do {                                                                                                                                     \
    uint32_t code_ = (call);                                                                                                               \
    if (code_ != CF_OK) return said(#call, code_);                                                                                         \
  } while (0)

static void ask(struct shop *shop, uint16_t source) { shop->due[source] = shop->now + shop->order->supplies[source].after; }

/* ---- Functions of stages ---- */

static cf_answer give(int32_t number) { return (cf_answer){.kind = CF_GIVE, .value = {CF_INT, number}}; }

static cf_answer fallback(struct shop *shop, const cf_args *args, const char *what, int32_t number) {
  printf(
      "%4u  no %s (%s): %d instead\n", (unsigned)shop->now, what, args->outcome.kind == CF_TIMED_OUT ? "timed out" : "failed", (int)number);
  return give(number);
}
static cf_answer stock_seen(struct shop *shop, const cf_args *args) { return fallback(shop, args, "stock", STOCK_SEEN); }
static cf_answer list_price(struct shop *shop, const cf_args *args) { return fallback(shop, args, "price", LIST_PRICE); }
static cf_answer pick_up(struct shop *shop, const cf_args *args) { return fallback(shop, args, "address", 0); }

static cf_answer price_again(struct shop *shop, const cf_args *args) {
  printf("%4u  price failed with %u: asks again\n", (unsigned)shop->now, (unsigned)args->outcome.code);
  ask(shop, PRICE_AGAIN);
  return (cf_answer){.kind = CF_LINK, .stage = PRICE_AGAIN};
}

static cf_answer cost(struct shop *shop, const cf_args *args) {
  if (args->first.number < shop->order->count) return (cf_answer){.kind = CF_THROW, .code = NO_STOCK};
  return give(shop->order->count * args->second.number);
}
static cf_answer total(struct shop *shop, const cf_args *args) {
  (void)shop;
  return give(args->first.number + (args->second.number == 0 ? 0 : FEE_HOME));
}
static cf_answer receipt(struct shop *shop, const cf_args *args) {
  const cf_outcome *got = &args->outcome;
  printf("%4u  %s: ", (unsigned)shop->now, shop->order->name);
  if (got->kind == CF_VALUE) printf("to pay %d\n", (int)got->value.number);
  else if (got->kind == CF_CANCELLED) printf("cancelled\n");
  else printf("refused, fault %u%s\n", (unsigned)got->code, got->wrapped ? " (from an earlier stage)" : "");
  return (cf_answer){.kind = CF_GIVE};
}

enum { F_STOCK_SEEN, F_PRICE_AGAIN, F_LIST_PRICE, F_PICK_UP, F_COST, F_TOTAL, F_RECEIPT };
static cf_answer (*const functions[])(struct shop *, const cf_args *) = {
    stock_seen, price_again, list_price, pick_up, cost, total, receipt};

/* ---- The plan ---- */

static const struct {
  uint32_t form;
  size_t n;
  uint16_t of[2];
  uint32_t function, limit;
} stages[STAGES] = {
    [STOCK] = {CF_SOURCE, 0, {0}, CF_NO_FUNCTION, 50},
    [PRICE_A] = {CF_SOURCE, 0, {0}, CF_NO_FUNCTION, 0},
    [PRICE_B] = {CF_SOURCE, 0, {0}, CF_NO_FUNCTION, 0},
    [PRICE_AGAIN] = {CF_SOURCE, 0, {0}, CF_NO_FUNCTION, 0},
    [ADDRESS] = {CF_SOURCE, 0, {0}, CF_NO_FUNCTION, 40},
    [STOCK_OR] = {CF_EXCEPTIONALLY, 1, {STOCK}, F_STOCK_SEEN, 0},
    [PRICE_ANY] = {CF_ANY_OF, 2, {PRICE_A, PRICE_B}, CF_NO_FUNCTION, 0},
    [PRICE] = {CF_EXCEPTIONALLY_COMPOSE, 1, {PRICE_ANY}, F_PRICE_AGAIN, 60},
    [PRICE_OR] = {CF_EXCEPTIONALLY, 1, {PRICE}, F_LIST_PRICE, 0},
    [ADDRESS_OR] = {CF_EXCEPTIONALLY, 1, {ADDRESS}, F_PICK_UP, 0},
    [COST] = {CF_COMBINE, 2, {STOCK_OR, PRICE_OR}, F_COST, 0},
    [ORDER] = {CF_COMBINE, 2, {COST, ADDRESS_OR}, F_TOTAL, 0},
    [RECEIPT] = {CF_WHEN_COMPLETE, 1, {ORDER}, F_RECEIPT, 0},
};

static uint32_t open_shop(struct shop *shop) {
  TRY(cf_builder_new(&shop->plan, STAGES, 0));
  for (size_t i = 0; i < STAGES; i++) {
    uint16_t number;
    TRY(cf_builder_stage(&shop->plan, stages[i].form, stages[i].of, stages[i].n, stages[i].function, &number));
    if (number != i) return said("the stage's number", CF_NO_STAGE);
    if (stages[i].limit != 0) TRY(cf_builder_limit(&shop->plan, number, stages[i].limit, CF_TIMEOUT, 0, (cf_value){CF_NIL, 0}));
  }
  TRY(cf_build(&shop->plan));
  TRY(cf_graph_new(&shop->plan, 0, &shop->graph));
  return CF_OK;
}

/* ---- An order ---- */

/* Hands in what suppliers answer at this moment. */
static uint32_t hand_in(struct shop *shop) {
  for (uint16_t source = 0; source < SOURCES; source++) {
    const struct supply *supply = &shop->order->supplies[source];
    cf_reply reply;
    if (shop->due[source] != shop->now) continue;
    if (supply->fault != 0) TRY(cf_fail(&shop->graph, source, supply->fault, &reply));
    else TRY(cf_complete(&shop->graph, source, (cf_value){CF_INT, supply->value}, &reply));
    printf("%4u  %s answers%s\n", (unsigned)shop->now, names[source], reply.answer ? "" : ", too late");
  }
  return CF_OK;
}

/* The worker: claims the lowest ready stage, calls its function, and finishes it, until none is ready. */
static uint32_t work(struct shop *shop) {
  uint16_t stage, function;
  uint32_t code;
  while ((code = cf_lowest_ready(&shop->graph, &stage)) == CF_OK) {
    cf_reply reply;
    TRY(cf_function(&shop->graph, stage, &function));
    TRY(cf_claim(&shop->graph, WORKER, stage, &reply));
    if (reply.answer != CF_GRANTED) return said("a ready stage's claim", reply.answer);
    cf_answer answer = functions[function](shop, &reply.args);
    TRY(cf_finish(&shop->graph, WORKER, stage, answer, &reply));
    if (reply.answer != CF_WON) return said("a claimed stage's finish", reply.answer);
  }
  return code == CF_NOTHING ? CF_OK : said("cf_lowest_ready", code);
}

/* Asks the second supplier of prices if the first is slow, and cancels who lost. */
static uint32_t hedge(struct shop *shop) {
  cf_outcome any;
  TRY(cf_get(&shop->graph, PRICE_ANY, &any));
  if (any.kind == CF_PENDING && shop->now == HEDGE_AT) ask(shop, PRICE_B);
  for (uint16_t stage = PRICE_A; any.kind != CF_PENDING && stage <= PRICE_B; stage++) {
    cf_outcome outcome;
    cf_reply reply;
    TRY(cf_get(&shop->graph, stage, &outcome));
    if (outcome.kind != CF_PENDING) continue;
    TRY(cf_cancel(&shop->graph, stage, &reply));
    printf("%4u  %s lost: %s\n", (unsigned)shop->now, names[stage], reply.answer ? "cancelled" : "not cancelled");
  }
  return CF_OK;
}

static uint32_t moment(struct shop *shop) {
  cf_reply reply;
  TRY(hand_in(shop));
  if (shop->now == shop->order->cancelled_at) TRY(cf_cancel(&shop->graph, ORDER, &reply));
  TRY(cf_tick(&shop->graph, shop->now, &reply));
  if (reply.answer != CF_FIRED) return said("the moment", reply.answer);
  if (reply.number != 0) printf("%4u  time limits: %u\n", (unsigned)shop->now, (unsigned)reply.number);
  TRY(work(shop));
  return hedge(shop);
}

static uint32_t serve(struct shop *shop, const struct order *order) {
  cf_outcome outcome = {0};
  uint64_t turns;
  printf("%s, %d pieces\n", order->name, (int)order->count);
  TRY(cf_restart(&shop->graph));
  shop->order = order;
  shop->now = 0;
  for (uint16_t source = 0; source < SOURCES; source++) shop->due[source] = NEVER;
  ask(shop, STOCK);
  ask(shop, PRICE_A);
  ask(shop, ADDRESS);
  for (; shop->now <= LAST_MOMENT && outcome.kind == CF_PENDING; shop->now++) {
    TRY(moment(shop));
    TRY(cf_get(&shop->graph, RECEIPT, &outcome));
  }
  TRY(cf_turns(&shop->graph, &turns));
  printf("      %s after %u turns\n", outcome.kind == CF_PENDING ? "open" : "done", (unsigned)turns);
  return CF_OK;
}

/* The suppliers by their stages; a fault or a value of one that isn't asked is 0. */
static const struct order orders[] = {
    {"tea", 2, NEVER, {{5, 0, 9}, {7, 0, 20}, {0, 0, 0}, {0, 0, 0}, {9, 0, 8001}}},
    {"ink", 1, NEVER, {{5, 0, 9}, {35, 0, 20}, {8, 0, 22}, {0, 0, 0}, {38, 0, 8002}}},
    {"nails", 3, NEVER, {{5, 0, 9}, {7, REFUSED, 0}, {0, 0, 0}, {10, 0, 4}, {9, 0, 8003}}},
    {"soap", 1, NEVER, {{NEVER, 0, 0}, {NEVER, 0, 0}, {NEVER, 0, 0}, {0, 0, 0}, {3, UNREACHABLE, 0}}},
    {"rope", 4, NEVER, {{5, 0, 3}, {7, REFUSED, 0}, {0, 0, 0}, {2, REFUSED, 0}, {9, 0, 8005}}},
    {"salt", 1, 6, {{5, 0, 9}, {7, 0, 20}, {0, 0, 0}, {0, 0, 0}, {9, 0, 8006}}},
};

int main(void) {
  struct shop shop = {0};
  uint32_t code = open_shop(&shop);
  for (size_t i = 0; code == CF_OK && i < sizeof orders / sizeof orders[0]; i++) code = serve(&shop, &orders[i]);
  cf_free(&shop.graph);
  cf_free(&shop.plan);
  return code == CF_OK ? 0 : 1;
}
