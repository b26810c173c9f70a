/* Two sessions of one row in a store. A put that nobody answered is given up, and is found later. The store is a row in memory here, and
 * does what an engine has to do. */
#include "cf.h"
#include <stdio.h>
#include <stdlib.h>
#include <string.h>

enum { PRICE, TOTAL, STAGES };
enum { DOUBLE = 0, ENTRIES = 16, COUNT_BITS = 23 };

#define DO(call)                                                                                                                           \
  do {                                                                                                                                     \
    if ((call) != CF_OK) {                                                                                                                 \
      fprintf(stderr, "%s\n", #call);                                                                                                      \
      exit(1);                                                                                                                             \
    }                                                                                                                                      \
  } while (0)

/* ---- The store: a group of entries stands whole or not at all, and only where nothing stands yet ---- */

static struct {
  cf_entry entries[ENTRIES];
  size_t count;
} store;

static void put(size_t place, const cf_entry *group, size_t n) {
  if (place != store.count || n > ENTRIES - place) return;
  memcpy(&store.entries[place], group, n * sizeof *group);
  store.count += n;
}

/* ---- A session ---- */

typedef struct {
  const char *name;
  uint64_t number;
  cf_handle view;
  cf_args args;
} session;

static session ann = {.name = "ann", .number = 700}, bob = {.name = "bob", .number = 800};

static void begin(session *it, cf_handle *plan, uint32_t first) {
  const cf_row_opening opening = {.session = it->number, .first = first};
  DO(cf_row_new(plan, &opening, &it->view));
}

/* How many entries the session has seen. */
static size_t seen(session *it) {
  size_t n;
  DO(cf_ledger_words(&it->view, 0, NULL, 0, &n));
  return n;
}

/* Sees what stands behind that. */
static void catch_up(session *it) {
  for (size_t at = seen(it); at < store.count; at++) {
    const cf_entry *entry = &store.entries[at];
    const bool is_own = entry->token >> COUNT_BITS == it->number;
    cf_event event;
    cf_reply reply;
    cf_news news[STAGES];
    size_t n;
    DO(cf_row_saw(&it->view, entry, &reply, news, STAGES, &n));
    DO(cf_event_of(entry->word, &event));
    printf("%s sees entry %zu, %s\n", it->name, at, is_own ? "an own one" : "another's");
    if (is_own && event.call == CF_CALL_CLAIM && reply.answer == CF_GRANTED) it->args = reply.args;
  }
}

/* Plans a put of an event, and gives the place where it is to stand. */
static size_t plan_put(session *it, cf_event event, cf_entry *entry) {
  DO(cf_row_number(&it->view, &event.who));
  DO(cf_word_of_event(&event, &entry->word));
  DO(cf_row_plan(&it->view, &entry->word, 1, &entry->token));
  return seen(it);
}

/* Puts an event, and says whether it stands. If others came first, what they did is seen. */
static bool act(session *it, cf_event event) {
  cf_entry entry;
  uint8_t landed;
  const size_t place = plan_put(it, event, &entry);
  put(place, &entry, 1);
  DO(cf_row_met(&it->view, &store.entries[place], &landed));
  catch_up(it);
  return landed;
}

/* The same, but no answer comes: nobody knows whether it stands. */
static void act_unanswered(session *it, cf_event event) {
  cf_entry entry;
  const size_t place = plan_put(it, event, &entry);
  put(place, &entry, 1);
  DO(cf_row_give_up(&it->view));
  printf("%s has no answer, and gives up\n", it->name);
}

int main(void) {
  const uint16_t price = PRICE;
  const cf_event claim = {.call = CF_CALL_CLAIM, .stage = TOTAL};
  cf_handle plan = {0};
  cf_stage total;
  uint16_t stage;
  uint8_t who;
  DO(cf_builder_new(&plan, 0, 0));
  DO(cf_builder_stage(&plan, CF_SOURCE, NULL, 0, CF_NO_FUNCTION, &stage));
  DO(cf_builder_stage(&plan, CF_APPLY, &price, 1, DOUBLE, &stage));
  DO(cf_build(&plan));
  begin(&ann, &plan, 4711);
  begin(&bob, &plan, 1147);
  cf_free(&plan);

  act(&ann, (cf_event){.call = CF_CALL_COMPLETE, .stage = PRICE, .value = {CF_INT, 21}});
  catch_up(&bob);
  act_unanswered(&bob, claim);
  if (!act(&ann, claim)) printf("ann was too late\n");
  DO(cf_row_number_of(&ann.view, bob.number, &who));
  DO(cf_row_held(&ann.view, bob.number, 0, &stage));
  printf("bob is caller %u, and has claimed stage %u\n", (unsigned)who, (unsigned)stage);

  catch_up(&bob);
  act(&bob, (cf_event){.call = CF_CALL_FINISH, .stage = TOTAL, .answer = {.kind = CF_GIVE, .value = {CF_INT, 2 * bob.args.first.number}}});
  catch_up(&ann);
  DO(cf_ledger_stage(&ann.view, TOTAL, &total));
  printf("the total is %d\n", total.outcome.value.number);
  cf_free(&ann.view);
  cf_free(&bob.view);
  return 0;
}
