/* What happened to a request, told as texts: for people, and for the programs cf and cf_look. The names are this program's, and so is what
 * its values and errors stand for. */
#include "cf.h"
#include "rows.h"
#include <stdlib.h>
#include <string.h>

enum { LOAD, CHARGE, SORRY, MAIL }; /* MAIL is attached */
enum { OWN, ME, CLERK, EVENTS = 16 };

#define DO(call)                                                                                                                           \
  do {                                                                                                                                     \
    if ((call) != CF_OK) {                                                                                                                 \
      fprintf(stderr, "%s\n", #call);                                                                                                      \
      exit(1);                                                                                                                             \
    }                                                                                                                                      \
  } while (0)
#define ROW(call, wanted) row(#call, (call), (wanted))
#define HOLDS(fact) holds(#fact, (fact))

static cf_todo todo = {.moment = CF_NEVER};

/* The functions of the stages: the card is declined. */
static cf_answer call(const cf_task *task) {
  if (task->stage == CHARGE) return (cf_answer){.kind = CF_THROW, .code = 0};
  return (cf_answer){.kind = CF_GIVE, .value = {CF_INT, task->stage == LOAD ? 0 : 1}};
}

static void apply(cf_handle *request, cf_event event) {
  cf_reply reply;
  uint64_t word;
  DO(cf_word_of_event(&event, &word));
  DO(cf_request_apply(request, word, 0, &reply, NULL, 0, &todo));
}

/* A request, whose words are left in the row. */
static size_t serve(cf_handle *plan, uint64_t *words) {
  const cf_request_sizes sizes = {.room = 1, .lanes = 1, .own = OWN};
  cf_handle request = {0};
  cf_task task = {0};
  size_t n;
  DO(cf_request_new(plan, &sizes, (uint8_t[]){0, 0, 0}, 3, &request));
  while (cf_request_next(&request, ME, 0, &task, NULL, 0, &todo) == CF_OK) task.answer = call(&task);
  apply(&request, (cf_event){.call = CF_CALL_ATTACH, .who = ME, .form = CF_ACCEPT, .sources = 1, .first = SORRY, .function = 7});
  apply(&request, (cf_event){.call = CF_CALL_CANCEL, .who = CLERK, .stage = MAIL});
  apply(&request, (cf_event){.call = CF_CALL_COMPLETE, .who = ME, .stage = MAIL, .value = {CF_INT, 2}});
  DO(cf_ledger_words(&request, 0, words, EVENTS, &n));
  cf_free(&request);
  return n;
}

/* Says what things are called: the texts one behind the other, with the end of each. */
static void say(cf_handle *history, uint32_t what, const char *const *texts, size_t count) {
  uint8_t bytes[128];
  size_t ends[4], n = 0;
  for (size_t k = 0; k < count; ends[k++] = n) {
    memcpy(bytes + n, texts[k], strlen(texts[k]));
    n += strlen(texts[k]);
  }
  DO(cf_history_say(history, what, bytes, n, ends, count));
}

/* A call without a buffer tells how long the text is, and a second one gets it. */
static void print(cf_handle *history, uint32_t kind, const char *title) {
  size_t length;
  DO(cf_history_text(history, kind, NULL, 0, &length));
  uint8_t *text = malloc(length);
  if (!text) exit(1);
  DO(cf_history_text(history, kind, text, length, &length));
  printf("-- %s\n%.*s", title, (int)length, (const char *)text);
  free(text);
}

static void refuse(cf_handle *plan, cf_handle *history) {
  cf_handle empty = {0};
  uint8_t text[4] = "abcd";
  size_t length = 9;
  ROW(cf_history_new(plan, 0, (uint64_t[]){0}, 1, &empty), CF_NO_WORD);
  ROW(cf_history_new(plan, 0, (uint64_t[]){(uint64_t)3 << 56 | (uint64_t)3 << 36}, 1, &empty), CF_NO_STAGE);
  ROW(cf_history_new(plan, 4095, NULL, 0, &empty), CF_ROOM);
  ROW(cf_history_new(plan, 0, NULL, 0, history), CF_FULL);
  ROW(cf_history_say(history, 5, text, 4, (size_t[]){4}, 1), CF_NO_SUCH_NUMBER);
  ROW(cf_history_say(history, CF_SAY_VALUES, text, 4, (size_t[]){2, 1}, 2), CF_BAD_TEXT);
  ROW(cf_history_say(history, CF_SAY_VALUES, text, 4, (size_t[]){2, 5}, 2), CF_BAD_TEXT);
  ROW(cf_history_say(history, CF_SAY_VALUES, (const uint8_t *)"\xc3\xa9\xff", 3, (size_t[]){2, 3}, 2), CF_BAD_TEXT);
  ROW(cf_history_say(history, CF_SAY_VALUES, (const uint8_t *)"\xc3\xa9", 2, (size_t[]){1, 2}, 2), CF_BAD_TEXT);
  ROW(cf_history_say(history, CF_SAY_NAME, text, 4, (size_t[]){2, 4}, 2), CF_TOO_MANY);
  ROW(cf_history_say(history, CF_SAY_CALLERS, NULL, 0, (size_t[65]){0}, 65), CF_TOO_MANY);
  ROW(cf_history_times(history, (uint64_t[EVENTS]){0}, EVENTS), CF_TOO_MANY);
  ROW(cf_history_text(history, 5, text, 4, &length), CF_NO_SUCH_NUMBER);
  HOLDS(!empty.full && length == 9 && memcmp(text, "abcd", 4) == 0);
  ROW(cf_history_text(history, CF_REPORT, text, 3, &length), CF_OK);
  HOLDS(length > 3 && memcmp(text, "grad", 4) == 0);
}

int main(void) {
  cf_handle plan = {0}, history = {0};
  uint64_t words[EVENTS], times[EVENTS];
  uint16_t stage;
  DO(cf_builder_new(&plan, 0, 0));
  DO(cf_builder_stage(&plan, CF_SUPPLY, NULL, 0, 0, &stage));
  DO(cf_builder_stage(&plan, CF_APPLY, &(uint16_t){LOAD}, 1, 1, &stage));
  DO(cf_builder_stage(&plan, CF_EXCEPTIONALLY, &(uint16_t){CHARGE}, 1, 2, &stage));
  DO(cf_build(&plan));
  const size_t n = serve(&plan, words);
  for (size_t k = 0; k < n; k++) times[k] = 5000000 + k * 1250000;

  DO(cf_history_new(&plan, 1, words, n, &history));
  DO(cf_history_times(&history, times, n));
  say(&history, CF_SAY_NAME, (const char *[]){"order 17; paid by card"}, 1);
  say(&history, CF_SAY_STAGES, (const char *[]){"load", "charge", ""}, 3);
  say(&history, CF_SAY_CALLERS, (const char *[]){"request", "worker"}, 2);
  say(&history, CF_SAY_VALUES, (const char *[]){"49 \"euros\"", "sorry,\n9.000 ms  nobody pays"}, 2);
  say(&history, CF_SAY_ERRORS, (const char *[]){"card declined"}, 1);
  print(&history, CF_LINES, "lines");
  print(&history, CF_LINE, "line");
  puts("");
  print(&history, CF_REPORT, "report");
  print(&history, CF_SCRIPT, "script");
  print(&history, CF_ACCOUNT, "account");
  refuse(&plan, &history);
  cf_free(&history);
  cf_free(&plan);
  return end_rows();
}
