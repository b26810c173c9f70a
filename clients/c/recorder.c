/* A worker of a ledger in one call a step: cf_ledger_step finishes what the task holds and claims the next ready stage, tells the two words
 * that it wrote, and which stages the finish changed. The words go into a journal, of which another ledger does the whole row again. Then
 * what the calls refuse, and that a ledger which refuses stays as it was. */
#include "cf.h"
#include "sum.h"
#include <stdio.h>
#include <string.h>

enum { OTHER = 2, STAGES = SUM + 1, WORDS = 16 };

static size_t count_of(cf_handle *ledger) {
  size_t n = 0;
  row("words", cf_ledger_words(ledger, 0, NULL, 0, &n), CF_OK);
  return n;
}

static void holds_sum(const char *what, cf_handle *ledger, int32_t wanted) {
  cf_stage sum;
  row("sum", cf_ledger_stage(ledger, SUM, &sum), CF_OK);
  holds(what, sum.kind == CF_IS_SETTLED && sum.outcome.kind == CF_VALUE && sum.outcome.value.number == wanted);
}

/* What a step did: its news, and its words into the journal. */
static size_t record(const cf_step *step, const cf_task *task, const cf_news *news, size_t n, uint64_t *journal, size_t written) {
  for (size_t i = 0; i < n; i++) printf("  stage %u is %s\n", news[i].stage, news[i].now.kind == CF_IS_SETTLED ? "settled" : "claimed");
  if (task->held) printf("stage %u is taken\n", task->stage);
  holds("the first word stands here", step->place == written);
  if (step->finish) journal[written++] = step->finish;
  if (step->claim) journal[written++] = step->claim;
  return written;
}

/* The whole work, a call a step. It gives how many words the journal has. */
static size_t work(cf_handle *ledger, uint64_t *journal) {
  cf_step step = {.who = ME};
  cf_task task = {0};
  cf_news news[STAGES];
  size_t n, written = 0;
  uint32_t code;
  do {
    code = cf_ledger_step(ledger, &step, &task, news, STAGES, &n);
    written = record(&step, &task, news, n, journal, written);
    if (code == CF_OK) task.answer = answer_to(&task);
  } while (code == CF_OK);
  row("the last step", code, CF_NOTHING);
  holds("nothing is held then", !task.held && task.finished == CF_WON && step.finish && !step.claim);
  row("one more", cf_ledger_step(ledger, &step, &task, news, STAGES, &n), CF_NOTHING);
  holds("does nothing", n == 0 && !step.finish && !step.claim && step.place == written);
  return written;
}

/* The ledger has the words of the journal, and another does them in one call. */
static void again(cf_handle *plan, cf_handle *ledger, const uint64_t *journal, size_t written) {
  uint64_t words[WORDS], bad[WORDS];
  size_t n = 0, done = 99;
  cf_handle copy = {0};
  row("words", cf_ledger_words(ledger, 0, words, WORDS, &n), CF_OK);
  holds("are those of the journal", n == written && memcmp(words, journal, n * sizeof *words) == 0);
  row("a copy", cf_ledger_new(plan, 0, &copy), CF_OK);
  row("no words", cf_ledger_apply_all(&copy, NULL, 0, &done), CF_OK);
  holds("none was done", done == 0 && count_of(&copy) == 0);
  memcpy(bad, journal, sizeof bad);
  bad[3] = 0;
  row("a row with a word that is none", cf_ledger_apply_all(&copy, bad, written, &done), CF_NO_WORD);
  holds("those before it are done", done == 3 && count_of(&copy) == 3);
  row("the others", cf_ledger_apply_all(&copy, journal + 3, written - 3, &done), CF_OK);
  holds("are all done", done == written - 3 && count_of(&copy) == written);
  holds_sum("the copy's sum is the same", &copy, 21);
  row("restart", cf_ledger_restart(&copy), CF_OK);
  holds("no word is left", count_of(&copy) == 0);
  row("all once more", cf_ledger_apply_all(&copy, journal, written, &done), CF_OK);
  holds_sum("and the sum again", &copy, 21);
  cf_free(&copy);
}

/* A step, of which nothing may change but by its code. */
static void refuses(const char *what, cf_handle *ledger, cf_step step, cf_task task, uint32_t wanted) {
  cf_step had_step = step;
  cf_task had = task;
  cf_news news[STAGES] = {{.stage = 77}};
  size_t n = 99, words = count_of(ledger);
  row(what, cf_ledger_step(ledger, &step, &task, news, STAGES, &n), wanted);
  holds("the task and the step stay", memcmp(&had, &task, sizeof task) == 0 && memcmp(&had_step, &step, sizeof step) == 0);
  holds("no news is told", n == 99 && news[0].stage == 77);
  holds("no word is written", count_of(ledger) == words);
}

static void refused(cf_handle *plan) {
  cf_handle ledger = {0}, empty = {0};
  cf_step step, others;
  cf_task task, none;
  cf_news news[1];
  size_t n = 99;
  memset(&step, 0, sizeof step), memset(&others, 0, sizeof others), memset(&task, 0, sizeof task), memset(&none, 0, sizeof none);
  step.who = ME, others.who = OTHER;
  row("ledger", cf_ledger_new(plan, 0, &ledger), CF_OK);
  row("a null step", cf_ledger_step(&ledger, NULL, &task, news, 1, &n), CF_NULL);
  row("a null task", cf_ledger_step(&ledger, &step, NULL, news, 1, &n), CF_NULL);
  row("null news with room", cf_ledger_step(&ledger, &step, &task, NULL, 1, &n), CF_NULL);
  row("null words", cf_ledger_apply_all(&ledger, NULL, 1, &n), CF_NULL);
  row("a null ledger", cf_ledger_restart(NULL), CF_NULL);
  holds("nothing was done", n == 99 && count_of(&ledger) == 0);

  row("the first step", cf_ledger_step(&ledger, &step, &task, NULL, 0, &n), CF_OK);
  holds("takes the lowest", task.stage == 0 && task.function == GIVE_SEVEN && n == 0 && step.claim && !step.finish);
  refuses("another's stage", &ledger, others, task, CF_NOT_HELD);
  cf_task far = task;
  far.stage = STAGES;
  refuses("a stage that isn't there", &ledger, step, far, CF_NO_STAGE);
  far.stage = 1;
  refuses("a stage that nobody holds", &ledger, step, far, CF_NOT_HELD);
  cf_step nobody = step;
  nobody.who = 64;
  refuses("a caller above 63", &ledger, nobody, none, CF_NO_WORD);
  row("a plan takes no step", cf_ledger_step(plan, &step, &task, NULL, 0, &n), CF_WRONG_KIND);
  row("an empty handle", cf_ledger_step(&empty, &step, &task, NULL, 0, &n), CF_EMPTY);
  row("nor has it words", cf_ledger_apply_all(&empty, NULL, 0, &n), CF_EMPTY);
  row("a plan does no words", cf_ledger_apply_all(plan, NULL, 0, &n), CF_WRONG_KIND);
  row("nor starts again", cf_ledger_restart(plan), CF_WRONG_KIND);

  others.from = 1;
  row("another from stage 1 on", cf_ledger_step(&ledger, &others, &none, NULL, 0, &n), CF_OK);
  holds("takes that", none.stage == 1);
  task.answer = answer_to(&task);
  row("news without room", cf_ledger_step(&ledger, &step, &task, NULL, 0, &n), CF_OK);
  holds("are two, and one of them is taken", n == 2 && task.stage == 2 && task.held);
  cf_free(&ledger);
}

int main(void) {
  cf_handle plan = {0}, ledger = {0};
  uint64_t journal[WORDS] = {0};
  begin_plan(&plan);
  row("build", cf_build(&plan), CF_OK);
  row("ledger", cf_ledger_new(&plan, 0, &ledger), CF_OK);
  size_t written = work(&ledger, journal);
  holds_sum("the sum", &ledger, 21);
  printf("%zu words\n", written);
  again(&plan, &ledger, journal, written);
  refused(&plan);
  cf_free(&plan);
  cf_free(&ledger);
  return end_rows();
}
