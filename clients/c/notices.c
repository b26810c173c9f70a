/* Notices: what one thread has done stands before what another does, however the other hears of it. Here by a mailbox, which knows nothing
 * of the desk. Then rows of what the two calls refuse. */
#include "cf.h"
#include "rows.h"
#include <pthread.h>
#include <stdio.h>

enum { CALLERS = 2, LOG = 8 };

/* One letter at a time. */
static struct {
  pthread_mutex_t lock;
  pthread_cond_t came;
  cf_handle letter;
  int is_there;
} box = {.lock = PTHREAD_MUTEX_INITIALIZER, .came = PTHREAD_COND_INITIALIZER};

static void send(cf_handle letter) {
  pthread_mutex_lock(&box.lock);
  box.letter = letter, box.is_there = 1;
  pthread_cond_signal(&box.came);
  pthread_mutex_unlock(&box.lock);
}

static cf_handle receive(void) {
  pthread_mutex_lock(&box.lock);
  while (!box.is_there) pthread_cond_wait(&box.came, &box.lock);
  pthread_mutex_unlock(&box.lock);
  return box.letter;
}

/* Completes stage 0, and tells the other thread. */
static void *first(void *caller) {
  cf_reply reply;
  cf_handle notice = {0};
  cf_desk_complete(caller, 0, (cf_value){CF_INT, 5}, &reply);
  cf_desk_notice(caller, &notice);
  send(notice);
  return NULL;
}

/* Hears of it, and then comes too late. */
static void *second(void *caller) {
  cf_reply reply;
  cf_handle notice = receive();
  uint16_t before, after;
  cf_desk_seen(caller, &before);
  const uint32_t heeded = cf_desk_heed(caller, &notice);
  cf_desk_seen(caller, &after);
  cf_desk_fail_as(caller, 0, CF_TIMED_OUT, 0, &reply);
  printf("%s: %d events seen, then %d; the notice is %s; timed out: %u\n", cf_code_name(heeded), before, after,
      notice.full ? "there" : "used up", reply.answer);
  return NULL;
}

static void open_desk(cf_handle *plan, cf_handle *callers) { row("a desk", cf_desk_open(plan, callers, CALLERS, LOG, LOG), CF_OK); }

static void refusals(cf_handle *plan) {
  cf_handle callers[CALLERS] = {{0}}, others[CALLERS] = {{0}}, notice = {0}, empty = {0};
  uint16_t seen;
  cf_reply reply;
  open_desk(plan, callers);
  open_desk(plan, others);
  row("a plan notes nothing", cf_desk_notice(plan, &notice), CF_WRONG_KIND);
  row("nor does an empty handle", cf_desk_notice(&empty, &notice), CF_EMPTY);
  row("a plan heeds nothing", cf_desk_heed(plan, &notice), CF_WRONG_KIND);
  row("nor does an empty handle", cf_desk_heed(&empty, &notice), CF_EMPTY);
  row("nothing is heeded", cf_desk_heed(&callers[0], &notice), CF_EMPTY);
  row("nor is a plan", cf_desk_heed(&callers[0], plan), CF_WRONG_KIND);
  row("a notice to a plan's handle", cf_desk_notice(&callers[0], plan), CF_FULL);
  row("an event", cf_desk_complete(&callers[0], 0, (cf_value){CF_INT, 1}, &reply), CF_OK);
  row("a notice", cf_desk_notice(&callers[0], &notice), CF_OK);
  row("another to the same handle", cf_desk_notice(&callers[0], &notice), CF_FULL);
  row("a notice is no caller", cf_desk_seen(&notice, &seen), CF_WRONG_KIND);
  row("nor is it given back", cf_close_begin(&notice), CF_WRONG_KIND);
  row("of another desk", cf_desk_heed(&others[1], &notice), CF_OTHER_DESK);
  holds("how many the other has seen", cf_desk_seen(&others[1], &seen) == CF_OK && seen == 0);
  row("the closing begins", cf_close_begin(&callers[0]), CF_OK);
  row("the second is given back", cf_close_add(&callers[0], &callers[1]), CF_OK);
  row("a notice holds the desk", cf_close_end(&callers[0]), CF_STILL_SHARED);
  cf_free(&notice);
  row("and no longer", cf_close_end(&callers[0]), CF_OK);
  row("a notice of nothing", cf_desk_notice(&others[0], &notice), CF_OK);
  row("an event", cf_desk_complete(&others[1], 0, (cf_value){CF_INT, 1}, &reply), CF_OK);
  row("who has seen more heeds it, too", cf_desk_heed(&others[1], &notice), CF_OK);
  holds("how many it has seen", cf_desk_seen(&others[1], &seen) == CF_OK && seen == 1 && !notice.full);
  cf_free(&callers[0]);
  for (int k = 0; k < CALLERS; k++) cf_free(&others[k]);
}

int main(void) {
  cf_handle plan = {0}, callers[CALLERS] = {{0}};
  uint16_t source;
  pthread_t threads[CALLERS];
  cf_builder_new(&plan, 0, 0);
  cf_builder_stage(&plan, CF_SOURCE, NULL, 0, CF_NO_FUNCTION, &source);
  row("a plan", cf_build(&plan), CF_OK);
  open_desk(&plan, callers);
  pthread_create(&threads[1], NULL, second, &callers[1]);
  pthread_create(&threads[0], NULL, first, &callers[0]);
  for (int k = 0; k < CALLERS; k++) pthread_join(threads[k], NULL);
  for (int k = 0; k < CALLERS; k++) cf_free(&callers[k]);
  refusals(&plan);
  cf_free(&plan);
  return end_rows();
}
