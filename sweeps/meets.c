/* Two callers of a desk that meet while a second thread frees the desk's others, over the library for C: none may be told that they are of
 * two desks (CF_OTHER_DESK). No clause says when that code comes, and the library tells one desk by the number of its shares, which each
 * caller that leaves lowers.
 *
 *     meets [ROUNDS]
 *
 * In each round, of which there are 100 where ROUNDS isn't given, the second thread goes through 200 desks, each with 64 callers. The first
 * lets two callers meet of the desk where the second is. It prints how many meetings were told otherwise and how many there were, and ends
 * with status 0 where none was, 1 where one was, and 2 where nothing could be tried, or callers of two desks weren't told to be so. */
#include "cf.h"

#include <pthread.h>
#include <stdatomic.h>
#include <stdio.h>
#include <stdlib.h>

enum { CALLERS = 64, DESKS = 200 };

static cf_handle desks[DESKS][CALLERS];
static atomic_size_t at; /* the desk where the second thread is */

static void *leave(void *nothing) {
  for (size_t i = 0; i < DESKS; atomic_store(&at, ++i))
    for (int k = 2; k < CALLERS; ++k) cf_free(&desks[i][k]);
  return nothing;
}

static uint32_t built(cf_handle *plan) {
  uint16_t source;
  uint32_t code = cf_builder_new(plan, 0, 0);
  if (code == CF_OK) code = cf_builder_stage(plan, CF_SOURCE, NULL, 0, CF_NO_FUNCTION, &source);
  return code == CF_OK ? cf_build(plan) : code;
}

/* Opens all desks, and has the second thread leave them. */
static int is_begun(cf_handle *plan, pthread_t *second) {
  for (size_t i = 0; i < DESKS; ++i)
    if (cf_desk_open(plan, desks[i], CALLERS, 1, 1) != CF_OK) return 0;
  atomic_store(&at, 0);
  return cf_desk_meet(&desks[0][0], &desks[1][0]) == CF_OTHER_DESK && pthread_create(second, NULL, leave, NULL) == 0;
}

int main(int n, char **words) {
  unsigned long rounds = n > 1 ? strtoul(words[1], NULL, 10) : 100, made = 0, wrong = 0;
  cf_handle plan = {0};
  pthread_t second;
  if (built(&plan) != CF_OK) return 2;
  while (rounds-- > 0) {
    if (!is_begun(&plan, &second)) return 2;
    for (size_t i = 0; i < DESKS; i = atomic_load(&at), ++made) wrong += cf_desk_meet(&desks[i][0], &desks[i][1]) != CF_OK;
    pthread_join(second, NULL);
    for (size_t i = 0; i < DESKS; ++i)
      for (int k = 0; k < 2; ++k) cf_free(&desks[i][k]);
  }
  cf_free(&plan);
  printf("%lu of %lu meetings were told otherwise\n", wrong, made);
  return wrong != 0;
}
