/* The plan of steps.c, recorder.c and sweeps.c, which do the same work by other calls: two supplies, which give 7, the double of the first,
 * and the sum of the double and the second. */
#include "rows.h"

enum { ME = 1, GIVE_SEVEN = 0, DOUBLE = 1, BOTH = 2, SUM = 3 };

/* A builder with these stages, 0 to SUM. More may follow. */
static inline void begin_plan(cf_handle *plan) {
  uint16_t stage;
  row("builder", cf_builder_new(plan, 0, 0), CF_OK);
  row("supply", cf_builder_stage(plan, CF_SUPPLY, NULL, 0, GIVE_SEVEN, &stage), CF_OK);
  row("supply", cf_builder_stage(plan, CF_SUPPLY, NULL, 0, GIVE_SEVEN, &stage), CF_OK);
  row("apply", cf_builder_stage(plan, CF_APPLY, (uint16_t[]){0}, 1, DOUBLE, &stage), CF_OK);
  row("combine", cf_builder_stage(plan, CF_COMBINE, (uint16_t[]){2, 1}, 2, BOTH, &stage), CF_OK);
}

/* What the function of a task gives. */
static inline cf_answer answer_to(const cf_task *task) {
  const int32_t first = task->args.first.number;
  const int32_t number = task->function == GIVE_SEVEN ? 7 : task->function == DOUBLE ? 2 * first : first + task->args.second.number;
  return (cf_answer){.kind = CF_GIVE, .value = {CF_INT, number}};
}
