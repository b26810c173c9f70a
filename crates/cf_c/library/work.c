/* The call of the library that takes functions: it stands in front of the proved exports, and calls them alone. */
#include "cf.h"

/* Whether each stage from `checked` on has no function, or one that is there: these were checked before. */
static bool are_there(cf_handle *graph, const cf_stage_function *functions, size_t n, uint16_t *checked, uint16_t stages) {
  for (; *checked < stages; (*checked)++) {
    uint16_t number;
    if (cf_function(graph, *checked, &number) == CF_OK && (number >= n || !functions[number])) return false;
  }
  return true;
}

uint32_t cf_work(cf_handle *graph, uint8_t who, const cf_stage_function *functions, size_t n, void *context, uint32_t *calls) {
  if (!graph || (!functions && n) || !calls) return CF_NULL;
  uint16_t checked = 0, stages;
  uint32_t code = cf_stages(graph, &stages);
  if (code != CF_OK) return code;
  cf_task task = {0};
  *calls = 0;
  for (;;) {
    /* A function may have attached stages. What isn't there is told before its stage can be claimed. */
    if ((code = cf_stages(graph, &stages)) != CF_OK) return code;
    if (checked > stages) checked = 0;
    if (!are_there(graph, functions, n, &checked, stages)) break;
    if ((code = cf_next(graph, who, &task)) != CF_OK) return code == CF_NOTHING ? CF_OK : code;
    cf_answer answer = {0};
    functions[task.function](context, &task, &answer);
    task.answer = answer;
    ++*calls;
  }
  cf_reply reply;
  if (task.held) cf_finish_with(graph, who, task.stage, &task.answer, &reply);
  return CF_FUNCTIONS;
}
