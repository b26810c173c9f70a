/* A plan: price = item price times pieces, or 0 where it isn't told by moment 50. A stage that names a later one is refused. */
#include "cf.h"
#include <stdio.h>

enum { TIMES };

int main(void) {
  cf_handle plan = {0}, graph = {0};
  uint16_t item, pieces, price, refused, function, stages;
  cf_builder_new(&plan, 0, 0);
  cf_builder_stage(&plan, CF_SOURCE, NULL, 0, CF_NO_FUNCTION, &item);
  cf_builder_stage(&plan, CF_SOURCE, NULL, 0, CF_NO_FUNCTION, &pieces);
  cf_builder_stage(&plan, CF_COMBINE, (const uint16_t[]){item, pieces}, 2, TIMES, &price);
  cf_builder_limit(&plan, price, 50, CF_GIVE_VALUE, 0, (cf_value){CF_INT, 0});
  printf("stages %d, %d and %d\n", item, pieces, price);
  printf("%s\n", cf_code_name(cf_builder_stage(&plan, CF_APPLY, (const uint16_t[]){7}, 1, TIMES, &refused)));
  printf("%s\n", cf_code_name(cf_build(&plan)));
  printf("%s\n", cf_code_name(cf_build(&plan)));
  if (cf_graph_new(&plan, 0, &graph) != CF_OK) return 1;
  cf_free(&plan); /* a graph may outlive its plan */
  cf_stages(&graph, &stages);
  cf_function(&graph, price, &function);
  printf("a graph of %d stages, function %d\n", stages, function);
  cf_free(&graph);
  return 0;
}
