/* Closing a desk: all its callers are given back, and what they did is one history, of which each was told a part. */
#include "cf.h"
#include <stdio.h>

enum { CALLERS = 2 };

int main(void) {
  cf_handle plan = {0}, callers[CALLERS] = {{0}}, *desk = &callers[0];
  uint16_t source, events, records;
  cf_reply reply;
  cf_record record;
  cf_outcome outcome;
  cf_builder_new(&plan, 0, 0);
  cf_builder_stage(&plan, CF_SOURCE, NULL, 0, CF_NO_FUNCTION, &source);
  if (cf_build(&plan) != CF_OK || cf_desk_open(&plan, callers, CALLERS, 8, 8) != CF_OK) return 1;
  cf_desk_complete(&callers[1], source, (cf_value){CF_INT, 5}, &reply);
  cf_desk_cancel(&callers[0], source, &reply);                   /* too late */
  cf_desk_fail_as(&callers[0], source, CF_TIMED_OUT, 0, &reply); /* and so is this */
  cf_desk_read(&callers[0], source, &outcome);

  cf_close_begin(desk);
  printf("%s\n", cf_code_name(cf_close_end(desk)));
  cf_close_add(desk, &callers[1]);
  printf("%s\n", cf_code_name(cf_close_end(desk)));
  cf_closed_events(desk, &events);
  printf("%d events\n", events);
  for (uint8_t caller = 0; caller < CALLERS; caller++) {
    cf_closed_records(desk, caller, &records);
    for (uint16_t at = 0; at < records; at++) {
      cf_closed_record(desk, caller, at, &record);
      if (record.kind == CF_DID) printf("caller %d did event %u: answer %u\n", caller, record.place, record.reply.answer);
      else printf("caller %d saw %u events: value %d\n", caller, record.place, record.outcome.value.number);
    }
  }
  cf_closed_graph(desk);
  cf_get(desk, source, &outcome);
  printf("the graph has value %d\n", outcome.value.number);
  cf_free(desk);
  cf_free(&plan);
  return 0;
}
