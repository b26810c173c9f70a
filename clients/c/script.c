/* Runs scripts, prints their reports, and the texts of an outcome and of a code. */
#include "cf.h"
#include <stdio.h>
#include <stdlib.h>
#include <string.h>

static const char five[] = "{\"cf\": 1, \"stages\": [{\"form\": \"source\"}, {\"form\": \"apply\", \"of\": [0], \"fn\": {\"add\": 5}}],"
                           " \"steps\": [[\"complete\", 0, 3], [\"work\"], [\"now\", 1]]}";
static const char wrong[] = "{\"cf\": 1, \"stages\": [{\"form\": \"apply\", \"of\": [0], \"fn\": {\"add\": 5}}]}";

static void show(const uint8_t *text, size_t length) { printf("%.*s", (int)length, (const char *)text); }

static void show_name(uint32_t code) {
  uint8_t name[32];
  size_t length;
  if (cf_code_text(code, name, sizeof name, &length) == CF_OK && length <= sizeof name) show(name, length);
  printf("\n");
}

/* Runs a script, and prints its report, or the line of its fault, and the code's name. The first call tells how much room is wanted. */
static uint32_t run(const char *script) {
  uint8_t *report = NULL;
  size_t room = 0, length = 0;
  const uint8_t *text = (const uint8_t *)script;
  uint32_t code = cf_run_script(text, strlen(script), report, room, &length);
  if (length > room && (report = malloc(length)) != NULL) {
    room = length;
    code = cf_run_script(text, strlen(script), report, room, &length);
  }
  if (report) show(report, length);
  free(report);
  show_name(code);
  return code;
}

int main(void) {
  const cf_outcome outcome = {.kind = CF_THROWN, .wrapped = 1, .code = 7};
  uint8_t text[64];
  size_t length;
  if (run(five) != CF_OK || run(wrong) != CF_BAD_SCRIPT) return 1;
  if (cf_outcome_text(outcome, text, sizeof text, &length) != CF_OK || length > sizeof text) return 1;
  show(text, length);
  printf("\n");
  return 0;
}
