/* What the library tells of itself, and what a binding asks when it loads the library. */
#include "cf.h"
#include <stddef.h>
#include <stdio.h>
#include <string.h>

/* How many codes up to 255 have another name by cf_code_name than by cf_code_text. */
static int differing(void) {
  int differ = 0;
  for (uint32_t code = 0; code <= 255; code++) {
    uint8_t text[32];
    size_t length = 0;
    const char *name = cf_code_name(code);
    bool named = cf_code_text(code, text, sizeof text, &length) == CF_OK;
    differ += named != (name != NULL) || (named && (strlen(name) != length || memcmp(name, text, length) != 0));
  }
  return differ;
}

int main(void) {
  printf("version %s\n", cf_version());
  printf("runs a program of this header: %d\n", cf_fits(CF_VERSION_MAJOR, CF_VERSION_MINOR));
  printf("one of a later header: %d, %d\n", cf_fits(CF_VERSION_MAJOR, CF_VERSION_MINOR + 1), cf_fits(CF_VERSION_MAJOR + 1, 0));
  printf("one of an earlier header, whose calls have changed: %d\n", cf_fits(1, 9));
  printf("%s\n", cf_code_name(CF_NO_STAGE));
  printf("names of codes that differ: %d\n", differing());
  printf("code 99 has a name: %d\n", cf_code_name(99) != NULL);
  printf("cf_reply has %zu bytes, args after %zu\n", cf_layout("cf_reply"), cf_layout("cf_reply.args"));
  printf("as here: %d\n", cf_layout("cf_reply") == sizeof(cf_reply) && cf_layout("cf_reply.args") == offsetof(cf_reply, args));
  printf("there is no cf_stone: %d\n", cf_layout("cf_stone") == SIZE_MAX);
  return 0;
}
