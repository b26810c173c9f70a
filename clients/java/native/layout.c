/* Writes cf.internal.Layout: numbers of cf.h, and where in memory the fields are that Java reads and writes. clients/java/build refuses to go on where
 * that isn't the file in src. */
#include "block.h"
#include <stddef.h>
#include <stdio.h>

#define SAY(name, number) printf("    public static final int %s = %d;\n", name, (int)(number))
#define NUMBER(name) SAY(#name, CF_##name)
#define CALL(name) SAY("CALL_" #name, CF_CALL_##name)
#define PLACE(name, type, field) SAY(#name, offsetof(type, field))
#define CORE(name, field) SAY("CORE_" #name, offsetof(struct block, field))
#define VIEW(name, field) SAY("VIEW_" #name, offsetof(struct view_block, field))

int main(void) {
  puts("package cf.internal;\n");
  puts("/** Numbers of cf.h, and places of fields in bytes, as native/layout.c writes them. */");
  puts("public final class Layout {");
  puts("    // Codes.");
  NUMBER(OK), NUMBER(NO_MEMORY), NUMBER(ROOM);
  puts("    // Calls: the kind of a word is one more.");
  CALL(COMPLETE), CALL(FAIL), CALL(CANCEL), CALL(CLAIM), CALL(FINISH), CALL(TICK), CALL(ATTACH), CALL(FAIL_AS);
  puts("    // Answers of claims, finishes and attaches.");
  NUMBER(GRANTED), NUMBER(WON), NUMBER(AT);
  puts("    // Kinds of outcomes, of what functions are called with, and of what they answer; and of a stage that is settled.");
  NUMBER(PENDING), NUMBER(VALUE), NUMBER(THROWN), NUMBER(CANCELLED), NUMBER(TIMED_OUT), NUMBER(BAD_ANSWER);
  NUMBER(NIL), NUMBER(NO_ARGS), NUMBER(ONE), NUMBER(TWO), NUMBER(GOT);
  NUMBER(GIVE), NUMBER(THROW), NUMBER(LINK);
  NUMBER(IS_SETTLED);
  puts("    // An outcome, arguments and a reply.");
  PLACE(OUTCOME_KIND, cf_outcome, kind), PLACE(OUTCOME_WRAPPED, cf_outcome, wrapped), PLACE(OUTCOME_CODE, cf_outcome, code);
  PLACE(OUTCOME_VALUE, cf_outcome, value), PLACE(VALUE_KIND, cf_value, kind), PLACE(VALUE_NUMBER, cf_value, number);
  PLACE(ARGS_KIND, cf_args, kind), PLACE(ARGS_FIRST, cf_args, first), PLACE(ARGS_SECOND, cf_args, second);
  PLACE(ARGS_OUTCOME, cf_args, outcome);
  PLACE(REPLY_ANSWER, cf_reply, answer), PLACE(REPLY_NUMBER, cf_reply, number), PLACE(REPLY_ARGS, cf_reply, args);
  puts("    // Lanes, the machine's own caller, and what stands beside a form in a plan.");
  SAY("HERE", HERE), SAY("BY_EXECUTOR", BY_EXECUTOR), SAY("CLOCK", CLOCK), SAY("FOR_EXECUTOR", FOR_EXECUTOR);
  puts("    // The memory of a core.");
  CORE(DONE, done), CORE(EVENTS, events), CORE(MOMENTS, moments), CORE(ANSWER, answer), CORE(SETTLED_COUNT, settled_count);
  CORE(CLAIMED_COUNT, claimed_count), CORE(READY_COUNT, ready_count), CORE(HAS_MORE, has_more), CORE(HAS_WORDS, has_words);
  CORE(REPLY, reply), CORE(DUE, todo.moment), CORE(WORDS, words), CORE(LANES, lanes), CORE(SETTLED, settled), CORE(CLAIMED, claimed);
  CORE(READY, ready);
  SAY("MOST_WORDS", WORDS), SAY("MOST_READY", READY);
  PLACE(TOLD_STAGE, cf_told, stage), PLACE(TOLD_OUTCOME, cf_told, outcome), SAY("TOLD_SIZE", sizeof(cf_told));
  PLACE(CLAIMED_STAGE, struct claimed, stage), PLACE(CLAIMED_KIND, struct claimed, kind), PLACE(CLAIMED_OUTCOME, struct claimed, outcome);
  PLACE(CLAIMED_WRAPPED, struct claimed, is_wrapped), PLACE(CLAIMED_FIRST, struct claimed, first);
  PLACE(CLAIMED_SECOND, struct claimed, second), SAY("CLAIMED_SIZE", sizeof(struct claimed));
  puts("    // The memory of a view.");
  VIEW(REPLY, reply), VIEW(NEWS, news), VIEW(CLAIM, claim);
  SAY("MOST_NEWS", NEWS);
  PLACE(NEWS_STAGE, cf_news, stage), PLACE(NEWS_KIND, cf_news, now.kind), PLACE(NEWS_OUTCOME, cf_news, now.outcome);
  SAY("NEWS_SIZE", sizeof(cf_news));
  PLACE(CLAIM_SESSION, cf_row_claim, session), PLACE(CLAIM_STAGE, cf_row_claim, stage);
  puts("\n    private Layout() {}\n}");
  return 0;
}
