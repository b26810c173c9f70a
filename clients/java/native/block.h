/* What Java reads and writes outside the heap, in the machine's order of bytes. layout.c tells Java where each field is. */
#ifndef BLOCK_H
#define BLOCK_H
#include "cf.h"

/* Lanes: a stage's function is called by the thread that made the stage ready, or by an executor. */
enum { HERE = 0, BY_EXECUTOR = 1, LANES = 2 };

/* The caller in whose name a machine itself settles stages. */
enum { CLOCK = 1 };

enum { MOST = 4096, WORDS = 64, TOLD = 40, CLAIMED = 32, READY = 64, NEWS = 64 };

/* A claimed stage, and what its function is called with: of this kind, and for CF_GOT how its source ended. Values are numbers, -1 for null. */
struct claimed {
  uint16_t stage;
  uint8_t kind, outcome, is_wrapped;
  int32_t first, second; /* `first` is the code where the source failed */
};

/* Of a core: the words that wait, and what the last crossing brought. */
struct block {
  int32_t done;    /* how many of the words that waited were done */
  int32_t events;  /* how many words were done */
  int32_t moments; /* how many moments are kept */
  int32_t answer;
  int32_t settled_count, claimed_count, ready_count;
  int32_t has_more;  /* whether something had no place */
  int32_t has_words; /* whether all words and their moments stand where words wait */
  cf_reply reply;    /* of the word, where nobody claims behind it */
  cf_todo todo;      /* its jobs stay 0: a job of Java's is one stage's, whose executor has it, and no lane's */
  uint64_t words[WORDS];
  uint8_t lanes[WORDS];
  cf_told settled[TOLD];
  struct claimed claimed[CLAIMED];
  uint16_t ready[READY]; /* stages whose functions executors call */
};

/* Of a view of a row: what its last entry brought, and the open claim that was asked for. */
struct view_block {
  cf_reply reply;
  cf_news news[NEWS];
  cf_row_claim claim;
};

/* Builds a plan of rows, and tells how many stages it has. In a row stand a stage's form, to which FOR_EXECUTOR is added where an executor calls its
 * function, this function or -1, how many sources there are, and these. `lanes` gets the lane of each stage, unless it is null. */
enum { PLAN_ROW = 3, FOR_EXECUTOR = 256 };
uint32_t build_plan(cf_handle *plan, const int32_t *rows, int32_t n, uint8_t *lanes, size_t *stages);
#endif
