/* What a request's cf_todo tells its host after each call: which jobs to start in which lane, when time has to pass next, and whose call of a
 * function is to stop. */
#include "rows.h"
#include <string.h>

enum { FIRST, SECOND, OTHER, SOURCE, AFTER, LINKS, STAGES, LANES = 2, OWN = 0, ME = 1, YOU = 2, ROW = STAGES, MARK = 77 };
static const uint8_t lanes[STAGES] = {[OTHER] = 1, [AFTER] = 1};

static cf_handle plan, request;
static cf_told told[ROW];
static cf_todo todo;

#define OK(call) row(#call, (call), CF_OK)
#define HOLDS(fact) holds(#fact, (fact))

/* A request of two stages that are ready in lane 0, and one in lane 1. Lane 1 also has what stands behind the source. */
static void open_request(void) {
  const cf_request_sizes sizes = {.lanes = LANES, .own = OWN};
  cf_free(&request);
  OK(cf_request_new(&plan, &sizes, lanes, STAGES, &request));
  todo = (cf_todo){.moment = CF_NEVER};
}

static void build(void) {
  uint16_t stage;
  OK(cf_builder_new(&plan, 0, 0));
  for (stage = 0; stage < OTHER;) OK(cf_builder_stage(&plan, CF_SUPPLY, NULL, 0, 0, &stage));
  OK(cf_builder_stage(&plan, CF_SOURCE, NULL, 0, CF_NO_FUNCTION, &stage));
  OK(cf_builder_stage(&plan, CF_APPLY, (uint16_t[]){SOURCE}, 1, 0, &stage));
  OK(cf_builder_stage(&plan, CF_COMPOSE, (uint16_t[]){FIRST}, 1, 0, &stage));
  OK(cf_build(&plan));
}

static uint64_t word_of(cf_event event) {
  uint64_t word = 0;
  event.who = ME;
  OK(cf_word_of_event(&event, &word));
  return word;
}

static void apply(cf_event event, size_t room) {
  cf_reply reply;
  OK(cf_request_apply(&request, word_of(event), 0, &reply, told, room, &todo));
}

static uint32_t next(uint8_t who, uint8_t lane, cf_task *task) { return cf_request_next(&request, who, lane, task, told, ROW, &todo); }

static void deadline(uint16_t stage, uint64_t moment) {
  OK(cf_request_deadline(&request, stage, moment, CF_TIMEOUT, 7, (cf_value){0}, &todo));
}

static const cf_event cancel_first = {.call = CF_CALL_CANCEL, .stage = FIRST};
static const cf_event complete_source = {.call = CF_CALL_COMPLETE, .stage = SOURCE, .value = {CF_INT, 5}};

/* Whether so many jobs are to be started in the two lanes. */
static bool starts(uint16_t in_0, uint16_t in_1) {
  return todo.ready[0] == in_0 && todo.ready[1] == in_1 && !!(todo.news & CF_NEWS_READY) == (in_0 || in_1);
}

static void jobs(void) {
  cf_task task = {0};
  open_request();
  todo.ready[2] = todo.ready[15] = MARK;
  OK(cf_request_told(&request, told, ROW, &todo));
  HOLDS(todo.told == 0 && todo.news == CF_NEWS_READY && starts(2, 1));
  todo.jobs[0] = 1; /* fewer than were told: the other one is told again */
  OK(cf_request_told(&request, told, ROW, &todo));
  HOLDS(starts(1, 1) && todo.jobs[0] == 1 && todo.jobs[1] == 0);
  todo.jobs[0] = 2, todo.jobs[1] = 1;
  apply(complete_source, ROW);
  HOLDS(todo.told == 1 && told[0].stage == SOURCE && starts(0, 1));
  todo.jobs[1] = 9; /* more than there are */
  OK(cf_request_told(&request, told, ROW, &todo));
  HOLDS(todo.news == 0 && starts(0, 0) && todo.jobs[0] == 2 && todo.jobs[1] == 9);
  todo.jobs[1] = 0; /* both have come: one takes its first stage, and the other would find one */
  OK(next(ME, 1, &task));
  HOLDS(task.stage == OTHER && starts(0, 1));
  todo.jobs[0] = 0;
  OK(cf_request_refuse(&request, 0, 9, told, ROW, &todo));
  HOLDS(todo.told == 3 && starts(0, 1)); /* the compose behind the first, too */
  HOLDS(todo.ready[2] == MARK && todo.ready[15] == MARK && todo.jobs[2] == 0);
}

static void moments(void) {
  cf_task task = {0};
  open_request();
  todo.jobs[0] = 2, todo.jobs[1] = 9;
  deadline(SOURCE, 20);
  HOLDS(todo.news == CF_NEWS_MOMENT && todo.moment == 20);
  deadline(FIRST, 30);
  HOLDS(todo.news == 0 && todo.moment == 20);
  deadline(SECOND, 10);
  HOLDS(todo.news == CF_NEWS_MOMENT && todo.moment == 10);
  OK(cf_request_pass(&request, 9, told, ROW, &todo));
  HOLDS(todo.news == 0 && todo.moment == 10 && todo.told == 0);
  OK(cf_request_pass(&request, 10, told, ROW, &todo));
  HOLDS(todo.news == CF_NEWS_MOMENT && todo.moment == 20 && todo.told == 1 && told[0].stage == SECOND);
  deadline(OTHER, 5); /* before the last moment, so it is due at once */
  HOLDS(todo.news == CF_NEWS_MOMENT && todo.moment == 10);
  OK(cf_request_pass(&request, todo.moment, told, ROW, &todo));
  HOLDS(todo.news == CF_NEWS_MOMENT && todo.moment == 20 && todo.told == 1 && told[0].stage == OTHER);
  deadline(OTHER, 11); /* of a stage that is settled */
  HOLDS(todo.news == 0 && todo.moment == 20);
  apply(complete_source, 0);
  HOLDS(todo.news == CF_NEWS_MOMENT && todo.moment == 30 && todo.told == 1);
  deadline(OTHER, 40); /* tells no stage, and how many wait */
  HOLDS(todo.news == 0 && todo.told == 1);
  apply(cancel_first, ROW);
  HOLDS(todo.news == CF_NEWS_MOMENT && todo.moment == CF_NEVER && todo.told == 3 && told[0].stage == SOURCE);
  OK(next(ME, 1, &task));
  HOLDS(todo.news == 0 && todo.moment == CF_NEVER);
}

static void stops(void) {
  cf_task mine = {0}, yours = {0}, other = {0};
  open_request();
  OK(next(ME, 0, &mine));
  OK(next(YOU, 0, &yours));
  OK(next(ME, 1, &other));
  HOLDS(mine.stage == FIRST && yours.stage == SECOND && other.stage == OTHER);
  deadline(SECOND, 10);
  OK(cf_request_pass(&request, 10, told, ROW, &todo));
  HOLDS(todo.told == 1 && told[0].stage == SECOND && told[0].stop == YOU + 1);
  OK(cf_request_told(&request, told, ROW, &todo)); /* once */
  HOLDS(todo.told == 0);
  HOLDS(next(YOU, 0, &yours) == CF_NOTHING && yours.finished == CF_LATE && todo.told == 0);
  apply(cancel_first, 0); /* the row is too short: it is told once its function has ended */
  mine.answer = (cf_answer){.kind = CF_GIVE};
  HOLDS(next(ME, 0, &mine) == CF_NOTHING && mine.finished == CF_LATE);
  HOLDS(todo.told == 2 && told[0].stage == FIRST && told[0].stop == 0 && told[1].stage == LINKS && told[1].stop == 0);
  apply(complete_source, ROW); /* nobody ran it */
  HOLDS(todo.told == 1 && told[0].stop == 0);
  HOLDS(next(ME, 1, &other) == CF_OK && other.finished == CF_WON && other.stage == AFTER);
  HOLDS(todo.told == 1 && told[0].stage == OTHER && told[0].stop == 0); /* by its own finish */
  OK(cf_request_cancel_all(&request, YOU, told, ROW, &todo));
  HOLDS(todo.told == 1 && told[0].stage == AFTER && told[0].stop == ME + 1);
}

/* A compose that has answered another stage runs no more, so nothing is to stop if it is cancelled then. */
static void links(void) {
  cf_task task = {0};
  open_request();
  OK(next(ME, 0, &task));
  OK(next(ME, 0, &task)); /* (SECOND) */
  OK(next(ME, 0, &task));
  HOLDS(task.stage == LINKS);
  task.answer = (cf_answer){.kind = CF_LINK, .stage = SOURCE};
  HOLDS(next(ME, 0, &task) == CF_NOTHING && todo.told == 0);
  apply((cf_event){.call = CF_CALL_CANCEL, .stage = LINKS}, ROW);
  HOLDS(todo.told == 1 && told[0].stage == LINKS && told[0].stop == 0);
}

/* The step that finds nothing, holds nothing and has nothing to tell leaves the moment and what is ready as they were. */
static void idles(void) {
  cf_task task = {0};
  open_request();
  OK(next(ME, 1, &task));
  task = (cf_task){0};
  todo.told = MARK, todo.news = MARK, todo.moment = MARK, todo.ready[0] = todo.ready[1] = MARK, todo.jobs[0] = 1;
  HOLDS(next(YOU, 1, &task) == CF_NOTHING);
  HOLDS(todo.told == 0 && todo.news == 0 && todo.moment == MARK && todo.ready[0] == MARK && todo.ready[1] == MARK && todo.jobs[0] == 1);
  apply(cancel_first, 0);
  todo.moment = MARK, todo.ready[0] = MARK;
  HOLDS(next(YOU, 1, &task) == CF_NOTHING); /* there is something to tell */
  HOLDS(todo.told == 2 && todo.news == CF_NEWS_MOMENT && todo.moment == CF_NEVER && todo.ready[0] == 0);
}

/* Several calls in one tell once what is to be done, also if one of them is refused. A call that is refused alone leaves all as it was. */
static void rows_of_calls(void) {
  cf_request_call calls[] = {{.call = CF_DO_APPLY, .word = word_of(complete_source)}, {.call = CF_DO_DEADLINE, .stage = FIRST, .moment = 3},
      {.call = CF_DO_REFUSE, .lane = LANES}};
  cf_todo before;
  size_t done = MARK;
  open_request();
  todo.jobs[0] = 2;
  HOLDS(cf_request_do(&request, calls, 3, &done, told, ROW, &todo) == CF_NO_LANE && done == 2);
  HOLDS(todo.told == 1 && todo.news == (CF_NEWS_READY | CF_NEWS_MOMENT) && todo.moment == 3 && starts(0, 2));
  memset(&todo, MARK, sizeof todo);
  before = todo;
  HOLDS(cf_request_refuse(&request, LANES, 1, told, ROW, &todo) == CF_NO_LANE && memcmp(&before, &todo, sizeof todo) == 0);
}

int main(void) {
  build();
  jobs();
  moments();
  stops();
  links();
  idles();
  rows_of_calls();
  cf_free(&request);
  cf_free(&plan);
  return end_rows();
}
