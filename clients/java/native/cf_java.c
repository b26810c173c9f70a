/* The library's requests as native methods of cf.service.Machine, and its plans and histories as those of cf.internal.Native.
 *
 * A core is a request of the library (docs/REQUEST.md) with a block of memory (block.h) that Java reads and writes by a direct buffer, so that one
 * crossing does some words and brings back the reply, the stages that were settled, and those whose functions are to be called. Its caller
 * has it alone: that is a request's lock. A core whose request is closed keeps what it has, and starts again for the next one of its plan.
 *
 * What the library is owed (docs/C.md), and where it is met:
 *   - a handle isn't copied: each stands in the one block of its core or plan, which isn't moved, and is 0 until it is filled; those of a
 *     history and its plan stand in the one call that has them;
 *   - one call at a time has a handle: a core's by its request's lock (Machine.java), a plan's by the lock beside it, since threads open
 *     requests of one plan at once. Both locks order what different threads do, and so does the atomic by which Machine's pool hands a core on;
 *   - nothing is freed while it is used, or twice: a call is one of the core's machine, which keeps the core and its plan reachable meanwhile, and
 *     Freed.java frees what can't be reached, once;
 *   - pointers are aligned, and to as many elements as said: they are to variables and to the core's own memory. Arrays of Java's are read
 *     within their bounds, whatever numbers are told beside them;
 *   - malloc and free are those of the one C library; no call is made by a handler of signals, and the children that a JVM forks run no Java.
 * Each class loader has a library of its own with variables of its own, and cores of its own: what is left of them when the loader goes,
 * JNI_OnUnload frees. An asynchronous exception (Thread.stop) comes once a call has returned. No JNI function is called with one pending. */
#define _GNU_SOURCE
#include "block.h"
#include <jni.h>
#include <pthread.h>
#include <stddef.h>
#include <stdlib.h>
#include <string.h>
#include <time.h>
#ifdef __x86_64__
#include <cpuid.h>
#include <x86intrin.h>
#endif

enum { FEW = 12 };

/* Of all cores, and of all plans, that aren't freed. It stands first in each. */
struct link {
  struct link *before, *after;
};
static struct link cores = {&cores, &cores}, plans = {&plans, &plans};
static pthread_mutex_t links = PTHREAD_MUTEX_INITIALIZER;

struct core {
  struct link link;
  struct block block;
  cf_handle request;
  const struct plan *plan;     /* of which the request is */
  bool has_executors, settles; /* whether a stage is of that lane; whether the machine may have settled one by itself */
  size_t heard, within;        /* up to which event, and which of its stages, what became ready for executors was told */
  uint64_t *moments;           /* by when events were done, in ticks, and in the lowest 8 bits how many since the moment before */
  size_t most_moments, timed_events;
  uint64_t since; /* when the first word came that waits */
  bool timed;
};

struct plan {
  struct link link;
  cf_handle handle;
  size_t stages;
  uint8_t lanes[MOST];
  bool has_executors;
  pthread_mutex_t lock;
};

static struct plan empty; /* without stages */

#define CORE(at) ((struct core *)(intptr_t)(at))
#define PLAN(at) ((at) ? (struct plan *)(intptr_t)(at) : &empty)
/* Each crossing has a copy of its own of these, which takes a fifth off what the binding does. */
#define INLINE static inline __attribute__((always_inline))
#define METHOD(type, name) JNIEXPORT type JNICALL Java_cf_internal_Native_##name
#define CALL(type, name) JNIEXPORT type JNICALL Java_cf_service_Machine_##name

static void enter(struct link *list, struct link *one) {
  pthread_mutex_lock(&links);
  one->before = list, one->after = list->after;
  list->after = one->after->before = one;
  pthread_mutex_unlock(&links);
}

static void leave(struct link *one) {
  pthread_mutex_lock(&links);
  one->before->after = one->after, one->after->before = one->before;
  pthread_mutex_unlock(&links);
}

/* Times. The processor's counter costs a fifth of a call of the clock. */

static bool has_counter; /* one that runs evenly, also while a core sleeps */
static uint64_t first_tick, first_nano;

static uint64_t nanos(void) {
  struct timespec now;
  clock_gettime(CLOCK_MONOTONIC, &now);
  return (uint64_t)now.tv_sec * 1000000000u + (uint64_t)now.tv_nsec;
}

static uint64_t ticks(void) {
#ifdef __x86_64__
  if (has_counter) return __rdtsc();
#endif
  return nanos();
}

JNIEXPORT jint JNICALL JNI_OnLoad(JavaVM *vm, void *reserved) {
  (void)vm, (void)reserved;
#ifdef __x86_64__
  unsigned a, b, c, d;
  has_counter = __get_cpuid(0x80000007, &a, &b, &c, &d) && d >> 8 & 1;
#endif
  first_tick = ticks(), first_nano = nanos();
  pthread_mutex_init(&empty.lock, NULL);
  if (cf_builder_new(&empty.handle, 0, 0) != CF_OK || cf_build(&empty.handle) != CF_OK) return JNI_ERR;
  return JNI_VERSION_1_8;
}

/* How many nanoseconds a tick takes, as found since the library was loaded. */
METHOD(jdouble, nanosPerTick)(JNIEnv *env, jclass class) {
  (void)env, (void)class;
  if (!has_counter) return 1;
  uint64_t nano, tick;
  do nano = nanos(), tick = ticks();
  while (nano - first_nano < 2000000);
  return (double)(nano - first_nano) / (double)(tick - first_tick);
}

/* All events that have no time yet were done by then. Times never go back. Where there is no memory they get the time of those after them. */
INLINE void time_events(struct core *core, uint64_t at) {
  if (!core->timed) return;
  for (size_t left = (size_t)core->block.events - core->timed_events, some; left > 0; left -= some, core->timed_events += some) {
    size_t n = (size_t)core->block.moments;
    if (n == core->most_moments) {
      uint64_t *more = realloc(core->moments, 2 * n * sizeof *more);
      if (!more) return;
      core->moments = more, core->most_moments = 2 * n;
    }
    some = left < 255 ? left : 255;
    uint64_t moment = at << 8;
    if (n > 0 && moment < core->moments[n - 1]) moment = core->moments[n - 1] & ~(uint64_t)255;
    core->moments[n] = moment | some;
    core->block.moments++;
  }
}

METHOD(jlong, ticks)(JNIEnv *env, jclass class) {
  (void)env, (void)class;
  return (jlong)ticks();
}

/* Of how much of a stack Java throws a StackOverflowError, so that native code has place, and how much more a word wants that is told. */
enum { JAVAS_STACK = 96 << 10, WORDS_STACK = 32 << 10 };

/* A third of what Java leaves of a small stack is a word's. */
METHOD(jboolean, hasStack)(JNIEnv *env, jclass class) {
  (void)env, (void)class;
  static __thread char *least;
  if (!least) {
    pthread_attr_t attributes;
    void *end;
    size_t size;
    if (pthread_getattr_np(pthread_self(), &attributes)) return JNI_TRUE;
    int code = pthread_attr_getstack(&attributes, &end, &size);
    pthread_attr_destroy(&attributes);
    if (code) return JNI_TRUE;
    size_t left = size > JAVAS_STACK ? (size - JAVAS_STACK) / 3 : 0;
    least = (char *)end + JAVAS_STACK + (left < WORDS_STACK ? left : WORDS_STACK);
  }
  return (char *)__builtin_frame_address(0) > least;
}

/* Where a call tells stages that are settled, and for how many there is room. */
#define ROW(core) (core)->block.settled + (core)->block.settled_count, (size_t)(TOLD - (core)->block.settled_count)

/* The last call had stages to tell, which stand in the row as far as there was room. */
INLINE void take(struct core *core) {
  struct block *block = &core->block;
  size_t told = block->todo.told, room = (size_t)(TOLD - block->settled_count);
  block->has_more |= told > room;
  block->settled_count += (int32_t)(told < room ? told : room);
}

/* Whether a word is of this call (docs/FORMATS.md). */
INLINE bool is_call(uint64_t word, uint32_t call) { return word >> 56 == call + 1; }

/* One word, with room for its stage. */
INLINE uint32_t do_word(struct core *core, uint64_t word, uint8_t lane, cf_reply *reply) {
  uint32_t code = cf_request_apply(&core->request, word, lane, reply, ROW(core), &core->block.todo);
  if (code == CF_NO_ROOM) {
    code = cf_request_grow(&core->request);
    if (code == CF_OK) code = cf_request_apply(&core->request, word, lane, reply, ROW(core), &core->block.todo);
  }
  if (code != CF_OK) return code;
  take(core);
  core->block.events++;
  core->has_executors |= lane == BY_EXECUTOR;
  return CF_OK;
}

/* The words that waited: of stages that nothing can be told of yet. A stage that is ready by its own word was handed over as it was attached. */
INLINE uint32_t do_waiting(struct core *core, jint waiting) {
  struct block *block = &core->block;
  bool heard = core->heard == (size_t)block->events;
  uint32_t code = CF_OK;
  cf_reply did;
  block->done = 0;
  if (waiting < 0 || waiting > WORDS) return CF_NO_WORD;
  while (code == CF_OK && block->done < waiting) {
    code = do_word(core, block->words[block->done], block->lanes[block->done], &did);
    if (code == CF_OK) block->done++;
  }
  if (waiting > 0) time_events(core, core->since);
  if (heard) core->heard = (size_t)block->events;
  return code;
}

/* The number of a value, or -1 for null. */
INLINE int32_t number_of(cf_value value) { return value.kind == CF_NIL ? -1 : value.number; }

INLINE void write_claim(struct core *core, uint16_t stage, const cf_args *args) {
  const cf_outcome *outcome = &args->outcome;
  struct claimed it = {.stage = stage, .kind = (uint8_t)args->kind, .first = number_of(args->first), .second = number_of(args->second)};
  if (args->kind == CF_GOT) {
    it.outcome = (uint8_t)outcome->kind, it.is_wrapped = (uint8_t)outcome->wrapped;
    it.first = outcome->kind == CF_VALUE ? number_of(outcome->value) : (int32_t)outcome->code;
  }
  core->block.claimed[core->block.claimed_count++] = it;
}

/* One step of a caller: finishes what the task holds, if it does, and claims the lowest stage whose function the caller calls itself. */
INLINE uint32_t step(struct core *core, uint8_t who, cf_task *task) {
  uint32_t held = task->held, code = cf_request_next(&core->request, who, HERE, task, ROW(core), &core->block.todo);
  if (code != CF_OK && code != CF_NOTHING) return code;
  take(core);
  core->block.events += (int32_t)held + (code == CF_OK);
  if (code == CF_OK) write_claim(core, task->stage, &task->args);
  return CF_OK;
}

/* Claims all other stages whose functions the caller calls itself. What has no place or fails here is done by whoever asks for more. */
INLINE uint32_t claim_all(struct core *core, jint who) {
  const uint16_t *left = &core->block.todo.ready[HERE];
  uint32_t code = CF_OK;
  while (who >= 0 && *left > 0 && code == CF_OK && core->block.claimed_count < CLAIMED) {
    cf_task task = {0};
    code = step(core, (uint8_t)who, &task);
  }
  core->block.has_more |= who >= 0 && (*left > 0 || code != CF_OK);
  return code;
}

/* Which stages became ready whose functions executors call, by the events that weren't looked at. What is ready is of no other lane, once all
 * that was ready for the thread that calls is claimed. */
static void hear(struct core *core) {
  struct block *block = &core->block;
  const uint16_t *ready = block->todo.ready;
  uint16_t stages[MOST];
  if (ready[BY_EXECUTOR] > 0 && ready[HERE] > 0) return;
  for (; ready[BY_EXECUTOR] > 0 && core->heard < (size_t)block->events; core->heard++, core->within = 0) {
    size_t n = 0;
    cf_ledger_news(&core->request, core->heard, stages, MOST, &n);
    for (; core->within < n; core->within++) {
      uint16_t stage = stages[core->within];
      cf_stage now;
      if (cf_ledger_stage(&core->request, stage, &now) != CF_OK || now.kind != CF_IS_READY) continue;
      if (block->ready_count == READY) {
        block->has_more = true;
        return;
      }
      block->ready[block->ready_count++] = stage;
    }
  }
  core->heard = (size_t)block->events, core->within = 0;
}

/* The beginning of a crossing: nothing is brought yet. */
INLINE struct core *begin(jlong at) {
  struct block *block = &CORE(at)->block;
  block->answer = block->settled_count = block->claimed_count = block->ready_count = block->has_more = block->has_words = 0;
  return CORE(at);
}

/* The end of a crossing, which gives its code. */
INLINE jint end(struct core *core, uint32_t code) {
  struct block *block = &core->block;
  size_t left;
  if (core->settles && cf_ledger_words(&core->request, (size_t)block->events, NULL, 0, &left) == CF_OK) block->events += (int32_t)left;
  if (core->has_executors) hear(core);
  else core->heard = (size_t)block->events;
  time_events(core, ticks());
  return (jint)code;
}

/* Does the words that wait, and then this one, if it isn't 0. Where `who` isn't negative, it claims for that caller: the stage that the word
 * claims, or else all that are ready for whoever made them ready. */
INLINE jint apply(jlong at, jint waiting, jlong word, jint lane, jint who) {
  struct core *core = begin(at);
  cf_reply *reply = &core->block.reply;
  uint32_t code = do_waiting(core, waiting);
  if (code == CF_OK && word != 0) code = do_word(core, (uint64_t)word, (uint8_t)lane, reply);
  if (code == CF_OK && word != 0) {
    core->block.answer = (int32_t)reply->answer;
    if (!is_call((uint64_t)word, CF_CALL_CLAIM)) claim_all(core, who);
    else if (who >= 0 && reply->answer == CF_GRANTED) write_claim(core, (uint16_t)(word >> 36 & 0xfff), &reply->args);
  }
  return end(core, code);
}

CALL(jint, apply)(JNIEnv *env, jobject machine, jlong at, jint waiting, jlong word, jint lane, jint who) {
  (void)env, (void)machine;
  return apply(at, waiting, word, lane, who);
}

/* The words, and behind them their moments, where words wait, if they are so few that Java reads them faster than it asks for them. */
INLINE bool write_words(struct core *core) {
  struct block *block = &core->block;
  size_t events = (size_t)block->events, moments = (size_t)block->moments, left = 0;
  if (events + moments > FEW || cf_ledger_words(&core->request, 0, block->words, events, &left) != CF_OK || left != events) return false;
  memcpy(block->words + events, core->moments, moments * sizeof *core->moments);
  return true;
}

/* The finish of a stage that somebody else has settled: its word says so. */
static uint32_t finish_late(struct core *core, uint8_t who, const cf_task *task, cf_reply *reply) {
  cf_event event = {.call = CF_CALL_FINISH, .who = who, .stage = task->stage, .answer = task->answer};
  uint64_t word;
  uint32_t code = cf_word_of_event(&event, &word);
  return code == CF_OK ? do_word(core, word, HERE, reply) : code;
}

/* Finishes a stage that the caller has claimed, by a value's number, -1 for null, or by an exception's code. Then it claims as `apply` does.
 * Where this is the last finish, it also brings the words, if they are few. */
CALL(jint, finish)
(JNIEnv *env, jobject machine, jlong at, jint waiting, jint stage, jboolean throws, jint number, jint who, jboolean last) {
  (void)env, (void)machine;
  struct core *core = begin(at);
  cf_task task = {.held = 1, .stage = (uint16_t)stage};
  task.answer.kind = throws ? CF_THROW : CF_GIVE, task.answer.code = (uint32_t)number;
  task.answer.value.kind = number < 0 ? CF_NIL : CF_INT, task.answer.value.number = number < 0 ? 0 : number;
  uint32_t code = do_waiting(core, waiting);
  if (code == CF_OK) code = step(core, (uint8_t)who, &task);
  core->block.answer = (int32_t)task.finished;
  if (code == CF_NOT_HELD) {
    cf_reply did = {0};
    code = finish_late(core, (uint8_t)who, &task, &did);
    core->block.answer = (int32_t)did.answer;
  }
  if (code == CF_OK && task.held) claim_all(core, who);
  code = (uint32_t)end(core, code);
  core->block.has_words = last && code == CF_OK && write_words(core);
  return (jint)code;
}

/* Finishes a stage by this word, which links it to a relay, unless it is 0. If that was in time, the relay follows a stage from now on. */
CALL(jint, link)(JNIEnv *env, jobject machine, jlong at, jint waiting, jlong word, jint relay, jint stage, jint who) {
  (void)env, (void)machine;
  cf_reply did = {0};
  struct core *core = begin(at);
  uint32_t code = do_waiting(core, waiting);
  if (code == CF_OK && word != 0) code = do_word(core, (uint64_t)word, HERE, &did);
  if (code != CF_OK) return end(core, code);
  core->block.answer = (int32_t)did.answer;
  if (did.answer == CF_WON && relay >= 0) {
    core->settles = true;
    code = cf_request_follow(&core->request, (uint16_t)relay, (uint16_t)stage, ROW(core), &core->block.todo);
    if (code == CF_OK) take(core);
  }
  claim_all(core, who);
  return end(core, code);
}

/* Does the words that wait, and attaches stages of this form that wait for all of these stages, or for one of them: no function is ready then. */
CALL(jint, gather)(JNIEnv *env, jobject machine, jlong at, jint waiting, jint form, jshortArray sources, jint who) {
  (void)machine;
  cf_request_gathering step = {.who = (uint8_t)who, .form = (uint32_t)form};
  struct core *core = begin(at);
  uint32_t code = do_waiting(core, waiting);
  if (code != CF_OK) return end(core, code);
  bool heard = core->heard == (size_t)core->block.events;
  jsize n = (*env)->GetArrayLength(env, sources);
  jshort *of = (*env)->GetShortArrayElements(env, sources, NULL);
  if (!of) return end(core, CF_NO_MEMORY);
  do code = cf_request_gather(&core->request, &step, (const uint16_t *)of, (size_t)n, ROW(core), &core->block.todo);
  while (code == CF_NO_ROOM && (code = cf_request_grow(&core->request)) == CF_OK);
  (*env)->ReleaseShortArrayElements(env, sources, of, JNI_ABORT);
  if (code != CF_OK) return end(core, code);
  take(core);
  core->block.events += n > 2 ? n - 1 : 1;
  if (heard) core->heard = (size_t)core->block.events;
  return end(core, code);
}

/* Does the words that wait, and lets a stage end once so many of these have values, or too few can have them still, or be cancelled then. */
CALL(jint, join)
(JNIEnv *env, jobject machine, jlong at, jint waiting, jint stage, jint wanted, jshortArray sources, jboolean cancels, jint who) {
  (void)machine;
  const cf_request_joining step = {.stage = (uint16_t)stage, .wanted = (uint16_t)wanted, .cancels = cancels};
  struct core *core = begin(at);
  uint32_t code = do_waiting(core, waiting);
  if (code != CF_OK) return end(core, code);
  jsize n = (*env)->GetArrayLength(env, sources);
  jshort *of = (*env)->GetShortArrayElements(env, sources, NULL);
  if (!of) return end(core, CF_NO_MEMORY);
  core->settles = true;
  code = cf_request_join(&core->request, &step, (const uint16_t *)of, (size_t)n, ROW(core), &core->block.todo);
  (*env)->ReleaseShortArrayElements(env, sources, of, JNI_ABORT);
  if (code == CF_OK) {
    take(core);
    code = claim_all(core, who);
  }
  return end(core, code);
}

/* Does the words that wait, and sets a deadline of a stage: it times out then with this number as its code, or gets the value of this number, -1 for
 * null. */
CALL(jint, setDeadline)(JNIEnv *env, jobject machine, jlong at, jint waiting, jint stage, jlong moment, jboolean gives, jint number) {
  (void)env, (void)machine;
  struct core *core = begin(at);
  cf_value value = {number < 0 ? CF_NIL : CF_INT, number < 0 ? 0 : number};
  core->settles = true;
  uint32_t code = do_waiting(core, waiting), kind = gives ? CF_GIVE_VALUE : CF_TIMEOUT;
  if (code == CF_OK)
    code = cf_request_deadline(&core->request, (uint16_t)stage, (uint64_t)moment, kind, (uint32_t)number, value, &core->block.todo);
  return end(core, code);
}

/* Lets time pass up to a moment. */
CALL(jint, passTimeTo)(JNIEnv *env, jobject machine, jlong at, jint waiting, jlong moment, jint who) {
  (void)env, (void)machine;
  struct core *core = begin(at);
  uint32_t code = do_waiting(core, waiting);
  if (code == CF_OK) code = cf_request_pass(&core->request, (uint64_t)moment, ROW(core), &core->block.todo);
  if (code == CF_OK) take(core), claim_all(core, who);
  return end(core, code == CF_PAST_MOMENT ? CF_OK : code);
}

/* What had no place. */
CALL(jint, fetchMore)(JNIEnv *env, jobject machine, jlong at, jint who) {
  (void)env, (void)machine;
  struct core *core = begin(at);
  cf_request_told(&core->request, ROW(core), &core->block.todo);
  take(core);
  uint32_t code = claim_all(core, who);
  return end(core, core->block.settled_count + core->block.claimed_count > 0 ? CF_OK : code);
}

/* How a stage was settled, in the first place of those that are told: that is CF_PENDING where it wasn't. */
CALL(jint, fetchOutcome)(JNIEnv *env, jobject machine, jlong at, jint stage) {
  (void)env, (void)machine;
  struct core *core = CORE(at);
  cf_stage now;
  uint32_t code = cf_ledger_stage(&core->request, (uint16_t)stage, &now);
  if (code == CF_OK) core->block.settled[0] = (cf_told){.stage = (uint16_t)stage, .outcome = now.outcome};
  return (jint)code;
}

/* How many stages for executors are ready, from a number on, and which: as many as there is place for. */
CALL(jint, fetchReady)(JNIEnv *env, jobject machine, jlong at, jint from) {
  (void)env, (void)machine;
  struct core *core = CORE(at);
  uint16_t stage;
  jint n = 0;
  for (; n < READY && cf_ledger_ready(&core->request, (uint16_t)from, &stage) == CF_OK; from = stage + 1) core->block.ready[n++] = stage;
  return n;
}

/* A machine that isn't opened, or 0 where there is no memory. */
CALL(jlong, create)(JNIEnv *env, jclass class, jboolean timed) {
  (void)env, (void)class;
  struct core *core = calloc(1, sizeof *core);
  if (!core) return 0;
  core->timed = timed, core->most_moments = 32;
  core->moments = malloc(core->most_moments * sizeof *core->moments);
  if (core->moments) {
    enter(&cores, &core->link);
    return (jlong)(intptr_t)core;
  }
  free(core);
  return 0;
}

CALL(jobject, memory)(JNIEnv *env, jclass class, jlong at) {
  (void)class;
  return (*env)->NewDirectByteBuffer(env, &CORE(at)->block, sizeof(struct block));
}

static void free_core(struct core *core) {
  leave(&core->link);
  cf_free(&core->request);
  free(core->moments);
  free(core);
}

CALL(void, destroy)(JNIEnv *env, jclass class, jlong at) {
  (void)env, (void)class;
  free_core(CORE(at));
}

CALL(void, setSince)(JNIEnv *env, jobject machine, jlong at, jlong since) {
  (void)env, (void)machine;
  CORE(at)->since = since ? (uint64_t)since : ticks();
}

/* Of a plan, as at its start. */
INLINE uint32_t open_anew(struct core *core, struct plan *plan, jint room) {
  core->block.moments = core->block.events = 0, core->timed_events = 0;
  core->heard = core->within = 0, core->settles = false;
  core->block.todo = (cf_todo){.moment = CF_NEVER};
  core->has_executors = plan->has_executors;
  if (core->request.full && core->plan == plan) return cf_request_restart(&core->request);
  cf_request_sizes sizes = {(uint16_t)room, LANES, CLOCK};
  cf_free(&core->request);
  core->plan = plan;
  pthread_mutex_lock(&plan->lock);
  uint32_t code = cf_request_new(&plan->handle, &sizes, plan->lanes, plan->stages, &core->request);
  pthread_mutex_unlock(&plan->lock);
  return code;
}

/* Does words that were done before, of which everything was told. A bit says of a stage whether an executor calls its function. */
static uint32_t do_again(struct core *core, const jlong *words, jint n, const jlong *executors, jsize length) {
  uint32_t code = CF_OK;
  cf_reply did;
  for (jint k = 0, stage = (jint)core->plan->stages; k < n && code == CF_OK; k++) {
    bool attaches = is_call((uint64_t)words[k], CF_CALL_ATTACH);
    uint8_t lane = attaches && stage / 64 < length && (uint64_t)executors[stage / 64] >> stage % 64 & 1 ? BY_EXECUTOR : HERE;
    code = do_word(core, (uint64_t)words[k], lane, &did);
    stage += attaches, core->block.settled_count = 0;
  }
  do code = code == CF_OK ? cf_request_told(&core->request, ROW(core), &core->block.todo) : code;
  while (code == CF_OK && core->block.todo.told > TOLD);
  return code;
}

/* A request of the plan, or of none where it is 0, in which the first n of these words are done already; behind them stand their moments. */
CALL(jint, open)(JNIEnv *env, jobject machine, jlong at, jlong plan, jint room, jlongArray kept, jint n, jlongArray executors) {
  (void)machine;
  struct core *core = CORE(at);
  if (room < 0 || room > MOST) return CF_ROOM;
  jsize length = kept ? (*env)->GetArrayLength(env, kept) : 0, bits = executors ? (*env)->GetArrayLength(env, executors) : 0;
  if (n < 0 || n > length) return CF_NO_WORD;
  begin(at);
  uint32_t code = open_anew(core, PLAN(plan), room);
  if (!n || code != CF_OK) return (jint)code;
  jlong *done = (*env)->GetLongArrayElements(env, kept, NULL),
        *own = done && bits ? (*env)->GetLongArrayElements(env, executors, NULL) : NULL;
  code = !done || (bits && !own) ? CF_NO_MEMORY : do_again(core, done, n, own, bits);
  if (code == CF_OK) {
    core->block.events = 0;
    for (jsize k = n; k < length; k++) {
      core->block.events += (int32_t)(done[k] & 255);
      if (core->block.events > n) core->block.events = n;
      time_events(core, (uint64_t)done[k] >> 8);
    }
  }
  if (done) (*env)->ReleaseLongArrayElements(env, kept, done, JNI_ABORT);
  if (own) (*env)->ReleaseLongArrayElements(env, executors, own, JNI_ABORT);
  core->block.events = n, core->heard = (size_t)n;
  return (jint)code;
}

/* Opens a request of no plan for two words: one that attaches a stage whose function an executor calls, which came at that moment, and then one
 * as `apply` does it. Where it is refused, the core is of no use. */
CALL(jint, openWith)(JNIEnv *env, jobject machine, jlong at, jlong attach, jlong since, jlong word, jint who) {
  (void)env, (void)machine;
  struct core *core = CORE(at);
  uint32_t code = open_anew(core, &empty, 1);
  if (code != CF_OK) return (jint)code;
  core->block.words[0] = (uint64_t)attach, core->block.lanes[0] = BY_EXECUTOR, core->since = (uint64_t)since;
  return apply(at, 1, word, HERE, who);
}

/* The n words from a place on, and behind them the moments for which there is place. */
CALL(jint, words)(JNIEnv *env, jobject machine, jlong at, jlongArray into, jint from, jint n) {
  (void)machine;
  struct core *core = CORE(at);
  uint64_t words[512];
  size_t left;
  jsize place = (*env)->GetArrayLength(env, into) - n, moments = core->block.moments;
  if (from < 0 || n < 0 || place < 0) return CF_NO_WORD;
  for (jint k = 0, part; k < n; k += part) {
    uint32_t code = cf_ledger_words(&core->request, (size_t)from + (size_t)k, words, 512, &left);
    if (code != CF_OK) return (jint)code;
    part = n - k < 512 ? n - k : 512;
    if ((size_t)part > left) return CF_NO_WORD;
    (*env)->SetLongArrayRegion(env, into, k, part, (const jlong *)words);
  }
  (*env)->SetLongArrayRegion(env, into, n, place < moments ? place : moments, (const jlong *)core->moments);
  return CF_OK;
}

uint32_t build_plan(cf_handle *plan, const int32_t *rows, int32_t n, uint8_t *lanes, size_t *stages) {
  uint32_t code = cf_builder_new(plan, 0, 0);
  for (int32_t at = 0; code == CF_OK && at < n; *stages += code == CF_OK) {
    const int32_t *row = rows + at, left = n - at;
    uint16_t of[MOST], stage;
    if (left < PLAN_ROW || row[2] < 0 || row[2] > MOST || row[2] > left - PLAN_ROW) return CF_WRONG_SOURCE_COUNT;
    for (int32_t k = 0; k < row[2]; k++) {
      int32_t source = row[PLAN_ROW + k];
      of[k] = source < 0 || source >= MOST ? UINT16_MAX : (uint16_t)source;
    }
    uint32_t function = row[1] < 0 ? CF_NO_FUNCTION : (uint32_t)row[1];
    code = cf_builder_stage(plan, (uint32_t)row[0] & ~(uint32_t)FOR_EXECUTOR, of, (size_t)row[2], function, &stage);
    if (code == CF_OK && lanes) lanes[stage] = row[0] & FOR_EXECUTOR ? BY_EXECUTOR : HERE;
    at += PLAN_ROW + row[2];
  }
  return code == CF_OK ? cf_build(plan) : code;
}

static uint32_t build(JNIEnv *env, jintArray rows, struct plan *plan) {
  jint *row = (*env)->GetIntArrayElements(env, rows, NULL);
  uint32_t code = row ? build_plan(&plan->handle, row, (*env)->GetArrayLength(env, rows), plan->lanes, &plan->stages) : CF_NO_MEMORY;
  if (row) (*env)->ReleaseIntArrayElements(env, rows, row, JNI_ABORT);
  plan->has_executors = memchr(plan->lanes, BY_EXECUTOR, plan->stages) != NULL;
  if (code != CF_OK) cf_free(&plan->handle);
  return code;
}

/* The plan of these rows, or the fault's code, negated. */
METHOD(jlong, plan)(JNIEnv *env, jclass class, jintArray rows) {
  (void)class;
  struct plan *plan = calloc(1, sizeof *plan);
  uint32_t code = plan ? build(env, rows, plan) : CF_NO_MEMORY;
  if (code != CF_OK) {
    free(plan);
    return -(jlong)code;
  }
  pthread_mutex_init(&plan->lock, NULL);
  enter(&plans, &plan->link);
  return (jlong)(intptr_t)plan;
}

static void free_plan(struct plan *plan) {
  leave(&plan->link);
  cf_free(&plan->handle);
  pthread_mutex_destroy(&plan->lock);
  free(plan);
}

METHOD(void, forget)(JNIEnv *env, jclass class, jlong plan) {
  (void)env, (void)class;
  free_plan(PLAN(plan));
}

/* Histories. One is made, told once and freed within one call. */

/* Says all texts, which stand one behind the other: of each CF_SAY_.. in its order how many there are, and how many bytes each has. */
static uint32_t say_all(cf_handle *history, const uint8_t *text, size_t n, const jint *lengths, size_t count) {
  size_t *ends = malloc((count + 1) * sizeof *ends), at = 0;
  uint32_t code = ends ? CF_OK : CF_NO_MEMORY;
  for (uint32_t what = CF_SAY_NAME; what <= CF_SAY_ERRORS && at < count && code == CF_OK; what++) {
    size_t texts = (size_t)lengths[at++], bytes = 0;
    if (texts > count - at) code = CF_TOO_MANY;
    for (size_t k = 0; k < texts && code == CF_OK; k++) {
      size_t length = (size_t)lengths[at++];
      if (length > n - bytes) code = CF_BAD_TEXT;
      else ends[k] = bytes += length;
    }
    if (code == CF_OK) code = cf_history_say(history, what, text, bytes, ends, texts);
    text += bytes, n -= bytes;
  }
  free(ends);
  return code;
}

/* The whole text. A buffer of this room is tried first. */
static uint32_t tell(JNIEnv *env, cf_handle *history, uint32_t kind, size_t room, jobjectArray told) {
  uint8_t *text = malloc(room);
  size_t length = 0;
  uint32_t code = text ? cf_history_text(history, kind, text, room, &length) : CF_NO_MEMORY;
  if (code == CF_OK && length > room) {
    uint8_t *more = length > INT32_MAX ? NULL : realloc(text, length);
    if (more) text = more;
    code = more ? cf_history_text(history, kind, text, length, &length) : CF_NO_MEMORY;
  }
  jbyteArray bytes = code == CF_OK ? (*env)->NewByteArray(env, (jsize)length) : NULL;
  if (bytes) {
    (*env)->SetByteArrayRegion(env, bytes, 0, (jsize)length, (const jbyte *)text);
    (*env)->SetObjectArrayElement(env, told, 0, bytes);
  }
  free(text);
  return code;
}

/* What words did to the plan of these rows, with so many nanoseconds for each word, or none, and with what is said, as say_all has it. The
 * one place of `told` gets the text. Where the heap has no room for that, an OutOfMemoryError is thrown. */
METHOD(jint, tale)
(JNIEnv *env, jclass class, jintArray rows, jint room, jlongArray words, jlongArray times, jbyteArray texts, jintArray lengths, jint kind,
    jobjectArray told) {
  (void)class;
  cf_handle history = {0};
  if (room > MOST || room < 0) return CF_ROOM;
  struct plan *plan = calloc(1, sizeof *plan);
  if (!plan) return CF_NO_MEMORY;
  jsize n = (*env)->GetArrayLength(env, words), timed = (*env)->GetArrayLength(env, times);
  jlong *word = (*env)->GetLongArrayElements(env, words, NULL), *time = word ? (*env)->GetLongArrayElements(env, times, NULL) : NULL;
  jbyte *text = time ? (*env)->GetByteArrayElements(env, texts, NULL) : NULL;
  jint *length = text ? (*env)->GetIntArrayElements(env, lengths, NULL) : NULL;
  uint32_t code = length ? build(env, rows, plan) : CF_NO_MEMORY;
  if (code == CF_OK) code = cf_history_new(&plan->handle, (uint16_t)room, (const uint64_t *)word, (size_t)n, &history);
  if (code == CF_OK) code = cf_history_times(&history, (const uint64_t *)time, (size_t)timed);
  if (code == CF_OK)
    code = say_all(
        &history, (const uint8_t *)text, (size_t)(*env)->GetArrayLength(env, texts), length, (size_t)(*env)->GetArrayLength(env, lengths));
  if (length) (*env)->ReleaseIntArrayElements(env, lengths, length, JNI_ABORT);
  if (text) (*env)->ReleaseByteArrayElements(env, texts, text, JNI_ABORT);
  if (time) (*env)->ReleaseLongArrayElements(env, times, time, JNI_ABORT);
  if (word) (*env)->ReleaseLongArrayElements(env, words, word, JNI_ABORT);
  if (code == CF_OK) code = tell(env, &history, (uint32_t)kind, 4096 + 256 * (size_t)n, told);
  cf_free(&history);
  cf_free(&plan->handle);
  free(plan);
  return (jint)code;
}

JNIEXPORT void JNICALL JNI_OnUnload(JavaVM *vm, void *reserved) {
  (void)vm, (void)reserved;
  while (cores.after != &cores) free_core((struct core *)cores.after);
  while (plans.after != &plans) free_plan((struct plan *)plans.after);
  cf_free(&empty.handle);
  pthread_mutex_destroy(&empty.lock);
}

METHOD(jstring, version)(JNIEnv *env, jclass class) {
  (void)class;
  return (*env)->NewStringUTF(env, cf_version());
}
