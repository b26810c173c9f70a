/* The parts of cf.service where its time goes. What isn't hot stands in Python, in `cf/service/_core.py`.
 *
 * It is written for the limited API of CPython 3.8, so that one build serves that version and all later ones.
 *
 * A request is a machine of the library (docs/REQUEST.md), and beside each of its words the time, beside each of its
 * stages the future and what was told of it. A call of the machine and the writing down of what came of it are one
 * step (`apply`, `note`). Nothing of Python's runs meanwhile: no object that is collected is made and none is freed, no
 * signal is handled, and the interpreter's lock isn't let go. That makes it one step for all threads, without a lock of
 * its own. Whatever may run anything is done behind it, by `tell`. An attach behind open stages has nothing to tell
 * (`may_wait`): its time is written down, and its word waits for the next call, which does it first.
 *
 * Each interpreter that imports this has a `State` of its own, with its own types. Objects hold the module, and so
 * outlive no State.
 *
 * How it meets what C owes the library (docs/C.md):
 *   - a handle is used by one thread at a time, which has the interpreter's lock: no call of the library runs
 *     Python, and none lets it go;
 *   - a handle stands in memory of its own, is never copied, and is freed once: where its request is freed, or, if
 *     that leaves it to the next request of its plan, with the plan. It is one request's, or in one pool. A request that
 *     wasn't opened, or whose opening failed, has none, and each call answers CF_NULL;
 *   - pointers are to the object's own memory and to the State's `told`, which has room for as many stages as a
 *     request may have;
 *   - rows are as many as the machine has stages or more: each number from Python is checked before it gets into
 *     a word, so no word is of another kind than is meant, and what the machine attaches has its row before;
 *   - calls are made in a child of `fork` all the same: nobody forks within a call, so the handles are whole there,
 *     and so is the memory, by glibc's and musl's own care for a child. */
#define PY_SSIZE_T_CLEAN
#define Py_LIMITED_API 0x03080000
#include <Python.h>
#include <structmember.h>
#include <stdlib.h>
#include <string.h>
#include <time.h>
#include "cf.h"

/* What later versions have: a flag of methods, which 3.8 knows and doesn't name, and a slot of modules, of 3.12. */
#ifndef METH_FASTCALL
enum { METH_FASTCALL = 0x0080 };
#endif
enum { MULTIPLE_INTERPRETERS = 3, OWN_GIL = 2 };

enum { MOST = 4096, CALLERS = 64, NONE = 0xFFFF, THIS_THREAD = -1 };
/* In whose name a machine itself settles stages: CLOCK of words.py. */
enum { OWN = 1 };
/* Calls of Python's beyond its limit for what has to be told, and how often that is tried. */
enum { DEEPER = 200, TRIES = 100 };
/* How many attaches wait for the next call of the machine at most. */
enum { WAITING = 8 };
/* How many machines of a plan are kept for its next requests: of requests of few stages, and of others, which have so many
 * stages at most. */
enum { KEPT = 1024, FEW = 4, LARGE_KEPT = 32, MOST_KEPT = 256 };
/* The kinds of words; and how a stage is failed with a bad answer, which is a FAIL_AS, too. */
enum { COMPLETE = 1, FAIL = 2, CANCEL = 3, CLAIM = 4, FINISH = 5, ATTACH = 7, FAIL_AS = 8, FAIL_BADLY = 9 };
enum { GIVING = 1, RAISING = 2, LINKING = 3 }; /* how a stage is finished: GIVES, THROWS and LINKS of words.py */
enum { JOIN = 1, SCOPE = 2 }; /* for what a stage may stand, which nobody waits for by itself then: JOIN of words.py, or a scope */
#define KIND(kind) ((uint64_t)(kind) << 56)
#define WHO(who) ((uint64_t)(who) << 48)
#define OF(stage) ((uint64_t)(stage) << 36)
#define GIVES (1ULL << 32)
#define THROWS (2ULL << 32)
#define LINKS (3ULL << 32)

static _Thread_local int caller; /* which caller this thread is */
/* Whose function this thread runs, and which. They are borrowed, from who calls it. */
static _Thread_local struct {
  const void *request;
  uint16_t stage;
} at_work;
static const uint8_t lanes[MOST]; /* each stage is of the only lane */
static bool visits_types;         /* whether an object visits its type; before 3.9 that is done by Python for it */

/* Names that are looked for often, each by its place in a table. */
enum { PUT, REFUSE, HAND_ON, SET_ALARM, STOP, SHOW, LOG, RELAY, LINK, CONDITION, RESULT, RING, NAMES };
static const char MODULE[] = "_module";
static PyModuleDef definition;
static const char *const names[NAMES] = {"put", "_refuse_ready", "_give_chosen_turns", "_set_alarm", "_stop", "_show", "_log", "relay",
    "_link", "_new_condition", "_awaited_result", "ring"};

/* What one interpreter has of this. */
typedef struct {
  PyObject *module;                   /* whose state it is, borrowed */
  cf_told *told;                      /* what the last call told: MOST of them */
  cf_request_call calls[WAITING + 1]; /* of a row of calls */
  uint32_t forks;                     /* how many forks lie between the first process and this one */
  PyTypeObject *stage_core;
  PyObject *names[NAMES];
} State;

/* A plan, which `owner` keeps, and machines of requests of it that are over, which start again for the next ones.
 * `forms` are those of its stages. */
typedef struct {
  uint32_t many, most, stages;
  cf_handle *machines[KEPT], *plan;
  PyObject *owner;
  uint8_t forms[];
} Pool;
static const char POOL[] = "cf._cf.pool";

/* What stands beside a stage. `told` is pending until the stage is settled. `stage` is its future, which is held until
 * all was told of it, and may be missing of a planned one. `scope` is the stage of the scope that it is of, and `by` the one
 * whose function attached it, each plus 1, or 0. */
typedef struct {
  cf_outcome told;
  uint16_t next_settled, scope, by;
  uint8_t form;
  bool running, stops; /* whether its function runs, and whether it still did as the stage was told */
  uint8_t aid;         /* JOIN or SCOPE where it stands for one */
  bool is_taken;       /* whether somebody takes its failure over: a stage behind it, or who asked for its result */
  PyObject *stage;
} Row;

/* The works are given the request once for each function that becomes ready. That is a turn, a job of `todo`: who has it
 * runs whichever function is the lowest ready one then. There are as many turns as ready functions, or more, and one for
 * which none is left does nothing. */
typedef struct {
  PyObject_HEAD State *state;
  cf_handle *machine;
  Pool *pool;
  cf_todo todo;
  uint64_t passed;                                        /* the moment up to which time has passed */
  uint32_t room, most, stages, events, event_room, forks; /* `room` and `event_room` are of rows and times; forks as in a stage */
  uint32_t waits;                                         /* so many words of attaches, which wait for the next call of the machine */
  uint64_t waiting[WAITING];
  bool counts, untold; /* whether words are counted, as the machine may do some by itself, and stages are left to be told */
  bool chooses;        /* whether its class chooses who has a turn */
  uint16_t scope;      /* the stage of the scope that all its later stages are of, plus 1, or 0 */
  Row *rows;
  int64_t *times; /* of each word, in nanoseconds */
  PyTypeObject *stage_class;
  PyObject *works, *names, *values, *errors;
  PyObject *kept, *calls; /* a capsule of the Pool, and the functions of its plan's stages */
  PyObject *bells;        /* of those who wait for the stages of a scope, as a tuple: they are rung after each call. Or NULL */
} Request;

/* A future. `given` is its value, or the exception that somebody gave, and NULL where nobody did. */
typedef struct {
  PyObject_HEAD State *state;
  Request *request;
  uint16_t number;
  uint8_t form, ended; /* the kind of its outcome */
  bool is_cancelled;   /* by a cancellation of its own */
  bool shown;          /* to those who wait, and to callbacks */
  bool running;        /* as in the row, or as somebody said */
  uint32_t forks;      /* as the process had when it was made or looked at */
  uint32_t told;       /* how many of those who wait know */
  PyObject *given, *call, *args, *kwargs, *callbacks, *condition, *waiters;
} Stage;

/* What came of calls: the stages with a future that they settled, as a list through their rows, whether a turn is to be
 * given, and whether the next deadline is another one. */
typedef struct {
  uint16_t settled, last_settled;
  bool is_ready, is_other_moment;
} News;
static const News NO_NEWS = {NONE, NONE, false, false};

static void *zeroed(size_t size) {
  void *made = PyMem_Malloc(size);
  return made ? memset(made, 0, size) : NULL;
}

/* Raises that a request has all the stages that it may have. */
static PyObject *full(Request *self) {
  Py_XDECREF(PyObject_CallMethod((PyObject *)self, "_refuse_stage", NULL));
  return NULL;
}

static PyObject *refused(Request *self, uint32_t code) {
  if (code == CF_NO_MEMORY) return PyErr_NoMemory();
  const char *name = cf_code_name(code);
  return code == CF_ROOM ? full(self) : PyErr_Format(PyExc_RuntimeError, "refused: %s", name ? name : "?");
}

/* ---- What the numbers of the library stand for ---- */

static int kept(PyObject *list, PyObject *thing, uint32_t *number) {
  if (!list) {
    PyErr_SetString(PyExc_RuntimeError, "the request isn't opened");
    return -1;
  }
  *number = (uint32_t)PyList_Size(list);
  return PyList_Append(list, thing);
}

/* The last bits of a word that gives a value. */
static int value_in(Request *self, PyObject *value, uint64_t *low) {
  uint32_t number = 0;
  if (value != Py_None && kept(self->values, value, &number)) return -1;
  *low = value != Py_None ? GIVES | number : 0;
  return 0;
}

static PyObject *item(PyObject *list, uint32_t number) {
  PyObject *found = number < (size_t)PyList_Size(list) ? PyList_GetItem(list, number) : Py_None;
  Py_INCREF(found);
  return found;
}

static PyObject *value_out(Request *self, cf_value value) { return item(self->values, value.kind ? (uint32_t)value.number : UINT32_MAX); }

/* The exception that somebody gave for an outcome, or the `Limit` that makes it; None where nobody did. */
static PyObject *error_out(Request *self, cf_outcome outcome) {
  return item(self->errors, outcome.kind == CF_THROWN || outcome.code ? outcome.code : UINT32_MAX);
}

static bool composes(long form) { return form == CF_COMPOSE || form == CF_EXCEPTIONALLY_COMPOSE; }
static bool gathers(long form) { return form == CF_ALL_OF || form == CF_ANY_OF; }

/* Lets the future of a stage tell what its row does. */
static void publish(Request *self, Stage *stage, const Row *row) {
  stage->given = row->told.kind == CF_VALUE ? value_out(self, row->told.value) : error_out(self, row->told);
  stage->is_cancelled = row->told.kind == CF_CANCELLED && !row->told.wrapped;
  stage->ended = (uint8_t)row->told.kind;
}

/* ---- One call of the machine ---- */

/* Writes down when these words were done. Where there is no memory, the next call does it. At first there is some for a
 * request whose stages are each attached, claimed and finished. */
static void stamp(Request *self, size_t words) {
  if (self->counts) cf_ledger_words(self->machine, self->events, NULL, 0, &words);
  uint32_t least = self->events + (uint32_t)words;
  if (least > self->event_room) {
    uint32_t room = self->event_room ? 2 * self->event_room : self->room < 64 ? 3 * self->room + 1 : 192;
    if (room < least) room = least;
    int64_t *times = PyMem_Realloc(self->times, room * sizeof *times);
    if (!times) {
      self->counts = true;
      return;
    }
    self->times = times;
    self->event_room = room;
  }
  struct timespec now = {0};
  if (words) clock_gettime(CLOCK_MONOTONIC, &now);
  while (self->events < least) self->times[self->events++] = now.tv_sec * 1000000000LL + now.tv_nsec;
}

/* Writes down a call that did so many words, and what its `todo` says. */
static void note(Request *self, size_t words, News *news) {
  stamp(self, words);
  for (size_t k = 0; k < self->todo.told; k++) {
    const cf_told *told = &self->state->told[k];
    Row *row = &self->rows[told->stage];
    row->told = told->outcome;
    row->stops = told->stop != 0;
    if (!row->stage) continue; /* (nobody has its future, so nobody is to be told) */
    publish(self, (Stage *)row->stage, row);
    row->next_settled = NONE;
    if (news->last_settled == NONE) news->settled = told->stage;
    else self->rows[news->last_settled].next_settled = told->stage;
    news->last_settled = told->stage;
  }
  news->is_ready |= (self->todo.news & CF_NEWS_READY) != 0;
  news->is_other_moment |= (self->todo.news & CF_NEWS_MOMENT) != 0;
}

/* What each call of the machine is given to write down what it tells. */
#define TELLING self->state->told, MOST, &self->todo

/* Does the attaches that wait, and behind them so many calls of the State's row, all in one. The code of the library: if one
 * is refused, it waits on, and so do all behind it. */
static uint32_t do_row(Request *self, size_t more, size_t room) {
  cf_request_call *calls = self->state->calls;
  size_t many = self->waits, at = 0, done;
  uint32_t code;
  for (size_t k = 0; k < many; k++) {
    calls[k].call = CF_DO_APPLY;
    calls[k].word = self->waiting[k];
  }
  do {
    done = 0;
    code = cf_request_do(self->machine, calls + at, many + more - at, &done, self->state->told, room, &self->todo);
    at += done;
  } while (code == CF_NO_ROOM && !(code = cf_request_grow(self->machine)));
  self->waits = at < many ? (uint32_t)(many - at) : 0;
  memmove(self->waiting, self->waiting + many - self->waits, self->waits * sizeof *self->waiting);
  return code;
}

/* Does the attaches that wait. They settle nothing and make nothing ready, so there is nothing to tell. */
static uint32_t flush(Request *self) { return self->waits ? do_row(self, 0, 0) : CF_OK; }

/* Does a word behind the attaches that wait, and tells so many stages. The code of the library. */
static uint32_t do_word(Request *self, uint64_t word, cf_reply *reply, size_t room) {
  if (!self->waits) return cf_request_apply(self->machine, word, 0, reply, self->state->told, room, &self->todo);
  cf_request_call *call = &self->state->calls[self->waits];
  call->call = CF_DO_APPLY;
  call->word = word;
  uint32_t code = do_row(self, 1, room);
  *reply = call->reply;
  return code;
}

/* Finishes what the task holds and claims the lowest ready stage, behind the attaches that wait. The code of the library. */
static uint32_t do_next(Request *self, int who, cf_task *task, size_t room) {
  if (!self->waits) return cf_request_next(self->machine, (uint8_t)who, 0, task, self->state->told, room, &self->todo);
  cf_request_call *call = &self->state->calls[self->waits];
  call->call = CF_DO_NEXT;
  call->who = (uint8_t)who;
  call->task = *task;
  uint32_t code = do_row(self, 1, room);
  *task = call->task;
  return code ? code : task->held ? CF_OK : CF_NOTHING;
}

/* Does a word, and adds what came of it to the news. The code of the library. */
static uint32_t apply(Request *self, uint64_t word, cf_reply *reply, News *news) {
  uint32_t code = do_word(self, word, reply, MOST);
  if (!code) note(self, 1, news);
  return code;
}

/* Takes over what is left to be told. */
static void take_told(Request *self, News *news) {
  self->untold = false;
  if (!cf_request_told(self->machine, TELLING)) note(self, 0, news);
}

/* ---- Stages ---- */

static Stage *new_stage(Request *request, uint16_t number) {
  if (!request->rows) return (Stage *)PyErr_Format(PyExc_RuntimeError, "the request isn't opened");
  Stage *stage = (Stage *)PyType_GenericAlloc(request->stage_class, 0);
  if (!stage) return NULL;
  stage->state = request->state;
  stage->forks = stage->state->forks;
  Py_INCREF(stage->state->module);
  Py_INCREF(request);
  stage->request = request;
  stage->number = number;
  return stage;
}

/* The function of a planned stage, borrowed, or NULL. */
static PyObject *planned(Request *self, uint16_t i) {
  PyObject *call = i < self->pool->stages ? PyTuple_GetItem(self->calls, i) : Py_None;
  return call == Py_None ? NULL : call;
}

/* The future of a stage. That of a planned one is made once it is asked for. */
static Stage *stage_at(Request *self, uint16_t i) {
  if (!self->rows[i].stage) {
    Stage *stage = new_stage(self, i);
    if (!stage) return NULL;
    stage->form = self->rows[i].form;
    stage->shown = self->rows[i].told.kind != 0; /* (all was told then) */
    if (stage->shown) {
      publish(self, stage, &self->rows[i]);
      return stage;
    }
    if (!self->rows[i].stage) {
      stage->running = self->rows[i].running;
      stage->call = planned(self, i);
      Py_XINCREF(stage->call);
      self->rows[i].stage = (PyObject *)stage; /* (whose count is the row's) */
    } else Py_DECREF(stage);
  }
  Py_INCREF(self->rows[i].stage);
  return (Stage *)self->rows[i].stage;
}

/* In a child of `fork`: those who wait for a stage, or were about to show it, are the parent's threads. */
static void be_here(Stage *self) {
  if (self->forks == self->state->forks) return;
  PyObject *condition = self->condition, *waiters = self->waiters;
  self->forks = self->state->forks;
  self->condition = self->waiters = NULL;
  self->shown |= self->ended != 0;
  Py_XDECREF(condition);
  Py_XDECREF(waiters);
}

/* ---- Telling ---- */

/* The exception that is raised. */
static PyObject *caught(void) {
  PyObject *type, *error, *trace;
  PyErr_Fetch(&type, &error, &trace);
  PyErr_NormalizeException(&type, &error, &trace);
  if (trace) PyException_SetTraceback(error, trace);
  Py_XDECREF(type);
  Py_XDECREF(trace);
  return error;
}

/* Keeps the first exception that is raised, that the rest be done. */
static void keep(PyObject **first) {
  if (*first) PyErr_Clear();
  else *first = caught();
}

static int raise_kept(PyObject *first) {
  if (!first) return 0;
  PyObject *type = (PyObject *)Py_TYPE(first);
  Py_INCREF(type);
  PyErr_Restore(type, first, PyException_GetTraceback(first));
  return -1;
}

/* Calls a method, with `given` or with nothing, and where that fails once more: an event that is done is told,
 * though an interrupt came meanwhile, or the stack was as deep as Python lets it be. */
static PyObject *ask(PyObject *of, PyObject *method, PyObject *given, PyObject **first) {
  PyObject *told = PyObject_CallMethodObjArgs(of, method, given, NULL);
  if (told) return told;
  if (PyErr_ExceptionMatches(PyExc_RecursionError)) PyErr_Clear();
  else keep(first);
  Py_SetRecursionLimit(Py_GetRecursionLimit() + DEEPER);
  told = PyObject_CallMethodObjArgs(of, method, given, NULL);
  Py_SetRecursionLimit(Py_GetRecursionLimit() - DEEPER);
  return told;
}

/* What a method said: whether it is so, or -1 and an error. */
static int truth(PyObject *said) {
  int is_so = said ? PyObject_IsTrue(said) : -1;
  Py_XDECREF(said);
  return is_so;
}

/* Has the class of a request or of a stage do something. */
static void let(PyObject *of, PyObject *method, PyObject **first) {
  if (truth(ask(of, method, NULL, first)) < 0) keep(first);
}

/* Lets those see a stage who wait for it by its condition. */
static void show(Stage *stage, PyObject **first) {
  be_here(stage);
  for (int tries = 0; stage->condition && !stage->shown && tries < TRIES; tries++) let((PyObject *)stage, stage->state->names[SHOW], first);
  stage->shown = true;
}

static void call_back(Stage *stage, PyObject *call, PyObject **first) {
  PyObject *none = PyObject_CallFunctionObjArgs(call, stage, NULL);
  if (!none && PyErr_ExceptionMatches(PyExc_Exception)) {
    PyObject *error = caught();
    none = PyObject_CallMethodObjArgs((PyObject *)stage, stage->state->names[LOG], error, NULL);
    Py_XDECREF(error);
  }
  if (!none) keep(first);
  Py_XDECREF(none);
}

/* Calls the callbacks of a settled stage, and lets go of what it needs no more. */
static void let_go(Stage *stage, PyObject **first) {
  PyObject *callbacks = stage->callbacks;
  stage->callbacks = NULL;
  for (Py_ssize_t k = 0; callbacks && k < PyList_Size(callbacks); k++) {
    PyObject *call = PyList_GetItem(callbacks, k);
    Py_INCREF(call); /* (it may take itself out of the list) */
    call_back(stage, call, first);
    Py_DECREF(call);
  }
  Py_XDECREF(callbacks);
  Py_CLEAR(stage->call);
  Py_CLEAR(stage->args);
  Py_CLEAR(stage->kwargs);
}

/* Gives somebody a turn, and says whether it is taken, or -1 and an error. An interrupt that comes meanwhile is raised
 * once it is: a turn too many does nothing, and one too few leaves a function behind. */
static int put(Request *self, PyObject **first) {
  PyObject *is_taken = NULL;
  for (int tries = 0; !is_taken && tries < TRIES; tries++) { /* (several interrupts may come while a thread starts) */
    if (tries) keep(first);
    is_taken = ask(self->works, self->state->names[PUT], (PyObject *)self, first);
  }
  return truth(is_taken);
}

/* Gives a turn for each function that is ready and has none. If nobody takes it, those that are ready fail. */
static void hand_on(Request *self, PyObject **first) {
  int taken = 1;
  while (taken > 0 && self->works && self->todo.ready[0]) { /* (a request that is collected has nobody) */
    self->todo.ready[0]--;
    self->todo.jobs[0]++;
    taken = put(self, first);
  }
  if (!taken) let((PyObject *)self, self->state->names[REFUSE], first);
  if (taken >= 0) return;
  keep(first);
  self->todo.jobs[0] -= self->todo.jobs[0] > 0; /* the next call gives this turn */
}

/* Tells what came of calls: first those who wait, then the threads, then the callbacks. */
static int tell(Request *self, News news) {
  if (news.settled == NONE && !news.is_ready && !news.is_other_moment && !self->bells) return 0;
  PyObject *first = NULL;
  uint16_t shown = NONE, next;
  Py_INCREF(self);
  for (bool is_ready = news.is_ready;;) {
    if ((next = shown == NONE ? news.settled : self->rows[shown].next_settled) != NONE) {
      shown = next;
      if (self->rows[next].stage) show((Stage *)self->rows[next].stage, &first);
    } else if (is_ready) {
      is_ready = false;
      if (self->chooses) let((PyObject *)self, self->state->names[HAND_ON], &first);
      else hand_on(self, &first);
      if (self->untold) take_told(self, &news); /* of what nobody took a turn for */
    } else break;
  }
  if (news.is_other_moment && self->works) let((PyObject *)self, self->state->names[SET_ALARM], &first);
  PyObject *bells = self->bells;
  Py_XINCREF(bells); /* (others may hang one up or take one down meanwhile) */
  for (Py_ssize_t k = 0; bells && k < PyTuple_Size(bells); k++) let(PyTuple_GetItem(bells, k), self->state->names[RING], &first);
  Py_XDECREF(bells);
  for (uint16_t i = news.settled; i != NONE; i = self->rows[i].next_settled) {
    Stage *stage = (Stage *)self->rows[i].stage;
    self->rows[i].stage = NULL;
    if (stage) {
      if (self->rows[i].stops && self->works && truth(ask((PyObject *)self, self->state->names[STOP], (PyObject *)stage, &first)) < 0)
        keep(&first);
      let_go(stage, &first);
      Py_DECREF(stage);
    }
  }
  Py_DECREF(self);
  return raise_kept(first);
}

/* Whether a function is ready that has no turn, which is the caller's then; or -1 and an error. */
static int take_turn(Request *self) {
  if (self->chooses) return truth(PyObject_CallMethod((PyObject *)self, "_take_turn", NULL));
  bool is_left = self->todo.ready[0] > 0;
  self->todo.ready[0] -= is_left;
  self->todo.jobs[0] += is_left;
  return is_left;
}

/* Nobody has a turn any more. */
static void take_turns_back(Request *self) { self->todo.jobs[0] = self->todo.ready[0] = 0; }

/* In a child of `fork`, where no thread of the parent's is: what these were to run is the parent's, and is claimed for
 * nobody. */
static int leave_to_parent(Request *self) {
  if (self->forks == self->state->forks) return 0;
  uint32_t code = flush(self);
  if (code) {
    refused(self, code);
    return -1;
  }
  self->forks = self->state->forks;
  uint16_t many = 0;
  cf_request_ready(self->machine, 0, &many);
  if (!self->works || !many) return 0;
  int is_parents = truth(PyObject_GetAttrString(self->works, "belongs_to_parent"));
  cf_task task = {0};
  while (is_parents > 0 && !cf_request_next(self->machine, 0, 0, &task, self->state->told, 0, &self->todo)) task.held = 0;
  if (is_parents > 0) self->counts = true;
  take_turns_back(self);
  return is_parents < 0 ? -1 : 0;
}

/* ---- Requests ---- */

/* The State of a type that is, or is below, a core, which knows its module by an attribute. */
static State *state_of(PyTypeObject *type) {
  PyObject *its = PyObject_GetAttrString((PyObject *)type, MODULE);
  State *state = its && PyModule_Check(its) && PyModule_GetDef(its) == &definition ? PyModule_GetState(its) : NULL;
  if (its && !state) PyErr_SetString(PyExc_TypeError, "no type of this module");
  Py_XDECREF(its); /* (which the core has) */
  return state;
}

static PyObject *Request_new(PyTypeObject *type, PyObject *Py_UNUSED(args), PyObject *Py_UNUSED(kwargs)) {
  State *state = state_of(type);
  Request *self = state ? (Request *)PyType_GenericAlloc(type, 0) : NULL;
  if (!self) return NULL;
  Py_INCREF(state->module);
  self->state = state;
  self->forks = state->forks;
  self->todo.moment = CF_NEVER;
  return (PyObject *)self;
}

/* A machine of the request's plan, with room for others. */
static uint32_t open_machine(Request *self, uint16_t room) {
  Pool *pool = self->pool;
  if (pool->many) {
    self->machine = pool->machines[--pool->many];
    return CF_OK;
  }
  cf_request_sizes sizes = {room, 1, OWN};
  cf_handle *made = zeroed(sizeof *made);
  uint32_t code = made ? cf_request_new(pool->plan, &sizes, lanes, pool->stages, made) : CF_NO_MEMORY;
  if (code) PyMem_Free(made);
  else self->machine = made;
  return code;
}

static void close_machine(Request *self) {
  Pool *pool = self->pool;
  bool is_kept = self->machine && pool->many < (self->stages <= FEW ? KEPT : LARGE_KEPT) && self->stages <= MOST_KEPT &&
                 self->events <= 4 * MOST_KEPT && !cf_request_restart(self->machine);
  if (is_kept) pool->machines[pool->many++] = self->machine;
  else if (self->machine) {
    cf_free(self->machine);
    PyMem_Free(self->machine);
  }
  self->machine = NULL;
}

/* RequestCore(works, class of its stages, room, pool, functions and names of the pool's stages) */
static int Request_init(Request *self, PyObject *args, PyObject *Py_UNUSED(kwargs)) {
  PyObject *works, *stage_class, *capsule, *calls, *names;
  unsigned int room;
  if (!PyArg_ParseTuple(
          args, "OO!IOO!O!", &works, &PyType_Type, &stage_class, &room, &capsule, &PyTuple_Type, &calls, &PyList_Type, &names))
    return -1;
  Pool *pool = PyCapsule_GetPointer(capsule, POOL);
  if (!pool) return -1;
  uint32_t stages = pool->stages, most = pool->most;
  const char *wrong = self->kept                                                                ? "a request is opened once"
                      : PyTuple_Size(calls) != stages || PyList_Size(names) != stages           ? "no plan"
                      : !PyType_IsSubtype((PyTypeObject *)stage_class, self->state->stage_core) ? "no class of stages"
                                                                                                : NULL;
  if (wrong) {
    PyErr_SetString(PyExc_TypeError, wrong);
    return -1;
  }
  if (!stages && !room) room = 1;
  if (room > most - stages) room = most - stages;
  PyObject *values = PyList_New(0), *errors = PyList_New(0);
  Row *rows = zeroed((stages + room + 1) * sizeof *rows); /* (none would be no memory) */
  self->pool = pool;
  uint32_t code = values && errors && rows ? open_machine(self, (uint16_t)room) : CF_NO_MEMORY;
  if (code) {
    Py_XDECREF(values);
    Py_XDECREF(errors);
    PyMem_Free(rows);
    refused(self, code);
    return -1;
  }
  for (uint32_t i = 0; i < stages; i++) rows[i].form = pool->forms[i];
  self->values = values;
  self->errors = errors;
  self->room = stages + room;
  self->most = most;
  self->stages = stages;
  self->rows = rows;
  Py_INCREF(stage_class);
  self->stage_class = (PyTypeObject *)stage_class;
  Py_INCREF(names);
  self->names = names;
  Py_INCREF(works);
  self->works = works;
  Py_INCREF(calls);
  self->calls = calls;
  Py_INCREF(capsule);
  self->kept = capsule;
  News news = NO_NEWS;
  take_told(self, &news); /* what is settled from the start, of which nobody has a future yet */
  return 0;
}

static int Request_traverse(Request *self, visitproc visit, void *arg) {
  if (visits_types) Py_VISIT(Py_TYPE(self));
  Py_VISIT(self->state->module);
  for (uint32_t i = 0; i < self->stages; i++) Py_VISIT(self->rows[i].stage);
  Py_VISIT(self->works);
  Py_VISIT(self->calls);
  Py_VISIT(self->bells);
  Py_VISIT(self->stage_class);
  Py_VISIT(self->names);
  Py_VISIT(self->values);
  Py_VISIT(self->errors);
  return 0;
}

static int Request_clear(Request *self) {
  for (uint32_t i = 0; i < self->stages; i++) Py_CLEAR(self->rows[i].stage);
  Py_CLEAR(self->works);
  Py_CLEAR(self->bells);
  return 0; /* (what a stage tells is read from the rest) */
}

static void Request_dealloc(Request *self) {
  PyTypeObject *type = Py_TYPE(self);
  State *state = self->state;
  PyObject_GC_UnTrack(self);
  Request_clear(self);
  Py_CLEAR(self->names);
  Py_CLEAR(self->values);
  Py_CLEAR(self->errors);
  Py_CLEAR(self->stage_class);
  close_machine(self);
  Py_CLEAR(self->calls);
  Py_CLEAR(self->kept);
  PyMem_Free(self->rows);
  PyMem_Free(self->times);
  PyObject_GC_Del(self);
  Py_DECREF(state->module);
  Py_DECREF(type);
}

/* Rows for so many stages more; those of a request that isn't opened are refused. */
static int rows_for(Request *self, uint32_t more) {
  if (self->stages + more > self->most) {
    full(self);
    return -1;
  }
  if (self->stages + more <= self->room) return 0;
  uint32_t room = 2 * self->room > self->stages + more ? 2 * self->room : self->stages + more;
  Row *rows = PyMem_Realloc(self->rows, room * sizeof *rows);
  if (!rows) {
    PyErr_NoMemory();
    return -1;
  }
  self->rows = rows;
  self->room = room;
  return 0;
}

/* Writes down so many names more, or with NULL takes those back that have no stage. */
static uint32_t name_all(Request *self, uint32_t many, PyObject *name) {
  int failed = name ? 0 : PyList_SetSlice(self->names, self->stages, PY_SSIZE_T_MAX, NULL);
  for (uint32_t k = 0; name && k < many && !failed; k++) failed = PyList_Append(self->names, name);
  if (failed) PyErr_Clear();
  return failed ? CF_NO_MEMORY : CF_OK;
}

/* A number from 0 on, below the bound, which gets into a word; else -1 and an error. */
static long number_below(PyObject *number, long bound, const char *what) {
  long given = PyLong_AsLong(number);
  if (given == -1 && PyErr_Occurred()) return -1;
  if (given >= 0 && given < bound) return given;
  PyErr_Format(PyExc_ValueError, "no %s has the number %ld", what, given);
  return -1;
}

/* The number of a caller, or -1 and an error. */
static int caller_in(PyObject *who) { return (int)number_below(who, CALLERS, "caller"); }

static bool is_own(Request *self, PyObject *stage) {
  if (PyObject_TypeCheck(stage, self->state->stage_core) && ((Stage *)stage)->request == self) return true;
  PyErr_SetString(PyExc_TypeError, "no stage of this request");
  return false;
}

/* The number of a stage that is named by its future or by its number, or -1 and an error. */
static int stage_in(Request *self, PyObject *stage) {
  if (!PyLong_Check(stage)) return is_own(self, stage) ? ((Stage *)stage)->number : -1;
  long given = PyLong_AsLong(stage);
  if (given >= 0 && given < (long)self->stages) return (int)given;
  if (!PyErr_Occurred()) PyErr_SetString(PyExc_IndexError, "no such stage");
  return -1;
}

/* Whether an attach has nothing to tell, as all its sources are open, and no other call has left something to tell. */
static bool may_wait(const Request *self, long form, const uint16_t *of, size_t n) {
  bool is_open = (n || form == CF_SOURCE) && !composes(form) && !gathers(form);
  for (size_t k = 0; is_open && k < n; k++) is_open = !self->rows[of[k]].told.kind;
  return is_open && self->waits < WAITING && !self->counts && !self->untold && !self->chooses && !self->todo.ready[0];
}

/* Attaches the stages of such an `attach`, all or none, with room for them. Those of a scope are put into it next. */
static uint32_t attach_all(Request *self, long form, const uint16_t *of, size_t n, uint16_t function, bool is_of_scope) {
  cf_request_gathering gathering = {.who = (uint8_t)caller, .form = (uint32_t)form};
  cf_request_composing composing = {.who = (uint8_t)caller, .form = (uint32_t)form, .source = of[0], .function = function};
  cf_reply reply;
  uint64_t word = KIND(ATTACH) | WHO(caller) | OF(of[0]) | (uint64_t)n << 32 | (uint64_t)form << 24 | (uint64_t)of[1] << 12 | function;
  if (!is_of_scope && may_wait(self, form, of, n)) {
    self->waiting[self->waits++] = word;
    self->todo.told = self->todo.news = 0;
    return CF_OK;
  }
  uint32_t code = gathers(form) || composes(form) ? flush(self) : CF_OK;
  if (code) return code;
  do
    code = gathers(form)    ? cf_request_gather(self->machine, &gathering, of, n, TELLING)
           : composes(form) ? cf_request_compose(self->machine, &composing, TELLING)
                            : do_word(self, word, &reply, MOST);
  while (code == CF_NO_ROOM && !(code = cf_request_grow(self->machine)));
  return code;
}

/* Whether stages can be attached in this scope, as the machine says: 1, 0 if it has ended, and -1 and an error. */
static int may_attach_in(Request *self, uint16_t scope) {
  cf_stage now;
  uint32_t code = flush(self);
  if (!code) code = cf_ledger_stage(self->machine, (uint16_t)(scope - 1), &now);
  if (!code) return now.kind != CF_IS_SETTLED;
  refused(self, code);
  return -1;
}

/* Puts the stages from a number on into a scope: each is cancelled once that ends. Where there is no memory, those that
 * aren't in it are cancelled. */
static uint32_t put_in(Request *self, uint32_t at, uint16_t scope, News *news) {
  const uint16_t source = (uint16_t)(scope - 1);
  uint32_t code = CF_OK;
  self->counts = true;
  for (; at < self->stages && !code; at++) {
    const cf_request_joining joining = {(uint16_t)at, 1, 1};
    code = cf_request_join(self->machine, &joining, &source, 1, TELLING);
    if (!code) note(self, 0, news);
  }
  cf_reply reply;
  for (uint32_t k = at - 1; code && k < self->stages; k++) apply(self, KIND(CANCEL) | WHO(OWN) | OF(k), &reply, news);
  return code;
}

/* A stage more, behind n stages of these numbers, in a scope, if one is given; what it calls is a function with its
 * arguments, or NULL. It takes further stages below it: a composing one its relay, a source, and one that gathers more than
 * two of them those that gather them two by two. */
static PyObject *attach(Request *self, long form, const uint16_t *of, size_t n, PyObject *const *call, PyObject *name, uint16_t scope) {
  uint32_t relays = composes(form), many = relays + (gathers(form) && n > 2 ? (uint32_t)n - 1 : 1);
  Stage *stage = new_stage(self, 0);
  if (!stage) return NULL;
  PyObject **places[] = {&stage->call, &stage->args, &stage->kwargs};
  for (int k = 0; call && k < 3; k++)
    if (call[k] != Py_None) {
      Py_INCREF(call[k]);
      *places[k] = call[k];
    }
  if (!scope) scope = self->scope;
  int may_be = leave_to_parent(self) || rows_for(self, many) ? -1 : scope ? may_attach_in(self, scope) : 1;
  if (may_be <= 0) {
    Py_DECREF(stage);
    if (!may_be) Py_XDECREF(PyObject_CallMethod((PyObject *)self, "_refuse_scope", "i", scope - 1));
    return NULL;
  }
  /* From here on in one step. */
  uint32_t at = self->stages, last = at + many - 1;
  uint32_t code = name_all(self, relays, self->state->names[RELAY]);
  if (!code) code = name_all(self, many - relays, name);
  if (!code) code = attach_all(self, form, of, n, stage->call ? (uint16_t)last : 0, scope != 0);
  if (code) {
    name_all(self, 0, NULL);
    Py_DECREF(stage);
    return refused(self, code);
  }
  uint16_t by = at_work.request == self ? (uint16_t)(at_work.stage + 1) : 0;
  for (uint32_t k = 0; k < many; k++) self->rows[at + k] = (Row){.form = k < relays ? CF_SOURCE : (uint8_t)form, .scope = scope, .by = by};
  for (size_t k = 0; k < n; k++) self->rows[of[k]].is_taken = true;
  self->stages += many;
  stage->number = (uint16_t)last;
  stage->form = (uint8_t)form;
  self->rows[last].stage = (PyObject *)stage; /* (which has a count, beside the caller's) */
  Py_INCREF(stage);
  News news = NO_NEWS;
  note(self, many, &news);
  code = scope ? put_in(self, at, scope, &news) : CF_OK;
  int failed = tell(self, news);
  if (code && !failed) refused(self, code);
  if (code || failed) Py_CLEAR(stage);
  return (PyObject *)stage;
}

/* A scope by the number of its stage, plus 1; 0 for None, and -1 and an error. */
static int scope_in(Request *self, PyObject *scope) {
  long number = scope == Py_None ? -1 : number_below(scope, (long)self->stages, "scope");
  return number < 0 && PyErr_Occurred() ? -1 : (int)number + 1;
}

/* _attach(form, first, second, call, args, kwargs, name, scope=None): a stage more, behind at most two stages of this
 * request. It is of this scope, else of that of the first. */
static PyObject *Request_attach(Request *self, PyObject *const *args, Py_ssize_t n) {
  if (n < 7 || n > 8) return PyErr_Format(PyExc_TypeError, "_attach takes 7 or 8");
  long form = number_below(args[0], CF_EXCEPTIONALLY_COMPOSE + 1, "form");
  if (form < 0) return NULL;
  if ((args[4] != Py_None && !PyTuple_Check(args[4])) || (args[5] != Py_None && !PyDict_Check(args[5])) || !PyUnicode_Check(args[6]))
    return PyErr_Format(PyExc_TypeError, "arguments are a tuple and a dict, and a name is a str");
  uint16_t of[2] = {0, 0};
  size_t many = 0;
  for (int k = 1; k < 3; k++)
    if (args[k] != Py_None) {
      if (!is_own(self, args[k])) return NULL;
      of[many++] = ((Stage *)args[k])->number;
    }
  if (composes(form) && many != 1) return PyErr_Format(PyExc_ValueError, "a composing stage is behind one stage");
  int scope = n == 8 ? scope_in(self, args[7]) : 0;
  if (scope < 0) return NULL;
  if (!scope && many) scope = self->rows[of[0]].scope;
  return attach(self, form, of, many, &args[3], args[6], (uint16_t)scope);
}

/* _attach_all(form, numbers, name, scope=None): a stage more, behind all stages of these numbers, or behind the first of
 * them. */
static PyObject *Request_attach_all(Request *self, PyObject *const *args, Py_ssize_t n) {
  if (n < 3 || n > 4 || !PyBytes_Check(args[1]) || !PyUnicode_Check(args[2]))
    return PyErr_Format(PyExc_TypeError, "_attach_all takes 3 or 4");
  long form = number_below(args[0], CF_ANY_OF + 1, "form");
  size_t many = (size_t)PyBytes_Size(args[1]) / sizeof(uint16_t);
  const uint16_t *of = (const uint16_t *)PyBytes_AsString(args[1]), few[2] = {many ? of[0] : 0, 0};
  int scope = form < 0 ? -1 : n == 4 ? scope_in(self, args[3]) : 0;
  if (scope < 0) return NULL;
  if (!gathers(form)) return PyErr_Format(PyExc_ValueError, "form %ld gathers nothing", form);
  for (size_t k = 0; k < many; k++)
    if (of[k] >= self->stages) return PyErr_Format(PyExc_IndexError, "no such stage");
  return many > MOST ? full(self) : attach(self, form, many < 2 ? few : of, many, NULL, args[2], (uint16_t)scope);
}

/* _change(kind, who, stage, given): completes, fails or cancels a stage, and says whether that did it. */
static PyObject *Request_change(Request *self, PyObject *const *args, Py_ssize_t n) {
  if (n != 4) return PyErr_Format(PyExc_TypeError, "_change takes 4");
  int stage = stage_in(self, args[2]);
  long kind = stage < 0 ? -1 : number_below(args[0], FAIL_BADLY + 1, "change");
  if (kind > CANCEL && kind < FAIL_AS) return PyErr_Format(PyExc_ValueError, "no change has the number %ld", kind);
  if (kind < 0 || leave_to_parent(self)) return NULL;
  int who = PyLong_AsLong(args[1]) == THIS_THREAD && !PyErr_Occurred() ? caller : caller_in(args[1]);
  News news = NO_NEWS;
  uint64_t low = 0;
  uint32_t number;
  cf_reply reply;
  if (who < 0 || (kind == COMPLETE && value_in(self, args[3], &low))) return NULL;
  if (kind == FAIL || kind >= FAIL_AS) {
    bool is_first = kind >= FAIL_AS && !PyList_Size(self->errors); /* 0 is the code of those that have none */
    if ((is_first && kept(self->errors, Py_None, &number)) || kept(self->errors, args[3], &number)) return NULL;
    low = number;
  }
  if (kind >= FAIL_AS) {
    low |= (uint64_t)(kind - FAIL_AS) << 32;
    kind = FAIL_AS;
  }
  const Row *row = &self->rows[stage];
  if (kind == CANCEL && args[3] == Py_True && row->stage && ((Stage *)row->stage)->running && !row->told.kind) Py_RETURN_FALSE;
  uint32_t code = apply(self, KIND(kind) | WHO(who) | OF(stage) | low, &reply, &news);
  if (code) return refused(self, code);
  if (tell(self, news)) return NULL;
  return PyBool_FromLong(reply.answer);
}

/* _add_error(error), _add_value(value): the number of an exception or a value. */
static PyObject *number_of(PyObject *list, PyObject *thing) {
  uint32_t number;
  return kept(list, thing, &number) ? NULL : PyLong_FromUnsignedLong(number);
}
static PyObject *Request_code(Request *self, PyObject *error) { return number_of(self->errors, error); }
static PyObject *Request_keep(Request *self, PyObject *value) { return number_of(self->values, value); }

/* The exception that a function is told which takes one: None where there is a value. */
static PyObject *error_told(Request *self, cf_outcome got) {
  PyObject *given = error_out(self, got);
  if (got.kind == CF_VALUE || PyExceptionInstance_Check(given)) return given;
  PyObject *made = PyObject_CallMethod((PyObject *)self, "_made_error", "OI", given, got.kind);
  Py_DECREF(given);
  return made;
}

/* What a granted claim lets be called: with its own arguments, or else with those that are given, at most two. */
typedef struct {
  PyObject *call, *args, *kwargs, *given[2];
} Called;

static void called_clear(Called *it) {
  Py_CLEAR(it->call);
  Py_CLEAR(it->args);
  Py_CLEAR(it->kwargs);
  Py_CLEAR(it->given[0]);
  Py_CLEAR(it->given[1]);
}

/* The arguments as a tuple. */
static PyObject *args_of(Called *it) {
  if (!it->args) it->args = PyTuple_Pack((it->given[0] != NULL) + (it->given[1] != NULL), it->given[0], it->given[1]);
  return it->args;
}

/* Calls the function of a stage. Without a tuple that costs less. */
static PyObject *called(Called *it, const Request *request, uint16_t stage) {
  const void *request_before = at_work.request;
  uint16_t stage_before = at_work.stage;
  at_work.request = request;
  at_work.stage = stage;
  PyObject *given = !it->args && !it->kwargs ? PyObject_CallFunctionObjArgs(it->call, it->given[0], it->given[1], NULL)
                    : args_of(it)            ? PyObject_Call(it->call, it->args, it->kwargs)
                                             : NULL;
  at_work.request = request_before;
  at_work.stage = stage_before;
  return given;
}

/* What a stage that is claimed lets be called, with its own arguments or with what it waited for; nothing and an error
 * where that can't be told. */
static Called to_call(Request *self, uint16_t i, const cf_args *args) {
  Stage *stage = (Stage *)self->rows[i].stage;
  uint8_t form = self->rows[i].form;
  cf_outcome got = args->outcome;
  int many = 0;
  Called it = {stage ? stage->call : planned(self, i), stage ? stage->args : NULL, stage ? stage->kwargs : NULL, {NULL, NULL}};
  Py_XINCREF(it.call);
  Py_XINCREF(it.args);
  Py_XINCREF(it.kwargs);
  if (args->kind == CF_ONE || args->kind == CF_TWO) it.given[many++] = value_out(self, args->first);
  if (args->kind == CF_TWO) it.given[many++] = value_out(self, args->second);
  if (args->kind == CF_GOT && form != CF_EXCEPTIONALLY && form != CF_EXCEPTIONALLY_COMPOSE)
    it.given[many++] = value_out(self, got.kind == CF_VALUE ? got.value : (cf_value){0});
  if (args->kind == CF_GOT) it.given[many++] = error_told(self, got);
  if (!it.call) PyErr_SetString(PyExc_RuntimeError, "the request is collected");
  if (!it.call || (many && !it.given[many - 1])) called_clear(&it);
  return it;
}

/* Lets a stage be called that is claimed. */
static Called begun(Request *self, uint16_t i, const cf_args *args) {
  self->rows[i].running = true;
  if (self->rows[i].stage) ((Stage *)self->rows[i].stage)->running = true;
  return to_call(self, i, args);
}

/* What a function's end says: a value, an exception or a lower stage. */
static int answer_of(Request *self, long kind, PyObject *given, cf_answer *answer) {
  uint32_t number = 0;
  if (kind == GIVING && given != Py_None && kept(self->values, given, &number)) return -1;
  if (kind == RAISING && kept(self->errors, given, &number)) return -1;
  *answer = (cf_answer){.kind = (uint32_t)kind - GIVING};
  if (kind == GIVING && given != Py_None) answer->value = (cf_value){CF_INT, (int32_t)number};
  if (kind == RAISING) answer->code = number;
  if (kind == LINKING) self->rows[answer->stage = ((Stage *)given)->number].is_taken = true;
  return 0;
}

/* One call of the machine for a caller who is in a turn: finishes the stage that the task holds, if it holds one, and
 * claims the lowest that is ready. 1 where one is claimed, with what it lets be called or else the exception why it can't
 * be; 0 where none is ready, and -1 where nothing is done. What came of it is told, and what went wrong is kept. */
static int step(Request *self, int who, cf_task *task, Called *it, PyObject **error, PyObject **first) {
  News news = NO_NEWS;
  bool ends = task->held;
  uint32_t code = do_next(self, who, task, MOST);
  if (code && code != CF_NOTHING) {
    refused(self, code);
    keep(first);
    return -1;
  }
  note(self, ends + !code, &news);
  if (!code) {
    *it = begun(self, task->stage, &task->args);
    *error = it->call ? NULL : caught();
  }
  if (tell(self, news)) keep(first);
  return !code;
}

/* Finishes a stage, and tells what came of it. `turn` says whether a further turn is the caller's. */
static int end(Request *self, uint16_t i, int who, const cf_answer *answer, int *turn) {
  News news = NO_NEWS;
  cf_reply reply;
  PyObject *first = NULL;
  uint64_t low = answer->kind == CF_GIVE    ? answer->value.kind ? GIVES | (uint32_t)answer->value.number : 0
                 : answer->kind == CF_THROW ? THROWS | answer->code
                                            : LINKS | answer->stage;
  uint32_t code = apply(self, KIND(FINISH) | WHO(who) | OF(i) | low, &reply, &news);
  if (code) {
    refused(self, code);
    return -1;
  }
  if (news.is_ready && (*turn = take_turn(self)) < 0) {
    keep(&first);
    *turn = 0;
  }
  if (tell(self, news)) keep(&first);
  return raise_kept(first);
}

/* Has the request's `_link` finish a composing stage with the future that its function gave. */
static int link_to(Request *self, uint16_t i, int who, PyObject *given, int *turn) {
  Stage *stage = stage_at(self, i);
  PyObject *number = stage ? PyLong_FromLong(who) : NULL,
           *goes_on = number ? PyObject_CallMethodObjArgs((PyObject *)self, self->state->names[LINK], stage, number, given, NULL) : NULL;
  *turn = goes_on == Py_True;
  Py_XDECREF(stage);
  Py_XDECREF(number);
  Py_XDECREF(goes_on);
  return goes_on ? 0 : -1;
}

/* Runs functions: by a turn, and by one more as long as a function became ready by that; or all that is ready. Where no
 * other turn is on its way, a finish and the next claim are one call. */
static PyObject *run(Request *self, PyObject *number, bool all) {
  PyObject *first = NULL;
  cf_task task = {0};
  Called it;
  PyObject *error;
  int who = caller_in(number), turn = 1, is_claimed = -1;
  if (who < 0 || leave_to_parent(self)) return NULL;
  while (is_claimed && (is_claimed > 0 || turn || all)) {
    if (is_claimed < 0) {
      task.held = 0;
      self->todo.jobs[0] -= turn && self->todo.jobs[0];
      turn = 0;
      if ((is_claimed = step(self, who, &task, &it, &error, &first)) <= 0) break;
    }
    uint16_t i = task.stage;
    PyObject *given = it.call ? called(&it, self, i) : NULL, *raised = it.call && !given ? caught() : error;
    called_clear(&it);
    is_claimed = -1;
    if (leave_to_parent(self)) keep(&first);
    if (given && composes(self->rows[i].form)) {
      if (link_to(self, i, who, given, &turn)) keep(&first);
    } else if (answer_of(self, given ? GIVING : RAISING, given ? given : raised, &task.answer)) keep(&first);
    else if (all || !self->todo.jobs[0]) is_claimed = step(self, who, &task, &it, &error, &first);
    else if (end(self, i, who, &task.answer, &turn)) keep(&first);
    Py_XDECREF(given);
    Py_XDECREF(raised);
  }
  if (raise_kept(first)) return NULL;
  Py_RETURN_NONE;
}

/* _run(who): uses a turn. _work(who): runs all that is ready, and all that gets ready by that, where nobody else does. */
static PyObject *Request_run(Request *self, PyObject *who) { return run(self, who, false); }
static PyObject *Request_work(Request *self, PyObject *who) { return run(self, who, true); }

/* _begin(who, stage=None): claims this stage, or the lowest that is ready, by a turn. The stage, and its function with
 * positional and other arguments; None where nobody is to call one. */
static PyObject *Request_begin(Request *self, PyObject *const *args, Py_ssize_t n) {
  if (n < 1 || n > 2) return PyErr_Format(PyExc_TypeError, "_begin takes 1 or 2");
  PyObject *wanted = n == 2 && args[1] != Py_None ? args[1] : NULL, *told = NULL;
  int who = wanted && !is_own(self, wanted) ? -1 : caller_in(args[0]);
  if (who < 0 || leave_to_parent(self)) return NULL;
  cf_reply reply = {0};
  cf_task task = {0};
  uint32_t code;
  self->todo.jobs[0] -= self->todo.jobs[0] > 0;
  if (wanted) {
    task.stage = ((Stage *)wanted)->number;
    code = do_word(self, KIND(CLAIM) | WHO(who) | OF(task.stage), &reply, 0);
    task.args = reply.args;
  } else code = do_next(self, who, &task, 0);
  /* (a claim settles nothing, and what another call has left to be told or given a turn is left to the next one) */
  if (!code) stamp(self, 1);
  if (!code && wanted && reply.answer != CF_GRANTED) code = CF_NOTHING;
  if (code == CF_NOTHING) Py_RETURN_NONE;
  if (code) return refused(self, code);
  Called it = begun(self, task.stage, &task.args);
  if (!it.call) return NULL;
  Stage *stage = stage_at(self, task.stage);
  if (!it.kwargs) it.kwargs = PyDict_New();
  if (stage && it.kwargs && args_of(&it)) told = PyTuple_Pack(4, stage, it.call, it.args, it.kwargs);
  Py_XDECREF(stage);
  called_clear(&it);
  return told;
}

/* _end(stage, who, kind, given): finishes a stage with a value, an exception or a lower stage, as the kind says, and
 * says whether a turn is left to the caller. */
static PyObject *Request_end(Request *self, PyObject *const *args, Py_ssize_t n) {
  if (n != 4) return PyErr_Format(PyExc_TypeError, "_end takes 4");
  int who = is_own(self, args[0]) ? caller_in(args[1]) : -1, turn = 0;
  long kind = who < 0 ? -1 : number_below(args[2], LINKING + 1, "way to end");
  cf_answer answer;
  if (kind < 0 || (kind == LINKING && !is_own(self, args[3])) || leave_to_parent(self) || answer_of(self, kind, args[3], &answer))
    return NULL;
  if (!end(self, ((Stage *)args[0])->number, who, &answer, &turn)) return PyBool_FromLong(turn);
  if (turn) { /* nobody else will */
    PyObject *first = caught();
    if (put(self, &first) < 0) keep(&first);
    raise_kept(first);
  }
  return NULL;
}

/* Tells what came of a call of the machine, or raises what the library says. */
static PyObject *told_or_refused(Request *self, uint32_t code, News news) {
  if (code) return refused(self, code);
  if (tell(self, news)) return NULL;
  Py_RETURN_NONE;
}

/* _announce_settled(): tells what is left to be told, and hands on what is ready. */
static PyObject *Request_take_told(Request *self, PyObject *Py_UNUSED(none)) {
  News news = NO_NEWS;
  take_told(self, &news);
  return told_or_refused(self, CF_OK, news);
}

/* _open(): gives turns to the stages of a plan that are ready from the start. */
static PyObject *Request_open(Request *self, PyObject *Py_UNUSED(none)) {
  News news = NO_NEWS;
  news.is_ready = self->todo.ready[0] > 0;
  return told_or_refused(self, CF_OK, news);
}

/* _fail_ready(error): fails all ready stages, which are told by the next call. */
static PyObject *Request_fail_ready(Request *self, PyObject *error) {
  uint32_t number;
  if (kept(self->errors, error, &number)) return NULL;
  self->counts = self->untold = true;
  uint32_t code = flush(self);
  if (!code) code = cf_request_refuse(self->machine, 0, number, self->state->told, 0, &self->todo);
  take_turns_back(self);
  return told_or_refused(self, code, NO_NEWS);
}

static PyObject *Request_take_turns_back(Request *self, PyObject *Py_UNUSED(none)) {
  take_turns_back(self);
  Py_RETURN_NONE;
}

/* _follow_within(relay, stage): lets a stage end as another one of this request does, by their numbers. */
static PyObject *Request_follow(Request *self, PyObject *const *args, Py_ssize_t n) {
  if (n != 2) return PyErr_Format(PyExc_TypeError, "_follow_within takes 2");
  int relay = stage_in(self, args[0]), stage = relay < 0 ? -1 : stage_in(self, args[1]);
  if (stage < 0 || leave_to_parent(self)) return NULL;
  News news = NO_NEWS;
  self->counts = true;
  self->rows[stage].is_taken = true;
  uint32_t code = flush(self);
  if (!code) code = cf_request_follow(self->machine, (uint16_t)relay, (uint16_t)stage, TELLING);
  if (!code) note(self, 0, &news);
  return told_or_refused(self, code, news);
}

/* _join_within(stage, wanted, numbers, cancels): lets a stage end once so many of the stages of these numbers have values, or
 * too few can have them still; cancels it then, if it says so. */
static PyObject *Request_join(Request *self, PyObject *const *args, Py_ssize_t n) {
  if (n != 4 || !PyBytes_Check(args[2])) return PyErr_Format(PyExc_TypeError, "_join_within takes 4");
  int stage = stage_in(self, args[0]);
  long wanted = stage < 0 ? -1 : number_below(args[1], NONE, "quorum");
  if (wanted < 0 || leave_to_parent(self)) return NULL;
  const cf_request_joining joining = {(uint16_t)stage, (uint16_t)wanted, args[3] == Py_True};
  const uint16_t *of = (const uint16_t *)PyBytes_AsString(args[2]);
  size_t many = (size_t)PyBytes_Size(args[2]) / sizeof *of;
  News news = NO_NEWS;
  self->counts = true;
  if (!joining.cancels) self->rows[stage].aid = JOIN;
  uint32_t code = flush(self);
  if (!code) code = cf_request_join(self->machine, &joining, of, many, TELLING);
  if (!code) note(self, 0, &news);
  for (size_t k = 0; k < many && !code && !joining.cancels; k++) self->rows[of[k]].is_taken = true;
  return told_or_refused(self, code, news);
}

/* _set_aside(stage): a stage stands for a scope. _aid_of(stage): for what it stands, JOIN or SCOPE, or 0. */
static PyObject *Request_set_aside(Request *self, PyObject *number) {
  int stage = stage_in(self, number);
  if (stage < 0) return NULL;
  self->rows[stage].aid = SCOPE;
  Py_RETURN_NONE;
}
static PyObject *Request_aid_of(Request *self, PyObject *number) {
  int stage = stage_in(self, number);
  return stage < 0 ? NULL : PyLong_FromLong(self->rows[stage].aid);
}

/* _put_all_in(scope): all stages that are attached from now on are of a scope. */
static PyObject *Request_put_all_in(Request *self, PyObject *number) {
  int scope = scope_in(self, number);
  if (scope < 0) return NULL;
  self->scope = (uint16_t)scope;
  Py_RETURN_NONE;
}

/* _scope_of(stage): the number of the stage of its scope, or None. */
static PyObject *Request_scope_of(Request *self, PyObject *number) {
  int stage = stage_in(self, number);
  if (stage < 0) return NULL;
  if (!self->rows[stage].scope) Py_RETURN_NONE;
  return PyLong_FromLong(self->rows[stage].scope - 1);
}

/* Whether a stage is within a scope. A scope is attached before all that are within it. */
static bool is_within(const Request *self, uint32_t i, uint32_t scope) {
  uint32_t its = self->rows[i].scope;
  while (its > scope) its = self->rows[its - 1].scope;
  return its == scope;
}

/* Whether a function is called, which may still take over a stage that it attached. */
static bool is_claimed(Request *self, uint16_t by) {
  cf_stage now;
  return by && !cf_ledger_stage(self->machine, (uint16_t)(by - 1), &now) && now.who != CF_NOBODY;
}

/* _hang(bell): from now on its `ring` is called after each call, before callbacks. _take_down(bell): no longer. */
static PyObject *change_bells(Request *self, PyObject *bell, bool hangs) {
  for (bool is_done = false; !is_done;) { /* (what is collected meanwhile may change them, too) */
    PyObject *before = self->bells, *now = NULL;
    Py_XINCREF(before);
    PyObject *changed = before ? PySequence_List(before) : PyList_New(0);
    Py_ssize_t many = changed ? PyList_Size(changed) : 0, k = 0;
    while (k < many && PyList_GetItem(changed, k) != bell) k++;
    if (changed && !(hangs ? PyList_Append(changed, bell) : PyList_SetSlice(changed, k, k < many ? k + 1 : k, NULL)))
      now = PyList_AsTuple(changed);
    Py_XDECREF(changed);
    is_done = now && self->bells == before;
    if (is_done) self->bells = PyTuple_Size(now) ? now : NULL;
    if (now && (!is_done || !PyTuple_Size(now))) Py_DECREF(now);
    if (is_done) Py_XDECREF(before); /* (of the request) */
    Py_XDECREF(before);
    if (!now) return NULL;
  }
  Py_RETURN_NONE;
}
static PyObject *Request_hang(Request *self, PyObject *bell) { return change_bells(self, bell, true); }
static PyObject *Request_take_down(Request *self, PyObject *bell) { return change_bells(self, bell, false); }

/* _look_within(scope): whether a stage within a scope is open for which somebody may wait, whether one is cancelled, and the
 * numbers of those that failed and that nobody takes over. */
static PyObject *Request_look_within(Request *self, PyObject *number) {
  int scope = scope_in(self, number);
  if (scope < 0 || leave_to_parent(self)) return NULL;
  uint32_t code = flush(self);
  if (code) return refused(self, code);
  PyObject *failed = PyList_New(0);
  bool is_open = false, is_cancelled = false;
  for (uint32_t i = (uint32_t)scope; failed && i < self->stages; i++) {
    const Row *row = &self->rows[i];
    const uint32_t kind = row->told.kind;
    bool is_relay = i + 1 < self->stages && composes(row[1].form);
    if (row->aid || is_relay || !is_within(self, i, (uint32_t)scope)) continue;
    is_open |= !kind;
    is_cancelled |= kind == CF_CANCELLED;
    if (!kind || kind == CF_VALUE || kind == CF_CANCELLED || row->is_taken || is_claimed(self, row->by)) continue;
    PyObject *one = PyLong_FromLong((long)i);
    if (!one || PyList_Append(failed, one)) Py_CLEAR(failed);
    Py_XDECREF(one);
  }
  return failed ? Py_BuildValue("(OON)", is_open ? Py_True : Py_False, is_cancelled ? Py_True : Py_False, failed) : NULL;
}

/* _deadline(stage, moment, is_value, number): by this moment the stage gets the value of this number, or fails with the
 * exception of this one; below 0 it gets None. */
static PyObject *Request_deadline(Request *self, PyObject *const *args, Py_ssize_t n) {
  if (n != 4) return PyErr_Format(PyExc_TypeError, "_deadline takes 4");
  int stage = stage_in(self, args[0]);
  unsigned long long moment = stage < 0 ? 0 : PyLong_AsUnsignedLongLong(args[1]);
  long number = PyErr_Occurred() ? -1 : PyLong_AsLong(args[3]);
  if (PyErr_Occurred() || leave_to_parent(self)) return NULL;
  bool is_value = args[2] == Py_True;
  cf_value value = is_value && number >= 0 ? (cf_value){CF_INT, (int32_t)number} : (cf_value){0};
  News news = NO_NEWS;
  uint32_t code = flush(self);
  if (!code)
    code = cf_request_deadline(self->machine, (uint16_t)stage, moment, is_value, is_value ? 0 : (uint32_t)number, value, &self->todo);
  news.is_ready = !code && self->todo.news & CF_NEWS_READY;
  news.is_other_moment = !code && self->todo.news & CF_NEWS_MOMENT;
  return told_or_refused(self, code, news);
}

/* _pass(moment): lets time pass up to a moment, or not at all if it has passed. */
static PyObject *Request_pass(Request *self, PyObject *until) {
  unsigned long long moment = PyLong_AsUnsignedLongLong(until);
  if (PyErr_Occurred() || leave_to_parent(self)) return NULL;
  News news = NO_NEWS;
  if (self->passed < moment) self->passed = moment;
  self->counts = true;
  uint32_t code = flush(self);
  if (!code) code = cf_request_pass(self->machine, self->passed, TELLING);
  if (!code) note(self, 0, &news);
  return told_or_refused(self, code, news);
}

/* _words(): all words, as bytes. */
static PyObject *Request_words(Request *self, PyObject *Py_UNUSED(none)) {
  size_t many = 0;
  uint32_t code = flush(self);
  if (!code) code = cf_ledger_words(self->machine, 0, NULL, 0, &many);
  uint64_t *words = code ? NULL : PyMem_Malloc((many + 1) * sizeof *words);
  if (!code && !words) return PyErr_NoMemory();
  if (!code) code = cf_ledger_words(self->machine, 0, words, many, &many);
  PyObject *told = code ? refused(self, code) : PyBytes_FromStringAndSize((char *)words, (Py_ssize_t)(many * sizeof *words));
  PyMem_Free(words);
  return told;
}

/* _next_ready(first): the lowest stage from this number on whose function is ready, or None. */
static PyObject *Request_next_ready(Request *self, PyObject *from) {
  uint16_t found;
  long first = number_below(from, MOST + 1, "stage");
  if (first < 0 || leave_to_parent(self)) return NULL;
  uint32_t code = flush(self);
  if (!code) code = cf_ledger_ready(self->machine, (uint16_t)first, &found);
  if (code == CF_NOTHING) Py_RETURN_NONE;
  return code ? refused(self, code) : PyLong_FromLong(found);
}

/* What is told of a stage that is open or whose function runs. `last` is the word that attached it or changed it last, from 1 on,
 * or 0. */
typedef struct {
  bool is_told;
  uint8_t kind, who;
  uint32_t last;
} Look;

/* Writes down that a word changed a stage, and answers whether the stage is told and no later word did. */
static bool is_last_of(size_t place, Look *look) {
  bool is_last = look->is_told && !look->last;
  if (is_last) look->last = (uint32_t)place;
  return is_last;
}

/* Finds the words that changed so many stages last, by the news of each word, from the last one on. Those of a word that
 * attaches a stage don't tell of it if it is pending. */
static uint32_t find_last(Request *self, Look *looks, uint32_t left) {
  uint16_t changed[MOST];
  uint32_t attached = self->stages;
  uint64_t word;
  size_t place, n;
  uint32_t code = cf_ledger_words(self->machine, 0, NULL, 0, &place);
  for (; !code && place && left; place--) {
    code = cf_ledger_news(self->machine, place - 1, changed, MOST, &n);
    for (size_t k = 0; !code && k < n; k++) left -= is_last_of(place, &looks[changed[k]]);
    if (!code) code = cf_ledger_words(self->machine, place - 1, &word, 1, &n);
    if (!code && word >> 56 == ATTACH) left -= is_last_of(place, &looks[--attached]);
  }
  return code;
}

/* Whether a stage is the relay of a composing stage that isn't linked to it: then nobody waits for it. */
static bool is_idle_relay(Request *self, uint32_t i) {
  cf_stage above;
  if (i + 1 >= self->stages || !composes(self->rows[i + 1].form)) return false;
  return cf_ledger_stage(self->machine, (uint16_t)(i + 1), &above) || above.kind != CF_IS_LINKED || above.target != i;
}

/* _open_stages(): of each stage that is open or whose function runs its number, kind, form, who has its claim (CALLERS where
 * nobody has), and which word attached it or changed it last, from 1 on, or 0. Idle relays aren't told. */
static PyObject *Request_open_stages(Request *self, PyObject *Py_UNUSED(none)) {
  if (leave_to_parent(self)) return NULL;
  uint32_t many = self->stages, left = 0, code = flush(self);
  Look *looks = zeroed((many + 1) * sizeof *looks);
  if (!looks) return PyErr_NoMemory();
  for (uint32_t i = 0; i < many && !code; i++) {
    cf_stage now;
    code = cf_ledger_stage(self->machine, (uint16_t)i, &now);
    if (code || (now.kind == CF_IS_SETTLED && now.who == CF_NOBODY) || is_idle_relay(self, i)) continue;
    looks[i] = (Look){true, (uint8_t)now.kind, now.who == CF_NOBODY ? CALLERS : (uint8_t)now.who, 0};
    left++;
  }
  if (!code) code = find_last(self, looks, left);
  PyObject *told = code ? refused(self, code) : PyList_New(0);
  for (uint32_t i = 0; told && i < many; i++) {
    if (!looks[i].is_told) continue;
    PyObject *one = Py_BuildValue("(IiiiI)", i, looks[i].kind, self->rows[i].form, looks[i].who, looks[i].last);
    if (!one || PyList_Append(told, one)) Py_CLEAR(told);
    Py_XDECREF(one);
  }
  PyMem_Free(looks);
  return told;
}

/* _stage(number): the future of a stage that may have none yet. */
static PyObject *Request_stage(Request *self, PyObject *number) {
  int stage = stage_in(self, number);
  return stage < 0 ? NULL : (PyObject *)stage_at(self, (uint16_t)stage);
}

static PyObject *Request_times(Request *self, void *Py_UNUSED(which)) {
  stamp(self, 0);
  return PyBytes_FromStringAndSize((char *)self->times, self->events * (Py_ssize_t)sizeof *self->times);
}

#define FAST(function) (PyCFunction)(void (*)(void)) function
static PyMethodDef request_methods[] = {{"_attach", FAST(Request_attach), METH_FASTCALL, "Attaches a stage."},
    {"_attach_all", FAST(Request_attach_all), METH_FASTCALL, "Attaches stages that wait for all of some, or for one."},
    {"_change", FAST(Request_change), METH_FASTCALL, "Completes, fails or cancels a stage."},
    {"_add_error", (PyCFunction)Request_code, METH_O, "The number of an exception."},
    {"_add_value", (PyCFunction)Request_keep, METH_O, "The number of a value."}, {"_run", (PyCFunction)Request_run, METH_O, "Uses a turn."},
    {"_work", (PyCFunction)Request_work, METH_O, "Runs all that is ready."},
    {"_begin", FAST(Request_begin), METH_FASTCALL, "Claims a stage."}, {"_end", FAST(Request_end), METH_FASTCALL, "Finishes a stage."},
    {"_announce_settled", (PyCFunction)Request_take_told, METH_NOARGS, "Tells what is left to be told."},
    {"_open", (PyCFunction)Request_open, METH_NOARGS, "Gives turns to what is ready from the start."},
    {"_fail_ready", (PyCFunction)Request_fail_ready, METH_O, "Fails all ready stages."},
    {"_take_turns_back", (PyCFunction)Request_take_turns_back, METH_NOARGS, "Takes all turns back."},
    {"_follow_within", FAST(Request_follow), METH_FASTCALL, "Lets a stage end as another does."},
    {"_join_within", FAST(Request_join), METH_FASTCALL, "Lets a stage end by others."},
    {"_set_aside", (PyCFunction)Request_set_aside, METH_O, "Nobody waits for a stage by itself."},
    {"_aid_of", (PyCFunction)Request_aid_of, METH_O, "Whether a stage stands for a join or a scope."},
    {"_put_all_in", (PyCFunction)Request_put_all_in, METH_O, "Puts all later stages into a scope."},
    {"_scope_of", (PyCFunction)Request_scope_of, METH_O, "The scope of a stage."},
    {"_hang", (PyCFunction)Request_hang, METH_O, "Hangs a bell up."},
    {"_take_down", (PyCFunction)Request_take_down, METH_O, "Takes a bell down."},
    {"_look_within", (PyCFunction)Request_look_within, METH_O, "What is open and what has failed within a scope."},
    {"_deadline", FAST(Request_deadline), METH_FASTCALL, "Sets a deadline."},
    {"_pass", (PyCFunction)Request_pass, METH_O, "Lets time pass."}, {"_words", (PyCFunction)Request_words, METH_NOARGS, "All words."},
    {"_next_ready", (PyCFunction)Request_next_ready, METH_O, "The lowest ready stage from a number on."},
    {"_open_stages", (PyCFunction)Request_open_stages, METH_NOARGS, "What is open, and since when."},
    {"_stage", (PyCFunction)Request_stage, METH_O, "The future of a stage."}, {NULL}};
static PyMemberDef request_members[] = {{"_works", T_OBJECT, offsetof(Request, works), READONLY, NULL},
    {"_names", T_OBJECT, offsetof(Request, names), READONLY, NULL}, {"_values", T_OBJECT, offsetof(Request, values), READONLY, NULL},
    {"_errors", T_OBJECT, offsetof(Request, errors), READONLY, NULL}, {"_stages", T_UINT, offsetof(Request, stages), READONLY, NULL},
    {"_events", T_UINT, offsetof(Request, events), READONLY, NULL}, {"_most", T_UINT, offsetof(Request, most), READONLY, NULL},
    {"_moment", T_ULONGLONG, offsetof(Request, todo.moment), READONLY, NULL}, {"_chooses", T_BOOL, offsetof(Request, chooses), 0, NULL},
    {NULL}};
static PyGetSetDef request_getters[] = {{"_times", (getter)Request_times, NULL, NULL, NULL}, {NULL}};
/* (The second flag is one that Python has by itself from 3.10 on.) */
enum { FLAGS = Py_TPFLAGS_DEFAULT | Py_TPFLAGS_HAVE_VERSION_TAG | Py_TPFLAGS_BASETYPE | Py_TPFLAGS_HAVE_GC };
static PyType_Slot request_slots[] = {{Py_tp_new, Request_new}, {Py_tp_init, Request_init}, {Py_tp_traverse, Request_traverse},
    {Py_tp_clear, Request_clear}, {Py_tp_dealloc, Request_dealloc}, {Py_tp_methods, request_methods}, {Py_tp_members, request_members},
    {Py_tp_getset, request_getters}, {0, NULL}};
static PyType_Spec request_spec = {.name = "cf._cf.RequestCore", .basicsize = sizeof(Request), .slots = request_slots, .flags = FLAGS};

/* ---- Futures ---- */

#define OF_STAGE(DO)                                                                                                                       \
  do {                                                                                                                                     \
    DO(self->request);                                                                                                                     \
    DO(self->given);                                                                                                                       \
    DO(self->call);                                                                                                                        \
    DO(self->args);                                                                                                                        \
    DO(self->kwargs);                                                                                                                      \
    DO(self->callbacks);                                                                                                                   \
    DO(self->condition);                                                                                                                   \
    DO(self->waiters);                                                                                                                     \
  } while (0)

static PyObject *Stage_new(PyTypeObject *Py_UNUSED(type), PyObject *Py_UNUSED(args), PyObject *Py_UNUSED(kwargs)) {
  return PyErr_Format(PyExc_TypeError, "a request makes its stages");
}

static int Stage_traverse(Stage *self, visitproc visit, void *arg) {
  if (visits_types) Py_VISIT(Py_TYPE(self));
  Py_VISIT(self->state->module);
  OF_STAGE(Py_VISIT);
  return 0;
}

static int Stage_clear(Stage *self) {
  self->ended = 0;
  OF_STAGE(Py_CLEAR);
  return 0;
}

static void Stage_dealloc(Stage *self) {
  PyTypeObject *type = Py_TYPE(self);
  State *state = self->state;
  PyObject_GC_UnTrack(self);
  Stage_clear(self);
  PyObject_GC_Del(self);
  Py_DECREF(state->module);
  Py_DECREF(type);
}

static PyObject *Stage_done(Stage *self, PyObject *Py_UNUSED(none)) { return PyBool_FromLong(self->ended); }

static PyObject *Stage_cancelled(Stage *self, PyObject *Py_UNUSED(none)) { return PyBool_FromLong(self->is_cancelled); }

/* result(timeout=None): its value, where it is there. Else the class's `_awaited_result` waits for it, or raises. */
static PyObject *Stage_result(Stage *self, PyObject *args, PyObject *kwargs) {
  if (self->ended == CF_VALUE && !kwargs && PyTuple_Size(args) < 2) {
    Py_INCREF(self->given);
    return self->given;
  }
  PyObject *later = PyObject_GetAttr((PyObject *)self, self->state->names[RESULT]);
  PyObject *given = later ? PyObject_Call(later, args, kwargs) : NULL;
  Py_XDECREF(later);
  return given;
}

/* _take_over(): somebody asks for its result, and so gets its failure. */
static PyObject *Stage_take_over(Stage *self, PyObject *Py_UNUSED(none)) {
  if (self->request) self->request->rows[self->number].is_taken = true;
  Py_RETURN_NONE;
}

static PyObject *Stage_add_done_callback(Stage *self, PyObject *call) {
  PyObject *first = NULL;
  be_here(self);
  PyObject *made = self->shown || self->callbacks ? NULL : PyList_New(0);
  if (PyErr_Occurred()) return NULL;
  if (self->shown) call_back(self, call, &first);
  else {
    if (!self->callbacks) {
      self->callbacks = made;
      made = NULL;
    } /* (what is collected meanwhile may have made one) */
    if (PyList_Append(self->callbacks, call)) keep(&first);
  }
  Py_XDECREF(made);
  if (raise_kept(first)) return NULL;
  Py_RETURN_NONE;
}

/* _condition, _waiters: what those wait by who wait for it, made by the class once somebody does. */
static PyObject *Stage_waited(Stage *self, void *is_condition) {
  be_here(self);
  PyObject **place = is_condition ? &self->condition : &self->waiters;
  if (!*place) {
    PyObject *made = is_condition ? PyObject_CallMethodObjArgs((PyObject *)self, self->state->names[CONDITION], NULL) : PyList_New(0);
    if (!made) return NULL;
    if (!*place) *place = made;
    else Py_DECREF(made); /* (what runs meanwhile may have made one) */
  }
  Py_INCREF(*place);
  return *place;
}

static PyMethodDef stage_methods[] = {{"done", (PyCFunction)Stage_done, METH_NOARGS, "Whether it is settled."},
    {"cancelled", (PyCFunction)Stage_cancelled, METH_NOARGS, "Whether it was cancelled."},
    {"_take_over", (PyCFunction)Stage_take_over, METH_NOARGS, "Somebody gets its failure."},
    {"result", FAST(Stage_result), METH_VARARGS | METH_KEYWORDS, "Waits for its value. Its exception is raised."},
    {"add_done_callback", (PyCFunction)Stage_add_done_callback, METH_O, "Calls a function with it, once it is settled."}, {NULL}};
static PyMemberDef stage_members[] = {{"request", T_OBJECT, offsetof(Stage, request), READONLY, "What it belongs to."},
    {"number", T_USHORT, offsetof(Stage, number), READONLY, "Its place in the request, from 0 on."},
    {"_form", T_UBYTE, offsetof(Stage, form), READONLY, NULL}, {"_ended", T_UBYTE, offsetof(Stage, ended), READONLY, NULL},
    {"_is_cancelled", T_BOOL, offsetof(Stage, is_cancelled), READONLY, NULL}, {"_given", T_OBJECT, offsetof(Stage, given), READONLY, NULL},
    {"_done_callbacks", T_OBJECT, offsetof(Stage, callbacks), READONLY, NULL}, {"_shown", T_BOOL, offsetof(Stage, shown), 0, NULL},
    {"_told", T_UINT, offsetof(Stage, told), 0, NULL}, {"_runs", T_BOOL, offsetof(Stage, running), 0, NULL}, {NULL}};
static PyGetSetDef stage_getters[] = {
    {"_condition", (getter)Stage_waited, NULL, NULL, "one"}, {"_waiters", (getter)Stage_waited, NULL, NULL, NULL}, {NULL}};
static PyType_Slot stage_slots[] = {{Py_tp_new, Stage_new}, {Py_tp_traverse, Stage_traverse}, {Py_tp_clear, Stage_clear},
    {Py_tp_dealloc, Stage_dealloc}, {Py_tp_methods, stage_methods}, {Py_tp_members, stage_members}, {Py_tp_getset, stage_getters},
    {0, NULL}};
static PyType_Spec stage_spec = {.name = "cf._cf.StageCore", .basicsize = sizeof(Stage), .slots = stage_slots, .flags = FLAGS};

/* ---- The module ---- */

static void empty_pool(PyObject *capsule) {
  Pool *pool = PyCapsule_GetPointer(capsule, POOL);
  while (pool->many) {
    cf_handle *machine = pool->machines[--pool->many];
    cf_free(machine);
    PyMem_Free(machine);
  }
  Py_XDECREF(pool->owner);
  PyMem_Free(pool);
}

/* pool(owner, at, most, forms): the Pool of a plan, by the address of its handle, who keeps that, and the form of each
 * stage. */
static PyObject *pool_of(PyObject *Py_UNUSED(module), PyObject *args) {
  PyObject *owner, *at;
  unsigned int most;
  const char *forms;
  Py_ssize_t stages;
  if (!PyArg_ParseTuple(args, "OOIy#", &owner, &at, &most, &forms, &stages)) return NULL;
  void *plan = PyLong_AsVoidPtr(at);
  bool is_right = plan && most <= MOST && stages <= (Py_ssize_t)most;
  for (Py_ssize_t i = 0; is_right && i < stages; i++) is_right = (uint8_t)forms[i] <= CF_EXCEPTIONALLY_COMPOSE;
  if (!is_right) return PyErr_Occurred() ? NULL : PyErr_Format(PyExc_TypeError, "no plan");
  Pool *pool = zeroed(sizeof *pool + (size_t)stages);
  if (!pool) return PyErr_NoMemory();
  PyObject *made = PyCapsule_New(pool, POOL, empty_pool);
  if (!made) {
    PyMem_Free(pool);
    return NULL;
  }
  pool->most = most;
  pool->stages = (uint32_t)stages;
  pool->plan = plan;
  memcpy(pool->forms, forms, (size_t)stages);
  Py_INCREF(owner);
  pool->owner = owner;
  return made;
}

static PyObject *set_caller(PyObject *Py_UNUSED(module), PyObject *who) {
  int number = caller_in(who);
  if (number < 0) return NULL;
  caller = number;
  Py_RETURN_NONE;
}

/* is_stopping(): whether the stage whose function this thread runs is settled; None where it runs none. */
static PyObject *is_stopping(PyObject *Py_UNUSED(module), PyObject *Py_UNUSED(none)) {
  const Request *request = at_work.request;
  if (!request) Py_RETURN_NONE;
  return PyBool_FromLong(request->rows[at_work.stage].told.kind != 0);
}

static PyObject *forked(PyObject *module, PyObject *Py_UNUSED(none)) {
  ((State *)PyModule_GetState(module))->forks++;
  Py_RETURN_NONE;
}

static PyMethodDef module_methods[] = {{"pool", (PyCFunction)pool_of, METH_VARARGS, "Keeps machines of a plan."},
    {"set_caller", (PyCFunction)set_caller, METH_O, "Gives this thread the number of a caller."},
    {"is_stopping", (PyCFunction)is_stopping, METH_NOARGS, "Whether the function that this thread runs may end."},
    {"forked", (PyCFunction)forked, METH_NOARGS, "Tells that this process is a fork's child."}, {NULL}};

/* A type of the module, which has it by its name, too. */
static PyTypeObject *type_of(PyObject *module, PyType_Spec *spec) {
  PyObject *type = PyType_FromSpec(spec);
  if (type && (PyObject_SetAttrString(type, MODULE, module) || PyObject_SetAttrString(module, strrchr(spec->name, '.') + 1, type)))
    Py_CLEAR(type);
  return (PyTypeObject *)type;
}

/* Makes what an interpreter has of the module. */
static int fill(PyObject *module) {
  State *it = PyModule_GetState(module);
  it->module = module;
  if (!cf_fits(CF_VERSION_MAJOR, CF_VERSION_MINOR)) {
    PyErr_Format(PyExc_ImportError, "the library has version %s", cf_version());
    return -1;
  }
  if (cf_layout("cf_todo") != sizeof(cf_todo) || cf_layout("cf_told") != sizeof(cf_told)) {
    PyErr_SetString(PyExc_ImportError, "the structures of the library are others");
    return -1;
  }
  if (!(it->told = PyMem_Malloc(MOST * sizeof *it->told))) {
    PyErr_NoMemory();
    return -1;
  }
  PyTypeObject *request_core = type_of(module, &request_spec);
  Py_XDECREF(request_core); /* (which the module has) */
  if (!request_core || !(it->stage_core = type_of(module, &stage_spec))) return -1;
  for (int k = 0; k < NAMES; k++)
    if (!(it->names[k] = PyUnicode_InternFromString(names[k]))) return -1;
  return 0;
}

static int module_traverse(PyObject *module, visitproc visit, void *arg) {
  Py_VISIT(((State *)PyModule_GetState(module))->stage_core);
  return 0;
}

/* (There is no clearing: what stands here stays until no object is left that uses it.) */
static void module_free(void *module) {
  State *it = PyModule_GetState((PyObject *)module);
  Py_CLEAR(it->stage_core);
  for (int k = 0; k < NAMES; k++) Py_CLEAR(it->names[k]);
  PyMem_Free(it->told);
}

static PyModuleDef_Slot module_slots[] = {{Py_mod_exec, fill}, {0, NULL}, {0, NULL}};
static PyModuleDef definition = {PyModuleDef_HEAD_INIT, .m_name = "_cf",
    .m_doc = "Requests and stages over the proved machine of a request.", .m_size = sizeof(State), .m_methods = module_methods,
    .m_slots = module_slots, .m_traverse = module_traverse, .m_free = module_free};

PyMODINIT_FUNC PyInit__cf(void) {
  long minor = strtol(Py_GetVersion() + strlen("3."), NULL, 10);
  visits_types = minor >= 9;
  if (minor >= 12) module_slots[1] = (PyModuleDef_Slot){MULTIPLE_INTERPRETERS, (void *)OWN_GIL};
  return PyModuleDef_Init(&definition);
}
