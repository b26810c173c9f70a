/* Completable futures that are proved, for C.
 *
 * The library does what Java's CompletableFuture (Java SE 17) does, over stages that have numbers. Your program
 * completes, fails and cancels stages. It claims the function of a stage that is ready, calls this function itself,
 * and finishes the stage with what the function answered. Time limits fire when your program hands in a moment. The
 * library starts no thread and reads no clock. No call sleeps or waits for another thread.
 *
 * docs/C.md has a first program, the life of a desk step by step, and what is proved of each call. clients/c has
 * programs for each group of calls.
 *
 * Terms of this header:
 *   - A stage is one completable future. It is known by its number, counted from 0.
 *   - A stage's sources are the stages from which it takes an outcome. They have lower numbers. One mention of a source
 *     by a stage is an edge.
 *   - A stage is settled once it has an outcome, which is a value or a fault. It keeps this outcome.
 *   - A stage's function is known to the library by a number alone. Your program has the code.
 *   - A stage is ready once its sources have given what its function is for, until it is claimed or settled.
 *   - A claim is the right to call the function of a ready stage. It stays open until its caller finishes the stage.
 *   - A caller is whoever makes calls. In a graph or a ledger it is a number that you choose. On a desk it has a
 *     handle.
 *   - The changing calls are complete, fail, fail as, cancel, claim, finish, tick and attach. A changing call together
 *     with its caller is an event. A history is the events of one graph, in their one order.
 *   - A word is a number of 64 bits that stands for an event.
 *   - To attach a stage is to add it to a graph that was opened before. Room is the number of stages that may be
 *     attached. A parameter `room` after a buffer is something else: the number of elements that the buffer can take.
 *
 * All that the library makes stands behind handles. These are the kinds:
 *   - a builder: a plan that is being built (cf_builder_new);
 *   - a plan: a list of stages, and of time limits (cf_build);
 *   - a graph: the stages of a plan with how far each has come, for one thread alone (cf_graph_new);
 *   - a sweep: a graph while one walk up through all its stages is under way (cf_sweep_begin);
 *   - a ledger: a graph that also keeps the word of each event, for one thread or for several under a lock of yours
 *     (cf_ledger_new);
 *   - a request: a ledger that also knows whom to wake, what to run and until when (cf_request_new);
 *   - a view: what one session knows of a row of words in a store, and what it may put there (cf_row_new);
 *   - a host: all requests of a store that a process works on, and what it does next with them (cf_host_new);
 *   - a history: what the words of a ledger or a request did, to be told as a text (cf_history_new);
 *   - a caller of a desk: a desk is a graph that several threads share without a lock, and each thread has a caller's
 *     handle of its own (cf_desk_open);
 *   - a notice: what a caller of a desk has seen, for another thread (cf_desk_notice);
 *   - a closing: a desk whose callers are being given back (cf_close_begin);
 *   - a closed desk (cf_close_end).
 *
 * Your program has to keep these rules, which the library can't check (docs/C.md has more):
 *   - A handle isn't copied and then used twice. It may be moved, by memcpy too, if the old one isn't used again.
 *   - Only one call at a time uses a handle, and no other thread uses it meanwhile. The handles of one call are
 *     different ones.
 *   - The two callers of a cf_desk_meet are of one desk. So are the caller and the notice of a cf_desk_heed, and all
 *     callers that are given to one closing. If they aren't, the call answers CF_OTHER_DESK and does nothing. It can
 *     miss this if another thread makes such a call, or a notice, with a caller of the second desk at the same moment.
 *     Then nothing is promised of the two desks.
 *   - Each pointer is aligned. It leads to as many elements as the call is told, in memory that no other call uses
 *     meanwhile.
 *
 * Threads. Any thread may make a call, if it keeps these rules. A handle may go to another thread if the move is
 * ordered by a lock, by the start or the end of a thread, or by a sequentially consistent atomic. Calls with
 * different handles may run at the same time. This goes also for the callers of one desk, and for a plan and what
 * was opened from it. Calls without a handle may be made at any time.
 *
 * Memory. What stands behind a handle is freed by cf_free. What you pass by a pointer stays yours: the library
 * copies what it needs, and keeps no pointer of yours once the call has returned. These calls take memory, and
 * answer CF_NO_MEMORY if it is refused: cf_builder_new, cf_builder_stage, cf_builder_limit, cf_build, cf_graph_new,
 * cf_plan_of, cf_desk_open, cf_desk_open_with, cf_desk_notice, cf_close_begin, cf_ledger_new, cf_ledger_of,
 * cf_ledger_apply, cf_ledger_step, cf_ledger_apply_all, cf_ledger_grow, cf_request_new, cf_request_apply,
 * cf_request_gather, cf_request_compose, cf_request_link, cf_request_next, cf_request_follow, cf_request_join,
 * cf_request_deadline, cf_request_pass, cf_request_refuse, cf_request_cancel_all, cf_request_grow, cf_request_do,
 * cf_row_new, cf_row_plan, cf_row_saw, cf_row_grow, cf_host_new, cf_host_follow, cf_host_act, cf_host_end, cf_host_grow,
 * cf_host_turn, cf_host_opened, cf_host_read, cf_host_beats, cf_host_news, cf_history_new, cf_history_times,
 * cf_history_say, cf_history_text and cf_run_script. No other call takes any.
 *
 * Codes. Each call answers a cf_code, except cf_free and the last four calls of this header. The code is CF_OK (0)
 * if the call did what it was asked. The comments list the other codes of each call. If several apply, the call
 * answers the first of them in the order of the list. These three may come from any call with a pointer or a handle,
 * so the lists leave them out:
 *   - CF_NULL: a pointer is null that may not be. It comes before all other codes. A pointer to an array or a buffer
 *     may be null if the `n`, the `count` or the `room` that follows it is 0. The comments name the other pointers that
 *     may be null.
 *   - CF_EMPTY: nothing stands behind the handle.
 *   - CF_WRONG_KIND: something of another kind stands behind the handle. Like CF_EMPTY it comes before the codes of the
 *     list, unless the list has it in another place.
 *
 * Results. A call writes its results through pointers, if it answers CF_OK. If it answers another code, it has
 * written nothing, and nothing behind a handle has changed. These are the exceptions:
 *   - cf_next, cf_round, cf_sweep_next, cf_ledger_step and cf_request_next have done their work also if they answer
 *     CF_NOTHING. This code says that no ready stage was left to claim.
 *   - cf_desk_next may have done a part of its work.
 *   - cf_work, cf_desk_complete_many, cf_ledger_apply_all and cf_request_do have done their work up to the point where
 *     they stopped, and tell how far they came.
 *   - cf_build leaves an empty builder behind the handle if it answers CF_NO_MEMORY.
 *   - cf_ledger_of tells the place of a word that can't be done.
 *   - cf_run_script writes the report also if it answers CF_BAD_SCRIPT.
 *   - A caller of a desk may have looked, and so have seen more events.
 *   - A graph may have taken turns, which only cf_turns shows.
 *
 * Each `static inline` function of this header calls the function above it, which takes a struct by a pointer. The
 * inline function takes this struct by value, or its fields. The library doesn't export it. */
#ifndef CF_H
#define CF_H
#include <stdbool.h>
#include <stddef.h>
#include <stdint.h>
#ifdef __cplusplus
extern "C" {
#endif

/* A handle. An empty one has only bytes of 0: `cf_handle h = {0};` makes one. Your program keeps the 16 bytes of a
 * handle. It never reads them, and writes nothing into them but the 0 of an empty handle. */
typedef struct { void *at; bool full; } cf_handle;

/* What a call answers. 1 to 9 are the reasons for which a builder refuses a stage or a limit. Where docs/FORMATS.md
 * numbers such reasons, it uses the same numbers. */
typedef enum {
  CF_OK = 0,                  /* the call did what it was asked */
  CF_TOO_MANY_STAGES = 1,     /* the plan has 4,096 stages already */
  CF_SOURCE_NOT_LOWER = 2,    /* the number of a source isn't below the new stage's number */
  CF_WRONG_SOURCE_COUNT = 3,  /* the form takes another number of sources, or an attached stage has more than two */
  CF_FUNCTION_MISSING = 4,    /* the form has a function, and none is given */
  CF_FUNCTION_UNWANTED = 5,   /* the form has no function, and one is given */
  CF_TOO_MANY_EDGES = 6,      /* the plan would have more than 16,384 edges */
  CF_NO_SUCH_STAGE = 7,       /* a limit names a stage that isn't in the plan yet */
  CF_NO_MEMORY = 8,           /* memory was refused */
  CF_TOO_MANY_LIMITS = 9,     /* the plan has 4,096 limits already */
  CF_EMPTY = 10,              /* nothing stands behind the handle */
  CF_FULL = 11,               /* something stands behind a handle that has to be empty */
  CF_WRONG_KIND = 12,         /* something of another kind stands behind the handle */
  CF_NO_SUCH_NUMBER = 13,     /* no form, call of an event or a request, kind of failure or text, or code has this number */
  CF_NO_STAGE = 14,           /* a stage that the call names isn't there */
  CF_BAD_ATTACH = 15,         /* an attached stage doesn't fit its form, or its function isn't one of the desk's */
  CF_ROOM = 16,               /* stages plus room would be over 4,096, or edges plus twice the room over 16,384 */
  CF_NOTHING = 17,            /* there is none: no ready stage, no function, or no event or record at this place */
  CF_CALLERS = 18,            /* a desk has to have 1 to 64 callers */
  CF_LOG = 19,                /* a desk's log has to hold at least one event */
  CF_CALLS = 20,              /* a desk's callers have to hold at least one record each */
  CF_FUNCTIONS = 21,          /* a stage's function isn't below the number of functions, or the pointer to it is null */
  CF_PASS_FULL = 22,          /* the caller holds as many records as it may */
  CF_LOG_FULL = 23,           /* the desk's log is full, and stays so */
  CF_OTHER_DESK = 24,         /* the two handles aren't of one desk */
  CF_NOT_ALL = 25,            /* not all callers of the desk were given back */
  CF_NO_WORD = 26,            /* the word stands for no event, or the event has no word */
  CF_BAD_SCRIPT = 27,         /* the script has a fault, whose line is in the report */
  CF_STILL_SHARED = 28,       /* all callers were given back, but something still holds the desk */
  CF_NOT_HELD = 29,           /* the caller has no open claim of the stage in its task; for sweeps see cf_sweep_next */
  CF_NO_ROOM = 30,            /* a ledger has no room for the stage that a word attaches */
  CF_LOST = 31,               /* another caller of the desk claimed or settled the stage first */
  CF_NOT_OVER = 32,           /* not all stages are behind the sweep yet */
  CF_LANES = 33,              /* a request has to have 1 to 16 lanes, and a lane for each stage of its plan */
  CF_NO_LANE = 34,            /* a lane that the call names isn't there */
  CF_PAST_MOMENT = 35,        /* the moment is before the last one */
  CF_BAD_TEXT = 36,           /* a text ends before it begins or behind its bytes, or isn't UTF-8 */
  CF_TOO_MANY = 37,           /* there are more texts or times than there can be of what they are said of */
  CF_UNDER_WAY = 38,          /* a put of the view is under way */
  CF_NO_TOKENS = 39,          /* there is no such session or token, or the session has fewer tokens left than words */
  CF_NO_QUORUM = 40,          /* a join wants none of its sources, or more than there are */
  CF_NO_TICKET = 41,          /* no such ticket of a host is open, as behind its answer */
  CF_UNFIT = 42,              /* an answer isn't one to its ticket's question */
  CF_NO_NOTE = 43,            /* two numbers stand for no note */
  CF_NOT_OPEN = 44,           /* a host doesn't work on the request, or hasn't opened it */
  CF_NULL = 255               /* a pointer is null that may not be; nothing was done */
} cf_code;

/* The forms of stages. After each stands how many sources it takes, and which method of Java it is. All but
 * CF_SOURCE, CF_ALL_OF and CF_ANY_OF have a function. docs/FORMATS.md says what each form does. */
enum {
  CF_SOURCE = 0,               /* none: a new CompletableFuture */
  CF_SUPPLY = 1,               /* none: supplyAsync */
  CF_RUN_ASYNC = 2,            /* none: runAsync */
  CF_APPLY = 3,                /* one: thenApply */
  CF_ACCEPT = 4,               /* one: thenAccept */
  CF_THEN_RUN = 5,             /* one: thenRun */
  CF_COMBINE = 6,              /* two: thenCombine */
  CF_ACCEPT_BOTH = 7,          /* two: thenAcceptBoth */
  CF_RUN_BOTH = 8,             /* two: runAfterBoth */
  CF_APPLY_EITHER = 9,         /* two: applyToEither */
  CF_ACCEPT_EITHER = 10,       /* two: acceptEither */
  CF_RUN_EITHER = 11,          /* two: runAfterEither */
  CF_COMPOSE = 12,             /* one: thenCompose */
  CF_HANDLE = 13,              /* one: handle */
  CF_WHEN_COMPLETE = 14,       /* one: whenComplete */
  CF_EXCEPTIONALLY = 15,       /* one: exceptionally */
  CF_ALL_OF = 16,              /* any number: allOf */
  CF_ANY_OF = 17,              /* any number: anyOf */
  CF_EXCEPTIONALLY_COMPOSE = 18 /* one: exceptionallyCompose */
};

/* Stands for no function, in the calls that take the number of a function. Any other number above 65,535 means the
 * same. */
#define CF_NO_FUNCTION UINT32_MAX

/* A value: nothing (Java's null), or a number.
 *   - kind: CF_NIL for nothing. Any other kind is read as CF_INT.
 *   - number: the number. It is ignored for CF_NIL, and the library writes 0 there. */
enum { CF_NIL = 0, CF_INT = 1 };
typedef struct { uint32_t kind; int32_t number; } cf_value;

/* What a stage's function answered. Your program writes it.
 *   - kind: CF_GIVE for a value, CF_THROW for an exception. Any other kind is read as CF_LINK, which names another
 *     stage.
 *   - code: the code of the exception, if the kind is CF_THROW.
 *   - value: the value, if the kind is CF_GIVE.
 *   - stage: the other stage, if the kind is CF_LINK.
 *
 * What the stage ends as by this answer:
 *   - CF_GIVE: the value. CF_RUN_ASYNC, CF_ACCEPT, CF_THEN_RUN, CF_ACCEPT_BOTH, CF_RUN_BOTH, CF_ACCEPT_EITHER and
 *     CF_RUN_EITHER ignore the value and end as CF_NIL. CF_WHEN_COMPLETE ignores it, too, and takes over its source's
 *     outcome.
 *   - CF_THROW: a fault of the kind CF_THROWN with this code. But a CF_WHEN_COMPLETE whose source has a fault takes
 *     over that fault.
 *   - CF_LINK: the stage waits for the other stage and takes over its outcome. Only CF_COMPOSE and
 *     CF_EXCEPTIONALLY_COMPOSE can link. The other stage's number has to be below the stage's own. So a planned stage
 *     never links to an attached one.
 *   - Three answers make it end as CF_BAD_ANSWER with the code 0: a link to any other stage, a link by any other form,
 *     and a value given by CF_COMPOSE or CF_EXCEPTIONALLY_COMPOSE. */
enum { CF_GIVE = 0, CF_THROW = 1, CF_LINK = 2 };
typedef struct { uint32_t kind; uint32_t code; cf_value value; uint16_t stage; } cf_answer;

/* The outcome of a stage, or that it has none yet. What an outcome doesn't have is 0.
 *   - kind: CF_PENDING if there is none yet, CF_VALUE, or a fault: CF_THROWN, CF_CANCELLED, CF_TIMED_OUT or
 *     CF_BAD_ANSWER.
 *   - wrapped: 1 if it is a fault inside a CompletionException, as Java has it, else 0. On the stage that a call
 *     failed, timed out or cancelled, or that a limit timed out, the fault isn't wrapped. On every other stage it is.
 *   - code: the code of the exception, the time-out or the bad answer, if the kind is CF_THROWN, CF_TIMED_OUT or
 *     CF_BAD_ANSWER. A time-out or a bad answer to which nobody gave a code has 0.
 *   - value: the value, if the kind is CF_VALUE. */
enum { CF_PENDING = 0, CF_VALUE = 1, CF_THROWN = 2, CF_CANCELLED = 3, CF_TIMED_OUT = 4, CF_BAD_ANSWER = 5 };
typedef struct { uint32_t kind; uint32_t wrapped; uint32_t code; cf_value value; } cf_outcome;

/* What a stage's function is to be called with, by the kind. What a kind doesn't have is 0.
 *   - CF_NO_ARGS: nothing (CF_SUPPLY, CF_RUN_ASYNC, CF_THEN_RUN, CF_RUN_BOTH, CF_RUN_EITHER).
 *   - CF_ONE: the value `first` (CF_APPLY, CF_ACCEPT, CF_COMPOSE, CF_APPLY_EITHER, CF_ACCEPT_EITHER).
 *   - CF_TWO: the values `first` and `second` (CF_COMBINE, CF_ACCEPT_BOTH).
 *   - CF_GOT: an outcome. For CF_HANDLE and CF_WHEN_COMPLETE it is any outcome, for CF_EXCEPTIONALLY and
 *     CF_EXCEPTIONALLY_COMPOSE a fault.
 *
 * If the sources gave what the function isn't for, such as a fault to CF_APPLY or a value to CF_EXCEPTIONALLY, the
 * stage is settled without its function. */
enum { CF_NO_ARGS = 0, CF_ONE = 1, CF_TWO = 2, CF_GOT = 3 };
typedef struct { uint32_t kind; cf_value first, second; cf_outcome outcome; } cf_args;

/* What a stage gives at present, as Java's getNow and join tell it.
 *   - CF_ABSENT: the stage isn't settled. `outcome` is the value that was handed in for this case. cf_desk_join takes
 *     no such value: there `outcome` is pending.
 *   - CF_GOT_VALUE: `outcome` is its value.
 *   - CF_COMPLETION: `outcome` is its fault, as a CompletionException.
 *   - CF_CANCELLATION: the stage itself was cancelled, for which Java throws a CancellationException. */
enum { CF_ABSENT = 0, CF_GOT_VALUE = 1, CF_COMPLETION = 2, CF_CANCELLATION = 3 };
typedef struct { uint32_t kind; cf_outcome outcome; } cf_now;

/* How a claim went: the `answer` of its reply.
 *   - CF_GRANTED: the stage was ready, and the caller has claimed it. The `args` of the reply are what its function is
 *     to be called with.
 *   - CF_SETTLED: the stage is settled already.
 *   - CF_TAKEN: the stage is claimed already, or it waits for the stage to which it was linked.
 *   - CF_NOT_READY: the stage isn't ready yet. */
enum { CF_GRANTED = 0, CF_SETTLED = 1, CF_TAKEN = 2, CF_NOT_READY = 3 };

/* How a finish went: the `answer` of its reply.
 *   - CF_WON: the answer was taken. If it was a link, the stage now waits for the other stage, unless that is settled
 *     already.
 *   - CF_LATE: the stage was settled after its claim, for instance cancelled. The answer is dropped.
 *   - CF_NOT_YOURS: this caller hasn't claimed the stage, or has finished it already. */
enum { CF_WON = 0, CF_LATE = 1, CF_NOT_YOURS = 2 };

/* How a tick went: the `answer` of its reply.
 *   - CF_FIRED: it is this moment now. The `number` of the reply is how many limits settled their stage.
 *   - CF_PAST: the moment is before the last one. Nothing has changed. */
enum { CF_FIRED = 0, CF_PAST = 1 };

/* How an attach went: the `answer` of its reply.
 *   - CF_AT: the stage was attached. The `number` of the reply is its number, which is the next one.
 *   - CF_STAGES_FULL: there is no room left. Nothing has changed. */
enum { CF_AT = 0, CF_STAGES_FULL = 1 };

/* The reply to a changing call. What a reply doesn't have is 0.
 *   - answer: for claim, finish, tick and attach one of the four lists above. For complete, fail and fail as it is 1 if
 *     the call settled the stage, else 0. For cancel it is 1 if the stage itself is cancelled then, by this call or by
 *     an earlier one, else 0.
 *   - number: for tick and attach, as said above.
 *   - args: for a claim that was granted, what the function is to be called with. */
typedef struct { uint32_t answer; uint32_t number; cf_args args; } cf_reply;

/* What a caller has to do. cf_next and the calls like it fill a task, and take it back at the next step. A task that
 * has only bytes of 0 holds nothing.
 *   - held: 0 if the task holds no stage. Otherwise it holds a stage that was claimed for it, and the next three fields
 *     say which.
 *   - stage: the number of the stage.
 *   - function: the number of its function.
 *   - args: what the function is to be called with.
 *   - answer: your program writes here what the function answered. The library only reads it.
 *   - finished: the library writes here how the finish of the last step went: CF_WON, also if nothing was held, or
 *     CF_LATE. cf_round may write CF_NOT_YOURS, too. */
typedef struct { uint32_t held; uint16_t stage; uint16_t function; cf_args args; cf_answer answer; uint32_t finished; } cf_task;

/* ---- Any handle ---- */

/* Frees what stands behind a handle, and leaves the handle empty. A null pointer and an empty handle are left alone.
 *   - A plan may be freed before the graphs, ledgers and desks that were opened from it.
 *   - The callers of a desk may be freed in any order, each by the thread that has its handle. A caller takes its
 *     records with it. The other callers go on, but their desk can't be closed any more: cf_close_end answers
 *     CF_NOT_ALL for good. So keep the handle of a thread that has ended, and give it to the closing.
 *   - A desk is freed with the last of its callers and notices. Freeing a closing frees the callers that it was given,
 *     too. */
void cf_free(cf_handle *h);

/* ---- Plans ---- */

/* A plan is a list of stages, each with its form, its sources and the number of its function, and a list of time
 * limits. A builder takes them one by one. A plan doesn't change once it is built. Any number of graphs, ledgers and
 * desks may be opened from it. They share its memory. */

/* Puts an empty builder behind an empty handle.
 *   - stages, edges: for how many stages and edges the builder takes memory at once. 0 and 0 will do, since it takes
 *     more when it needs it.
 *
 * Codes: CF_FULL, CF_NO_MEMORY. */
uint32_t cf_builder_new(cf_handle *builder, uint16_t stages, uint16_t edges);

/* Adds a stage.
 *   - form: one of the forms, CF_SOURCE to CF_EXCEPTIONALLY_COMPOSE.
 *   - of, n: the numbers of its n sources. Each is a stage that was added before. A stage may stand there twice.
 *   - function: the number by which you know its function, at most 65,535, or CF_NO_FUNCTION if the form has none.
 *     Several stages may have one function.
 *   - stage: gets the number of the new stage: 0 for the first, then 1, 2, ..
 *
 * Codes:
 *   - CF_NO_SUCH_NUMBER: no form has this number.
 *   - CF_TOO_MANY_STAGES, CF_WRONG_SOURCE_COUNT, CF_SOURCE_NOT_LOWER, CF_FUNCTION_MISSING, CF_FUNCTION_UNWANTED,
 *     CF_TOO_MANY_EDGES, CF_NO_MEMORY: as cf_code says. */
uint32_t cf_builder_stage(cf_handle *builder, uint32_t form, const uint16_t *of, size_t n, uint32_t function, uint16_t *stage);

/* Adds a time limit to a stage. The limit fires by the first tick at its moment or later. If the stage isn't settled
 * by then, it times out, or gets a value. If one tick fires several limits, they fire in the order of their moments,
 * and those of one moment in the order in which they were added.
 *   - stage: a stage that was added before.
 *   - at: the moment, in a unit of your choice.
 *   - kind: CF_TIMEOUT if the stage is to time out. Any other kind is read as CF_GIVE_VALUE.
 *   - code: the code with which the stage times out, which may be any number. It is ignored for CF_GIVE_VALUE.
 *   - value: the value that the stage gets. It is ignored for CF_TIMEOUT.
 *
 * Codes: CF_NO_SUCH_STAGE, CF_TOO_MANY_LIMITS, CF_NO_MEMORY. */
enum { CF_TIMEOUT = 0, CF_GIVE_VALUE = 1 };
uint32_t cf_builder_limit(cf_handle *builder, uint16_t stage, uint32_t at, uint32_t kind, uint32_t code, cf_value value);

/* Makes the builder behind the handle a plan.
 *
 * Code: CF_NO_MEMORY. Then an empty builder stands behind the handle, and the plan has to be built again. */
uint32_t cf_build(cf_handle *builder);

/* ---- Graphs: for one thread alone ---- */

/* A graph is the stages of a plan with how far each has come, and the stages that are attached later. Each call is
 * answered as if all that follows from the calls before it had been settled at once. So stages whose functions
 * aren't called, such as CF_ANY_OF, or CF_APPLY of a fault, need no caller.
 *
 * `who` is the number of the caller that claims and finishes stages. It may be any number from 0 to 255, but only
 * events of the callers 0 to 63 have words. */

/* Opens a graph of a plan.
 *   - plan: the plan. It stays behind its handle.
 *   - room: how many stages may be attached later.
 *   - graph: an empty handle, behind which the graph is put.
 *
 * Codes:
 *   - CF_FULL: something stands behind `graph` already.
 *   - CF_EMPTY, CF_WRONG_KIND: nothing, or something that isn't a plan, stands behind `plan`.
 *   - CF_ROOM: with so much room there could be over 4,096 stages or 16,384 edges.
 *   - CF_NO_MEMORY. */
uint32_t cf_graph_new(cf_handle *plan, uint16_t room, cf_handle *graph);

/* Each of the next four calls settles a stage of any form, unless it is settled already. The reply tells whether it
 * did. If the stage is claimed, its function may be running in your program. The library can't stop it, and its
 * finish will be answered CF_LATE.
 *
 * Code: CF_NO_STAGE if there is no such stage. */

/* Completes a stage with a value. */
uint32_t cf_complete(cf_handle *graph, uint16_t stage, cf_value value, cf_reply *reply);

/* Fails a stage with the code of an exception, which may be any number. */
uint32_t cf_fail(cf_handle *graph, uint16_t stage, uint32_t code, cf_reply *reply);

/* Fails a stage as timed out, or with a bad answer.
 *   - kind: the kind of the outcome, which is CF_TIMED_OUT or CF_BAD_ANSWER. CF_BAD_ANSWER is meant for a stage that
 *     stands in for another one, such as one of another graph: your program ends it as the other one has ended.
 *   - code: the code of the time-out or the bad answer, which may be any number.
 *
 * Codes: CF_NO_SUCH_NUMBER for any other kind, and then CF_NO_STAGE. */
uint32_t cf_fail_as(cf_handle *graph, uint16_t stage, uint32_t kind, uint32_t code, cf_reply *reply);

/* Cancels a stage. */
uint32_t cf_cancel(cf_handle *graph, uint16_t stage, cf_reply *reply);

/* Claims a stage for the caller `who`. If the reply is CF_GRANTED, the caller calls the stage's function with the
 * `args` of the reply, and then finishes the stage.
 *
 * Code: CF_NO_STAGE if there is no such stage. */
uint32_t cf_claim(cf_handle *graph, uint8_t who, uint16_t stage, cf_reply *reply);

/* Finishes a stage that the caller `who` has claimed, with what the function answered.
 *
 * Code: CF_NO_STAGE if there is no such stage. */
uint32_t cf_finish_with(cf_handle *graph, uint8_t who, uint16_t stage, const cf_answer *answer, cf_reply *reply);
static inline uint32_t cf_finish(cf_handle *graph, uint8_t who, uint16_t stage, cf_answer answer, cf_reply *reply) {
  return cf_finish_with(graph, who, stage, &answer, reply);
}

/* One step of a caller's loop. It finishes the stage that the task holds, if there is one, with the answer in the
 * task. Then it claims the lowest ready stage, and writes it into the task. Your program calls the function of this
 * stage, writes what it answers into the task, and makes the next step.
 *   - task: all bytes 0 for the first step.
 *
 * Codes:
 *   - CF_NO_STAGE: the stage that the task holds isn't there.
 *   - CF_NOT_HELD: the caller `who` hasn't claimed the stage that the task holds, or has finished it already.
 *   - CF_NOTHING: no stage is ready. The finish was done, if there was one. The task holds nothing, and tells how the
 *     finish went. */
uint32_t cf_next(cf_handle *graph, uint8_t who, cf_task *task);

/* The same step for several tasks of one caller. It finishes what the tasks hold, one after another. Then each task
 * in turn gets the lowest ready stage, which is claimed for it, or holds nothing if none is ready. Each task tells
 * how its finish went. That is CF_NOT_YOURS if a task before it held the same stage.
 *   - tasks, n: the n tasks, all bytes 0 for the first step.
 *
 * Codes:
 *   - CF_NO_STAGE, CF_NOT_HELD: as for cf_next, for the first task whose stage can't be finished. No other task is
 *     finished, either.
 *   - CF_NOTHING: no task holds a stage now. All finishes were done. */
uint32_t cf_round(cf_handle *graph, uint8_t who, cf_task *tasks, size_t n);

/* A function of yours, as cf_work calls it.
 *   - context: the pointer that cf_work was given.
 *   - task: the claimed stage, and what its function is to be called with.
 *   - answer: the function writes its answer here. It is CF_GIVE of CF_NIL until then. */
typedef void (*cf_stage_function)(void *context, const cf_task *task, cf_answer *answer);

/* The whole loop of the caller `who`. As long as a stage is ready, it claims the lowest one, calls its function, and
 * finishes the stage with the answer.
 *   - functions, n: n pointers to functions. The function with the number k stands at index k. A pointer that no stage
 *     needs may be null.
 *   - context: handed on to each function. It may be null.
 *   - calls: gets how many functions were called, also with the codes below.
 *
 * Codes:
 *   - CF_FUNCTIONS: the function of a stage isn't there. If it is missing at the start, no function is called. If a
 *     function that was called has attached the stage, that function's own stage is still finished, and the attached
 *     one isn't claimed.
 *   - A code of cf_next, if a function has changed the graph so that its own stage can't be finished. */
uint32_t cf_work(cf_handle *graph, uint8_t who, const cf_stage_function *functions, size_t n, void *context, uint32_t *calls);

/* Makes the graph behind the handle a sweep. A sweep is a caller's loop in one walk up through all stages. It takes
 * the least time for each stage. Until cf_sweep_end makes it a graph again, the handle takes only cf_sweep_next,
 * cf_sweep_end and cf_free. */
uint32_t cf_sweep_begin(cf_handle *graph);

/* One step of a sweep. The stage that the task holds is settled by the answer in the task, as if any caller had
 * claimed and finished it. Then the sweep goes on to the lowest ready stage, and writes it into the task, as cf_next
 * does.
 *
 * Codes:
 *   - CF_NOT_HELD: the sweep stands at a stage and the task doesn't hold it, or the sweep stands at none and the task
 *     holds one.
 *   - CF_NOTHING: no stage is ready. If the task held a stage, that was settled. All stages are behind the sweep now,
 *     and the task holds nothing. */
uint32_t cf_sweep_next(cf_handle *sweep, cf_task *task);

/* Makes a sweep its graph again.
 *
 * Code: CF_NOT_OVER if not all stages are behind the sweep. Go on until cf_sweep_next answers CF_NOTHING, or free
 * the sweep. */
uint32_t cf_sweep_end(cf_handle *sweep);

/* Hands in the moment, in the unit of the plan's limits. The limits that are due fire. A limit fires by a tick
 * alone. The moment of a graph is 0 when it is opened or started again. */
uint32_t cf_tick(cf_handle *graph, uint32_t now, cf_reply *reply);

/* Attaches a stage, if there is room for it. The reply tells its number. The new stage takes at once what its
 * settled sources give. It has no time limit, but cf_fail_as can time it out.
 *   - form, function: as for cf_builder_stage.
 *   - of, n: the numbers of its n sources, at most two.
 *
 * Codes:
 *   - CF_NO_SUCH_NUMBER: no form has this number.
 *   - CF_WRONG_SOURCE_COUNT: there are more than two sources.
 *   - CF_NO_STAGE: a source isn't there.
 *   - CF_BAD_ATTACH: the form takes another number of sources, or its function is missing or unwanted. */
uint32_t cf_attach(cf_handle *graph, uint32_t form, const uint16_t *of, size_t n, uint32_t function, cf_reply *reply);

/* Tells the outcome of a stage, or that it is pending.
 *
 * Code: CF_NO_STAGE if there is no such stage. */
uint32_t cf_get(cf_handle *graph, uint16_t stage, cf_outcome *outcome);

/* Tells what a stage gives at present.
 *   - absent: the value that is told if the stage isn't settled.
 *
 * Code: CF_NO_STAGE if there is no such stage. */
uint32_t cf_get_now(cf_handle *graph, uint16_t stage, cf_value absent, cf_now *now);

/* Tells the lowest ready stage.
 *
 * Code: CF_NOTHING if no stage is ready. */
uint32_t cf_lowest_ready(cf_handle *graph, uint16_t *stage);

/* Tells the number of a stage's function.
 *
 * Codes: CF_NO_STAGE if there is no such stage, and CF_NOTHING if it has no function. */
uint32_t cf_function(cf_handle *graph, uint16_t stage, uint16_t *function);

/* Tells how many stages there are by now, with those that were attached. */
uint32_t cf_stages(cf_handle *graph, uint16_t *stages);

/* Tells how many turns were taken since the graph was opened or last started again. In a turn a stage takes what its
 * sources, or the stage to which it is linked, have by then. */
uint32_t cf_turns(cf_handle *graph, uint64_t *turns);

/* Starts the graph again. It is then as it was opened: the attached stages are gone, and all its room is free. */
uint32_t cf_restart(cf_handle *graph);

/* Starts the graph again, and then completes stages with values, one after another. So one call begins the next
 * request.
 *   - given, n: n stages of the plan, each with its value.
 *
 * Code: CF_NO_STAGE if one of them isn't a stage of the plan. The graph isn't started again then, either. */
typedef struct { uint16_t stage; cf_value value; } cf_given;
uint32_t cf_restart_with(cf_handle *graph, const cf_given *given, size_t n);

/* Puts the plan from which the graph was opened behind an empty handle. The plan and the graph share memory.
 *
 * Codes:
 *   - CF_FULL: something stands behind `plan` already.
 *   - CF_EMPTY, CF_WRONG_KIND: nothing, or something that isn't a graph, stands behind `graph`.
 *   - CF_NO_MEMORY. */
uint32_t cf_plan_of(cf_handle *graph, cf_handle *plan);

/* ---- Desks: a graph that callers on several threads share without a lock ---- */

/* A desk is a graph that 1 to 64 callers share. Each caller has a handle of its own, which one thread uses at a
 * time. Calls of different callers may run at the same time.
 *
 * The changing calls of all callers stand in one order, the history of the desk. The desk keeps it in its log, which
 * has a fixed length. Each caller has seen the history up to some place. A look takes the caller from there to the
 * end of what the log has by then. Each caller also keeps records, which say what it did or asked, and what it was
 * told. Once the desk is closed, the history, the records and the graph can be read. */

/* Opens a desk of a plan.
 *   - plan: the plan. It stays behind its handle.
 *   - callers, n: n empty handles, 1 to 64. The callers 0, 1, .. are put behind them, each for one thread.
 *   - log: how many changing calls the desk takes from all callers together, 1 to 65,535. Calls that change nothing
 *     count, too. n times `calls` is always enough.
 *   - calls: how many records each caller may hold, 1 to 65,535. Each of its changing calls that is done takes one. So
 *     does each cf_desk_read, cf_desk_read_now and cf_desk_join, so a caller that asks again and again uses its records
 *     up.
 *
 * There is no room for more stages: the reply to cf_desk_attach is CF_STAGES_FULL.
 *
 * Codes, which all leave the handles as they were:
 *   - CF_EMPTY, CF_WRONG_KIND: nothing, or something that isn't a plan, stands behind `plan`.
 *   - CF_FULL: one of the n handles isn't empty.
 *   - CF_CALLERS, CF_LOG, CF_CALLS: n, `log` or `calls` is out of its bounds.
 *   - CF_NO_MEMORY. */
uint32_t cf_desk_open(cf_handle *plan, cf_handle *callers, size_t n, uint16_t log, uint16_t calls);

/* Opens a desk to which stages may be attached.
 *   - plan, callers, n, sizes->log, sizes->calls: as for cf_desk_open.
 *   - sizes->room: how many stages may be attached.
 *   - sizes->functions: how many functions there are. The numbers of the plan's functions have to be below it. Those of
 *     attached stages have to be below it, too, and at most 4,095.
 *
 * Codes, which all leave the handles as they were: first those of cf_desk_open up to CF_CALLS, and then these:
 *   - CF_ROOM: with so much room there could be over 4,096 stages or 16,384 edges.
 *   - CF_FUNCTIONS: a function of the plan has a number that isn't below sizes->functions.
 *   - CF_NO_MEMORY. */
typedef struct { uint16_t log; uint16_t calls; uint16_t room; uint32_t functions; } cf_desk_sizes;
uint32_t cf_desk_open_with(cf_handle *plan, cf_handle *callers, size_t n, const cf_desk_sizes *sizes);
static inline uint32_t cf_desk_open_growing(cf_handle *plan, cf_handle *callers, size_t n, uint16_t log, uint16_t calls, uint16_t room,
                                            uint32_t functions) {
  cf_desk_sizes sizes;
  sizes.log = log, sizes.calls = calls, sizes.room = room, sizes.functions = functions;
  return cf_desk_open_with(plan, callers, n, &sizes);
}

/* The calls from here to cf_desk_attach are the changing calls of a graph, made by the caller behind the handle.
 * Each call gets a place in the history. Its reply is the one that the graph gives after all events before this
 * place. A stage that another caller has attached is there for this caller once it has looked. If a call names a
 * stage that isn't there yet, it looks first.
 *
 * These are their codes, of which each call has those that concern it:
 *   - CF_NO_SUCH_NUMBER: for cf_desk_fail_as, there is no such kind of failure; for cf_desk_attach, no form has this
 *     number.
 *   - CF_WRONG_SOURCE_COUNT: for cf_desk_attach, there are more than two sources.
 *   - CF_NO_STAGE: a stage that the call names isn't there.
 *   - CF_BAD_ATTACH: for cf_desk_attach, the stage doesn't fit its form, or its function isn't one of the desk's.
 *   - CF_PASS_FULL: the caller holds as many records as it may.
 *   - CF_LOG_FULL: the log is full, and stays so. No changing call is done any more. Looks go on, and the desk can be
 *     closed. */

/* Completes a stage, as cf_complete does. */
uint32_t cf_desk_complete(cf_handle *caller, uint16_t stage, cf_value value, cf_reply *reply);

/* Fails a stage, as cf_fail does. */
uint32_t cf_desk_fail(cf_handle *caller, uint16_t stage, uint32_t code, cf_reply *reply);

/* Fails a stage as timed out, or with a bad answer, as cf_fail_as does. */
uint32_t cf_desk_fail_as(cf_handle *caller, uint16_t stage, uint32_t kind, uint32_t code, cf_reply *reply);

/* Cancels a stage, as cf_cancel does. A function that runs for this stage isn't stopped. Its caller can learn of it
 * by reading the stage. */
uint32_t cf_desk_cancel(cf_handle *caller, uint16_t stage, cf_reply *reply);

/* Claims a stage for this caller, as cf_claim does. */
uint32_t cf_desk_claim(cf_handle *caller, uint16_t stage, cf_reply *reply);

/* Finishes a stage that this caller has claimed, as cf_finish_with does. */
uint32_t cf_desk_finish_with(cf_handle *caller, uint16_t stage, const cf_answer *answer, cf_reply *reply);
static inline uint32_t cf_desk_finish(cf_handle *caller, uint16_t stage, cf_answer answer, cf_reply *reply) {
  return cf_desk_finish_with(caller, stage, &answer, reply);
}

/* Hands in the moment, as cf_tick does. */
uint32_t cf_desk_tick(cf_handle *caller, uint32_t now, cf_reply *reply);

/* Attaches a stage, as cf_attach does. */
uint32_t cf_desk_attach(cf_handle *caller, uint32_t form, const uint16_t *of, size_t n, uint32_t function, cf_reply *reply);

/* Completes stages one after another, as cf_desk_complete does each, up to the first that is refused.
 *   - given, n: n stages, each with its value.
 *   - done: gets how many calls were done, also with the codes below.
 *
 * Codes: CF_NO_STAGE, CF_PASS_FULL or CF_LOG_FULL, for which the next one was refused. */
uint32_t cf_desk_complete_many(cf_handle *caller, const cf_given *given, size_t n, size_t *done);

/* One step of a caller's loop, as cf_next does it. It finishes the stage that the task holds, if there is one. Then
 * it looks, claims the lowest stage that is ready then, and writes it into the task. The finish and the claim each
 * take a record and a place of the log.
 *   - task: all bytes 0 for the first step.
 *
 * Codes:
 *   - CF_NO_STAGE: the stage that the task holds isn't there, in what the caller has seen. Nothing is changed.
 *   - CF_NOT_HELD: the caller has no open claim of the stage that the task holds, in what it has seen. Nothing is
 *     changed.
 *   - CF_PASS_FULL, CF_LOG_FULL: there is no record, or no place of the log, for the finish or for the claim.
 *   - CF_NOTHING: no stage is ready after the look.
 *   - CF_LOST: another caller claimed or settled the stage first. The claim has taken a record and a place all the
 *     same. Ask again.
 *
 * After one of the last four codes, look at task->held. If it is 0, the finish was done, and task->finished tells
 * how it went. Otherwise the finish wasn't done: the task is as it was, and its claim is still open. */
uint32_t cf_desk_next(cf_handle *caller, cf_task *task);

/* Looks once, and tells the outcome of a stage, as cf_get does. It takes a record.
 *
 * Codes: CF_NO_STAGE if there is no such stage, and CF_PASS_FULL if the caller holds as many records as it may. */
uint32_t cf_desk_read(cf_handle *caller, uint16_t stage, cf_outcome *outcome);

/* Looks once, and tells what a stage gives at present, as cf_get_now does. It takes a record.
 *
 * Codes: CF_NO_STAGE and CF_PASS_FULL, as for cf_desk_read. */
uint32_t cf_desk_read_now(cf_handle *caller, uint16_t stage, cf_value absent, cf_now *now);

/* Looks until the stage is settled, at most so many times, and tells what the stage gives. It doesn't sleep between
 * two looks. It takes one record.
 *   - looks: how many times it looks at most. 0 counts as 1.
 *   - now: gets what the stage gives. If it wasn't settled after the last look, that is CF_ABSENT with a pending
 *     outcome.
 *
 * Codes: CF_NO_STAGE and CF_PASS_FULL, as for cf_desk_read. */
uint32_t cf_desk_join(cf_handle *caller, uint16_t stage, uint32_t looks, cf_now *now);

/* Looks once, and tells the lowest ready stage. It takes no record. Another caller may claim the stage first. A
 * claim and its finish take a record each, so a caller that wants to claim should have two left (cf_desk_left).
 *
 * Code: CF_NOTHING if no stage is ready. */
uint32_t cf_desk_ready(cf_handle *caller, uint16_t *stage);

/* Lets two callers of one desk see all that either of them has seen. One thread has the handles of both.
 *
 * Code: CF_OTHER_DESK if they aren't of one desk. Both are as they were. */
uint32_t cf_desk_meet(cf_handle *caller, cf_handle *other);

/* Puts a notice of what the caller has seen behind an empty handle. The notice may go to another thread in any way.
 * A notice holds its desk, so it has to be heeded or freed before the desk is closed.
 *
 * Codes: CF_FULL if something stands behind `notice` already, and CF_NO_MEMORY. */
uint32_t cf_desk_notice(cf_handle *caller, cf_handle *notice);

/* Lets the caller see all that the notice tells of. So each later call of this caller comes, in the history, after
 * all that the other caller had seen when it made the notice. The notice is used up, and its handle is empty then.
 *
 * Code: CF_OTHER_DESK if the caller and the notice aren't of one desk. Both are as they were. */
uint32_t cf_desk_heed(cf_handle *caller, cf_handle *notice);

/* The calls from here to cf_desk_caller don't look. */

/* Tells how many events the caller has seen. */
uint32_t cf_desk_seen(cf_handle *caller, uint16_t *events);

/* Tells how many more records the caller takes. */
uint32_t cf_desk_left(cf_handle *caller, uint16_t *calls);

/* Tells the number of a stage's function.
 *
 * Codes: CF_NO_STAGE if the caller hasn't seen such a stage, and CF_NOTHING if the stage has no function. */
uint32_t cf_desk_function(cf_handle *caller, uint16_t stage, uint16_t *function);

/* Tells the caller's number. */
uint32_t cf_desk_caller(cf_handle *caller, uint8_t *number);

/* ---- Closing a desk ---- */

/* To close a desk, one thread has to have the handles of all its callers. It begins with one of them, gives the
 * others back, and ends the closing. */

/* Begins to close a desk. The caller behind the handle becomes a closing.
 *
 * Code: CF_NO_MEMORY. The caller is as it was. */
uint32_t cf_close_begin(cf_handle *caller);

/* Gives one more caller of the desk back. Its handle is empty then.
 *
 * Code: CF_OTHER_DESK if the caller isn't of the same desk. Both are as they were. */
uint32_t cf_close_add(cf_handle *closing, cf_handle *caller);

/* Ends the closing, which becomes a closed desk.
 *
 * Codes:
 *   - CF_NOT_ALL: callers are missing. If one of them was freed, this code comes for good.
 *   - CF_STILL_SHARED: a notice of the desk is left. Free it, and ask again. If no notice of the desk is left and no
 *     other call is at work on it, this code doesn't come. That is only tested, not proved. */
uint32_t cf_close_end(cf_handle *closing);

/* One record of a caller: what it did or asked, and what it was told. What a record doesn't have is 0.
 *   - kind: CF_DID for a changing call, CF_SAW for a look.
 *   - place: for CF_DID, where the event of the call stands in the history, counted from 1. So cf_closed_word, which
 *     counts from 0, tells its word at place - 1. For CF_SAW, how many events were seen.
 *   - word: for CF_DID, the word of the event. cf_event_of makes the call of it.
 *   - reply: for CF_DID, the reply.
 *   - asked: for CF_SAW, what was asked. It is CF_ASKED_OUTCOME for cf_desk_read and for the last look of a
 *     cf_desk_join, and CF_ASKED_NOW for cf_desk_read_now.
 *   - stage: for CF_SAW, the stage that was asked about.
 *   - outcome: for CF_ASKED_OUTCOME, what was told, as by cf_desk_read.
 *   - absent, now: for CF_ASKED_NOW, the value that was handed in, and what was told. */
enum { CF_DID = 0, CF_SAW = 1 };
enum { CF_ASKED_OUTCOME = 0, CF_ASKED_NOW = 1 };
typedef struct {
  uint32_t kind; uint32_t place; uint64_t word; cf_reply reply;
  uint32_t asked; uint16_t stage; cf_value absent; cf_outcome outcome; cf_now now;
} cf_record;

/* Tells how many events the history of a closed desk has. */
uint32_t cf_closed_events(cf_handle *closed, uint16_t *events);

/* Tells the word of the event at a place of the history: 0, 1, ..
 *
 * Code: CF_NOTHING if there is no event at this place. */
uint32_t cf_closed_word(cf_handle *closed, uint16_t place, uint64_t *word);

/* Tells how many records a caller has.
 *   - caller: the caller's number.
 *
 * Code: CF_NOTHING if no caller has this number. */
uint32_t cf_closed_records(cf_handle *closed, uint8_t caller, uint16_t *records);

/* Tells one record of a caller.
 *   - caller: the caller's number.
 *   - at: the record's place among those of this caller: 0, 1, ..
 *
 * Code: CF_NOTHING if there is no such caller or record. */
uint32_t cf_closed_record(cf_handle *closed, uint8_t caller, uint16_t at, cf_record *record);

/* Makes the closed desk its graph, as all events leave it. The history and the records are gone then. */
uint32_t cf_closed_graph(cf_handle *closed);

/* ---- Words of events ---- */

/* A word stands for an event: a changing call together with its caller. A program can keep and send words, and have
 * a graph or a ledger do them. */

/* An event. A field that isn't named here for a call is ignored, and the library writes 0 there.
 *   - call: which call it is.
 *   - kind: for CF_CALL_FAIL_AS, CF_TIMED_OUT or CF_BAD_ANSWER.
 *   - who: the number of the caller.
 *   - stage: the stage, for all calls but CF_CALL_TICK and CF_CALL_ATTACH.
 *   - value: for CF_CALL_COMPLETE.
 *   - code: for CF_CALL_FAIL the code of the exception, and for CF_CALL_FAIL_AS that of the time-out or the bad answer.
 *   - answer: for CF_CALL_FINISH.
 *   - now: for CF_CALL_TICK, the moment.
 *   - form, function: for CF_CALL_ATTACH. If there is no function, the library writes CF_NO_FUNCTION.
 *   - sources, first, second: for CF_CALL_ATTACH, how many sources there are, 0 to 2, and their numbers. */
enum {
  CF_CALL_COMPLETE = 0, CF_CALL_FAIL = 1, CF_CALL_CANCEL = 2, CF_CALL_CLAIM = 3, CF_CALL_FINISH = 4, CF_CALL_TICK = 5, CF_CALL_ATTACH = 6,
  CF_CALL_FAIL_AS = 7
};
typedef struct {
  uint32_t call; uint32_t kind; uint8_t who; uint16_t stage; cf_value value; uint32_t code; cf_answer answer; uint32_t now;
  uint32_t form; uint32_t sources; uint16_t first; uint16_t second; uint32_t function;
} cf_event;

/* Tells the word of an event. No two events have the same word, and no event has the word 0. docs/FORMATS.md says
 * how words are made.
 *
 * Codes:
 *   - CF_NO_SUCH_NUMBER: there is no such call, no such form of a CF_CALL_ATTACH, or no such kind of a CF_CALL_FAIL_AS.
 *   - CF_WRONG_SOURCE_COUNT: a CF_CALL_ATTACH has `sources` above 2.
 *   - CF_NO_WORD: the event has no word. It has one if its caller is at most 63, its stage, its sources and its
 *     function are at most 4,095, and the stage that it attaches fits its form. */
uint32_t cf_word_of_event(const cf_event *event, uint64_t *word);
static inline uint32_t cf_word_of(cf_event event, uint64_t *word) {
  return cf_word_of_event(&event, word);
}

/* Tells the event of a word.
 *
 * Code: CF_NO_WORD if the word stands for no event. */
uint32_t cf_event_of(uint64_t word, cf_event *event);

/* Does the event of a word to a graph, and gives the reply of that call. A stage that a word attaches always fits
 * its form.
 *
 * Codes: CF_NO_WORD if the word stands for no event, and CF_NO_STAGE if a stage that the event names isn't there. */
uint32_t cf_apply(cf_handle *graph, uint64_t word, cf_reply *reply);

/* ---- Ledgers: graphs that keep the word of each event ---- */

/* A ledger is a graph that keeps the word of each event that was done to it. From these words the same ledger can be
 * made again. To make a changing call, make a word of it (cf_word_of), and give that to cf_ledger_apply. For each
 * word the ledger tells its news, which are the stages that the word has changed. The callers have numbers from 0 to
 * 63. If several threads share a ledger, your program keeps it under one lock. */

/* What a stage is. What a stage doesn't have is 0.
 *   - kind: CF_IS_PENDING; CF_IS_READY; CF_IS_CLAIMED, until it is finished or settled; CF_IS_LINKED, while it waits
 *     for the stage to which it is linked; or CF_IS_SETTLED.
 *   - who: the caller that has an open claim of the stage, also if another call has settled the stage meanwhile.
 *     CF_NOBODY if there is none.
 *   - target: for CF_IS_LINKED, the stage to which it is linked.
 *   - outcome: for CF_IS_SETTLED, its outcome. */
enum { CF_IS_PENDING = 0, CF_IS_READY = 1, CF_IS_CLAIMED = 2, CF_IS_LINKED = 3, CF_IS_SETTLED = 4 };
#define CF_NOBODY UINT32_MAX
typedef struct { uint32_t kind; uint32_t who; uint16_t target; cf_outcome outcome; } cf_stage;

/* One of the news: a stage that a word has changed, and what it is now. */
typedef struct { uint16_t stage; cf_stage now; } cf_news;

/* Opens a ledger of a plan, in which no word is written yet.
 *   - plan: the plan. It stays behind its handle.
 *   - room: how many stages may be attached later.
 *   - ledger: an empty handle, behind which the ledger is put.
 *
 * Codes: CF_FULL, CF_EMPTY, CF_WRONG_KIND, CF_ROOM and CF_NO_MEMORY, as for cf_graph_new. */
uint32_t cf_ledger_new(cf_handle *plan, uint16_t room, cf_handle *ledger);

/* Opens a ledger of a plan, as cf_ledger_new does. Then it does the events of words, one after another, and writes
 * the words into the ledger. So a ledger can be made again from its words, or made from the history of a desk.
 *   - words, n: n words.
 *   - place: gets the place of the first word that can't be done, 0, 1, .., if the code is one of the last three below.
 *     With any other code it is left as it was.
 *
 * Codes:
 *   - CF_FULL, CF_EMPTY, CF_WRONG_KIND, CF_ROOM: as for cf_graph_new.
 *   - CF_NO_MEMORY: memory was refused. It may come in place of the next three.
 *   - CF_NO_WORD: the word stands for no event.
 *   - CF_NO_STAGE: a stage that its event names isn't there.
 *   - CF_NO_ROOM: there is no room for the stage that it attaches. */
uint32_t cf_ledger_of(cf_handle *plan, uint16_t room, const uint64_t *words, size_t n, cf_handle *ledger, size_t *place);

/* Does the event of a word, and writes the word after the others.
 *   - reply: gets the reply of that call.
 *   - news, room: a buffer for `room` news. It gets the stages that the event has changed, by rising number, each as it
 *     is now, as far as there is room for them.
 *   - n: gets how many these stages are, which may be more than `room`. Room for all stages, with the one that is
 *     attached, is always enough.
 *
 * Codes:
 *   - CF_NO_WORD: the word stands for no event.
 *   - CF_NO_STAGE: a stage that the event names isn't there.
 *   - CF_NO_ROOM: there is no room for the stage that it attaches. cf_ledger_grow makes some.
 *   - CF_NO_MEMORY. */
uint32_t cf_ledger_apply(cf_handle *ledger, uint64_t word, cf_reply *reply, cf_news *news, size_t room, size_t *n);

/* What cf_ledger_step is asked, and what it has written.
 *   - who: the caller, 0 to 63. Your program writes it.
 *   - from: the lowest stage that may be claimed. Your program writes it.
 *   - place: gets the place of the first word that was written.
 *   - finish, claim: get the words of the finish and of the claim, or 0 if nothing was finished or claimed. */
typedef struct { uint8_t who; uint16_t from; size_t place; uint64_t finish; uint64_t claim; } cf_step;

/* One step of a caller's loop, as cf_next does it. It finishes the stage that the task holds, if there is one, with
 * the answer in the task. Then it claims the lowest ready stage from the number step->from on, and writes it into
 * the task. The words of the finish and of the claim are written after the others.
 *   - task: all bytes 0 for the first step.
 *   - news, room, n: as for cf_ledger_apply. They tell of the stages that the finish has changed, each as it is after
 *     the step. The claim changes only the stage that it claims.
 *
 * Codes:
 *   - CF_NO_WORD: step->who is above 63.
 *   - CF_NO_STAGE: the stage that the task holds isn't there.
 *   - CF_NOT_HELD: the caller has no open claim of the stage that the task holds.
 *   - CF_NO_MEMORY.
 *   - CF_NOTHING: no such stage is ready. The finish was done, if there was one. The task holds nothing, and all else
 *     is written as with CF_OK. */
uint32_t cf_ledger_step(cf_handle *ledger, cf_step *step, cf_task *task, cf_news *news, size_t room, size_t *n);

/* Does words one after another, as cf_ledger_apply does each, up to the first that can't be done.
 *   - words, n: n words.
 *   - done: gets how many were done, also with the codes below.
 *
 * Codes: CF_NO_WORD, CF_NO_STAGE, CF_NO_ROOM or CF_NO_MEMORY, for which the next one can't be done. */
uint32_t cf_ledger_apply_all(cf_handle *ledger, const uint64_t *words, size_t n, size_t *done);

/* This call and the next five ask a ledger, or the ledger of a request or of a view: the handle may be of each of these
 * kinds.
 *
 * Tells the words of a ledger.
 *   - from: the place of the first word that is told, 0, 1, ..
 *   - words, room: a buffer for `room` words, which gets them as far as there is room.
 *   - n: gets how many words there are from that place on, which is 0 past the end. */
uint32_t cf_ledger_words(cf_handle *ledger, size_t from, uint64_t *words, size_t room, size_t *n);

/* Tells which stages an event has changed.
 *   - place: the place of its word, 0, 1, ..
 *   - stages, room: a buffer for `room` numbers, which gets those of the stages, rising, as far as there is room.
 *   - n: gets how many these stages are.
 *
 * Code: CF_NOTHING if there is no word at this place. */
uint32_t cf_ledger_news(cf_handle *ledger, size_t place, uint16_t *stages, size_t room, size_t *n);

/* Tells the lowest ready stage from the number `from` on.
 *
 * Code: CF_NOTHING if no such stage is ready. */
uint32_t cf_ledger_ready(cf_handle *ledger, uint16_t from, uint16_t *stage);

/* Tells what a stage is.
 *
 * Code: CF_NO_STAGE if there is no such stage. */
uint32_t cf_ledger_stage(cf_handle *ledger, uint16_t stage, cf_stage *now);

/* Tells the number of a stage's function.
 *
 * Codes: CF_NO_STAGE if there is no such stage, and CF_NOTHING if it has no function. */
uint32_t cf_ledger_function(cf_handle *ledger, uint16_t stage, uint16_t *function);

/* Tells how many stages there are by now, with those that were attached. */
uint32_t cf_ledger_stages(cf_handle *ledger, uint16_t *stages);

/* Makes room for more stages, by doing all words again.
 *   - more: how many more stages may be attached than before.
 *
 * Codes: CF_ROOM if there could then be over 4,096 stages or 16,384 edges, and CF_NO_MEMORY. */
uint32_t cf_ledger_grow(cf_handle *ledger, uint16_t more);

/* Starts the ledger again. Then no word is written, and all its room is free, with what cf_ledger_grow made. The
 * ledger keeps its memory. So it costs less to keep one for the next request than to open a new one. */
uint32_t cf_ledger_restart(cf_handle *ledger);

/* ---- Requests: what a service does for one request ---- */

/* A request is a ledger that knows four things more: which stages are settled and weren't told yet, who is to run the
 * function of each stage, which stage ends as another one does, and by which moments stages have to be settled. It
 * runs nothing, waits for nothing and reads no clock. Your program is its host, and does the rest: it calls the
 * functions, wakes those who wait, and sleeps until the next moment. docs/C.md has a host step by step, docs/REQUEST.md
 * what is promised, and clients/c/host.c a whole one. If several threads share a request, your program keeps it under
 * one lock.
 *
 * Lanes. Each stage has a lane, which is a number from 0 on: whoever runs this lane is to call the stage's function.
 * A lane may be a pool of threads, an event loop, or one thread.
 *
 * Telling. A stage is told once, when it is settled, in the order of the events that settled them. The calls that can
 * settle stages have a row for this:
 *   - told, room: a row for `room` stages. It gets the stages that are settled and weren't told yet, as far as there is
 *     room for them. These are told then. All others stay to be told, by the next of these calls or by cf_request_told.
 *
 * What is to be done next. Each call that changes stages or deadlines writes it into a struct that your program keeps for
 * the request:
 *   - todo: the request's cf_todo.
 *
 * The words, the news and the stages of a request are asked by cf_ledger_words, cf_ledger_news, cf_ledger_ready,
 * cf_ledger_stage, cf_ledger_function and cf_ledger_stages. Its words make the same ledger again (cf_ledger_of). What
 * the request settles by itself stands there as words of its own caller.
 *
 * A call that takes memory finds it first. If it answers CF_NO_MEMORY, nothing has changed, and it may be made again. */

/* A stage that is told: its number, the caller that still runs its function, plus 1, or 0, and its outcome. If `stop`
 * isn't 0, that caller's claim of the stage is open, so the stage was settled otherwise than by its finish, which comes
 * too late. Your program may stop the function. As a stage is told once, so is this. */
typedef struct { uint16_t stage; uint16_t stop; cf_outcome outcome; } cf_told;

/* What the host of a request has to do next. Your program keeps one for each request, and hands it to each call. At first
 * its `moment` is CF_NEVER, and all else 0.
 *   - told: gets how many stages there were to tell, which may be more than `room`.
 *   - moment: gets the moment of cf_request_next_deadline, or CF_NEVER if there is none.
 *   - news: gets CF_NEWS_READY if `ready` isn't 0 for some lane, and CF_NEWS_MOMENT if `moment` isn't what it was before
 *     the call. It is 0 if there is nothing to do.
 *   - jobs: how many jobs of each lane are on their way, each of which will call cf_request_next. Your program writes it.
 *     A job takes itself off before its first cf_request_next, and isn't counted while it runs functions.
 *   - ready: gets how many stages of each lane are ready beyond its jobs. So many jobs are to be started, and added to
 *     `jobs`. If your program starts fewer, the next call tells the others again. That of a lane that isn't there stays.
 *
 * If a cf_request_next has nothing to finish, to claim and to tell, `told` and `news` get 0, and `moment` and `ready` stay
 * as they were. */
#define CF_NEVER UINT64_MAX
enum { CF_NEWS_READY = 1, CF_NEWS_MOMENT = 2 };
typedef struct { size_t told; uint64_t moment; uint32_t news; uint16_t jobs[16]; uint16_t ready[16]; } cf_todo;

/* What a request is opened with.
 *   - room: how many stages may be attached later.
 *   - lanes: how many lanes there are, 1 to 16.
 *   - own: the number of the caller in whose name the request settles stages itself, 0 to 63. */
typedef struct { uint16_t room; uint8_t lanes; uint8_t own; } cf_request_sizes;

/* Opens a request of a plan. Nothing follows, nothing is due, and the moment is 0.
 *   - plan: the plan. It stays behind its handle. Its limits are those of a graph, and fire by a word of CF_CALL_TICK.
 *   - sizes: as said above.
 *   - lanes, n: the lane of each of the plan's n stages.
 *   - request: an empty handle, behind which the request is put.
 *
 * Codes:
 *   - CF_FULL, CF_EMPTY, CF_WRONG_KIND, CF_ROOM: as for cf_graph_new.
 *   - CF_LANES: sizes->lanes isn't 1 to 16, or n isn't the number of the plan's stages.
 *   - CF_NO_LANE: one of the n lanes isn't below sizes->lanes.
 *   - CF_NO_WORD: sizes->own is above 63.
 *   - CF_NO_MEMORY. */
uint32_t cf_request_new(cf_handle *plan, const cf_request_sizes *sizes, const uint8_t *lanes, size_t n, cf_handle *request);

/* Does a word, as cf_ledger_apply does. Then it settles the stages that follow a stage that is settled now.
 *   - lane: the lane of the stage that the word attaches. It has to be there with any word.
 *   - reply: gets the reply.
 *   - told, room, todo: as said above.
 *
 * Codes:
 *   - CF_NO_LANE: there is no such lane.
 *   - CF_NO_MEMORY.
 *   - CF_NO_WORD, CF_NO_STAGE: as for cf_ledger_apply.
 *   - CF_NO_ROOM: there is no room for the stage that the word attaches. cf_request_grow makes some. */
uint32_t cf_request_apply(cf_handle *request, uint64_t word, uint8_t lane, cf_reply *reply, cf_told *told, size_t room, cf_todo *todo);

/* What cf_request_gather is asked, and what it has attached.
 *   - who: the caller, 0 to 63. Your program writes it.
 *   - form: CF_ALL_OF or CF_ANY_OF. Your program writes it.
 *   - root: gets the number of the root. */
typedef struct { uint8_t who; uint32_t form; uint16_t root; } cf_request_gathering;

/* Attaches a stage that waits for all of these stages, or for one of them, whatever their number. An attached stage has
 * at most two sources. So the first stage that this call attaches gathers two of them, and each stage behind it one
 * more: n stages are gathered by n - 1, at least one. The last of these is the root. It settles as one stage of this
 * form with all of these sources would, unless another call settles one of the stages itself.
 *   - step: as said above.
 *   - sources, n: the n stages, in order, any of which may stand twice.
 *   - told, room, todo: as said above.
 *
 * Codes. All stages are attached, or none is and nothing changes:
 *   - CF_NO_SUCH_NUMBER: the form is another.
 *   - CF_NO_WORD: step->who is above 63.
 *   - CF_NO_STAGE: one of the n stages isn't there.
 *   - CF_NO_ROOM: there isn't room for so many stages.
 *   - CF_NO_MEMORY. */
uint32_t cf_request_gather(cf_handle *request, cf_request_gathering *step, const uint16_t *sources, size_t n, cf_told *told, size_t room, cf_todo *todo);

/* What cf_request_compose is asked, and what it has attached.
 *   - who: the caller, 0 to 63. Your program writes it.
 *   - lane: the lane of the compose. Your program writes it.
 *   - form: CF_COMPOSE or CF_EXCEPTIONALLY_COMPOSE. Your program writes it.
 *   - source: the stage whose value or fault the compose's function takes. Your program writes it.
 *   - function: the number of the compose's function, 0 to 4095. Your program writes it.
 *   - relay, stage: get the numbers of the relay and of the compose. */
typedef struct { uint8_t who; uint8_t lane; uint32_t form; uint16_t source; uint16_t function; uint16_t relay; uint16_t stage; } cf_request_composing;

/* Attaches a compose whose function may answer any stage of the request, also one that is attached later. A finish links
 * to a lower stage only. So this call attaches two stages: a source, which is the compose's relay, and right above it
 * the compose. cf_request_next claims the compose as any other stage. If its function answers a stage that isn't lower,
 * finish it by cf_request_link. With any other answer finish it by cf_request_next. The relay stays open then,
 * and needs nothing.
 *   - step, told, room, todo: as said above.
 *
 * Codes. Both stages are attached, or none is and nothing changes:
 *   - CF_NO_LANE: there is no such lane.
 *   - CF_NO_SUCH_NUMBER: the form is another.
 *   - CF_NO_WORD: step->who is above 63, or step->function above 4095.
 *   - CF_NO_STAGE: the source isn't there.
 *   - CF_NO_ROOM: there isn't room for two stages.
 *   - CF_NO_MEMORY. */
uint32_t cf_request_compose(cf_handle *request, cf_request_composing *step, cf_told *told, size_t room, cf_todo *todo);

/* What cf_request_link is asked.
 *   - who: the caller, 0 to 63.
 *   - relay: the relay of the compose.
 *   - stage: the stage that the compose's function answered. */
typedef struct { uint8_t who; uint16_t relay; uint16_t stage; } cf_request_linking;

/* Finishes the compose that the task holds with a stage of the request, whichever it is. From now on the relay follows
 * that stage, as by cf_request_follow, and the compose is linked to the relay. A compose that is finished with itself
 * stays open, and so do composes that are finished with each other.
 *   - step: as said above.
 *   - task: it holds the compose. The answer in it isn't looked at. It gets in `finished` how the finish went, and holds
 *     nothing then.
 *   - told, room, todo: as said above.
 *
 * Codes. All of it is done, or nothing is and nothing changes:
 *   - CF_NOT_HELD: the task holds nothing, or the caller has no open claim of the stage that it holds.
 *   - CF_NO_WORD: step->who is above 63.
 *   - CF_NO_STAGE: the relay, the compose or the stage isn't there, or the relay isn't below the compose.
 *   - CF_NO_MEMORY. */
uint32_t cf_request_link(cf_handle *request, const cf_request_linking *step, cf_task *task, cf_told *told, size_t room, cf_todo *todo);

/* One step of a caller's loop, as cf_next does it. It finishes the stage that the task holds, if there is one, with
 * the answer in the task, and settles the stages that follow one that is settled now. Then it claims the lowest ready
 * stage of the lane, and writes it into the task.
 *   - who: the caller, 0 to 63.
 *   - lane: the lane in which it works.
 *   - task: all bytes 0 for the first step.
 *   - told, room, todo: as said above.
 *
 * Codes:
 *   - CF_NO_LANE: there is no such lane.
 *   - CF_NO_MEMORY.
 *   - CF_NO_WORD: who is above 63.
 *   - CF_NO_STAGE: the stage that the task holds isn't there.
 *   - CF_NOT_HELD: the caller has no open claim of the stage that the task holds.
 *   - CF_NOTHING: no stage of the lane is ready. The finish was done, if there was one. The task holds nothing, and all
 *     else is written as with CF_OK. */
uint32_t cf_request_next(cf_handle *request, uint8_t who, uint8_t lane, cf_task *task, cf_told *told, size_t room, cf_todo *todo);

/* From now on a stage ends as another stage of the request does, unless it is settled before. It gets the same value,
 * or a fault of the same cause and code: a cancellation cancels it, a time-out times it out.
 *   - relay: the stage that follows.
 *   - stage: the stage that it follows.
 *   - told, room, todo: as said above.
 *
 * Codes: CF_NO_MEMORY, and CF_NO_STAGE if one of the two isn't there. */
uint32_t cf_request_follow(cf_handle *request, uint16_t relay, uint16_t stage, cf_told *told, size_t room, cf_todo *todo);

/* What cf_request_join is asked.
 *   - stage: the stage that ends by others.
 *   - wanted: how many of these have to have values, 1 to n.
 *   - cancels: 0 if the stage ends by the others as said below. Any other number cancels it as soon as they are decided. */
typedef struct { uint16_t stage; uint16_t wanted; uint32_t cancels; } cf_request_joining;

/* From now on a stage ends as soon as it is decided what n other stages of the request come to, unless it is settled
 * before. It gets a value once so many of them have values as are wanted: that one's value if one is wanted, else nil. It
 * gets a fault once the stages that haven't failed are too few: one of the same cause and code as that of the stage that
 * failed last. So with 1 it is the first success, with n all or the first failure, and between these a quorum.
 *
 * Scopes. A stage, as a rule a source, is a scope for the stages that it cancels: each is put into it by a join of one that
 * cancels. The scope has ended once its stage is settled, by a call or by a join of its own, and from then on none of its
 * stages is open: what is put into it later is cancelled at once. A scope within another is one that is put into it.
 *   - step: as said above.
 *   - sources, n: the n stages. One that stands twice counts twice.
 *   - told, room, todo: as said above.
 *
 * Codes:
 *   - CF_NO_QUORUM: step->wanted is 0 or above n.
 *   - CF_NO_MEMORY.
 *   - CF_NO_STAGE: step->stage or one of the n stages isn't there. */
uint32_t cf_request_join(cf_handle *request, const cf_request_joining *step, const uint16_t *sources, size_t n, cf_told *told, size_t room, cf_todo *todo);

/* Sets a moment by which a stage has to be settled. If it is open then, cf_request_pass settles it. A stage may have
 * several, and attached stages may have some, too.
 *   - moment: the moment, in a unit of your choice.
 *   - kind, code, value: as for cf_builder_limit.
 *   - todo: as said above. No stage is told by this call, and its `told` gets how many wait to be told.
 *
 * Codes: CF_NO_MEMORY, and CF_NO_STAGE if there is no such stage. */
uint32_t cf_request_deadline(cf_handle *request, uint16_t stage, uint64_t moment, uint32_t kind, uint32_t code, cf_value value, cf_todo *todo);

/* Lets time pass up to a moment. All open stages whose deadline has come are settled, in the order of their moments,
 * and those of one moment in the order in which the deadlines were set. A stage that follows another one that is
 * settled then ends as that one does.
 *   - told, room, todo: as said above.
 *
 * Codes: CF_NO_MEMORY, and CF_PAST_MOMENT if the moment is before that of the last cf_request_pass. */
uint32_t cf_request_pass(cf_handle *request, uint64_t moment, cf_told *told, size_t room, cf_todo *todo);

/* A deadline: the stage, the moment, CF_TIMEOUT or CF_GIVE_VALUE, the code, which is 0 for CF_GIVE_VALUE, and the value,
 * which is CF_NIL for CF_TIMEOUT. */
typedef struct { uint16_t stage; uint64_t moment; uint32_t kind; uint32_t code; cf_value value; } cf_deadline;

/* Tells the deadline that comes next, of those whose stage is open. Your program sleeps until its moment, and then makes a
 * cf_request_pass to it. If the deadline was set for a moment before that of the last cf_request_pass, it is due at once,
 * and the moment of that pass is told: so a cf_request_pass to what is told goes on.
 *
 * Code: CF_NOTHING if no stage that has one is open. */
uint32_t cf_request_next_deadline(cf_handle *request, cf_deadline *deadline);

/* Nobody runs a lane any more: its ready stages fail, and so do those that become ready by this.
 *   - code: the code of the exception with which they fail.
 *   - told, room, todo: as said above.
 *
 * Codes: CF_NO_LANE if there is no such lane, and CF_NO_MEMORY. */
uint32_t cf_request_refuse(cf_handle *request, uint8_t lane, uint32_t code, cf_told *told, size_t room, cf_todo *todo);

/* Tells the stages that are settled and weren't told yet, and what is to be done next, as at first.
 *   - told, room, todo: as said above. */
uint32_t cf_request_told(cf_handle *request, cf_told *told, size_t room, cf_todo *todo);

/* Tells how many stages of a lane are ready.
 *
 * Code: CF_NO_LANE if there is no such lane. */
uint32_t cf_request_ready(cf_handle *request, uint8_t lane, uint16_t *ready);

/* Cancels all stages that are open, from the lowest on, by words of a caller.
 *   - who: the caller, 0 to 63.
 *   - told, room, todo: as said above.
 *
 * Codes: CF_NO_MEMORY, and CF_NO_WORD if who is above 63. */
uint32_t cf_request_cancel_all(cf_handle *request, uint8_t who, cf_told *told, size_t room, cf_todo *todo);

/* Makes room for more stages, by doing all words again. Nothing else changes. There is room for as many more as there
 * are stages by now, and for 16 more at least. If the bounds of CF_ROOM don't let so many in, there is room for as many
 * more as they let in.
 *
 * Codes: CF_ROOM if not even one more could come, and CF_NO_MEMORY. */
uint32_t cf_request_grow(cf_handle *request);

/* Starts the request again, as it was opened: nothing is done, follows or is due, and the moment is 0. The lanes of the
 * plan's stages, the room, with what cf_request_grow made, and the own caller stay. The request keeps its memory. So it
 * costs less to keep one for the next request of the plan than to open a new one. Only the stages that are settled from
 * the start are to be told then. */
uint32_t cf_request_restart(cf_handle *request);

/* A call of a request, as a row for cf_request_do. It asks for the call of its number:
 *   - CF_DO_APPLY: cf_request_apply, with word and lane. It writes reply.
 *   - CF_DO_NEXT: cf_request_next, with who, lane and task. It writes task. If no stage of the lane was ready, the task
 *     holds nothing; that is no refusal here.
 *   - CF_DO_FOLLOW: cf_request_follow, with relay and stage.
 *   - CF_DO_DEADLINE: cf_request_deadline, with stage, moment, kind, code and value.
 *   - CF_DO_PASS: cf_request_pass, with moment.
 *   - CF_DO_REFUSE: cf_request_refuse, with lane and code.
 *   - CF_DO_CANCEL_ALL: cf_request_cancel_all, with who.
 * All other fields aren't looked at, and stay as they are. */
enum { CF_DO_APPLY = 0, CF_DO_NEXT = 1, CF_DO_FOLLOW = 2, CF_DO_DEADLINE = 3, CF_DO_PASS = 4, CF_DO_REFUSE = 5, CF_DO_CANCEL_ALL = 6 };
typedef struct {
  uint32_t call; uint8_t who; uint8_t lane; uint16_t stage; uint16_t relay; uint32_t code; uint64_t word; uint64_t moment;
  uint32_t kind; cf_value value; cf_reply reply; cf_task task;
} cf_request_call;

/* Makes calls one after another, each as it is made alone, up to the first that is refused. Then it tells, once, the
 * stages that are settled. So what waits in your program, such as an attach that can have no news, goes with the next
 * call: a stage that is attached and run takes one call, with a row for cf_request_apply and one for cf_request_next.
 *   - calls, n: the rows. A row whose call is done gets its answer, and the others stay as they are.
 *   - done: gets how many were done.
 *   - told, room, todo: as said above.
 *
 * Codes: if a call is refused, its code, or CF_NO_SUCH_NUMBER if there is no such call. The calls before it are done
 * then, `done`, `told` and `todo` are written, and the row of the refused call is calls[*done]. */
uint32_t cf_request_do(cf_handle *request, cf_request_call *calls, size_t n, size_t *done, cf_told *told, size_t room, cf_todo *todo);

/* ---- Views: what one session knows of a row in a store ---- */

/* A row is a list of entries in a store: a request's words, each with a token that says who put it. Any process that
 * reads the row has the same graph. A session is a process at work, or a part of one. What it knows of a row is its
 * view: a ledger of the entries that it has seen, and the put that is under way. A view does no I/O. Your program asks
 * the store, and tells the view what the store answers. clients/c/row.c has two sessions of one row.
 *
 * The store has to keep three rules. It puts a group of entries whole or not at all, and only where no entry stands
 * yet. What it has answered stays. What it gives to read is the row, or a beginning of it. Then all sessions see one
 * order of events, whatever answers are lost, repeated or late.
 *
 * A put goes so:
 *   1. cf_row_plan takes the words, and tells the token of the first. The entries are the words, and tokens that count
 *      from this one.
 *   2. Ask the store to put these entries behind all that the view has seen (cf_ledger_words tells how many that are).
 *      If no answer comes, ask again: it is the same put.
 *   3. If the store says that they stand, or that others stand there, give cf_row_met the first entry that stands there,
 *      which in the first case is the put's own. It tells whether the put has landed. Then give cf_row_saw each entry
 *      that stands there, in order. If the put hasn't landed, plan again what is still wanted.
 *   4. If you no longer want to ask: cf_row_give_up. It isn't known then whether the put stands. What is read later
 *      tells: an entry whose token, divided by 2^23, is the session's was put by it.
 *
 * What others have put: read the row from the place behind all that the view has seen, and give cf_row_saw each entry.
 *
 * A session's caller's number is the lowest that no entry of the row had before its first one (cf_row_number). Its words
 * have this number. Where all 64 are taken, a session shares that which is its own number modulo 64: then the token of an
 * entry tells whose it is, and not its word.
 *
 * A view keeps to which session each claim was granted. cf_row_open_claim tells that of each claim that is open, and
 * cf_row_held the stages that a session has. If the session is gone, any other one may fail these, by the words that
 * cf_row_abandon tells. If it isn't gone, its finish is late.
 *
 * What a worker puts when a function has ended: the word of cf_row_finish, and behind it the claim of the stage that
 * cf_row_next_claim tells.
 *
 * The words, the news and the stages of a view are asked by cf_ledger_words, cf_ledger_news, cf_ledger_ready,
 * cf_ledger_stage, cf_ledger_function and cf_ledger_stages. */

/* An entry of a row: a word, and the token that says who put it. This is the session, times 2^23, and a count. */
typedef struct { uint64_t word; uint64_t token; } cf_entry;

/* What a view is opened with.
 *   - room: how many stages may be attached later.
 *   - first: where the session's tokens begin to count, 0 to 2^23. Draw it by chance, so that the tokens of two views
 *     differ even if they have one session.
 *   - session: the session's number, below 2^39. Draw it by chance, so that no two sessions have one number. */
typedef struct { uint16_t room; uint32_t first; uint64_t session; } cf_row_opening;

/* A claim that was granted: the session that put it, and its stage. */
typedef struct { uint64_t session; uint16_t stage; } cf_row_claim;

/* Opens a view of a row, of which nothing was read yet.
 *   - plan: the plan of the row's request. It stays behind its handle.
 *   - opening: as said above.
 *   - view: an empty handle, behind which the view is put.
 *
 * Codes:
 *   - CF_FULL, CF_EMPTY, CF_WRONG_KIND, CF_ROOM: as for cf_graph_new.
 *   - CF_NO_TOKENS: opening->session isn't below 2^39, or opening->first is above 2^23.
 *   - CF_NO_MEMORY. */
uint32_t cf_row_new(cf_handle *plan, const cf_row_opening *opening, cf_handle *view);

/* Plans a put of words behind all that was seen, and finds the memory that the view needs if it lands.
 *   - words, n: the n words, at least one. Each is an event's, with the caller's number that cf_row_number tells. A
 *     word may name a stage that one before it attaches.
 *   - token: gets the token of the first word. Each further word has the next one. No token is given twice.
 *
 * Codes:
 *   - CF_UNDER_WAY: a put is under way.
 *   - CF_NOTHING: n is 0.
 *   - CF_NO_TOKENS: the session has fewer tokens left than there are words. It needs another number.
 *   - CF_NO_WORD: one of the words stands for no event, or has another caller's number, or names a stage that isn't
 *     there, or attaches a stage for which there is no room. cf_row_grow makes some.
 *   - CF_NO_MEMORY. */
uint32_t cf_row_plan(cf_handle *view, const uint64_t *words, size_t n, uint64_t *token);

/* At the place of the put an entry stands. The put is over then. The entry is still to be seen.
 *   - first: the entry that stands there.
 *   - landed: gets 1 if it is the put's own, so that all of the put stands there, or else 0. Then nothing of the put
 *     stands anywhere, or ever will.
 *
 * Code: CF_NOTHING if no put is under way. */
uint32_t cf_row_met(cf_handle *view, const cf_entry *first, uint8_t *landed);

/* Gives the put up, if there is one: it isn't known whether it stands, now or later. */
uint32_t cf_row_give_up(cf_handle *view);

/* An entry stands behind all that was seen. Its event is done, as by cf_ledger_apply.
 *   - entry: the entry.
 *   - reply, news, room, n: as for cf_ledger_apply.
 *
 * Codes:
 *   - CF_UNDER_WAY: a put is under way. Tell first what became of it.
 *   - CF_NO_MEMORY: it doesn't come for the entries of a put that has landed, while no others are given.
 *   - CF_NO_WORD, CF_NO_STAGE: as for cf_ledger_apply. The row is broken then: an entry stands there that no session
 *     could have planned.
 *   - CF_NO_ROOM: there is no room for the stage that the entry attaches. cf_row_grow makes some. */
uint32_t cf_row_saw(cf_handle *view, const cf_entry *entry, cf_reply *reply, cf_news *news, size_t room, size_t *n);

/* Makes room for more stages, by doing all words again.
 *   - more: how many more stages may be attached than before.
 *
 * Codes: CF_UNDER_WAY if a put is under way; CF_ROOM if there could then be over 4,096 stages or 16,384 edges; and
 * CF_NO_MEMORY. */
uint32_t cf_row_grow(cf_handle *view, uint16_t more);

/* Tells the caller's number of the session: that which its entries have, or else that which it takes with its next put,
 * which others may take before. Where all 64 are taken, that is the session's number modulo 64. */
uint32_t cf_row_number(cf_handle *view, uint8_t *who);

/* Tells the caller's number of any session.
 *
 * Code: CF_NOTHING if no entry that was seen is of this session. */
uint32_t cf_row_number_of(cf_handle *view, uint64_t session, uint8_t *who);

/* Tells the lowest stage from the number `from` on whose claim is open, with the session to which it was granted, also
 * where several sessions have its caller's number. The stage may be settled already: a claim is open until its session
 * has finished.
 *
 * Code: CF_NOTHING if no claim is open there. */
uint32_t cf_row_open_claim(cf_handle *view, uint16_t from, cf_row_claim *claim);

/* Tells the lowest stage from the number `from` on that a session has: its claim was granted to this session and is
 * open, and the stage isn't settled. So its function runs there, or is to run, unless the session is gone.
 *
 * Code: CF_NOTHING if the session has none there. */
uint32_t cf_row_held(cf_handle *view, uint64_t session, uint16_t from, uint16_t *stage);

/* Tells the word that fails the lowest stage from the number `from` on that a session has, as cf_row_held tells it: what
 * you put if this session is gone. The word has the caller's number of the view's own session. It may be put behind all
 * that was seen, and fails the stage there.
 *   - code: the number of the exception that the stage fails with.
 *   - word: gets the word.
 *
 * Code: CF_NOTHING if the session has none there. */
uint32_t cf_row_abandon(cf_handle *view, uint64_t session, uint16_t from, uint32_t code, uint64_t *word);

/* Tells the word that finishes a stage of the view's own session with what its function came to: what you put once that
 * has ended. It may be put behind all that was seen. If the stage was settled since its claim, the finish is late, and
 * only closes the claim.
 *   - task: `held` other than 0, the stage and the answer. The rest isn't looked at.
 *   - word: gets the word.
 *
 * Code: CF_NOTHING if the task holds nothing, or the stage's claim isn't open, or was granted to another session. */
uint32_t cf_row_finish(cf_handle *view, const cf_task *task, uint64_t *word);

/* Tells the lowest stage from the number `from` on that the view's session could claim next: one that is ready, or one
 * that is ready once what the task holds is finished. The latter waits for that stage alone. The claim is granted if it
 * stands right behind the word of cf_row_finish, or if the task holds nothing and it stands next. So a worker puts both
 * words together. If your program can't call the stage's function, ask again from the next number on.
 *   - task: as for cf_row_finish. It may hold nothing: then only ready stages are told.
 *
 * Code: CF_NOTHING if there is no such stage. */
uint32_t cf_row_next_claim(cf_handle *view, const cf_task *task, uint16_t from, uint16_t *stage);

/* ---- Hosts: what a process does with all its requests in a store ---- */

/* A host is what one process does with all requests of a store that it works on: whom it asks what, which functions it
 * calls, what it puts, which sessions it takes for gone, and whom it tells what. It has a view of the row of each
 * request. It does no I/O, reads no clock, and knows payloads by their places alone. Your program has the store, the
 * functions, the payloads and a clock. clients/c/host_of_a_store.c is a whole worker over SQLite.
 *
 * Your program asks cf_host_turn what is to be done next, until that is CF_ORDER_SLEEP. It may do several orders at a
 * time, on threads of its own, with the host under one lock. Each question and each call has a ticket. Once it is
 * answered, give the answer with this ticket, and ask for the next order. If no answer comes, say so by CF_UNKNOWN:
 * the host asks again.
 *
 * A moment is a number of milliseconds on a clock of your program that never goes back. Each call that takes `now` is
 * told the moment of the call. The store has a clock of its own, by which timers go.
 *
 * The store keeps, of each request, its plan with a note for each stage, and its row. A row is a list of entries, as
 * for a view, each with a note and, where its word names one, a payload. The entries have places, counted from 1: the
 * payload of an entry is known by the place, which is the number of a value or the code of an exception. A beat is a
 * count that a session raises. A mark says how far a store had come when it told its news. */

/* A note, which says what a word alone doesn't: a stage's function, which stage it tries again, when it times out. A
 * store keeps its two numbers beside the word and gives them back. docs/FORMATS.md ("Notes beside words") says what
 * they stand for. The notes of a plan's stages are yours. In `what` stands CF_NOTE_CALLS(f) where f is the number of
 * the stage's function, from 1 on; CF_NOTE_TRIES(s) where it is to try the stage s again; or 0 where it has no
 * function. The moment is 0. */
typedef struct { uint64_t what; uint64_t moment; } cf_note;
#define CF_NOTE_CALLS(function) (((uint64_t)1 << 56) + (uint32_t)(function))
#define CF_NOTE_TRIES(stage) (((uint64_t)2 << 56) + ((uint64_t)(uint16_t)(stage) << 32))

/* An entry of a row, with its note. */
typedef struct { uint64_t word; uint64_t token; cf_note note; } cf_noted;

/* What a host is opened with.
 *   - session: the session's number, below 2^39. Draw it by chance, so that no two sessions have one number.
 *   - workers: how many functions may run at a time.
 *   - lease: for how many milliseconds a session that doesn't beat is waited for.
 *   - takes_all: 0 if the host works only on requests that cf_host_follow names. With any other number it works on all
 *     that the store tells of. */
typedef struct { uint64_t session; uint32_t workers; uint64_t lease; uint32_t takes_all; } cf_host_opening;

/* Opens a host that knows nothing yet, and puts it behind an empty handle.
 *
 * Codes: CF_FULL; CF_NO_TOKENS if opening->session isn't below 2^39; and CF_NO_MEMORY. */
uint32_t cf_host_new(const cf_host_opening *opening, cf_handle *host);

/* Works on a request from now on, if it doesn't yet.
 *
 * Code: CF_NO_MEMORY. */
uint32_t cf_host_follow(cf_handle *host, uint64_t request);

/* What a user asks of a request.
 *   - kind: CF_ACT_COMPLETE, CF_ACT_FAIL: a stage gets the payload that stands beside the word. CF_ACT_CANCEL.
 *     CF_ACT_CANCEL_IDLE does so only if the stage's function runs nowhere. CF_ACT_TIME_OUT, CF_ACT_GIVE_AT: the stage
 *     times out at a moment, or is completed with the payload. CF_ACT_ATTACH: a stage is attached. One that composes
 *     comes behind a promise, which is attached below it. CF_ACT_AGAIN: a further try of a stage is attached.
 *   - stage: the stage, of all but CF_ACT_ATTACH.
 *   - moment: the moment on the store's clock, of CF_ACT_TIME_OUT and CF_ACT_GIVE_AT.
 *   - form, sources, first, second, function: of CF_ACT_ATTACH, as in a cf_event. The function's number may be any but
 *     CF_NO_FUNCTION, which stands for none.
 * The rest isn't looked at. */
enum {
  CF_ACT_COMPLETE = 0, CF_ACT_FAIL = 1, CF_ACT_CANCEL = 2, CF_ACT_CANCEL_IDLE = 3, CF_ACT_TIME_OUT = 4, CF_ACT_GIVE_AT = 5,
  CF_ACT_ATTACH = 6, CF_ACT_AGAIN = 7
};
typedef struct {
  uint32_t kind; uint16_t stage; uint64_t moment; uint32_t form; uint32_t sources; uint16_t first; uint16_t second; uint32_t function;
} cf_host_acting;

/* A user asks this of a request. What became of it is told by a CF_ORDER_TELL.
 *   - ticket: gets the ticket of that order. Keep the act's payload under it until then.
 *
 * Codes:
 *   - CF_NO_SUCH_NUMBER: there is no such kind, or no form has this number.
 *   - CF_WRONG_SOURCE_COUNT: act->sources is above 2.
 *   - CF_BAD_ATTACH: the form takes another number of sources, or its function is missing or unwanted.
 *   - CF_NOT_OPEN: the host doesn't work on the request, or hasn't opened it.
 *   - CF_NO_MEMORY. */
uint32_t cf_host_act(cf_handle *host, uint64_t now, uint64_t request, const cf_host_acting *act, uint64_t *ticket);

/* A user ends a request: it is closed once nothing is due in it. The ticket's CF_ORDER_TELL says when it is.
 *
 * Codes: CF_NOT_OPEN, CF_NO_MEMORY. */
uint32_t cf_host_end(cf_handle *host, uint64_t now, uint64_t request, uint64_t *ticket);

/* Somebody waits for a stage, which a CF_ORDER_SHOW tells once it is settled; or nobody does any more.
 *
 * Codes: CF_NOT_OPEN, and CF_NO_STAGE if there can't be such a stage. */
uint32_t cf_host_wants(cf_handle *host, uint64_t request, uint16_t stage);
uint32_t cf_host_lets_go(cf_handle *host, uint64_t request, uint16_t stage);

/* The payload of a stage that a CF_ORDER_SHOW told couldn't be read: the stage is told again a while later.
 *
 * Codes: CF_NOT_OPEN, and CF_NO_STAGE if there can't be such a stage. */
uint32_t cf_host_unread(cf_handle *host, uint64_t now, uint64_t request, uint16_t stage);

/* Makes room in a request for more stages, also while something is asked of its row. If an entry attaches a stage for
 * which there is no room, nothing goes on in the request any more (CF_TOLD_BROKEN): make room before you hand it in.
 *   - more: how many more stages may be attached than before.
 *
 * Codes: CF_NOT_OPEN; CF_ROOM if there could then be over 4,096 stages or 16,384 edges; and CF_NO_MEMORY. */
uint32_t cf_host_grow(cf_handle *host, uint64_t request, uint16_t more);

/* The store says that something is new: what is new is asked for next. */
uint32_t cf_host_stirred(cf_handle *host, uint64_t now);

/* From now on the host claims no stage, and so has no further function called. All else goes on. */
uint32_t cf_host_stop(cf_handle *host);

/* What is to be done next, by its kind:
 *   - CF_ORDER_SLEEP: nothing, before `moment` or an answer or another call of yours.
 *   - CF_ORDER_BEAT: raise the session's count in the store, read all sessions' counts and the store's clock. Answer
 *     by cf_host_beats.
 *   - CF_ORDER_LIST: read how many words each request has that isn't closed. Answer by cf_host_news.
 *   - CF_ORDER_NEWS: the same of the requests that changed since the answer with the mark `moment`.
 *   - CF_ORDER_OPEN: read a request's plan. Answer by cf_host_opened.
 *   - CF_ORDER_READ: read all entries of its row behind the first `place`. Answer by cf_host_read.
 *   - CF_ORDER_PUT: put the entries that cf_host_put tells behind the first `place`, with their payloads, if just so
 *     many stand there: all in one step, and an attach among them opens a closed request in this step. Answer by
 *     CF_STANDS; by cf_host_read if more stand there; or by CF_REFUSED.
 *   - CF_ORDER_CLOSE: close the request if just `place` entries stand there. Answer by CF_CLOSED, or by CF_NOT_CLOSED
 *     if more do.
 *   - CF_ORDER_CALL: call a function. `stage`, `function` and `args` say which and with what; a function's number is 0
 *     where the notes say none. Answer by cf_host_ended.
 *   - CF_ORDER_STOP: the function of the call with this ticket may end, since its stage was settled otherwise. Nothing
 *     is to be answered but cf_host_ended, once it has.
 *   - CF_ORDER_SHOW: tell those who wait for `stage` its `outcome`; or that nothing goes on in the request, if `told`
 *     isn't 0.
 *   - CF_ORDER_TELL: tell the user of the act with this ticket what became of it: `told`, and with CF_TOLD_STANDS the
 *     stage.
 * Each question may be answered by CF_UNKNOWN. Each about a request may be answered by CF_DROPPED: the store has it no
 * more. */
enum {
  CF_ORDER_SLEEP = 0, CF_ORDER_BEAT = 1, CF_ORDER_LIST = 2, CF_ORDER_NEWS = 3, CF_ORDER_OPEN = 4, CF_ORDER_READ = 5, CF_ORDER_PUT = 6,
  CF_ORDER_CLOSE = 7, CF_ORDER_CALL = 8, CF_ORDER_STOP = 9, CF_ORDER_SHOW = 10, CF_ORDER_TELL = 11
};

/* What is told:
 *   - CF_TOLD_STANDS: what was asked stands. Of an attach `stage` is the new one.
 *   - CF_TOLD_CLOSED: the request is closed.
 *   - CF_TOLD_REFUSED: the store refused it, and nothing of it stands.
 *   - CF_TOLD_UNKNOWN: no answer came in a minute. It may stand, or come to stand.
 *   - CF_TOLD_NO_STAGE, CF_TOLD_NO_ROOM, CF_TOLD_NO_TRY, CF_TOLD_SETTLED, CF_TOLD_AS_ASKED, CF_TOLD_RUNS: nothing was
 *     put, since a stage isn't there, there is no room, the stage has no function that could be tried again, it is
 *     settled otherwise, it is settled as was asked, or its function runs.
 *   - CF_TOLD_BROKEN, CF_TOLD_DROPPED, CF_TOLD_PAYLOAD: nothing goes on in the request any more, since a word stands
 *     there that doesn't fit, the store has it no more, or a payload is lost. */
enum {
  CF_TOLD_STANDS = 0, CF_TOLD_CLOSED = 1, CF_TOLD_REFUSED = 2, CF_TOLD_UNKNOWN = 3, CF_TOLD_NO_STAGE = 4, CF_TOLD_NO_ROOM = 5,
  CF_TOLD_NO_TRY = 6, CF_TOLD_SETTLED = 7, CF_TOLD_AS_ASKED = 8, CF_TOLD_RUNS = 9, CF_TOLD_BROKEN = 10, CF_TOLD_DROPPED = 11,
  CF_TOLD_PAYLOAD = 12
};

/* An order. What it doesn't have is 0. */
typedef struct {
  uint32_t kind; uint32_t told; uint64_t ticket; uint64_t request; uint16_t stage; uint32_t function; size_t place; uint64_t moment;
  cf_args args; cf_outcome outcome;
} cf_host_order;

/* Tells what is to be done next by now. Each order is told once.
 *
 * Code: CF_NO_MEMORY. Then nothing is lost: ask again. */
uint32_t cf_host_turn(cf_handle *host, uint64_t now, cf_host_order *order);

/* An entry that is to be put, and whose payload stands at its place, which `stage` names where there is one:
 *   - CF_OF_NOBODY: no payload.
 *   - CF_OF_ACT: what the user of the act gave.
 *   - CF_OF_FUNCTION: what the function of a stage came to.
 *   - CF_OF_ERROR: an error of yours in its place, since the store refused that.
 *   - CF_OF_GONE: an error of yours that says that the session of a stage is gone. */
enum { CF_OF_NOBODY = 0, CF_OF_ACT = 1, CF_OF_FUNCTION = 2, CF_OF_ERROR = 3, CF_OF_GONE = 4 };
typedef struct { cf_noted entry; uint32_t source; uint16_t stage; } cf_host_want;

/* Tells the entries of a request's put that is under way. They stay the same until the put is answered. There are at
 * most 8.
 *   - wants, room: a buffer, which gets them as far as there is room.
 *   - n: gets how many they are, which is 0 if no put is under way.
 *
 * Code: CF_NOT_OPEN. */
uint32_t cf_host_put(cf_handle *host, uint64_t request, cf_host_want *wants, size_t room, size_t *n);

/* The answers. Each closes its ticket. These are their codes, after those that a call names. Nothing has changed then:
 *   - CF_NO_TICKET: no such ticket is open. The question was answered before.
 *   - CF_UNFIT: the answer isn't one to this ticket's question.
 *   - CF_NO_MEMORY, of those with a list: the ticket stays open. Answer again. */

/* The plan of a request.
 *   - plan: the plan, which stays behind its handle.
 *   - room: how many stages may be attached later.
 *   - is_flow: 0, or any other number if the request is to be closed once all its stages are settled.
 *   - notes, n: a note for each stage.
 *
 * Codes: CF_EMPTY and CF_WRONG_KIND, of either handle; CF_ROOM, as for cf_graph_new; CF_NO_NOTE if two of these
 * numbers stand for none; and CF_UNFIT also if n isn't the number of stages. */
uint32_t cf_host_opened(cf_handle *host, uint64_t ticket, cf_handle *plan, uint16_t room, uint32_t is_flow, const cf_note *notes, size_t n);

/* All entries that stand behind the place that was asked from, or where a put was to stand, at least one then. They
 * may be the put's own, if an answer was missing before.
 *
 * Code: CF_NO_NOTE if a note's two numbers stand for none. The host can't work on such a request: answer CF_DROPPED. */
uint32_t cf_host_read(cf_handle *host, uint64_t now, uint64_t ticket, const cf_noted *entries, size_t n);

/* How often a session has beaten. */
typedef struct { uint64_t session; uint64_t count; } cf_host_beat;

/* All sessions' beats, and the store's clock. */
uint32_t cf_host_beats(cf_handle *host, uint64_t now, uint64_t ticket, uint64_t clock, const cf_host_beat *beats, size_t n);

/* How many words a request has. */
typedef struct { uint64_t request; size_t words; } cf_host_length;

/* The requests that are open, or that changed, and the mark up to which that is told. */
uint32_t cf_host_news(cf_handle *host, uint64_t now, uint64_t ticket, uint64_t mark, const cf_host_length *requests, size_t n);

/* An answer without a list: CF_STANDS or CF_REFUSED to a put; CF_CLOSED or CF_NOT_CLOSED to a close; CF_UNKNOWN, no
 * answer came, or a question that isn't a put was refused; and CF_DROPPED, the store has the request no more.
 *
 * Code: CF_NO_SUCH_NUMBER for any other number. */
enum { CF_STANDS = 0, CF_CLOSED = 1, CF_NOT_CLOSED = 2, CF_UNKNOWN = 3, CF_REFUSED = 4, CF_DROPPED = 5 };
uint32_t cf_host_answered(cf_handle *host, uint64_t now, uint64_t ticket, uint32_t answer);

/* A function has ended.
 *   - kind: CF_ENDS_GIVE, with a payload; CF_ENDS_NIL, without one; CF_ENDS_THROW, with an error as payload;
 *     CF_ENDS_PASS, with the error whose payload stands at the place `code`; or CF_ENDS_LINK, of one that composes,
 *     with another stage.
 *   - code, stage: as said. Others aren't looked at.
 *
 * Code: CF_NO_SUCH_NUMBER if there is no such kind. */
enum { CF_ENDS_GIVE = 0, CF_ENDS_NIL = 1, CF_ENDS_THROW = 2, CF_ENDS_PASS = 3, CF_ENDS_LINK = 4 };
uint32_t cf_host_ended(cf_handle *host, uint64_t ticket, uint32_t kind, uint32_t code, uint16_t stage);

/* Tells what a stage of a request is, by what the host has seen.
 *
 * Codes: CF_NOT_OPEN, and CF_NO_STAGE if there is no such stage. */
uint32_t cf_host_stage(cf_handle *host, uint64_t request, uint16_t stage, cf_stage *now);

/* What a host has seen of a request: how many words, how many stages there are by these, and CF_TOLD_BROKEN,
 * CF_TOLD_DROPPED or CF_TOLD_PAYLOAD if nothing goes on there any more, else 0. */
typedef struct { size_t words; uint16_t stages; uint32_t fault; } cf_host_view;

/* Tells that.
 *
 * Code: CF_NOT_OPEN. */
uint32_t cf_host_seen(cf_handle *host, uint64_t request, cf_host_view *seen);

/* ---- Histories: what happened, told as texts ---- */

/* A history is made of a plan and of words, as cf_ledger_words tells them: of a ledger, of a request, or kept in a store.
 * It tells what they did as a text for people or for the programs `cf` and `cf_look`. docs/FORMATS.md ("Histories in
 * words") says how each event is told. What the words were answered is worked out anew. A history stays as it is while
 * the ledger goes on. So if several threads share a request, your program takes the words under its lock, and makes the
 * history after that.
 *
 * A library knows stages, callers, values and exceptions by numbers alone. Your program may say what they are called and
 * when each event was done. All of that may be left out, and may be said in any order. What it says can't end the line or
 * the string in which it is told.
 *
 * Makes a history, of which nothing is said yet.
 *   - plan: the plan. It stays behind its handle.
 *   - room: the room for attached stages, as for cf_ledger_new, with what was made by cf_ledger_grow.
 *   - words, n: n words. A word that attaches a stage for which there is no room is told, too.
 *   - history: an empty handle, behind which the history is put.
 *
 * Codes:
 *   - CF_FULL, CF_EMPTY, CF_WRONG_KIND, CF_ROOM: as for cf_graph_new.
 *   - CF_NO_WORD, CF_NO_STAGE: as for cf_ledger_apply, of the first word that can't be done.
 *   - CF_NO_MEMORY. */
uint32_t cf_history_new(cf_handle *plan, uint16_t room, const uint64_t *words, size_t n, cf_handle *history);

/* Says when the events were done, in place of what was said of it before.
 *   - times, n: the time of each word, in nanoseconds from any moment on. With fewer times than words, lines have no times.
 *
 * Codes: CF_TOO_MANY if there are more times than words, and CF_NO_MEMORY. */
uint32_t cf_history_times(cf_handle *history, const uint64_t *times, size_t n);

/* What cf_history_say says:
 *   - CF_SAY_NAME: the name of the whole, which is one text.
 *   - CF_SAY_STAGES, CF_SAY_CALLERS: the names of all stages and of all callers, by their numbers from 0 on. An empty
 *     name leaves the stage that of its form, and the caller its number. So do names that aren't there.
 *   - CF_SAY_VALUES, CF_SAY_ERRORS: what values and codes of exceptions stand for, by their numbers from 0 on. One of
 *     which nothing is said is told as a number. */
enum { CF_SAY_NAME = 0, CF_SAY_STAGES = 1, CF_SAY_CALLERS = 2, CF_SAY_VALUES = 3, CF_SAY_ERRORS = 4 };

/* Says what things are called, in place of what was said of them before.
 *   - what: one of CF_SAY_.. .
 *   - text, n: n bytes, in which the texts stand one behind the other.
 *   - ends, count: where each of `count` texts ends, in bytes from the beginning. The first text begins at 0, and each
 *     further one where the one before it ends.
 *
 * Codes:
 *   - CF_NO_SUCH_NUMBER: `what` is none of them.
 *   - CF_TOO_MANY: more than one name of the whole, than 4,096 names of stages, or than 64 names of callers.
 *   - CF_BAD_TEXT: an end is below the one before it or above n, or a text isn't UTF-8.
 *   - CF_NO_MEMORY, which may also come before CF_BAD_TEXT. */
uint32_t cf_history_say(cf_handle *history, uint32_t what, const uint8_t *text, size_t n, const size_t *ends, size_t count);

/* As what a history is told:
 *   - CF_LINES: for people. The first line says how much happened. Then there is a line for each event, and below it one
 *     for each stage that it settled. Each line ends in a line feed.
 *   - CF_LINE: for a log. It is one line without its end: how many events and stages there are, how long it took, how
 *     many stages failed and which was the first of them, how many are open and which is the lowest of them.
 *   - CF_ACCOUNT: what `cf_look check` judges and `cf_look page` shows, a line of JSON.
 *   - CF_SCRIPT: what `cf run` does again, and `cf_look` draws, a line of JSON.
 *   - CF_REPORT: what `cf run` prints of that script. */
enum { CF_LINES = 0, CF_LINE = 1, CF_ACCOUNT = 2, CF_SCRIPT = 3, CF_REPORT = 4 };

/* Tells a history as a text.
 *   - kind: CF_LINES, CF_LINE, CF_ACCOUNT, CF_SCRIPT or CF_REPORT.
 *   - text, room: a buffer of `room` bytes, which gets the text as far as there is room. No zero byte follows it.
 *   - length: gets the length of the whole text, in bytes, which may be more than `room`.
 *
 * Codes: CF_NO_SUCH_NUMBER if there is no such kind, and CF_NO_MEMORY. */
uint32_t cf_history_text(cf_handle *history, uint32_t kind, uint8_t *text, size_t room, size_t *length);

/* ---- Scripts and texts ---- */

/* Each of these calls writes a text into a buffer of `room` bytes, as far as there is room. It writes the length of
 * the whole text, in bytes, to `length`, which may be more than `room`. No zero byte follows the text. */

/* Runs a script, as the program `cf run` does. docs/FORMATS.md says what scripts and reports are.
 *   - text, n: the script, n bytes of JSON.
 *   - report: gets the report. If the script has a fault, it gets the line of this fault.
 *
 * Codes:
 *   - CF_NO_MEMORY: memory was refused. Nothing is written.
 *   - CF_BAD_SCRIPT: the script has a fault. Its line is in `report`. */
uint32_t cf_run_script(const uint8_t *text, size_t n, uint8_t *report, size_t room, size_t *length);

/* Writes an outcome as reports have it, such as "pending", "value 3" or "fault timeout 7 raw". A time-out and a bad
 * answer with the code 0 are written without it: "fault timeout raw". The text has at most 34 bytes. A kind above
 * CF_BAD_ANSWER is read as CF_BAD_ANSWER. */
uint32_t cf_text_of_outcome(const cf_outcome *outcome, uint8_t *text, size_t room, size_t *length);
static inline uint32_t cf_outcome_text(cf_outcome outcome, uint8_t *text, size_t room, size_t *length) {
  return cf_text_of_outcome(&outcome, text, room, length);
}

/* Writes the name of a code, such as "Ok" or "NoStage". The text has at most 31 bytes.
 *
 * Code: CF_NO_SUCH_NUMBER if no code has this number. */
uint32_t cf_code_text(uint32_t code, uint8_t *text, size_t room, size_t *length);

/* ---- The library itself ---- */

/* The version of this header. A library of a later version with the same first number has all that stands here,
 * unchanged. */
#define CF_VERSION_MAJOR 2
#define CF_VERSION_MINOR 0
#define CF_VERSION_PATCH 0

/* None of the next four calls answers a cf_code. The texts that they answer are static and end in a zero byte. Your
 * program doesn't free them. */

/* Answers the version of the library, such as "2.0.0". */
const char *cf_version(void);

/* Answers whether a program that was written for this version of the header runs with the library. */
bool cf_fits(uint32_t major, uint32_t minor);

/* Answers the name of a code, as cf_code_text writes it, or null if no code has this number. */
const char *cf_code_name(uint32_t code);

/* Answers the size of a struct, if `name` is that of a struct ("cf_reply"), or the offset of a field, if it is that
 * of a field ("cf_reply.args"), in bytes. It answers SIZE_MAX if there is none of this name, or if `name` is null. */
size_t cf_layout(const char *name);

#ifdef __cplusplus
}
#endif

#endif
