//! The library for C, `libcf`, as its header `cf.h` declares it: names, numbers and structures are those of the header, whose comments say
//! what each call means and what who calls owes. Safe owners of handles stand in the crate `cf-graph`, stages with any values in `cf`.
//!
//! The library is found in the folder of `CF_LIBRARY_DIR`, or by pkg-config: `libcf.a`, or with the feature `dynamic` `libcf.so`, which may also
//! stand where the linker looks by itself. A warning says where it was looked for, and what to do, where it isn't there. [`mismatch`] compares
//! its version and the layout of each structure with these declarations.
//!
//! ```
//! assert_eq!(cf_sys::mismatch(), None);
//! ```
#![no_std]
#![deny(missing_docs)]
#![allow(non_camel_case_types)]
use core::ffi::c_void;
use core::mem::size_of;

/// A handle, which is all bytes 0 while it is empty. It isn't `Copy`, so that it isn't used twice by mistake.
#[repr(C)]
#[derive(Debug)]
pub struct cf_handle {
    at: *mut c_void,
    full: bool,
}

impl cf_handle {
    /// An empty handle.
    pub const EMPTY: cf_handle = cf_handle { at: core::ptr::null_mut(), full: false };
}

// What a call answers.
/// The call did what it was asked.
pub const CF_OK: u32 = 0;
/// The plan has 4,096 stages already.
pub const CF_TOO_MANY_STAGES: u32 = 1;
/// The number of a source isn't below the new stage's number.
pub const CF_SOURCE_NOT_LOWER: u32 = 2;
/// The form takes another number of sources, or an attached stage has more than two.
pub const CF_WRONG_SOURCE_COUNT: u32 = 3;
/// The form has a function, and none is given.
pub const CF_FUNCTION_MISSING: u32 = 4;
/// The form has no function, and one is given.
pub const CF_FUNCTION_UNWANTED: u32 = 5;
/// The plan would have more than 16,384 edges.
pub const CF_TOO_MANY_EDGES: u32 = 6;
/// A limit names a stage that isn't in the plan yet.
pub const CF_NO_SUCH_STAGE: u32 = 7;
/// Memory was refused.
pub const CF_NO_MEMORY: u32 = 8;
/// The plan has 4,096 limits already.
pub const CF_TOO_MANY_LIMITS: u32 = 9;
/// Nothing stands behind the handle.
pub const CF_EMPTY: u32 = 10;
/// Something stands behind a handle that has to be empty.
pub const CF_FULL: u32 = 11;
/// Something of another kind stands behind the handle.
pub const CF_WRONG_KIND: u32 = 12;
/// No form, call of an event or a request, kind of failure or text, or code has this number.
pub const CF_NO_SUCH_NUMBER: u32 = 13;
/// A stage that the call names isn't there.
pub const CF_NO_STAGE: u32 = 14;
/// An attached stage doesn't fit its form, or its function isn't one of the desk's.
pub const CF_BAD_ATTACH: u32 = 15;
/// Stages plus room would be over 4,096, or edges plus twice the room over 16,384.
pub const CF_ROOM: u32 = 16;
/// There is none: no ready stage, no function, or no event or record at this place.
pub const CF_NOTHING: u32 = 17;
/// A desk has to have 1 to 64 callers.
pub const CF_CALLERS: u32 = 18;
/// A desk's log has to hold at least one event.
pub const CF_LOG: u32 = 19;
/// A desk's callers have to hold at least one record each.
pub const CF_CALLS: u32 = 20;
/// A stage's function isn't below the number of functions, or the pointer to it is null.
pub const CF_FUNCTIONS: u32 = 21;
/// The caller holds as many records as it may.
pub const CF_PASS_FULL: u32 = 22;
/// The desk's log is full, and stays so.
pub const CF_LOG_FULL: u32 = 23;
/// The two handles aren't of one desk.
pub const CF_OTHER_DESK: u32 = 24;
/// Not all callers of the desk were given back.
pub const CF_NOT_ALL: u32 = 25;
/// The word stands for no event, or the event has no word.
pub const CF_NO_WORD: u32 = 26;
/// The script has a fault, whose line is in the report.
pub const CF_BAD_SCRIPT: u32 = 27;
/// All callers were given back, but something still holds the desk.
pub const CF_STILL_SHARED: u32 = 28;
/// The caller has no open claim of the stage in its task; for sweeps see cf_sweep_next.
pub const CF_NOT_HELD: u32 = 29;
/// A ledger has no room for the stage that a word attaches.
pub const CF_NO_ROOM: u32 = 30;
/// Another caller of the desk claimed or settled the stage first.
pub const CF_LOST: u32 = 31;
/// Not all stages are behind the sweep yet.
pub const CF_NOT_OVER: u32 = 32;
/// A request has to have 1 to 16 lanes, and a lane for each stage of its plan.
pub const CF_LANES: u32 = 33;
/// A lane that the call names isn't there.
pub const CF_NO_LANE: u32 = 34;
/// The moment is before the last one.
pub const CF_PAST_MOMENT: u32 = 35;
/// A text ends before it begins or behind its bytes, or isn't UTF-8.
pub const CF_BAD_TEXT: u32 = 36;
/// There are more texts or times than there can be of what they are said of.
pub const CF_TOO_MANY: u32 = 37;
/// A put of the view is under way.
pub const CF_UNDER_WAY: u32 = 38;
/// There is no such session or token, or the session has fewer tokens left than words.
pub const CF_NO_TOKENS: u32 = 39;
/// A join wants none of its sources, or more than there are.
pub const CF_NO_QUORUM: u32 = 40;
/// No such ticket of a host is open, as behind its answer.
pub const CF_NO_TICKET: u32 = 41;
/// An answer isn't one to its ticket's question.
pub const CF_UNFIT: u32 = 42;
/// Two numbers stand for no note.
pub const CF_NO_NOTE: u32 = 43;
/// A host doesn't work on the request, or hasn't opened it.
pub const CF_NOT_OPEN: u32 = 44;
/// A pointer is null that may not be; nothing was done.
pub const CF_NULL: u32 = 255;

/// A form: `CompletableFuture`, with no source.
pub const CF_SOURCE: u32 = 0;
/// A form: `supplyAsync`, with no source.
pub const CF_SUPPLY: u32 = 1;
/// A form: `runAsync`, with no source.
pub const CF_RUN_ASYNC: u32 = 2;
/// A form: `thenApply`, with one source.
pub const CF_APPLY: u32 = 3;
/// A form: `thenAccept`, with one source.
pub const CF_ACCEPT: u32 = 4;
/// A form: `thenRun`, with one source.
pub const CF_THEN_RUN: u32 = 5;
/// A form: `thenCombine`, with two sources.
pub const CF_COMBINE: u32 = 6;
/// A form: `thenAcceptBoth`, with two sources.
pub const CF_ACCEPT_BOTH: u32 = 7;
/// A form: `runAfterBoth`, with two sources.
pub const CF_RUN_BOTH: u32 = 8;
/// A form: `applyToEither`, with two sources.
pub const CF_APPLY_EITHER: u32 = 9;
/// A form: `acceptEither`, with two sources.
pub const CF_ACCEPT_EITHER: u32 = 10;
/// A form: `runAfterEither`, with two sources.
pub const CF_RUN_EITHER: u32 = 11;
/// A form: `thenCompose`, with one source.
pub const CF_COMPOSE: u32 = 12;
/// A form: `handle`, with one source.
pub const CF_HANDLE: u32 = 13;
/// A form: `whenComplete`, with one source.
pub const CF_WHEN_COMPLETE: u32 = 14;
/// A form: `exceptionally`, with one source.
pub const CF_EXCEPTIONALLY: u32 = 15;
/// A form: `allOf`, with any number of sources.
pub const CF_ALL_OF: u32 = 16;
/// A form: `anyOf`, with any number of sources.
pub const CF_ANY_OF: u32 = 17;
/// A form: `exceptionallyCompose`, with one source.
pub const CF_EXCEPTIONALLY_COMPOSE: u32 = 18;

/// Of a value: nothing.
pub const CF_NIL: u32 = 0;
/// Of a value: a number.
pub const CF_INT: u32 = 1;

/// Of an answer: a value.
pub const CF_GIVE: u32 = 0;
/// Of an answer: the code of an exception.
pub const CF_THROW: u32 = 1;
/// Of an answer: the stage that this one takes its outcome from.
pub const CF_LINK: u32 = 2;

/// Of an outcome: there is none yet.
pub const CF_PENDING: u32 = 0;
/// Of an outcome: a value.
pub const CF_VALUE: u32 = 1;
/// Of an outcome: a fault by the code of an exception.
pub const CF_THROWN: u32 = 2;
/// Of an outcome: a fault, as the stage or one before it was cancelled.
pub const CF_CANCELLED: u32 = 3;
/// Of an outcome: a fault, as time ran out.
pub const CF_TIMED_OUT: u32 = 4;
/// Of an outcome: a fault, as a function answered what its stage's form can't take.
pub const CF_BAD_ANSWER: u32 = 5;

/// Nothing (CF_SUPPLY, CF_RUN_ASYNC, CF_THEN_RUN, CF_RUN_BOTH, CF_RUN_EITHER).
pub const CF_NO_ARGS: u32 = 0;
/// The value `first` (CF_APPLY, CF_ACCEPT, CF_COMPOSE, CF_APPLY_EITHER, CF_ACCEPT_EITHER).
pub const CF_ONE: u32 = 1;
/// The values `first` and `second` (CF_COMBINE, CF_ACCEPT_BOTH).
pub const CF_TWO: u32 = 2;
/// An outcome (CF_HANDLE, CF_WHEN_COMPLETE; a fault for CF_EXCEPTIONALLY, CF_EXCEPTIONALLY_COMPOSE).
pub const CF_GOT: u32 = 3;

/// The stage isn't settled.
pub const CF_ABSENT: u32 = 0;
/// `outcome` is its value.
pub const CF_GOT_VALUE: u32 = 1;
/// `outcome` is its fault, as a CompletionException.
pub const CF_COMPLETION: u32 = 2;
/// The stage itself was cancelled, for which Java throws a CancellationException.
pub const CF_CANCELLATION: u32 = 3;

/// The stage was ready, and the caller has claimed it.
pub const CF_GRANTED: u32 = 0;
/// The stage is settled already.
pub const CF_SETTLED: u32 = 1;
/// The stage is claimed already, or it waits for the stage to which it was linked.
pub const CF_TAKEN: u32 = 2;
/// The stage isn't ready yet.
pub const CF_NOT_READY: u32 = 3;

/// The answer was taken.
pub const CF_WON: u32 = 0;
/// The stage was settled after its claim, for instance cancelled.
pub const CF_LATE: u32 = 1;
/// This caller hasn't claimed the stage, or has finished it already.
pub const CF_NOT_YOURS: u32 = 2;

/// It is this moment now; the number is how many limits settled their stage.
pub const CF_FIRED: u32 = 0;
/// The moment is before the last one.
pub const CF_PAST: u32 = 1;

/// The stage was attached.
pub const CF_AT: u32 = 0;
/// There is no room left.
pub const CF_STAGES_FULL: u32 = 1;

/// Of a limit: the stage times out.
pub const CF_TIMEOUT: u32 = 0;
/// Of a limit: the stage gets a value.
pub const CF_GIVE_VALUE: u32 = 1;

/// Of a record: a changing call.
pub const CF_DID: u32 = 0;
/// Of a record: a look.
pub const CF_SAW: u32 = 1;

/// Of a look: the outcome was asked.
pub const CF_ASKED_OUTCOME: u32 = 0;
/// Of a look: what the stage gives at present was asked.
pub const CF_ASKED_NOW: u32 = 1;

/// Of an event: cf_complete.
pub const CF_CALL_COMPLETE: u32 = 0;
/// Of an event: cf_fail.
pub const CF_CALL_FAIL: u32 = 1;
/// Of an event: cf_cancel.
pub const CF_CALL_CANCEL: u32 = 2;
/// Of an event: cf_claim.
pub const CF_CALL_CLAIM: u32 = 3;
/// Of an event: cf_finish_with.
pub const CF_CALL_FINISH: u32 = 4;
/// Of an event: cf_tick.
pub const CF_CALL_TICK: u32 = 5;
/// Of an event: cf_attach.
pub const CF_CALL_ATTACH: u32 = 6;
/// Of an event: cf_fail_as.
pub const CF_CALL_FAIL_AS: u32 = 7;
/// A row of cf_request_do: cf_request_apply.
pub const CF_DO_APPLY: u32 = 0;
/// A row of cf_request_do: cf_request_next.
pub const CF_DO_NEXT: u32 = 1;
/// A row of cf_request_do: cf_request_follow.
pub const CF_DO_FOLLOW: u32 = 2;
/// A row of cf_request_do: cf_request_deadline.
pub const CF_DO_DEADLINE: u32 = 3;
/// A row of cf_request_do: cf_request_pass.
pub const CF_DO_PASS: u32 = 4;
/// A row of cf_request_do: cf_request_refuse.
pub const CF_DO_REFUSE: u32 = 5;
/// A row of cf_request_do: cf_request_cancel_all.
pub const CF_DO_CANCEL_ALL: u32 = 6;

/// To complete a stage with the payload that stands beside the word.
pub const CF_ACT_COMPLETE: u32 = 0;
/// To fail a stage with the payload that stands there.
pub const CF_ACT_FAIL: u32 = 1;
/// To cancel a stage.
pub const CF_ACT_CANCEL: u32 = 2;
/// To cancel a stage, if its function runs nowhere.
pub const CF_ACT_CANCEL_IDLE: u32 = 3;
/// A stage times out at a moment.
pub const CF_ACT_TIME_OUT: u32 = 4;
/// A stage is completed with the payload at a moment.
pub const CF_ACT_GIVE_AT: u32 = 5;
/// To attach a stage.
pub const CF_ACT_ATTACH: u32 = 6;
/// To attach a further try of a stage.
pub const CF_ACT_AGAIN: u32 = 7;

/// Nothing is to be done before a moment, an answer or another call.
pub const CF_ORDER_SLEEP: u32 = 0;
/// To beat, and to read all beats and the store's clock.
pub const CF_ORDER_BEAT: u32 = 1;
/// To read how many words each request has that isn't closed.
pub const CF_ORDER_LIST: u32 = 2;
/// The same of the requests that changed since a mark.
pub const CF_ORDER_NEWS: u32 = 3;
/// To read a request's plan.
pub const CF_ORDER_OPEN: u32 = 4;
/// To read the entries of its row from a place on.
pub const CF_ORDER_READ: u32 = 5;
/// To put entries there.
pub const CF_ORDER_PUT: u32 = 6;
/// To close the request.
pub const CF_ORDER_CLOSE: u32 = 7;
/// To call a function.
pub const CF_ORDER_CALL: u32 = 8;
/// The function of a call may end.
pub const CF_ORDER_STOP: u32 = 9;
/// To tell those who wait for a stage.
pub const CF_ORDER_SHOW: u32 = 10;
/// To tell the user of an act what became of it.
pub const CF_ORDER_TELL: u32 = 11;

/// What was asked stands.
pub const CF_TOLD_STANDS: u32 = 0;
/// The request is closed.
pub const CF_TOLD_CLOSED: u32 = 1;
/// The store refused it, and nothing of it stands.
pub const CF_TOLD_REFUSED: u32 = 2;
/// No answer came in time. It may stand, or come to stand.
pub const CF_TOLD_UNKNOWN: u32 = 3;
/// A stage isn't there.
pub const CF_TOLD_NO_STAGE: u32 = 4;
/// There is no room for the stage.
pub const CF_TOLD_NO_ROOM: u32 = 5;
/// The stage has no function that could be tried again.
pub const CF_TOLD_NO_TRY: u32 = 6;
/// The stage is settled otherwise.
pub const CF_TOLD_SETTLED: u32 = 7;
/// The stage is settled as was asked.
pub const CF_TOLD_AS_ASKED: u32 = 8;
/// The function of the stage runs.
pub const CF_TOLD_RUNS: u32 = 9;
/// A word stands in the row that doesn't fit.
pub const CF_TOLD_BROKEN: u32 = 10;
/// The store has the request no more.
pub const CF_TOLD_DROPPED: u32 = 11;
/// A payload is lost.
pub const CF_TOLD_PAYLOAD: u32 = 12;

/// No payload.
pub const CF_OF_NOBODY: u32 = 0;
/// What the user of the act gave.
pub const CF_OF_ACT: u32 = 1;
/// What the function of a stage came to.
pub const CF_OF_FUNCTION: u32 = 2;
/// An error in its place, since the store refused that.
pub const CF_OF_ERROR: u32 = 3;
/// An error that says that the session of a stage is gone.
pub const CF_OF_GONE: u32 = 4;

/// The put stands.
pub const CF_STANDS: u32 = 0;
/// The request is closed.
pub const CF_CLOSED: u32 = 1;
/// More stands there.
pub const CF_NOT_CLOSED: u32 = 2;
/// No answer came.
pub const CF_UNKNOWN: u32 = 3;
/// The put was refused.
pub const CF_REFUSED: u32 = 4;
/// The store has the request no more.
pub const CF_DROPPED: u32 = 5;

/// A function gave a payload.
pub const CF_ENDS_GIVE: u32 = 0;
/// It came to none.
pub const CF_ENDS_NIL: u32 = 1;
/// It threw an error, which is its payload.
pub const CF_ENDS_THROW: u32 = 2;
/// It passes on the error whose payload stands at a place.
pub const CF_ENDS_PASS: u32 = 3;
/// It gave another stage.
pub const CF_ENDS_LINK: u32 = 4;

/// It waits for its sources, or for who settles it.
pub const CF_IS_PENDING: u32 = 0;
/// Its function can be claimed.
pub const CF_IS_READY: u32 = 1;
/// It is claimed, and isn't finished or settled.
pub const CF_IS_CLAIMED: u32 = 2;
/// It waits for the stage to which it is linked.
pub const CF_IS_LINKED: u32 = 3;
/// It has an outcome.
pub const CF_IS_SETTLED: u32 = 4;

/// The name of the whole, which is one text.
pub const CF_SAY_NAME: u32 = 0;
/// The names of all stages, by their numbers from 0 on.
pub const CF_SAY_STAGES: u32 = 1;
/// The names of all callers, by their numbers from 0 on.
pub const CF_SAY_CALLERS: u32 = 2;
/// What values stand for, by their numbers from 0 on.
pub const CF_SAY_VALUES: u32 = 3;
/// What codes of exceptions stand for, by their numbers from 0 on.
pub const CF_SAY_ERRORS: u32 = 4;

/// For people: a line for each event, and below it one for each stage that it settled.
pub const CF_LINES: u32 = 0;
/// For a log: one line without its end.
pub const CF_LINE: u32 = 1;
/// What `cf_look check` judges and `cf_look page` shows, a line of JSON.
pub const CF_ACCOUNT: u32 = 2;
/// What `cf run` does again, and `cf_look` draws, a line of JSON.
pub const CF_SCRIPT: u32 = 3;
/// What `cf run` prints of that script.
pub const CF_REPORT: u32 = 4;

/// Stands for no function, in the calls that take the number of a function.
pub const CF_NO_FUNCTION: u32 = u32::MAX;
/// Stands for no caller.
pub const CF_NOBODY: u32 = u32::MAX;
/// Of what is to be done: jobs are to be started.
pub const CF_NEWS_READY: u32 = 1;
/// Of what is to be done: the next moment is another one.
pub const CF_NEWS_MOMENT: u32 = 2;
/// Stands for no moment.
pub const CF_NEVER: u64 = u64::MAX;
/// The major version of the header that is declared here.
pub const CF_VERSION_MAJOR: u32 = 2;
/// The minor version of the header that is declared here.
pub const CF_VERSION_MINOR: u32 = 0;

/// A value: nothing (Java's null), or a number.
#[repr(C)]
#[derive(Clone, Copy, Debug, Default, PartialEq, Eq)]
pub struct cf_value {
    /// CF_NIL or CF_INT.
    pub kind: u32,
    /// The number, 0 for CF_NIL.
    pub number: i32,
}

/// What a stage's function answered.
#[repr(C)]
#[derive(Clone, Copy, Debug, Default, PartialEq, Eq)]
pub struct cf_answer {
    /// CF_GIVE, CF_THROW or CF_LINK.
    pub kind: u32,
    /// The code of the exception, if the kind is CF_THROW.
    pub code: u32,
    /// The value, if the kind is CF_GIVE.
    pub value: cf_value,
    /// The other stage, if the kind is CF_LINK.
    pub stage: u16,
}

/// The outcome of a stage, or that it has none yet.
#[repr(C)]
#[derive(Clone, Copy, Debug, Default, PartialEq, Eq)]
pub struct cf_outcome {
    /// CF_PENDING if there is none yet, CF_VALUE, or a fault: CF_THROWN, CF_CANCELLED, CF_TIMED_OUT or CF_BAD_ANSWER.
    pub kind: u32,
    /// 1 if it is a fault inside a CompletionException, as Java has it, else 0.
    pub wrapped: u32,
    /// The code of the exception, the time-out or the bad answer, if the kind is CF_THROWN, CF_TIMED_OUT or CF_BAD_ANSWER. A time-out or a bad
    /// answer to which nobody gave a code has 0.
    pub code: u32,
    /// The value, if the kind is CF_VALUE.
    pub value: cf_value,
}

/// What a stage's function is to be called with, by the kind.
#[repr(C)]
#[derive(Clone, Copy, Debug, Default, PartialEq, Eq)]
pub struct cf_args {
    /// CF_NO_ARGS, CF_ONE, CF_TWO or CF_GOT.
    pub kind: u32,
    /// The first value, or the only one.
    pub first: cf_value,
    /// The second value.
    pub second: cf_value,
    /// For CF_GOT.
    pub outcome: cf_outcome,
}

/// What a stage gives at present, as Java's getNow and join tell it.
#[repr(C)]
#[derive(Clone, Copy, Debug, Default, PartialEq, Eq)]
pub struct cf_now {
    /// CF_ABSENT, CF_GOT_VALUE, CF_COMPLETION or CF_CANCELLATION.
    pub kind: u32,
    /// The value that was handed in, the value, or the fault.
    pub outcome: cf_outcome,
}

/// The reply to a changing call.
#[repr(C)]
#[derive(Clone, Copy, Debug, Default, PartialEq, Eq)]
pub struct cf_reply {
    /// How a claim, a finish, a tick or an attach went; for complete, fail and fail as 1 if it settled the stage; for cancel 1 if the stage is
    /// cancelled.
    pub answer: u32,
    /// For a tick, how many limits settled their stage; for an attach, the stage's number.
    pub number: u32,
    /// For a claim that was granted, what the function is to be called with.
    pub args: cf_args,
}

/// One record of a caller: what it did or asked, and what it was told.
#[repr(C)]
#[derive(Clone, Copy, Debug, Default, PartialEq, Eq)]
pub struct cf_record {
    /// CF_DID for a changing call, CF_SAW for a look.
    pub kind: u32,
    /// For CF_DID, where the event of the call stands in the history, counted from 1.
    pub place: u32,
    /// For CF_DID, the word of the event.
    pub word: u64,
    /// For CF_DID, the reply.
    pub reply: cf_reply,
    /// For CF_SAW, what was asked.
    pub asked: u32,
    /// For CF_SAW, the stage that was asked about.
    pub stage: u16,
    /// For CF_ASKED_NOW, the value that was handed in.
    pub absent: cf_value,
    /// For CF_ASKED_OUTCOME, what was told, as by cf_desk_read.
    pub outcome: cf_outcome,
    /// For CF_ASKED_NOW, what was told.
    pub now: cf_now,
}

/// An event: a changing call with its caller.
#[repr(C)]
#[derive(Clone, Copy, Debug, Default, PartialEq, Eq)]
pub struct cf_event {
    /// Which call it is.
    pub call: u32,
    /// For CF_CALL_FAIL_AS, CF_TIMED_OUT or CF_BAD_ANSWER.
    pub kind: u32,
    /// The number of the caller.
    pub who: u8,
    /// The stage, for all calls but CF_CALL_TICK and CF_CALL_ATTACH.
    pub stage: u16,
    /// For CF_CALL_COMPLETE.
    pub value: cf_value,
    /// For CF_CALL_FAIL the code of the exception, and for CF_CALL_FAIL_AS that of the time-out or the bad answer.
    pub code: u32,
    /// For CF_CALL_FINISH.
    pub answer: cf_answer,
    /// For CF_CALL_TICK, the moment.
    pub now: u32,
    /// For CF_CALL_ATTACH.
    pub form: u32,
    /// For CF_CALL_ATTACH, how many sources there are, 0 to 2.
    pub sources: u32,
    /// For CF_CALL_ATTACH, the first source.
    pub first: u16,
    /// For CF_CALL_ATTACH, the second source.
    pub second: u16,
    /// For CF_CALL_ATTACH.
    pub function: u32,
}

/// How much a desk holds to which stages may be attached.
#[repr(C)]
#[derive(Clone, Copy, Debug, Default, PartialEq, Eq)]
pub struct cf_desk_sizes {
    /// How many changing calls it takes from all callers together.
    pub log: u16,
    /// How many records each caller may hold.
    pub calls: u16,
    /// How many stages may be attached.
    pub room: u16,
    /// Below which the numbers of functions are.
    pub functions: u32,
}

/// What a caller has to do.
#[repr(C)]
#[derive(Clone, Copy, Debug, Default, PartialEq, Eq)]
pub struct cf_task {
    /// 0 if it holds no stage.
    pub held: u32,
    /// The number of the stage.
    pub stage: u16,
    /// The number of its function.
    pub function: u16,
    /// What the function is to be called with.
    pub args: cf_args,
    /// Your program writes here what the function answered.
    pub answer: cf_answer,
    /// How the finish of the last step went.
    pub finished: u32,
}

/// What a stage is.
#[repr(C)]
#[derive(Clone, Copy, Debug, Default, PartialEq, Eq)]
pub struct cf_stage {
    /// CF_IS_PENDING, CF_IS_READY, CF_IS_CLAIMED, CF_IS_LINKED or CF_IS_SETTLED.
    pub kind: u32,
    /// The caller that has an open claim of it, or CF_NOBODY.
    pub who: u32,
    /// For CF_IS_LINKED, the stage to which it is linked.
    pub target: u16,
    /// For CF_IS_SETTLED, its outcome.
    pub outcome: cf_outcome,
}

/// One of the news: a stage that a word has changed, and what it is now.
#[repr(C)]
#[derive(Clone, Copy, Debug, Default, PartialEq, Eq)]
pub struct cf_news {
    /// The number of the stage.
    pub stage: u16,
    /// What it is now.
    pub now: cf_stage,
}

/// A stage of the plan, and its value.
#[repr(C)]
#[derive(Clone, Copy, Debug, Default, PartialEq, Eq)]
pub struct cf_given {
    /// The number of the stage.
    pub stage: u16,
    /// Its value.
    pub value: cf_value,
}

/// What cf_ledger_step is asked, and what it has written.
#[repr(C)]
#[derive(Clone, Copy, Debug, Default, PartialEq, Eq)]
pub struct cf_step {
    /// The caller, 0 to 63.
    pub who: u8,
    /// The lowest stage that may be claimed.
    pub from: u16,
    /// Gets the place of the first word that was written.
    pub place: usize,
    /// Gets the word of the finish, or 0.
    pub finish: u64,
    /// Gets the word of the claim, or 0.
    pub claim: u64,
}

/// A stage that is told.
#[repr(C)]
#[derive(Clone, Copy, Debug, Default, PartialEq, Eq)]
pub struct cf_told {
    /// The number of the stage.
    pub stage: u16,
    /// The caller that still runs its function, plus 1, or 0.
    pub stop: u16,
    /// Its outcome.
    pub outcome: cf_outcome,
}

/// What the host of a request has to do next. It keeps one for each request.
#[repr(C)]
#[derive(Clone, Copy, Debug, PartialEq, Eq)]
pub struct cf_todo {
    /// How many stages there were to tell.
    pub told: usize,
    /// The moment at which cf_request_pass is due next, or CF_NEVER.
    pub moment: u64,
    /// CF_NEWS_READY, CF_NEWS_MOMENT, both or 0.
    pub news: u32,
    /// How many jobs of each lane are on their way. The host writes it.
    pub jobs: [u16; 16],
    /// How many stages of each lane are ready beyond its jobs.
    pub ready: [u16; 16],
}

impl Default for cf_todo {
    /// As it is at first: nothing is to be done.
    fn default() -> cf_todo {
        cf_todo { told: 0, moment: CF_NEVER, news: 0, jobs: [0; 16], ready: [0; 16] }
    }
}

/// What a request is opened with.
#[repr(C)]
#[derive(Clone, Copy, Debug, Default, PartialEq, Eq)]
pub struct cf_request_sizes {
    /// How many stages may be attached later.
    pub room: u16,
    /// How many lanes there are, 1 to 16.
    pub lanes: u8,
    /// The number of the caller in whose name the request settles stages itself, 0 to 63.
    pub own: u8,
}

/// What cf_request_gather is asked, and what it has attached.
#[repr(C)]
#[derive(Clone, Copy, Debug, Default, PartialEq, Eq)]
pub struct cf_request_gathering {
    /// The caller, 0 to 63.
    pub who: u8,
    /// CF_ALL_OF or CF_ANY_OF.
    pub form: u32,
    /// Gets the number of the root.
    pub root: u16,
}

/// What cf_request_compose is asked, and what it has attached.
#[repr(C)]
#[derive(Clone, Copy, Debug, Default, PartialEq, Eq)]
pub struct cf_request_composing {
    /// The caller, 0 to 63.
    pub who: u8,
    /// The lane of the compose.
    pub lane: u8,
    /// CF_COMPOSE or CF_EXCEPTIONALLY_COMPOSE.
    pub form: u32,
    /// The stage whose value or fault the compose's function takes.
    pub source: u16,
    /// The number of the compose's function, 0 to 4095.
    pub function: u16,
    /// Gets the number of the relay.
    pub relay: u16,
    /// Gets the number of the compose.
    pub stage: u16,
}

/// What cf_request_link is asked.
#[repr(C)]
#[derive(Clone, Copy, Debug, Default, PartialEq, Eq)]
pub struct cf_request_linking {
    /// The caller, 0 to 63.
    pub who: u8,
    /// The relay of the compose.
    pub relay: u16,
    /// The stage that the compose's function answered.
    pub stage: u16,
}

/// What cf_request_join is asked.
#[repr(C)]
#[derive(Clone, Copy, Debug, Default, PartialEq, Eq)]
pub struct cf_request_joining {
    /// The stage that ends by others.
    pub stage: u16,
    /// How many of these have to have values, 1 to n.
    pub wanted: u16,
    /// 0 if the stage ends by the others. Any other number cancels it as soon as they are decided.
    pub cancels: u32,
}

/// A deadline: the stage, the moment, CF_TIMEOUT or CF_GIVE_VALUE, the code, which is 0 for CF_GIVE_VALUE, and the value, which is CF_NIL for
/// CF_TIMEOUT.
#[repr(C)]
#[derive(Clone, Copy, Debug, Default, PartialEq, Eq)]
pub struct cf_deadline {
    /// The number of the stage.
    pub stage: u16,
    /// The moment, in your unit.
    pub moment: u64,
    /// CF_TIMEOUT or CF_GIVE_VALUE.
    pub kind: u32,
    /// The code, 0 for CF_GIVE_VALUE.
    pub code: u32,
    /// The value, CF_NIL for CF_TIMEOUT.
    pub value: cf_value,
}

/// A call of a request, as a row for cf_request_do.
#[repr(C)]
#[derive(Clone, Copy, Debug, Default, PartialEq, Eq)]
pub struct cf_request_call {
    /// Which call it is: one of CF_DO_.. .
    pub call: u32,
    /// The caller, 0 to 63.
    pub who: u8,
    /// The lane.
    pub lane: u8,
    /// The stage.
    pub stage: u16,
    /// The stage that follows.
    pub relay: u16,
    /// The code of an exception, or of a time-out.
    pub code: u32,
    /// The word.
    pub word: u64,
    /// The moment.
    pub moment: u64,
    /// CF_TIMEOUT or CF_GIVE_VALUE.
    pub kind: u32,
    /// The value of a deadline.
    pub value: cf_value,
    /// Gets the reply of a word.
    pub reply: cf_reply,
    /// What the caller of a step holds, before and after it.
    pub task: cf_task,
}

/// An entry of a row: a word, and the token that says who put it.
#[repr(C)]
#[derive(Clone, Copy, Debug, Default, PartialEq, Eq)]
pub struct cf_entry {
    /// The word.
    pub word: u64,
    /// The token.
    pub token: u64,
}

/// What a view is opened with.
#[repr(C)]
#[derive(Clone, Copy, Debug, Default, PartialEq, Eq)]
pub struct cf_row_opening {
    /// How many stages may be attached later.
    pub room: u16,
    /// Where the session's tokens begin to count, 0 to 2^23.
    pub first: u32,
    /// The session's number, below 2^39.
    pub session: u64,
}

/// A claim that was granted: the session that put it, and its stage.
#[repr(C)]
#[derive(Clone, Copy, Debug, Default, PartialEq, Eq)]
pub struct cf_row_claim {
    /// The session.
    pub session: u64,
    /// The number of the stage.
    pub stage: u16,
}

/// A note as two numbers.
#[repr(C)]
#[derive(Clone, Copy, Debug, Default, PartialEq, Eq)]
pub struct cf_note {
    /// Its kind, a stage and a function.
    pub what: u64,
    /// The moment of a timer, or 0.
    pub moment: u64,
}

/// An entry of a row, with its note.
#[repr(C)]
#[derive(Clone, Copy, Debug, Default, PartialEq, Eq)]
pub struct cf_noted {
    /// The word.
    pub word: u64,
    /// The token.
    pub token: u64,
    /// The note.
    pub note: cf_note,
}

/// What a host is opened with.
#[repr(C)]
#[derive(Clone, Copy, Debug, Default, PartialEq, Eq)]
pub struct cf_host_opening {
    /// The session's number, below 2^39.
    pub session: u64,
    /// How many functions run at a time.
    pub workers: u32,
    /// How long a session that doesn't beat is waited for, in milliseconds.
    pub lease: u64,
    /// Whether it works on all requests.
    pub takes_all: u32,
}

/// What a user asks of a request.
#[repr(C)]
#[derive(Clone, Copy, Debug, Default, PartialEq, Eq)]
pub struct cf_host_acting {
    /// `CF_ACT_COMPLETE` to `CF_ACT_AGAIN`.
    pub kind: u32,
    /// The stage.
    pub stage: u16,
    /// The moment on the store's clock.
    pub moment: u64,
    /// The form of an attached stage.
    pub form: u32,
    /// How many sources it has.
    pub sources: u32,
    /// The first of them.
    pub first: u16,
    /// The second of them.
    pub second: u16,
    /// Its function's number, or `CF_NO_FUNCTION`.
    pub function: u32,
}

/// What a host has to do next.
#[repr(C)]
#[derive(Clone, Copy, Debug, Default, PartialEq, Eq)]
pub struct cf_host_order {
    /// `CF_ORDER_SLEEP` to `CF_ORDER_TELL`.
    pub kind: u32,
    /// `CF_TOLD_STANDS` to `CF_TOLD_PAYLOAD`.
    pub told: u32,
    /// The ticket of the question, the call or the act.
    pub ticket: u64,
    /// The request.
    pub request: u64,
    /// The stage.
    pub stage: u16,
    /// The number of the function.
    pub function: u32,
    /// How many entries stand before those that are asked for.
    pub place: usize,
    /// Until when to sleep, or since which mark news are asked for.
    pub moment: u64,
    /// What the function is to be called with.
    pub args: cf_args,
    /// The outcome of the stage.
    pub outcome: cf_outcome,
}

/// An entry that is to be put, and whose payload stands at its place.
#[repr(C)]
#[derive(Clone, Copy, Debug, Default, PartialEq, Eq)]
pub struct cf_host_want {
    /// The entry.
    pub entry: cf_noted,
    /// `CF_OF_NOBODY` to `CF_OF_GONE`.
    pub source: u32,
    /// The stage.
    pub stage: u16,
}

/// How often a session has beaten.
#[repr(C)]
#[derive(Clone, Copy, Debug, Default, PartialEq, Eq)]
pub struct cf_host_beat {
    /// The session.
    pub session: u64,
    /// How often.
    pub count: u64,
}

/// How many words a request has.
#[repr(C)]
#[derive(Clone, Copy, Debug, Default, PartialEq, Eq)]
pub struct cf_host_length {
    /// The request.
    pub request: u64,
    /// How many words.
    pub words: usize,
}

/// What a host has seen of a request.
#[repr(C)]
#[derive(Clone, Copy, Debug, Default, PartialEq, Eq)]
pub struct cf_host_view {
    /// How many words.
    pub words: usize,
    /// How many stages there are by these.
    pub stages: u16,
    /// Why nothing goes on there any more, or 0.
    pub fault: u32,
}

/// A function of yours, as cf_work calls it.
pub type cf_stage_function = unsafe extern "C" fn(context: *mut c_void, task: *const cf_task, answer: *mut cf_answer);

#[rustfmt::skip] // (the test header.rs reads a call from one line)
extern "C" {
    /// Frees what stands behind a handle, and leaves the handle empty.
    pub fn cf_free(h: *mut cf_handle);
    /// Puts an empty builder behind an empty handle.
    pub fn cf_builder_new(builder: *mut cf_handle, stages: u16, edges: u16) -> u32;
    /// Adds a stage.
    pub fn cf_builder_stage(builder: *mut cf_handle, form: u32, of: *const u16, n: usize, function: u32, stage: *mut u16) -> u32;
    /// Adds a time limit to a stage.
    pub fn cf_builder_limit(builder: *mut cf_handle, stage: u16, at: u32, kind: u32, code: u32, value: cf_value) -> u32;
    /// Makes the builder behind the handle a plan.
    pub fn cf_build(builder: *mut cf_handle) -> u32;
    /// Opens a graph of a plan.
    pub fn cf_graph_new(plan: *mut cf_handle, room: u16, graph: *mut cf_handle) -> u32;
    /// Completes a stage with a value.
    pub fn cf_complete(graph: *mut cf_handle, stage: u16, value: cf_value, reply: *mut cf_reply) -> u32;
    /// Fails a stage with the code of an exception, which may be any number.
    pub fn cf_fail(graph: *mut cf_handle, stage: u16, code: u32, reply: *mut cf_reply) -> u32;
    /// Fails a stage as timed out, or with a bad answer.
    pub fn cf_fail_as(graph: *mut cf_handle, stage: u16, kind: u32, code: u32, reply: *mut cf_reply) -> u32;
    /// Cancels a stage.
    pub fn cf_cancel(graph: *mut cf_handle, stage: u16, reply: *mut cf_reply) -> u32;
    /// Claims a stage for the caller `who`.
    pub fn cf_claim(graph: *mut cf_handle, who: u8, stage: u16, reply: *mut cf_reply) -> u32;
    /// Finishes a stage that the caller `who` has claimed, with what the function answered.
    pub fn cf_finish_with(graph: *mut cf_handle, who: u8, stage: u16, answer: *const cf_answer, reply: *mut cf_reply) -> u32;
    /// Hands in the moment, in the unit of the plan's limits.
    pub fn cf_tick(graph: *mut cf_handle, now: u32, reply: *mut cf_reply) -> u32;
    /// Attaches a stage, if there is room for it.
    pub fn cf_attach(graph: *mut cf_handle, form: u32, of: *const u16, n: usize, function: u32, reply: *mut cf_reply) -> u32;
    /// Tells the outcome of a stage, or that it is pending.
    pub fn cf_get(graph: *mut cf_handle, stage: u16, outcome: *mut cf_outcome) -> u32;
    /// Tells what a stage gives at present.
    pub fn cf_get_now(graph: *mut cf_handle, stage: u16, absent: cf_value, now: *mut cf_now) -> u32;
    /// Tells the lowest ready stage.
    pub fn cf_lowest_ready(graph: *mut cf_handle, stage: *mut u16) -> u32;
    /// Tells the number of a stage's function.
    pub fn cf_function(graph: *mut cf_handle, stage: u16, function: *mut u16) -> u32;
    /// Tells how many stages there are by now, with those that were attached.
    pub fn cf_stages(graph: *mut cf_handle, stages: *mut u16) -> u32;
    /// Tells how many turns were taken since the graph was opened or last started again.
    pub fn cf_turns(graph: *mut cf_handle, turns: *mut u64) -> u32;
    /// Starts the graph again.
    pub fn cf_restart(graph: *mut cf_handle) -> u32;
    /// Starts the graph again, and then completes stages with values, one after another.
    pub fn cf_restart_with(graph: *mut cf_handle, given: *const cf_given, n: usize) -> u32;
    /// Puts the plan from which the graph was opened behind an empty handle.
    pub fn cf_plan_of(graph: *mut cf_handle, plan: *mut cf_handle) -> u32;
    /// Opens a desk of a plan.
    pub fn cf_desk_open(plan: *mut cf_handle, callers: *mut cf_handle, n: usize, log: u16, calls: u16) -> u32;
    /// Opens a desk to which stages may be attached.
    pub fn cf_desk_open_with(plan: *mut cf_handle, callers: *mut cf_handle, n: usize, sizes: *const cf_desk_sizes) -> u32;
    /// Completes a stage, as cf_complete does.
    pub fn cf_desk_complete(caller: *mut cf_handle, stage: u16, value: cf_value, reply: *mut cf_reply) -> u32;
    /// Fails a stage, as cf_fail does.
    pub fn cf_desk_fail(caller: *mut cf_handle, stage: u16, code: u32, reply: *mut cf_reply) -> u32;
    /// Fails a stage as timed out, or with a bad answer, as cf_fail_as does.
    pub fn cf_desk_fail_as(caller: *mut cf_handle, stage: u16, kind: u32, code: u32, reply: *mut cf_reply) -> u32;
    /// Cancels a stage, as cf_cancel does.
    pub fn cf_desk_cancel(caller: *mut cf_handle, stage: u16, reply: *mut cf_reply) -> u32;
    /// Claims a stage for this caller, as cf_claim does.
    pub fn cf_desk_claim(caller: *mut cf_handle, stage: u16, reply: *mut cf_reply) -> u32;
    /// Finishes a stage that this caller has claimed, as cf_finish_with does.
    pub fn cf_desk_finish_with(caller: *mut cf_handle, stage: u16, answer: *const cf_answer, reply: *mut cf_reply) -> u32;
    /// Hands in the moment, as cf_tick does.
    pub fn cf_desk_tick(caller: *mut cf_handle, now: u32, reply: *mut cf_reply) -> u32;
    /// Attaches a stage, as cf_attach does.
    pub fn cf_desk_attach(caller: *mut cf_handle, form: u32, of: *const u16, n: usize, function: u32, reply: *mut cf_reply) -> u32;
    /// Completes stages one after another, as cf_desk_complete does each, up to the first that is refused.
    pub fn cf_desk_complete_many(caller: *mut cf_handle, given: *const cf_given, n: usize, done: *mut usize) -> u32;
    /// One step of a caller's loop, as cf_next does it.
    pub fn cf_desk_next(caller: *mut cf_handle, task: *mut cf_task) -> u32;
    /// Looks once, and tells the outcome of a stage, as cf_get does.
    pub fn cf_desk_read(caller: *mut cf_handle, stage: u16, outcome: *mut cf_outcome) -> u32;
    /// Looks once, and tells what a stage gives at present, as cf_get_now does.
    pub fn cf_desk_read_now(caller: *mut cf_handle, stage: u16, absent: cf_value, now: *mut cf_now) -> u32;
    /// Looks until the stage is settled, at most so many times, and tells what the stage gives.
    pub fn cf_desk_join(caller: *mut cf_handle, stage: u16, looks: u32, now: *mut cf_now) -> u32;
    /// Looks once, and tells the lowest ready stage.
    pub fn cf_desk_ready(caller: *mut cf_handle, stage: *mut u16) -> u32;
    /// Lets two callers of one desk see all that either of them has seen.
    pub fn cf_desk_meet(caller: *mut cf_handle, other: *mut cf_handle) -> u32;
    /// Puts a notice of what the caller has seen behind an empty handle.
    pub fn cf_desk_notice(caller: *mut cf_handle, notice: *mut cf_handle) -> u32;
    /// Lets the caller see all that the notice tells of.
    pub fn cf_desk_heed(caller: *mut cf_handle, notice: *mut cf_handle) -> u32;
    /// Tells how many events the caller has seen.
    pub fn cf_desk_seen(caller: *mut cf_handle, events: *mut u16) -> u32;
    /// Tells how many more records the caller takes.
    pub fn cf_desk_left(caller: *mut cf_handle, calls: *mut u16) -> u32;
    /// Tells the number of a stage's function.
    pub fn cf_desk_function(caller: *mut cf_handle, stage: u16, function: *mut u16) -> u32;
    /// Tells the caller's number.
    pub fn cf_desk_caller(caller: *mut cf_handle, number: *mut u8) -> u32;
    /// Begins to close a desk.
    pub fn cf_close_begin(caller: *mut cf_handle) -> u32;
    /// Gives one more caller of the desk back.
    pub fn cf_close_add(closing: *mut cf_handle, caller: *mut cf_handle) -> u32;
    /// Ends the closing, which becomes a closed desk.
    pub fn cf_close_end(closing: *mut cf_handle) -> u32;
    /// Tells how many events the history of a closed desk has.
    pub fn cf_closed_events(closed: *mut cf_handle, events: *mut u16) -> u32;
    /// Tells the word of the event at a place of the history: 0, 1, ..
    pub fn cf_closed_word(closed: *mut cf_handle, place: u16, word: *mut u64) -> u32;
    /// Tells how many records a caller has.
    pub fn cf_closed_records(closed: *mut cf_handle, caller: u8, records: *mut u16) -> u32;
    /// Tells one record of a caller.
    pub fn cf_closed_record(closed: *mut cf_handle, caller: u8, at: u16, record: *mut cf_record) -> u32;
    /// Makes the closed desk its graph, as all events leave it.
    pub fn cf_closed_graph(closed: *mut cf_handle) -> u32;
    /// Tells the word of an event.
    pub fn cf_word_of_event(event: *const cf_event, word: *mut u64) -> u32;
    /// Tells the event of a word.
    pub fn cf_event_of(word: u64, event: *mut cf_event) -> u32;
    /// Does the event of a word to a graph, and gives the reply of that call.
    pub fn cf_apply(graph: *mut cf_handle, word: u64, reply: *mut cf_reply) -> u32;
    /// Runs a script, as the program `cf run` does.
    pub fn cf_run_script(text: *const u8, n: usize, report: *mut u8, room: usize, length: *mut usize) -> u32;
    /// Writes an outcome as reports have it, such as "pending", "value 3" or "fault timeout 7 raw".
    pub fn cf_text_of_outcome(outcome: *const cf_outcome, text: *mut u8, room: usize, length: *mut usize) -> u32;
    /// Writes the name of a code, such as "Ok" or "NoStage".
    pub fn cf_code_text(code: u32, text: *mut u8, room: usize, length: *mut usize) -> u32;
    /// One step of a caller's loop.
    pub fn cf_next(graph: *mut cf_handle, who: u8, task: *mut cf_task) -> u32;
    /// The same step for several tasks of one caller.
    pub fn cf_round(graph: *mut cf_handle, who: u8, tasks: *mut cf_task, n: usize) -> u32;
    /// Makes the graph behind the handle a sweep.
    pub fn cf_sweep_begin(graph: *mut cf_handle) -> u32;
    /// One step of a sweep.
    pub fn cf_sweep_next(sweep: *mut cf_handle, task: *mut cf_task) -> u32;
    /// Makes a sweep its graph again.
    pub fn cf_sweep_end(sweep: *mut cf_handle) -> u32;
    /// The whole loop of the caller `who`.
    pub fn cf_work(graph: *mut cf_handle, who: u8, functions: *const cf_stage_function, n: usize, context: *mut c_void, calls: *mut u32) -> u32;
    /// Opens a ledger of a plan, in which no word is written yet.
    pub fn cf_ledger_new(plan: *mut cf_handle, room: u16, ledger: *mut cf_handle) -> u32;
    /// Opens a ledger of a plan, as cf_ledger_new does.
    pub fn cf_ledger_of(plan: *mut cf_handle, room: u16, words: *const u64, n: usize, ledger: *mut cf_handle, place: *mut usize) -> u32;
    /// Does the event of a word, and writes the word after the others.
    pub fn cf_ledger_apply(ledger: *mut cf_handle, word: u64, reply: *mut cf_reply, news: *mut cf_news, room: usize, n: *mut usize) -> u32;
    /// One step of a caller's loop, as cf_next does it.
    pub fn cf_ledger_step(ledger: *mut cf_handle, step: *mut cf_step, task: *mut cf_task, news: *mut cf_news, room: usize, n: *mut usize) -> u32;
    /// Does words one after another, as cf_ledger_apply does each, up to the first that can't be done.
    pub fn cf_ledger_apply_all(ledger: *mut cf_handle, words: *const u64, n: usize, done: *mut usize) -> u32;
    /// Tells the words of a ledger, of a request or of a view.
    pub fn cf_ledger_words(ledger: *mut cf_handle, from: usize, words: *mut u64, room: usize, n: *mut usize) -> u32;
    /// Tells which stages an event has changed.
    pub fn cf_ledger_news(ledger: *mut cf_handle, place: usize, stages: *mut u16, room: usize, n: *mut usize) -> u32;
    /// Tells the lowest ready stage from the number `from` on.
    pub fn cf_ledger_ready(ledger: *mut cf_handle, from: u16, stage: *mut u16) -> u32;
    /// Tells what a stage is.
    pub fn cf_ledger_stage(ledger: *mut cf_handle, stage: u16, now: *mut cf_stage) -> u32;
    /// Tells the number of a stage's function.
    pub fn cf_ledger_function(ledger: *mut cf_handle, stage: u16, function: *mut u16) -> u32;
    /// Tells how many stages there are by now, with those that were attached.
    pub fn cf_ledger_stages(ledger: *mut cf_handle, stages: *mut u16) -> u32;
    /// Makes room for more stages, by doing all words again.
    pub fn cf_ledger_grow(ledger: *mut cf_handle, more: u16) -> u32;
    /// Starts the ledger again.
    pub fn cf_ledger_restart(ledger: *mut cf_handle) -> u32;
    /// Opens a request of a plan.
    pub fn cf_request_new(plan: *mut cf_handle, sizes: *const cf_request_sizes, lanes: *const u8, n: usize, request: *mut cf_handle) -> u32;
    /// Does a word, as cf_ledger_apply does.
    pub fn cf_request_apply(request: *mut cf_handle, word: u64, lane: u8, reply: *mut cf_reply, told: *mut cf_told, room: usize, todo: *mut cf_todo) -> u32;
    /// Attaches a stage that waits for all of these stages, or for one of them, whatever their number.
    pub fn cf_request_gather(request: *mut cf_handle, step: *mut cf_request_gathering, sources: *const u16, n: usize, told: *mut cf_told, room: usize, todo: *mut cf_todo) -> u32;
    /// Attaches a compose whose function may answer any stage of the request, also one that is attached later.
    pub fn cf_request_compose(request: *mut cf_handle, step: *mut cf_request_composing, told: *mut cf_told, room: usize, todo: *mut cf_todo) -> u32;
    /// Finishes the compose that the task holds with a stage of the request, whichever it is.
    pub fn cf_request_link(request: *mut cf_handle, step: *const cf_request_linking, task: *mut cf_task, told: *mut cf_told, room: usize, todo: *mut cf_todo) -> u32;
    /// One step of a caller's loop, as cf_next does it.
    pub fn cf_request_next(request: *mut cf_handle, who: u8, lane: u8, task: *mut cf_task, told: *mut cf_told, room: usize, todo: *mut cf_todo) -> u32;
    /// From now on a stage ends as another stage of the request does, unless it is settled before.
    pub fn cf_request_follow(request: *mut cf_handle, relay: u16, stage: u16, told: *mut cf_told, room: usize, todo: *mut cf_todo) -> u32;
    /// From now on a stage ends as soon as it is decided what n other stages of the request come to, unless it is settled before.
    pub fn cf_request_join(request: *mut cf_handle, step: *const cf_request_joining, sources: *const u16, n: usize, told: *mut cf_told, room: usize, todo: *mut cf_todo) -> u32;
    /// Sets a moment by which a stage has to be settled.
    pub fn cf_request_deadline(request: *mut cf_handle, stage: u16, moment: u64, kind: u32, code: u32, value: cf_value, todo: *mut cf_todo) -> u32;
    /// Lets time pass up to a moment.
    pub fn cf_request_pass(request: *mut cf_handle, moment: u64, told: *mut cf_told, room: usize, todo: *mut cf_todo) -> u32;
    /// Tells the deadline that comes next, of those whose stage is open.
    pub fn cf_request_next_deadline(request: *mut cf_handle, deadline: *mut cf_deadline) -> u32;
    /// Nobody runs a lane any more: its ready stages fail, and so do those that become ready by this.
    pub fn cf_request_refuse(request: *mut cf_handle, lane: u8, code: u32, told: *mut cf_told, room: usize, todo: *mut cf_todo) -> u32;
    /// Tells the stages that are settled and weren't told yet, and what is to be done next.
    pub fn cf_request_told(request: *mut cf_handle, told: *mut cf_told, room: usize, todo: *mut cf_todo) -> u32;
    /// Tells how many stages of a lane are ready.
    pub fn cf_request_ready(request: *mut cf_handle, lane: u8, ready: *mut u16) -> u32;
    /// Cancels all stages that are open, from the lowest on, by words of a caller.
    pub fn cf_request_cancel_all(request: *mut cf_handle, who: u8, told: *mut cf_told, room: usize, todo: *mut cf_todo) -> u32;
    /// Makes room for more stages, by doing all words again.
    pub fn cf_request_grow(request: *mut cf_handle) -> u32;
    /// Starts the request again, as it was opened: nothing is done, follows or is due, and the moment is 0.
    pub fn cf_request_restart(request: *mut cf_handle) -> u32;
    /// Makes calls one after another, each as it is made alone, up to the first that is refused.
    pub fn cf_request_do(request: *mut cf_handle, calls: *mut cf_request_call, n: usize, done: *mut usize, told: *mut cf_told, room: usize, todo: *mut cf_todo) -> u32;
    /// Opens a view of a row, of which nothing was read yet.
    pub fn cf_row_new(plan: *mut cf_handle, opening: *const cf_row_opening, view: *mut cf_handle) -> u32;
    /// Plans a put of words behind all that was seen, and finds the memory that the view needs if it lands.
    pub fn cf_row_plan(view: *mut cf_handle, words: *const u64, n: usize, token: *mut u64) -> u32;
    /// At the place of the put an entry stands.
    pub fn cf_row_met(view: *mut cf_handle, first: *const cf_entry, landed: *mut u8) -> u32;
    /// Gives the put up, if there is one: it isn't known whether it stands, now or later.
    pub fn cf_row_give_up(view: *mut cf_handle) -> u32;
    /// An entry stands behind all that was seen.
    pub fn cf_row_saw(view: *mut cf_handle, entry: *const cf_entry, reply: *mut cf_reply, news: *mut cf_news, room: usize, n: *mut usize) -> u32;
    /// Makes room for more stages, by doing all words again.
    pub fn cf_row_grow(view: *mut cf_handle, more: u16) -> u32;
    /// Tells the caller's number of the session: that which its entries have, or else that which it takes with its next put, which others may take
    /// before.
    pub fn cf_row_number(view: *mut cf_handle, who: *mut u8) -> u32;
    /// Tells the caller's number of any session.
    pub fn cf_row_number_of(view: *mut cf_handle, session: u64, who: *mut u8) -> u32;
    /// Tells the lowest stage from the number `from` on whose claim is open, with the session to which it was granted, also where several sessions
    /// have its caller's number.
    pub fn cf_row_open_claim(view: *mut cf_handle, from: u16, claim: *mut cf_row_claim) -> u32;
    /// Tells the lowest stage from the number `from` on that a session has: its claim was granted to this session and is open, and the stage isn't
    /// settled.
    pub fn cf_row_held(view: *mut cf_handle, session: u64, from: u16, stage: *mut u16) -> u32;
    /// Tells the word that fails the lowest stage from the number `from` on that a session has, as cf_row_held tells it: what you put if this session
    /// is gone.
    pub fn cf_row_abandon(view: *mut cf_handle, session: u64, from: u16, code: u32, word: *mut u64) -> u32;
    /// Tells the word that finishes a stage of the view's own session with what its function came to: what you put once that has ended.
    pub fn cf_row_finish(view: *mut cf_handle, task: *const cf_task, word: *mut u64) -> u32;
    /// Tells the lowest stage from the number `from` on that the view's session could claim next: one that is ready, or one that is ready once what
    /// the task holds is finished.
    pub fn cf_row_next_claim(view: *mut cf_handle, task: *const cf_task, from: u16, stage: *mut u16) -> u32;
    /// Opens a host that knows nothing yet, and puts it behind an empty handle.
    pub fn cf_host_new(opening: *const cf_host_opening, host: *mut cf_handle) -> u32;
    /// Works on a request from now on.
    pub fn cf_host_follow(host: *mut cf_handle, request: u64) -> u32;
    /// A user asks this of a request. It tells the ticket under which its user is told of it.
    pub fn cf_host_act(host: *mut cf_handle, now: u64, request: u64, act: *const cf_host_acting, ticket: *mut u64) -> u32;
    /// A user ends a request.
    pub fn cf_host_end(host: *mut cf_handle, now: u64, request: u64, ticket: *mut u64) -> u32;
    /// Somebody waits for a stage.
    pub fn cf_host_wants(host: *mut cf_handle, request: u64, stage: u16) -> u32;
    /// Nobody waits for a stage any more.
    pub fn cf_host_lets_go(host: *mut cf_handle, request: u64, stage: u16) -> u32;
    /// The payload of a stage that was shown couldn't be read.
    pub fn cf_host_unread(host: *mut cf_handle, now: u64, request: u64, stage: u16) -> u32;
    /// Makes room in a request for more stages.
    pub fn cf_host_grow(host: *mut cf_handle, request: u64, more: u16) -> u32;
    /// The store says that something is new.
    pub fn cf_host_stirred(host: *mut cf_handle, now: u64) -> u32;
    /// From now on no further function is called.
    pub fn cf_host_stop(host: *mut cf_handle) -> u32;
    /// Tells what is to be done next.
    pub fn cf_host_turn(host: *mut cf_handle, now: u64, order: *mut cf_host_order) -> u32;
    /// Tells the entries of a request's put that is under way.
    pub fn cf_host_put(host: *mut cf_handle, request: u64, wants: *mut cf_host_want, room: usize, n: *mut usize) -> u32;
    /// Answers with the plan of a request.
    pub fn cf_host_opened(host: *mut cf_handle, ticket: u64, plan: *mut cf_handle, room: u16, is_flow: u32, notes: *const cf_note, n: usize) -> u32;
    /// Answers with the entries that stand behind a place.
    pub fn cf_host_read(host: *mut cf_handle, now: u64, ticket: u64, entries: *const cf_noted, n: usize) -> u32;
    /// Answers with all sessions' beats and the store's clock.
    pub fn cf_host_beats(host: *mut cf_handle, now: u64, ticket: u64, clock: u64, beats: *const cf_host_beat, n: usize) -> u32;
    /// Answers with how many words requests have, up to a mark.
    pub fn cf_host_news(host: *mut cf_handle, now: u64, ticket: u64, mark: u64, requests: *const cf_host_length, n: usize) -> u32;
    /// Answers without a list: `CF_STANDS` to `CF_DROPPED`.
    pub fn cf_host_answered(host: *mut cf_handle, now: u64, ticket: u64, answer: u32) -> u32;
    /// A function has ended: `CF_ENDS_GIVE` to `CF_ENDS_LINK`.
    pub fn cf_host_ended(host: *mut cf_handle, ticket: u64, kind: u32, code: u32, stage: u16) -> u32;
    /// Tells what a stage of a request is.
    pub fn cf_host_stage(host: *mut cf_handle, request: u64, stage: u16, now: *mut cf_stage) -> u32;
    /// Tells how much the host has seen of a request.
    pub fn cf_host_seen(host: *mut cf_handle, request: u64, seen: *mut cf_host_view) -> u32;
    /// Makes a history, of which nothing is said yet.
    pub fn cf_history_new(plan: *mut cf_handle, room: u16, words: *const u64, n: usize, history: *mut cf_handle) -> u32;
    /// Says when the events were done, in place of what was said of it before.
    pub fn cf_history_times(history: *mut cf_handle, times: *const u64, n: usize) -> u32;
    /// Says what things are called, in place of what was said of them before.
    pub fn cf_history_say(history: *mut cf_handle, what: u32, text: *const u8, n: usize, ends: *const usize, count: usize) -> u32;
    /// Tells a history as a text.
    pub fn cf_history_text(history: *mut cf_handle, kind: u32, text: *mut u8, room: usize, length: *mut usize) -> u32;
    /// Answers the version of the library, such as "2.0.0".
    pub fn cf_version() -> *const u8;
    /// Answers whether a program that was written for this version of the header runs with the library.
    pub fn cf_fits(major: u32, minor: u32) -> bool;
    /// Answers the name of a code, as cf_code_text writes it, or null if no code has this number.
    pub fn cf_code_name(code: u32) -> *const u8;
    /// Answers the size of a struct, or the offset of a field, or `usize::MAX` for any other name.
    pub fn cf_layout(name: *const u8) -> usize;
}

/// The first thing in which the library differs from these declarations, or None: `"version"`, a structure (`"cf_reply"`) whose size is
/// another, or a field (`"cf_reply.args"`) whose offset is. About 60 calls of the library, a few microseconds.
pub fn mismatch() -> Option<&'static str> {
    // SAFETY: the call takes two numbers, and looks at nothing else.
    if !unsafe { cf_fits(CF_VERSION_MAJOR, CF_VERSION_MINOR) } {
        return Some("version");
    }
    macro_rules! known {
        ($name:ident: $($field:ident)*) => {{
                let it = $name::default();
                let base = &it as *const $name as usize;
                differing(&[
                    (concat!(stringify!($name), "\0"), size_of::<$name>()),
                    $((concat!(stringify!($name), ".", stringify!($field), "\0"), &it.$field as *const _ as usize - base)),*
                ])
        }};
    }
    let structures = [
        differing(&[("cf_handle\0", size_of::<cf_handle>())]),
        known!(cf_value: kind number),
        known!(cf_answer: kind code value stage),
        known!(cf_outcome: kind wrapped code value),
        known!(cf_args: kind first second outcome),
        known!(cf_now: kind outcome),
        known!(cf_reply: answer number args),
        known!(cf_task: held stage function args answer finished),
        known!(cf_desk_sizes: log calls room functions),
        known!(cf_record: kind place word reply asked stage absent outcome now),
        known!(cf_event: call kind who stage value code answer now form sources first second function),
        known!(cf_stage: kind who target outcome),
        known!(cf_news: stage now),
        known!(cf_given: stage value),
        known!(cf_step: who from place finish claim),
        known!(cf_told: stage stop outcome),
        known!(cf_todo: told moment news jobs ready),
        known!(cf_request_sizes: room lanes own),
        known!(cf_request_gathering: who form root),
        known!(cf_request_composing: who lane form source function relay stage),
        known!(cf_request_linking: who relay stage),
        known!(cf_request_joining: stage wanted cancels),
        known!(cf_deadline: stage moment kind code value),
        known!(cf_request_call: call who lane stage relay code word moment kind value reply task),
        known!(cf_entry: word token),
        known!(cf_row_opening: room first session),
        known!(cf_row_claim: session stage),
        known!(cf_note: what moment),
        known!(cf_noted: word token note),
        known!(cf_host_opening: session workers lease takes_all),
        known!(cf_host_acting: kind stage moment form sources first second function),
        known!(cf_host_order: kind told ticket request stage function place moment args outcome),
        known!(cf_host_want: entry source stage),
        known!(cf_host_beat: session count),
        known!(cf_host_length: request words),
        known!(cf_host_view: words stages fault),
    ];
    structures.iter().find_map(|it| *it)
}

/// The first structure or field, each with a zero byte behind its name, of which the library says another number.
fn differing(known: &[(&'static str, usize)]) -> Option<&'static str> {
    // SAFETY: each name ends in a zero byte, is static, and is only read.
    let told = |name: &'static str| unsafe { cf_layout(name.as_ptr()) };
    known.iter().find(|&&(name, here)| told(name) != here).map(|&(name, _)| &name[..name.len() - 1])
}
