//! What callers give and are told.
use cf_sys as sys;

/// Nothing, which is Java's null, or a number.
#[derive(Clone, Copy, PartialEq, Eq, Debug)]
pub enum Value {
    /// Nothing.
    Nil,
    /// A number, mostly the place of a value in a list of yours.
    Int(i32),
}

/// Why a stage ended without a value.
#[derive(Clone, Copy, PartialEq, Eq, Debug)]
#[non_exhaustive]
pub enum Cause {
    /// Its function threw an exception of this code, or a caller failed it with the code.
    Thrown(u32),
    /// It was cancelled.
    Cancelled,
    /// A limit of this code came, or a caller failed it so. The code is 0 if none was given.
    TimedOut(u32),
    /// A caller failed it so with this code, or its function answered what its form can't take, which has the code 0.
    BadAnswer(u32),
}

/// With which cause, other than a thrown code and a cancellation, a caller fails a stage. The code may be any number.
#[derive(Clone, Copy, PartialEq, Eq, Debug)]
#[non_exhaustive]
pub enum Failure {
    /// Time ran out for it.
    TimedOut(u32),
    /// It stands in for another stage, whose function answered what its form can't take.
    BadAnswer(u32),
}

/// What a stage is settled with. `wrapped`: the cause stands inside a `CompletionException`.
#[derive(Clone, Copy, PartialEq, Eq, Debug)]
pub enum Outcome {
    /// A value.
    Value(Value),
    /// No value.
    Fault {
        /// Why.
        cause: Cause,
        /// Whether the cause came from another stage, as Java has it inside a `CompletionException`.
        wrapped: bool,
    },
}

/// What a stage's function is called with.
#[derive(Clone, Copy, PartialEq, Eq, Debug)]
#[non_exhaustive]
pub enum Args {
    /// Nothing, as a `Supply`.
    None,
    /// The value of a source, as an `Apply`.
    One(Value),
    /// The values of both sources, as a `Combine`.
    Two(Value, Value),
    /// The outcome of the source: any of a `Handle` or a `WhenComplete`, a fault of an `Exceptionally`.
    Got(Outcome),
}

/// What a stage's function answers.
#[derive(Clone, Copy, PartialEq, Eq, Debug)]
#[non_exhaustive]
pub enum Answer {
    /// A value. Forms that give none, such as `Accept`, end as nil; a `WhenComplete` ends as its source.
    Give(Value),
    /// An exception of this code. A `WhenComplete` whose source has a fault ends as that.
    Throw(u32),
    /// Of a composing form: it ends as this stage does, which has a lower number.
    Link(u16),
}

/// What is told of a stage at present.
#[derive(Clone, Copy, PartialEq, Eq, Debug)]
#[non_exhaustive]
pub enum Now {
    /// It isn't settled, and this was handed in for that case.
    Absent(Value),
    /// Its value.
    Value(Value),
    /// Its fault, as Java tells it by a `CompletionException`.
    Completion(Cause),
    /// It was itself cancelled, for which Java throws a `CancellationException`.
    Cancellation,
}

/// How a claim went.
#[derive(Clone, Copy, PartialEq, Eq, Debug)]
#[non_exhaustive]
pub enum Claimed {
    /// The caller has it now, and calls its function with these.
    Granted(Args),
    /// The stage is settled already.
    Settled,
    /// Somebody has claimed it, or it waits for the stage that its function named.
    Taken,
    /// It isn't ready yet.
    NotReady,
}

/// How a finish went.
#[derive(Clone, Copy, PartialEq, Eq, Debug)]
#[non_exhaustive]
pub enum Finished {
    /// The answer was taken.
    Won,
    /// The stage was settled since its claim, and the answer is dropped.
    Late,
    /// This caller has no open claim of the stage.
    NotYours,
}

/// How a tick went.
#[derive(Clone, Copy, PartialEq, Eq, Debug)]
#[non_exhaustive]
pub enum Ticked {
    /// It is this moment now, and so many limits settled their stage.
    Fired(u32),
    /// A later moment was handed in before. Nothing has changed.
    Past,
}

/// What a changing call was answered.
#[derive(Clone, Copy, PartialEq, Eq, Debug)]
#[non_exhaustive]
pub enum Reply {
    /// Of complete, fail and fail as: whether it settled the stage. Of cancel: whether the stage is cancelled now.
    Flag(bool),
    /// Of a claim.
    Claimed(Claimed),
    /// Of a finish.
    Finished(Finished),
    /// Of a tick.
    Ticked(Ticked),
    /// The number of the new stage, or None where no room was left.
    Attached(Option<u16>),
}

#[inline]
pub(crate) fn value_in(value: Value) -> sys::cf_value {
    match value {
        Value::Nil => sys::cf_value { kind: 0, number: 0 },
        Value::Int(number) => sys::cf_value { kind: 1, number },
    }
}

#[inline]
pub(crate) fn value_out(value: sys::cf_value) -> Value {
    match value.kind {
        0 => Value::Nil,
        _ => Value::Int(value.number),
    }
}

#[inline]
pub(crate) fn answer_in(answer: Answer) -> sys::cf_answer {
    let mut row = sys::cf_answer::default();
    match answer {
        Answer::Give(value) => row.value = value_in(value),
        Answer::Throw(code) => (row.kind, row.code) = (1, code),
        Answer::Link(stage) => (row.kind, row.stage) = (2, stage),
    }
    row
}

#[inline]
fn cause_of(outcome: sys::cf_outcome) -> Cause {
    match outcome.kind {
        2 => Cause::Thrown(outcome.code),
        3 => Cause::Cancelled,
        4 => Cause::TimedOut(outcome.code),
        _ => Cause::BadAnswer(outcome.code),
    }
}

/// The kind of an outcome with this cause, and its code.
#[inline]
pub(crate) fn failure_in(failure: Failure) -> (u32, u32) {
    match failure {
        Failure::TimedOut(code) => (sys::CF_TIMED_OUT, code),
        Failure::BadAnswer(code) => (sys::CF_BAD_ANSWER, code),
    }
}

#[inline]
pub(crate) fn failure_out(kind: u32, code: u32) -> Failure {
    match kind {
        sys::CF_TIMED_OUT => Failure::TimedOut(code),
        _ => Failure::BadAnswer(code),
    }
}

#[inline]
pub(crate) fn outcome_out(outcome: sys::cf_outcome) -> Option<Outcome> {
    match outcome.kind {
        0 => None,
        _ => Some(settled_out(&outcome)),
    }
}

/// What a settled stage has: mostly a value.
#[inline]
pub(crate) fn settled_out(outcome: &sys::cf_outcome) -> Outcome {
    match outcome.kind {
        // Where there is none, there would be no value either.
        0 | 1 => Outcome::Value(value_out(outcome.value)),
        _ => fault_out(outcome),
    }
}

#[cold]
fn fault_out(outcome: &sys::cf_outcome) -> Outcome {
    Outcome::Fault { cause: cause_of(*outcome), wrapped: outcome.wrapped != 0 }
}

#[inline]
pub(crate) fn args_out(args: &sys::cf_args) -> Args {
    match args.kind {
        0 => Args::None,
        1 => Args::One(value_out(args.first)),
        2 => Args::Two(value_out(args.first), value_out(args.second)),
        // A function is called with an outcome only once there is one.
        _ => Args::Got(settled_out(&args.outcome)),
    }
}

#[inline]
pub(crate) fn now_out(now: sys::cf_now) -> Now {
    match now.kind {
        0 => Now::Absent(value_out(now.outcome.value)),
        1 => Now::Value(value_out(now.outcome.value)),
        2 => Now::Completion(cause_of(now.outcome)),
        _ => Now::Cancellation,
    }
}

#[inline]
pub(crate) fn claimed_out(reply: sys::cf_reply) -> Claimed {
    match reply.answer {
        0 => Claimed::Granted(args_out(&reply.args)),
        1 => Claimed::Settled,
        2 => Claimed::Taken,
        _ => Claimed::NotReady,
    }
}

#[inline]
pub(crate) fn finished_out(reply: sys::cf_reply) -> Finished {
    finished_of(reply.answer)
}

#[inline]
pub(crate) fn finished_of(answer: u32) -> Finished {
    match answer {
        0 => Finished::Won,
        1 => Finished::Late,
        _ => Finished::NotYours,
    }
}

#[inline]
pub(crate) fn ticked_out(reply: sys::cf_reply) -> Ticked {
    match reply.answer {
        0 => Ticked::Fired(reply.number),
        _ => Ticked::Past,
    }
}

#[inline]
pub(crate) fn attached_out(reply: sys::cf_reply) -> Option<u16> {
    (reply.answer == 0).then_some(reply.number as u16)
}

#[inline]
pub(crate) fn answer_out(answer: sys::cf_answer) -> Answer {
    match answer.kind {
        0 => Answer::Give(value_out(answer.value)),
        1 => Answer::Throw(answer.code),
        _ => Answer::Link(answer.stage),
    }
}

#[inline]
pub(crate) fn outcome_in(outcome: Option<Outcome>) -> sys::cf_outcome {
    let none = sys::cf_outcome::default();
    match outcome {
        None => none,
        Some(Outcome::Value(value)) => sys::cf_outcome { kind: 1, value: value_in(value), ..none },
        Some(Outcome::Fault { cause, wrapped }) => {
            let (kind, code) = match cause {
                Cause::Thrown(code) => (2, code),
                Cause::Cancelled => (3, 0),
                Cause::TimedOut(code) => (4, code),
                Cause::BadAnswer(code) => (5, code),
            };
            sys::cf_outcome { kind, wrapped: u32::from(wrapped), code, ..none }
        }
    }
}
