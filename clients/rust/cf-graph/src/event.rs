//! Changing calls as events, and the words of 64 bits that write them.
use crate::plan::{form_out, function_in, Form};
use crate::refused::{check_library_once, ok_or_refused, Refused};
use crate::values::*;
use cf_sys as sys;

/// The sources of a stage that is attached.
#[derive(Clone, Copy, PartialEq, Eq, Debug)]
pub enum Of {
    /// It has none.
    None,
    /// The number of its source.
    One(u16),
    /// The numbers of both.
    Two(u16, u16),
}

/// A changing call.
#[derive(Clone, Copy, PartialEq, Eq, Debug)]
#[non_exhaustive]
pub enum Call {
    /// Settles a stage with a value, unless it is settled.
    Complete(u16, Value),
    /// Settles a stage with the code of an exception, unless it is settled.
    Fail(u16, u32),
    /// Lets a stage time out or have a bad answer, with a code, unless it is settled.
    FailAs(u16, Failure),
    /// Cancels a stage, unless it is settled.
    Cancel(u16),
    /// Takes the right to call the function of a ready stage.
    Claim(u16),
    /// Gives what the function of a claimed stage answered.
    Finish(u16, Answer),
    /// Hands in the moment, in the unit of the plan's limits.
    Tick(u32),
    /// Adds a stage: its form, its sources, and the number of its function where the form has one.
    Attach(Form, Of, Option<u16>),
}

/// A changing call of a caller, 0 to 63 where it has a word.
#[derive(Clone, Copy, PartialEq, Eq, Debug)]
pub struct Event {
    /// The caller.
    pub who: u8,
    /// What it did.
    pub call: Call,
}

impl Event {
    /// Its word. `NO_WORD` where its caller is above 63, a stage or a function above 4,095, or what it attaches doesn't fit its form.
    pub fn word(self) -> Result<u64, Refused> {
        check_library_once()?;
        let mut word = 0;
        // SAFETY: this library, pointers: both are to locals.
        ok_or_refused(unsafe { sys::cf_word_of_event(&event_in(self), &mut word) })?;
        Ok(word)
    }

    /// The event of a word. `NO_WORD` where it is none's.
    pub fn from_word(word: u64) -> Result<Event, Refused> {
        check_library_once()?;
        let mut event = sys::cf_event::default();
        // SAFETY: this library, pointers: both are to locals.
        ok_or_refused(unsafe { sys::cf_event_of(word, &mut event) })?;
        Ok(event_out(event))
    }
}

fn event_in(event: Event) -> sys::cf_event {
    let none = sys::cf_event { who: event.who, ..sys::cf_event::default() };
    match event.call {
        Call::Complete(stage, value) => sys::cf_event { call: 0, stage, value: value_in(value), ..none },
        Call::Fail(stage, code) => sys::cf_event { call: 1, stage, code, ..none },
        Call::FailAs(stage, failure) => {
            let (kind, code) = failure_in(failure);
            sys::cf_event { call: 7, kind, stage, code, ..none }
        }
        Call::Cancel(stage) => sys::cf_event { call: 2, stage, ..none },
        Call::Claim(stage) => sys::cf_event { call: 3, stage, ..none },
        Call::Finish(stage, answer) => sys::cf_event { call: 4, stage, answer: answer_in(answer), ..none },
        Call::Tick(now) => sys::cf_event { call: 5, now, ..none },
        Call::Attach(form, of, function) => {
            let (sources, first, second) = match of {
                Of::None => (0, 0, 0),
                Of::One(first) => (1, first, 0),
                Of::Two(first, second) => (2, first, second),
            };
            sys::cf_event { call: 6, form: form as u32, sources, first, second, function: function_in(function), ..none }
        }
    }
}

fn event_out(event: sys::cf_event) -> Event {
    let call = match event.call {
        0 => Call::Complete(event.stage, value_out(event.value)),
        1 => Call::Fail(event.stage, event.code),
        2 => Call::Cancel(event.stage),
        3 => Call::Claim(event.stage),
        4 => Call::Finish(event.stage, answer_out(event.answer)),
        5 => Call::Tick(event.now),
        7 => Call::FailAs(event.stage, failure_out(event.kind, event.code)),
        _ => {
            let of = match event.sources {
                0 => Of::None,
                1 => Of::One(event.first),
                _ => Of::Two(event.first, event.second),
            };
            Call::Attach(form_out(event.form), of, u16::try_from(event.function).ok())
        }
    };
    Event { who: event.who, call }
}

/// What a changing call was answered.
pub(crate) fn reply_out(call: Call, reply: sys::cf_reply) -> Reply {
    match call {
        Call::Complete(..) | Call::Fail(..) | Call::FailAs(..) | Call::Cancel(..) => Reply::Flag(reply.answer != 0),
        Call::Claim(_) => Reply::Claimed(claimed_out(reply)),
        Call::Finish(..) => Reply::Finished(finished_out(reply)),
        Call::Tick(_) => Reply::Ticked(ticked_out(reply)),
        Call::Attach(..) => Reply::Attached(attached_out(reply)),
    }
}

/// The same, by the kind that stands in the event's word.
#[inline]
pub(crate) fn reply_of_word(word: u64, reply: sys::cf_reply) -> Reply {
    match word >> 56 {
        1..=3 | 8 => Reply::Flag(reply.answer != 0),
        4 => Reply::Claimed(claimed_out(reply)),
        5 => Reply::Finished(finished_out(reply)),
        6 => Reply::Ticked(ticked_out(reply)),
        _ => Reply::Attached(attached_out(reply)),
    }
}
