//! Closed desks: what came, in its one order, and what each caller was told.
use crate::event::{reply_out, Event};
use crate::graph::Graph;
use crate::handle::Handle;
use crate::refused::Refused;
use crate::values::*;
use cf_sys as sys;

/// What a caller was told. `place` counts events of the history.
#[derive(Clone, Copy, PartialEq, Eq, Debug)]
#[non_exhaustive]
pub enum Record {
    /// A changing call.
    Did {
        /// The place of its event in the history, from 1 on.
        place: u32,
        /// The event.
        event: Event,
        /// What it was answered.
        reply: Reply,
    },
    /// A read or a join.
    Saw {
        /// How many events it saw.
        place: u32,
        /// The stage that it asked about.
        stage: u16,
        /// What that had ended in.
        outcome: Option<Outcome>,
    },
    /// A read of what a stage gives at present.
    SawNow {
        /// How many events it saw.
        place: u32,
        /// The stage that it asked about.
        stage: u16,
        /// What was to be told if the stage wasn't settled.
        absent: Value,
        /// What it was told.
        now: Now,
    },
}

/// A desk that all its callers were given back to.
#[derive(Debug)]
pub struct Closed {
    handle: Handle,
    callers: u8,
}

impl Closed {
    pub(crate) fn with_handle(handle: Handle, callers: u8) -> Closed {
        Closed { handle, callers }
    }

    /// How many callers it had.
    pub fn caller_count(&self) -> u8 {
        self.callers
    }

    /// The words of all events, in the one order in which they came.
    pub fn words(&mut self) -> Result<Vec<u64>, Refused> {
        // SAFETY: alone, pointers: `h` and what is told to are this call's.
        let events = self.handle.tell(|h, told| unsafe { sys::cf_closed_events(h, told) })?;
        // SAFETY: alone, pointers: `h` and what is told to are this call's.
        (0..events).map(|place| self.handle.tell(|h, told| unsafe { sys::cf_closed_word(h, place, told) })).collect()
    }

    /// The same events, read.
    pub fn events(&mut self) -> Result<Vec<Event>, Refused> {
        self.words()?.into_iter().map(Event::from_word).collect()
    }

    /// What the caller of a number, which is one of its callers', did and saw, in its order.
    pub fn records(&mut self, caller: u8) -> Result<Vec<Record>, Refused> {
        // SAFETY: alone, pointers: `h` and what is told to are this call's.
        let records = self.handle.tell(|h, told| unsafe { sys::cf_closed_records(h, caller, told) })?;
        // SAFETY: alone, pointers: `h` and what is told to are this call's.
        (0..records).map(|at| record_out(self.handle.tell(|h, told| unsafe { sys::cf_closed_record(h, caller, at, told) })?)).collect()
    }

    /// The graph as all events leave it.
    pub fn graph(mut self) -> Result<Graph, Refused> {
        // SAFETY: alone: `h` is this call's.
        self.handle.call(|h| unsafe { sys::cf_closed_graph(h) })?;
        Ok(Graph(self.handle))
    }
}

fn record_out(record: sys::cf_record) -> Result<Record, Refused> {
    let place = record.place;
    if record.kind == 0 {
        let event = Event::from_word(record.word)?;
        return Ok(Record::Did { place, event, reply: reply_out(event.call, record.reply) });
    }
    let stage = record.stage;
    Ok(match record.asked {
        0 => Record::Saw { place, stage, outcome: outcome_out(record.outcome) },
        _ => Record::SawNow { place, stage, absent: value_out(record.absent), now: now_out(record.now) },
    })
}
