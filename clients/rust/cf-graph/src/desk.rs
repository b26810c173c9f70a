//! Desks: graphs that callers on several threads share without a lock.
use crate::closed::Closed;
use crate::handle::Handle;
use crate::plan::{function_in, Form, Sizes};
use crate::refused::{if_there, Refused};
use crate::step::{step_out, task_in, ClaimedStage, Stepped};
use crate::values::*;
use cf_sys as sys;
use std::error::Error;
use std::fmt;
use std::sync::Arc;

/// What the callers of one desk have in common, and what closes it. It is freed with the last of them, wherever that is dropped.
#[derive(Debug)]
pub struct Desk(Arc<Sizes>);

/// A caller of a desk: it goes to a thread, which has it alone. One that is dropped leaves the others as they are, but the desk can't
/// be closed then. What it does and reads is recorded, until it holds as many records as it may.
#[derive(Debug)]
pub struct Caller {
    handle: Handle,
    desk: Arc<Sizes>,
    number: u8,
}

/// The desk and the callers that were opened behind these handles.
pub(crate) fn desk_and_callers(sizes: Sizes, handles: Vec<sys::cf_handle>) -> (Desk, Vec<Caller>) {
    let desk = Arc::new(sizes);
    let callers = handles.into_iter().map(|handle| caller_with_handle(Handle::owning(handle), desk.clone())).collect();
    (Desk(desk), callers)
}

fn caller_with_handle(mut handle: Handle, desk: Arc<Sizes>) -> Caller {
    // SAFETY: alone, pointers: `h` and what is told to are this call's.
    let number = handle.tell(|h, told| unsafe { sys::cf_desk_caller(h, told) });
    let number = number.expect("a caller stands behind the handle");
    Caller { handle, desk, number }
}

impl Desk {
    /// What it was opened with.
    pub fn sizes(&self) -> Sizes {
        *self.0
    }

    /// Takes the desk apart, with all its callers in any order: what they did is one history. Where one is missing (`NOT_ALL`), of another
    /// desk (`OTHER_DESK`), or memory is refused, desk and callers are given back as they were.
    pub fn close(self, mut callers: Vec<Caller>) -> Result<Closed, NotClosed> {
        if let Some(why) = self.cannot_close(&callers) {
            return Err(NotClosed { why, desk: self, callers });
        }
        let numbers = callers.len() as u8;
        // SAFETY: alone: `h` is this call's.
        if let Err(why) = callers[0].handle.call(|h| unsafe { sys::cf_close_begin(h) }) {
            return Err(NotClosed { why, desk: self, callers });
        }
        let mut rest = callers.into_iter();
        let mut closing = rest.next().map(|caller| caller.handle).unwrap_or_else(Handle::empty);
        for mut caller in rest {
            // SAFETY: alone, apart, one desk: two handles that are both this call's, of callers whose desks were compared.
            let added = closing.call(|closing| Refused::code_of(caller.handle.call(|h| unsafe { sys::cf_close_add(closing, h) })));
            added.expect("all callers are of one desk");
        }
        // SAFETY: alone: `h` is this call's.
        closing.call(|h| unsafe { sys::cf_close_end(h) }).expect("all callers were given back");
        Ok(Closed::with_handle(closing, numbers))
    }

    fn cannot_close(&self, callers: &[Caller]) -> Option<Refused> {
        if !callers.iter().all(|caller| caller.is_of(&self.0)) {
            return Some(Refused::OTHER_DESK);
        }
        (callers.len() < usize::from(self.0.callers)).then_some(Refused::NOT_ALL)
    }
}

/// A desk that wasn't closed, and the callers that were handed in.
pub struct NotClosed {
    /// Why not.
    pub why: Refused,
    /// The desk.
    pub desk: Desk,
    /// The callers that were given to it.
    pub callers: Vec<Caller>,
}

impl fmt::Debug for NotClosed {
    fn fmt(&self, f: &mut fmt::Formatter<'_>) -> fmt::Result {
        write!(f, "NotClosed({:?})", self.why)
    }
}

impl fmt::Display for NotClosed {
    fn fmt(&self, f: &mut fmt::Formatter<'_>) -> fmt::Result {
        self.why.fmt(f)
    }
}

impl Error for NotClosed {}

impl Caller {
    /// Settles a stage with a value, and says whether it did.
    pub fn complete(&mut self, stage: u16, value: Value) -> Result<bool, Refused> {
        // SAFETY: alone, pointers: `h` and what is told to are this call's.
        self.flag(|h, reply| unsafe { sys::cf_desk_complete(h, stage, value_in(value), reply) })
    }

    /// Settles a stage with a thrown code, and says whether it did.
    pub fn fail(&mut self, stage: u16, code: u32) -> Result<bool, Refused> {
        // SAFETY: alone, pointers: `h` and what is told to are this call's.
        self.flag(|h, reply| unsafe { sys::cf_desk_fail(h, stage, code, reply) })
    }

    /// Fails a stage as timed out, or, where it stands in for another, with a bad answer, and says whether it did.
    pub fn fail_as(&mut self, stage: u16, failure: Failure) -> Result<bool, Refused> {
        let (kind, code) = failure_in(failure);
        // SAFETY: alone, pointers: `h` and what is told to are this call's.
        self.flag(|h, reply| unsafe { sys::cf_desk_fail_as(h, stage, kind, code, reply) })
    }

    /// Cancels a stage, and says whether it is cancelled then.
    pub fn cancel(&mut self, stage: u16) -> Result<bool, Refused> {
        // SAFETY: alone, pointers: `h` and what is told to are this call's.
        self.flag(|h, reply| unsafe { sys::cf_desk_cancel(h, stage, reply) })
    }

    /// Takes a ready stage, whose function is then to be called, and the stage to be finished.
    pub fn claim(&mut self, stage: u16) -> Result<Claimed, Refused> {
        // SAFETY: alone, pointers: `h` and what is told to are this call's.
        self.handle.tell(|h, reply| unsafe { sys::cf_desk_claim(h, stage, reply) }).map(claimed_out)
    }

    /// Finishes a stage that it has claimed with what its function answered. `NO_STAGE`, `PASS_FULL`, `LOG_FULL`.
    pub fn finish(&mut self, stage: u16, answer: Answer) -> Result<Finished, Refused> {
        // SAFETY: alone, pointers: `h` and what is told to are this call's.
        self.handle.tell(|h, reply| unsafe { sys::cf_desk_finish_with(h, stage, &answer_in(answer), reply) }).map(finished_out)
    }

    /// Lets it be this moment, in the unit of the plan's limits.
    pub fn tick(&mut self, now: u32) -> Result<Ticked, Refused> {
        // SAFETY: alone, pointers: `h` and what is told to are this call's.
        self.handle.tell(|h, reply| unsafe { sys::cf_desk_tick(h, now, reply) }).map(ticked_out)
    }

    /// Attaches a stage, and tells its number, or None where no room is left.
    pub fn attach(&mut self, form: Form, of: &[u16], function: Option<u16>) -> Result<Option<u16>, Refused> {
        self.handle
            // SAFETY: alone, pointers: `h` and what is told to are this call's, and `of` points to as many numbers as said.
            .tell(|h, reply| unsafe { sys::cf_desk_attach(h, form as u32, of.as_ptr(), of.len(), function_in(function), reply) })
            .map(attached_out)
    }

    /// Completes stages one after another, up to the first that is refused, and says how many were answered and why that one wasn't:
    /// `NO_STAGE`, `PASS_FULL`, `LOG_FULL`.
    pub fn complete_all(&mut self, given: &[(u16, Value)]) -> (usize, Result<(), Refused>) {
        let given: Vec<_> = given.iter().map(|&(stage, value)| sys::cf_given { stage, value: value_in(value) }).collect();
        let mut done = 0;
        let (first, n, told) = (given.as_ptr(), given.len(), &mut done);
        // SAFETY: alone, pointers: `h` and what is told to are this call's, and `first` points to as many elements as said.
        let answer = self.handle.call(|h| unsafe { sys::cf_desk_complete_many(h, first, n, told) });
        (done, answer)
    }

    /// One step of a caller's loop, in one call: finishes the stage that it holds with this answer, looks, and claims the lowest stage that is
    /// ready then. How the finish went is told, where there was one, and what was claimed, if something is ready. `LOST` where another caller
    /// claimed or settled it first: ask again. `PASS_FULL` and `LOG_FULL`: without a word of the finish the stage is held as it was. `NO_STAGE` and `NOT_HELD`,
    /// where this caller has no open claim of the stage: nothing is changed then.
    pub fn step(&mut self, held: Option<(u16, Answer)>) -> (Option<Finished>, Result<Option<ClaimedStage>, Refused>) {
        let mut task = task_in(held);
        // SAFETY: alone, pointers: `h` and the task are this call's.
        let answer = self.handle.call(|h| unsafe { sys::cf_desk_next(h, &mut task) });
        let Stepped { finished, taken } = step_out(held, &task);
        match answer {
            Ok(()) => (finished, Ok(taken)),
            Err(Refused::NOTHING) => (finished, Ok(None)),
            Err(refused) if task.held == 0 => (finished, Err(refused)),
            Err(refused) => (None, Err(refused)),
        }
    }

    /// What a stage is settled with, if it is, after a look at all that is there.
    pub fn read_outcome(&mut self, stage: u16) -> Result<Option<Outcome>, Refused> {
        // SAFETY: alone, pointers: `h` and what is told to are this call's.
        self.handle.tell(|h, told| unsafe { sys::cf_desk_read(h, stage, told) }).map(outcome_out)
    }

    /// What a stage gives at present, or `absent` where it isn't settled, after a look.
    pub fn read_now(&mut self, stage: u16, absent: Value) -> Result<Now, Refused> {
        // SAFETY: alone, pointers: `h` and what is told to are this call's.
        self.handle.tell(|h, told| unsafe { sys::cf_desk_read_now(h, stage, value_in(absent), told) }).map(now_out)
    }

    /// Looks until the stage is settled, at most so many times, and tells what it gives then: `Absent` where it isn't. The last look is
    /// recorded.
    pub fn join(&mut self, stage: u16, looks: u32) -> Result<Now, Refused> {
        // SAFETY: alone, pointers: `h` and what is told to are this call's.
        self.handle.tell(|h, told| unsafe { sys::cf_desk_join(h, stage, looks, told) }).map(now_out)
    }

    /// The lowest stage that can be claimed, after a look that isn't recorded.
    pub fn lowest_ready(&mut self) -> Result<Option<u16>, Refused> {
        // SAFETY: alone, pointers: `h` and what is told to are this call's.
        if_there(self.handle.tell(|h, told| unsafe { sys::cf_desk_ready(h, told) }))
    }

    /// Lets two callers of one desk see the longer of what either has seen. `OTHER_DESK` leaves both as they were.
    pub fn meet(&mut self, other: &mut Caller) -> Result<(), Refused> {
        if !self.is_of(&other.desk) {
            return Err(Refused::OTHER_DESK);
        }
        // SAFETY: alone, apart, one desk: two handles that are both this call's, of callers whose desks were compared.
        self.handle.call(|h| Refused::code_of(other.handle.call(|o| unsafe { sys::cf_desk_meet(h, o) })))
    }

    /// How many events it has seen.
    pub fn seen_count(&mut self) -> Result<u16, Refused> {
        // SAFETY: alone, pointers: `h` and what is told to are this call's.
        self.handle.tell(|h, told| unsafe { sys::cf_desk_seen(h, told) })
    }

    /// How many records it still takes.
    pub fn records_left(&mut self) -> Result<u16, Refused> {
        // SAFETY: alone, pointers: `h` and what is told to are this call's.
        self.handle.tell(|h, told| unsafe { sys::cf_desk_left(h, told) })
    }

    /// The number of a stage's function, if it has one. The stage is one that the caller has seen.
    pub fn function(&mut self, stage: u16) -> Result<Option<u16>, Refused> {
        // SAFETY: alone, pointers: `h` and what is told to are this call's.
        if_there(self.handle.tell(|h, told| unsafe { sys::cf_desk_function(h, stage, told) }))
    }

    /// Its number: 0, 1, ..
    pub fn number(&self) -> u8 {
        self.number
    }

    /// Claims ready stages, the lowest first, calls `function` with the number of each stage's function and its arguments, and finishes
    /// them, until none is ready: how many. Where `function` panics its stage stays claimed.
    pub fn work(&mut self, mut function: impl FnMut(u16, Args) -> Answer) -> Result<u32, Refused> {
        let mut calls = 0;
        while let Some(stage) = self.lowest_ready()? {
            let number = self.function(stage)?;
            if let (Some(number), Claimed::Granted(args)) = (number, self.claim(stage)?) {
                self.finish(stage, function(number, args))?;
                calls += 1;
            }
        }
        Ok(calls)
    }

    /// Whether it is a caller of this desk. The library looks at the other desk to tell, which nobody may do while that one's callers are at
    /// work, so the two are compared here.
    fn is_of(&self, desk: &Arc<Sizes>) -> bool {
        Arc::ptr_eq(&self.desk, desk)
    }

    fn flag(&mut self, call: impl FnOnce(*mut sys::cf_handle, *mut sys::cf_reply) -> u32) -> Result<bool, Refused> {
        self.handle.tell(call).map(|reply| reply.answer != 0)
    }
}

#[cfg(test)]
mod tests {
    use super::*;

    /// The library isn't asked, which would say that nothing stands behind these handles.
    #[test]
    fn desks_are_compared_first() {
        let of = |desk: &Arc<Sizes>| Caller { handle: Handle::empty(), desk: Arc::clone(desk), number: 0 };
        let desk = || Arc::new(Sizes { callers: 1, log: 1, calls: 1, growth: None });
        let (one, other) = (desk(), desk());
        assert_eq!(of(&one).meet(&mut of(&other)), Err(Refused::OTHER_DESK));
        assert_eq!(Desk(one).close(vec![of(&other)]).unwrap_err().why, Refused::OTHER_DESK);
    }
}
