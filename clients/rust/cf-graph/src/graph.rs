//! A graph, which one owner has alone.
use crate::event::{reply_out, Event};
use crate::handle::Handle;
use crate::plan::{function_in, Form, Plan};
use crate::refused::{if_there, Refused};
use crate::step::{step_out, task_in, Stepped};
use crate::sweep::Sweep;
use crate::values::*;
use cf_sys as sys;

/// The graph of a plan. It may go to another thread, and one call at a time has it.
#[derive(Debug)]
pub struct Graph(pub(crate) Handle);

impl Graph {
    /// Settles a stage with a value, and says whether it did.
    pub fn complete(&mut self, stage: u16, value: Value) -> Result<bool, Refused> {
        // SAFETY: alone, pointers: `h` and what is told to are this call's.
        self.flag(|h, reply| unsafe { sys::cf_complete(h, stage, value_in(value), reply) })
    }

    /// Settles a stage with a thrown code, and says whether it did.
    pub fn fail(&mut self, stage: u16, code: u32) -> Result<bool, Refused> {
        // SAFETY: alone, pointers: `h` and what is told to are this call's.
        self.flag(|h, reply| unsafe { sys::cf_fail(h, stage, code, reply) })
    }

    /// Fails a stage as timed out, or, where it stands in for another, with a bad answer, and says whether it did.
    pub fn fail_as(&mut self, stage: u16, failure: Failure) -> Result<bool, Refused> {
        let (kind, code) = failure_in(failure);
        // SAFETY: alone, pointers: `h` and what is told to are this call's.
        self.flag(|h, reply| unsafe { sys::cf_fail_as(h, stage, kind, code, reply) })
    }

    /// Cancels a stage, and says whether it is cancelled then.
    pub fn cancel(&mut self, stage: u16) -> Result<bool, Refused> {
        // SAFETY: alone, pointers: `h` and what is told to are this call's.
        self.flag(|h, reply| unsafe { sys::cf_cancel(h, stage, reply) })
    }

    /// Takes a ready stage for a caller, who then calls its function and finishes the stage.
    pub fn claim(&mut self, who: u8, stage: u16) -> Result<Claimed, Refused> {
        // SAFETY: alone, pointers: `h` and what is told to are this call's.
        self.0.tell(|h, reply| unsafe { sys::cf_claim(h, who, stage, reply) }).map(claimed_out)
    }

    /// Finishes a stage that a caller has claimed with what its function answered. `NO_STAGE`.
    pub fn finish(&mut self, who: u8, stage: u16, answer: Answer) -> Result<Finished, Refused> {
        // SAFETY: alone, pointers: `h` and what is told to are this call's.
        self.0.tell(|h, reply| unsafe { sys::cf_finish_with(h, who, stage, &answer_in(answer), reply) }).map(finished_out)
    }

    /// Lets it be this moment, in the unit of the plan's limits.
    pub fn tick(&mut self, now: u32) -> Result<Ticked, Refused> {
        // SAFETY: alone, pointers: `h` and what is told to are this call's.
        self.0.tell(|h, reply| unsafe { sys::cf_tick(h, now, reply) }).map(ticked_out)
    }

    /// Attaches a stage, and tells its number, or None where no room is left.
    pub fn attach(&mut self, form: Form, of: &[u16], function: Option<u16>) -> Result<Option<u16>, Refused> {
        // SAFETY: alone, pointers: `h` and what is told to are this call's, and `of` points to as many numbers as said.
        self.0.tell(|h, reply| unsafe { sys::cf_attach(h, form as u32, of.as_ptr(), of.len(), function_in(function), reply) }).map(attached_out)
    }

    /// What a stage is settled with, if it is.
    pub fn outcome(&mut self, stage: u16) -> Result<Option<Outcome>, Refused> {
        // SAFETY: alone, pointers: `h` and what is told to are this call's.
        self.0.tell(|h, told| unsafe { sys::cf_get(h, stage, told) }).map(outcome_out)
    }

    /// What a stage gives at present, or `absent` where it isn't settled.
    pub fn value_now(&mut self, stage: u16, absent: Value) -> Result<Now, Refused> {
        // SAFETY: alone, pointers: `h` and what is told to are this call's.
        self.0.tell(|h, told| unsafe { sys::cf_get_now(h, stage, value_in(absent), told) }).map(now_out)
    }

    /// The lowest stage that can be claimed, if there is one.
    pub fn lowest_ready(&mut self) -> Result<Option<u16>, Refused> {
        // SAFETY: alone, pointers: `h` and what is told to are this call's.
        if_there(self.0.tell(|h, told| unsafe { sys::cf_lowest_ready(h, told) }))
    }

    /// The number of a stage's function, if it has one.
    pub fn function(&mut self, stage: u16) -> Result<Option<u16>, Refused> {
        // SAFETY: alone, pointers: `h` and what is told to are this call's.
        if_there(self.0.tell(|h, told| unsafe { sys::cf_function(h, stage, told) }))
    }

    /// How many stages there are by now.
    pub fn stage_count(&mut self) -> Result<u16, Refused> {
        // SAFETY: alone, pointers: `h` and what is told to are this call's.
        self.0.tell(|h, told| unsafe { sys::cf_stages(h, told) })
    }

    /// How many turns were taken since the graph was opened or last restarted.
    pub fn turn_count(&mut self) -> Result<u64, Refused> {
        // SAFETY: alone, pointers: `h` and what is told to are this call's.
        self.0.tell(|h, told| unsafe { sys::cf_turns(h, told) })
    }

    /// Does the event of a word, and gives its reply.
    pub fn apply(&mut self, word: u64) -> Result<Reply, Refused> {
        let event = Event::from_word(word)?;
        // SAFETY: alone, pointers: `h` and what is told to are this call's.
        self.0.tell(|h, told| unsafe { sys::cf_apply(h, word, told) }).map(|reply| reply_out(event.call, reply))
    }

    /// Starts again, as the graph was opened.
    pub fn restart(&mut self) -> Result<(), Refused> {
        // SAFETY: alone: `h` is this call's.
        self.0.call(|h| unsafe { sys::cf_restart(h) })
    }

    /// Starts again, and then completes these stages, one after another: a request by a plan that is there. `NO_STAGE`, whereupon nothing is
    /// done.
    pub fn restart_with(&mut self, given: &[(u16, Value)]) -> Result<(), Refused> {
        let given: Vec<_> = given.iter().map(|&(stage, value)| sys::cf_given { stage, value: value_in(value) }).collect();
        // SAFETY: alone, pointers: `h` is this call's, and `given` points to as many elements as said.
        self.0.call(|h| unsafe { sys::cf_restart_with(h, given.as_ptr(), given.len()) })
    }

    /// The plan as the graph was opened. `NO_MEMORY`.
    pub fn plan(&mut self) -> Result<Plan, Refused> {
        let mut plan = Handle::empty();
        // SAFETY: alone, apart: two handles, and both are this call's.
        self.0.call(|h| Refused::code_of(plan.call(|plan| unsafe { sys::cf_plan_of(h, plan) })))?;
        Ok(Plan(plan))
    }

    /// One step of a caller's loop, in one call: finishes the stage that it holds with this answer, and claims the lowest ready one. `NO_STAGE`,
    /// and `NOT_HELD` where this caller has no open claim of it: nothing is changed then.
    ///
    /// ```
    /// use cf_graph::{Answer, Args, Finished, Form, PlanBuilder, Value};
    /// # fn main() -> Result<(), cf_graph::Refused> {
    /// let mut builder = PlanBuilder::new()?;
    /// builder.stage(Form::Supply, &[], Some(7))?;
    /// let mut graph = builder.build()?.graph(0)?;
    /// let taken = graph.step(3, None)?.taken.unwrap();
    /// assert_eq!((taken.stage, taken.function, taken.args), (0, 7, Args::None));
    /// let last = graph.step(3, Some((0, Answer::Give(Value::Int(1)))))?;
    /// assert_eq!((last.finished, last.taken), (Some(Finished::Won), None));
    /// # Ok(())
    /// # }
    /// ```
    pub fn step(&mut self, who: u8, held: Option<(u16, Answer)>) -> Result<Stepped, Refused> {
        let mut task = task_in(held);
        // SAFETY: alone, pointers: `h` and the task are this call's.
        match self.0.call(|h| unsafe { sys::cf_next(h, who, &mut task) }) {
            Ok(()) | Err(Refused::NOTHING) => Ok(step_out(held, &task)),
            Err(refused) => Err(refused),
        }
    }

    /// A step for several tasks of one caller: finishes what each holds, one after another, and then each in turn claims the lowest ready stage.
    /// `NotYours` is told where a task before it held the same stage. `NO_STAGE` and `NOT_HELD` of the first that can't be finished: nothing is
    /// changed then.
    ///
    /// ```
    /// use cf_graph::{Answer, Form, PlanBuilder, Value};
    /// # fn main() -> Result<(), cf_graph::Refused> {
    /// let mut builder = PlanBuilder::new()?;
    /// builder.stage(Form::Supply, &[], Some(7))?;
    /// builder.stage(Form::Supply, &[], Some(8))?;
    /// let mut graph = builder.build()?.graph(0)?;
    /// let steps = graph.step_all(3, &[None, None, None])?;
    /// assert_eq!(steps.iter().map(|step| step.taken.map(|taken| taken.stage)).collect::<Vec<_>>(), [Some(0), Some(1), None]);
    /// # Ok(())
    /// # }
    /// ```
    pub fn step_all(&mut self, who: u8, held: &[Option<(u16, Answer)>]) -> Result<Vec<Stepped>, Refused> {
        let mut tasks: Vec<_> = held.iter().copied().map(task_in).collect();
        let (first, n) = (tasks.as_mut_ptr(), tasks.len());
        // SAFETY: alone, pointers: `h` is this call's, and `first` points to as many tasks as said.
        match self.0.call(|h| unsafe { sys::cf_round(h, who, first, n) }) {
            Ok(()) | Err(Refused::NOTHING) => Ok(held.iter().zip(&tasks).map(|(held, task)| step_out(*held, task)).collect()),
            Err(refused) => Err(refused),
        }
    }

    /// Makes it a sweep, which takes no other call until it ends as the graph.
    pub fn sweep(self) -> Result<Sweep, Refused> {
        Sweep::over(self)
    }

    /// Claims ready stages, the lowest first, calls `function` with the number of each stage's function and its arguments, and finishes
    /// them, until none is ready: how many. Where `function` panics its stage stays claimed.
    pub fn work(&mut self, who: u8, mut function: impl FnMut(u16, Args) -> Answer) -> Result<u32, Refused> {
        let (mut calls, mut held) = (0, None);
        while let Some(taken) = self.step(who, held)?.taken {
            held = Some((taken.stage, function(taken.function, taken.args)));
            calls += 1;
        }
        Ok(calls)
    }

    fn flag(&mut self, call: impl FnOnce(*mut sys::cf_handle, *mut sys::cf_reply) -> u32) -> Result<bool, Refused> {
        self.0.tell(call).map(|reply| reply.answer != 0)
    }
}
