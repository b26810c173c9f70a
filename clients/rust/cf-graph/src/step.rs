//! Steps of a caller's loop: what it did is finished, and what it is to do next is claimed, in one call.
use crate::values::*;
use cf_sys as sys;

/// What a step did: how the finish went, and what is to be done now.
#[derive(Clone, Copy, PartialEq, Eq, Debug)]
pub struct Stepped {
    /// What the finish was answered, if the caller held something.
    pub finished: Option<Finished>,
    /// What it has claimed, if something was ready.
    pub taken: Option<ClaimedStage>,
}

/// A stage that a step has claimed, the number of its function, and what that is to be called with.
#[derive(Clone, Copy, PartialEq, Eq, Debug)]
pub struct ClaimedStage {
    /// The stage's number.
    pub stage: u16,
    /// The number of its function.
    pub function: u16,
    /// What the function is to be called with.
    pub args: Args,
}

/// A stage that a caller holds, and what its function answered.
#[inline]
pub(crate) fn task_in(held: Option<(u16, Answer)>) -> sys::cf_task {
    let mut task = sys::cf_task::default();
    if let Some((stage, answer)) = held {
        (task.held, task.stage, task.answer) = (1, stage, answer_in(answer));
    }
    task
}

#[inline]
pub(crate) fn taken_out(task: &sys::cf_task) -> Option<ClaimedStage> {
    (task.held != 0).then(|| ClaimedStage { stage: task.stage, function: task.function, args: args_out(&task.args) })
}

/// What a step did that began with this in the caller's hands.
#[inline]
pub(crate) fn step_out(held: Option<(u16, Answer)>, task: &sys::cf_task) -> Stepped {
    Stepped { finished: held.map(|_| finished_of(task.finished)), taken: taken_out(task) }
}
