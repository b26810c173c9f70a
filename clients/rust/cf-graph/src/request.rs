//! Requests: a ledger that also says what to do next, and tells each settled stage once.
use crate::event::reply_of_word;
use crate::handle::Handle;
use crate::ledger::{self, Stage};
use crate::plan::{limit_in, Form, Limit, Plan};
use crate::refused::{if_there, Refused};
use crate::step::{step_out, taken_out, task_in, Stepped};
use crate::values::*;
use cf_sys as sys;

/// One request of a service as a machine. It decides what to do for the request, and does none of it: it has no thread, no clock and no lock. Its
/// host is the program that tells it what happened, and does what it says. It goes to any thread, and is in one call at a time, since each takes it
/// by `&mut`: threads share it behind a `Mutex`.
///
/// Each call that changes stages or deadlines writes down what its host has to do next: [`Todo`].
///
/// ```
/// use cf_graph::{Answer, Args, Call, Event, Form, Of, PlanBuilder, Request, RequestSizes, Value};
/// # fn main() -> Result<(), cf_graph::Refused> {
/// let mut plan = PlanBuilder::new()?.build()?;
/// let mut request = Request::new(&mut plan, RequestSizes { room: 2, lanes: 1, own: 63 }, &[])?;
/// request.apply(Event { who: 0, call: Call::Attach(Form::Supply, Of::None, Some(5)) }.word()?, 0)?;
/// request.apply(Event { who: 0, call: Call::Attach(Form::Apply, Of::One(0), Some(6)) }.word()?, 0)?;
/// assert_eq!(request.todo().wanted(0), 1);
/// request.start_jobs(0, 1);
/// // The host starts a job, which comes, and steps until nothing is ready.
/// request.begin_job(0);
/// let first = request.claim_next(3, 0, None)?.taken.unwrap();
/// assert_eq!((first.stage, first.function, first.args), (0, 5, Args::None));
/// let second = request.claim_next(3, 0, Some((0, Answer::Give(Value::Int(7)))))?.taken.unwrap();
/// assert_eq!((second.stage, second.args), (1, Args::One(Value::Int(7))));
/// assert_eq!(request.todo().settled().map(|told| told.stage).collect::<Vec<_>>(), [0]);
/// # Ok(())
/// # }
/// ```
#[derive(Debug)]
pub struct Request {
    handle: Handle,
    todo: Todo,
}

/// The sizes of a request.
#[derive(Clone, Copy, PartialEq, Eq, Debug)]
pub struct RequestSizes {
    /// The room for stages that are attached later.
    pub room: u16,
    /// The number of lanes, 1 to 16. The caller that runs a lane calls the functions of its stages.
    pub lanes: u8,
    /// The caller in whose name the request itself settles stages, 0 to 63.
    pub own: u8,
}

/// A moment by which a stage is to be settled, and the limit that settles it otherwise.
#[derive(Clone, Copy, PartialEq, Eq, Debug)]
pub struct Deadline {
    /// The stage's number.
    pub stage: u16,
    /// The moment, in a unit of your choice.
    pub moment: u64,
    /// The limit.
    pub limit: Limit,
}

/// A stage that was settled, as it is told.
#[derive(Clone, Copy, PartialEq, Eq, Debug)]
pub struct SettledStage {
    /// The stage's number.
    pub stage: u16,
    /// Its outcome.
    pub outcome: Outcome,
    /// The caller that still runs its function, since the stage was settled otherwise than by its finish, which comes too late. The host may stop
    /// the function.
    pub stop: Option<u8>,
}

/// What the host of a request has to do next, as the last call that changes stages or deadlines has left it: it tells the stages that were settled,
/// starts jobs, and sets its one alarm. A call that is refused leaves the jobs and the moment as they were.
///
/// ```
/// use cf_graph::{Call, Event, Form, Limit, Of, PlanBuilder, Request, RequestSizes};
/// # fn main() -> Result<(), cf_graph::Refused> {
/// let sizes = RequestSizes { room: 2, lanes: 1, own: 63 };
/// let mut request = Request::new(&mut PlanBuilder::new()?.build()?, sizes, &[])?;
/// for function in 0..2 {
///     request.apply(Event { who: 0, call: Call::Attach(Form::Supply, Of::None, Some(function)) }.word()?, 0)?;
/// }
/// assert_eq!(request.todo().wanted(0), 2);
/// request.start_jobs(0, 1); // (the host has one thread)
/// assert_eq!(request.todo().wanted(0), 1);
/// request.set_deadline(0, 5_000, Limit::Timeout(7))?;
/// assert!(request.todo().has_new_moment());
/// assert_eq!(request.todo().next_moment(), Some(5_000));
/// request.begin_job(0); // (the thread comes)
/// assert_eq!(request.claim_next(3, 0, None)?.taken.unwrap().stage, 0);
/// request.pass_time_to(5_000)?;
/// let late = request.todo().settled_at(0);
/// assert_eq!((late.stage, late.stop), (0, Some(3)));
/// assert!(request.todo().has_new_moment() && request.todo().next_moment().is_none());
/// # Ok(())
/// # }
/// ```
#[derive(Debug, Default)]
pub struct Todo {
    settled: Vec<sys::cf_told>,
    rest: sys::cf_todo,
}

/// The room for settled stages at first. The rest is asked for at once, with more room.
const ROOM: usize = 16;

impl Todo {
    /// The number of stages that the call settled.
    #[inline]
    pub fn settled_count(&self) -> usize {
        self.settled.len()
    }

    /// The settled stage at an index.
    ///
    /// # Panics
    ///
    /// If there are no more than `at`.
    #[inline]
    pub fn settled_at(&self, at: usize) -> SettledStage {
        settled_stage_out(&self.settled[at])
    }

    /// The stages that the call settled. Each is told once, in the order of the events that settled them; those of one event rise.
    #[inline]
    pub fn settled(&self) -> impl ExactSizeIterator<Item = SettledStage> + '_ {
        self.settled.iter().map(settled_stage_out)
    }

    /// The number of jobs of a lane to start: so many of its stages are ready beyond the jobs that are on their way. The host starts them, or fewer,
    /// and then says so by [`start_jobs`](Request::start_jobs).
    ///
    /// # Panics
    ///
    /// If `lane` is above 15.
    #[inline]
    pub fn wanted(&self, lane: u8) -> u16 {
        self.rest.ready[usize::from(lane)]
    }

    /// The number of jobs of a lane that are on their way.
    ///
    /// # Panics
    ///
    /// If `lane` is above 15.
    #[inline]
    pub fn coming(&self, lane: u8) -> u16 {
        self.rest.jobs[usize::from(lane)]
    }

    /// The moment to which [`pass_time_to`](Request::pass_time_to) is due next, if a stage that is open has a deadline. The host sets its alarm to it,
    /// or drops the alarm.
    #[inline]
    pub fn next_moment(&self) -> Option<u64> {
        (self.rest.moment != sys::CF_NEVER).then_some(self.rest.moment)
    }

    /// Whether that moment isn't what it was before the call.
    #[inline]
    pub fn has_new_moment(&self) -> bool {
        self.rest.news & sys::CF_NEWS_MOMENT != 0
    }

    /// Whether there is nothing to do: no stage to tell, no job to start, and no alarm to set.
    #[inline]
    pub fn is_empty(&self) -> bool {
        self.settled.is_empty() && self.rest.news == 0
    }
}

/// A caller's claimed stage, the arguments of its function, and then its answer. One serves all steps of a caller. It is empty before the first step,
/// and then holds what the last step claimed.
#[derive(Debug, Default)]
pub struct Task(sys::cf_task);

impl Task {
    /// The claimed stage, if there is one.
    #[inline]
    pub fn stage(&self) -> Option<u16> {
        (self.0.held != 0).then_some(self.0.stage)
    }

    /// The arguments of the claimed stage's function.
    #[inline]
    pub fn args(&self) -> Args {
        args_out(&self.0.args)
    }

    /// Sets the function's answer, with which the next step finishes the stage.
    #[inline]
    pub fn set_answer(&mut self, answer: Answer) {
        self.0.answer = answer_in(answer);
    }

    /// The result of the last step's finish.
    #[inline]
    pub fn last_finish(&self) -> Finished {
        finished_of(self.0.finished)
    }

    /// Empties it, since another call finishes the stage.
    #[inline]
    pub fn clear(&mut self) {
        self.0.held = 0;
    }
}

impl Request {
    /// Opens a request of the plan, with the lanes of the plan's stages. Nothing follows, nothing is due, and the moment is
    /// 0. `LANES`, `NO_LANE`, `NO_WORD` where `own` is above 63, `ROOM`, `NO_MEMORY`.
    pub fn new(plan: &mut Plan, sizes: RequestSizes, lanes: &[u8]) -> Result<Request, Refused> {
        let sizes = sys::cf_request_sizes { room: sizes.room, lanes: sizes.lanes, own: sizes.own };
        let (first, n, mut handle) = (lanes.as_ptr(), lanes.len(), Handle::empty());
        plan.0.call(|plan| {
            // SAFETY: alone, apart, pointers: two handles, and both are this call's; `sizes` is a local, and `first` points to n numbers.
            Refused::code_of(handle.call(|h| unsafe { sys::cf_request_new(plan, &sizes, first, n, h) }))
        })?;
        Ok(Request { handle, todo: Todo::default() })
    }

    /// What the host has to do next.
    #[inline]
    pub fn todo(&self) -> &Todo {
        &self.todo
    }

    /// So many jobs of a lane are started, each of which calls [`begin_job`](Request::begin_job) once it comes.
    ///
    /// # Panics
    ///
    /// If more are on their way than a number says, or `lane` is above 15.
    #[inline]
    pub fn start_jobs(&mut self, lane: u8, count: u16) {
        let (lane, todo) = (usize::from(lane), &mut self.todo.rest);
        todo.jobs[lane] = todo.jobs[lane].checked_add(count).expect("so many jobs are on their way");
        todo.ready[lane] = todo.ready[lane].saturating_sub(count);
    }

    /// A job of a lane has come, and takes its first step now. It isn't on its way any more, nor is it while it runs functions.
    ///
    /// # Panics
    ///
    /// If none is on its way, or `lane` is above 15.
    #[inline]
    pub fn begin_job(&mut self, lane: u8) {
        let jobs = &mut self.todo.rest.jobs[usize::from(lane)];
        *jobs = jobs.checked_sub(1).expect("a job is on its way");
    }

    /// Makes a call that tells: where to, for how many there is room, and what is to be done. What there was no room for is taken behind it. It is
    /// always in line, as the calls of each stage are, so that no more is read of C's reply than is asked of it.
    #[inline(always)]
    fn call(&mut self, call: impl FnOnce(*mut sys::cf_handle, *mut sys::cf_told, usize, *mut sys::cf_todo) -> u32) -> Result<(), Refused> {
        let Todo { settled, rest } = &mut self.todo;
        if settled.capacity() == 0 {
            make_room(settled);
        }
        settled.clear();
        // A call that is refused writes nothing.
        (rest.told, rest.news) = (0, 0);
        let (told, room) = (settled.as_mut_ptr(), settled.capacity());
        let answer = self.handle.call(|h| call(h, told, room, rest));
        // SAFETY: pointers: the call has written as many of the elements for which there is room.
        unsafe { settled.set_len(rest.told.min(room)) };
        if rest.told > room {
            self.tell_more()?;
        }
        answer
    }

    /// Takes what there was no room for.
    #[cold]
    fn tell_more(&mut self) -> Result<(), Refused> {
        let Todo { settled, rest } = &mut self.todo;
        let news = rest.news;
        settled.reserve(rest.told - settled.len());
        let more = settled.spare_capacity_mut();
        let (told, room) = (more.as_mut_ptr().cast(), more.len());
        // SAFETY: alone, pointers: `h` and what is told to are this call's, and `told` points to as many elements as said.
        self.handle.call(|h| unsafe { sys::cf_request_told(h, told, room, rest) })?;
        // The moment is what the call before has left.
        rest.news |= news;
        // SAFETY: pointers: the call has written as many behind the others.
        unsafe { settled.set_len(settled.len() + rest.told.min(room)) };
        Ok(())
    }

    /// Does the event of a word as a ledger does, and settles the stages that follow one that is settled now. A stage that it attaches is of this
    /// lane. `NO_LANE`, `NO_WORD`, `NO_STAGE`, `NO_ROOM`, `NO_MEMORY`: nothing is changed then.
    #[inline(always)]
    pub fn apply(&mut self, word: u64, lane: u8) -> Result<Reply, Refused> {
        let mut reply = sys::cf_reply::default();
        let to = &mut reply;
        // SAFETY: alone, pointers: `h` and what is told to are this call's, and `told` points to as many elements as said.
        self.call(|h, told, room, todo| unsafe { sys::cf_request_apply(h, word, lane, to, told, room, todo) })?;
        Ok(reply_of_word(word, reply))
    }

    /// Attaches a stage that waits for all of these stages, or for one of them, whatever their number, by a caller: [`Form::AllOf`] or
    /// [`Form::AnyOf`]. n stages are gathered by n - 1, at least one; the number of the last is given, and it settles as one stage of the form
    /// behind all of these would. All are attached, or none is and nothing is changed: `NO_SUCH_NUMBER` where the form is another, `NO_WORD` where
    /// `who` is above 63, `NO_STAGE`, `NO_ROOM`, `NO_MEMORY`.
    ///
    /// ```
    /// use cf_graph::{Call, Event, Form, Of, Outcome, PlanBuilder, Request, RequestSizes, Value};
    /// # fn main() -> Result<(), cf_graph::Refused> {
    /// let sizes = RequestSizes { room: 5, lanes: 1, own: 63 };
    /// let mut request = Request::new(&mut PlanBuilder::new()?.build()?, sizes, &[])?;
    /// for _ in 0..3 {
    ///     request.apply(Event { who: 0, call: Call::Attach(Form::Source, Of::None, None) }.word()?, 0)?;
    /// }
    /// assert_eq!(request.gather(0, Form::AnyOf, &[0, 1, 2])?, 4);
    /// request.apply(Event { who: 0, call: Call::Complete(2, Value::Int(7)) }.word()?, 0)?;
    /// assert!(request.todo().settled().map(|told| (told.stage, told.outcome)).eq([2, 4].map(|stage| (stage, Outcome::Value(Value::Int(7))))));
    /// # Ok(())
    /// # }
    /// ```
    pub fn gather(&mut self, who: u8, form: Form, sources: &[u16]) -> Result<u16, Refused> {
        let mut step = sys::cf_request_gathering { who, form: form as u32, ..Default::default() };
        let (first, many, to) = (sources.as_ptr(), sources.len(), &mut step);
        // SAFETY: alone, pointers: `h` and what is told to are this call's, and `first` and `told` point to as many elements as said.
        self.call(|h, told, room, todo| unsafe { sys::cf_request_gather(h, to, first, many, told, room, todo) })?;
        Ok(step.root)
    }

    /// One step of a caller of a lane: finishes the stage that it holds with this answer, settles the stages that follow one that is settled now,
    /// and claims the lowest ready stage of the lane. `NO_LANE`, `NO_WORD` where `who` is above 63, `NO_STAGE`, `NOT_HELD`, `NO_MEMORY`: nothing is
    /// changed then.
    pub fn claim_next(&mut self, who: u8, lane: u8, held: Option<(u16, Answer)>) -> Result<Stepped, Refused> {
        let mut task = Task(task_in(held));
        self.step(who, lane, &mut task)?;
        Ok(step_out(held, &task.0))
    }

    /// The same, with what the caller has in its hands, and then has.
    ///
    /// ```
    /// use cf_graph::{Answer, Call, Event, Finished, Form, Of, PlanBuilder, Request, RequestSizes, Task, Value};
    /// # fn main() -> Result<(), cf_graph::Refused> {
    /// let sizes = RequestSizes { room: 1, lanes: 1, own: 63 };
    /// let mut request = Request::new(&mut PlanBuilder::new()?.build()?, sizes, &[])?;
    /// request.apply(Event { who: 0, call: Call::Attach(Form::Supply, Of::None, Some(0)) }.word()?, 0)?;
    /// let mut task = Task::default();
    /// request.step(3, 0, &mut task)?;
    /// assert_eq!(task.stage(), Some(0));
    /// task.set_answer(Answer::Give(Value::Int(7)));
    /// request.step(3, 0, &mut task)?;
    /// assert_eq!((task.last_finish(), task.stage(), request.todo().settled_at(0).stage), (Finished::Won, None, 0));
    /// # Ok(())
    /// # }
    /// ```
    #[inline(always)]
    pub fn step(&mut self, who: u8, lane: u8, task: &mut Task) -> Result<(), Refused> {
        let task = &mut task.0;
        // SAFETY: alone, pointers: `h` and what is told to are this call's, and `told` points to as many elements as said.
        match self.call(|h, told, room, todo| unsafe { sys::cf_request_next(h, who, lane, task, told, room, todo) }) {
            Err(Refused::NOTHING) => Ok(()),
            answer => answer,
        }
    }

    /// From now on a stage ends as another stage of the request does, unless it is settled before: with the same value, or the same cause and code.
    /// `NO_STAGE`, `NO_MEMORY`.
    pub fn follow(&mut self, relay: u16, stage: u16) -> Result<(), Refused> {
        // SAFETY: alone, pointers: `h` and what is told to are this call's, and `told` points to as many elements as said.
        self.call(|h, told, room, todo| unsafe { sys::cf_request_follow(h, relay, stage, told, room, todo) })
    }

    /// From now on a stage ends as soon as it is decided what these stages come to, unless it is settled before: with a value once so many of them
    /// have values as are wanted, that one's if one is wanted, else nil; with the same cause and code as the last to fail once the others are too
    /// few. One that stands twice counts twice. `NO_QUORUM` where none is wanted or more than there are, `NO_STAGE`, `NO_MEMORY`.
    ///
    /// ```
    /// use cf_graph::{Call, Event, Form, Of, Outcome, PlanBuilder, Request, RequestSizes, Value};
    /// # fn main() -> Result<(), cf_graph::Refused> {
    /// let sizes = RequestSizes { room: 3, lanes: 1, own: 63 };
    /// let mut request = Request::new(&mut PlanBuilder::new()?.build()?, sizes, &[])?;
    /// for _ in 0..3 {
    ///     request.apply(Event { who: 0, call: Call::Attach(Form::Source, Of::None, None) }.word()?, 0)?;
    /// }
    /// request.join(2, 1, &[0, 1])?;
    /// request.apply(Event { who: 0, call: Call::Fail(0, 7) }.word()?, 0)?;
    /// request.apply(Event { who: 0, call: Call::Complete(1, Value::Int(8)) }.word()?, 0)?;
    /// assert!(request.todo().settled().map(|told| (told.stage, told.outcome)).eq([1, 2].map(|stage| (stage, Outcome::Value(Value::Int(8))))));
    /// # Ok(())
    /// # }
    /// ```
    pub fn join(&mut self, stage: u16, wanted: u16, sources: &[u16]) -> Result<(), Refused> {
        self.join_by(sys::cf_request_joining { stage, wanted, cancels: 0 }, sources)
    }

    /// From now on a stage is cancelled as soon as another one is settled, unless it is settled before. So a source is a scope, and the stages that
    /// it cancels are of this scope: docs/C.md. `NO_STAGE`, `NO_MEMORY`.
    ///
    /// ```
    /// use cf_graph::{Call, Cause, Event, Form, Of, Outcome, PlanBuilder, Request, RequestSizes};
    /// # fn main() -> Result<(), cf_graph::Refused> {
    /// let sizes = RequestSizes { room: 2, lanes: 1, own: 63 };
    /// let mut request = Request::new(&mut PlanBuilder::new()?.build()?, sizes, &[])?;
    /// for _ in 0..2 {
    ///     request.apply(Event { who: 0, call: Call::Attach(Form::Source, Of::None, None) }.word()?, 0)?;
    /// }
    /// request.cancel_with(1, 0)?;
    /// request.apply(Event { who: 0, call: Call::Cancel(0) }.word()?, 0)?;
    /// let cancelled = Outcome::Fault { cause: Cause::Cancelled, wrapped: false };
    /// assert!(request.todo().settled().map(|told| (told.stage, told.outcome)).eq([0, 1].map(|stage| (stage, cancelled))));
    /// # Ok(())
    /// # }
    /// ```
    pub fn cancel_with(&mut self, stage: u16, of: u16) -> Result<(), Refused> {
        self.join_by(sys::cf_request_joining { stage, wanted: 1, cancels: 1 }, &[of])
    }

    fn join_by(&mut self, step: sys::cf_request_joining, sources: &[u16]) -> Result<(), Refused> {
        let (first, many) = (sources.as_ptr(), sources.len());
        // SAFETY: alone, pointers: `h` and what is told to are this call's, and `first` and `told` point to as many elements as said.
        self.call(|h, told, room, todo| unsafe { sys::cf_request_join(h, &step, first, many, told, room, todo) })
    }

    /// Sets a moment by which a stage has to be settled: [`pass_time_to`](Request::pass_time_to) does this to it if it is open then. `NO_STAGE`,
    /// `NO_MEMORY`.
    pub fn set_deadline(&mut self, stage: u16, moment: u64, limit: Limit) -> Result<(), Refused> {
        let (kind, code, value) = limit_in(limit);
        let Todo { settled, rest } = &mut self.todo;
        settled.clear();
        rest.news = 0;
        // SAFETY: alone, pointers: `h` and what is told to are this call's.
        self.handle.call(|h| unsafe { sys::cf_request_deadline(h, stage, moment, kind, code, value, rest) })
    }

    /// Passes time to a moment: all open stages whose deadline has come are settled, in the order of their moments, and those of one
    /// moment in the order in which the deadlines were set. `PAST_MOMENT` where it is before the last one, `NO_MEMORY`.
    ///
    /// ```
    /// use cf_graph::{Call, Cause, Event, Form, Limit, Of, Outcome, PlanBuilder, Request, RequestSizes};
    /// # fn main() -> Result<(), cf_graph::Refused> {
    /// let sizes = RequestSizes { room: 1, lanes: 1, own: 63 };
    /// let mut request = Request::new(&mut PlanBuilder::new()?.build()?, sizes, &[])?;
    /// request.apply(Event { who: 0, call: Call::Attach(Form::Source, Of::None, None) }.word()?, 0)?;
    /// request.set_deadline(0, 5_000, Limit::Timeout(7))?;
    /// assert_eq!(request.next_deadline()?.map(|next| next.moment), Some(5_000));
    /// request.pass_time_to(5_000)?;
    /// assert_eq!(request.todo().settled_at(0).outcome, Outcome::Fault { cause: Cause::TimedOut(7), wrapped: false });
    /// assert_eq!(request.next_deadline()?, None);
    /// # Ok(())
    /// # }
    /// ```
    pub fn pass_time_to(&mut self, moment: u64) -> Result<(), Refused> {
        // SAFETY: alone, pointers: `h` and what is told to are this call's, and `told` points to as many elements as said.
        self.call(|h, told, room, todo| unsafe { sys::cf_request_pass(h, moment, told, room, todo) })
    }

    /// The deadline that comes next, of those whose stage is open.
    pub fn next_deadline(&mut self) -> Result<Option<Deadline>, Refused> {
        // SAFETY: alone, pointers: `h` and what is told to are this call's.
        let next = self.handle.tell(|h, told: *mut sys::cf_deadline| unsafe { sys::cf_request_next_deadline(h, told) });
        let limit = |next: sys::cf_deadline| match next.kind {
            sys::CF_GIVE_VALUE => Limit::Give(value_out(next.value)),
            _ => Limit::Timeout(next.code),
        };
        Ok(if_there(next)?.map(|next| Deadline { stage: next.stage, moment: next.moment, limit: limit(next) }))
    }

    /// Refuses a lane that no caller runs any more: its ready stages fail with this code, and so do those that become ready by that. `NO_LANE`,
    /// `NO_MEMORY`.
    pub fn refuse_lane(&mut self, lane: u8, code: u32) -> Result<(), Refused> {
        // SAFETY: alone, pointers: `h` and what is told to are this call's, and `told` points to as many elements as said.
        self.call(|h, told, room, todo| unsafe { sys::cf_request_refuse(h, lane, code, told, room, todo) })
    }

    /// Cancels all stages that are open, from the lowest on, by words of a caller. `NO_WORD` where `who` is above 63, `NO_MEMORY`.
    pub fn cancel_all(&mut self, who: u8) -> Result<(), Refused> {
        // SAFETY: alone, pointers: `h` and what is told to are this call's, and `told` points to as many elements as said.
        self.call(|h, told, room, todo| unsafe { sys::cf_request_cancel_all(h, who, told, room, todo) })
    }

    /// Tells the stages that are settled and weren't told: those that were settled as it was opened or restarted.
    pub fn tell_rest(&mut self) -> Result<(), Refused> {
        // SAFETY: alone, pointers: `h` and what is told to are this call's, and `told` points to as many elements as said.
        self.call(|h, told, room, todo| unsafe { sys::cf_request_told(h, told, room, todo) })
    }

    /// The number of a lane's ready stages. `NO_LANE`.
    #[inline]
    pub fn ready_count(&mut self, lane: u8) -> Result<u16, Refused> {
        // SAFETY: alone, pointers: `h` and what is told to are this call's.
        self.handle.tell(|h, told| unsafe { sys::cf_request_ready(h, lane, told) })
    }

    /// Makes calls one after another, each as it is made alone, up to the first that is refused, and tells once. Its refusal where one is refused:
    /// those before it are made then, [`done_count`](Calls::done_count) of them, and what they settled is told.
    ///
    /// ```
    /// use cf_graph::{Answer, Call, Calls, Event, Form, Of, PlanBuilder, Reply, Request, RequestSizes, Value};
    /// # fn main() -> Result<(), cf_graph::Refused> {
    /// let sizes = RequestSizes { room: 1, lanes: 1, own: 63 };
    /// let mut request = Request::new(&mut PlanBuilder::new()?.build()?, sizes, &[])?;
    /// let mut calls = Calls::default();
    /// calls.apply(Event { who: 0, call: Call::Attach(Form::Supply, Of::None, Some(0)) }.word()?, 0);
    /// calls.claim_next(3, 0, None);
    /// calls.claim_next(3, 0, Some((0, Answer::Give(Value::Int(7)))));
    /// request.run(&mut calls)?;
    /// assert_eq!(calls.reply(0), Reply::Attached(Some(0)));
    /// assert_eq!((calls.step(1).taken.unwrap().stage, calls.step(2).taken, request.todo().settled_at(0).stage), (0, None, 0));
    /// # Ok(())
    /// # }
    /// ```
    #[inline]
    pub fn run(&mut self, calls: &mut Calls) -> Result<(), Refused> {
        let (first, many, done) = (calls.rows.as_mut_ptr(), calls.rows.len(), &mut calls.done);
        *done = 0;
        // SAFETY: alone, pointers: `h` and what is told to are this call's, and `first` and `told` point to as many elements as said.
        self.call(|h, told, room, todo| unsafe { sys::cf_request_do(h, first, many, done, told, room, todo) })
    }

    /// Makes room for more stages, by doing all words again: for as many more as there are by now, and for 16 more at least, as far as the bounds let
    /// them in. Nothing else changes. `ROOM` if not even one more could come, `NO_MEMORY`.
    pub fn grow(&mut self) -> Result<(), Refused> {
        // SAFETY: alone: `h` is this call's.
        self.handle.call(|h| unsafe { sys::cf_request_grow(h) })
    }

    /// Starts again as it was opened, with the memory that it has. No job is on its way then.
    pub fn restart(&mut self) -> Result<(), Refused> {
        // SAFETY: alone: `h` is this call's.
        self.handle.call(|h| unsafe { sys::cf_request_restart(h) })?;
        self.todo.settled.clear();
        self.todo.rest = sys::cf_todo::default();
        Ok(())
    }

    /// The words of all that was done, in their one order, also of what the request settled itself.
    pub fn words(&mut self) -> Result<Vec<u64>, Refused> {
        ledger::words(&mut self.handle)
    }

    /// The number of these words.
    pub fn word_count(&mut self) -> Result<usize, Refused> {
        ledger::word_count(&mut self.handle)
    }

    /// The state of a stage. `NO_STAGE`.
    pub fn stage(&mut self, stage: u16) -> Result<Stage, Refused> {
        ledger::stage(&mut self.handle, stage)
    }

    /// The number of stages.
    pub fn stage_count(&mut self) -> Result<u16, Refused> {
        ledger::stage_count(&mut self.handle)
    }

    /// The lowest ready stage from this number on, of any lane.
    pub fn lowest_ready(&mut self, from: u16) -> Result<Option<u16>, Refused> {
        ledger::lowest_ready(&mut self.handle, from)
    }
}

/// Calls of a request that are made in one: what waits, such as an attach that can settle nothing, goes with the next call. It keeps its room.
#[derive(Debug, Default)]
pub struct Calls {
    rows: Vec<sys::cf_request_call>,
    done: usize,
}

impl Calls {
    /// Removes all calls.
    #[inline]
    pub fn clear(&mut self) {
        self.rows.clear();
        self.done = 0;
    }

    /// The number of calls.
    #[inline]
    pub fn len(&self) -> usize {
        self.rows.len()
    }

    /// Whether there are no calls.
    #[inline]
    pub fn is_empty(&self) -> bool {
        self.rows.is_empty()
    }

    /// Adds a call of [`apply`](Request::apply).
    #[inline]
    pub fn apply(&mut self, word: u64, lane: u8) {
        self.add(sys::cf_request_call { call: sys::CF_DO_APPLY, word, lane, ..Default::default() });
    }

    /// Adds a call of [`claim_next`](Request::claim_next).
    #[inline(always)]
    pub fn claim_next(&mut self, who: u8, lane: u8, held: Option<(u16, Answer)>) {
        // This call looks at no code, so that it can say whether something was held.
        let code = u32::from(held.is_some());
        self.add(sys::cf_request_call { call: sys::CF_DO_NEXT, who, lane, code, task: task_in(held), ..Default::default() });
    }

    /// Adds a call of [`follow`](Request::follow).
    pub fn follow(&mut self, relay: u16, stage: u16) {
        self.add(sys::cf_request_call { call: sys::CF_DO_FOLLOW, relay, stage, ..Default::default() });
    }

    /// Adds a call of [`set_deadline`](Request::set_deadline).
    pub fn set_deadline(&mut self, stage: u16, moment: u64, limit: Limit) {
        let (kind, code, value) = limit_in(limit);
        self.add(sys::cf_request_call { call: sys::CF_DO_DEADLINE, stage, moment, kind, code, value, ..Default::default() });
    }

    /// Adds a call of [`pass_time_to`](Request::pass_time_to).
    pub fn pass_time_to(&mut self, moment: u64) {
        self.add(sys::cf_request_call { call: sys::CF_DO_PASS, moment, ..Default::default() });
    }

    /// Adds a call of [`refuse_lane`](Request::refuse_lane).
    pub fn refuse_lane(&mut self, lane: u8, code: u32) {
        self.add(sys::cf_request_call { call: sys::CF_DO_REFUSE, lane, code, ..Default::default() });
    }

    /// Adds a call of [`cancel_all`](Request::cancel_all).
    pub fn cancel_all(&mut self, who: u8) {
        self.add(sys::cf_request_call { call: sys::CF_DO_CANCEL_ALL, who, ..Default::default() });
    }

    #[inline]
    fn add(&mut self, row: sys::cf_request_call) {
        self.rows.push(row);
    }

    /// The number of calls that [`run`](Request::run) has made.
    #[inline]
    pub fn done_count(&self) -> usize {
        self.done
    }

    /// The reply to the word of the call at an index.
    ///
    /// # Panics
    ///
    /// Where that wasn't made, or does no word.
    #[inline]
    pub fn reply(&self, at: usize) -> Reply {
        let row = &self.rows[..self.done][at];
        assert_eq!(row.call, sys::CF_DO_APPLY, "the call does a word");
        reply_of_word(row.word, row.reply)
    }

    /// The step of the call at an index.
    ///
    /// # Panics
    ///
    /// Where that wasn't made, or is no step.
    #[inline]
    pub fn step(&self, at: usize) -> Stepped {
        let row = &self.rows[..self.done][at];
        assert_eq!(row.call, sys::CF_DO_NEXT, "the call is a step");
        let finished = (row.code != 0).then(|| finished_of(row.task.finished));
        Stepped { finished, taken: taken_out(&row.task) }
    }
}

#[inline]
fn settled_stage_out(told: &sys::cf_told) -> SettledStage {
    // A stage is told only once it has an outcome.
    SettledStage { stage: told.stage, outcome: settled_out(&told.outcome), stop: told.stop.checked_sub(1).map(|who| who as u8) }
}

#[cold]
fn make_room(settled: &mut Vec<sys::cf_told>) {
    settled.reserve(ROOM);
}
