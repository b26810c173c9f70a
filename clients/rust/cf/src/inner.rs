//! What stands under a request's lock: the library's machine, and what its numbers stand for.
//!
//! Each change is one call of the machine. Its reply has the stages that it settled. They are written to the slots under the same hold, so a poll
//! reads no older state than it was told. Nothing here decides who wins, what is ready or what follows.
//!
//! A value's number is that of the stage that gave it. An error's code is one more than the number of the stage that holds it, also that of a
//! time-out and of a bad answer, of which 0 says that nobody gave a code.
use crate::core::{Core, First, Needs};
use crate::ends::Ending;
use crate::error::{Error, Refusal};
use crate::ledger::{How, Ledger};
use crate::meter::Metered;
use crate::name::Made;
use crate::scopes::Scopes;
use crate::slot::{code_of_error, stage_of_error, Held, Slot};
use crate::spawn::{CLOCK, RELAY};
use crate::task::StageFuture;
use crate::value::{CallArgs, Returned, StageFn, Val};
use crate::wakers::Wakers;
use crate::word::{self, WordForm, BAD_ANSWER, CANCEL, CLAIM, COMPLETE, FAIL, FAIL_AS, FINISH, LINKS, SOME, THROWS, TIMED_OUT};
use cf_graph::{Answer, Args, Cause, Claimed, Finished, Outcome, Refused, Reply, SettledStage, State, Task as Claim, Value};
#[cfg(feature = "tokio")]
use std::any::Any;
use std::borrow::Cow;
use std::cell::RefCell;
use std::collections::BTreeMap;
use std::mem::{forget, replace, take};
use std::sync::{Arc, Weak};
use std::task::Waker;
use std::time::Duration;

/// The most stages that a request's first memory has room for.
pub(crate) const SLOTS: u16 = 64;

pub(crate) struct Inner {
    pub(crate) ledger: Ledger,
    pub(crate) slots: Vec<Slot>,
    /// The names in histories of stages without one of their own. Stages that are made alike share an entry.
    pub(crate) made: Vec<Made>,
    /// Names that the user gave.
    pub(crate) names: BTreeMap<u16, Cow<'static, str>>,
    /// How histories describe values and errors.
    pub(crate) describe: crate::describe::Describe,
    /// The hook for the end of the request.
    pub(crate) ending: Option<Box<Ending>>,
    pub(crate) metered: Option<Box<Metered>>,
    /// The wakers of handles that wait for a stage.
    pub(crate) waiting: Wakers,
    /// Wakers of workers that wait for a stage of this request, and could run functions meanwhile.
    pub(crate) helpers: Vec<Waker>,
    /// The number of jobs that were asked for and aren't done.
    pub(crate) jobs: usize,
    /// Whether a stage may have become ready under this hold: one was settled, or one was attached that doesn't wait.
    is_more: bool,
    /// What few stages have.
    extras: BTreeMap<u16, Extra>,
    /// Relays that nobody needs any more. They are cancelled before the lock is free.
    letting: Vec<u16>,
    /// The limits of stages, by stage. Those of settled stages are dropped once no other is left.
    limits: Vec<StageLimit>,
    pub(crate) awaited: AwaitedAlarm,
    pub(crate) scopes: Scopes,
}

/// The last alarm for which the clock was asked.
#[derive(Default)]
pub(crate) struct AwaitedAlarm {
    number: u64,
    /// Its moment, as long as it is wanted: the machine's next moment, or one before that.
    moment: Option<u64>,
    /// Stops its timer when dropped.
    #[cfg(feature = "tokio")]
    pub(crate) timer: Option<Box<dyn Any + Send>>,
}

impl AwaitedAlarm {
    /// Whether the alarm of this number is awaited.
    pub(crate) fn is_for(&self, number: u64) -> bool {
        self.number == number && self.moment.is_some()
    }

    /// Takes the moment: the alarm isn't wanted any more.
    fn take_moment(&mut self, _after: &mut After) -> Option<u64> {
        #[cfg(feature = "tokio")]
        if let Some(timer) = self.timer.take() {
            _after.notices().dropped.push(Held::Timer(timer));
        }
        self.moment.take()
    }
}

/// The first limit of a stage. The stage then gets a value, or times out with this wait.
pub(crate) struct StageLimit {
    stage: u16,
    moment: u64,
    wait: Duration,
    gives: Option<Val>,
}

/// A stage of a request.
pub(crate) struct StageOf {
    pub(crate) core: Arc<Core>,
    pub(crate) stage: u16,
}

/// A stage of a request, which may be gone.
pub(crate) struct WeakStageOf {
    pub(crate) core: Weak<Core>,
    pub(crate) stage: u16,
}

impl WeakStageOf {
    fn upgrade(&self) -> Option<StageOf> {
        Some(StageOf { core: self.core.upgrade()?, stage: self.stage })
    }
}

#[derive(Default)]
pub(crate) struct Extra {
    pub(crate) task: Option<Arc<StageFuture>>,
    /// Relays of other requests that are settled as this one is.
    pub(crate) feeds: Vec<StageOf>,
    /// The stage of another request for which it stands as a relay.
    pub(crate) of: Option<WeakStageOf>,
    /// Relays that nobody needs once it is settled.
    lets_go: Vec<u16>,
}

/// The parts of a request that may hold other requests, and the names of its stages.
pub(crate) struct Remains {
    slots: Vec<Slot>,
    made: Vec<Made>,
    #[allow(dead_code)]
    extras: BTreeMap<u16, Extra>,
    #[allow(dead_code)]
    limits: Vec<StageLimit>,
}

impl Remains {
    pub(crate) fn is_empty(&self) -> bool {
        self.slots.is_empty()
    }
}

/// The number of small slot lists that a thread keeps for reuse.
const MOST_KEPT: usize = 8;

impl Drop for Remains {
    fn drop(&mut self) {
        self.slots.drain(..).for_each(Slot::drop_content);
        let is_small = self.slots.capacity() <= usize::from(SLOTS);
        let _ = ROWS.try_with(|rows| {
            let mut rows = rows.borrow_mut();
            if is_small && rows.len() < MOST_KEPT {
                self.made.clear();
                rows.push((take(&mut self.slots), take(&mut self.made)));
            }
        });
    }
}

/// Empty lists for the slots and the names of this many stages.
fn take_rows(room: u16) -> (Vec<Slot>, Vec<Made>) {
    let kept = ROWS.try_with(|rows| rows.borrow_mut().pop()).ok().flatten();
    kept.unwrap_or_else(|| (Vec::with_capacity(usize::from(room.min(SLOTS))), Vec::new()))
}

/// What is to be done once the lock is free: mostly nothing, or jobs to be asked for.
#[derive(Default)]
pub(crate) struct After {
    pub(crate) jobs: usize,
    pub(crate) news: Option<Box<Notices>>,
}

/// What else is to be done.
#[derive(Default)]
pub(crate) struct Notices {
    pub(crate) wakers: Vec<Waker>,
    pub(crate) dropped: Vec<Held>,
    pub(crate) feeds: Vec<Feed>,
    pub(crate) tasks: Vec<Arc<StageFuture>>,
    /// Stages of other requests that relays are to be hung on.
    pub(crate) links: Vec<Link<StageOf>>,
    /// Stages of other requests that settled relays are to be taken off.
    pub(crate) ends: Vec<Link<WeakStageOf>>,
    pub(crate) alarm: Option<AskedAlarm>,
}

/// A relay of another request, and its result.
pub(crate) struct Feed {
    pub(crate) relay: StageOf,
    pub(crate) told: Result<Val, Error>,
}

/// A stage of another request, and the relay that settles as it does.
pub(crate) struct Link<To> {
    pub(crate) to: To,
    pub(crate) relay: u16,
}

/// An alarm for which the clock is to be asked.
pub(crate) struct AskedAlarm {
    pub(crate) number: u64,
    pub(crate) wait: Duration,
}

/// A claimed stage's function, and the function's arguments.
pub(crate) struct ClaimedCall {
    pub(crate) call: StageFn,
    pub(crate) args: Args,
}

thread_local! {
    /// Empty lists of requests that ended on this thread, with their room.
    static ROWS: RefCell<Vec<(Vec<Slot>, Vec<Made>)>> = const { RefCell::new(Vec::new()) };
    /// Empty notices for reuse, with their room.
    #[allow(clippy::vec_box)]
    static TOLD: RefCell<Vec<Box<Notices>>> = const { RefCell::new(Vec::new()) };
}

impl After {
    /// The notices, to add to.
    #[inline]
    pub(crate) fn notices(&mut self) -> &mut Notices {
        self.news.get_or_insert_with(|| TOLD.try_with(|told| told.borrow_mut().pop()).ok().flatten().unwrap_or_default())
    }

    #[inline]
    pub(crate) fn is_nothing(&self) -> bool {
        self.jobs == 0 && self.news.is_none()
    }
}

impl Notices {
    /// Keeps the emptied notices for reuse.
    pub(crate) fn keep_room(self: Box<Notices>) {
        let _ = TOLD.try_with(|told| told.borrow_mut().push(self));
    }
}

impl Inner {
    #[inline]
    pub(crate) fn new(ledger: Ledger, room: u16) -> Inner {
        let (slots, made) = take_rows(room);
        Inner {
            ledger,
            slots,
            made,
            names: BTreeMap::new(),
            describe: crate::describe::Describe::All,
            ending: None,
            metered: None,
            waiting: Wakers::default(),
            helpers: Vec::new(),
            jobs: 0,
            is_more: false,
            extras: BTreeMap::new(),
            letting: Vec::new(),
            limits: Vec::new(),
            awaited: AwaitedAlarm::default(),
            scopes: Scopes::default(),
        }
    }

    #[inline]
    pub(crate) fn slot(&mut self, stage: u16) -> &mut Slot {
        &mut self.slots[usize::from(stage)]
    }

    pub(crate) fn name(&self, stage: u16) -> String {
        self.names.get(&stage).map_or_else(|| self.made[usize::from(self.slots[usize::from(stage)].made)].to_string(), |name| name.to_string())
    }

    pub(crate) fn extra(&mut self, stage: u16) -> &mut Extra {
        self.slots[usize::from(stage)].has_extra = true;
        self.extras.entry(stage).or_default()
    }

    /// The result of a stage, if it is settled.
    #[inline]
    pub(crate) fn end_of(&self, stage: u16) -> Option<Result<Val, Error>> {
        self.slots[usize::from(stage)].outcome().map(|outcome| self.result_of(outcome))
    }

    /// The result that an outcome stands for.
    fn result_of(&self, outcome: Outcome) -> Result<Val, Error> {
        match outcome {
            Outcome::Value(value) => Ok(self.value_of(value)),
            Outcome::Fault { cause, .. } => Err(match stage_of_error(cause) {
                Some(from) => self.slots[usize::from(from)].error().expect("the stage failed").clone(),
                None => Error::Cancelled,
            }),
        }
    }

    #[inline]
    fn value_of(&self, value: Value) -> Val {
        match value {
            Value::Nil => Val::Nil,
            Value::Int(number) => self.slots[number as usize].value().expect("the stage gave a value").clone(),
        }
    }

    /// The values for a function's arguments.
    pub(crate) fn call_args(&self, args: Args) -> CallArgs {
        match args {
            Args::None => CallArgs::Nothing,
            Args::One(value) => CallArgs::One(self.value_of(value)),
            Args::Two(first, second) => CallArgs::Two(self.value_of(first), self.value_of(second)),
            Args::Got(outcome) => CallArgs::Got(self.result_of(outcome)),
            args => unreachable!("{args:?} are arguments of another library"),
        }
    }

    // Changes.

    /// Attaches a stage, in a scope or in none.
    #[inline(always)]
    pub(crate) fn attach(
        &mut self,
        (who, within): (u8, Option<u16>),
        form: WordForm,
        of: &[u16],
        call: Option<StageFn>,
        made: Made,
        after: &mut After,
    ) -> Result<u16, Refusal> {
        // Nothing can come of a stage now that has no function, or sources none of which is settled.
        let waits = match of {
            [] => call.is_none(),
            of => !of.iter().any(|source| self.slots[usize::from(*source)].is_settled()),
        };
        let attached = self.is_open(within).and_then(|()| self.ledger.attach(who, form, of, call.is_some()));
        match attached {
            Ok(stage) => {
                let made = self.place_of_name(made);
                self.slots.push(Slot::new(made, call));
                self.scopes.note_taken(of);
                self.is_more |= !waits;
                self.show_settled(after);
                if let Some(scope) = within {
                    self.put_in(stage, scope, after)?;
                }
                Ok(stage)
            }
            Err(why) => {
                Inner::drop_later(call.map_or(Held::Nothing, Held::Call), after);
                Err(why)
            }
        }
    }

    /// The index of a stage's name in `made`. The last stages may share it.
    #[inline]
    fn place_of_name(&mut self, made: Made) -> u16 {
        match self.made.last() {
            Some(last) if last.is_same(made) => self.made.len() as u16 - 1,
            _ => self.find_or_add_name(made),
        }
    }

    fn find_or_add_name(&mut self, made: Made) -> u16 {
        let lately = self.made.iter().enumerate().rev().take(4);
        let at = lately.into_iter().find(|(_, other)| other.is_same(made)).map_or(self.made.len(), |(at, _)| at);
        if at == self.made.len() {
            self.made.push(made);
        }
        at as u16
    }

    /// Attaches a tree of stages, and gives its root. Each is attached by one event, which settles no other stage.
    pub(crate) fn gather(
        &mut self,
        (who, within): (u8, Option<u16>),
        form: cf_graph::Form,
        of: &[u16],
        made: Made,
        after: &mut After,
    ) -> Result<u16, Refusal> {
        self.is_open(within)?;
        let first = self.ledger.stages;
        let root = self.ledger.gather(who, form, of)?;
        let made = self.place_of_name(made);
        self.slots.resize_with(usize::from(root) + 1, || Slot::new(made, None));
        self.scopes.note_taken(of);
        self.show_settled(after);
        if let Some(scope) = within {
            (first..=root).try_for_each(|stage| self.put_in(stage, scope, after))?;
        }
        Ok(root)
    }

    /// Attaches a stage that ends once so many of these have values, or too few can have them still.
    pub(crate) fn join(&mut self, by: (u8, Option<u16>), wanted: u16, of: &[u16], made: Made, after: &mut After) -> Result<u16, Refusal> {
        let stage = self.attach(by, WordForm::Source, &[], None, made, after)?;
        match self.end_by(stage, of, How::Joins(wanted), after) {
            Ok(()) => Ok(stage),
            Err(Refused::NO_MEMORY) => Err(Refusal::NoLedger), // nobody has it
            Err(why) => unreachable!("{why}, of so many stages that are there"),
        }
    }

    /// Lets a stage end by others.
    pub(crate) fn end_by(&mut self, stage: u16, of: &[u16], how: How, after: &mut After) -> Result<(), Refused> {
        self.slot(stage).has_extra = true; // Where it is settled, the machine has done an event of its own.
        self.ledger.join(stage, of, how)?;
        self.show_settled(after);
        Ok(())
    }

    /// Attaches a composing stage, and right below it a relay. A stage can only link to lower ones, and the stage that its function makes is higher
    /// or another request's. The relay stands in for that.
    pub(crate) fn attach_composing(
        &mut self,
        by: (u8, Option<u16>),
        form: WordForm,
        of: u16,
        call: StageFn,
        made: Made,
        after: &mut After,
    ) -> Result<u16, Refusal> {
        let relay = if self.ledger.room_left() < 2 {
            Err(Refusal::Full)
        } else {
            self.attach(by, WordForm::Source, &[], None, Made::without_function(|| "relay"), after)
        };
        let relay = match relay {
            Ok(relay) => relay,
            Err(why) => {
                after.notices().dropped.push(Held::Call(call));
                return Err(why);
            }
        };
        let stage = self.attach(by, form, &[of], Some(call), made, after)?;
        if by.1.is_some() {
            // A scope that is joined waits for all of its stages.
            self.cancel_relays_with(Some(stage), vec![relay]);
        }
        Ok(stage)
    }

    #[inline]
    pub(crate) fn settle(&mut self, who: u8, stage: u16, with: Result<Val, Error>, after: &mut After) -> Result<(), Result<Val, Error>> {
        let (kind, tail, holds) = match with {
            Ok(Val::Nil) => (COMPLETE, 0, Held::Nothing),
            Ok(value) => (COMPLETE, SOME | u64::from(stage), Held::Value(value)),
            Err(Error::Cancelled) => (CANCEL, 0, Held::Nothing),
            Err(error) => {
                let code = u64::from(code_of_error(stage));
                let (kind, tail) = match error {
                    Error::TimedOut(_) => (FAIL_AS, TIMED_OUT | code),
                    Error::BadAnswer => (FAIL_AS, BAD_ANSWER | code),
                    _ => (FAIL, code),
                };
                (kind, tail, Held::Error(Box::new(error)))
            }
        };
        match self.ledger.act(word::encode(kind, who, stage, tail)) {
            Ok(Reply::Flag(true)) => {
                self.keep_content(stage, holds, after);
                self.show_settled(after);
                return Ok(());
            }
            Ok(_) => {}
            Err(why) => {
                Inner::drop_later(holds, after);
                panic_refused(why)
            }
        }
        Err(match holds {
            Held::Value(value) => Ok(value),
            Held::Error(error) => Err(*error),
            _ if kind == CANCEL => Err(Error::Cancelled),
            _ => Ok(Val::Nil),
        })
    }

    /// Keeps a stage's value or error, unless the stage is settled already. Drops the other one later.
    #[inline(always)]
    fn keep_content(&mut self, stage: u16, keeps: Held, after: &mut After) {
        let slot = self.slot(stage);
        let old = if slot.is_settled() { keeps } else { replace(&mut slot.held, keeps) };
        Inner::drop_later(old, after);
    }

    #[inline]
    pub(crate) fn drop_later(held: Held, after: &mut After) {
        match held {
            // To drop it would take a call.
            Held::Nothing => forget(held),
            held => after.notices().dropped.push(held),
        }
    }

    /// Writes the stages that the last call settled to their slots.
    #[inline]
    pub(crate) fn show_settled(&mut self, after: &mut After) {
        if self.ledger.settled_count() > 0 {
            self.show_each_out_of_line(after);
        }
    }

    #[inline(never)]
    fn show_each_out_of_line(&mut self, after: &mut After) {
        self.show_each(after);
    }

    #[inline(always)]
    fn show_each(&mut self, after: &mut After) {
        for at in 0..self.ledger.settled_count() {
            let told = self.ledger.settled_at(at);
            let slot = &mut self.slots[usize::from(told.stage)];
            // Most have a value, and nobody waits for them.
            if !matches!(told.outcome, Outcome::Value(_)) || slot.needs_more_than_outcome() || self.waiting.has_waker(told.stage) {
                return self.show_from(at, after);
            }
            self.is_more = true;
            slot.settle(told.outcome);
            self.ledger.note_shown();
        }
    }

    /// Writes the settled stages to their slots, from the one at `first` on. If stages end by others, the machine may have settled some by itself.
    #[cold]
    fn show_from(&mut self, first: usize, after: &mut After) {
        (first..self.ledger.settled_count()).for_each(|at| self.mark_settled(self.ledger.settled_at(at), after));
        if !self.ledger.joins.is_empty() {
            self.ledger.note_own_events();
        }
    }

    /// Writes a settled stage to its slot.
    #[inline]
    fn mark_settled(&mut self, told: SettledStage, after: &mut After) {
        self.is_more = true;
        let slot = &mut self.slots[usize::from(told.stage)];
        slot.settle(told.outcome);
        self.ledger.note_shown();
        if let Held::Call(_) = slot.held {
            after.notices().dropped.push(take(&mut slot.held));
        }
        if slot.has_extra {
            self.finish_extra(told, after);
        }
        if self.waiting.has_waker(told.stage) {
            self.waiting.take_all(told.stage, &mut after.notices().wakers);
        }
    }

    fn finish_extra(&mut self, told: SettledStage, after: &mut After) {
        let stage = told.stage;
        if let Some(value) = self.limit_of(stage).and_then(|limit| limit.gives.take()) {
            after.notices().dropped.push(Held::Value(value));
        }
        let extra = match self.extras.remove(&stage) {
            Some(extra) => extra,
            None => return,
        };
        // One that isn't stopped has ended.
        after.notices().tasks.extend(extra.task.filter(|_| told.stop.is_some()));
        self.letting.extend(extra.lets_go);
        if let Some(to) = extra.of {
            after.notices().ends.push(Link { to, relay: stage });
        }
        for relay in extra.feeds {
            after.notices().feeds.push(Feed { relay, told: self.end_of(stage).expect("the stage is settled") });
        }
    }

    /// Cancels relays that nobody needs any more.
    #[inline]
    pub(crate) fn cancel_relays(&mut self, after: &mut After) {
        if !self.letting.is_empty() {
            self.cancel_all_relays(after);
        }
    }

    #[cold]
    fn cancel_all_relays(&mut self, after: &mut After) {
        while let Some(relay) = self.letting.pop() {
            if !self.slot(relay).is_settled() {
                let _ = self.settle(RELAY, relay, Err(Error::Cancelled), after);
            }
        }
    }

    /// Cancels relays once the stage is settled for which they were made.
    pub(crate) fn cancel_relays_with(&mut self, stage: Option<u16>, relays: Vec<u16>) {
        match stage.filter(|stage| !self.slot(*stage).is_settled()) {
            Some(stage) => self.extra(stage).lets_go.extend(relays),
            None => self.letting.extend(relays),
        }
    }

    // Limits.

    /// Sets a limit of a stage. Gives the value back if the limit never acts: the stage is settled, or another limit of it comes before or as soon.
    pub(crate) fn set_limit(&mut self, stage: u16, wait: Duration, gives: Option<Val>, after: &mut After) -> Option<Val> {
        let moment = u64::try_from(wait.as_nanos()).ok().and_then(|wait| self.ledger.record.now().checked_add(wait)).filter(|&it| it < u64::MAX);
        let (moment, place) = match (moment, self.limits.binary_search_by_key(&stage, |limit| limit.stage)) {
            (None, _) => return gives,
            (Some(moment), Ok(at)) if self.limits[at].moment <= moment => return gives,
            (Some(_), _) if self.slot(stage).is_settled() => return gives,
            (Some(moment), place) => (moment, place),
        };
        if let Err(why) = self.ledger.set_deadline(stage, moment, gives.is_some()) {
            Inner::drop_later(gives.map_or(Held::Nothing, Held::Value), after);
            panic_refused(why);
        }
        let limit = StageLimit { stage, moment, wait, gives };
        match place {
            Ok(at) => return replace(&mut self.limits[at], limit).gives,
            Err(at) => self.limits.insert(at, limit),
        }
        self.slot(stage).has_extra = true;
        None
    }

    fn limit_of(&mut self, stage: u16) -> Option<&mut StageLimit> {
        let at = self.limits.binary_search_by_key(&stage, |limit| limit.stage).ok()?;
        Some(&mut self.limits[at])
    }

    /// Asks for an alarm at the machine's next moment, unless one that comes before is awaited: as that rings, it asks again.
    #[inline(never)]
    fn follow_moment(&mut self, next: Option<u64>, after: &mut After) {
        match next {
            None => {
                self.limits.clear();
                self.awaited.take_moment(after);
            }
            Some(next) if self.awaited.moment.map_or(true, |awaited| next < awaited) => {
                self.awaited.take_moment(after);
                self.awaited.number += 1;
                self.awaited.moment = Some(next);
                let wait = Duration::from_nanos(next.saturating_sub(self.ledger.record.now()));
                after.notices().alarm = Some(AskedAlarm { number: self.awaited.number, wait });
            }
            Some(_) => {}
        }
    }

    /// Passes time to the moment of an alarm that rings.
    pub(crate) fn ring_alarm(&mut self, alarm: u64, after: &mut After) {
        if self.awaited.is_for(alarm) {
            if let Some(moment) = self.awaited.take_moment(after) {
                self.pass_time_to(moment, after);
            }
        }
    }

    /// Passes time to a moment.
    pub(crate) fn pass_time_to(&mut self, moment: u64, after: &mut After) {
        let passed = self.ledger.pass_time_to(moment);
        (0..self.ledger.settled_count()).for_each(|at| self.keep_due_value(self.ledger.settled_at(at), after));
        self.show_from(0, after);
        passed.unwrap_or_else(|why| panic_refused(why));
    }

    /// Keeps the value or the error of a stage's limit, if that has settled the stage.
    fn keep_due_value(&mut self, told: SettledStage, after: &mut After) {
        let is_own = match told.outcome {
            Outcome::Value(Value::Int(number)) => number == i32::from(told.stage),
            Outcome::Fault { cause: Cause::TimedOut(code), .. } => code == code_of_error(told.stage),
            _ => false,
        };
        if let Some(limit) = self.limit_of(told.stage).filter(|_| is_own) {
            let held = limit.gives.take().map_or_else(|| Held::Error(Box::new(Error::TimedOut(limit.wait))), Held::Value);
            self.keep_content(told.stage, held, after);
        }
    }

    /// Fails the stages that have limits, since their alarm never rings.
    pub(crate) fn give_up_alarm(&mut self, alarm: u64, after: &mut After) {
        if !self.awaited.is_for(alarm) {
            return;
        }
        let limited: Vec<u16> = self.limits.iter().map(|limit| limit.stage).collect();
        for stage in limited {
            if !self.slot(stage).is_settled() {
                let _ = self.settle(CLOCK, stage, Err(Refusal::NoClock.into()), after);
            }
        }
    }

    // Working.

    /// Does a worker's step: finishes the stage in its hands, if there is one, and claims the next ready one. Gives that one's function; its
    /// arguments are in the hands.
    #[inline(always)]
    pub(crate) fn step(&mut self, who: u8, hands: &mut Hands, after: &mut After) -> Option<StageFn> {
        if let Some(stage) = hands.task.stage() {
            hands.task.set_answer(answer_of(stage, &hands.keeps));
            self.keep_content(stage, take(&mut hands.keeps), after);
        }
        self.ledger.step(who, &mut hands.task).unwrap_or_else(|why| panic_refused(why));
        self.show_each(after);
        let stage = match hands.task.stage() {
            Some(stage) => stage,
            None => {
                // All that was ready by now was looked at.
                self.is_more = false;
                return None;
            }
        };
        match hands.task.args() {
            Args::One(value) => {
                if hands.of != Some(value) {
                    hands.set_args(CallArgs::One(self.value_of(value)), Some(value));
                }
            }
            args => self.give_args(args, hands),
        }
        Some(self.take_function(stage))
    }

    #[inline(never)]
    fn give_args(&mut self, args: Args, hands: &mut Hands) {
        hands.set_args(self.call_args(args), None);
    }

    /// Finishes the stage in a worker's hands, without claiming another.
    pub(crate) fn finish_last(&mut self, who: u8, hands: &mut Hands, after: &mut After) {
        if let Some(stage) = hands.task.stage() {
            let keeps = take(&mut hands.keeps);
            self.finish_with(who, stage, answer_of(stage, &keeps), keeps, after);
            hands.task.clear();
        }
    }

    #[inline]
    fn take_function(&mut self, stage: u16) -> StageFn {
        match replace(&mut self.slot(stage).held, Held::Nothing) {
            Held::Call(call) => call,
            _ => unreachable!("a stage that is ready has its function"),
        }
    }

    /// Claims a ready stage.
    pub(crate) fn claim(&mut self, who: u8, stage: u16, _after: &mut After) -> ClaimedCall {
        match self.ledger.act(word::encode(CLAIM, who, stage, 0)) {
            Ok(Reply::Claimed(Claimed::Granted(args))) => ClaimedCall { call: self.take_function(stage), args },
            Err(why) => panic_refused(why),
            Ok(_) => unreachable!("the stage is ready"),
        }
    }

    /// Finds, among the open stages that a stage depends on, one for which a worker of the request's executor can do something; if there is none,
    /// what the stage waits for.
    pub(crate) fn find_need(&mut self, stage: u16, is_own: bool) -> Needs {
        let (mut needs, mut row, mut seen, mut hangs) = (Needs::default(), vec![stage], vec![false; self.slots.len()], None);
        while let Some(stage) = row.pop() {
            if self.slot(stage).is_settled() || replace(&mut seen[usize::from(stage)], true) {
                continue;
            }
            match (self.ledger.state(stage), self.extras.get(&stage)) {
                (State::Ready, _) if is_own => needs.first = Some(First::Function(stage)),
                (_, Some(Extra { task: Some(task), .. })) if is_own && task.is_queued() => needs.first = Some(First::Future(Arc::clone(task))),
                (_, Some(Extra { task: Some(_), .. })) => needs.is_open = true,
                (_, Some(Extra { of: Some(of), .. })) => needs.elsewhere.extend(of.upgrade()),
                (State::Linked(target), _) => row.push(target),
                (State::Pending, _) => {
                    let its = &hangs.get_or_insert_with(|| self.ledger.dependencies())[usize::from(stage)];
                    needs.is_open |= its.is_empty();
                    row.extend(its);
                }
                _ => {}
            }
            if needs.first.is_some() {
                break;
            }
        }
        needs
    }

    /// Finds any work of the request, and the stages for which its relays wait.
    pub(crate) fn find_any_need(&mut self, is_own: bool) -> Needs {
        let ready = self.ledger.lowest_ready(0);
        let queued = || self.extras.values().filter_map(|extra| extra.task.as_ref()).find(|task| task.is_queued()).map(Arc::clone);
        let first = if is_own { ready.map(First::Function).or_else(|| queued().map(First::Future)) } else { None };
        let elsewhere = self.extras.values().filter_map(|extra| extra.of.as_ref()?.upgrade()).collect();
        Needs { first, elsewhere, is_open: true }
    }

    pub(crate) fn finish(&mut self, core: &Arc<Core>, who: u8, stage: u16, gave: Returned, after: &mut After) {
        if let Returned::Stage(of, target) = gave {
            return self.link(core, who, stage, of, target, after);
        }
        let keeps = content_of(gave);
        self.finish_with(who, stage, answer_of(stage, &keeps), keeps, after);
    }

    /// Finishes a claimed stage with an answer, and keeps its content.
    pub(crate) fn finish_with(&mut self, who: u8, stage: u16, answer: Answer, keeps: Held, after: &mut After) {
        let tail = match answer {
            Answer::Give(Value::Nil) => 0,
            Answer::Give(Value::Int(number)) => SOME | u64::from(number as u32),
            Answer::Throw(code) => THROWS | u64::from(code),
            Answer::Link(target) => LINKS | u64::from(target),
            answer => unreachable!("{answer:?} is an answer of another library"),
        };
        self.keep_content(stage, keeps, after);
        self.ledger.act(word::encode(FINISH, who, stage, tail)).unwrap_or_else(|why| panic_refused(why));
        self.show_settled(after);
    }

    /// Finishes a composing stage with a link to the stage that its function returned, or to the relay of that.
    fn link(&mut self, core: &Arc<Core>, who: u8, stage: u16, of: Arc<Core>, number: u16, after: &mut After) {
        let is_own = Arc::ptr_eq(core, &of);
        let relay = stage - 1;
        let target = if is_own && number < stage { number } else { relay };
        let reply = self.ledger.act(word::encode(FINISH, who, stage, LINKS | u64::from(target)));
        if let Err(why) = reply {
            after.notices().dropped.push(Held::Core(of));
            panic_refused(why);
        }
        self.show_settled(after);
        // Who waits for this stage may have to run what it hangs on now.
        after.notices().wakers.append(&mut self.helpers);
        self.scopes.note_taken(&[target]);
        if reply != Ok(Reply::Finished(Finished::Won)) || (is_own && target == number) {
            // It may be the other request's last handle.
            after.notices().dropped.push(Held::Core(of));
            return;
        }
        if !is_own {
            self.names.insert(target, format!("relay of {number} of {}", of.name).into());
            self.cancel_relays_with(Some(stage), vec![target]);
            after.notices().links.push(Link { to: StageOf { core: of, stage: number }, relay: target });
            return;
        }
        self.names.insert(target, format!("relay of {number}").into());
        self.scopes.note_taken(&[number]);
        self.end_by(target, &[number], How::Follows, after).unwrap_or_else(|why| panic_refused(why));
    }

    /// Does what the machine says is to be done next, at the end of a hold: asks for one more job if more stages are ready than jobs are coming, and
    /// for an alarm. A job that begins asks for the next one, so no caller wakes many. Also wakes the waiting workers.
    #[inline]
    pub(crate) fn follow_todo(&mut self, core: &Core, after: &mut After) {
        if take(&mut self.is_more) && !self.helpers.is_empty() && self.ledger.lowest_ready(0).is_some() {
            after.notices().wakers.append(&mut self.helpers);
        }
        if self.ledger.wants_job() && self.jobs < core.job_limit() {
            self.ledger.start_job();
            self.jobs += 1;
            after.jobs += 1;
        }
        let next = self.ledger.next_moment();
        if next != self.awaited.moment {
            self.follow_moment(next, after);
        }
        self.ledger.rest_if_over();
    }

    /// Takes out all that may hold other requests.
    pub(crate) fn take_remains(&mut self) -> Remains {
        Remains { slots: take(&mut self.slots), made: take(&mut self.made), extras: take(&mut self.extras), limits: take(&mut self.limits) }
    }

    /// Forgets for which stage a relay stands, since that stage has settled it.
    pub(crate) fn forget_fed_stage(&mut self, relay: u16) {
        if let Some(extra) = self.extras.get_mut(&relay) {
            extra.of = None;
        }
    }

    /// Takes a relay off a stage, and gives the relay's request.
    pub(crate) fn take_feed(&mut self, stage: u16, to: &Arc<Core>, relay: u16) -> Option<Arc<Core>> {
        let feeds = &mut self.extras.get_mut(&stage)?.feeds;
        let is_it = |feed: &StageOf| feed.stage == relay && Arc::ptr_eq(&feed.core, to);
        feeds.iter().rposition(is_it).map(|at| feeds.remove(at).core)
    }

    /// The ready stages, if no job is left to run them. A job that waits may wait for them.
    pub(crate) fn ready_without_job(&mut self, resting: usize) -> Vec<u16> {
        if self.jobs > resting {
            return Vec::new();
        }
        std::iter::successors(self.ledger.lowest_ready(0), |stage| self.ledger.lowest_ready(stage + 1)).collect()
    }
}

/// Panics, since the machine was refused memory for an event. It has changed nothing, and the caller holds nothing of a user's. The panic goes on
/// once the lock is free.
#[cold]
pub(crate) fn panic_refused(why: Refused) -> ! {
    panic!("no memory for an event: {why}")
}

/// The content of a slot for what a function returned.
#[inline]
pub(crate) fn content_of(gave: Returned) -> Held {
    match gave {
        Returned::Value(Val::Nil) => Held::Nothing,
        Returned::Value(value) => Held::Value(value),
        Returned::Error(error) => Held::Error(Box::new(error)),
        Returned::Stage(..) | Returned::Later(_) => unreachable!("a link and what comes later are no answers"),
    }
}

/// The machine's answer for the content of a slot.
#[inline]
fn answer_of(stage: u16, keeps: &Held) -> Answer {
    match keeps {
        Held::Value(_) => Answer::Give(Value::Int(i32::from(stage))),
        Held::Error(_) => Answer::Throw(code_of_error(stage)),
        _ => Answer::Give(Value::Nil),
    }
}

/// A worker's claimed stage, its function's arguments, and the content that the function returned.
pub(crate) struct Hands {
    pub(crate) task: Claim,
    pub(crate) given: CallArgs,
    /// The value that the argument is, if it is one: the next stage may take the same. Slots keep their values, so none is dropped here for the last
    /// time.
    of: Option<Value>,
    pub(crate) keeps: Held,
}

impl Hands {
    /// Keeps a value that the function returned.
    #[inline]
    pub(crate) fn keep_value(&mut self, value: Val) {
        let keeps = match value {
            Val::Nil => Held::Nothing,
            value => Held::Value(value),
        };
        // What was kept before was taken.
        forget(replace(&mut self.keeps, keeps));
    }

    pub(crate) fn empty() -> Hands {
        Hands { task: Claim::default(), given: CallArgs::Nothing, of: None, keeps: Held::Nothing }
    }

    #[inline]
    fn set_args(&mut self, given: CallArgs, of: Option<Value>) {
        self.of = of;
        if let CallArgs::Nothing | CallArgs::One(Val::Nil | Val::Small(_)) = self.given {
            // Nothing in it is to be dropped, which would take a call.
            forget(replace(&mut self.given, given));
        } else {
            self.given = given;
        }
    }
}

#[cfg(test)]
mod tests {
    use super::*;
    use crate::{Inline, Job, Request, Spawn};
    use std::sync::Mutex;

    /// Also where a worker settles the last stage, and not a call.
    #[test]
    fn large_requests_that_are_over_rest() {
        let (by_calls, by_workers) = (Request::new("calls", Inline), Request::new("workers", Inline));
        let promises: Vec<_> = (0..=SLOTS).map(|_| by_calls.promise::<i32>()).collect();
        promises.iter().for_each(|promise| promise.complete(1).unwrap());
        let source = by_workers.promise::<i32>();
        (0..SLOTS + 9).for_each(|_| drop(source.clone().then(|value| *value)));
        source.complete(1).unwrap();
        for over in [by_calls, by_workers] {
            assert!(over.0.lock().ledger.is_resting(), "{}", over.name());
            drop(over.promise::<i32>());
            assert!(!over.0.lock().ledger.is_resting(), "{}", over.name());
        }
    }

    /// The job finds nothing to do, or is dropped.
    #[test]
    fn large_requests_rest_behind_their_last_job() {
        #[derive(Clone, Default)]
        struct Keeps(Arc<Mutex<Vec<Job>>>);
        impl Spawn for Keeps {
            fn spawn(&self, job: Job) -> Result<(), Job> {
                self.0.lock().unwrap().push(job);
                Ok(())
            }
        }
        for ends in [Job::run, drop] {
            let keeps = Keeps::default();
            let request = Request::new("keeps", keeps.clone());
            (0..=SLOTS).for_each(|_| drop(request.supply(|| 1)));
            request.cancel_all();
            assert!(!request.0.lock().ledger.is_resting());
            let jobs = take(&mut *keeps.0.lock().unwrap());
            assert_eq!(jobs.len(), 1);
            jobs.into_iter().for_each(ends);
            assert!(request.0.lock().ledger.is_resting());
        }
    }

    /// A few small ones, which are empty.
    #[test]
    fn few_rows_are_kept() {
        let count = || ROWS.with(|rows| rows.borrow().len());
        let requests: Vec<Request> = (0..2 * MOST_KEPT).map(|_| Request::new("small", Inline)).collect();
        requests.iter().for_each(|request| drop(request.supply(String::new)));
        drop(requests);
        assert_eq!(count(), MOST_KEPT);
        assert!(ROWS.with(|rows| rows.borrow().iter().all(|(slots, made)| slots.is_empty() && made.is_empty())));
        let large = Request::new("large", Inline);
        assert_eq!(count(), MOST_KEPT - 1);
        (0..=SLOTS).for_each(|_| drop(large.promise::<i32>()));
        drop(large);
        assert_eq!(count(), MOST_KEPT - 1);
    }
}
