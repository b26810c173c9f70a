//! A request: its lock, and what a change does once the lock is free.
//!
//! No code of a user runs under the lock. Wakers are called, values dropped, jobs spawned and other requests changed behind it ([`After`]).
use crate::clock::{retry_ringer, Alarm, Clock};
use crate::context::carry_context;
use crate::error::{Error, Panic, Refusal};
use crate::history::History;
use crate::inner::{content_of, After, AskedAlarm, Feed, Hands, Inner, Link, Notices, Remains, StageOf, WeakStageOf};
use crate::ledger::Ledger;
use crate::name::Made;
use crate::spawn::{
    as_worker, catch_panic, do_in_turn, is_inline_free, mark_running, run_in_drop, run_inline, set_called, swallow_panic, worker_number, Job,
    JobKind, Payload, Spawn, TurnQueue, CLOCK, RELAY,
};
use crate::task::{Polling, StageFuture};
use crate::value::{CallArgs, Returned, StageFn, Val};
use crate::word::WordForm;
use cf_graph::nanos;
use std::borrow::Cow;
use std::mem::{forget, replace, take};
use std::panic::{catch_unwind, resume_unwind, AssertUnwindSafe};
use std::sync::atomic::{AtomicBool, AtomicUsize, Ordering};
use std::sync::{Arc, Mutex, MutexGuard, PoisonError, TryLockError};
use std::task::{Poll, Waker};
use std::time::Duration;

pub(crate) struct Core {
    pub(crate) name: Box<str>,
    spawn: Arc<dyn Spawn>,
    /// The executor's number.
    pub(crate) place: usize,
    /// The greatest number of jobs at a time.
    most: usize,
    /// Whether the executor is [`Inline`](crate::Inline).
    is_inline: bool,
    clock: Arc<dyn Clock>,
    begun: Duration,
    /// The beginning in nanoseconds, if the clock is the computer's.
    begun_at: Option<u64>,
    inner: Mutex<Inner>,
    /// The number of jobs whose function waits.
    resting: AtomicUsize,
    /// The number of workers that have claimed a stage. It changes under the lock.
    busy: AtomicUsize,
    /// Whether a waiting worker may poll the next future that is woken.
    has_helpers: AtomicBool,
    /// A test's observer.
    #[cfg(feature = "testing")]
    pub(crate) watch: Option<crate::testing::Watch>,
}

/// How often a thread tries the lock before it sleeps, and its longest pause between two tries. A hold takes some hundred nanoseconds. With longer
/// pauses the holder can take the lock several times in a row, with its data in its cache.
const LOOKS: usize = 12;
const PAUSES: usize = 64;
/// How often a worker without a stage tries the lock, and its sleep between two tries after the second.
const LEISURELY_LOOKS: usize = 16;
const SLEEP: Duration = Duration::from_micros(50);
/// A function below this many nanoseconds takes less time than moving the machine and the slots to another core.
const SHORT: u64 = 1_000;

impl Core {
    /// The number of functions after which a job goes to the end of the queue.
    pub(crate) const TURN: usize = 64;

    pub(crate) fn new(name: Box<str>, spawn: Arc<dyn Spawn>, clock: Arc<dyn Clock>, room: u16) -> Result<Arc<Core>, Refusal> {
        let (place, most, is_inline, ledger) = (spawn.id(), spawn.parallelism().max(1), spawn.is_inline(), Ledger::new(room)?);
        let (begun, begun_at) = if clock.is_system() { (Duration::ZERO, Some(nanos())) } else { (clock.now(), None) };
        let core = Arc::new(Core {
            name,
            spawn,
            place,
            most,
            is_inline,
            clock,
            begun,
            begun_at,
            inner: Mutex::new(Inner::new(ledger, room)),
            resting: AtomicUsize::new(0),
            busy: AtomicUsize::new(0),
            has_helpers: AtomicBool::new(false),
            #[cfg(feature = "testing")]
            watch: crate::testing::Watch::for_executor(place),
        });
        #[cfg(feature = "testing")]
        core.tell_watch(|watch| watch.note_opened(&core));
        Ok(core)
    }

    /// Takes the lock, also after a panic: no code of a user runs under it, and the machine changes nothing if it is refused memory, so the state is
    /// whole.
    #[inline(always)]
    pub(crate) fn lock(&self) -> Hold<'_> {
        self.lock_seeing().0
    }

    /// Takes the lock, and says whether another thread had it just now.
    #[inline(always)]
    fn lock_seeing(&self) -> (Hold<'_>, bool) {
        #[cfg(test)]
        crate::search::turn();
        match self.inner.try_lock() {
            Ok(inner) => (known_hold(inner), false),
            Err(TryLockError::Poisoned(inner)) => (known_hold(inner.into_inner()), false),
            Err(TryLockError::WouldBlock) => (self.lock_contended(), true),
        }
    }

    #[cold]
    fn lock_contended(&self) -> Hold<'_> {
        let mut pauses = 1;
        for _ in 1..LOOKS {
            (0..pauses).for_each(|_| std::hint::spin_loop());
            pauses = PAUSES.min(2 * pauses);
            match self.inner.try_lock() {
                Ok(inner) => return known_hold(inner),
                Err(TryLockError::Poisoned(inner)) => return known_hold(inner.into_inner()),
                Err(TryLockError::WouldBlock) => {}
            }
        }
        known_hold(self.inner.lock().unwrap_or_else(PoisonError::into_inner))
    }

    /// Takes the lock for a worker that comes back from a function. It may give way: one worker runs short functions sooner than several that compete
    /// for the lock.
    #[inline(always)]
    fn lock_after_function(&self, since: u64) -> WorkerHold<'_> {
        let now = self.now();
        let (inner, was_taken) = self.lock_seeing();
        let gives_way = was_taken && now.saturating_sub(since) < SHORT && self.busy.load(Ordering::Relaxed) > 1;
        WorkerHold { inner, now, gives_way }
    }

    /// Takes the lock for a worker without a stage, which doesn't give way again. Busy workers come first, since they may run what is ready sooner.
    #[inline(never)]
    fn lock_at_leisure(&self) -> WorkerHold<'_> {
        #[cfg(test)]
        crate::search::turn();
        for look in 0..LEISURELY_LOOKS {
            let now = self.now();
            match self.inner.try_lock() {
                Ok(inner) => return WorkerHold { inner: known_hold(inner), now, gives_way: false },
                Err(TryLockError::Poisoned(inner)) => return WorkerHold { inner: known_hold(inner.into_inner()), now, gives_way: false },
                Err(TryLockError::WouldBlock) if self.busy.load(Ordering::Relaxed) == 0 => break,
                Err(TryLockError::WouldBlock) if look == 0 => std::hint::spin_loop(),
                Err(TryLockError::WouldBlock) => std::thread::sleep(SLEEP),
            }
        }
        let now = self.now();
        WorkerHold { inner: self.lock_contended(), now, gives_way: false }
    }

    /// Counts a worker as busy, or not any more. The caller has the lock.
    #[inline(never)]
    fn count_busy(&self, is_busy: bool) {
        let busy = self.busy.load(Ordering::Relaxed);
        self.busy.store(if is_busy { busy + 1 } else { busy - 1 }, Ordering::Relaxed);
    }

    /// Tells a test's observer something.
    #[cfg(feature = "testing")]
    #[inline]
    pub(crate) fn tell_watch(&self, tell: impl FnOnce(&crate::testing::Watch)) {
        if let Some(watch) = &self.watch {
            tell(watch);
        }
    }

    /// Changes the request under the lock, and does behind it what follows.
    #[inline]
    pub(crate) fn change<T>(self: &Arc<Core>, act: impl FnOnce(&mut Inner, &mut After) -> T) -> T {
        let (mut behind, now) = (TellsOnDrop::new(self), self.now());
        let mut inner = self.lock();
        inner.ledger.record.advance(now);
        let done = act(&mut inner, &mut behind.after);
        inner.cancel_relays(&mut behind.after);
        inner.follow_todo(self, &mut behind.after);
        if behind.after.jobs > 0 && self.is_inline && is_inline_free() {
            self.begin_inline(behind, inner);
        } else {
            drop(inner);
            let after = behind.into_after();
            if !after.is_nothing() {
                self.tell_now(after);
            }
        }
        #[cfg(feature = "testing")]
        self.tell_watch(|watch| watch.note_changed());
        done
    }

    /// Begins the job that a change asks for under the same hold of the lock, as [`Inline`](crate::Inline) would begin it at once. Then does what
    /// else follows from the change.
    #[inline(never)]
    fn begin_inline(self: &Arc<Core>, mut behind: TellsOnDrop<'_>, mut inner: Hold<'_>) {
        let mut hands = Hands::empty();
        inner.ledger.begin_job();
        let first = inner.step(worker_number(), &mut hands, &mut behind.after).expect("a stage is ready for which a job is asked");
        drop(inner);
        let (mut panicked, mut news) = (None, behind.into_after().news);
        self.ask_for_alarm(&mut news, &mut panicked);
        run_inline(|| as_worker(|who| self.work_on(who, Core::TURN, &mut hands, Some(first))), &mut panicked);
        if let Some(news) = news {
            self.tell_notices(news, &mut panicked);
        }
        if let Some(payload) = panicked {
            resume_unwind(payload);
        }
    }

    /// Nanoseconds since the request began. The clock may be a user's, so it isn't asked under the lock. If it panics, the time of the call before
    /// holds.
    #[inline]
    pub(crate) fn now(&self) -> u64 {
        #[cfg(feature = "testing")]
        if let Some(watch) = &self.watch {
            return watch.now();
        }
        match self.begun_at {
            Some(begun) => nanos().saturating_sub(begun),
            None => self.ask_clock(),
        }
    }

    fn ask_clock(&self) -> u64 {
        let since = catch_unwind(AssertUnwindSafe(|| self.clock.now())).unwrap_or_default().saturating_sub(self.begun);
        u64::try_from(since.as_nanos()).unwrap_or(u64::MAX)
    }

    // Changes by callers.

    #[inline]
    pub(crate) fn attach(self: &Arc<Core>, who: u8, within: Option<u16>, form: WordForm, call: Option<StageFn>, made: Made) -> Result<u16, Refusal> {
        let call = call.map(carry_context);
        self.change(|inner, after| inner.attach((who, within), form, &[], call, made, after))
    }

    /// Attaches a stage behind others, in the scope of the first.
    #[inline]
    pub(crate) fn attach_behind(self: &Arc<Core>, who: u8, form: WordForm, of: &[u16], call: StageFn, made: Made) -> Result<u16, Refusal> {
        let call = carry_context(call);
        self.change(|inner, after| {
            let within = inner.scopes.scope_of(of[0]);
            inner.attach((who, within), form, of, Some(call), made, after)
        })
    }

    /// Attaches a stage that waits for all of these, or for one of them.
    pub(crate) fn gather(self: &Arc<Core>, by: (u8, Option<u16>), form: cf_graph::Form, of: &[u16], made: Made) -> Result<u16, Refusal> {
        self.change(|inner, after| inner.gather(by, form, of, made, after))
    }

    /// Attaches a stage that ends once so many of these have values, or too few can have them still.
    pub(crate) fn join(self: &Arc<Core>, by: (u8, Option<u16>), wanted: u16, of: &[u16], made: Made) -> Result<u16, Refusal> {
        self.change(|inner, after| {
            let stage = inner.join(by, wanted, of, made, after)?;
            inner.scopes.note_taken(of);
            Ok(stage)
        })
    }

    /// Attaches a composing stage behind another one, in the scope of that.
    pub(crate) fn attach_composing(self: &Arc<Core>, who: u8, form: WordForm, of: u16, call: StageFn, made: Made) -> Result<u16, Refusal> {
        let call = carry_context(call);
        self.change(|inner, after| {
            let within = inner.scopes.scope_of(of);
            inner.attach_composing((who, within), form, of, call, made, after)
        })
    }

    /// Settles a relay as the stage of another request was. Relays that follow are added to `feeds`, so that a chain of requests takes no stack.
    fn settle_relay(self: &Arc<Core>, relay: u16, told: Result<Val, Error>, feeds: &mut Vec<Feed>) {
        let late = self.change(|inner, after| {
            inner.forget_fed_stage(relay);
            let late = inner.settle(RELAY, relay, told, after);
            feeds.append(&mut after.notices().feeds);
            late
        });
        drop(late);
    }

    /// Settles a stage. Gives the result back if the stage is settled already.
    pub(crate) fn settle(self: &Arc<Core>, who: u8, stage: u16, with: Result<Val, Error>) -> Result<(), Result<Val, Error>> {
        self.change(|inner, after| inner.settle(who, stage, with, after))
    }

    /// Hangs a relay of another request on a stage of this one, which settles it.
    pub(crate) fn feed_relay(self: &Arc<Core>, stage: u16, to: Arc<Core>, relay: u16) {
        #[cfg(feature = "testing")]
        self.tell_watch(|watch| watch.note_link(stage, &to, relay));
        let mut own = self.lock();
        match own.end_of(stage) {
            Some(told) => {
                drop(own);
                let _ = to.settle(RELAY, relay, told);
            }
            None => {
                own.extra(stage).feeds.push(StageOf { core: Arc::clone(&to), stage: relay });
                own.scopes.note_taken(&[stage]);
                drop(own);
                if !to.stand_for(relay, self, stage) {
                    self.unhang_relay(stage, &to, relay);
                }
            }
        }
    }

    /// Notes for which stage a relay stands, so that waiting workers also run functions of that stage's request. False if the relay is settled.
    fn stand_for(&self, relay: u16, of: &Arc<Core>, stage: u16) -> bool {
        let mut inner = self.lock();
        if inner.slot(relay).is_settled() {
            return false;
        }
        inner.extra(relay).of = Some(WeakStageOf { core: Arc::downgrade(of), stage });
        let helpers = take(&mut inner.helpers);
        drop(inner);
        helpers.into_iter().for_each(Waker::wake);
        true
    }

    /// Takes a relay off a stage, since the relay is settled otherwise.
    fn unhang_relay(&self, stage: u16, to: &Arc<Core>, relay: u16) {
        let mut inner = self.lock();
        let unfed = inner.take_feed(stage, to, relay);
        drop(inner);
        drop(unfed);
    }

    /// Cancels relays that were made for one stage once that stage is settled, or at once if it was refused. Otherwise another request's stage would
    /// keep this request alive.
    pub(crate) fn cancel_relays_with(self: &Arc<Core>, stage: Result<u16, Refusal>, relays: Vec<u16>) {
        if !relays.is_empty() {
            self.change(|inner, _| inner.cancel_relays_with(stage.ok(), relays));
        }
    }

    pub(crate) fn name_stage(&self, stage: u16, name: Cow<'static, str>) {
        self.lock().names.insert(stage, name);
    }

    /// Sets a limit: the stage times out after `wait`, or gets this value. The value is dropped as soon as the stage is settled.
    pub(crate) fn set_limit(self: &Arc<Core>, stage: u16, wait: Duration, gives: Option<Val>) {
        #[cfg(feature = "testing")]
        self.tell_watch(|watch| watch.note_limit(self, stage, wait));
        self.change(|inner, after| inner.set_limit(stage, wait, gives, after));
        // The request asks for an alarm only where it has none that comes first.
        retry_ringer();
    }

    /// Passes time to the moment of an alarm.
    pub(crate) fn ring_alarm(self: &Arc<Core>, alarm: u64) {
        self.change(|inner, after| inner.ring_alarm(alarm, after));
    }

    /// Passes time to this moment, in a test's run, which rings no alarms.
    #[cfg(feature = "testing")]
    pub(crate) fn pass_time_to(self: &Arc<Core>, moment: u64) {
        self.change(|inner, after| inner.pass_time_to(moment, after));
    }

    /// Fails what waits for an alarm that was dropped.
    pub(crate) fn give_up_alarm(self: &Arc<Core>, alarm: u64) {
        let is_awaited = self.lock().awaited.is_for(alarm);
        if is_awaited {
            self.change(|inner, after| inner.give_up_alarm(alarm, after));
        }
    }

    /// Keeps the handle that stops an alarm's timer, and drops it once the alarm isn't wanted or the request ends.
    #[cfg(feature = "tokio")]
    pub(crate) fn keep_timer(&self, alarm: u64, timer: Box<dyn std::any::Any + Send>) {
        let mut inner = self.lock();
        let back = if inner.awaited.is_for(alarm) { inner.awaited.timer.replace(timer) } else { Some(timer) };
        drop(inner);
        drop(back);
    }

    /// Cancels all that isn't settled, from the last stage to the first.
    pub(crate) fn cancel_all(self: &Arc<Core>, who: u8) {
        self.change(|inner, after| {
            for stage in (0..inner.ledger.stages).rev() {
                if !inner.slot(stage).is_settled() {
                    let _ = inner.settle(who, stage, Err(Error::Cancelled), after);
                }
            }
        });
    }

    // Waiting.

    /// Gives the result of a stage. Until there is one, keeps the handle's waker at `place`, or at the place that is given back.
    pub(crate) fn poll(&self, stage: u16, place: Option<u32>, waker: &Waker) -> (Poll<Result<Val, Error>>, Option<u32>) {
        if let Some(place) = place {
            let mut inner = self.lock();
            if let Some(told) = inner.end_of(stage) {
                return (Poll::Ready(told), None);
            }
            if inner.waiting.will_wake(place, waker) {
                return (Poll::Pending, None);
            }
        }
        // A waker is cloned and dropped by code of others.
        let waker = waker.clone();
        let mut guard = self.lock();
        guard.scopes.note_taken(&[stage]);
        if let Some(told) = guard.end_of(stage) {
            drop(guard);
            return (Poll::Ready(told), None);
        }
        let inner = &mut *guard;
        let (old, kept) = match place {
            Some(place) => (inner.waiting.replace(place, waker), None),
            None => (None, Some(inner.waiting.keep(stage, waker))),
        };
        drop(guard);
        drop(old);
        (Poll::Pending, kept)
    }

    /// Forgets the waker of a handle.
    pub(crate) fn forget_waker(&self, stage: u16, place: u32) {
        let mut inner = self.lock();
        let old = if inner.slot(stage).is_settled() { None } else { inner.waiting.remove(stage, place) };
        drop(inner);
        drop(old);
    }

    pub(crate) fn is_settled(&self, stage: u16) -> bool {
        #[cfg(feature = "testing")]
        self.tell_watch(|watch| watch.note_read(stage));
        self.lock().slot(stage).is_settled()
    }

    pub(crate) fn peek(&self, stage: u16) -> Option<Result<Val, Error>> {
        let mut inner = self.lock();
        inner.scopes.note_taken(&[stage]);
        inner.end_of(stage)
    }

    /// The values of these stages, or the error of the first that has one.
    pub(crate) fn values(&self, stages: &[u16]) -> Result<Vec<Val>, Error> {
        #[cfg(feature = "testing")]
        stages.iter().for_each(|stage| self.tell_watch(|watch| watch.note_read(*stage)));
        let (mut values, inner) = (Vec::with_capacity(stages.len()), self.lock());
        for stage in stages {
            values.push(inner.end_of(*stage).unwrap_or(Err(Error::BadAnswer))?);
        }
        Ok(values)
    }

    /// Those that have values by now.
    pub(crate) fn values_there(&self, stages: &[u16]) -> Vec<Val> {
        #[cfg(feature = "testing")]
        stages.iter().for_each(|stage| self.tell_watch(|watch| watch.note_read(*stage)));
        let inner = self.lock();
        stages.iter().filter_map(|stage| inner.end_of(*stage)?.ok()).collect()
    }

    // Working.

    /// Runs ready functions, at most so many, until none is left.
    pub(crate) fn work(self: &Arc<Core>, who: u8, most: usize) {
        self.work_on(who, most, &mut Hands::empty(), None);
    }

    /// Does the same for a job that may have begun with a stage in its hands, whose function is `next`.
    fn work_on(self: &Arc<Core>, who: u8, most: usize, hands: &mut Hands, mut next: Option<StageFn>) {
        let _running = mark_running(self, true);
        let (mut left, mut since, mut panicked) = (most, 0, None);
        let mut job = CountedJob { core: self, state: if next.is_some() { JobState::Begun } else { JobState::Coming } };
        while job.state != JobState::Over {
            let mut behind = TellsOnDrop::new(self);
            let after = &mut behind.after;
            let WorkerHold { mut inner, now, gives_way } = match next {
                Some(call) => {
                    left -= 1;
                    set_called(hands.task.stage());
                    let gave = catch_unwind(AssertUnwindSafe(|| call(&hands.given)));
                    set_called(None);
                    match gave {
                        Ok(Returned::Value(value)) => hands.keep_value(value),
                        gave => self.take_returned(who, hands, gave, &mut panicked),
                    }
                    self.lock_after_function(since)
                }
                None => self.lock_at_leisure(),
            };
            since = now;
            inner.ledger.record.advance(now);
            if job.state == JobState::Coming {
                job.enter(JobState::Begun, &mut inner);
            }
            let may_claim = left > 0 && !gives_way;
            next = if may_claim {
                inner.step(who, hands, after)
            } else {
                inner.finish_last(who, hands, after);
                None
            };
            let state = match next {
                Some(_) => JobState::Busy,
                None if left > 0 && gives_way => JobState::GaveWay,
                None => JobState::Over,
            };
            inner.cancel_relays(after);
            job.enter(state, &mut inner);
            inner.follow_todo(self, after);
            drop(inner);
            let after = behind.into_after();
            if !after.is_nothing() {
                self.tell_all(after, &mut panicked);
            }
        }
        if let Some(payload) = panicked {
            resume_unwind(payload);
        }
    }

    /// Takes what a function returned, other than a value. A link or a future is handled at once, and leaves the hands.
    #[inline(never)]
    fn take_returned(self: &Arc<Core>, who: u8, hands: &mut Hands, gave: Result<Returned, Payload>, panicked: &mut Option<Payload>) {
        let stage = hands.task.stage().expect("its function was called");
        match self.begin_future(who, stage, gave, panicked) {
            None => hands.task.clear(),
            Some(gave @ Returned::Stage(..)) => {
                catch_panic(panicked, || self.finish(who, stage, gave));
                hands.task.clear();
            }
            Some(gave) => hands.keeps = content_of(gave),
        }
    }

    /// Helps a worker that waits for a stage: runs a function or polls a future that the stage needs, if `is_own`. Otherwise another executor has to.
    /// Gives the stages for which it waits.
    pub(crate) fn help_stage(self: &Arc<Core>, stage: u16, is_own: bool, waker: Option<&Waker>) -> Help {
        self.help_by(waker, |inner| inner.find_need(stage, is_own))
    }

    /// Runs any function or future of the request, or gives the stages for which its relays wait.
    pub(crate) fn help_any(self: &Arc<Core>, is_own: bool, waker: &Waker) -> Help {
        self.help_by(Some(waker), |inner| inner.find_any_need(is_own))
    }

    fn help_by(self: &Arc<Core>, waker: Option<&Waker>, find: impl FnOnce(&mut Inner) -> Needs) -> Help {
        let waker = waker.cloned();
        let found = as_worker(|who| {
            self.change(|inner, after| {
                if waker.is_some() {
                    self.has_helpers.store(true, Ordering::SeqCst);
                }
                let needs = find(inner);
                match needs.first {
                    Some(First::Function(stage)) => {
                        let claimed = inner.claim(who, stage, after);
                        return Ok(Begun::Function(stage, claimed.call, inner.call_args(claimed.args)));
                    }
                    Some(First::Future(task)) => return Ok(Begun::Future(task)),
                    None => {}
                }
                inner.helpers.extend(waker.filter(|waker| !inner.helpers.iter().any(|kept| kept.will_wake(waker))));
                Err(Help::Waits { elsewhere: needs.elsewhere, is_open: needs.is_open })
            })
        });
        let mut panicked = None;
        match found {
            Err(waits) => return waits,
            Ok(Begun::Future(task)) => as_worker(|_| Polling::poll_again(self, task)),
            Ok(Begun::Function(stage, call, given)) => {
                let _running = mark_running(self, false);
                as_worker(|who| {
                    set_called(Some(stage));
                    let gave = catch_unwind(AssertUnwindSafe(|| call(&given)));
                    set_called(None);
                    if let Some(gave) = self.begin_future(who, stage, gave, &mut panicked) {
                        self.finish(who, stage, gave);
                    }
                });
            }
        }
        if let Some(payload) = panicked {
            resume_unwind(payload);
        }
        Help::Did
    }

    /// Forgets the waker of a worker that doesn't wait any more.
    pub(crate) fn forget_helper(&self, waker: &Waker) {
        let mut inner = self.lock();
        let (forgotten, kept) = take(&mut inner.helpers).into_iter().partition(|kept| kept.will_wake(waker));
        inner.helpers = kept;
        drop(inner);
        drop::<Vec<Waker>>(forgotten);
    }

    /// Wakes the waiting workers, since a future was woken.
    pub(crate) fn wake_helpers(&self) {
        if self.has_helpers.load(Ordering::SeqCst) && self.has_helpers.swap(false, Ordering::SeqCst) {
            let helpers = take(&mut self.lock().helpers);
            helpers.into_iter().for_each(|helper| helper.wake());
        }
    }

    /// Lets another job come in place of one whose function waits.
    pub(crate) fn begin_rest(self: &Arc<Core>) {
        self.resting.fetch_add(1, Ordering::SeqCst);
        swallow_panic(|| self.change(|_, _| ()));
    }

    pub(crate) fn end_rest(&self) {
        self.resting.fetch_sub(1, Ordering::SeqCst);
    }

    /// The greatest number of jobs at present.
    #[inline]
    pub(crate) fn job_limit(&self) -> usize {
        self.most.saturating_add(self.resting.load(Ordering::SeqCst))
    }

    /// Gives what a function returned, or begins its future and gives None. A waker or a `Drop` that panics there doesn't end the worker's job.
    fn begin_future(self: &Arc<Core>, who: u8, stage: u16, gave: Result<Returned, Payload>, panicked: &mut Option<Payload>) -> Option<Returned> {
        match gave {
            Ok(Returned::Later(future)) => {
                catch_panic(panicked, || Polling::poll_first(self, who, stage, future));
                None
            }
            Ok(gave) => Some(gave),
            Err(payload) => Some(Returned::Error(Error::Panicked(Panic::new(payload)))),
        }
    }

    /// Finishes a claimed stage.
    pub(crate) fn finish(self: &Arc<Core>, who: u8, stage: u16, gave: Returned) {
        self.change(|inner, after| inner.finish(self, who, stage, gave, after));
    }

    /// Does what follows from a change. A panic of a waker or a `Drop` goes on to the caller.
    fn tell_now(self: &Arc<Core>, after: After) {
        let mut panicked = None;
        self.tell_all(after, &mut panicked);
        if let Some(payload) = panicked {
            resume_unwind(payload);
        }
    }

    /// Does what follows from changes. The lock is free. If a waker or a `Drop` panics, the rest is done all the same, and the first panic is kept.
    fn tell_all(self: &Arc<Core>, mut after: After, panicked: &mut Option<Payload>) {
        self.ask_for_alarm(&mut after.news, panicked);
        for _ in 0..after.jobs {
            catch_panic(panicked, || self.spawn(Job::new(JobKind::Work(Arc::clone(self)))));
        }
        if let Some(news) = after.news {
            self.tell_notices(news, panicked);
        }
    }

    fn ask_for_alarm(self: &Arc<Core>, news: &mut Option<Box<Notices>>, panicked: &mut Option<Payload>) {
        if let Some(AskedAlarm { number, wait }) = news.as_mut().and_then(|news| news.alarm.take()) {
            catch_panic(panicked, || self.clock.ring_after(wait, Alarm { core: Arc::downgrade(self), number, wait }));
        }
    }

    fn tell_notices(self: &Arc<Core>, mut news: Box<Notices>, panicked: &mut Option<Payload>) {
        while let Some(waker) = news.wakers.pop() {
            catch_panic(panicked, || waker.wake());
        }
        while let Some(task) = news.tasks.pop() {
            catch_panic(panicked, || task.stop(self));
        }
        while let Some(Feed { relay: StageOf { core, stage }, told }) = news.feeds.pop() {
            let feeds = &mut news.feeds;
            catch_panic(panicked, || core.settle_relay(stage, told, feeds));
            catch_panic(panicked, || drop(core));
        }
        while let Some(Link { to: StageOf { core, stage }, relay }) = news.links.pop() {
            catch_panic(panicked, || core.feed_relay(stage, Arc::clone(self), relay));
            catch_panic(panicked, || drop(core));
        }
        while let Some(Link { to: WeakStageOf { core, stage }, relay }) = news.ends.pop() {
            catch_panic(panicked, || core.upgrade().into_iter().for_each(|core| core.unhang_relay(stage, self, relay)));
        }
        while let Some(dropped) = news.dropped.pop() {
            catch_panic(panicked, || drop(dropped));
        }
        news.keep_room();
    }

    /// Spawns a job. If the executor gives it back, the job is dropped, and so refused.
    pub(crate) fn spawn(&self, job: Job) {
        drop(self.spawn.spawn(job));
    }

    /// Fails the ready stages, since a job wasn't taken, or was dropped.
    pub(crate) fn refuse_ready(self: &Arc<Core>) {
        self.change(|inner, after| {
            inner.jobs -= 1;
            inner.ledger.begin_job();
            for stage in inner.ready_without_job(self.resting.load(Ordering::SeqCst)) {
                let _ = inner.settle(CLOCK, stage, Err(Refusal::Closed.into()), after);
            }
        });
    }
}

/// What follows from a hold of the lock. If the hold panics, it is done as the thread unwinds, once the lock is free.
struct TellsOnDrop<'a> {
    core: &'a Arc<Core>,
    after: After,
}

impl<'a> TellsOnDrop<'a> {
    #[inline(always)]
    fn new(core: &'a Arc<Core>) -> TellsOnDrop<'a> {
        TellsOnDrop { core, after: After::default() }
    }

    #[inline(always)]
    fn into_after(mut self) -> After {
        let after = take(&mut self.after);
        forget(self);
        after
    }
}

impl Drop for TellsOnDrop<'_> {
    #[cold]
    fn drop(&mut self) {
        let after = take(&mut self.after);
        swallow_panic(|| self.core.tell_now(after));
    }
}

/// A hold that a worker took, when it did, and whether the worker gives way.
struct WorkerHold<'a> {
    inner: Hold<'a>,
    now: u64,
    gives_way: bool,
}

/// A job that the request counts. One that panics under the lock is over.
struct CountedJob<'a> {
    core: &'a Arc<Core>,
    state: JobState,
}

/// Where a job stands.
#[derive(Clone, Copy, PartialEq, Eq)]
enum JobState {
    /// It was asked for, and is on its way.
    Coming,
    /// It has come, and isn't counted as busy yet.
    Begun,
    /// It has a stage in its hands.
    Busy,
    /// It gave way with nothing in its hands, and takes the lock again at leisure.
    GaveWay,
    /// It isn't counted any more.
    Over,
}

impl CountedJob<'_> {
    /// Changes the request's counts of jobs, under its lock.
    #[inline]
    fn enter(&mut self, state: JobState, inner: &mut Inner) {
        let before = replace(&mut self.state, state);
        if before == JobState::Coming {
            inner.ledger.begin_job();
        }
        if state == JobState::Over {
            inner.jobs -= 1;
        }
        if (before == JobState::Busy) != (state == JobState::Busy) {
            self.core.count_busy(state == JobState::Busy);
        }
    }

    #[cold]
    fn give_up(&mut self) {
        let core = self.core;
        self.enter(JobState::Over, &mut core.lock());
    }
}

impl Drop for CountedJob<'_> {
    #[inline]
    fn drop(&mut self) {
        if self.state != JobState::Over {
            self.give_up();
        }
    }
}

/// The lock of a request.
#[cfg(not(test))]
pub(crate) type Hold<'a> = MutexGuard<'a, Inner>;
/// The lock of a request, of which tests know that this thread has it.
#[cfg(test)]
pub(crate) type Hold<'a> = crate::held::Known<MutexGuard<'a, Inner>>;

#[inline(always)]
fn known_hold(inner: MutexGuard<'_, Inner>) -> Hold<'_> {
    #[cfg(test)]
    let inner = crate::held::Known::new(inner);
    inner
}

thread_local! {
    static DROPPED: TurnQueue<Remains> = const { TurnQueue::new() };
}

impl Drop for Core {
    /// Hands the history to the hook of [`Ends`](crate::Ends), and to the [`Meter`](crate::Meter). Then drops the slots in turn: they may hold the last handle of another request, and a
    /// chain of requests must take no stack.
    fn drop(&mut self) {
        let inner = self.inner.get_mut().unwrap_or_else(PoisonError::into_inner);
        let (ending, metered) = (inner.ending.take(), inner.metered.take());
        if let Some(metered) = metered {
            metered.tell_end(History::take_from(self).0);
        }
        if let Some(ending) = ending {
            let (history, describe) = History::take_from(self);
            ending.ends.tell_end(history, describe, ending.within);
        }
        let kept = self.inner.get_mut().unwrap_or_else(PoisonError::into_inner).take_remains();
        if !kept.is_empty() {
            run_in_drop(|| do_in_turn(&DROPPED, kept, drop));
        }
    }
}

/// What a waiting worker did, or what it waits for.
pub(crate) enum Help {
    Did,
    /// Stages of other requests, and whether an open promise or future is needed.
    Waits {
        elsewhere: Vec<StageOf>,
        is_open: bool,
    },
}

/// What an open stage needs.
#[derive(Default)]
pub(crate) struct Needs {
    /// The work that a worker can do for it.
    pub(crate) first: Option<First>,
    /// The stages of other requests for which relays stand.
    pub(crate) elsewhere: Vec<StageOf>,
    /// Whether it needs a promise or a future, which any function may settle or wake.
    pub(crate) is_open: bool,
}

/// A stage whose function is ready, or a future that was woken.
pub(crate) enum First {
    Function(u16),
    Future(Arc<StageFuture>),
}

enum Begun {
    Function(u16, StageFn, CallArgs),
    Future(Arc<StageFuture>),
}

#[cfg(test)]
mod tests {
    use super::*;
    use crate::{HandClock, Request};
    use std::sync::mpsc::channel;
    use std::thread;

    const LONG: Duration = Duration::from_secs(20);

    /// A thread for each job, so many at a time.
    struct Threads(usize);

    impl Spawn for Threads {
        fn spawn(&self, job: Job) -> Result<(), Job> {
            thread::spawn(move || job.run());
            Ok(())
        }

        fn parallelism(&self) -> usize {
            self.0
        }
    }

    /// Whatever bound an executor says, a function that waits takes no other's place.
    #[test]
    fn who_rests_takes_no_place_under_any_bound() {
        for most in [0, 1, usize::MAX] {
            let request = Request::new("bounds", Threads(most));
            let gate = request.promise::<i32>();
            let of = gate.clone();
            // A wait for a while runs no function meanwhile.
            let rests = request.supply(move || of.wait_timeout(LONG).expect("it is settled").unwrap());
            while request.0.resting.load(Ordering::SeqCst) == 0 {
                thread::yield_now();
            }
            assert_eq!(request.supply(|| 3).wait_timeout(LONG).expect("it is run").unwrap(), 3, "{most}");
            gate.complete(4).unwrap();
            assert_eq!(rests.wait_timeout(LONG).expect("it ends").unwrap(), 4);
        }
    }

    fn comes_to(request: &Request, busy: usize) {
        let until = std::time::Instant::now() + LONG;
        while request.0.busy.load(Ordering::SeqCst) != busy {
            assert!(std::time::Instant::now() < until, "{busy} workers have a stage in their hands");
            thread::yield_now();
        }
    }

    /// One worker's function takes long. The other one finds the lock taken as it comes back from a short one. It finishes that, and then goes on
    /// with what is ready.
    #[test]
    fn who_gives_way_goes_on() {
        // The clock stands, so each function is short.
        let request = Request::with_clock("gives way", Arc::new(Threads(2)), Arc::new(HandClock::new()));
        let ((opens, open), (goes, go)) = (channel::<()>(), channel::<()>());
        let long = request.supply(move || open.recv().unwrap());
        let next = request.supply(move || go.recv().unwrap()).then(|()| 2).then(|n| n + 1);
        comes_to(&request, 2);
        let held = request.0.lock();
        goes.send(()).unwrap();
        thread::sleep(Duration::from_millis(20));
        drop(held);
        assert_eq!(next.wait_timeout(LONG).expect("it goes on").unwrap(), 3);
        comes_to(&request, 1);
        opens.send(()).unwrap();
        long.wait_timeout(LONG).expect("it ends").unwrap();
        comes_to(&request, 0);
        assert!(request.history().is_reproducible());
    }

    /// What it finishes is too late, so nothing else asks for a job that would run what is ready.
    #[test]
    fn who_gives_way_too_late_leaves_nothing() {
        let request = Request::with_clock("too late", Arc::new(Threads(2)), Arc::new(HandClock::new()));
        let ((opens, open), (goes, go)) = (channel::<()>(), channel::<()>());
        let long = request.supply(move || open.recv().unwrap());
        let late = request.supply(move || go.recv().unwrap());
        comes_to(&request, 2);
        let left = request.supply(|| 3);
        assert!(late.cancel());
        let held = request.0.lock();
        goes.send(()).unwrap();
        thread::sleep(Duration::from_millis(20));
        drop(held);
        assert_eq!(left.wait_timeout(LONG).expect("it is run").unwrap(), 3);
        opens.send(()).unwrap();
        long.wait_timeout(LONG).expect("it ends").unwrap();
        assert!(request.history().is_reproducible());
    }
}
