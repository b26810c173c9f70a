//! A stage of a request: a value that will be there, and a future of it.
//!
//! # The design
//!
//! A request is one machine of the proved library and the Rust values that the machine knows by numbers. Who may settle a
//! stage, which stage is to be run next, what follows from a settled stage, and who has to be told is decided by the machine
//! alone. The code of this crate is its host: it hands words in, is told which stages are settled, and does to Rust values
//! what that says.
//!
//! **What is kept where.**
//!
//! - `Stage` is a handle: the request's `Core`, the stage's number or why there is none, and the place of this handle's
//!   waker. Clones share the stage and have wakers of their own.
//! - `Core` (core.rs) is the request: its executor, its clock, and one mutex.
//! - `Inner` (inner.rs) stands under that mutex. It has the `Ledger` (the library's machine, and the `EventTimes` of the moments of
//!   events), a `Slot` for each stage, `Extra`s for the few stages that have more: a future that is polled, relays; and the
//!   `StageLimit`s of stages.
//! - A `Slot` (slot.rs) holds the stage's function until that is claimed, and then what the function gave: a value or an
//!   error. It also holds what the machine told. A value's number in words is that of the stage that gave it, and so is an
//!   error's; stages behind it hold the number alone.
//! - `Wakers` (wakers.rs) has the wakers of all handles that wait, in a row for each stage.
//! - `After` is what one hold of the lock has changed and has yet to tell.
//!
//! **Locks.** The mutex of `Core` guards all of `Inner`. It is held for some hundred nanoseconds, so whoever finds it taken
//! looks a few times before it sleeps. No thread holds the mutexes of two requests, and no code of a user runs under one:
//! what is to be dropped, woken or called goes into `After`. A future that a stage's function gave has a mutex of its own
//! (task.rs), which is held while it is polled. The request's mutex may be taken under that one, never the other way round.
//! Executors and clocks have locks of theirs, and are called without the request's. Where several workers run short functions,
//! a hold that moves from one core to another takes several times as long as one that stays, since all that it needs moves
//! along. So a worker that comes back from a function of less than a microsecond and finds the mutex taken gives way, if
//! another worker has a stage in its hands: it finishes its own, and comes again at leisure (`Core::lock_at_leisure`), as a
//! job does that begins. At leisure means that it looks twice and then sleeps between two looks. Nothing hangs on how
//! long: whoever is busy goes on, and where nobody is, it takes the mutex as any other thread does.
//!
//! **A change** (`Core::change`: `attach`, `settle`, an alarm, the end of a future) goes like this:
//!
//! 1. The clock is asked what time it is. Then the lock is taken.
//! 2. The machine does one word, settles the relays that follow a stage that is settled now, and tells all that it has settled.
//!    `Inner::show_settled` takes that: of each stage the slot is written, its function is kept for dropping, and its wakers are taken.
//!    Polls read slots under the same lock, so whoever is told an outcome can also see the outcomes of all earlier words.
//! 3. `Inner::cancel_relays` cancels relays that nobody needs any more, each by a word, which may settle more.
//! 4. `Inner::follow_todo` does what the machine says is to be done next: it asks for one job, if more stages are ready than jobs are
//!    coming, and fewer jobs run than may, and for an alarm, if the next moment comes before that of the awaited one.
//! 5. Where `Inline` would begin the job at once, it is begun under the same hold (`Core::begin_inline`): the thread claims the
//!    stage, and runs the job in the place where the executor would.
//! 6. The lock is given back. `Core::tell_all` tells what came of it, in this order: the clock is asked for an alarm, jobs go to the
//!    executor, wakers are called, futures of settled stages are dropped, relays of other requests are settled, relays are hung
//!    on other requests' stages or taken off, and at last values and functions are dropped. A relay of another request is a
//!    change there; what it has yet to tell of further requests is added to this list, so a row of requests takes no stack.
//! 7. A panic of any of these keeps no other from being told. The first goes on to the caller at the end.
//!
//! **A function from ready to finished.** A stage is told to be ready, and a `Job` is asked for. The executor runs the job on
//! a thread, which is `Core::work`. Under the lock it claims the lowest ready stage, and has it in its `Hands`, with what the
//! function is called with; without the lock it calls the function, and catches a panic. Under the lock again, one step of the
//! machine finishes that stage and claims the next one, until none is ready or the job has run 64 functions. A job that begins asks for the next
//! one, so nobody has to start many. An executor that gives a job back, or drops it, lets the ready stages fail with
//! `Refusal::Closed`, if no other job of the request is there that doesn't rest. A function that answers too late changes nothing; its value is
//! dropped.
//!
//! **Futures.** Where a function gives a future (`then_async`, `Request::spawn`), its stage stays claimed, and the future is a
//! `Task`, which is polled by jobs, each after a wake. The finish comes with its end. Of a stage that is settled otherwise the
//! machine tells that its function still runs, and the future is dropped.
//!
//! **Waiting.** `poll` keeps the handle's waker under the lock, or reads the slot. `wait` parks its thread behind such a
//! waker. Where the thread is a worker, a `Helper` (help.rs) first lets it run what the stage needs; while it parks, its job
//! isn't counted (`Resting`), and a pool may start a spare thread.
//!
//! **Relays.** A stage of another request can't be a source. A *relay* takes its place: a source of this request that is
//! settled as that stage is. `Core::feed_relay` hangs it there. That stage then keeps this request alive until either is settled; so
//! a relay that was made for one stage alone is cancelled once that is settled (`cancel_relays_with`). A composing stage has a relay right
//! below it. Its finish links to the stage that its function gave, where that is a lower one of the request, and else to the
//! relay.
//!
//! **Scopes.** A scope is a source. What is attached in it is joined to it under the same hold, before anybody can claim it, so that the machine
//! cancels it once the scope is settled (`Inner::put_in`). `Scopes` (scopes.rs) notes which stages are of which scope, for what is attached behind
//! them and for `Scope::join`. That waits for one stage after another, each of which the machine settles once all that is left has values or
//! one of them has failed (`Core::left_of_scope`). A composing stage in a scope lets its relay go, so that nothing is left that nobody needs.
//!
//! **Deadlines.** The machine keeps them, by moments in nanoseconds since the request began, settles by the caller `CLOCK` what is
//! due, and tells the next moment. A `StageLimit` says what its stage gets then: a value, or an error with the while that it had. The
//! request asks its clock for one `Alarm` at a time, at the next moment (`AwaitedAlarm`). `Core::ring_alarm` lets time pass up to the
//! alarm's moment. Where the first deadline is gone by then, it comes for nothing, and another is asked for. An alarm keeps no
//! request alive. It is wanted until it is rung, another is asked for, or there is no next moment. One that is wanted and dropped
//! lets the stages that have deadlines fail with `Refusal::NoClock`.
//!
//! **Room.** A request has at most 4,096 stages. The machine has room for some of them at first, and grows where
//! there is none. Where there is none, the call gives a handle of a stage that has failed with `Refusal::Full`: its `at` is an
//! error, and nothing was attached.
//!
//! **Which code calls a user's.** `Core::work` and `Core::help_by` (a stage's function), `Polling::poll` (a future), `Core::tell_all` (wakers,
//! and the `Drop` of values, functions, errors and futures), `Core::spawn` (`Spawn::spawn`), `Core::now` and `Core::tell_all` (`Clock`),
//! `Core::poll` (cloning and dropping a waker), and histories and `Debug` (`Describe`, `Display` of errors).
use crate::core::Core;
use crate::describe::escape_text;
use crate::error::{BoxError, Error, Refusal};
use crate::help::Helper;
use crate::name::Made;
use crate::request::{await_future, Request};
use crate::spawn::{caller_number, run_in_drop, Resting, StandIn, CALLER};
use crate::value::{self, CallArgs, Returned, StageFn, Val};
use crate::word::WordForm;
use sealed::Sealed;
use std::borrow::Cow;
use std::fmt;
use std::future::Future;
use std::marker::PhantomData;
use std::pin::Pin;
use std::sync::atomic::{AtomicBool, Ordering};
use std::sync::Arc;
use std::task::{Context, Poll, Wake, Waker};
use std::thread::{self, Thread};
use std::time::{Duration, Instant};

/// A stage. This is a handle, whose clones are the same stage. Dropping all handles doesn't cancel it, since other stages may depend on it;
/// [`cancel_on_drop`](Stage::cancel_on_drop) does.
///
/// It is a future of `Result<T, Error>`, which any runtime may poll, by many tasks at a time, and again once it was ready. What is attached
/// takes the handle itself, as the methods of futures do: with `&self` the extension traits of the crate `futures`, where they are in scope,
/// would come first with their `then`, `and_then` and `inspect`, which mean something else. Clone it where it is needed again.
///
/// ```
/// let request = cf::Request::new("order 17", cf::Inline);
/// let price = request.supply(|| 49);
/// let doubled = price.clone().then(|cents| cents * 2);
/// assert_eq!((price.wait().unwrap(), doubled.wait().unwrap()), (49, 98));
/// ```
#[must_use = "a stage tells what its function gave, or that it failed"]
pub struct Stage<T> {
    pub(crate) core: Arc<Core>,
    pub(crate) at: Result<u16, Refusal>,
    waits: KeptWaker,
    of: PhantomData<fn() -> T>,
}

/// The place of a handle's waker, once the handle has waited: its request, its stage, and the index. The waker is forgotten with the handle.
struct KeptWaker(Option<(Arc<Core>, u16, u32)>);

impl KeptWaker {
    #[cold]
    fn forget_now(&mut self) {
        if let Some((core, number, place)) = self.0.take() {
            core.forget_waker(number, place);
        }
    }
}

impl Drop for KeptWaker {
    #[inline]
    fn drop(&mut self) {
        if self.0.is_some() {
            self.forget_now();
        }
    }
}

impl<T> Stage<T> {
    pub(crate) fn new(core: &Arc<Core>, at: Result<u16, Refusal>) -> Stage<T> {
        Stage { core: Arc::clone(core), at, waits: KeptWaker(None), of: PhantomData }
    }

    /// The stage's number in the request's history. A refused stage has none.
    ///
    /// ```
    /// let request = cf::Request::new("order 17", cf::Inline);
    /// assert_eq!(request.supply(|| 1).number(), Some(0));
    /// ```
    pub fn number(&self) -> Option<u16> {
        self.at.ok()
    }

    /// The stage's request.
    ///
    /// ```
    /// let request = cf::Request::new("order 17", cf::Inline);
    /// assert_eq!(request.supply(|| 1).request().name(), "order 17");
    /// ```
    pub fn request(&self) -> Request {
        Request(Arc::clone(&self.core), Ok(None))
    }

    /// The same, which attaches stages in the scope of this one.
    fn request_within(&self) -> Request {
        Request(Arc::clone(&self.core), self.at.map(|number| self.core.lock().scopes.scope_of(number)))
    }

    /// Names the stage in histories, and gives the stage back.
    ///
    /// ```
    /// let request = cf::Request::new("order 17", cf::Inline);
    /// let price = request.promise::<u32>().named("price");
    /// assert_eq!(format!("{price:?}"), "Stage(0 price, pending)");
    /// ```
    pub fn named(self, name: impl Into<Cow<'static, str>>) -> Stage<T> {
        if let Ok(number) = self.at {
            self.core.name_stage(number, name.into());
        }
        self
    }

    /// Whether the stage has a value or an error.
    ///
    /// ```
    /// let request = cf::Request::new("order 17", cf::Inline);
    /// assert!(!request.promise::<u32>().is_settled());
    /// ```
    pub fn is_settled(&self) -> bool {
        self.at.map_or(true, |number| self.core.is_settled(number))
    }

    /// Tells a test's observer that the stage is read.
    #[inline]
    fn tell_watch_of_read(&self) {
        #[cfg(feature = "testing")]
        self.at.into_iter().for_each(|number| self.core.tell_watch(|watch| watch.note_read(number)));
    }

    pub(crate) fn end_if_settled(&self) -> Option<Result<Val, Error>> {
        self.tell_watch_of_read();
        match self.at {
            Ok(number) => self.core.peek(number),
            Err(why) => Some(Err(why.into())),
        }
    }

    /// Fails the stage, unless it is settled. True if this call did. An [`Error::Cancelled`] cancels it, and an [`Error::TimedOut`] times it out.
    ///
    /// ```
    /// let request = cf::Request::new("order 17", cf::Inline);
    /// let price = request.promise::<u32>();
    /// assert!(price.fail("no stock") && !price.fail("again"));
    /// assert_eq!(price.wait().unwrap_err().to_string(), "no stock");
    /// ```
    pub fn fail(&self, error: impl Into<BoxError>) -> bool {
        self.at.map_or(false, |number| self.core.settle(caller_number(), number, Err(Error::from_boxed(error.into()))).is_ok())
    }

    /// Cancels the stage, unless it is settled. True if it is cancelled then. A function that runs isn't stopped, and its answer comes too late; a
    /// future is dropped.
    ///
    /// ```
    /// let request = cf::Request::new("order 17", cf::Inline);
    /// let price = request.promise::<u32>();
    /// assert!(price.cancel());
    /// assert!(price.wait().unwrap_err().is_cancelled());
    /// ```
    pub fn cancel(&self) -> bool {
        self.at.map_or(false, |number| self.core.settle(caller_number(), number, Err(Error::Cancelled)).is_ok())
    }

    /// Gives a future of the stage that cancels it when dropped.
    ///
    /// ```
    /// let request = cf::Request::new("order 17", cf::Inline);
    /// let price = request.promise::<u32>();
    /// drop(price.clone().cancel_on_drop());
    /// assert!(price.wait().unwrap_err().is_cancelled());
    /// ```
    pub fn cancel_on_drop(self) -> CancelOnDrop<T> {
        CancelOnDrop(self)
    }

    /// Fails the stage with [`Error::TimedOut`] after `wait` by the request's clock, unless it is settled, and gives the stage back. Of several
    /// limits the first that comes settles it. A function that runs goes on, and its answer comes too late; a future is dropped.
    ///
    /// ```
    /// use std::time::Duration;
    /// let request = cf::Request::new("order 17", cf::Inline);
    /// let price = request.promise::<u32>().or_timeout(Duration::from_millis(1)).recover(|_| 52);
    /// assert_eq!(price.wait().unwrap(), 52);
    /// ```
    pub fn or_timeout(self, wait: Duration) -> Stage<T> {
        if let Ok(number) = self.at {
            self.core.set_limit(number, wait, None);
        }
        self
    }

    /// The number of the stage from which the error came: its function returned the error, or it was failed or timed out. None without an error, and
    /// if the stage was cancelled.
    ///
    /// ```
    /// let request = cf::Request::new("order 17", cf::Inline);
    /// let price = request.try_supply(|| Err::<u32, _>("no stock"));
    /// let told = price.clone().then(|cents| cents + 1);
    /// assert_eq!(told.blamed(), price.number());
    /// ```
    pub fn blamed(&self) -> Option<u16> {
        self.tell_watch_of_read();
        self.core.lock().slot(self.at.ok()?).blamed()
    }

    pub(crate) fn poll_value(&mut self, cx: &mut Context<'_>) -> Poll<Result<Val, Error>> {
        self.tell_watch_of_read();
        let number = match self.at {
            Ok(number) => number,
            Err(why) => return Poll::Ready(Err(why.into())),
        };
        let before = self.waits.0.as_ref().map(|(_, _, place)| *place);
        let (polled, place) = self.core.poll(number, before, cx.waker());
        if let (None, Some(place)) = (before, place) {
            self.waits.0 = Some((Arc::clone(&self.core), number, place));
        }
        polled
    }

    pub(crate) fn wait_value(&self, wait: Option<Duration>) -> Option<Result<Val, Error>> {
        // A function may wait, and somebody else goes on with its runtime if that can be.
        #[cfg(feature = "tokio")]
        if caller_number() == CALLER && wait != Some(Duration::ZERO) {
            crate::runtime::may_block();
        }
        if let Some(told) = self.end_if_settled() {
            return Some(told);
        }
        let stage = self.at.ok()?;
        #[cfg(feature = "testing")]
        if self.core.watch.as_ref().map_or(false, |watch| watch.wait_for_stage(&self.core, stage, wait)) {
            return self.end_if_settled();
        }
        let until = wait.and_then(|wait| Instant::now().checked_add(wait));
        let parked = Arc::new(Parked { thread: thread::current(), is_woken: AtomicBool::new(false) });
        let waker = Waker::from(Arc::clone(&parked));
        let mut waiting = self.clone();
        let (mut context, mut helper, stands_in) = (Context::from_waker(&waker), Helper::new(&waker), StandIn::current());
        loop {
            if let Poll::Ready(told) = waiting.poll_value(&mut context) {
                return Some(told);
            }
            #[cfg(test)]
            crate::search::turn();
            // How long a function takes isn't known, so none is begun where the wait has to end at a moment.
            let may_help = until.is_none() && stands_in.may_help();
            if may_help && helper.help_stage(&self.core, stage, stands_in.is_there()) {
                continue;
            }
            let resting = (caller_number() != CALLER).then(|| Resting::new(&stands_in));
            let is_alone = stands_in.is_there() && resting.as_ref().map_or(false, |resting| !resting.is_stood_in);
            if may_help && is_alone && helper.help_stage(&self.core, stage, false) {
                continue;
            }
            if !stands_in.rest(|| parked.rest(until)) {
                return self.end_if_settled();
            }
        }
    }

    pub(crate) fn into_returned(self) -> Returned {
        match self.at {
            Ok(number) => Returned::Stage(Arc::clone(&self.core), number),
            Err(why) => Returned::Error(why.into()),
        }
    }

    // Attaching.

    pub(crate) fn attach_behind<U>(self, form: WordForm, call: StageFn, made: Made) -> Stage<U> {
        let Stage { core, at, waits, .. } = self;
        let at = attach_behind(&core, at, form, call, made);
        drop(waits);
        Stage { core, at, waits: KeptWaker(None), of: PhantomData }
    }

    fn attach_behind_both<O: Send + Sync + 'static, U>(&self, form: WordForm, other: &Stage<O>, call: StageFn, made: Made) -> Stage<U> {
        let is_own = Arc::ptr_eq(&self.core, &other.core);
        let other = self.at.map(|_| other.adopt_into(&if is_own { self.request() } else { self.request_within() }));
        let both = self.at.and_then(|first| Ok([first, other?.at?]));
        let at = both.and_then(|of| self.core.attach_behind(caller_number(), form, &of, call, made));
        let relay = other.ok().filter(|other| other.is_relay).and_then(|other| other.at.ok());
        self.core.cancel_relays_with(at, relay.into_iter().collect());
        Stage::new(&self.core, at)
    }

    fn attach_composing<U>(&self, form: WordForm, call: StageFn, made: Made) -> Stage<U> {
        Stage::new(&self.core, self.at.and_then(|number| self.core.attach_composing(caller_number(), form, number, call, made)))
    }
}

/// Attaches a stage of this form behind one.
fn attach_behind(core: &Arc<Core>, at: Result<u16, Refusal>, form: WordForm, call: StageFn, made: Made) -> Result<u16, Refusal> {
    core.attach_behind(caller_number(), form, &[at?], call, made)
}

/// The waker of a waiting thread.
struct Parked {
    thread: Thread,
    is_woken: AtomicBool,
}

impl Parked {
    /// Parks until it is woken, or up to a moment. Says whether it was woken.
    fn rest(self: &Arc<Parked>, until: Option<Instant>) -> bool {
        while !self.is_woken.swap(false, Ordering::SeqCst) {
            #[cfg(test)]
            if self.is_searched() {
                continue;
            }
            match until.map(|until| until.saturating_duration_since(Instant::now())) {
                None => thread::park(),
                Some(Duration::ZERO) => return false,
                Some(left) => thread::park_timeout(left),
            }
        }
        true
    }

    #[cfg(test)]
    fn is_searched(self: &Arc<Parked>) -> bool {
        let parked = Arc::clone(self);
        crate::search::rest(move || parked.is_woken.load(Ordering::SeqCst))
    }
}

impl Wake for Parked {
    fn wake(self: Arc<Parked>) {
        self.is_woken.store(true, Ordering::SeqCst);
        self.thread.unpark();
    }
}

impl<T: Send + Sync + 'static> Stage<T> {
    /// Calls the function with the value. Attaching takes about 0.1 µs, and the claim and the finish of a function 0.25.
    ///
    /// ```
    /// let request = cf::Request::new("order 17", cf::Inline);
    /// assert_eq!(request.supply(|| 20).then(|n| n + 1).wait().unwrap(), 21);
    /// ```
    #[track_caller]
    pub fn then<U, F>(self, f: F) -> Stage<U>
    where
        F: FnOnce(&T) -> U + Send + 'static,
        U: Send + Sync + 'static,
    {
        self.attach_behind(WordForm::Apply, Box::new(move |given| Returned::from_value(f(given.one()))), Made::of_function::<F>())
    }

    /// Calls the function, which may fail, with the value.
    ///
    /// ```
    /// let request = cf::Request::new("order 17", cf::Inline);
    /// let number = request.supply(|| "49").and_then(|text| text.parse::<u32>());
    /// assert_eq!(number.wait().unwrap(), 49);
    /// ```
    #[track_caller]
    pub fn and_then<U, E, F>(self, f: F) -> Stage<U>
    where
        F: FnOnce(&T) -> Result<U, E> + Send + 'static,
        U: Send + Sync + 'static,
        E: Into<BoxError>,
    {
        let call = move |given: &CallArgs| Returned::from_result(f(given.one()).map_err(|error| Error::from_boxed(error.into())));
        self.attach_behind(WordForm::Apply, Box::new(call), Made::of_function::<F>())
    }

    /// Calls the function with the value, and polls the future that it returns. A stage that is cancelled or times out drops the future.
    ///
    /// ```
    /// let request = cf::Request::new("order 17", cf::Inline);
    /// let stage = request.supply(|| 20).then_async(|n| async move { Ok::<_, cf::Error>(*n + 1) });
    /// assert_eq!(stage.wait().unwrap(), 21);
    /// ```
    #[track_caller]
    pub fn then_async<U, E, Fut, F>(self, f: F) -> Stage<U>
    where
        F: FnOnce(Arc<T>) -> Fut + Send + 'static,
        Fut: Future<Output = Result<U, E>> + Send + 'static,
        U: Send + Sync + 'static,
        E: Into<BoxError>,
    {
        self.attach_behind(WordForm::Apply, Box::new(move |given| await_future(f(given.arc()))), Made::of_function::<F>())
    }

    /// Calls the function with the value, and ends as the stage that it returns, which may be another request's. It takes two stages of the request.
    ///
    /// ```
    /// let request = cf::Request::new("order 17", cf::Inline);
    /// let by = request.clone();
    /// let paid = request.supply(|| 49).compose(move |&cents| by.supply(move || cents * 2));
    /// assert_eq!(paid.wait().unwrap(), 98);
    /// ```
    #[track_caller]
    pub fn compose<U, F>(self, f: F) -> Stage<U>
    where
        F: FnOnce(&T) -> Stage<U> + Send + 'static,
        U: Send + Sync + 'static,
    {
        self.attach_composing(WordForm::Compose, Box::new(move |given| f(given.one()).into_returned()), Made::of_function::<F>())
    }

    /// Calls the function with both values. The other stage may be another request's, which takes one more stage of this request.
    ///
    /// ```
    /// let request = cf::Request::new("order 17", cf::Inline);
    /// let (user, price) = (request.supply(|| "Ada"), request.supply(|| 49));
    /// assert_eq!(user.combine(&price, |user, price| format!("{user} pays {price}")).wait().unwrap(), "Ada pays 49");
    /// ```
    #[track_caller]
    pub fn combine<O, U, F>(self, other: &Stage<O>, f: F) -> Stage<U>
    where
        F: FnOnce(&T, &O) -> U + Send + 'static,
        O: Send + Sync + 'static,
        U: Send + Sync + 'static,
    {
        let call = move |given: &CallArgs| {
            let (first, second) = given.two();
            Returned::from_value(f(first, second))
        };
        self.attach_behind_both(WordForm::Combine, other, Box::new(call), Made::of_function::<F>())
    }

    /// Calls the function with the value of the stage that is settled first. If that failed, so does this.
    ///
    /// ```
    /// let request = cf::Request::new("order 17", cf::Inline);
    /// let (near, far) = (request.supply(|| 1), request.promise());
    /// assert_eq!(near.either(&far, |n| n * 10).wait().unwrap(), 10);
    /// ```
    #[track_caller]
    pub fn either<U, F>(self, other: &Stage<T>, f: F) -> Stage<U>
    where
        F: FnOnce(&T) -> U + Send + 'static,
        U: Send + Sync + 'static,
    {
        self.attach_behind_both(WordForm::ApplyEither, other, Box::new(move |given| Returned::from_value(f(given.one()))), Made::of_function::<F>())
    }

    /// Calls the function with the value or the error.
    ///
    /// ```
    /// let request = cf::Request::new("order 17", cf::Inline);
    /// let price = request.try_supply(|| "x".parse::<u32>());
    /// assert_eq!(price.handle(|told| told.copied().unwrap_or(52)).wait().unwrap(), 52);
    /// ```
    #[track_caller]
    pub fn handle<U, F>(self, f: F) -> Stage<U>
    where
        F: FnOnce(Result<&T, &Error>) -> U + Send + 'static,
        U: Send + Sync + 'static,
    {
        self.attach_behind(
            WordForm::Handle,
            Box::new(move |given| Returned::from_value(f(given.outcome().map(value::downcast_ref)))),
            Made::of_function::<F>(),
        )
    }

    /// Calls the function with the value or the error, and ends with the same. A panic of the function fails it if there was a value.
    ///
    /// ```
    /// let request = cf::Request::new("order 17", cf::Inline);
    /// let price = request.supply(|| 49).inspect(|told| assert!(told.is_ok()));
    /// assert_eq!(price.wait().unwrap(), 49);
    /// ```
    #[track_caller]
    pub fn inspect<F>(self, f: F) -> Stage<T>
    where
        F: FnOnce(Result<&T, &Error>) + Send + 'static,
    {
        let call = move |given: &CallArgs| {
            f(given.outcome().map(value::downcast_ref));
            Returned::Value(Val::Nil)
        };
        self.attach_behind(WordForm::WhenComplete, Box::new(call), Made::of_function::<F>())
    }

    /// Ends with the value, or calls the function with the error.
    ///
    /// ```
    /// let request = cf::Request::new("order 17", cf::Inline);
    /// let price = request.try_supply(|| "x".parse::<u32>()).recover(|_| 52);
    /// assert_eq!(price.wait().unwrap(), 52);
    /// ```
    #[track_caller]
    pub fn recover<F>(self, f: F) -> Stage<T>
    where
        F: FnOnce(&Error) -> T + Send + 'static,
    {
        let call = move |given: &CallArgs| match given.outcome() {
            Ok(value) => Returned::Value(value.clone()),
            Err(error) => Returned::from_value(f(error)),
        };
        self.attach_behind(WordForm::Exceptionally, Box::new(call), Made::of_function::<F>())
    }

    /// Ends with the value, or calls the function with the error and ends as the stage that it returns. It takes two stages of the request.
    ///
    /// ```
    /// let request = cf::Request::new("order 17", cf::Inline);
    /// let by = request.clone();
    /// let price = request.try_supply(|| "x".parse::<u32>()).recover_compose(move |_| by.supply(|| 52));
    /// assert_eq!(price.wait().unwrap(), 52);
    /// ```
    #[track_caller]
    pub fn recover_compose<F>(self, f: F) -> Stage<T>
    where
        F: FnOnce(&Error) -> Stage<T> + Send + 'static,
    {
        let call = move |given: &CallArgs| match given.outcome() {
            Ok(value) => Returned::Value(value.clone()),
            Err(error) => f(error).into_returned(),
        };
        self.attach_composing(WordForm::ExceptionallyCompose, Box::new(call), Made::of_function::<F>())
    }

    // Settling.

    /// Completes the stage with a value, unless it is settled.
    ///
    /// # Errors
    ///
    /// The value, if the stage is settled already.
    ///
    /// ```
    /// let request = cf::Request::new("order 17", cf::Inline);
    /// let price = request.promise();
    /// assert_eq!(price.complete(49), Ok(()));
    /// assert_eq!(price.complete(52), Err(52));
    /// ```
    pub fn complete(&self, value: T) -> Result<(), T> {
        let number = match self.at {
            Ok(number) => number,
            Err(_) => return Err(value),
        };
        match self.core.settle(caller_number(), number, Ok(Val::new(value))) {
            Ok(()) => Ok(()),
            Err(back) => {
                let back: Arc<T> = value::downcast_arc(back.unwrap_or_else(|_| unreachable!("a value was handed in")));
                Err(Arc::try_unwrap(back).unwrap_or_else(|back| unreachable!("{} others have seen it", Arc::strong_count(&back))))
            }
        }
    }

    /// Completes the stage with the value after `wait` by the request's clock, unless it is settled, and gives the stage back.
    ///
    /// ```
    /// use std::time::Duration;
    /// let request = cf::Request::new("order 17", cf::Inline);
    /// assert_eq!(request.promise().complete_on_timeout(52, Duration::from_millis(1)).wait().unwrap(), 52);
    /// ```
    pub fn complete_on_timeout(self, value: T, wait: Duration) -> Stage<T> {
        if let Ok(number) = self.at {
            self.core.set_limit(number, wait, Some(Val::new(value)));
        }
        self
    }

    // Reading.

    /// The result behind an `Arc`, if the stage is settled.
    ///
    /// ```
    /// let request = cf::Request::new("order 17", cf::Inline);
    /// assert_eq!(*request.supply(|| 49).peek_arc().unwrap().unwrap(), 49);
    /// ```
    pub fn peek_arc(&self) -> Option<Result<Arc<T>, Error>> {
        self.end_if_settled().map(|told| told.map(value::downcast_arc))
    }

    /// Blocks the thread until the stage is settled, as [`wait`](Stage::wait) does, for values that can't be cloned.
    ///
    /// # Errors
    ///
    /// The error of the stage.
    ///
    /// # Panics
    ///
    /// As [`wait`](Stage::wait) does.
    ///
    /// ```
    /// struct Large(u32);
    /// let request = cf::Request::new("order 17", cf::Inline);
    /// assert_eq!(request.supply(|| Large(49)).wait_arc().unwrap().0, 49);
    /// ```
    pub fn wait_arc(&self) -> Result<Arc<T>, Error> {
        self.wait_value(None).unwrap_or(Err(Error::BadAnswer)).map(value::downcast_arc)
    }

    /// Gives a future of the value behind an `Arc`, for values that can't be cloned.
    ///
    /// ```
    /// struct Large(u32);
    /// async fn number(stage: &cf::Stage<Large>) -> u32 {
    ///     stage.arc().await.map_or(0, |large| large.0)
    /// }
    /// ```
    pub fn arc(&self) -> ArcOf<T> {
        ArcOf(self.clone())
    }
}

impl<T: Clone + Send + Sync + 'static> Stage<T> {
    /// The result, if the stage is settled.
    ///
    /// ```
    /// let request = cf::Request::new("order 17", cf::Inline);
    /// assert!(request.promise::<u32>().peek().is_none());
    /// assert_eq!(request.supply(|| 49).peek().unwrap().unwrap(), 49);
    /// ```
    pub fn peek(&self) -> Option<Result<T, Error>> {
        self.end_if_settled().map(clone_value)
    }

    /// Blocks the thread until the stage is settled. In a function, the thread meanwhile runs what the stage needs, and a pool starts a spare thread
    /// for the rest, so that a pool of one thread goes on.
    ///
    /// # Errors
    ///
    /// What the stage failed with.
    ///
    /// # Panics
    ///
    /// With the feature `tokio`, in an async task of tokio, as tokio's own blocking calls do: await the stage there. Without the feature the task
    /// holds up a thread of its runtime.
    ///
    /// ```
    /// let request = cf::Request::new("order 17", cf::Pool::new(1));
    /// assert_eq!(request.supply(|| 49).wait().unwrap(), 49);
    /// ```
    pub fn wait(&self) -> Result<T, Error> {
        self.wait_value(None).map_or(Err(Error::BadAnswer), clone_value)
    }

    /// Blocks the thread until the stage is settled, for `wait` at most. None if it isn't settled then; the stage goes on. The thread runs no
    /// function meanwhile, since that could take longer.
    ///
    /// # Panics
    ///
    /// As [`wait`](Stage::wait) does, but for a wait of no time.
    ///
    /// ```
    /// use std::time::Duration;
    /// let request = cf::Request::new("order 17", cf::Inline);
    /// assert!(request.promise::<u32>().wait_timeout(Duration::from_millis(1)).is_none());
    /// ```
    #[must_use = "None says that it isn't settled"]
    pub fn wait_timeout(&self, wait: Duration) -> Option<Result<T, Error>> {
        self.wait_value(Some(wait)).map(clone_value)
    }
}

fn clone_value<T: Clone + 'static>(told: Result<Val, Error>) -> Result<T, Error> {
    told.map(|value| value::downcast_ref::<T>(&value).clone())
}

impl<T: Clone + Send + Sync + 'static> Future for Stage<T> {
    type Output = Result<T, Error>;

    fn poll(mut self: Pin<&mut Self>, cx: &mut Context<'_>) -> Poll<Self::Output> {
        self.poll_value(cx).map(clone_value)
    }
}

/// A future of a stage's value behind an `Arc`, made by [`Stage::arc`].
///
/// ```
/// struct Large(u32);
/// async fn number(large: cf::ArcOf<Large>) -> Result<u32, cf::Error> {
///     Ok(large.await?.0)
/// }
/// ```
#[derive(Clone, Debug)]
#[must_use = "futures do nothing unless polled"]
pub struct ArcOf<T>(Stage<T>);

impl<T: Send + Sync + 'static> Future for ArcOf<T> {
    type Output = Result<Arc<T>, Error>;

    fn poll(mut self: Pin<&mut Self>, cx: &mut Context<'_>) -> Poll<Self::Output> {
        self.0.poll_value(cx).map(|told| told.map(value::downcast_arc))
    }
}

/// A future of a stage that cancels the stage when dropped, made by [`Stage::cancel_on_drop`].
///
/// ```
/// let request = cf::Request::new("order 17", cf::Inline);
/// let price = request.promise::<u32>();
/// let dropped: cf::CancelOnDrop<u32> = price.clone().cancel_on_drop();
/// drop(dropped);
/// assert!(price.is_settled());
/// ```
#[derive(Debug)]
#[must_use = "dropped at once, it cancels the stage at once"]
pub struct CancelOnDrop<T>(Stage<T>);

impl<T: Clone + Send + Sync + 'static> Future for CancelOnDrop<T> {
    type Output = Result<T, Error>;

    fn poll(mut self: Pin<&mut Self>, cx: &mut Context<'_>) -> Poll<Self::Output> {
        self.0.poll_value(cx).map(clone_value)
    }
}

impl<T> Drop for CancelOnDrop<T> {
    fn drop(&mut self) {
        run_in_drop(|| {
            self.0.cancel();
        });
    }
}

impl<T> Clone for Stage<T> {
    fn clone(&self) -> Stage<T> {
        Stage::new(&self.core, self.at)
    }
}

impl<T> fmt::Debug for Stage<T> {
    fn fmt(&self, f: &mut fmt::Formatter<'_>) -> fmt::Result {
        let number = match self.at {
            Ok(number) => number,
            Err(why) => return write!(f, "Stage(refused: {why})"),
        };
        let inner = self.core.lock();
        let (name, told, describe) = (escape_text(&inner.name(number)), inner.end_of(number), inner.describe.clone());
        drop(inner);
        match told {
            None => write!(f, "Stage({number} {name}, pending)"),
            Some(Ok(_)) => write!(f, "Stage({number} {name}, value)"),
            Some(Err(error)) => write!(f, "Stage({number} {name}, error: {})", escape_text(&describe.tell(Err(&error)))),
        }
    }
}

pub(crate) mod sealed {
    use super::{Refusal, Request};

    /// A stage as another's source.
    #[derive(Clone, Copy, Debug)]
    pub struct Adopted {
        /// Its number in the request.
        pub at: Result<u16, Refusal>,
        /// Whether it is a relay of another request's stage.
        pub is_relay: bool,
    }

    pub trait Sealed {
        /// Gives the stage of the request `by` that ends as this one.
        fn adopt_into(&self, by: &Request) -> Adopted;
    }
}

/// A stage of any type, for [`Request::all_of`].
///
/// ```
/// let request = cf::Request::new("order 17", cf::Inline);
/// let (user, price) = (request.supply(|| "Ada"), request.supply(|| 49));
/// let both: [&dyn cf::AnyStage; 2] = [&user, &price];
/// request.all_of(both).wait().unwrap();
/// ```
pub trait AnyStage: sealed::Sealed {}

impl<T: Send + Sync + 'static> sealed::Sealed for Stage<T> {
    fn adopt_into(&self, by: &Request) -> sealed::Adopted {
        let is_relay = !Arc::ptr_eq(&self.core, &by.0);
        sealed::Adopted { at: if is_relay { by.adopt(self).at } else { self.at }, is_relay }
    }
}

impl<T: Send + Sync + 'static> AnyStage for Stage<T> {}
