//! What a test is given: an executor and a clock that are the search's, and a world outside that it describes.
use super::moves::Place;
use super::run::Run;
use super::state::{Arrival, Check, NotSettled, OtherCaller, Until, Wait, Way};
use super::watch::{Executor, WorldClock};
use crate::clock::Clock;
use crate::error::{BoxError, Error};
use crate::request::Request;
use crate::spawn::Spawn;
use crate::stage::Stage;
use crate::value::Val;
use std::collections::VecDeque;
use std::fmt;
use std::sync::Arc;

/// One run of a test: a handle, whose clones are the same world. The search decides when functions are called and futures polled, what arrives, and
/// when limits pass.
///
/// What may happen between two moves, the test says here. What it does itself is the first move.
///
/// ```
/// use cf::testing::{orders, World};
///
/// let report = orders(|world: &World| {
///     let price = world.arrives(world.request("order 17").promise().named("price"), 49);
///     price.then(|cents| cents + 1)
/// });
/// assert!(report.whole && report.failed.is_empty());
/// ```
#[derive(Clone)]
pub struct World(pub(crate) Arc<Run>);

impl World {
    /// A request whose functions the search calls, and whose clock is the world's.
    ///
    /// # Panics
    ///
    /// Where the library gives no ledger.
    pub fn request(&self, name: &str) -> Request {
        Request::with_clock(name, self.executor(), self.clock())
    }

    /// The executor of the world, for code that opens its requests itself. A request that has it has to have the world's clock, too, and to be
    /// opened by the test or a function of the world.
    ///
    /// ```
    /// use cf::{testing::orders, Clock, Request, Spawn};
    /// use std::sync::Arc;
    ///
    /// struct Shop(Arc<dyn Spawn>, Arc<dyn Clock>);
    ///
    /// impl Shop {
    ///     fn order(&self) -> cf::Stage<u32> {
    ///         Request::with_clock("order 17", Arc::clone(&self.0), Arc::clone(&self.1)).supply(|| 49)
    ///     }
    /// }
    /// assert!(orders(|world| Shop(world.executor(), world.clock()).order()).whole);
    /// ```
    pub fn executor(&self) -> Arc<dyn Spawn> {
        Arc::new(Executor(Arc::clone(&self.0)))
    }

    /// The clock of the world. Each request has a time of its own, which the search turns; [`Clock::now`] tells the latest of them.
    pub fn clock(&self) -> Arc<dyn Clock> {
        Arc::new(WorldClock(Arc::clone(&self.0)))
    }

    // From outside.

    /// Lets a promise get this value at any moment. The promise itself is given back.
    ///
    /// # Panics
    ///
    /// Here and in the calls below, where the promise isn't one of a request of this world.
    pub fn arrives<T: Send + Sync + 'static>(&self, promise: Stage<T>, value: T) -> Stage<T> {
        self.outside(promise, vec![Way::Value(Val::new(value))])
    }

    /// The same; in other orders the promise fails instead.
    pub fn arrives_or_fails<T: Send + Sync + 'static>(&self, promise: Stage<T>, value: T, error: impl Into<BoxError>) -> Stage<T> {
        self.outside(promise, vec![Way::Value(Val::new(value)), Way::Error(Error::from_boxed(error.into()))])
    }

    /// Lets a promise get one of these values at any moment. Each is tried.
    pub fn one_of<T: Send + Sync + 'static>(&self, promise: Stage<T>, values: impl IntoIterator<Item = T>) -> Stage<T> {
        self.outside(promise, values.into_iter().map(|value| Way::Value(Val::new(value))).collect())
    }

    /// Lets a promise fail at any moment.
    pub fn fails<T: Send + Sync + 'static>(&self, promise: Stage<T>, error: impl Into<BoxError>) -> Stage<T> {
        self.outside(promise, vec![Way::Error(Error::from_boxed(error.into()))])
    }

    /// Lets a promise get this value at any moment, or never anything.
    pub fn may<T: Send + Sync + 'static>(&self, promise: Stage<T>, value: T) -> Stage<T> {
        self.outside(promise, vec![Way::Value(Val::new(value)), Way::Never])
    }

    fn outside<T: Send + Sync + 'static>(&self, promise: Stage<T>, ways: Vec<Way>) -> Stage<T> {
        let place = self.place(&promise).expect("a promise of a request of this world");
        self.0.lock().outside.push(Arrival { core: Arc::clone(&promise.core), place, ways, is_never: false });
        promise
    }

    fn place<T>(&self, stage: &Stage<T>) -> Option<Place> {
        Some(Place::new(stage.core.watch.as_ref()?.number_in(&self.0)?, stage.at.ok()?))
    }

    /// A call that another caller makes at any moment. What it panics with fails the order.
    ///
    /// ```
    /// # use cf::testing::orders;
    /// let report = orders(|world| {
    ///     let paid = world.request("order 17").supply(|| 49);
    ///     let gone = paid.clone();
    ///     world.calls("the client is gone", move || gone.cancel());
    ///     paid
    /// });
    /// assert!(report.whole);
    /// ```
    pub fn calls<R>(&self, name: &str, call: impl FnOnce() -> R + Send + 'static) -> Calls {
        Calls::none(self, name).and_then(call)
    }

    // What has to hold.

    /// What must hold between any two moves.
    ///
    /// `holds` says whether it does. It may read stages and what functions change, and must change nothing. What it panics with is told, too.
    pub fn check(&self, text: &str, holds: impl FnMut() -> bool + Send + 'static) {
        self.0.lock().checks.push(Check { text: text.into(), holds: Box::new(holds) });
    }

    /// What must hold once nothing comes any more.
    pub fn at_end(&self, text: &str, holds: impl FnMut() -> bool + Send + 'static) {
        self.0.lock().at_end.push(Check { text: text.into(), holds: Box::new(holds) });
    }

    /// What the end of this order is, for [`Report::ends`](super::Report::ends).
    pub fn end_is(&self, end: impl FnOnce() -> String + Send + 'static) {
        self.0.lock().end = Some(Box::new(end));
    }

    /// What each stage of each request ended in, as texts of `cf run`, to compare the ends of orders.
    pub fn outcomes(&self) -> Vec<String> {
        let cores: Vec<_> = self.0.lock().requests.iter().map(|request| Arc::clone(&request.core)).collect();
        let reports = super::run::histories(&cores).into_iter().map(|history| history.report());
        reports.flat_map(|report| report.lines().filter(|line| line.starts_with("stage ")).map(str::to_owned).collect::<Vec<_>>()).collect()
    }

    // Within functions.

    /// Within a function, a call or the test: others may go on here. Without it each of these is one move up to where it waits.
    pub fn point(&self) {
        self.0.point();
    }

    /// Within a function, a call or the test: one of these values. Each is tried, so a function can stand for a backend that answers in several ways.
    ///
    /// # Panics
    ///
    /// Where there is no value.
    ///
    /// ```
    /// # use cf::testing::orders;
    /// let report = orders(|world| {
    ///     let asks = world.clone();
    ///     world.request("order 17").try_supply(move || if asks.choice([true, false]) { Ok(49) } else { Err("away") })
    /// });
    /// assert_eq!((report.orders, report.whole), (2, true));
    /// ```
    pub fn choice<T: fmt::Debug>(&self, values: impl IntoIterator<Item = T>) -> T {
        let values: Vec<T> = values.into_iter().collect();
        let ways = values.iter().map(|value| format!("{value:?}")).collect();
        let chosen = self.0.wait(Wait { name: "a choice".into(), until: Until::Chosen(ways) }, None);
        values.into_iter().nth(usize::from(chosen)).expect("one of several values")
    }

    // What is known of functions.

    /// Says that the function of a stage neither reads nor changes what other functions share, so that fewer orders are tried. It may use stages.
    /// Nothing checks that.
    pub fn pure<T>(&self, stage: &Stage<T>) {
        self.touches(stage, &[]);
    }

    /// Says that the function of a stage shares with others no more than what has these names. Nothing checks that.
    ///
    /// Functions of which nothing is said are taken to share everything among one another, and nothing with those of which something is. So all
    /// functions that share a thing have to name it, or none.
    pub fn touches<T>(&self, stage: &Stage<T>, names: &[&'static str]) {
        if let Some(place) = self.place(stage) {
            self.0.lock().marks.insert(place, names.to_vec());
        }
    }
}

impl fmt::Debug for World {
    fn fmt(&self, f: &mut fmt::Formatter<'_>) -> fmt::Result {
        f.debug_struct("World").field("requests", &self.0.lock().requests.len()).finish_non_exhaustive()
    }
}

/// The calls of another caller, which come in this order: what [`World::calls`] gives.
///
/// ```
/// # use cf::testing::orders;
/// let report = orders(|world| {
///     let price = world.request("order 17").promise();
///     let (one, other) = (price.clone(), price.clone());
///     world.calls("a backend", move || one.complete(49)).and_then(move || other.complete(52));
///     world.end_is(move || format!("{:?}", price.peek().unwrap().unwrap()));
/// });
/// assert_eq!(report.ends.into_keys().collect::<Vec<_>>(), ["49"]);
/// ```
#[derive(Clone, Debug)]
pub struct Calls {
    world: World,
    number: usize,
}

impl Calls {
    pub(crate) fn none(world: &World, name: &str) -> Calls {
        let mut state = world.0.lock();
        let number = state.callers.len();
        state.callers.push(OtherCaller { name: name.into(), calls: VecDeque::new(), called: 0, all: 0 });
        drop(state);
        Calls { world: world.clone(), number }
    }

    /// One more call, at any moment behind the ones before it. A call may add one, too.
    pub fn and_then<R>(self, call: impl FnOnce() -> R + Send + 'static) -> Calls {
        let mut state = self.world.0.lock();
        let caller = &mut state.callers[self.number];
        caller.calls.push_back((Box::new(move || drop(call())), false));
        caller.all += 1;
        drop(state);
        self
    }

    /// Says that the last call neither reads nor changes what functions share, such as one that only cancels a stage. Nothing checks that.
    pub fn pure(self) -> Calls {
        let mut state = self.world.0.lock();
        if let Some(last) = state.callers[self.number].calls.back_mut() {
            last.1 = true;
        }
        drop(state);
        self
    }
}

mod sealed {
    use super::NotSettled;

    pub trait Sealed {
        fn open(self, to: &mut Vec<NotSettled>);
    }
}

/// What a test may give back, to have it settled in the end: a stage, stages, or nothing.
pub trait Awaited: sealed::Sealed {}

impl<T: sealed::Sealed> Awaited for T {}

/// What a test gave back, and is to be settled in the end.
pub(crate) fn open(awaited: impl Awaited) -> Vec<NotSettled> {
    let mut all = Vec::new();
    awaited.open(&mut all);
    all
}

impl sealed::Sealed for () {
    fn open(self, _: &mut Vec<NotSettled>) {}
}

impl<T: Send + Sync + 'static> sealed::Sealed for Stage<T> {
    fn open(self, to: &mut Vec<NotSettled>) {
        to.push(Box::new(move || {
            let number = self.at.ok()?;
            let mut inner = self.core.lock();
            (!inner.slot(number).is_settled()).then(|| inner.name(number))
        }));
    }
}

impl<S: sealed::Sealed> sealed::Sealed for Vec<S> {
    fn open(self, to: &mut Vec<NotSettled>) {
        self.into_iter().for_each(|it| it.open(to));
    }
}

impl<S: sealed::Sealed, const N: usize> sealed::Sealed for [S; N] {
    fn open(self, to: &mut Vec<NotSettled>) {
        self.into_iter().for_each(|it| it.open(to));
    }
}

impl<A: sealed::Sealed, B: sealed::Sealed> sealed::Sealed for (A, B) {
    fn open(self, to: &mut Vec<NotSettled>) {
        self.0.open(to);
        self.1.open(to);
    }
}

impl<A: sealed::Sealed, B: sealed::Sealed, C: sealed::Sealed> sealed::Sealed for (A, B, C) {
    fn open(self, to: &mut Vec<NotSettled>) {
        self.0.open(to);
        self.1.open(to);
        self.2.open(to);
    }
}
