//! Stages that belong together.
use crate::clock::{Clock, SystemClock};
use crate::context::Context;
use crate::core::Core;
use crate::describe::Describe;
use crate::ends::{Ending, Ends};
use crate::error::{BoxError, Error, Refusal};
use crate::history::History;
use crate::meter::Meter;
use crate::name::Made;
use crate::scope::Scope;
use crate::spawn::{caller_number, Spawn};
use crate::stage::{sealed::Adopted, sealed::Sealed, AnyStage, Stage};
use crate::value::{self, Returned, StageFn};
use crate::word::WordForm;
use std::fmt;
use std::future::Future;
use std::sync::Arc;
use std::time::Duration;

/// Stages that belong together, of which one history is kept. It is a handle: clones are the same request, and stages keep it alive.
///
/// A request has at most 4,096 stages. One more is never made: the call gives a stage that has failed with
/// [`Refusal::Full`](crate::Refusal::Full), so that calls can be chained without a `?` behind each. Values, errors and the history are kept
/// until nobody has the request or one of its stages any more.
///
/// ```
/// let basket = cf::Request::new("basket 3", cf::Pool::new(2));
/// let (user, price) = (basket.supply(|| "Ada"), basket.supply(|| 49));
/// assert_eq!(user.combine(&price, |user, price| format!("{user} pays {price}")).wait().unwrap(), "Ada pays 49");
/// ```
#[derive(Clone)]
pub struct Request(pub(crate) Arc<Core>, pub(crate) Within);

/// The scope in which a handle of a request attaches stages, if it is one's. A scope that was refused refuses them.
pub(crate) type Within = Result<Option<u16>, Refusal>;

impl Request {
    /// Opens a request without stages, with an executor: by a [`Pool`](crate::Pool), by [`Inline`](crate::Inline), by an `Arc` of any
    /// [`Spawn`]. It takes about a microsecond.
    ///
    /// # Panics
    ///
    /// Where the library gives no ledger; [`try_new`](Request::try_new) doesn't.
    ///
    /// ```
    /// let pool = cf::Pool::new(2);
    /// let (one, two) = (cf::Request::new("basket 3", pool.clone()), cf::Request::new("basket 4", pool));
    /// assert_eq!(one.supply(|| 1).combine(&two.supply(|| 2), |a, b| a + b).wait().unwrap(), 3);
    /// ```
    pub fn new(name: &str, spawn: impl Spawn) -> Request {
        Request::with_clock(name, Arc::new(spawn), Arc::new(SystemClock))
    }

    /// Opens a request whose times and timeouts go by this clock.
    ///
    /// # Panics
    ///
    /// Where the library gives no ledger.
    ///
    /// ```
    /// use std::{sync::Arc, time::Duration};
    /// let clock = cf::HandClock::new();
    /// let basket = cf::Request::with_clock("basket 3", Arc::new(cf::Inline), Arc::new(clock.clone()));
    /// let late = basket.promise::<u32>().or_timeout(Duration::from_secs(60));
    /// clock.turn(Duration::from_secs(60));
    /// assert!(late.wait().unwrap_err().is_timeout());
    /// ```
    pub fn with_clock(name: &str, spawn: Arc<dyn Spawn>, clock: Arc<dyn Clock>) -> Request {
        Request::try_new(name, spawn, clock, ROOM).expect("a ledger for the request")
    }

    /// Opens a request with room for this many stages at first, 16 otherwise. More room is made as it is wanted, by doing all again; a request of
    /// known size is quicker without that. A thread keeps machines of requests that ended on it, with the room that they have got, for the next ones:
    /// up to eight, for 512 stages together.
    ///
    /// # Errors
    ///
    /// [`Refusal::NoLedger`], where memory is refused, or the library isn't the one that this crate was written for.
    ///
    /// ```
    /// use std::sync::Arc;
    /// let basket = cf::Request::try_new("basket 3", Arc::new(cf::Inline), Arc::new(cf::SystemClock), 500)?;
    /// assert_eq!(basket.supply(|| 4).wait().unwrap(), 4);
    /// # Ok::<_, cf::Refusal>(())
    /// ```
    pub fn try_new(name: &str, spawn: Arc<dyn Spawn>, clock: Arc<dyn Clock>, room: u16) -> Result<Request, Refusal> {
        Core::new(name.into(), spawn, clock, room).map(|core| Request(core, Ok(None)))
    }

    /// The request's name.
    ///
    /// ```
    /// assert_eq!(cf::Request::new("basket 3", cf::Inline).name(), "basket 3");
    /// ```
    pub fn name(&self) -> &str {
        &self.0.name
    }

    /// The request itself, of whose values and errors so much is told from now on, also of those that are there. A history that was taken
    /// before stays as it is.
    ///
    /// ```
    /// let basket = cf::Request::new("login", cf::Inline).described(cf::Describe::Nothing);
    /// basket.supply(|| "Bearer eyJhbGciOi").wait().unwrap();
    /// assert!(!basket.history().to_string().contains("Bearer"));
    /// ```
    pub fn described(self, describe: Describe) -> Request {
        let mut inner = self.0.lock();
        let old = std::mem::replace(&mut inner.describe, describe);
        drop(inner);
        drop(old);
        self
    }

    /// The request itself, whose history these are told once it is over: when the last handle of it or of one of its stages is dropped. A function
    /// that is queued or runs has one. With the feature `tracing` they are told within the span that is current here.
    ///
    /// ```
    /// use std::{sync::atomic::{AtomicUsize, Ordering}, sync::Arc, time::Duration};
    /// let events = Arc::new(AtomicUsize::new(0));
    /// let seen = Arc::clone(&events);
    /// let ends = cf::Ends::new(move |history| { seen.fetch_add(history.words().len(), Ordering::SeqCst); });
    /// cf::Request::new("basket 3", cf::Inline).on_end(&ends).supply(|| 49).wait().unwrap();
    /// assert!(ends.flush(Duration::from_secs(60)));
    /// assert_eq!(events.load(Ordering::SeqCst), 3);
    /// ```
    pub fn on_end(self, ends: &Ends) -> Request {
        let ending = Box::new(Ending { ends: ends.clone(), within: Context::captured() });
        let before = self.0.lock().ending.replace(ending);
        drop(before);
        self
    }

    /// The request itself, of which this tells while it is open, and counts what happened once it is over. The meter that was named before forgets
    /// it.
    ///
    /// ```
    /// let meter = cf::Meter::new();
    /// let basket = cf::Request::new("basket 3", cf::Inline).metered(&meter);
    /// let _price = basket.promise::<u32>();
    /// assert_eq!(meter.open_requests()[0].request.name(), "basket 3");
    /// ```
    pub fn metered(self, meter: &Meter) -> Request {
        let metered = Box::new(meter.note_open(&self.0));
        let before = self.0.lock().metered.replace(metered);
        if let Some(before) = before {
            before.forget();
        }
        self
    }

    /// A handle of the request by which stages are attached in a scope that ends after `wait` by the request's clock: all of them that are open are
    /// cancelled then, and more of them are refused, as those of a [`Scope`] are. It takes one stage.
    ///
    /// ```
    /// use std::time::Duration;
    /// let basket = cf::Request::new("basket 3", cf::Inline).deadline(Duration::from_millis(1));
    /// assert!(basket.promise::<u32>().then(|cents| cents * 2).wait().unwrap_err().is_cancelled());
    /// ```
    #[must_use = "stages that are attached by other handles have no deadline"]
    pub fn deadline(self, wait: Duration) -> Request {
        let scope = self.open_scope(|| "deadline");
        if let Ok(scope) = scope {
            self.0.set_limit(scope, wait, None);
        }
        Request(self.0, scope.map(Some))
    }

    /// Opens a scope: what is attached by it ends with it. It takes one stage, and a call of the library for each stage in it.
    ///
    /// ```
    /// let basket = cf::Request::new("basket 3", cf::Inline);
    /// let scope = basket.scope();
    /// let price = scope.promise::<u32>();
    /// let stock = basket.promise::<u32>();
    /// drop(scope);
    /// assert!(price.is_settled() && !stock.is_settled());
    /// ```
    pub fn scope(&self) -> Scope {
        Scope::new(Request(Arc::clone(&self.0), self.open_scope(|| "scope").map(Some)))
    }

    /// Opens a scope within that of this handle.
    pub(crate) fn open_scope(&self, name: fn() -> &'static str) -> Result<u16, Refusal> {
        self.0.open_scope(caller_number(), self.1?, Made::without_function(name))
    }

    /// Attaches a stage that calls the function.
    ///
    /// ```
    /// let basket = cf::Request::new("basket 3", cf::Inline);
    /// assert_eq!(basket.supply(|| 49).wait().unwrap(), 49);
    /// ```
    #[track_caller]
    pub fn supply<U, F>(&self, f: F) -> Stage<U>
    where
        F: FnOnce() -> U + Send + 'static,
        U: Send + Sync + 'static,
    {
        self.attach(WordForm::Supply, Some(Box::new(move |_| Returned::from_value(f()))), Made::of_function::<F>())
    }

    /// Attaches a stage that calls the function, which may fail.
    ///
    /// ```
    /// let basket = cf::Request::new("basket 3", cf::Inline);
    /// assert_eq!(basket.try_supply(|| "49".parse::<u32>()).wait().unwrap(), 49);
    /// ```
    #[track_caller]
    pub fn try_supply<U, E, F>(&self, f: F) -> Stage<U>
    where
        F: FnOnce() -> Result<U, E> + Send + 'static,
        U: Send + Sync + 'static,
        E: Into<BoxError>,
    {
        let call: StageFn = Box::new(move |_| Returned::from_result(f().map_err(|error| Error::from_boxed(error.into()))));
        self.attach(WordForm::Supply, Some(call), Made::of_function::<F>())
    }

    /// Attaches a stage that polls the future. It is polled where functions run; a stage that is cancelled or times out drops it.
    ///
    /// ```
    /// let basket = cf::Request::new("basket 3", cf::Inline);
    /// assert_eq!(basket.spawn(async { Ok::<_, cf::Error>(49) }).wait().unwrap(), 49);
    /// ```
    #[track_caller]
    pub fn spawn<U, E, F>(&self, future: F) -> Stage<U>
    where
        F: Future<Output = Result<U, E>> + Send + 'static,
        U: Send + Sync + 'static,
        E: Into<BoxError>,
    {
        self.attach(WordForm::Supply, Some(Box::new(move |_| await_future(future))), Made::of_function::<F>())
    }

    /// Attaches a stage without a function, for any handle of it to complete.
    ///
    /// ```
    /// let basket = cf::Request::new("basket 3", cf::Inline);
    /// let price = basket.promise();
    /// let by = price.clone();
    /// std::thread::spawn(move || by.complete(49));
    /// assert_eq!(price.wait().unwrap(), 49);
    /// ```
    pub fn promise<T: Send + Sync + 'static>(&self) -> Stage<T> {
        self.attach(WordForm::Source, None, Made::without_function(|| "promise"))
    }

    /// A stage of this request that ends as the given one does, whose request may be another. A stage of this request is given back itself.
    /// Until one of the two ends, the given stage keeps this request alive. What `all_of`, `first_of`, `gather`, `combine`, `either` and `compose`
    /// adopt is let go with their own stage.
    ///
    /// ```
    /// let (one, two) = (cf::Request::new("basket 3", cf::Inline), cf::Request::new("basket 4", cf::Inline));
    /// assert_eq!(one.adopt(&two.supply(|| 49)).wait().unwrap(), 49);
    /// ```
    pub fn adopt<T: Send + Sync + 'static>(&self, stage: &Stage<T>) -> Stage<T> {
        let number = match stage.at {
            Ok(number) if !Arc::ptr_eq(&self.0, &stage.core) => number,
            _ => return stage.clone(),
        };
        let relay = self.promise::<T>().named(format!("relay of {number} of {}", stage.core.name));
        if let Ok(here) = relay.at {
            stage.core.feed_relay(number, Arc::clone(&self.0), here);
        }
        relay
    }

    /// `()`, once all have values; else the error of the first in this order that has one, once all are settled. n stages take n - 1.
    ///
    /// ```
    /// let basket = cf::Request::new("basket 3", cf::Inline);
    /// let (user, price) = (basket.supply(|| "Ada"), basket.supply(|| 49));
    /// basket.all_of([&user as &dyn cf::AnyStage, &price]).wait().unwrap();
    /// ```
    pub fn all_of<'a>(&self, stages: impl IntoIterator<Item = &'a dyn AnyStage>) -> Stage<()> {
        self.attach_gathering(
            cf_graph::Form::AllOf,
            stages.into_iter().map(|stage| stage.adopt_into(self)).collect(),
            Made::without_function(|| "all of"),
        )
    }

    /// What the first has that is settled, be it an error. Of no stages it is never settled. n stages take n - 1.
    ///
    /// ```
    /// let basket = cf::Request::new("basket 3", cf::Inline);
    /// let quotes = [basket.promise(), basket.supply(|| 49), basket.promise()];
    /// assert_eq!(basket.first_of(&quotes).wait().unwrap(), 49);
    /// ```
    pub fn first_of<'a, T: Send + Sync + 'static>(&self, stages: impl IntoIterator<Item = &'a Stage<T>>) -> Stage<T> {
        self.attach_gathering(
            cf_graph::Form::AnyOf,
            stages.into_iter().map(|stage| stage.adopt_into(self)).collect(),
            Made::without_function(|| "first of"),
        )
    }

    /// The values of all, in this order; else as [`all_of`](Request::all_of). n stages take n.
    ///
    /// ```
    /// let basket = cf::Request::new("basket 3", cf::Inline);
    /// let quotes = [basket.supply(|| 52), basket.supply(|| 49)];
    /// assert_eq!(basket.gather(&quotes).wait().unwrap(), [52, 49]);
    /// ```
    pub fn gather<'a, T: Clone + Send + Sync + 'static>(&self, stages: impl IntoIterator<Item = &'a Stage<T>>) -> Stage<Vec<T>> {
        let row: Vec<Adopted> = stages.into_iter().map(|stage| stage.adopt_into(self)).collect();
        let (numbers, root) = self.attach_root(cf_graph::Form::AllOf, &row, Made::without_function(|| "all of"));
        // The request would keep itself alive by handles that its own function holds.
        let core = Arc::downgrade(&self.0);
        let values = move || -> Result<Vec<T>, Error> {
            let values = core.upgrade().ok_or(Error::BadAnswer)?.values(&numbers)?;
            Ok(values.iter().map(|value| value::downcast_ref::<T>(value).clone()).collect())
        };
        let call: StageFn = Box::new(move |_| Returned::from_result(values()));
        let all = Stage::<()>::new(&self.0, root).attach_behind(WordForm::Apply, call, Made::without_function(|| "gather"));
        self.0.cancel_relays_with(all.at, relays_of(&row));
        all
    }

    /// The first value of these stages that is there, as `select_ok` gives it; once all have failed, the error of the last. The others go on. It takes
    /// one stage, however many they are.
    ///
    /// # Panics
    ///
    /// Where there is no stage.
    ///
    /// ```
    /// let basket = cf::Request::new("basket 3", cf::Inline);
    /// let quotes = [basket.try_supply(|| Err("away")), basket.promise(), basket.supply(|| 49)];
    /// assert_eq!(basket.first(&quotes).wait().unwrap(), 49);
    /// ```
    #[track_caller]
    pub fn first<'a, T: Send + Sync + 'static>(&self, stages: impl IntoIterator<Item = &'a Stage<T>>) -> Stage<T> {
        let row = self.adopt_row(1, stages);
        let join = self.attach_join(1, &row, Made::without_function(|| "first")).map(|(_, join)| join);
        self.0.cancel_relays_with(join, relays_of(&row));
        Stage::new(&self.0, join)
    }

    /// The values of all, in this order; or the error of the first to fail, at once, as `try_join_all` gives it. The others go on. It takes two
    /// stages.
    ///
    /// ```
    /// let basket = cf::Request::new("basket 3", cf::Inline);
    /// let quotes = [basket.supply(|| 52), basket.supply(|| 49)];
    /// assert_eq!(basket.all(&quotes).wait().unwrap(), [52, 49]);
    /// let failed = basket.try_supply(|| Err("away"));
    /// assert_eq!(basket.all([&basket.promise::<u32>(), &failed]).wait().unwrap_err().to_string(), "away");
    /// ```
    pub fn all<'a, T: Clone + Send + Sync + 'static>(&self, stages: impl IntoIterator<Item = &'a Stage<T>>) -> Stage<Vec<T>> {
        let stages: Vec<&Stage<T>> = stages.into_iter().collect();
        match stages.len() {
            0 => self.gather(stages),
            wanted => self.attach_quorum(wanted, stages, || "all"),
        }
    }

    /// The values that are there, in this order, once so many stages have some; or the error of the last to fail, once too many have. The others go
    /// on. A stage that is given twice counts twice. It takes two stages.
    ///
    /// # Panics
    ///
    /// Where none is wanted, or more than there are.
    ///
    /// ```
    /// let basket = cf::Request::new("basket 3", cf::Inline);
    /// let votes = [basket.supply(|| true), basket.promise(), basket.supply(|| false)];
    /// assert_eq!(basket.quorum(2, &votes).wait().unwrap(), [true, false]);
    /// ```
    #[track_caller]
    pub fn quorum<'a, T: Clone + Send + Sync + 'static>(&self, wanted: usize, stages: impl IntoIterator<Item = &'a Stage<T>>) -> Stage<Vec<T>> {
        self.attach_quorum(wanted, stages, || "quorum")
    }

    /// Cancels all open stages, the last one first.
    ///
    /// ```
    /// let basket = cf::Request::new("basket 3", cf::Inline);
    /// let price = basket.promise::<u32>();
    /// basket.cancel_all();
    /// assert!(price.wait().unwrap_err().is_cancelled());
    /// ```
    pub fn cancel_all(&self) {
        self.tell_watch_of_look();
        self.0.cancel_all(caller_number());
    }

    /// All that happened until now. It takes some 20 ns an event, and telling it 1 µs.
    ///
    /// ```
    /// let basket = cf::Request::new("basket 3", cf::Inline);
    /// basket.supply(|| 49).named("price").wait().unwrap();
    /// assert!(basket.history().to_string().contains("0 price ends: 49"));
    /// ```
    #[must_use]
    pub fn history(&self) -> History {
        self.tell_watch_of_look();
        History::new(&self.0)
    }

    /// Tells a test's observer that all stages are looked at.
    fn tell_watch_of_look(&self) {
        #[cfg(feature = "testing")]
        self.0.tell_watch(|watch| watch.note_look(self.0.lock().slots.len()));
    }

    /// Attaches a stage of this form behind all of these.
    fn attach_gathering<T: Send + Sync + 'static>(&self, form: cf_graph::Form, row: Vec<Adopted>, made: Made) -> Stage<T> {
        let (_, root) = self.attach_root(form, &row, made);
        self.0.cancel_relays_with(root, relays_of(&row));
        Stage::new(&self.0, root)
    }

    /// The numbers of all of these, and that of a stage of this form behind them, unless one of them was refused.
    fn attach_root(&self, form: cf_graph::Form, row: &[Adopted], made: Made) -> (Vec<u16>, Result<u16, Refusal>) {
        match numbers_of(row) {
            Ok(numbers) => {
                let root = self.1.and_then(|within| self.0.gather((caller_number(), within), form, &numbers, made));
                (numbers, root)
            }
            Err(why) => (Vec::new(), Err(why)),
        }
    }

    /// A stage that ends once so many of these have values, or too few can have them still, with the values that are there.
    #[track_caller]
    fn attach_quorum<'a, T>(&self, wanted: usize, of: impl IntoIterator<Item = &'a Stage<T>>, name: fn() -> &'static str) -> Stage<Vec<T>>
    where
        T: Clone + Send + Sync + 'static,
    {
        let row = self.adopt_row(wanted, of);
        let (numbers, join) = match self.attach_join(wanted, &row, Made::without_function(|| "join")) {
            Ok((numbers, join)) => (numbers, Ok(join)),
            Err(why) => (Vec::new(), Err(why)),
        };
        let request = Arc::downgrade(&self.0);
        let values = move || -> Result<Vec<T>, Error> {
            let values = request.upgrade().ok_or(Error::BadAnswer)?.values_there(&numbers);
            Ok(values.iter().map(|value| value::downcast_ref::<T>(value).clone()).collect())
        };
        let call: StageFn = Box::new(move |_| Returned::from_result(values()));
        let all = Stage::<()>::new(&self.0, join).attach_behind(WordForm::Apply, call, Made::without_function(name));
        self.0.cancel_relays_with(all.at, relays_of(&row));
        all
    }

    /// These as stages of this request, of which so many are wanted.
    #[track_caller]
    fn adopt_row<'a, T: Send + Sync + 'static>(&self, wanted: usize, of: impl IntoIterator<Item = &'a Stage<T>>) -> Vec<Adopted> {
        let of: Vec<&Stage<T>> = of.into_iter().collect();
        assert!(1 <= wanted && wanted <= of.len(), "{wanted} of {} stages can't be wanted", of.len());
        of.into_iter().map(|stage| stage.adopt_into(self)).collect()
    }

    /// The numbers of these, and that of a stage that ends once so many have values, or too few can, unless one of them was refused.
    fn attach_join(&self, wanted: usize, row: &[Adopted], made: Made) -> Result<(Vec<u16>, u16), Refusal> {
        let numbers = numbers_of(row)?;
        let wanted = u16::try_from(wanted).map_err(|_| Refusal::Full)?;
        let join = self.0.join((caller_number(), self.1?), wanted, &numbers, made)?;
        Ok((numbers, join))
    }

    pub(crate) fn attach<U>(&self, form: WordForm, call: Option<StageFn>, made: Made) -> Stage<U> {
        Stage::new(&self.0, self.1.and_then(|within| self.0.attach(caller_number(), within, form, call, made)))
    }
}

/// The numbers of these, unless one of them was refused.
fn numbers_of(row: &[Adopted]) -> Result<Vec<u16>, Refusal> {
    row.iter().map(|it| it.at).collect()
}

/// Those that were made to stand for stages of other requests.
fn relays_of(row: &[Adopted]) -> Vec<u16> {
    row.iter().filter(|it| it.is_relay).filter_map(|it| it.at.ok()).collect()
}

/// For how many stages a request has room at first.
const ROOM: u16 = 16;

/// What a future will give.
pub(crate) fn await_future<U, E, F>(future: F) -> Returned
where
    F: Future<Output = Result<U, E>> + Send + 'static,
    U: Send + Sync + 'static,
    E: Into<BoxError>,
{
    Returned::Later(Box::pin(async move { Returned::from_result(future.await.map_err(|error| Error::from_boxed(error.into()))) }))
}

impl fmt::Debug for Request {
    fn fmt(&self, f: &mut fmt::Formatter<'_>) -> fmt::Result {
        let inner = self.0.lock();
        let settled = inner.slots.iter().filter(|slot| slot.is_settled()).count();
        let (stages, events) = (inner.slots.len(), inner.ledger.record.event_count());
        drop(inner);
        f.debug_struct("Request").field("name", &self.0.name).field("stages", &stages).field("settled", &settled).field("events", &events).finish()
    }
}
