//! A program's handles of a request in a store and of its stages.
use crate::context;
use crate::error::{Error, Failed, StoreError};
use crate::flow::Step;
use crate::history::{History, HistoryItem};
use crate::host::Host;
use crate::plan::StageSpec;
use crate::service::ServiceCore;
use crate::store::{Store, Timer};
use crate::view::{failed_bytes, missing_payload, DoneWord, RowView, WantedWord};
use cf_graph::{Answer, Call, Failure, Form, Of, Outcome, Reply, State, Value};
use serde::de::DeserializeOwned;
use serde::Serialize;
use serde_json::{json, Map, Value as Json};
use std::cell::{Cell, RefCell};
use std::collections::{BTreeMap, BTreeSet};
use std::fmt;
use std::sync::atomic::{AtomicBool, AtomicU64, AtomicUsize, Ordering};
use std::sync::{Arc, Condvar, Mutex, MutexGuard, PoisonError, TryLockError};
use std::thread;
use std::time::{Duration, Instant};

/// A request in a store: [`Service::request`](crate::Service::request) and [`open`](crate::Service::open) give one. Any thread may use it, and
/// processes share it. A clone is the same request.
///
/// A call that changes something returns once the store has it. It fails with
///
/// - [`StoreError::Unknown`] if the store didn't answer for a minute: the change may stand or not;
/// - [`StoreError::Broken`] and [`StoreError::Gone`] if the row is unusable;
/// - [`StoreError::Full`] if there would be more than 4,096 stages;
/// - [`StoreError::NotRegistered`] if a function isn't registered;
/// - [`StoreError::Refused`] if a stage is another request's.
#[derive(Clone)]
pub struct Request {
    pub(crate) inner: Arc<LocalRequest>,
    pub(crate) service: Arc<ServiceCore>,
}

/// A stage of a request in a store. A clone is the same stage.
#[derive(Clone, Debug)]
pub struct Stage {
    pub(crate) request: Request,
    pub(crate) number: u16,
}

thread_local! {
    /// The address of the request whose transactional function this thread runs, or 0.
    static TRANSACTS: Cell<usize> = const { Cell::new(0) };
    /// The composing stage whose function this thread runs.
    static COMPOSES: RefCell<Option<Composing>> = const { RefCell::new(None) };
}

/// A stage whose function attaches stages.
struct Composing {
    /// The address of its request.
    inner: usize,
    stage: u16,
    /// The stage whose function it is: the same, or the one that it tries again.
    first: u16,
    /// The stages that it has attached, or found attached by an earlier try.
    taken: BTreeSet<u16>,
}

/// A request as a process has it once.
pub(crate) struct LocalRequest {
    pub(crate) name: String,
    pub(crate) number: i64,
    host: Arc<dyn Host>,
    store: Arc<dyn Store>,
    view: Arc<Mutex<RowView>>,
    /// A lock for stores that let only one writer put during a transaction. A put takes it before the view, and a transactional function runs with
    /// it. So other threads wait for this lock, and not in the store with the view, which the function's finish needs.
    writes: Option<Mutex<()>>,
    /// The number of publications. Waiting callers watch this, and never the view.
    shown: Mutex<u64>,
    /// Notified when stages are settled, and when the service ends.
    changed: Condvar,
    /// Payloads that are read for waiting callers, by their places.
    reads: Mutex<BTreeMap<usize, PayloadRead>>,
    /// The number of entries that were taken in.
    pub(crate) seen: AtomicUsize,
    /// The number of entries that the store has told of.
    pub(crate) told: AtomicUsize,
    /// Whether a look for work is queued.
    pub(crate) is_queued: AtomicBool,
    /// The service's count as it was last asked to go on with it.
    pub(crate) kept: AtomicU64,
    /// Whether it is being forgotten.
    pub(crate) is_leaving: AtomicBool,
    /// The fault that ended it in this process.
    fault: Mutex<Option<StoreError>>,
    /// The stages of which the program has a handle.
    #[cfg(feature = "testing")]
    pub(crate) given: Mutex<std::collections::BTreeSet<u16>>,
}

impl LocalRequest {
    pub(crate) fn new(view: RowView, host: &Arc<dyn Host>, locks_out_others: bool) -> LocalRequest {
        LocalRequest {
            name: view.opened.name.clone(),
            number: view.opened.number,
            seen: AtomicUsize::new(view.seen_count()),
            told: AtomicUsize::new(0),
            host: Arc::clone(host),
            store: Arc::clone(&view.store),
            view: Arc::new(Mutex::new(view)),
            writes: locks_out_others.then(Mutex::default),
            shown: Mutex::default(),
            changed: Condvar::new(),
            reads: Mutex::default(),
            is_queued: AtomicBool::new(false),
            kept: AtomicU64::new(0),
            is_leaving: AtomicBool::new(false),
            fault: Mutex::new(None),
            #[cfg(feature = "testing")]
            given: Mutex::default(),
        }
    }

    pub(crate) fn view(&self) -> MutexGuard<'_, RowView> {
        self.host.wait_until_free(&self.view);
        self.view.lock().unwrap_or_else(PoisonError::into_inner)
    }

    /// Locks the view, unless another thread has it.
    pub(crate) fn try_view(&self) -> Option<MutexGuard<'_, RowView>> {
        match self.view.try_lock() {
            Ok(view) => Some(view),
            Err(TryLockError::Poisoned(view)) => Some(view.into_inner()),
            Err(TryLockError::WouldBlock) => None,
        }
    }

    /// Publishes the view's state, and wakes the waiters.
    pub(crate) fn publish(&self, view: MutexGuard<'_, RowView>) {
        self.seen.store(view.seen_count(), Ordering::Relaxed);
        drop(view);
        self.wake_waiters();
    }

    /// Wakes the waiters.
    pub(crate) fn wake_waiters(&self) {
        *lock(&self.shown) += 1;
        self.changed.notify_all();
    }

    /// Takes a payload that was read for a waiter.
    fn take_payload_read(&self, place: usize) -> Option<Result<Vec<u8>, StoreError>> {
        let mut reads = lock(&self.reads);
        match reads.remove(&place)? {
            PayloadRead::Told(told) => Some(told),
            PayloadRead::Asked => {
                reads.insert(place, PayloadRead::Asked);
                None
            }
        }
    }

    /// Reads a payload for a waiter, and says whether there is an answer. If the wait has a limit, a thread of its own reads it, since an engine
    /// doesn't know the limit.
    fn read_payload(self: &Arc<LocalRequest>, place: usize, is_limited: bool) -> bool {
        if !is_limited || !self.host.has_threads() {
            return self.ask_payload(place);
        }
        let mut reads = lock(&self.reads);
        match reads.get(&place) {
            Some(PayloadRead::Told(_)) => return true,
            Some(PayloadRead::Asked) => return false,
            None => reads.insert(place, PayloadRead::Asked),
        };
        drop(reads);
        let its = Arc::clone(self);
        let started = thread::Builder::new().name("cf-store-payload".into()).spawn(move || its.ask_payload(place));
        started.is_err() && self.ask_payload(place)
    }

    /// Asks the store once for a payload, and says whether it answered.
    fn ask_payload(&self, place: usize) -> bool {
        let told = self.store.payload(&self.name, self.number, place).and_then(|it| it.ok_or_else(|| missing_payload(&self.name, place)));
        let answers = !matches!(told, Err(StoreError::Unknown(_)));
        let mut reads = lock(&self.reads);
        reads.remove(&place);
        if answers {
            reads.insert(place, PayloadRead::Told(told));
            drop(reads);
            self.wake_waiters();
        }
        answers
    }

    pub(crate) fn catch_up(&self) -> Result<(), StoreError> {
        self.catch_up_view(self.view())
    }

    /// Catches up if the store has told of more entries.
    pub(crate) fn catch_up_if_behind(&self) -> Result<(), StoreError> {
        let view = self.view(); // (a put of this process's is seen by then)
        if self.told.load(Ordering::SeqCst) <= view.seen_count() {
            return Ok(());
        }
        self.catch_up_view(view)
    }

    fn catch_up_view(&self, mut view: MutexGuard<'_, RowView>) -> Result<(), StoreError> {
        let told = view.catch_up();
        self.publish(view);
        told.map(|_| ())
    }

    /// Puts the words that `decide` wants, and gives what they did.
    pub(crate) fn put_words(&self, decide: impl FnMut(&mut RowView) -> Result<Vec<WantedWord>, StoreError>) -> Result<Vec<DoneWord>, StoreError> {
        self.put_words_and_open(false, decide)
    }

    /// Puts words, and opens the request again if `opens`.
    fn put_words_and_open(
        &self,
        opens: bool,
        decide: impl FnMut(&mut RowView) -> Result<Vec<WantedWord>, StoreError>,
    ) -> Result<Vec<DoneWord>, StoreError> {
        if TRANSACTS.with(Cell::get) == self as *const LocalRequest as usize {
            let why = "its transactional function can't put to it: that takes the place of its finish";
            return Err(StoreError::Refused(format!("request {:?}: {why}", self.name)));
        }
        let _writes = self.lock_writes();
        let mut view = self.view();
        let told = view.put_words(opens, decide);
        self.publish(view);
        told.map(|(done, _)| done)
    }

    fn lock_writes(&self) -> Option<MutexGuard<'_, ()>> {
        self.writes.as_ref().map(lock)
    }

    /// Runs a transaction of one of its functions.
    pub(crate) fn run_transacting<T>(&self, act: impl FnOnce() -> T) -> T {
        struct Transacts;
        impl Drop for Transacts {
            fn drop(&mut self) {
                TRANSACTS.with(|it| it.set(0));
            }
        }
        let _others_wait = self.lock_writes();
        TRANSACTS.with(|it| it.set(self as *const LocalRequest as usize));
        let _transacts = Transacts; // (what a function panics with is its failure, but a search of all orders leaves one by a panic)
        act()
    }

    /// Runs the function of a composing stage on this thread.
    pub(crate) fn run_composing<T>(&self, stage: u16, first: u16, act: impl FnOnce() -> T) -> T {
        struct Composes;
        impl Drop for Composes {
            fn drop(&mut self) {
                COMPOSES.with(|it| drop(it.take()));
            }
        }
        let inner = self as *const LocalRequest as usize;
        COMPOSES.with(|it| drop(it.replace(Some(Composing { inner, stage, first, taken: BTreeSet::new() }))));
        let _composes = Composes;
        act()
    }

    /// Asks the composing stage of this request whose function this thread runs, if there is one.
    fn ask_composing<T>(&self, ask: impl FnOnce(&mut Composing) -> T) -> Option<T> {
        COMPOSES.with(|it| it.borrow_mut().as_mut().filter(|it| it.inner == self as *const LocalRequest as usize).map(ask))
    }

    /// Ends the request in this process by a fault, and wakes the waiters.
    pub(crate) fn set_fault(&self, fault: StoreError) {
        *lock(&self.fault) = Some(fault);
        self.wake_waiters();
    }
}

/// A payload that is read for a waiter.
enum PayloadRead {
    Asked,
    Told(Result<Vec<u8>, StoreError>),
}

fn lock<T>(mutex: &Mutex<T>) -> MutexGuard<'_, T> {
    mutex.lock().unwrap_or_else(PoisonError::into_inner)
}

impl Request {
    /// The request's name, by which other processes find it.
    pub fn name(&self) -> &str {
        &self.inner.name
    }

    /// Attaches a call of a registered function, in its latest version, with `args`. Any process that works on the request runs it.
    pub fn supply(&self, function: &str, args: &[Json]) -> Result<Stage, StoreError> {
        let mut said = self.function_spec(function)?;
        said.args = args.to_vec();
        self.attach(Form::Supply, Of::None, said)
    }

    /// Attaches a call with arguments by name behind those in order. A function in Rust takes the names that
    /// [`Functions::parameters`](crate::Functions::parameters) gave it.
    pub fn supply_named(&self, function: &str, args: &[Json], named: &Map<String, Json>) -> Result<Stage, StoreError> {
        let said = StageSpec { args: args.to_vec(), kwargs: named.clone(), ..self.function_spec(function)? };
        self.attach(Form::Supply, Of::None, said)
    }

    /// Attaches a stage without a function, which any process settles.
    pub fn promise(&self, name: &str) -> Result<Stage, StoreError> {
        self.attach(Form::Source, Of::None, StageSpec { name: name.into(), ..StageSpec::default() })
    }

    /// A stage that ends once all of these are settled: with null if all have values, else as the first one in this order that has none. For n stages
    /// it takes n - 1, at least one.
    pub fn all_of(&self, of: &[&Stage]) -> Result<Stage, StoreError> {
        self.attach_tree(Form::AllOf, of, "all of")
    }

    /// A stage that ends as the first of these that is settled, be it with an error. For n stages it takes n - 1, at least one.
    pub fn first_of(&self, of: &[&Stage]) -> Result<Stage, StoreError> {
        self.attach_tree(Form::AnyOf, of, "first of")
    }

    /// A stage that ends with the list of the values of all of these, in this order, or fails as [`all_of`](Request::all_of) does. For n stages it
    /// takes 2 n - 1. [`StoreError::Refused`] of none.
    pub fn gather(&self, of: &[&Stage]) -> Result<Stage, StoreError> {
        self.check_own(of)?;
        let attach = |form, of, function: &str| self.attach(form, of, StageSpec { name: "gather".into(), ..self.function_spec(function)? });
        let mut row = of.iter().map(|it| attach(Form::Apply, Of::One(it.number), "cf.gather")).collect::<Result<Vec<_>, _>>()?;
        while row.len() > 1 {
            let pair = |pair: &[Stage]| match pair {
                [first, second] => attach(Form::Combine, Of::Two(first.number, second.number), "cf.add"),
                _ => Ok(pair[0].clone()),
            };
            row = row.chunks(2).map(pair).collect::<Result<_, _>>()?;
        }
        row.pop().ok_or_else(|| StoreError::Refused("a list of nothing needs no stage".into()))
    }

    /// The stage of a step of the flow with which the request was begun. None if that was another flow: of another name, or different up to this
    /// step.
    pub fn step(&self, step: Step) -> Option<Stage> {
        let has_step = self.inner.view().has_step(step);
        has_step.then(|| Stage::new(self, step.number()))
    }

    /// The stage of a number. None if this process has read of none. Stages are numbered in the order in which they were attached.
    pub fn stage(&self, number: u16) -> Option<Stage> {
        let there = usize::from(number) < self.inner.view().stage_count();
        there.then(|| Stage::new(self, number))
    }

    /// Finds the first stage of a name.
    ///
    /// ```
    /// # #[cfg(feature = "sqlite")]
    /// # fn main() -> Result<(), Box<dyn std::error::Error>> {
    /// # let folder = std::env::temp_dir().join(format!("cf-store-named-{}", std::process::id()));
    /// # std::fs::create_dir_all(&folder)?;
    /// # let path = folder.join("orders.db");
    /// use cf_store::{Functions, SQLite, Service};
    ///
    /// let service = Service::new(SQLite::open(&path)?, Functions::new())?;
    /// let approved = service.request("order 17")?.promise("approved")?;
    ///
    /// // In another process:
    /// let other = Service::new(SQLite::open(&path)?, Functions::new())?;
    /// let found = other.open("order 17")?.named("approved")?.expect("the request has this promise");
    /// assert!(found.complete("Ada")?);
    ///
    /// assert_eq!(approved.wait::<String>()?, "Ada");
    /// # drop(other);
    /// # drop(service);
    /// # std::fs::remove_dir_all(folder)?;
    /// # Ok(())
    /// # }
    /// # #[cfg(not(feature = "sqlite"))]
    /// # fn main() {}
    /// ```
    pub fn named(&self, name: &str) -> Result<Option<Stage>, StoreError> {
        self.inner.catch_up()?;
        let mut view = self.inner.view();
        for number in 0..view.stage_count() as u16 {
            if view.stage_spec(number)?.name == name {
                return Ok(Some(Stage::new(self, number)));
            }
        }
        Ok(None)
    }

    /// Reads what other processes have put.
    pub fn refresh(&self) -> Result<(), StoreError> {
        self.inner.catch_up()
    }

    /// Reads all that has happened. It asks the store for each payload, so it takes longer the more words there are.
    pub fn history(&self) -> Result<History, StoreError> {
        self.history_described_by(|it| it.full_text())
    }

    /// Reads all that has happened, and lets `tells` describe each value and error, for a history without secrets.
    ///
    /// ```
    /// # #[cfg(feature = "sqlite")]
    /// # fn main() -> Result<(), Box<dyn std::error::Error>> {
    /// # let folder = std::env::temp_dir().join(format!("cf-store-history-{}", std::process::id()));
    /// # std::fs::create_dir_all(&folder)?;
    /// # let path = folder.join("orders.db");
    /// use cf_store::{Functions, SQLite, Service, HistoryItem};
    ///
    /// let service = Service::new(SQLite::open(path)?, Functions::new())?;
    /// let request = service.request("login 3")?;
    /// request.promise("token")?.complete("Bearer eyJhbGciOi")?;
    /// let history = request.history_described_by(|what| match what {
    ///     HistoryItem::Error(failed) => failed.kind.clone(),
    ///     _ => "a value".into(),
    /// })?;
    /// assert!(history.lines()?.contains("token ends: a value"));
    /// # drop(service);
    /// # std::fs::remove_dir_all(folder)?;
    /// # Ok(())
    /// # }
    /// # #[cfg(not(feature = "sqlite"))]
    /// # fn main() {}
    /// ```
    pub fn history_described_by(&self, tells: impl Fn(HistoryItem<'_>) -> String) -> Result<History, StoreError> {
        let opened = self.inner.view().opened.clone();
        History::new(&*self.service.store, &*self.service.host, opened, tells)
    }

    /// Closes the request, so that workers leave it alone, and forgets its timers. A flow's request closes by itself once all its stages are settled.
    /// Attaching a stage opens a closed request again.
    pub fn end(&self) -> Result<(), StoreError> {
        self.inner.catch_up()?;
        let seen = self.inner.seen.load(Ordering::Relaxed);
        if self.service.retrying_for_a_minute(|| self.service.store.end(&self.inner.name, self.inner.number, seen))? {
            self.service.tell_end(&self.inner);
        }
        Ok(())
    }

    /// Cancels all stages that aren't settled, as [`Stage::abandon`] does: also those whose functions run, in whichever process. It begins with the
    /// last one, so no function that takes errors (`handle`, `recover`) is called for it. What is attached meanwhile isn't cancelled. Each 32 stages are
    /// one put; if one of these fails, the stages before it stay cancelled. A flow's request is closed once its functions have ended, and
    /// [`end`](Request::end) closes another.
    pub fn cancel_all(&self) -> Result<(), StoreError> {
        self.inner.catch_up()?;
        let stages = self.inner.view().stage_count() as u16;
        let cancelled = loop {
            let done = self.inner.put_words(|view| {
                let open = (0..stages).rev().filter(|&stage| !view.is_settled(stage)).take(MOST_AT_ONCE);
                Ok(open.map(|stage| WantedWord { call: Call::Cancel(stage), payload: None }).collect())
            });
            match done {
                Ok(done) if !done.is_empty() => {}
                ended => break ended.map(drop),
            }
        };
        self.service.serve_if_needed(&self.inner);
        cancelled
    }

    fn function_spec(&self, function: &str) -> Result<StageSpec, StoreError> {
        let version = self.service.functions.latest(function).ok_or_else(|| StoreError::NotRegistered(function.into()))?;
        let context = context::capture();
        Ok(StageSpec { name: function.into(), function: Some(function.into()), version: Some(version), context, ..StageSpec::default() })
    }

    fn attach(&self, form: Form, of: Of, said: StageSpec) -> Result<Stage, StoreError> {
        self.attach_by_words(form, of, said, |view, said| {
            let function = crate::plan::has_function(form).then_some(view.stage_count() as u16);
            Ok(vec![WantedWord { call: Call::Attach(form, of, function), payload: Some(spec_bytes(said)?) }])
        })
    }

    /// Attaches a composing stage, and right below it its promise.
    fn attach_composing(&self, form: Form, source: u16, said: StageSpec) -> Result<Stage, StoreError> {
        let promise = spec_bytes(&StageSpec { name: format!("what {} gives", said.name), ..StageSpec::default() })?;
        self.attach_by_words(form, Of::One(source), said, |view, said| {
            let number = view.stage_count() as u16;
            let own = spec_bytes(&StageSpec { to: Some(number), ..said.clone() })?;
            Ok(vec![
                WantedWord { call: Call::Attach(Form::Source, Of::None, None), payload: Some(promise.clone()) },
                WantedWord { call: Call::Attach(form, Of::One(source), Some(number + 1)), payload: Some(own) },
            ])
        })
    }

    /// Puts words that attach stages, and gives the last one, which is of this form; or the one that an earlier try of this thread's composing
    /// function has attached. Opens a closed request again.
    fn attach_by_words(
        &self,
        form: Form,
        of: Of,
        mut said: StageSpec,
        words: impl Fn(&mut RowView, &StageSpec) -> Result<Vec<WantedWord>, StoreError>,
    ) -> Result<Stage, StoreError> {
        said.by = self.inner.ask_composing(|it| it.first);
        let mut found = None;
        let decide = |view: &mut RowView| {
            if let Some((stage, first, taken)) = self.inner.ask_composing(|it| (it.stage, it.first, it.taken.clone())) {
                if !view.has_claim(stage)? {
                    let why = format!("{:?} is settled, and its function attaches nothing any more", view.stage_spec(first)?.name);
                    return Err(StoreError::Refused(why));
                }
                found = if stage == first { None } else { view.find_attached(form, of, &said, &taken)? };
            }
            if found.is_some() {
                return Ok(Vec::new());
            }
            words(view, &said)
        };
        let done = self.inner.put_words_and_open(true, decide);
        if matches!(done, Ok(_) | Err(StoreError::Unknown(_))) {
            self.service.keep_request(&self.inner); // (behind the put: who has seen it closed before doesn't let it go. Where no answer came it may stand)
        }
        self.service.serve_if_needed(&self.inner);
        let number = match (found, done?.last().map(|it| it.reply)) {
            (Some(number), _) | (None, Some(Reply::Attached(Some(number)))) => number,
            _ => return Err(StoreError::Full),
        };
        self.inner.ask_composing(|it| it.taken.insert(number));
        Ok(Stage::new(self, number))
    }

    /// Completes a flow's promises, but those that are settled.
    pub(crate) fn complete_all(&self, given: &[(u16, Option<Vec<u8>>)]) -> Result<(), StoreError> {
        for some in given.chunks(MOST_AT_ONCE) {
            let complete =
                |(stage, payload): &(u16, Option<Vec<u8>>)| WantedWord { call: Call::Complete(*stage, Value::Nil), payload: payload.clone() };
            self.inner.put_words(|view| Ok(some.iter().filter(|(stage, _)| !view.is_settled(*stage)).map(complete).collect()))?;
        }
        self.service.serve_if_needed(&self.inner);
        Ok(())
    }

    fn check_own(&self, of: &[&Stage]) -> Result<(), StoreError> {
        match of.iter().find(|it| !Arc::ptr_eq(&it.request.inner, &self.inner)) {
            None => Ok(()),
            Some(other) => {
                Err(StoreError::Refused(format!("stage {} is one of request {:?}, not of {:?}", other.number, other.request.name(), self.name())))
            }
        }
    }

    /// Attaches a tree of stages with at most two sources each, which ends as one stage of all sources would.
    fn attach_tree(&self, form: Form, of: &[&Stage], name: &str) -> Result<Stage, StoreError> {
        self.check_own(of)?;
        let mut row: Vec<u16> = of.iter().map(|it| it.number).collect();
        let said = || StageSpec { name: name.into(), ..StageSpec::default() };
        while row.len() > 2 {
            let mut above = Vec::with_capacity(row.len() / 2 + 1);
            for pair in row.chunks(2) {
                above.push(match *pair {
                    [first, second] => self.attach(form, Of::Two(first, second), said())?.number,
                    _ => pair[0],
                });
            }
            row = above;
        }
        let of = match *row.as_slice() {
            [] => Of::None,
            [first] => Of::One(first),
            _ => Of::Two(row[0], row[1]),
        };
        self.attach(form, of, said())
    }
}

impl Stage {
    fn new(request: &Request, number: u16) -> Stage {
        #[cfg(feature = "testing")]
        request.inner.given.lock().unwrap_or_else(PoisonError::into_inner).insert(number);
        Stage { request: request.clone(), number }
    }

    /// The stage's number in the request.
    pub fn number(&self) -> u16 {
        self.number
    }

    /// The stage's name in histories: that of its function, or of the promise.
    pub fn name(&self) -> Result<String, StoreError> {
        Ok(self.request.inner.view().stage_spec(self.number)?.name)
    }

    /// Calls a registered function with the value of this stage.
    pub fn then(&self, function: &str) -> Result<Stage, StoreError> {
        self.attach_behind(Form::Apply, Of::One(self.number), function)
    }

    /// Calls a registered function with the values of this stage and of another one of the request.
    pub fn combine(&self, other: &Stage, function: &str) -> Result<Stage, StoreError> {
        self.request.check_own(&[other])?;
        self.attach_behind(Form::Combine, Of::Two(self.number, other.number), function)
    }

    /// Calls a registered function with the value of this stage or of another one of the request, whichever is settled first.
    pub fn either(&self, other: &Stage, function: &str) -> Result<Stage, StoreError> {
        self.request.check_own(&[other])?;
        self.attach_behind(Form::ApplyEither, Of::Two(self.number, other.number), function)
    }

    /// Calls a registered function with the value, or null, and the [`Failed`], or null.
    pub fn handle(&self, function: &str) -> Result<Stage, StoreError> {
        self.attach_behind(Form::Handle, Of::One(self.number), function)
    }

    /// Calls a registered function with the value, or null, and the [`Failed`], or null, and ends as this stage does, or with the function's own
    /// error.
    pub fn when_done(&self, function: &str) -> Result<Stage, StoreError> {
        self.attach_behind(Form::WhenComplete, Of::One(self.number), function)
    }

    /// Has a registered function attach stages to this request, and waits for one of them without holding a thread. The function is one that was
    /// registered by [`Functions::composing`](crate::Functions::composing). It is called with the request, as the process has it that runs the
    /// function, and with the value, and gives a stage of the request. The stage that is given back ends as that one does. It takes two stages.
    ///
    /// To try again what failed, a composing function attaches itself once more, behind a pause:
    ///
    /// ```
    /// # #[cfg(feature = "sqlite")]
    /// # fn main() -> Result<(), Box<dyn std::error::Error>> {
    /// # let folder = std::env::temp_dir().join(format!("cf-store-compose-{}", std::process::id()));
    /// # std::fs::create_dir_all(&folder)?;
    /// # let path = folder.join("orders.db");
    /// use cf_store::{Functions, Request, SQLite, Service, Stage, StoreError};
    /// use std::time::Duration;
    ///
    /// /// Stands for a bank that is away twice.
    /// fn bank(tried: u32) -> Result<&'static str, String> {
    ///     if tried < 2 { Err("the bank is away".into()) } else { Ok("paid") }
    /// }
    ///
    /// fn charge(request: &Request, tried: u32) -> Result<Stage, StoreError> {
    ///     match bank(tried) {
    ///         Ok(paid) => {
    ///             let answer = request.promise("answer")?;
    ///             answer.complete(paid)?;
    ///             Ok(answer)
    ///         }
    ///         Err(error) if tried == 4 => Err(StoreError::Refused(error)),
    ///         Err(_) => {
    ///             let pause = request.promise("pause")?;
    ///             pause.complete_on_timeout(&(tried + 1), Duration::from_millis(10))?;
    ///             pause.compose("charge")
    ///         }
    ///     }
    /// }
    ///
    /// let service = Service::new(SQLite::open(path)?, Functions::new().composing("charge", 1, charge))?;
    /// let request = service.request("order 17")?;
    /// let order = request.promise("order")?;
    /// let paid = order.compose("charge")?;
    /// order.complete(&0)?;
    /// assert_eq!(paid.wait::<String>()?, "paid");
    /// # drop(service);
    /// # std::fs::remove_dir_all(folder)?;
    /// # Ok(())
    /// # }
    /// # #[cfg(not(feature = "sqlite"))]
    /// # fn main() {}
    /// ```
    pub fn compose(&self, function: &str) -> Result<Stage, StoreError> {
        self.request.attach_composing(Form::Compose, self.number, self.request.function_spec(function)?)
    }

    /// Calls a registered function with the [`Failed`] of this stage, if it fails, and takes its result.
    pub fn recover(&self, function: &str) -> Result<Stage, StoreError> {
        self.attach_behind(Form::Exceptionally, Of::One(self.number), function)
    }

    /// Plans further tries, for the case that the process that runs this stage's function dies. The function may have done its work before, and does
    /// it once more with each try, unless it is transactional. It gives the last try, which passes on the value of an earlier one.
    ///
    /// Of a stage that composes each try takes two stages. What an earlier try has attached isn't attached once more, if the function attaches the
    /// same on its own thread: a stage of the same kind, name, function, arguments and sources.
    pub fn again(&self, times: usize) -> Result<Stage, StoreError> {
        let composes = self.request.inner.view().stage_spec(self.number)?.to.is_some();
        let said =
            StageSpec { name: format!("{} again", self.name()?), again: Some(self.number), context: context::capture(), ..StageSpec::default() };
        let mut stage = self.clone();
        for _ in 0..times {
            stage = if composes {
                self.request.attach_composing(Form::ExceptionallyCompose, stage.number, said.clone())?
            } else {
                self.request.attach(Form::Exceptionally, Of::One(stage.number), said.clone())?
            };
        }
        Ok(stage)
    }

    fn attach_behind(&self, form: Form, of: Of, function: &str) -> Result<Stage, StoreError> {
        self.request.attach(form, of, self.request.function_spec(function)?)
    }

    /// Settles the stage with a value, unless it is settled. Whether this call settled it.
    pub fn complete<T: Serialize + ?Sized>(&self, value: &T) -> Result<bool, StoreError> {
        let payload = payload_of(value)?;
        self.settle(Call::Complete(self.number, Value::Nil), payload, false)
    }

    /// Settles the stage with an error, unless it is settled. Whether this call settled it.
    pub fn fail(&self, failed: &Failed) -> Result<bool, StoreError> {
        self.settle(Call::Fail(self.number, 0), Some(failed_bytes(failed)), false)
    }

    /// Cancels the stage, unless it is settled or its function runs in some process. Whether it is cancelled after the call.
    pub fn cancel(&self) -> Result<bool, StoreError> {
        self.settle(Call::Cancel(self.number), None, true)
    }

    /// Cancels the stage, unless it is settled, also while its function runs, whose answer comes too late then. Whether it is cancelled after the
    /// call.
    pub fn abandon(&self) -> Result<bool, StoreError> {
        self.settle(Call::Cancel(self.number), None, false)
    }

    fn settle(&self, call: Call, payload: Option<Vec<u8>>, waits: bool) -> Result<bool, StoreError> {
        let (inner, number) = (&self.request.inner, self.number);
        let done = inner.put_words(|view| {
            let rests = view.is_settled(number) || waits && view.holder(number)?.is_some();
            Ok(if rests { vec![] } else { vec![WantedWord { call, payload: payload.clone() }] })
        });
        self.request.service.serve_if_needed(inner);
        match done?.first().map(|it| it.reply) {
            Some(Reply::Flag(won)) => Ok(won),
            _ => Ok(matches!(call, Call::Cancel(_)) && inner.view().state(number) == CANCELLED),
        }
    }

    /// Sets a timer in the store, by which the stage times out unless it is settled. Any process that works on the request fires it. A stage has one
    /// timer; a second call replaces the first one's. It gives no stage, as the store may refuse the timer: go on with this one. A function that runs
    /// goes on, and its answer comes too late.
    ///
    /// ```
    /// # #[cfg(feature = "sqlite")]
    /// # fn main() -> Result<(), Box<dyn std::error::Error>> {
    /// # let folder = std::env::temp_dir().join(format!("cf-store-timeout-{}", std::process::id()));
    /// # std::fs::create_dir_all(&folder)?;
    /// # let path = folder.join("orders.db");
    /// use cf_store::{Error, Functions, SQLite, Service};
    /// use std::time::Duration;
    ///
    /// let service = Service::new(SQLite::open(path)?, Functions::new())?;
    /// let approved = service.request("order 17")?.promise("approved")?;
    /// approved.or_timeout(Duration::from_millis(10))?;
    /// assert!(matches!(approved.wait::<String>(), Err(Error::TimedOut(_))));
    /// # drop(service);
    /// # std::fs::remove_dir_all(folder)?;
    /// # Ok(())
    /// # }
    /// # #[cfg(not(feature = "sqlite"))]
    /// # fn main() {}
    /// ```
    pub fn or_timeout(&self, wait: Duration) -> Result<(), StoreError> {
        let text = format!("{} took longer than {} s", self.name()?, wait.as_secs_f64());
        self.set_timer(wait, b'E', &failed_bytes(&Failed::new("TimeoutError", text)))
    }

    /// Sets a timer in the store, by which the stage gets a value unless it is settled, as [`or_timeout`](Stage::or_timeout).
    pub fn complete_on_timeout<T: Serialize + ?Sized>(&self, value: &T, wait: Duration) -> Result<(), StoreError> {
        match payload_of(value)? {
            Some(value) => self.set_timer(wait, b'V', &value),
            None => self.set_timer(wait, b'N', &[]),
        }
    }

    fn set_timer(&self, wait: Duration, kind: u8, what: &[u8]) -> Result<(), StoreError> {
        let (inner, service) = (&self.request.inner, &self.request.service);
        if inner.view().is_settled(self.number) {
            return Ok(());
        }
        let payload = [&[kind], what].concat();
        service.retrying_for_a_minute(|| {
            let due = service.store.now()? + wait.as_secs_f64();
            service.store.set_timer(&Timer { request: inner.name.clone(), number: inner.number, stage: self.number, due, payload: payload.clone() })
        })
    }

    /// Waits until the stage is settled, also while the store doesn't answer, and gives its value. It holds its thread: within a task of tokio's
    /// call it by `spawn_blocking`, as each call that asks the store.
    ///
    /// # Errors
    ///
    /// What the stage failed with; [`Error::Unreadable`] where its value is of another type; [`Error::Store`] where the request can't be read, or the
    /// service was dropped.
    pub fn wait<T: DeserializeOwned>(&self) -> Result<T, Error> {
        self.wait_until(None).and_then(|told| told.ok_or(Error::Cancelled))
    }

    /// The same, for so long at most: nothing where the stage isn't settled by then, or where the store hasn't given its value. That may take 0.2 s
    /// where less is asked for.
    ///
    /// ```
    /// # #[cfg(feature = "sqlite")]
    /// # fn main() -> Result<(), Box<dyn std::error::Error>> {
    /// # let folder = std::env::temp_dir().join(format!("cf-store-wait-{}", std::process::id()));
    /// # std::fs::create_dir_all(&folder)?;
    /// # let path = folder.join("orders.db");
    /// use cf_store::{Functions, SQLite, Service};
    /// use std::time::Duration;
    ///
    /// let service = Service::new(SQLite::open(path)?, Functions::new())?;
    /// let approved = service.request("order 17")?.promise("approved")?;
    /// assert_eq!(approved.wait_timeout::<String>(Duration::from_millis(10))?, None); // not settled yet
    /// approved.complete("Ada")?;
    /// assert_eq!(approved.wait_timeout::<String>(Duration::from_secs(60))?.as_deref(), Some("Ada"));
    /// # drop(service);
    /// # std::fs::remove_dir_all(folder)?;
    /// # Ok(())
    /// # }
    /// # #[cfg(not(feature = "sqlite"))]
    /// # fn main() {}
    /// ```
    pub fn wait_timeout<T: DeserializeOwned>(&self, wait: Duration) -> Result<Option<T>, Error> {
        self.wait_until(Some(self.request.service.host.now() + wait))
    }

    /// Reads the value if this process knows that the stage is settled. That may take 0.2 s.
    pub fn peek<T: DeserializeOwned>(&self) -> Result<Option<T>, Error> {
        self.wait_timeout(Duration::ZERO)
    }

    fn wait_until<T: DeserializeOwned>(&self, until: Option<Instant>) -> Result<Option<T>, Error> {
        let inner = &self.request.inner;
        let least = inner.host.now() + LEAST_READING;
        loop {
            let shown = *lock(&inner.shown); // (before the look: what is shown from here on isn't waited for)
            let pause = match self.look_at_end(until.is_some())? {
                Look::Ended(end) => {
                    return end.and_then(|value| serde_json::from_value(value).map(Some).map_err(|why| Error::Unreadable(why.to_string())))
                }
                Look::Open => None,
                Look::Later(pause) => Some(pause),
            };
            if let Some(fault) = &*lock(&inner.fault) {
                return Err(fault.clone().into());
            }
            if self.request.service.is_stopping() {
                return Err(StoreError::Refused("the service is shut down".into()).into());
            }
            let until = if pause.is_some() { until.map(|it| it.max(least)) } else { until };
            let left = until.map(|it| it.saturating_duration_since(inner.host.now()));
            if left == Some(Duration::ZERO) {
                return Ok(None);
            }
            self.wait_for_shown(shown, left.into_iter().chain(pause).min());
        }
    }

    /// Looks at the stage now. If the wait has a limit, it waits neither for the view nor for the store.
    fn look_at_end(&self, is_limited: bool) -> Result<Look, StoreError> {
        let inner = &self.request.inner;
        loop {
            let view = if is_limited && inner.host.has_threads() { inner.try_view() } else { Some(inner.view()) };
            let Some(mut view) = view else { return Ok(Look::Later(BETWEEN_LOOKS)) };
            let Some(place) = view.unread_place(self.number) else {
                return Ok(view.read_end(self.number)?.map_or(Look::Open, Look::Ended));
            };
            if let Some(told) = inner.take_payload_read(place) {
                view.keep_payload(place, told?);
                continue;
            }
            drop(view);
            if !inner.read_payload(place, is_limited) {
                return Ok(Look::Later(BETWEEN_READS));
            }
        }
    }

    /// Waits until something is published, for `wait` at most.
    fn wait_for_shown(&self, shown: u64, wait: Option<Duration>) {
        let inner = &self.request.inner;
        if inner.host.has_threads() {
            let wait = wait.unwrap_or(Duration::from_secs(3600));
            drop(inner.changed.wait_timeout_while(lock(&inner.shown), wait, |now| *now == shown));
            return;
        }
        let name = self.name().unwrap_or_default();
        let (its, number) = (Arc::clone(inner), self.number);
        let is_faulty = move || lock(&its.fault).is_some();
        let view = Arc::clone(&inner.view);
        inner.host.wait_until(&name, Arc::new(move || knows_settled(&view, number) || is_faulty()), wait);
    }
}

/// The result of a waiter's look.
enum Look {
    Ended(Result<Json, Error>),
    Open,
    /// Look again after this pause, or once something is published.
    Later(Duration),
}

/// Whether a view that no thread has knows that a stage is settled.
fn knows_settled(view: &Mutex<RowView>, stage: u16) -> bool {
    match view.try_lock() {
        Ok(view) => view.is_settled(stage),
        Err(TryLockError::Poisoned(view)) => view.into_inner().is_settled(stage),
        Err(TryLockError::WouldBlock) => false,
    }
}

const CANCELLED: State = State::Settled(Outcome::Fault { cause: cf_graph::Cause::Cancelled, wrapped: false });

/// The pause of a waiter while another thread has the view.
const BETWEEN_LOOKS: Duration = Duration::from_millis(2);
/// The pause before a payload is asked for again.
const BETWEEN_READS: Duration = Duration::from_millis(100);
/// The least time that a payload is waited for.
const LEAST_READING: Duration = Duration::from_millis(200);
/// The most promises that one put completes.
const MOST_AT_ONCE: usize = 32;

fn spec_bytes(said: &StageSpec) -> Result<Vec<u8>, StoreError> {
    serde_json::to_vec(said).map_err(|error| StoreError::Refused(error.to_string()))
}

/// The bytes of a value, or nothing for null.
pub(crate) fn payload_of<T: Serialize + ?Sized>(value: &T) -> Result<Option<Vec<u8>>, StoreError> {
    let bytes = serde_json::to_vec(value).map_err(|error| StoreError::Refused(error.to_string()))?;
    Ok((bytes != b"null").then_some(bytes))
}

/// The word that a timer puts.
pub(crate) fn timer_word(timer: &Timer) -> WantedWord {
    let what = timer.payload.get(1..).map(<[u8]>::to_vec);
    match timer.payload.first() {
        Some(b'E') => WantedWord { call: Call::FailAs(timer.stage, Failure::TimedOut(0)), payload: what },
        Some(b'V') => WantedWord { call: Call::Complete(timer.stage, Value::Nil), payload: what },
        _ => WantedWord { call: Call::Complete(timer.stage, Value::Nil), payload: None },
    }
}

/// The result of a function.
pub(crate) enum Returned {
    Value(Json),
    /// A stage. The composing stage's promise ends as it does.
    Stage {
        promise: u16,
        stage: u16,
    },
}

/// The answer of a finish at a place, and its payload.
pub(crate) fn answer_of(result: &Result<Returned, Failed>, place: usize) -> (Answer, Option<Vec<u8>>) {
    match result {
        Ok(Returned::Value(Json::Null)) => (Answer::Give(Value::Nil), None),
        Ok(Returned::Value(value)) => (Answer::Give(Value::Int(place as i32)), Some(value.to_string().into_bytes())),
        Ok(Returned::Stage { promise, stage }) => (Answer::Link(*promise), Some(json!({ "stage": stage }).to_string().into_bytes())),
        Err(failed) => (Answer::Throw(place as u32), Some(failed_bytes(failed))),
    }
}

impl fmt::Debug for Request {
    fn fmt(&self, f: &mut fmt::Formatter<'_>) -> fmt::Result {
        f.debug_struct("Request").field("name", &self.inner.name).finish_non_exhaustive()
    }
}
