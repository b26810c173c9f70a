//! The threads that work on requests: a pool that runs functions, and the pump, which looks for news.
use crate::context;
use crate::ends::{ClosedRequest, Ends};
use crate::error::{Error, Failed, StoreError, ABANDONED};
use crate::flow::Flow;
use crate::functions::{FunctionKind, Functions};
use crate::host::{Host, RealHost};
use crate::plan::{self, StageSpec};
use crate::request::{answer_of, payload_of, timer_word, LocalRequest, Request, Returned};
use crate::sessions::Sessions;
use crate::store::{Mark, Opened, Store, Timer, Transaction};
use crate::view::{retrying_for_a_minute, RowView, WantedWord, PATIENCE, SESSION_BITS};
use cf_graph::{Answer, Args, Call, Claimed, Form, Outcome, Reply, State};
use serde_json::{Map, Value as Json};
use std::any::Any;
use std::collections::{BTreeMap, BTreeSet, HashSet, VecDeque};
use std::fmt;
use std::sync::atomic::{AtomicBool, AtomicU64, Ordering};
use std::sync::{Arc, Condvar, Mutex, MutexGuard, PoisonError, Weak};
use std::thread::{self, JoinHandle};
use std::time::{Duration, Instant};

/// How often timers are looked for.
const BETWEEN_TIMERS: Duration = Duration::from_millis(20);
/// How long the pump waits for news at most.
const LONGEST_PAUSE: Duration = Duration::from_millis(200);
/// The pause before a refused finish is put again.
const BETWEEN_REFUSALS: Duration = Duration::from_millis(500);
/// The pause before a failed transaction is begun again.
const BETWEEN_TRANSACTIONS: Duration = Duration::from_millis(50);

/// How a service works: what [`Service::with`] takes.
///
/// ```
/// # #[cfg(feature = "sqlite")]
/// # fn main() -> Result<(), Box<dyn std::error::Error>> {
/// # let folder = std::env::temp_dir().join(format!("cf-store-options-{}", std::process::id()));
/// # std::fs::create_dir_all(&folder)?;
/// # let path = folder.join("orders.db");
/// use cf_store::{Functions, Options, SQLite, Service};
/// use std::time::Duration;
///
/// let options = Options::default().threads(8).lease(Duration::from_secs(5)).takes_all().warns(|text| eprintln!("orders: {text}"));
/// let service = Service::with(SQLite::open(path)?, Functions::new(), options)?;
/// # drop(service);
/// # std::fs::remove_dir_all(folder)?;
/// # Ok(())
/// # }
/// # #[cfg(not(feature = "sqlite"))]
/// # fn main() {}
/// ```
#[derive(Clone, Debug)]
#[non_exhaustive]
pub struct Options {
    /// How many threads run functions, 4 by default. With 0 this process runs none.
    pub threads: usize,
    /// How long this process may be silent until others take it for gone, and abandon the stages whose functions it runs: 10 s by default.
    pub lease: Duration,
    /// Whether it works on all open requests of the store, and not only on those that it opened.
    pub takes_all: bool,
    /// Called with failures for which nobody waits. By default they are written to standard error.
    pub warns: fn(&str),
    /// The hook that is told of each request that this process closes: none by default.
    pub on_end: Option<Ends>,
}

impl Default for Options {
    fn default() -> Options {
        Options { threads: 4, lease: Duration::from_secs(10), takes_all: false, warns: |text| eprintln!("cf-store: {text}"), on_end: None }
    }
}

impl Options {
    /// Sets how many threads run functions.
    pub fn threads(self, threads: usize) -> Options {
        Options { threads, ..self }
    }

    /// Sets how long this process may be silent.
    pub fn lease(self, lease: Duration) -> Options {
        Options { lease, ..self }
    }

    /// Works on all open requests of the store.
    pub fn takes_all(self) -> Options {
        Options { takes_all: true, ..self }
    }

    /// Sets what is told of failures for which nobody waits.
    pub fn warns(self, warns: fn(&str)) -> Options {
        Options { warns, ..self }
    }

    /// Sets the hook that is told of each request that this process closes.
    pub fn on_end(self, ends: Ends) -> Options {
        Options { on_end: Some(ends), ..self }
    }
}

/// A process, or a part of one, that works on requests of a store. When it is dropped it begins nothing more, and waits for the functions that run.
/// Open requests stay in the store, and other processes go on with them. The service tries to put the results for a minute, also if the store doesn't
/// answer. Then it calls [`Options::warns`] with what is lost.
#[derive(Debug)]
pub struct Service {
    pub(crate) shared: Arc<ServiceCore>,
    pump: Option<JoinHandle<()>>,
    threads: Vec<JoinHandle<()>>,
}

/// The state that the threads of a service share.
pub(crate) struct ServiceCore {
    pub(crate) store: Arc<dyn Store>,
    pub(crate) host: Arc<dyn Host>,
    pub(crate) functions: Functions,
    pub(crate) options: Options,
    pub(crate) session: u64,
    sessions: Arc<Sessions>,
    requests: Mutex<BTreeMap<String, KnownRequest>>,
    /// The number of times that the service was asked to go on with a request.
    keeps: AtomicU64,
    jobs: Mutex<VecDeque<ServiceJob>>,
    work: Condvar,
    stops: AtomicBool,
    /// The moment until which it tries to put results, once it stops.
    last_put: Mutex<Option<Instant>>,
    /// Whether all functions have ended.
    rests: AtomicBool,
    /// Unknown functions of which it has warned.
    unknown: Mutex<HashSet<(String, u32)>>,
    /// Timers that are being fired.
    firing: Mutex<HashSet<(String, u16)>>,
}

/// A request that this process knows.
enum KnownRequest {
    Open(Arc<LocalRequest>),
    /// It was closed, and the program may still have it.
    Closed(Weak<LocalRequest>),
    Broken,
}

pub(crate) enum ServiceJob {
    Look(Arc<LocalRequest>),
    Fire(Timer),
    LetGo(Leaving),
}

/// A request that is closed in the store. It is forgotten unless the program has asked for it since.
pub(crate) struct Leaving {
    pub(crate) inner: Arc<LocalRequest>,
    /// The service's count of asked requests before the store was asked.
    before: u64,
}

impl Drop for Leaving {
    fn drop(&mut self) {
        self.inner.is_leaving.store(false, Ordering::SeqCst);
    }
}

/// A stage that this session has claimed, with its function and arguments, or with the failure that it ends in without a call.
struct ClaimedTask {
    stage: u16,
    /// The stage whose function it calls: itself, or the one that it tries again.
    first: u16,
    name: String,
    version: u32,
    given: Result<Vec<Json>, Failed>,
    /// The arguments by name.
    named: Map<String, Json>,
    /// The context in which the stage was attached.
    carried: Map<String, Json>,
    /// The promise of a stage that composes.
    to: Option<u16>,
}

/// The result of one try to run a function in a transaction.
enum Attempt {
    /// The effect stands, with the finish.
    Stands,
    /// Nothing stands. The function is to be run again.
    Lost,
    /// Nothing stands. This finish is to be put.
    Ended(Result<Returned, Failed>),
}

/// The pump's state between two rounds.
pub(crate) struct PumpState {
    next_beat: Instant,
    next_timers: Instant,
    mark: Option<Mark>,
    is_named: bool,
}

impl PumpState {
    pub(crate) fn new(now: Instant) -> PumpState {
        PumpState { next_beat: now, next_timers: now, mark: None, is_named: false }
    }
}

/// A stage whose finish is to be put, and its result.
type EndedStage = Option<(u16, Result<Returned, Failed>)>;

impl Service {
    /// Starts a service of a store that runs these functions, with the default [`Options`].
    pub fn new(store: impl Store + 'static, functions: Functions) -> Result<Service, StoreError> {
        Service::with(store, functions, Options::default())
    }

    /// Starts a service with options. [`StoreError::Refused`] if a function is transactional and the store has no transactions.
    pub fn with(store: impl Store + 'static, functions: Functions, options: Options) -> Result<Service, StoreError> {
        Service::hosted(Arc::new(store), functions, options, Arc::new(RealHost))
    }

    pub(crate) fn hosted(store: Arc<dyn Store>, functions: Functions, options: Options, host: Arc<dyn Host>) -> Result<Service, StoreError> {
        if functions.has_transactional() && !store.transacts() {
            return Err(StoreError::Refused("the store has no transactions that a function can take part in".into()));
        }
        let session = host.random_bits(SESSION_BITS);
        let shared = Arc::new(ServiceCore {
            store,
            functions,
            session,
            sessions: Arc::new(Sessions::new(session, options.lease)),
            host,
            requests: Mutex::default(),
            keeps: AtomicU64::new(0),
            jobs: Mutex::default(),
            work: Condvar::new(),
            stops: AtomicBool::new(false),
            last_put: Mutex::default(),
            rests: AtomicBool::new(false),
            unknown: Mutex::default(),
            firing: Mutex::default(),
            options,
        });
        let mut service = Service { shared, pump: None, threads: Vec::new() };
        if !service.shared.host.has_threads() {
            return Ok(service);
        }
        // (where one can't be started, those that were end as the service is dropped)
        service.pump = Some(service.start_thread("cf-store-pump", ServiceCore::run_pump)?);
        for number in 0..service.shared.options.threads.max(1) {
            let thread = service.start_thread(&format!("cf-store-{number}"), ServiceCore::run_jobs)?;
            service.threads.push(thread);
        }
        Ok(service)
    }

    fn start_thread(&self, name: &str, run: fn(&Arc<ServiceCore>)) -> Result<JoinHandle<()>, StoreError> {
        let shared = Arc::clone(&self.shared);
        thread::Builder::new().name(name.into()).spawn(move || run(&shared)).map_err(|error| StoreError::Refused(error.to_string()))
    }

    /// Opens a request without stages, or gives the one of this name as it stands in the store. A program that runs twice attaches its stages twice:
    /// look for them by [`Request::named`], or [`start`](Service::start) a flow.
    pub fn request(&self, name: &str) -> Result<Request, StoreError> {
        let plan = Flow::default().plan_text(&self.shared.functions)?;
        let found = self.shared.retrying_for_a_minute(|| self.shared.store.open(name, &plan))?;
        self.shared.open_found(found)
    }

    /// Begins a request of a flow's stages, and completes its promises with these values, in their order. If a request of this name stands in the
    /// store, it goes on with that: what is settled there stays as it is. The request is closed by itself once all its stages are settled.
    ///
    /// [`StoreError::Refused`] where more values are given than there are promises, or the flow is no plan; [`StoreError::NotRegistered`] where a
    /// function isn't registered; [`StoreError::Broken`] where the request was begun with another plan.
    ///
    /// ```
    /// # #[cfg(feature = "sqlite")]
    /// # fn main() -> Result<(), Box<dyn std::error::Error>> {
    /// # let folder = std::env::temp_dir().join(format!("cf-store-start-{}", std::process::id()));
    /// # std::fs::create_dir_all(&folder)?;
    /// # let path = folder.join("orders.db");
    /// use cf_store::{Flow, Functions, SQLite, Service};
    /// use serde_json::json;
    ///
    /// let mut flow = Flow::new("order");
    /// let order = flow.promise("order");
    /// let paid = flow.then(order, "charge");
    /// let service = Service::new(SQLite::open(path)?, Functions::new().with("charge", 1, |cents: u32| Ok::<_, String>(cents + 1)))?;
    /// for _twice in 0..2 {
    ///     let request = service.start(&flow, "order 17", &[json!(4900)])?;
    ///     assert_eq!(request.step(paid).unwrap().wait::<u32>()?, 4901); // charged once
    /// }
    /// # drop(service);
    /// # std::fs::remove_dir_all(folder)?;
    /// # Ok(())
    /// # }
    /// # #[cfg(not(feature = "sqlite"))]
    /// # fn main() {}
    /// ```
    pub fn start(&self, flow: &Flow, name: &str, given: &[Json]) -> Result<Request, StoreError> {
        let (promises, plan) = (flow.promises(), flow.plan_text(&self.shared.functions)?);
        if given.len() > promises.len() {
            return Err(StoreError::Refused(format!("the flow has {} promises", promises.len())));
        }
        let found = self.shared.retrying_for_a_minute(|| self.shared.store.open(name, &plan))?;
        if !plan::are_alike(&found.plan, &plan) {
            return Err(StoreError::broken(name, 0, "it was begun with another plan"));
        }
        let request = self.shared.open_found(found)?;
        let given = promises.into_iter().zip(given).map(|(stage, value)| Ok((stage, payload_of(value)?)));
        request.complete_all(&given.collect::<Result<Vec<_>, StoreError>>()?)?;
        Ok(request)
    }

    /// Opens a request that stands in the store. [`StoreError::Gone`] if there is none of this name.
    pub fn open(&self, name: &str) -> Result<Request, StoreError> {
        let found = self.shared.retrying_for_a_minute(|| self.shared.store.find(name))?;
        self.shared.open_found(found.ok_or_else(|| StoreError::Gone(name.into()))?)
    }

    /// Goes on with all open requests of the store, as after a crash, and gives them. Leaves out broken ones, and warns of them.
    pub fn resume(&self) -> Result<Vec<Request>, StoreError> {
        let (open, _) = self.shared.retrying_for_a_minute(|| self.shared.store.news(None))?;
        let mut resumed = Vec::new();
        for name in open.keys() {
            match self.open(name) {
                Ok(request) => resumed.push(request),
                Err(StoreError::Gone(_)) => {}
                Err(StoreError::Broken { .. }) => {} // (it was told)
                Err(error) => return Err(error),
            }
        }
        Ok(resumed)
    }
}

impl Drop for Service {
    fn drop(&mut self) {
        self.shared.stop();
        for thread in self.threads.drain(..) {
            let _panicked = thread.join();
        }
        self.shared.rests.store(true, Ordering::SeqCst);
        if let Some(pump) = self.pump.take() {
            pump.thread().unpark();
            let _panicked = pump.join();
        }
        for inner in self.shared.all_requests() {
            inner.wake_waiters();
        }
        let _others_see_its_silence = self.shared.store.drop_beat(self.shared.session);
    }
}

fn lock<T>(mutex: &Mutex<T>) -> MutexGuard<'_, T> {
    mutex.lock().unwrap_or_else(PoisonError::into_inner)
}

impl ServiceCore {
    pub(crate) fn is_stopping(&self) -> bool {
        self.stops.load(Ordering::SeqCst)
    }

    /// Begins nothing more. Results are put for a minute.
    pub(crate) fn stop(&self) {
        *lock(&self.last_put) = Some(self.host.now() + PATIENCE);
        self.stops.store(true, Ordering::SeqCst);
        drop(self.lock_jobs());
        self.work.notify_all();
    }

    /// Whether it stops, and has tried for long enough to put results.
    fn has_given_up(&self) -> bool {
        lock(&self.last_put).map_or(false, |last| self.host.now() > last)
    }

    pub(crate) fn retrying_for_a_minute<T>(&self, call: impl FnMut() -> Result<T, StoreError>) -> Result<T, StoreError> {
        retrying_for_a_minute(&*self.host, call)
    }

    pub(crate) fn warn(&self, name: &str, what: &dyn fmt::Display) {
        self.host.warn(self.options.warns, name, &format!("request {name:?}: {what}"));
    }

    fn lock_jobs(&self) -> MutexGuard<'_, VecDeque<ServiceJob>> {
        lock(&self.jobs)
    }

    fn submit(&self, job: ServiceJob) {
        let Some(job) = self.host.take_job(job) else { return };
        self.lock_jobs().push_back(job);
        self.work.notify_one();
    }

    // The requests that are known here.

    fn open_found(self: &Arc<ServiceCore>, found: Opened) -> Result<Request, StoreError> {
        let name = found.name.clone();
        let inner = self.local_request(found).map_err(|error| {
            self.give_up_request(&name, None, &error);
            error
        })?;
        self.submit_look(&inner);
        Ok(Request { inner, service: Arc::clone(self) })
    }

    /// Gives the one value of a request in this service, which it makes if there is none.
    fn local_request(&self, found: Opened) -> Result<Arc<LocalRequest>, StoreError> {
        let number = found.number;
        if let Some(known) = self.known_request(&found.name).filter(|it| it.number == number) {
            known.catch_up()?;
            return Ok(known);
        }
        let made = Arc::new(LocalRequest::new(
            RowView::new(Arc::clone(&self.store), Arc::clone(&self.host), found, Arc::clone(&self.sessions))?,
            &self.host,
            self.store.locks_out_others(),
        ));
        made.catch_up()?;
        let mut requests = lock(&self.requests);
        if let Some(KnownRequest::Open(known)) = requests.get(&made.name) {
            if known.number >= number {
                return Ok(Arc::clone(known)); // (another thread has made it meanwhile)
            }
            known.set_fault(StoreError::Gone(made.name.clone())); // it was dropped, and another of its name opened
        }
        self.keep_open(&mut requests, &made);
        Ok(made)
    }

    /// Finds a known request, and goes on with it if it was closed and others have opened it again.
    fn known_request(&self, name: &str) -> Option<Arc<LocalRequest>> {
        let mut requests = lock(&self.requests);
        let known = match requests.get(name)? {
            KnownRequest::Open(inner) => return Some(Arc::clone(inner)),
            KnownRequest::Closed(inner) => inner.upgrade()?,
            KnownRequest::Broken => return None,
        };
        self.keep_open(&mut requests, &known);
        Some(known)
    }

    /// Puts a request among the open ones.
    fn keep_open(&self, requests: &mut BTreeMap<String, KnownRequest>, inner: &Arc<LocalRequest>) {
        inner.kept.store(self.keeps.fetch_add(1, Ordering::SeqCst) + 1, Ordering::SeqCst);
        requests.insert(inner.name.clone(), KnownRequest::Open(Arc::clone(inner)));
    }

    pub(crate) fn is_broken(&self, name: &str) -> bool {
        matches!(lock(&self.requests).get(name), Some(KnownRequest::Broken))
    }

    /// Finds a known request, open or closed, and leaves it as it is.
    pub(crate) fn request_as_kept(&self, name: &str) -> Option<Arc<LocalRequest>> {
        match lock(&self.requests).get(name)? {
            KnownRequest::Open(inner) => Some(Arc::clone(inner)),
            KnownRequest::Closed(inner) => inner.upgrade(),
            KnownRequest::Broken => None,
        }
    }

    /// Whether a timer of a stage is being fired.
    #[cfg(feature = "testing")]
    pub(crate) fn is_firing(&self, timer: &Timer) -> bool {
        lock(&self.firing).contains(&(timer.request.clone(), timer.stage))
    }

    fn all_requests(&self) -> Vec<Arc<LocalRequest>> {
        let requests = lock(&self.requests);
        let known = |kept: &KnownRequest| match kept {
            KnownRequest::Open(inner) => Some(Arc::clone(inner)),
            KnownRequest::Closed(inner) => inner.upgrade(),
            KnownRequest::Broken => None,
        };
        requests.values().filter_map(known).collect()
    }

    /// The known requests that weren't closed.
    pub(crate) fn open_requests(&self) -> Vec<Arc<LocalRequest>> {
        let requests = lock(&self.requests);
        requests.values().filter_map(|kept| if let KnownRequest::Open(inner) = kept { Some(Arc::clone(inner)) } else { None }).collect()
    }

    /// Goes on with a request, unless there is another of its name by now.
    pub(crate) fn keep_request(&self, inner: &Arc<LocalRequest>) {
        let mut requests = lock(&self.requests);
        let is_its = match requests.get(&inner.name) {
            Some(KnownRequest::Open(known)) => Arc::ptr_eq(known, inner),
            Some(KnownRequest::Closed(known)) => known.upgrade().map_or(true, |known| Arc::ptr_eq(&known, inner)),
            Some(KnownRequest::Broken) => false,
            None => true,
        };
        if is_its {
            self.keep_open(&mut requests, inner);
        }
    }

    /// Gives up a request that is broken or gone. Others go on.
    fn give_up_request(&self, name: &str, inner: Option<&Arc<LocalRequest>>, error: &StoreError) {
        if matches!(error, StoreError::Broken { .. } | StoreError::Gone(_)) {
            self.warn(name, error);
            self.host.note_broken(error);
            let mut requests = lock(&self.requests);
            // (the next one of its name may be there already)
            let is_next = matches!((inner, requests.get(name)), (Some(inner), Some(KnownRequest::Open(known))) if !Arc::ptr_eq(known, inner));
            match error {
                _ if is_next => {}
                StoreError::Broken { .. } => drop(requests.insert(name.into(), KnownRequest::Broken)),
                _ => drop(requests.remove(name)), // (another of its name may be opened)
            }
            drop(requests);
            if let Some(inner) = inner {
                inner.set_fault(error.clone());
            }
        }
    }

    /// Has a thread work on a request behind a put of this process, if there is work. (The pump is told what others put.)
    pub(crate) fn serve_if_needed(&self, inner: &Arc<LocalRequest>) {
        if self.has_work(&mut inner.view()) {
            self.submit_look(inner);
        }
    }

    /// Has a thread read the last words of a closed request, and forget it.
    fn submit_leaving(&self, inner: Arc<LocalRequest>, before: u64) {
        if !inner.is_leaving.swap(true, Ordering::SeqCst) {
            self.submit(ServiceJob::LetGo(Leaving { inner, before }));
        }
    }

    /// Has a thread look for work in a request.
    pub(crate) fn submit_look(&self, inner: &Arc<LocalRequest>) {
        if !self.is_stopping() && !inner.is_queued.swap(true, Ordering::SeqCst) {
            self.submit(ServiceJob::Look(Arc::clone(inner)));
        }
    }

    // The pump: news, gone sessions, due timers.

    fn run_pump(self: &Arc<ServiceCore>) {
        let mut looks = PumpState::new(self.host.now());
        while !self.is_stopping() {
            let pause = LONGEST_PAUSE.min(self.options.lease / 5);
            let round = self.pump_round(&mut looks).and_then(|()| self.store.wait_for_change(pause));
            if let Err(error) = round {
                (self.options.warns)(&error.to_string());
                self.host.sleep(LONGEST_PAUSE);
            }
        }
        // what runs is finished: until then others have to see that this session is there
        while !self.rests.load(Ordering::SeqCst) {
            thread::park_timeout(LONGEST_PAUSE.min(self.options.lease / 5));
            let _tried_again = self.beat_if_due(&mut looks);
        }
    }

    pub(crate) fn pump_round(self: &Arc<ServiceCore>, looks: &mut PumpState) -> Result<(), StoreError> {
        let is_whole = self.beat_if_due(looks)?;
        let now = self.host.now();
        if now >= looks.next_timers {
            looks.next_timers = now + BETWEEN_TIMERS;
            self.submit_due_timers()?;
        }
        let before = self.keeps.load(Ordering::SeqCst); // (before the store is asked: what is opened meanwhile, or again, isn't in its answer)
        let (ends, next) = self.store.news(if is_whole { None } else { looks.mark })?;
        let gone = if is_whole { self.open_requests() } else { Vec::new() };
        for inner in gone.into_iter().filter(|it| !ends.contains_key(&it.name) && it.kept.load(Ordering::SeqCst) <= before) {
            self.submit_leaving(inner, before);
        }
        for (name, end) in ends {
            let Some(end) = end else {
                self.request_as_kept(&name).into_iter().for_each(|inner| self.submit_leaving(inner, before));
                continue;
            };
            self.beat_if_due(looks)?; // (rows that are read for the first time may be many and long)
            let Some(inner) = self.request_to_work_on(&name) else { continue };
            inner.told.fetch_max(end, Ordering::SeqCst);
            // (who has the view looks)
            let needs = |inner: &LocalRequest| inner.try_view().map_or(false, |mut view| self.has_work(&mut view));
            if end > inner.seen.load(Ordering::Relaxed) || (is_whole || end == 0) && needs(&inner) {
                self.submit_look(&inner);
            }
        }
        looks.mark = Some(next);
        Ok(())
    }

    /// Beats and looks at the beats of others, if it is time to. Gives whether it was.
    fn beat_if_due(&self, looks: &mut PumpState) -> Result<bool, StoreError> {
        let now = self.host.now();
        if now < looks.next_beat && !self.sessions.is_given_up() {
            return Ok(false);
        }
        looks.next_beat = now + self.options.lease / 5;
        self.beat(&mut looks.is_named).map(|()| true)
    }

    pub(crate) fn beat(&self, is_named: &mut bool) -> Result<(), StoreError> {
        self.store.beat(self.session).map_err(|error| {
            self.sessions.note_silence();
            error
        })?;
        self.sessions.note_own_beat();
        if !*is_named {
            self.store.name_session(self.session, &format!("rust {}", std::process::id()))?;
            *is_named = true;
        }
        self.sessions.begin_question(self.host.now());
        let Ok(beats) = self.store.beats() else {
            self.sessions.note_silence();
            return Ok(());
        };
        let gone = self.sessions.take_in_beats(self.host.now(), beats);
        gone.into_iter().try_for_each(|session| self.store.drop_beat(session))
    }

    /// Finds or opens a request of the store, if this service works on it.
    fn request_to_work_on(self: &Arc<ServiceCore>, name: &str) -> Option<Arc<LocalRequest>> {
        if let Some(known) = self.known_request(name) {
            return Some(known);
        }
        if !self.options.takes_all || self.is_broken(name) {
            return None;
        }
        let found = self.retrying_for_a_minute(|| self.store.find(name)).ok()??;
        let inner = self.local_request(found).map_err(|error| self.give_up_request(name, None, &error)).ok()?;
        self.serve_if_needed(&inner); // (the store tells only of what comes later)
        Some(inner)
    }

    /// Whether there is work in a request without a new word.
    fn has_work(&self, view: &mut RowView) -> bool {
        view.has_work_left(self.may_claim())
            || self.gone_sessions(view).map_or(true, |gone| !gone.is_empty())
            || self.is_finished(view).unwrap_or(true)
    }

    /// Whether it claims stages.
    fn may_claim(&self) -> bool {
        self.options.threads > 0 && !self.is_stopping() && !self.sessions.is_given_up()
    }

    /// Whether it is a flow's request without any work left.
    fn is_finished(&self, view: &mut RowView) -> Result<bool, StoreError> {
        Ok(view.is_planned() && view.is_done(|session| self.is_gone(session))?)
    }

    /// The gone sessions that have stages.
    fn gone_sessions(&self, view: &mut RowView) -> Result<BTreeSet<u64>, StoreError> {
        Ok(view.open_claims()?.into_iter().map(|(_, session)| session).filter(|session| self.is_gone(*session)).collect())
    }

    fn is_gone(&self, session: u64) -> bool {
        self.sessions.is_gone(session, self.host.now())
    }

    fn submit_due_timers(self: &Arc<ServiceCore>) -> Result<(), StoreError> {
        for timer in self.store.due_timers(self.store.now()?)? {
            let is_its = self.options.takes_all || matches!(lock(&self.requests).get(&timer.request), Some(KnownRequest::Open(_)));
            if is_its && lock(&self.firing).insert((timer.request.clone(), timer.stage)) {
                self.submit(ServiceJob::Fire(timer));
            }
        }
        Ok(())
    }

    fn fire_timer(self: &Arc<ServiceCore>, timer: &Timer) -> Result<(), StoreError> {
        if let Some(inner) = self.request_to_work_on(&timer.request).filter(|it| timer.number == 0 || timer.number == it.number) {
            inner.catch_up()?; // (a timer is set behind the word of its stage)
            inner.put_words(|view| {
                let is_there = usize::from(timer.stage) < view.stage_count();
                Ok(if !is_there || view.is_settled(timer.stage) { vec![] } else { vec![timer_word(timer)] })
            })?;
            self.serve_if_needed(&inner);
        }
        self.store.drop_timer(timer)
    }

    /// Forgets a closed request once its last words are read, unless the program has asked for it since the store was asked.
    fn forget_if_unasked(&self, leaving: &Leaving) -> Result<(), StoreError> {
        let inner = &leaving.inner;
        inner.catch_up()?;
        let mut requests = lock(&self.requests);
        let is_its = matches!(requests.get(&inner.name), Some(KnownRequest::Open(known)) if Arc::ptr_eq(known, inner));
        if is_its && inner.kept.load(Ordering::SeqCst) <= leaving.before {
            requests.insert(inner.name.clone(), KnownRequest::Closed(Arc::downgrade(inner)));
        }
        Ok(())
    }

    // Work.

    fn run_jobs(self: &Arc<ServiceCore>) {
        loop {
            let mut jobs = self.lock_jobs();
            let job = loop {
                if self.is_stopping() {
                    return;
                }
                match jobs.pop_front() {
                    Some(job) => break job,
                    None => jobs = self.work.wait(jobs).unwrap_or_else(PoisonError::into_inner),
                }
            };
            drop(jobs);
            self.do_job(&job);
        }
    }

    pub(crate) fn do_job(self: &Arc<ServiceCore>, job: &ServiceJob) {
        let (name, inner, told) = match job {
            ServiceJob::Look(inner) => (&inner.name, Some(inner), self.work_on(inner)),
            ServiceJob::LetGo(leaving) => (&leaving.inner.name, Some(&leaving.inner), self.forget_if_unasked(leaving)),
            ServiceJob::Fire(timer) => {
                let told = self.fire_timer(timer);
                lock(&self.firing).remove(&(timer.request.clone(), timer.stage));
                (&timer.request, None, told)
            }
        };
        match told {
            Ok(()) => {}
            Err(error @ (StoreError::Broken { .. } | StoreError::Gone(_))) => self.give_up_request(name, inner, &error),
            Err(error) => self.warn(name, &error),
        }
    }

    fn work_on(self: &Arc<ServiceCore>, inner: &Arc<LocalRequest>) -> Result<(), StoreError> {
        inner.is_queued.swap(false, Ordering::SeqCst);
        inner.catch_up_if_behind()?;
        self.abandon_gone(inner)?;
        self.settle_relays(inner)?;
        loop {
            let mut task = self.next_task(inner)?;
            while let Some(it) = task {
                task = self.run_task(inner, it)?;
                if task.is_none() {
                    task = self.next_task(inner)?;
                }
            }
            if !self.settle_relays(inner)? {
                break;
            }
        }
        if self.is_finished(&mut inner.view())? {
            let seen = inner.seen.load(Ordering::Relaxed);
            if self.store.end(&inner.name, inner.number, seen)? {
                self.tell_end(inner);
            }
        }
        Ok(())
    }

    /// Tells the hook of a request that this process has closed.
    pub(crate) fn tell_end(self: &Arc<ServiceCore>, inner: &LocalRequest) {
        if let Some(ends) = &self.options.on_end {
            let view = inner.view();
            ends.tell_end(ClosedRequest { service: Arc::clone(self), opened: view.opened.clone(), context: view.context().clone() });
        }
    }

    /// Gives a stage that this session has, or claims one.
    fn next_task(&self, inner: &Arc<LocalRequest>) -> Result<Option<ClaimedTask>, StoreError> {
        loop {
            let found = if self.is_stopping() { None } else { inner.view().take_found_claim() };
            let Some((stage, args)) = found else { return self.finish_and_claim(inner, None) };
            let has = inner.view().has_claim(stage)?;
            let task = if has {
                self.claimed_task(inner, stage, args).map(Some)
            } else {
                self.finish_and_claim(inner, Some((stage, Ok(Returned::Value(Json::Null)))))
            };
            match task {
                Ok(None) => {}
                Ok(some) => return Ok(some),
                Err(error) => {
                    inner.view().put_back_claim(stage, args); // it is tried again later
                    return Err(error);
                }
            }
        }
    }

    /// Fails the stages whose session is gone. If it isn't, the row says who was first.
    fn abandon_gone(&self, inner: &Arc<LocalRequest>) -> Result<(), StoreError> {
        let gone = self.gone_sessions(&mut inner.view())?;
        for session in gone {
            while !inner.put_words(|view| Ok(view.abandon_word(session)?.into_iter().collect()))?.is_empty() {}
        }
        Ok(())
    }

    /// Puts the words that are due of relays, which may make stages ready. Whether there were any.
    fn settle_relays(&self, inner: &Arc<LocalRequest>) -> Result<bool, StoreError> {
        let mut settles = false;
        while !inner.put_words(|view| Ok(view.relay_word()?.into_iter().collect()))?.is_empty() {
            settles = true;
        }
        Ok(settles)
    }

    /// Puts a finish, and with it the claim of the next stage, if there is one; what was claimed. While the store is away, or takes nothing, a
    /// finish is put again and again: its function has run. That ends a minute after the service stops, and it is told then what is lost. A value
    /// that the store refuses twice fails its stage, if the store takes something else meanwhile.
    fn finish_and_claim(&self, inner: &Arc<LocalRequest>, ended: EndedStage) -> Result<Option<ClaimedTask>, StoreError> {
        let (mut chosen, mut refusals, mut refused) = (Vec::new(), 0, None);
        let done = loop {
            let told = inner.put_words(|view| {
                let mut wanted = Vec::with_capacity(2);
                let mut held = None;
                if let Some((stage, result)) = &ended {
                    let result = refused.as_ref().unwrap_or(result);
                    let (answer, payload) = answer_of(result, view.seen_count() + 1);
                    wanted.extend(view.finish_word(*stage, answer, payload)?);
                    held = Some((*stage, answer));
                }
                chosen = self.choose_claims(view, &inner.name, held)?;
                wanted.extend(chosen.first().map(|stage| WantedWord { call: Call::Claim(*stage), payload: None }));
                Ok(wanted)
            });
            match told {
                Ok(done) => break done,
                Err(error @ (StoreError::Broken { .. } | StoreError::Gone(_))) => return Err(error),
                Err(error) if self.has_given_up() => {
                    if let Some((stage, _)) = &ended {
                        self.warn(&inner.name, &format!("stage {stage}: what its function came to is lost: {error}"));
                    }
                    return Err(error);
                }
                Err(StoreError::Unknown(why)) if ended.is_some() => self.warn(&inner.name, &why),
                Err(StoreError::Refused(why)) if ended.is_some() => {
                    self.warn(&inner.name, &why);
                    let is_its = refused.take().is_none() && self.store.beat(self.session).is_ok();
                    refusals = if is_its { refusals + 1 } else { 0 };
                    match refusals {
                        0 => self.host.sleep(BETWEEN_REFUSALS),
                        1 => {}
                        _ => refused = Some(Err(Failed::new("StoreError", why))),
                    }
                }
                Err(error) => return Err(error),
            }
        };
        if chosen.len() > 1 {
            self.submit_look(inner);
        }
        match (done.last().map(|it| (it.call, it.reply)), chosen.first()) {
            (Some((Call::Claim(stage), Reply::Claimed(Claimed::Granted(args)))), Some(first)) if stage == *first => {
                let task = self.claimed_task(inner, stage, args);
                if task.is_err() {
                    inner.view().put_back_claim(stage, args);
                }
                task.map(Some)
            }
            _ => Ok(None),
        }
    }

    /// Chooses up to two stages with known functions that this session can claim behind the finish of `ended`.
    fn choose_claims(&self, view: &mut RowView, name: &str, ended: Option<(u16, Answer)>) -> Result<Vec<u16>, StoreError> {
        let (mut chosen, mut from) = (Vec::with_capacity(2), 0);
        while self.may_claim() && chosen.len() < 2 {
            let Some(stage) = view.next_claim(ended, from)? else { break };
            if self.can_call(view, name, stage)? {
                chosen.push(stage);
            }
            from = stage + 1;
        }
        Ok(chosen)
    }

    /// The spec of the function that a stage calls, and the stage that it tries again.
    fn function_spec(&self, view: &mut RowView, stage: u16) -> Result<(StageSpec, Option<u16>), StoreError> {
        let again = view.retried_stage(stage)?;
        Ok((view.stage_spec(again.unwrap_or(stage))?, again))
    }

    /// Whether a stage's function is registered here in the kind that the stage calls, and with names for its arguments if the stage gives some by
    /// name. Warns once if it isn't: other processes may have it.
    fn can_call(&self, view: &mut RowView, name: &str, stage: u16) -> Result<bool, StoreError> {
        let Some((function, version)) = self.function_lacking(view, stage)? else { return Ok(true) };
        if lock(&self.unknown).insert((function.clone(), version)) {
            self.warn(name, &format!("stage {stage}: function {function:?}, version {version}, isn't known here"));
        }
        Ok(false)
    }

    /// The name and version of a stage's function, if it can't be called here.
    pub(crate) fn function_lacking(&self, view: &mut RowView, stage: u16) -> Result<Option<(String, u32)>, StoreError> {
        let (said, again) = self.function_spec(view, stage)?;
        let (function, version) = (said.function.unwrap_or_default(), said.version.unwrap_or_default());
        let form = view.form(stage).0;
        let composes = form == Form::Compose || form == Form::ExceptionallyCompose && again.is_some();
        let knows = self.functions.find(&function, version).map_or(false, |known| {
            let fits = match known.kind {
                FunctionKind::Composes(_) => composes,
                FunctionKind::Plain(_) | FunctionKind::Transacts(_) => !matches!(form, Form::Compose | Form::ExceptionallyCompose),
            };
            fits && (said.kwargs.is_empty() || !known.names.is_empty())
        });
        if knows && composes && view.stage_spec(stage)?.to.is_none() {
            return Err(StoreError::broken(
                &view.opened.name,
                view.attached_place(stage),
                format!("stage {stage} composes, and no promise is named for what comes"),
            ));
        }
        Ok((!knows).then_some((function, version)))
    }

    /// The call that a claimed stage stands for.
    fn claimed_task(&self, inner: &LocalRequest, stage: u16, args: Args) -> Result<ClaimedTask, StoreError> {
        let view = &mut inner.view();
        let (said, again) = self.function_spec(view, stage)?;
        let (carried, to) = (view.carried_context(stage)?, view.stage_spec(stage)?.to);
        let (name, version) = (said.function.unwrap_or_default(), said.version.unwrap_or_default());
        let mut given = arguments(view, stage, args)?;
        let mut ends = None;
        if let Some(first) = again {
            given = match given.pop().map(serde_json::from_value::<Failed>) {
                Some(Ok(failed)) => match failure_passed_on(view, first, args, failed)? {
                    None => arguments_again(view, first)?,
                    Some(failed) => {
                        ends = Some(failed);
                        Vec::new()
                    }
                },
                _ => Vec::new(),
            };
        }
        let given = ends.map_or(Ok(if said.args.is_empty() { given } else { said.args }), Err);
        Ok(ClaimedTask { stage, first: again.unwrap_or(stage), name, version, given, named: said.kwargs, carried, to })
    }

    /// Runs a function, and puts its finish. Gives the stage that was claimed with that.
    fn run_task(self: &Arc<ServiceCore>, inner: &Arc<LocalRequest>, task: ClaimedTask) -> Result<Option<ClaimedTask>, StoreError> {
        let transacts = self.functions.find(&task.name, task.version).map_or(false, |known| matches!(known.kind, FunctionKind::Transacts(_)));
        let ended = if transacts && task.given.is_ok() {
            self.run_in_transaction(inner, &task)?
        } else {
            Some((task.stage, self.call_function(inner, &task, None)))
        };
        self.finish_and_claim(inner, ended)
    }

    /// Calls a function, with the engine's connection where it is transactional.
    fn call_function(
        self: &Arc<ServiceCore>,
        inner: &Arc<LocalRequest>,
        task: &ClaimedTask,
        connection: Option<&mut dyn Any>,
    ) -> Result<Returned, Failed> {
        let args = task.given.clone()?;
        let missing = || Failed::new("LookupError", format!("function {:?}, version {}, isn't known here", task.name, task.version));
        let known = self.functions.find(&task.name, task.version).ok_or_else(missing)?;
        let args = known.order_args(args, task.named.clone())?;
        let mut given = Some((args, connection));
        let mut call = || match (&known.kind, given.take()) {
            (FunctionKind::Plain(function), Some((args, _))) => function(args).map(Returned::Value),
            (FunctionKind::Transacts(function), Some((args, Some(connection)))) => function(connection, args).map(Returned::Value),
            (FunctionKind::Composes(function), Some((args, _))) => {
                let request = Request { inner: Arc::clone(inner), service: Arc::clone(self) };
                let given = inner.run_composing(task.stage, task.first, || function(&request, args))?;
                match task.to.filter(|_| Arc::ptr_eq(&given.request.inner, inner)) {
                    Some(promise) => Ok(Returned::Stage { promise, stage: given.number }),
                    None => Err(Failed::new("TypeError", format!("{} has to give a stage of its request", task.name))),
                }
            }
            (FunctionKind::Transacts(_), Some((_, None))) | (_, None) => Err(missing()),
        };
        context::within(task.carried.clone(), || self.host.call_function(&task.name, &mut call))
    }

    /// Runs a function in a transaction, with the word of its finish. If another word took the place meanwhile, or the connection is lost, it runs
    /// again, unless the transaction stands. Gives a finish that is to be put behind the transaction.
    fn run_in_transaction(self: &Arc<ServiceCore>, inner: &Arc<LocalRequest>, task: &ClaimedTask) -> Result<EndedStage, StoreError> {
        loop {
            let mut is_open = false;
            let told = inner.run_transacting(|| {
                let mut transaction = self.store.transaction()?;
                is_open = true;
                self.try_in_transaction(inner, task, &mut *transaction)
            });
            inner.publish(inner.view());
            match told {
                Ok(Attempt::Stands) => return Ok(None),
                Ok(Attempt::Ended(result)) => return Ok(Some((task.stage, result))),
                Ok(Attempt::Lost) => {}
                Err(error @ (StoreError::Broken { .. } | StoreError::Gone(_))) => return Err(error),
                // what the function did to the connection lets no word be put, say
                Err(StoreError::Refused(why)) if is_open => return Ok(Some((task.stage, Err(Failed::new("StoreError", why))))),
                Err(error) if self.is_stopping() => return Err(error),
                Err(error) => {
                    self.warn(&inner.name, &error);
                    self.host.sleep(BETWEEN_TRANSACTIONS);
                }
            }
        }
    }

    /// Calls a function in a transaction, and puts its finish there. Reads first what others have put: if the stage isn't this session's any more,
    /// the function isn't called.
    fn try_in_transaction(
        self: &Arc<ServiceCore>,
        inner: &Arc<LocalRequest>,
        task: &ClaimedTask,
        transaction: &mut dyn Transaction,
    ) -> Result<Attempt, StoreError> {
        let mut view = inner.view();
        view.catch_up()?;
        let has = view.has_claim(task.stage)?;
        drop(view);
        if !has {
            return Ok(Attempt::Ended(Ok(Returned::Value(Json::Null)))); // late: it does nothing
        }
        match self.call_function(inner, task, Some(transaction.connection())) {
            Err(_) if transaction.is_away() => Err(StoreError::Unknown("the connection of a transaction was lost".into())),
            Err(failed) => Ok(Attempt::Ended(Err(failed))),
            Ok(given) => {
                let mut view = inner.view();
                view.catch_up()?;
                if view.is_settled(task.stage) {
                    return Ok(Attempt::Lost);
                }
                let (answer, payload) = answer_of(&Ok(given), view.seen_count() + 1);
                let Some(finish) = view.finish_word(task.stage, answer, payload)? else { return Ok(Attempt::Lost) };
                let stands = view.put_within(transaction, finish)?;
                Ok(if stands { Attempt::Stands } else { Attempt::Lost })
            }
        }
    }
}

/// The arguments of a granted claim.
fn arguments(view: &mut RowView, stage: u16, args: Args) -> Result<Vec<Json>, StoreError> {
    Ok(match args {
        Args::None => vec![],
        Args::One(first) => vec![view.read_value(first)?],
        Args::Two(first, second) => vec![view.read_value(first)?, view.read_value(second)?],
        Args::Got(outcome) => {
            let (value, failed) = match view.read_outcome(outcome)? {
                Ok(value) => (value, Json::Null),
                Err(error) => (Json::Null, failure_json(error)?),
            };
            if view.form(stage).0 == Form::Exceptionally {
                vec![failed]
            } else {
                vec![value, failed]
            }
        }
        args => unreachable!("{args:?} are arguments of another library"),
    })
}

/// The failure that a further try passes on. None if the first stage's process is gone, so that the try calls the function. A wrapped error is a
/// source's, and is passed on, too. A try whose process is gone is made once more.
fn failure_passed_on(view: &mut RowView, first: u16, args: Args, failed: Failed) -> Result<Option<Failed>, StoreError> {
    let is_lost = |outcome: Outcome, failed: &Failed| matches!(outcome, Outcome::Fault { wrapped: false, .. }) && failed.kind == ABANDONED;
    if !matches!(args, Args::Got(outcome) if is_lost(outcome, &failed)) {
        return Ok(Some(failed));
    }
    let (State::Settled(outcome), Some(Err(error))) = (view.state(first), view.read_end(first)?) else { return Ok(None) };
    let own: Failed = serde_json::from_value(failure_json(error)?).map_err(|error| StoreError::Refused(error.to_string()))?;
    Ok(if is_lost(outcome, &own) { None } else { Some(own) })
}

/// The arguments of the earlier call of a stage's function. A stage that was settled by hand, without a claim, has what its sources hold now.
fn arguments_again(view: &mut RowView, stage: u16) -> Result<Vec<Json>, StoreError> {
    if let Some(args) = view.granted_args(stage) {
        return arguments(view, stage, args);
    }
    let (form, of) = view.form(stage);
    let of = of.to_vec();
    let (mut values, mut failed) = (Vec::with_capacity(2), Json::Null);
    for source in of {
        values.push(match view.read_end(source)? {
            Some(Ok(value)) => Some(value),
            Some(Err(error)) => {
                failed = failure_json(error)?;
                None
            }
            None => None,
        });
    }
    let mut values = values.into_iter();
    Ok(match form {
        Form::Exceptionally => vec![failed],
        Form::Handle | Form::WhenComplete => vec![values.next().flatten().unwrap_or_default(), failed],
        Form::ApplyEither => vec![values.flatten().next().unwrap_or_default()], // (null is a value, too)
        _ => values.map(Option::unwrap_or_default).collect(),
    })
}

/// An error as JSON, as functions get it.
fn failure_json(error: Error) -> Result<Json, StoreError> {
    let failed = match error {
        Error::Failed(failed) | Error::TimedOut(Some(failed)) => failed,
        Error::Abandoned(text) => Failed::new(ABANDONED, text),
        Error::TimedOut(None) => Failed::new("TimeoutError", ""),
        Error::Cancelled => Failed::new("CancelledError", ""),
        Error::BadAnswer => Failed::new("BadAnswer", ""),
        Error::Unreadable(why) => Failed::new("ValueError", why),
        Error::Store(error) => return Err(error),
    };
    serde_json::to_value(failed).map_err(|error| StoreError::Refused(error.to_string()))
}

impl fmt::Debug for ServiceCore {
    fn fmt(&self, f: &mut fmt::Formatter<'_>) -> fmt::Result {
        f.debug_struct("Service").field("session", &self.session).field("functions", &self.functions).finish_non_exhaustive()
    }
}
