//! A store of a world, its processes, and their moves. Which there are, `cf`'s `testing/moves.rs` says.
//!
//! A process looks only where that leads to something. Its look, and the first read that follows, are one move: between them nothing of it could be
//! seen. What has to be done in the store stands in footprints as the rows that are read and changed; all that one process does stands there as a
//! change of that process, so no two of its moves are swapped unseen.
use super::bounds::{Bounds, CallFate, OF_CALLS, OF_READS};
use super::process::{Process, ProcessHost, ProcessStore};
use super::rows::{lock, Flying, Rows};
use crate::error::StoreError;
use crate::functions::Functions;
use crate::service::{Options, PumpState, Service, ServiceJob};
use crate::store::{Put, Store, Timer};
use crate::view::{RowView, PATIENCE};
use cf::testing::{Seam, Sharing, StoreMove, StoredHistory, ThreadWork, WaitsFor};
use cf_graph::Entry;
use serde_json::Value;
use std::collections::{BTreeMap, BTreeSet, VecDeque};
use std::sync::{Arc, Mutex};
use std::time::{Duration, Instant};

const ROWS: &str = "rows"; // which requests there are
const ROW: &str = "row";
const PROCESS: &str = "process";
const KILLS: &str = "kills";
const FAULTS: &str = "faults";
const LANDED: &str = "landed";
const EFFECTS: &str = "effects"; // of transactional functions
/// At beats, until a silent process is taken for gone.
const LOOKS: u32 = 5;

/// What a thread does for a request, or for a test.
type ThreadCode = Box<dyn FnOnce() + Send>;

/// A thread of a process that goes on.
#[derive(Default)]
pub(super) struct Thread {
    name: String,
    is_caller: bool,
    /// It runs a function, or what a test says.
    runs_code: bool,
    /// It hasn't asked the store for anything yet.
    is_fresh: bool,
    /// How often it asked the store for something, or was about to call a function.
    asked: u32,
    /// In which ways it may be answered now.
    ways: &'static [CallFate],
    /// How often it waited with a limit, and for what it does now.
    waited: u32,
    pub(super) late: Option<LimitedWait>,
}

/// A wait that has a limit.
pub(super) struct LimitedWait {
    due: Duration,
    wait: Duration,
    name: String,
    is_so: Arc<dyn Fn() -> bool + Send + Sync>,
}

/// What a process has to do, and what it is at.
pub(super) struct ProcessWork {
    pub(super) clock: Duration,
    pub(super) is_dead: bool,
    /// How many jobs and callers it was given.
    pub(super) made: u32,
    pub(super) queue: VecDeque<(u32, Arc<ServiceJob>)>,
    pub(super) callers: VecDeque<(u32, String, ThreadCode)>,
    pub(super) threads: BTreeMap<u32, Thread>,
    /// The requests in which it couldn't do something.
    pub(super) stuck: BTreeSet<String>,
    /// A limit that has passed, which it is told of.
    pub(super) due: Option<Timer>,
    /// How many numbers it has drawn.
    pub(super) drawn: u64,
    /// What its looks go on with, but for the one that is made.
    looks: Option<PumpState>,
}

impl ProcessWork {
    pub(super) fn wait_limited(&mut self, thread: u32, name: String, wait: Duration, is_so: Arc<dyn Fn() -> bool + Send + Sync>) {
        let due = self.clock + wait;
        if let Some(it) = self.threads.get_mut(&thread) {
            it.waited += 1;
            it.late = Some(LimitedWait { due, wait, name, is_so });
        }
    }

    pub(super) fn set_runs_code(&mut self, thread: u32, runs: bool) {
        if let Some(it) = self.threads.get_mut(&thread) {
            it.runs_code = runs;
        }
    }

    /// The next wait whose limit passes.
    fn next_limited_wait(&self) -> Option<(u32, &Thread, &LimitedWait)> {
        let waits = self.threads.iter().filter_map(|(number, it)| it.late.as_ref().map(|late| (*number, it, late)));
        waits.filter(|(_, _, late)| !(late.is_so)()).min_by_key(|(number, _, late)| (late.due, *number))
    }
}

/// A process, as the store has it.
struct SharedProcess {
    name: String,
    lease: Duration,
    workers: usize,
    takes_all: bool,
    service: Option<Arc<Service>>,
    work: ProcessWork,
}

pub(super) struct SharedStore {
    pub(super) seam: Seam,
    pub(super) rows: Rows,
    pub(super) told: Mutex<ToldWords>,
    bounds: Mutex<Bounds>,
    processes: Mutex<Vec<SharedProcess>>,
    flying: Mutex<Vec<Flying>>,
    effects: Mutex<Vec<Value>>,
    marks: Mutex<BTreeMap<String, Vec<&'static str>>>,
}

/// What processes were told.
#[derive(Default)]
pub(super) struct ToldWords {
    /// Each claim that was granted: the process's name, the request's, and the stage.
    pub(super) granted: Vec<(String, String, u16)>,
    /// Each word that stands: the process's name, the request's, place and word.
    pub(super) answered: Vec<(String, String, usize, u64)>,
}

impl SharedStore {
    pub(super) fn new(seam: Seam, bounds: Bounds) -> SharedStore {
        SharedStore {
            seam,
            rows: Rows::default(),
            told: Mutex::default(),
            bounds: Mutex::new(bounds),
            processes: Mutex::default(),
            flying: Mutex::default(),
            effects: Mutex::default(),
            marks: Mutex::default(),
        }
    }

    pub(super) fn process(self: &Arc<SharedStore>, name: &str, functions: &Functions, said: super::ProcessOptions) -> Process {
        let (zero, number) = (Instant::now(), lock(&self.processes).len() as u16);
        let work = ProcessWork {
            clock: said.ahead,
            is_dead: false,
            made: 0,
            queue: VecDeque::new(),
            callers: VecDeque::new(),
            threads: BTreeMap::new(),
            stuck: BTreeSet::new(),
            due: None,
            drawn: 0,
            looks: Some(PumpState::new(zero)),
        };
        let its = SharedProcess { name: name.into(), lease: said.lease, workers: said.workers, takes_all: said.takes_all, service: None, work };
        lock(&self.processes).push(its);
        let options = Options { threads: said.workers, lease: said.lease, takes_all: said.takes_all, ..Options::default() };
        let store = ProcessStore { shop: Arc::clone(self), number };
        let host = ProcessHost { shop: Arc::clone(self), number, zero };
        let service = Service::hosted(Arc::new(store), functions.clone(), options, Arc::new(host)).expect("a store with transactions");
        let service = Arc::new(service);
        let _never_refused = self.rows.memory.beat(service.shared.session);
        self.ask_process(number, |its| its.service = Some(Arc::clone(&service)));
        Process { shop: Arc::clone(self), number, service }
    }

    fn ask_process<T>(&self, number: u16, ask: impl FnOnce(&mut SharedProcess) -> T) -> T {
        ask(&mut lock(&self.processes)[usize::from(number)])
    }

    pub(super) fn ask_work<T>(&self, number: u16, ask: impl FnOnce(&mut ProcessWork) -> T) -> T {
        self.ask_process(number, |its| ask(&mut its.work))
    }

    pub(super) fn name_of(&self, number: u16) -> String {
        self.ask_process(number, |its| its.name.clone())
    }

    fn service(&self, number: u16) -> Option<Arc<Service>> {
        self.ask_process(number, |its| its.service.clone())
    }

    fn process_numbers(&self) -> Vec<u16> {
        (0..lock(&self.processes).len() as u16).collect()
    }

    fn living_processes(&self) -> Vec<u16> {
        self.process_numbers().into_iter().filter(|it| !self.ask_work(*it, |work| work.is_dead)).collect()
    }

    /// What is said of a function.
    pub(super) fn marks_of(&self, function: &str) -> Option<Vec<&'static str>> {
        lock(&self.marks).get(function).cloned()
    }

    pub(super) fn set_marks(&self, function: &str, names: &[&'static str]) {
        lock(&self.marks).insert(function.into(), names.to_vec());
    }

    // What moves touch.

    pub(super) fn touch_process(&self, number: u16, changes: bool) {
        self.seam.touch(PROCESS, u32::from(number), changes);
    }

    pub(super) fn touch_rows(&self, changes: bool) {
        self.seam.touch(ROWS, 0, changes);
    }

    pub(super) fn touch_row(&self, name: &str, changes: bool) {
        match self.rows.number_of(name) {
            Some(number) => self.seam.touch(ROW, number, changes),
            None => self.touch_rows(false),
        }
    }

    // What processes ask.

    /// The thread of a process that this is. Else what it does is a part of another's move.
    pub(super) fn own_thread(&self, process: u16) -> Option<u32> {
        self.seam.current_thread().filter(|it| it.0 == process).map(|it| it.1)
    }

    /// Has a thread wait for its turn, and gives the way that was chosen.
    pub(super) fn wait_for_answer(self: &Arc<SharedStore>, process: u16, thread: u32, text: String, ways: &'static [CallFate]) -> CallFate {
        let time = self.ask_work(process, |work| {
            let it = work.threads.entry(thread).or_default();
            it.asked += 1;
            it.ways = ways;
            it.asked - 1
        });
        let shop = Arc::clone(self);
        let possible = move || {
            let bounds = *lock(&shop.bounds);
            (0..).zip(ways).filter(|(_, answer)| bounds.allows(**answer)).map(|(way, _)| way).collect()
        };
        ways[usize::from(self.seam.wait(text, WaitsFor::Asks(time, Box::new(possible))))]
    }

    /// Asks the store for something, which is a move of its own, and is answered as the search says. A put may be late, with the effects of the
    /// transaction that it commits.
    pub(super) fn ask_store<T>(
        self: &Arc<SharedStore>,
        process: u16,
        ways: &'static [CallFate],
        text: String,
        put: Option<(Put<'_>, &[Value])>,
        act: impl FnOnce() -> Result<T, StoreError>,
    ) -> Result<T, StoreError> {
        if self.ask_work(process, |work| work.is_dead) {
            self.seam.leave_thread();
        }
        let Some(thread) = self.own_thread(process) else {
            self.touch_process(process, true);
            return act();
        };
        let is_fresh = self.ask_work(process, |work| work.threads.get_mut(&thread).map_or(false, |it| std::mem::take(&mut it.is_fresh)));
        if is_fresh && ways == OF_READS {
            return act();
        }
        let chosen = self.wait_for_answer(process, thread, text, ways);
        if chosen != CallFate::Told {
            self.seam.touch(FAULTS, 0, true);
            lock(&self.bounds).count_down(chosen);
        }
        let told = if chosen.is_done() { Some(act()) } else { None };
        if let (true, Some((put, effects))) = (chosen.is_late(), put) {
            lock(&self.flying).push(Flying::new(put, effects));
        }
        if chosen.is_silent() {
            self.ask_work(process, |work| work.clock += PATIENCE + Duration::from_secs(1));
        }
        let runs_code = self.ask_work(process, |work| work.threads.get(&thread).map_or(false, |it| it.runs_code));
        if runs_code && chosen.is_done() && ways != OF_READS {
            self.wait_for_answer(process, thread, "goes on".into(), OF_CALLS); // (lines of a test or of a function follow)
        }
        match (chosen, told) {
            (CallFate::Told, Some(told)) => told,
            _ => Err(StoreError::Unknown("no answer".into())),
        }
    }

    /// Puts entries.
    pub(super) fn append(&self, put: Put<'_>) -> Result<Option<Vec<Entry>>, StoreError> {
        let told = self.rows.append(put);
        self.touch_row(put.request, !matches!(told, Ok(Some(_))));
        told
    }

    /// Puts what a transaction puts, with its effects: whether the place was free.
    pub(super) fn commit(&self, put: Put<'_>, effects: &[Value]) -> Result<bool, StoreError> {
        let is_free = self.append(put)?.is_none();
        if is_free && !effects.is_empty() {
            self.seam.touch(EFFECTS, 0, true);
            lock(&self.effects).extend_from_slice(effects);
        }
        Ok(is_free)
    }

    /// The effects that stand.
    pub(super) fn effects(&self) -> Vec<Value> {
        self.seam.touch(EFFECTS, 0, false);
        lock(&self.effects).clone()
    }

    /// A process is told that a word of its own stands.
    pub(super) fn note_standing(&self, process: u16, request: &str, place: usize, word: u64, granted: Option<u16>) {
        let name = self.name_of(process);
        let mut told = lock(&self.told);
        told.granted.extend(granted.map(|stage| (name.clone(), request.to_owned(), stage)));
        told.answered.push((name, request.to_owned(), place, word));
    }

    /// Whether a process works on a request.
    pub(super) fn works_on(&self, process: u16, name: &str) -> bool {
        self.ask_process(process, |its| its.takes_all) || self.service(process).map_or(false, |it| it.shared.request_as_kept(name).is_some())
    }

    // What may come next.

    fn push_moves_of(&self, process: u16, keys: &mut Vec<StoreMove>) {
        self.ask_work(process, |work| {
            keys.extend(work.callers.iter().map(|caller| StoreMove::Job(process, caller.0)));
            keys.extend(work.next_limited_wait().map(|(thread, it, _)| StoreMove::Late(process, thread, it.waited)));
        });
        if !self.is_free(process) {
            return;
        }
        match self.next_job(process) {
            Some((number, _)) => keys.push(StoreMove::Job(process, number)),
            None if self.ask_work(process, |work| !work.stuck.is_empty()) || self.rows.names().iter().any(|name| self.matters(process, name)) => {
                keys.push(StoreMove::Look(process));
            }
            None => {}
        }
    }

    /// Whether a thread of its pool is free.
    fn is_free(&self, process: u16) -> bool {
        self.ask_process(process, |its| its.work.threads.values().filter(|it| !it.is_caller).count() < its.workers.max(1))
    }

    fn next_job(&self, process: u16) -> Option<(u32, Arc<ServiceJob>)> {
        let jobs: Vec<_> = self.ask_work(process, |work| work.queue.iter().cloned().collect());
        jobs.into_iter().find(|(_, job)| match &**job {
            ServiceJob::Fire(_) => true,
            ServiceJob::Look(inner) => self.matters(process, &inner.name),
            ServiceJob::LetGo(leaving) => self.matters(process, &leaving.inner.name),
        })
    }

    /// Whether a process that looks at a request finds something to do in it, or to tell somebody of.
    pub(super) fn matters(&self, process: u16, name: &str) -> bool {
        let Some(service) = self.service(process) else { return false };
        let shared = &service.shared;
        if !self.works_on(process, name) || shared.is_broken(name) {
            return false;
        }
        let inner = shared.request_as_kept(name);
        let (mut unseen, mut finds) = (Vec::new(), false);
        if let Some(inner) = &inner {
            // (While a thread of its own has the view, a look does nothing.)
            let Some(own) = inner.try_view() else { return false };
            let given = lock(&inner.given);
            unseen.extend(given.iter().copied().filter(|stage| usize::from(*stage) < own.stage_count() && !own.is_settled(*stage)));
            finds = own.has_found_claim();
        }
        let is_open = self.rows.memory.is_open(name);
        let calls = |view: &mut RowView| {
            let ready = view.ready_stages().unwrap_or_default();
            ready.into_iter().any(|stage| matches!(shared.function_lacking(view, stage), Ok(None)))
        };
        if is_open && shared.options.threads > 0 && self.rows.ask_view(name, calls).unwrap_or(false) {
            return true;
        }
        if inner.is_none() {
            return false;
        }
        let tells = |view: &mut RowView| {
            let shows = unseen.iter().any(|stage| view.is_settled(*stage));
            let closes = is_open && view.is_planned() && matches!(view.is_done(|_| false), Ok(true));
            shows || closes || is_open && matches!(view.relay_word(), Ok(Some(_)))
        };
        finds || self.rows.ask_view(name, tells).unwrap_or(false)
    }

    /// Limits that have passed, and processes that are gone. The first process notices that is free: which one it is makes no difference to what
    /// stands.
    fn push_notices(&self, free: &[u16], keys: &mut Vec<StoreMove>) {
        for (number, timer) in self.rows.memory.timers() {
            let is_settled = self.rows.ask_view(&timer.request, |view| view.is_settled(timer.stage)).unwrap_or(true);
            let is_due = |process: &&u16| {
                let is_firing = self.service(**process).map_or(true, |it| it.shared.is_firing(&timer));
                !is_settled && !is_firing && self.works_on(**process, &timer.request)
            };
            if let (Some(by), Some(row)) = (free.iter().find(is_due), self.rows.number_of(&timer.request)) {
                keys.push(StoreMove::Due(*by, row as u16, timer.stage, number));
            }
        }
        for other in self.process_numbers() {
            if self.ask_work(other, |work| work.is_dead) {
                keys.extend(self.gone_move(other, free));
            }
        }
    }

    /// Whether another one takes a process for gone, if it has claimed something.
    fn gone_move(&self, other: u16, free: &[u16]) -> Option<StoreMove> {
        let session = self.service(other)?.shared.session;
        let has = |view: &mut RowView| matches!(view.open_claims(), Ok(claims) if claims.iter().any(|(_, its)| *its == session));
        let claimed: Vec<String> = self.rows.names().into_iter().filter(|name| self.rows.ask_view(name, has).unwrap_or(false)).collect();
        let by = free.iter().find(|it| **it != other && claimed.iter().any(|name| self.works_on(**it, name)))?;
        Some(StoreMove::Gone(*by, other))
    }

    fn may_land(&self, flying: &Flying) -> bool {
        let is_there = |view: &mut RowView| view.opened.number == flying.number && view.seen_count() == flying.at;
        !flying.has_landed && self.rows.ask_view(&flying.request, is_there).unwrap_or(false)
    }

    fn has_threads(&self, process: u16) -> bool {
        self.ask_work(process, |work| !work.threads.is_empty())
    }

    // Moves.

    fn start_job(self: &Arc<SharedStore>, process: u16, number: u32) -> ThreadWork {
        let found = self.ask_work(process, |work| work.callers.iter().position(|caller| caller.0 == number).and_then(|at| work.callers.remove(at)));
        if let Some((_, name, call)) = found {
            return self.begin_thread(process, number, name, true, call);
        }
        let queued = self.ask_work(process, |work| work.queue.iter().position(|job| job.0 == number).and_then(|at| work.queue.remove(at)));
        queued.map_or(ThreadWork::Nothing, |(number, job)| self.begin_job(process, number, &job))
    }

    /// A thread of the pool does a job.
    fn begin_job(self: &Arc<SharedStore>, process: u16, number: u32, job: &Arc<ServiceJob>) -> ThreadWork {
        let (service, job) = (self.service(process).expect("a process has its service"), Arc::clone(job));
        let call = Box::new(move || service.shared.do_job(&job));
        self.begin_thread(process, number, self.name_of(process), false, call)
    }

    fn begin_thread(self: &Arc<SharedStore>, process: u16, number: u32, name: String, is_caller: bool, call: ThreadCode) -> ThreadWork {
        let thread = Thread { name: name.clone(), is_caller, runs_code: is_caller, is_fresh: !is_caller, ..Thread::default() };
        self.ask_work(process, |work| work.threads.insert(number, thread));
        let shop = Arc::clone(self);
        let act = move || {
            call();
            shop.ask_work(process, |work| work.threads.remove(&number));
        };
        ThreadWork::Begins(process, number, name, is_caller, Box::new(act))
    }

    /// A thread begins with what a look has found.
    fn begin_next(self: &Arc<SharedStore>, process: u16) -> ThreadWork {
        let first = || {
            let jobs: Vec<_> = self.ask_work(process, |work| work.queue.iter().cloned().collect());
            jobs.into_iter().find(|it| matches!(&*it.1, ServiceJob::Look(_)))
        };
        let Some((number, job)) = self.next_job(process).or_else(first) else { return ThreadWork::Nothing };
        self.ask_work(process, |work| work.queue.retain(|it| it.0 != number));
        self.begin_job(process, number, &job)
    }

    /// Some time passes, others that are there say so, and a process looks at the store.
    fn pump_round(&self, process: u16, silent: Option<u16>) {
        self.pass_beats(process, silent);
        let service = self.service(process).expect("a process has its service");
        let mut looks = self.ask_work(process, |work| work.looks.take()).expect("one look at a time");
        if let Err(error) = service.shared.pump_round(&mut looks) {
            self.seam.fail(format!("{} can't look: {error}", self.name_of(process)));
        }
        self.ask_work(process, |work| work.looks = Some(looks));
    }

    /// A part of a lease passes, in which those beat that are there.
    fn pass_beats(&self, process: u16, silent: Option<u16>) {
        self.ask_process(process, |its| its.work.clock += its.lease / 4);
        for other in self.living_processes().into_iter().filter(|it| Some(*it) != silent) {
            let session = self.service(other).map(|it| it.shared.session);
            session.into_iter().for_each(|session| drop(self.rows.memory.beat(session)));
        }
    }

    fn fire_due(self: &Arc<SharedStore>, process: u16, row: u16, stage: u16) -> ThreadWork {
        let name = self.rows.names().swap_remove(usize::from(row));
        self.touch_row(&name, false);
        let timer = self.rows.memory.timers().into_iter().map(|it| it.1).find(|it| it.request == name && it.stage == stage);
        self.ask_work(process, |work| work.due = timer);
        self.pump_round(process, None);
        self.ask_work(process, |work| work.due = None);
        self.begin_next(process)
    }

    fn take_for_gone(self: &Arc<SharedStore>, process: u16, other: u16) -> ThreadWork {
        self.touch_process(other, false);
        if !self.ask_work(other, |work| work.is_dead) {
            self.seam.touch(KILLS, 0, true);
            lock(&self.bounds).slow -= 1;
        }
        let service = self.service(process).expect("a process has its service");
        self.read_news(process, &service);
        for _ in 0..LOOKS {
            self.pass_beats(process, Some(other));
            if let Err(error) = service.shared.beat(&mut true) {
                self.seam.fail(format!("{} can't beat: {error}", self.name_of(process)));
            }
        }
        self.pump_round(process, Some(other));
        self.begin_next(process)
    }

    /// A process reads what stands: a word of another one's that is new to it would be a sign of life.
    fn read_news(&self, process: u16, service: &Service) {
        let known = self.rows.names().into_iter().filter_map(|name| service.shared.request_as_kept(&name));
        for inner in known.filter(|it| it.try_view().is_some()) {
            if let Err(error) = inner.catch_up() {
                self.seam.fail(format!("{} can't read: {error}", self.name_of(process)));
            }
        }
    }

    fn kill_process(&self, process: u16) -> ThreadWork {
        self.seam.touch(KILLS, 0, true);
        lock(&self.bounds).killed -= 1;
        self.ask_work(process, |work| {
            work.is_dead = true;
            work.threads.clear();
        });
        ThreadWork::Ends(process)
    }

    fn land_put(&self, number: u32) -> ThreadWork {
        self.seam.touch(LANDED, number, true);
        let put = {
            let mut flying = lock(&self.flying);
            flying[number as usize].has_landed = true;
            flying[number as usize].clone()
        };
        if let Err(error) = self.commit(put.put(), &put.effects) {
            self.seam.fail(format!("a put can't come: {error}"));
        }
        ThreadWork::Nothing
    }

    fn end_wait(&self, process: u16, thread: u32) -> ThreadWork {
        self.ask_work(process, |work| {
            if let Some(late) = work.threads.get_mut(&thread).and_then(|it| it.late.take()) {
                work.clock = work.clock.max(late.due);
            }
        });
        ThreadWork::Late(process, thread)
    }

    // In words.

    fn job_text(&self, process: u16, number: u32) -> String {
        let (name, caller, job) = self.ask_process(process, |its| {
            let caller = its.work.callers.iter().find(|it| it.0 == number).map(|it| it.1.clone());
            let job = its.work.queue.iter().find(|it| it.0 == number).map(|it| Arc::clone(&it.1));
            (its.name.clone(), caller, job)
        });
        match (caller, job.as_deref()) {
            (Some(caller), _) => format!("{caller} begins"),
            (_, Some(ServiceJob::Look(inner))) => format!("{name} works on {}", inner.name),
            (_, Some(ServiceJob::LetGo(leaving))) => format!("{name} works on {}", leaving.inner.name),
            (_, Some(ServiceJob::Fire(timer))) => format!("{name} works on {}", timer.request),
            (None, None) => format!("{name} works"),
        }
    }

    /// Lets go of all, since what a test has may have the store.
    fn clear(&self) {
        let mut processes = lock(&self.processes);
        let cleared = processes.iter_mut().map(|its| {
            its.work.threads.clear();
            (its.service.take(), std::mem::take(&mut its.work.queue), std::mem::take(&mut its.work.callers))
        });
        let cleared: Vec<_> = cleared.collect();
        drop(processes);
        drop(cleared);
    }
}

/// The process that a move changes.
fn process_of(key: StoreMove) -> Option<u16> {
    match key {
        StoreMove::Job(process, _) | StoreMove::Ask(process, ..) | StoreMove::Late(process, ..) | StoreMove::Look(process) => Some(process),
        StoreMove::Due(process, ..) | StoreMove::Gone(process, _) | StoreMove::Kill(process) => Some(process),
        StoreMove::Land(_) | StoreMove::Spare => None,
    }
}

/// What the core of the kit has of a store.
pub(super) struct ServiceCore(pub(super) Arc<SharedStore>);

impl Sharing for ServiceCore {
    fn possible_moves(&self, is_alone: bool) -> Vec<StoreMove> {
        let (shop, mut keys) = (&self.0, Vec::new());
        let living = shop.living_processes();
        let free: Vec<u16> = living.iter().copied().filter(|it| shop.is_free(*it)).collect();
        living.iter().for_each(|process| shop.push_moves_of(*process, &mut keys));
        shop.push_notices(&free, &mut keys);
        let flying = lock(&shop.flying).clone();
        keys.extend((0..).zip(&flying).filter(|it| shop.may_land(it.1)).map(|it| StoreMove::Land(it.0)));
        let (bounds, busy) = (*lock(&shop.bounds), living.into_iter().filter(|it| shop.has_threads(*it)).collect::<Vec<_>>());
        let slow: Vec<StoreMove> = if bounds.slow > 0 { busy.iter().filter_map(|other| shop.gone_move(*other, &free)).collect() } else { Vec::new() };
        let kills: Vec<StoreMove> = if bounds.killed > 0 { busy.into_iter().map(StoreMove::Kill).collect() } else { Vec::new() };
        // (For what is left out the move has to be there as long as the others are.)
        if !(slow.is_empty() && kills.is_empty()) && (shop.seam.is_reducing() || is_alone && keys.is_empty()) {
            keys.push(StoreMove::Spare);
        }
        keys.into_iter().chain(slow).chain(kills).collect()
    }

    fn make_move(&self, key: StoreMove) -> ThreadWork {
        let shop = &self.0;
        if let Some(process) = process_of(key) {
            shop.touch_process(process, true);
        }
        match key {
            StoreMove::Job(process, number) => shop.start_job(process, number),
            StoreMove::Late(process, thread, _) => shop.end_wait(process, thread),
            StoreMove::Look(process) => {
                shop.ask_work(process, |work| work.stuck.clear());
                shop.pump_round(process, None);
                shop.begin_next(process)
            }
            StoreMove::Due(process, row, stage, _) => shop.fire_due(process, row, stage),
            StoreMove::Gone(process, other) => shop.take_for_gone(process, other),
            StoreMove::Kill(process) => shop.kill_process(process),
            StoreMove::Land(number) => shop.land_put(number),
            StoreMove::Spare => {
                shop.seam.touch(KILLS, 0, true);
                let mut bounds = lock(&shop.bounds);
                *bounds = bounds.killed(0).slow(0);
                ThreadWork::Nothing
            }
            StoreMove::Ask(..) => ThreadWork::Nothing,
        }
    }

    fn move_text(&self, key: StoreMove) -> String {
        let shop = &self.0;
        match key {
            StoreMove::Job(process, number) => shop.job_text(process, number),
            StoreMove::Ask(process, thread, _, way) => {
                let ways = shop.ask_work(process, |work| work.threads.get(&thread).map_or(OF_CALLS, |it| it.ways));
                ways.get(usize::from(way)).map_or("", |answer| answer.text()).into()
            }
            StoreMove::Late(process, thread, _) => shop.ask_work(process, |work| {
                let it = work.threads.get(&thread);
                let late = it.and_then(|it| it.late.as_ref());
                format!(
                    "{} has waited {:?} for {}",
                    it.map_or("", |it| &it.name),
                    late.map_or(Duration::ZERO, |it| it.wait),
                    late.map_or("", |it| &it.name)
                )
            }),
            StoreMove::Look(process) => format!("{} looks what is new", shop.name_of(process)),
            StoreMove::Due(process, row, stage, _) => {
                let stage = shop.rows.stage_name(&shop.rows.names()[usize::from(row)], stage);
                format!("{} finds that the limit of {stage} has passed", shop.name_of(process))
            }
            StoreMove::Gone(process, other) => format!("{} takes {} for gone", shop.name_of(process), shop.name_of(other)),
            StoreMove::Kill(process) => format!("{} is killed", shop.name_of(process)),
            StoreMove::Land(number) => {
                let put = lock(&shop.flying)[number as usize].clone();
                format!("the put that was on its way comes: {}", shop.rows.put_text(put.put()))
            }
            StoreMove::Spare => "nobody is killed any more".into(),
        }
    }

    fn take_told(&self) -> Vec<String> {
        std::mem::take(&mut lock(&self.0.rows.told))
    }

    fn words_of_rows(&self) -> Vec<Vec<u64>> {
        self.0.rows.entries().into_iter().map(|row| row.into_iter().map(|entry| entry.word).collect()).collect()
    }

    fn histories(&self) -> Vec<Arc<dyn StoredHistory>> {
        let shop = &self.0;
        let session = |process: u16| Some((shop.service(process)?.shared.session, shop.name_of(process)));
        let sessions: BTreeMap<u64, String> = shop.process_numbers().into_iter().filter_map(session).collect();
        let history = |name: &String| Some(Arc::new(shop.rows.history(name, sessions.clone())?) as Arc<dyn StoredHistory>);
        shop.rows.names().iter().filter_map(history).collect()
    }

    fn close(&self) {
        self.0.clear();
    }
}
