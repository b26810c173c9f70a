//! Executors, which run the functions of ready stages.
use crate::core::Core;
use crate::task::Polling;
use std::any::Any;
use std::cell::{Cell, RefCell};
use std::collections::VecDeque;
use std::fmt;
use std::panic::{catch_unwind, resume_unwind, AssertUnwindSafe};
use std::sync::atomic::{AtomicUsize, Ordering};
use std::sync::{Arc, Condvar, Mutex, MutexGuard, PoisonError};
use std::thread::{self, JoinHandle, LocalKey};
use std::time::Duration;

/// The payload of a panic.
pub(crate) type Payload = Box<dyn Any + Send>;

/// Runs `act`, and keeps the first panic. A payload that panics as it is dropped is leaked.
pub(crate) fn catch_panic<T>(panicked: &mut Option<Payload>, act: impl FnOnce() -> T) -> Option<T> {
    match catch_unwind(AssertUnwindSafe(act)) {
        Ok(did) => return Some(did),
        Err(payload) if panicked.is_none() => *panicked = Some(payload),
        Err(payload) => forget_payload(payload),
    }
    None
}

/// Runs `act`, and swallows a panic, so that the thread goes on.
pub(crate) fn swallow_panic(act: impl FnOnce()) {
    catch_unwind(AssertUnwindSafe(act)).unwrap_or_else(forget_payload);
}

/// Runs `act` in a `Drop`. A panic goes on, unless the thread unwinds already: a second panic would end the process.
pub(crate) fn run_in_drop(act: impl FnOnce()) {
    if thread::panicking() {
        swallow_panic(act);
    } else {
        act();
    }
}

fn forget_payload(payload: Payload) {
    if let Err(again) = catch_unwind(AssertUnwindSafe(|| drop(payload))) {
        std::mem::forget(again);
    }
}

/// A turn of a request's work: it runs functions that are ready, one after the other, or polls the future of one. [`Spawn`] has an example.
/// If it is dropped, what it would have run fails with [`Refusal::Closed`](crate::Refusal::Closed).
pub struct Job(Option<JobKind>);

pub(crate) enum JobKind {
    Work(Arc<Core>),
    Poll(Arc<Polling>),
}

impl Drop for Job {
    fn drop(&mut self) {
        match self.0.take() {
            None => {}
            Some(JobKind::Work(core)) => run_in_drop(|| do_in_turn(&REFUSED, core, |core| core.refuse_ready())),
            Some(JobKind::Poll(polling)) => run_in_drop(|| polling.refuse_stage()),
        }
    }
}

impl Job {
    pub(crate) fn new(turn: JobKind) -> Job {
        Job(Some(turn))
    }

    /// The job's work.
    #[cfg(feature = "testing")]
    pub(crate) fn kind(&self) -> Option<&JobKind> {
        self.0.as_ref()
    }

    /// Takes over the job's work.
    #[cfg(feature = "testing")]
    pub(crate) fn into_kind(mut self) -> Option<JobKind> {
        self.0.take()
    }

    /// Runs the job. A function that panics fails its stage. Only a panic of a waker or a `Drop` goes on to the caller.
    ///
    /// ```
    /// struct Threads;
    /// impl cf::Spawn for Threads {
    ///     fn spawn(&self, job: cf::Job) -> Result<(), cf::Job> {
    ///         std::thread::spawn(move || job.run());
    ///         Ok(())
    ///     }
    /// }
    /// assert_eq!(cf::Request::new("import 5", Threads).supply(|| 4).wait().unwrap(), 4);
    /// ```
    pub fn run(mut self) {
        let turn = self.0.take();
        as_worker(|who| match turn {
            None => {}
            Some(JobKind::Work(core)) => core.work(who, Core::TURN),
            Some(JobKind::Poll(polling)) => polling.poll(),
        });
    }
}

impl fmt::Debug for Job {
    fn fmt(&self, f: &mut fmt::Formatter<'_>) -> fmt::Result {
        match &self.0 {
            Some(JobKind::Work(core)) => write!(f, "Job(functions of {:?})", core.name),
            _ => f.write_str("Job(a future)"),
        }
    }
}

/// An executor, which runs the functions of ready stages: threads, a thread pool, an async runtime. A request asks for as many jobs as it has ready
/// stages, and at most [`parallelism`](Spawn::parallelism) at a time. A job runs up to 64 functions, and then goes to the end of the queue.
///
/// ```
/// use cf::{Job, Request, Spawn};
///
/// /// A thread for each job.
/// struct Threads;
///
/// impl Spawn for Threads {
///     fn spawn(&self, job: Job) -> Result<(), Job> {
///         std::thread::spawn(move || job.run());
///         Ok(())
///     }
/// }
///
/// let import = Request::new("import 5", Threads);
/// assert_eq!(import.supply(|| 20).then(|n| n + 1).wait().unwrap(), 21);
/// ```
pub trait Spawn: Send + Sync + 'static {
    /// Runs the job soon, on any thread. An executor that takes no more jobs gives it back, and the ready stages fail with
    /// [`Refusal::Closed`](crate::Refusal::Closed). It must not run the job under a lock that a stage's function might take. A panic goes on to the
    /// caller.
    fn spawn(&self, job: Job) -> Result<(), Job>;

    /// The most jobs of one request at a time. A job whose function waits for a stage isn't counted meanwhile.
    fn parallelism(&self) -> usize {
        1
    }

    /// The executor's number. A function that waits for a stage lets its thread run what that stage needs, if that is to run on an executor of the
    /// same number. Clones that share their threads must have one number.
    ///
    /// ```
    /// use std::sync::Arc;
    /// #[derive(Clone)]
    /// struct Queue(Arc<std::sync::mpsc::SyncSender<cf::Job>>);
    /// impl cf::Spawn for Queue {
    ///     fn spawn(&self, job: cf::Job) -> Result<(), cf::Job> {
    ///         self.0.send(job).map_err(|refused| refused.0)
    ///     }
    ///     fn id(&self) -> usize {
    ///         Arc::as_ptr(&self.0) as usize
    ///     }
    /// }
    /// ```
    fn id(&self) -> usize {
        self as *const Self as *const () as usize
    }

    /// Whether it is [`Inline`], whose jobs the request itself begins.
    #[doc(hidden)]
    fn is_inline(&self) -> bool {
        false
    }
}

impl<S: Spawn + ?Sized> Spawn for Arc<S> {
    fn spawn(&self, job: Job) -> Result<(), Job> {
        (**self).spawn(job)
    }

    fn parallelism(&self) -> usize {
        (**self).parallelism()
    }

    fn id(&self) -> usize {
        (**self).id()
    }

    fn is_inline(&self) -> bool {
        (**self).is_inline()
    }
}

// Callers, by their numbers in a history (docs/FORMATS.md, "Callers").

pub(crate) const CALLER: u8 = 0;
pub(crate) const CLOCK: u8 = 1;
pub(crate) const RELAY: u8 = 2;
pub(crate) const FIRST_WORKER: u8 = 3;
pub(crate) const MOST_CALLERS: u8 = 64;

thread_local! {
    /// This thread's number as a worker, once it is one.
    static WORKER: Cell<u8> = const { Cell::new(CALLER) };
    /// This thread's number as a caller: a worker's while it runs a job.
    static HERE: Cell<u8> = const { Cell::new(CALLER) };
    /// The requests whose functions this thread runs, the innermost last, and whether each runs in a counted job.
    static RUNNING: RefCell<Vec<(Arc<Core>, bool)>> = const { RefCell::new(Vec::new()) };
    /// The stage of the innermost request whose function or future this thread runs.
    static CALLED: Cell<Option<u16>> = const { Cell::new(None) };
    /// The stand-in for the thread while it waits.
    static STANDS_IN: RefCell<StandIn> = const { RefCell::new(StandIn::Nobody) };
}

/// The stand-in for an executor's thread while that waits.
#[derive(Clone)]
pub(crate) enum StandIn {
    /// None: the thread itself runs what it can.
    Nobody,
    /// A spare thread of a pool.
    Pool(Arc<PoolState>),
    /// A thread of tokio, to which the runtime hands over.
    #[cfg(feature = "tokio")]
    Tokio,
}

impl StandIn {
    pub(crate) fn current() -> StandIn {
        STANDS_IN.try_with(|stands_in| stands_in.borrow().clone()).unwrap_or(StandIn::Nobody)
    }

    pub(crate) fn is_there(&self) -> bool {
        !matches!(self, StandIn::Nobody)
    }

    /// Whether the thread may run what a stage needs. A thread of tokio wakes futures that yielded only once it is back in its runtime.
    pub(crate) fn may_help(&self) -> bool {
        match self {
            #[cfg(feature = "tokio")]
            StandIn::Tokio => false,
            _ => true,
        }
    }

    /// Blocks this thread by `rests`.
    pub(crate) fn rest<T>(&self, rests: impl FnOnce() -> T) -> T {
        match self {
            #[cfg(feature = "tokio")]
            StandIn::Tokio => tokio::task::block_in_place(rests),
            _ => rests(),
        }
    }

    /// Runs `act` on a thread that has this stand-in meanwhile.
    pub(crate) fn stand_in_during(self, act: impl FnOnce()) {
        struct Back(StandIn);
        impl Drop for Back {
            fn drop(&mut self) {
                let before = std::mem::replace(&mut self.0, StandIn::Nobody);
                drop(STANDS_IN.try_with(|stands_in| stands_in.replace(before)));
            }
        }
        let _back = STANDS_IN.try_with(|stands_in| Back(stands_in.replace(self)));
        act();
    }
}

/// A thread that only waits. Its jobs aren't counted, so that others are asked for, and its pool may start a spare thread.
pub(crate) struct Resting {
    cores: Vec<Arc<Core>>,
    pool: Option<Arc<PoolState>>,
    /// Whether another thread runs what is ready meanwhile.
    pub(crate) is_stood_in: bool,
}

impl Resting {
    pub(crate) fn new(stands_in: &StandIn) -> Resting {
        let counted = |running: &RefCell<Vec<(Arc<Core>, bool)>>| running.borrow().iter().filter(|it| it.1).map(|it| Arc::clone(&it.0)).collect();
        let cores: Vec<Arc<Core>> = RUNNING.try_with(counted).unwrap_or_default();
        let (pool, is_stood_in) = match stands_in {
            StandIn::Nobody => (None, false),
            StandIn::Pool(pool) => (Some(Arc::clone(pool)), pool.begin_rest()),
            #[cfg(feature = "tokio")]
            StandIn::Tokio => (None, true),
        };
        let resting = Resting { cores, pool, is_stood_in };
        resting.cores.iter().for_each(Core::begin_rest);
        resting
    }
}

impl Drop for Resting {
    fn drop(&mut self) {
        self.cores.iter().for_each(|core| core.end_rest());
        if let Some(pool) = &self.pool {
            pool.lock().running += 1;
        }
    }
}

/// This thread's number as a worker. It takes the next number, round and round, when it runs its first job.
pub(crate) fn worker_number() -> u8 {
    static NEXT: AtomicUsize = AtomicUsize::new(0);
    WORKER.with(|worker| {
        if worker.get() == CALLER {
            let next = NEXT.fetch_add(1, Ordering::Relaxed) % usize::from(MOST_CALLERS - FIRST_WORKER);
            worker.set(FIRST_WORKER + next as u8);
        }
        worker.get()
    })
}

/// This thread's number as a caller of requests.
pub(crate) fn caller_number() -> u8 {
    HERE.with(Cell::get)
}

/// Runs `act` as a worker.
pub(crate) fn as_worker<T>(act: impl FnOnce(u8) -> T) -> T {
    let who = worker_number();
    as_caller(who, || act(who))
}

/// Runs `act` as the caller of this number.
pub(crate) fn as_caller<T>(who: u8, act: impl FnOnce() -> T) -> T {
    struct Back(u8);
    impl Drop for Back {
        fn drop(&mut self) {
            HERE.with(|here| here.set(self.0));
        }
    }
    let _back = Back(HERE.with(|here| here.replace(who)));
    act()
}

/// Notes that this thread runs functions of a request, in a counted job or not, until the guard is dropped.
pub(crate) fn mark_running(core: &Arc<Core>, is_job: bool) -> Running {
    let _ = RUNNING.try_with(|running| running.borrow_mut().push((Arc::clone(core), is_job)));
    Running { outer: CALLED.with(Cell::take) }
}

/// Notes whose function or future this thread runs from now on, of the request for which it runs functions.
#[inline]
pub(crate) fn set_called(stage: Option<u16>) {
    CALLED.with(|called| called.set(stage));
}

/// Whether the function that asks is to stop: its stage is settled, as by the end of its [`Scope`](crate::Scope), by a limit or by
/// [`Stage::cancel`](crate::Stage::cancel), and what it gives comes too late. False where no stage's function or future runs. It takes 20 ns.
///
/// ```
/// let import = cf::Request::new("import 5", cf::Pool::new(2));
/// let scope = import.scope();
/// let rows = scope.supply(|| (0_u64..).take_while(|_| !cf::is_stopping()).count());
/// drop(scope);
/// assert!(rows.wait().unwrap_err().is_cancelled());
/// ```
#[must_use]
pub fn is_stopping() -> bool {
    let called = CALLED.try_with(Cell::get).ok().flatten();
    let core = RUNNING.try_with(|running| running.borrow().last().map(|it| Arc::clone(&it.0))).ok().flatten();
    called.zip(core).map_or(false, |(stage, core)| core.is_settled(stage))
}

pub(crate) struct Running {
    /// The stage of the function that called what runs here.
    outer: Option<u16>,
}

impl Drop for Running {
    fn drop(&mut self) {
        set_called(self.outer);
        // This may drop the request, so the list isn't borrowed then.
        drop(RUNNING.try_with(|running| running.borrow_mut().pop()));
    }
}

/// The requests whose functions this thread runs, the innermost last.
pub(crate) fn requests_run_here() -> Vec<Arc<Core>> {
    RUNNING.try_with(|running| running.borrow().iter().map(|it| Arc::clone(&it.0)).collect()).unwrap_or_default()
}

/// A queue for work that comes while work of its kind is done, so that the stack stays flat.
pub(crate) struct TurnQueue<T>(RefCell<Waiting<T>>);

struct Waiting<T> {
    /// Whether work is being done.
    is_taken: bool,
    next: Option<VecDeque<T>>,
}

impl<T> TurnQueue<T> {
    pub(crate) const fn new() -> TurnQueue<T> {
        TurnQueue(RefCell::new(Waiting { is_taken: false, next: None }))
    }

    /// Takes the next piece of work. Without one, the queue is free.
    #[inline]
    fn pop(&self) -> Option<T> {
        let mut waiting = self.0.borrow_mut();
        if let Some(next) = &mut waiting.next {
            if let Some(next) = next.pop_front() {
                return Some(next);
            }
            waiting.next = None;
        }
        waiting.is_taken = false;
        None
    }
}

thread_local! {
    static INLINE: TurnQueue<Job> = const { TurnQueue::new() };
    static REFUSED: TurnQueue<Arc<Core>> = const { TurnQueue::new() };
}

/// Does `first` and the work that comes meanwhile, one after another, also if some of it panics.
pub(crate) fn do_in_turn<T>(row: &'static LocalKey<TurnQueue<T>>, first: T, act: impl Fn(T)) {
    let mut first = Some(first);
    // A thread that ends has no queue any more, and does its work at once.
    let _ = row.try_with(|row| {
        let mut waiting = row.0.borrow_mut();
        if waiting.is_taken {
            waiting.next.get_or_insert_with(VecDeque::new).extend(first.take());
        }
    });
    let mut panicked = None;
    if let Some(first) = first {
        do_turns(row, || act(first), &act, &mut panicked);
    }
    if let Some(payload) = panicked {
        resume_unwind(payload);
    }
}

/// Does `first` and the work that comes meanwhile, where the queue is free.
fn do_turns<T>(row: &'static LocalKey<TurnQueue<T>>, first: impl FnOnce(), act: impl Fn(T), panicked: &mut Option<Payload>) {
    let _ = row.try_with(|row| row.0.borrow_mut().is_taken = true);
    catch_panic(panicked, first);
    while let Some(next) = row.try_with(TurnQueue::pop).ok().flatten() {
        catch_panic(panicked, || act(next));
    }
}

/// Whether [`Inline`] would run a job at once, and not behind another one.
pub(crate) fn is_inline_free() -> bool {
    INLINE.try_with(|row| !row.0.borrow().is_taken).unwrap_or(false)
}

/// Runs `job` as a job of [`Inline`], which is free, and then the jobs that came meanwhile.
pub(crate) fn run_inline(job: impl FnOnce(), panicked: &mut Option<Payload>) {
    do_turns(&INLINE, job, Job::run, panicked);
}

/// Runs each function at once, on the thread by which its stage became ready, and polls a future on the thread that wakes it: one whose waker
/// is called under a lock that its poll takes, too, wants another [`Spawn`].
///
/// ```
/// let import = cf::Request::new("import 5", cf::Inline);
/// let here = std::thread::current().id();
/// assert_eq!(import.supply(|| std::thread::current().id()).wait().unwrap(), here);
/// ```
#[derive(Clone, Copy, Debug, Default)]
pub struct Inline;

impl Spawn for Inline {
    fn spawn(&self, job: Job) -> Result<(), Job> {
        do_in_turn(&INLINE, job, Job::run);
        Ok(())
    }

    fn id(&self) -> usize {
        1
    }

    fn is_inline(&self) -> bool {
        true
    }
}

/// Threads of std. Clones share them. Dropping the last clone waits until no job is left and the threads have ended.
///
/// While a function waits for a stage, a spare thread runs others in its place, so that as many go on as the pool has threads.
///
/// ```
/// let pool = cf::Pool::new(4);
/// let import = cf::Request::new("import 5", pool.clone());
/// assert_eq!(import.supply(|| 20).then(|n| n + 1).wait().unwrap(), 21);
/// ```
#[derive(Clone, Debug)]
pub struct Pool(Arc<Threads>);

#[derive(Debug)]
struct Threads(Arc<PoolState>);

#[derive(Debug)]
pub(crate) struct PoolState {
    queue: Mutex<Queue>,
    came: Condvar,
    /// The most jobs at a time.
    most: usize,
}

#[derive(Debug, Default)]
struct Queue {
    jobs: VecDeque<Job>,
    /// Threads that run a job and don't rest in it.
    running: usize,
    /// Threads without a job, also those that have just been started.
    idle: usize,
    threads: Vec<JoinHandle<()>>,
    closed: bool,
}

/// How long an idle spare thread stays.
const SPARE: Duration = Duration::from_secs(1);

impl PoolState {
    fn lock(&self) -> MutexGuard<'_, Queue> {
        self.queue.lock().unwrap_or_else(PoisonError::into_inner)
    }

    /// Starts one more thread, unless the system refuses it. The next job tries again.
    fn start_thread(self: &Arc<PoolState>, queue: &mut Queue) -> bool {
        let shared = Arc::clone(self);
        let serves = move || StandIn::Pool(Arc::clone(&shared)).stand_in_during(|| shared.run_jobs());
        let started = thread::Builder::new().name(format!("cf {}", queue.threads.len())).spawn(serves);
        queue.idle += usize::from(started.is_ok());
        let is_started = started.is_ok();
        queue.threads.extend(started);
        is_started
    }

    /// Finds a thread for each job that may run now, and starts one if too few are idle. Says whether an idle one is to be woken; an error if there
    /// is no thread.
    fn hire(self: &Arc<PoolState>, queue: &mut Queue) -> Result<bool, ()> {
        let wanted = queue.jobs.len().min(self.most.saturating_sub(queue.running));
        if wanted > queue.idle && !self.start_thread(queue) && queue.running == 0 && queue.idle == 0 {
            return Err(());
        }
        Ok(wanted > 0)
    }

    /// Notes that a thread waits in its job, so another one may run. Says whether there is a thread for the queue.
    fn begin_rest(self: &Arc<PoolState>) -> bool {
        let mut queue = self.lock();
        queue.running -= 1;
        let hired = self.hire(&mut queue);
        drop(queue);
        if hired == Ok(true) {
            self.came.notify_one();
        }
        hired.is_ok()
    }

    fn run_jobs(&self) {
        let mut queue = self.lock();
        loop {
            let next = if queue.running < self.most { queue.jobs.pop_front() } else { None };
            if let Some(job) = next {
                queue.idle -= 1;
                queue.running += 1;
                drop(queue);
                // A waker that panics doesn't end the thread.
                swallow_panic(|| job.run());
                queue = self.lock();
                queue.running -= 1;
                queue.idle += 1;
            } else if queue.closed && queue.jobs.is_empty() {
                break;
            } else if queue.idle + queue.running <= self.most {
                queue = self.came.wait(queue).unwrap_or_else(PoisonError::into_inner);
            } else {
                let (woken, waited) = self.came.wait_timeout(queue, SPARE).unwrap_or_else(PoisonError::into_inner);
                queue = woken;
                if waited.timed_out() && queue.idle + queue.running > self.most && queue.jobs.is_empty() {
                    let me = thread::current().id();
                    queue.threads.retain(|it| it.thread().id() != me);
                    break;
                }
            }
        }
        queue.idle -= 1;
        drop(queue);
        // Others may rest until the last job is done.
        self.came.notify_all();
    }
}

impl Pool {
    /// Starts this many threads, at least one. It takes some 20 µs a thread. If the system refuses some, it tries again when jobs come.
    ///
    /// ```
    /// let pool = cf::Pool::new(2);
    /// assert_eq!(cf::Spawn::parallelism(&pool), 2);
    /// ```
    pub fn new(threads: usize) -> Pool {
        let shared = Arc::new(PoolState { queue: Mutex::default(), came: Condvar::new(), most: threads.max(1) });
        let mut queue = shared.lock();
        let _ = (0..shared.most).all(|_| shared.start_thread(&mut queue));
        drop(queue);
        Pool(Arc::new(Threads(shared)))
    }
}

impl Spawn for Pool {
    /// Gives a job back if there is no thread and the system starts none.
    fn spawn(&self, job: Job) -> Result<(), Job> {
        let shared = &self.0 .0;
        let mut queue = shared.lock();
        if queue.closed {
            return Err(job);
        }
        queue.jobs.push_back(job);
        let hired = shared.hire(&mut queue);
        let back = if hired.is_err() { queue.jobs.pop_back() } else { None };
        drop(queue);
        if hired == Ok(true) {
            shared.came.notify_one();
        }
        back.map_or(Ok(()), Err)
    }

    fn parallelism(&self) -> usize {
        self.0 .0.most
    }

    fn id(&self) -> usize {
        Arc::as_ptr(&self.0) as usize
    }
}

impl Drop for Threads {
    fn drop(&mut self) {
        self.0.lock().closed = true;
        self.0.came.notify_all();
        let me = thread::current().id();
        // The last clone may go with the last request, on one of the threads themselves, and a thread that rests may need a spare one yet.
        loop {
            let next = self.0.lock().threads.pop();
            match next {
                None => return,
                Some(thread) if thread.thread().id() == me => {}
                Some(thread) => drop(thread.join()),
            }
        }
    }
}

/// Functions on a pool of rayon. If a waker or a `Drop` panics, rayon calls the pool's own handler of panics, and ends the process without one.
///
/// ```
/// let pool = std::sync::Arc::new(rayon::ThreadPoolBuilder::new().num_threads(2).build().unwrap());
/// let import = cf::Request::new("import 5", pool);
/// assert_eq!(import.supply(|| 20).then(|n| n + 1).wait().unwrap(), 21);
/// ```
#[cfg(feature = "rayon")]
impl Spawn for rayon::ThreadPool {
    fn spawn(&self, job: Job) -> Result<(), Job> {
        rayon::ThreadPool::spawn(self, move || job.run());
        Ok(())
    }

    fn parallelism(&self) -> usize {
        self.current_num_threads()
    }
}
