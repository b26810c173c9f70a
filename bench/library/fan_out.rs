//! A fan-out of 512 by eight threads, once over the library for C and once by other means: bench/library/run builds and runs it. A source is
//! completed, 510 functions take its value, and the last stage is settled when all of them have answered. A line for each way: the best
//! and the median of many rounds, in picoseconds a stage, from when all threads are there to the end of the last, and how many rounds
//! there were.
//!
//! - `fan-out library, lowest ready`: each thread asks the desk for the lowest ready stage, claims it, and finishes it where it got it.
//! - `fan-out library, by cf_desk_next`: the same in one call a stage.
//! - `fan-out library, own parts`: each thread claims and finishes each eighth stage.
//! - `fan-out std, queue`: the functions stand in a queue behind a `Mutex` and a `Condvar`.
//! - `fan-out std, channel`: the functions come by a channel, whose receiver stands behind a `Mutex`, and the answers go by another.
//! - `fan-out std, own parts`: each thread waits for the source by a `Condvar`, runs each eighth function, and puts its answers behind a
//!   `Mutex`.
//! - `fan-out futures`, `fan-out tokio, ..`, `fan-out rayon, ..`: bench/library/peers.rs, with the features of these names.
use std::sync::atomic::{AtomicUsize, Ordering};
use std::sync::{mpsc, Condvar, Mutex};
use std::time::{Duration, Instant};

#[cfg(any(feature = "futures", feature = "tokio", feature = "rayon"))]
mod peers;

const THREADS: usize = 8;
const STAGES: usize = 512;
/// The functions: stages 1 to 510 of the library's graph.
const PARTS: usize = STAGES - 2;
const ALL: u16 = STAGES as u16 - 1;
const ROUNDS: usize = 300;

fn one_more(value: i32) -> i32 {
    value.wrapping_add(1)
}

/// The calls of cf.h that are used here.
mod cf {
    use std::os::raw::c_void;

    #[repr(C)]
    pub struct Handle {
        at: *mut c_void,
        full: bool,
    }

    /// What stands behind a handle may go to another thread.
    unsafe impl Send for Handle {}

    pub const EMPTY: Handle = Handle {
        at: std::ptr::null_mut(),
        full: false,
    };

    #[repr(C)]
    #[derive(Clone, Copy, Default)]
    pub struct Value {
        pub kind: u32,
        pub number: i32,
    }

    #[repr(C)]
    #[derive(Clone, Copy, Default)]
    pub struct Outcome {
        pub kind: u32,
        pub wrapped: u32,
        pub code: u32,
        pub value: Value,
    }

    #[repr(C)]
    #[derive(Clone, Copy, Default)]
    pub struct Args {
        pub kind: u32,
        pub first: Value,
        pub second: Value,
        pub outcome: Outcome,
    }

    #[repr(C)]
    #[derive(Clone, Copy, Default)]
    pub struct Reply {
        pub answer: u32,
        pub number: u32,
        pub args: Args,
    }

    #[repr(C)]
    #[derive(Clone, Copy, Default)]
    pub struct Answer {
        pub kind: u32,
        pub code: u32,
        pub value: Value,
        pub stage: u16,
    }

    #[repr(C)]
    #[derive(Clone, Copy, Default)]
    pub struct Task {
        pub held: u32,
        pub stage: u16,
        pub function: u16,
        pub args: Args,
        pub answer: Answer,
        pub finished: u32,
    }

    pub const NOTHING: u32 = 17;
    pub const LOST: u32 = 31;
    pub const NO_FUNCTION: u32 = u32::MAX;
    pub const SOURCE: u32 = 0;
    pub const APPLY: u32 = 3;
    pub const ALL_OF: u32 = 16;

    extern "C" {
        pub fn cf_free(h: *mut Handle);
        pub fn cf_builder_new(builder: *mut Handle, stages: u16, edges: u16) -> u32;
        pub fn cf_builder_stage(builder: *mut Handle, form: u32, of: *const u16, n: usize, function: u32, stage: *mut u16) -> u32;
        pub fn cf_build(builder: *mut Handle) -> u32;
        pub fn cf_desk_open(plan: *mut Handle, callers: *mut Handle, n: usize, log: u16, calls: u16) -> u32;
        pub fn cf_desk_complete(caller: *mut Handle, stage: u16, value: Value, reply: *mut Reply) -> u32;
        pub fn cf_desk_claim(caller: *mut Handle, stage: u16, reply: *mut Reply) -> u32;
        pub fn cf_desk_finish_with(caller: *mut Handle, stage: u16, answer: *const Answer, reply: *mut Reply) -> u32;
        pub fn cf_desk_next(caller: *mut Handle, task: *mut Task) -> u32;
        pub fn cf_desk_read(caller: *mut Handle, stage: u16, outcome: *mut Outcome) -> u32;
        pub fn cf_desk_ready(caller: *mut Handle, stage: *mut u16) -> u32;
        pub fn cf_desk_seen(caller: *mut Handle, events: *mut u16) -> u32;
    }
}

fn must(code: u32) {
    assert_eq!(code, 0, "a call of the library was refused");
}

// ---- Times ----

/// Lets threads begin together.
struct Gate(AtomicUsize);

impl Gate {
    fn new() -> Gate {
        Gate(AtomicUsize::new(0))
    }

    /// Waits until all threads are there, and tells when that was.
    fn pass(&self) -> Instant {
        self.0.fetch_add(1, Ordering::SeqCst);
        while self.0.load(Ordering::SeqCst) < THREADS {
            std::thread::yield_now();
        }
        Instant::now()
    }
}

/// Runs the work of each thread, and tells the time from the first one's beginning to the last one's end.
fn together<W: FnOnce() + Send>(work: Vec<W>) -> Duration {
    let gate = Gate::new();
    let spans: Vec<(Instant, Instant)> = std::thread::scope(|scope| {
        let begin = |work: W| {
            let gate = &gate;
            scope.spawn(move || {
                let since = gate.pass();
                work();
                (since, Instant::now())
            })
        };
        let threads: Vec<_> = work.into_iter().map(begin).collect();
        threads.into_iter().map(|it| it.join().expect("a thread ended")).collect()
    });
    let first = spans.iter().map(|it| it.0).min().expect("there are threads");
    let last = spans.iter().map(|it| it.1).max().expect("there are threads");
    last - first
}

fn show(name: &str, mut round: impl FnMut() -> Duration) {
    let mut nanos: Vec<u128> = (0..ROUNDS).map(|_| round().as_nanos()).collect();
    nanos.sort_unstable();
    let a_stage = |nanos: u128| nanos * 1000 / STAGES as u128;
    println!(
        "{name}: best {} ps, median {} ps, {ROUNDS} rounds",
        a_stage(nanos[0]),
        a_stage(nanos[ROUNDS / 2])
    );
}

// ---- The library ----

/// What the function of a stage answers.
fn answer(args: &cf::Args) -> cf::Answer {
    let value = cf::Value {
        kind: 1,
        number: one_more(args.first.number),
    };
    cf::Answer {
        value,
        ..cf::Answer::default()
    }
}

/// How a thread gets its stages.
#[derive(Clone, Copy)]
enum Way {
    LowestReady,
    Next,
    OwnParts,
}

/// A handle in memory of its own: four in one line of a cache would wait for each other.
#[repr(align(128))]
struct Caller(cf::Handle);

impl Caller {
    /// Completes the source, if this is the first, and else waits until it has seen that.
    fn begin(&mut self, is_first: bool) {
        if is_first {
            let one = cf::Value { kind: 1, number: 1 };
            must(unsafe { cf::cf_desk_complete(&mut self.0, 0, one, &mut cf::Reply::default()) });
        }
        while self.ready().is_none() && self.seen() == 0 {
            std::thread::yield_now();
        }
    }

    fn ready(&mut self) -> Option<u16> {
        let mut stage = 0;
        (unsafe { cf::cf_desk_ready(&mut self.0, &mut stage) } == 0).then_some(stage)
    }

    fn seen(&mut self) -> u16 {
        let mut events = 0;
        must(unsafe { cf::cf_desk_seen(&mut self.0, &mut events) });
        events
    }

    /// Runs the function of a stage, if the claim is granted.
    fn run(&mut self, stage: u16) {
        let mut reply = cf::Reply::default();
        must(unsafe { cf::cf_desk_claim(&mut self.0, stage, &mut reply) });
        if reply.answer == 0 {
            let answer = answer(&reply.args);
            must(unsafe { cf::cf_desk_finish_with(&mut self.0, stage, &answer, &mut reply) });
        }
    }

    fn run_ready(&mut self) {
        while let Some(stage) = self.ready() {
            self.run(stage);
        }
    }

    /// The same in one call a stage. Where another thread was first, it asks again.
    fn run_next(&mut self) {
        let mut task = cf::Task::default();
        loop {
            match unsafe { cf::cf_desk_next(&mut self.0, &mut task) } {
                0 => task.answer = answer(&task.args),
                cf::LOST => {}
                cf::NOTHING => return,
                code => must(code),
            }
        }
    }

    fn is_settled(&mut self, stage: u16) -> bool {
        let mut outcome = cf::Outcome::default();
        must(unsafe { cf::cf_desk_read(&mut self.0, stage, &mut outcome) });
        outcome.kind != 0
    }
}

impl Drop for Caller {
    fn drop(&mut self) {
        unsafe { cf::cf_free(&mut self.0) };
    }
}

fn plan() -> Caller {
    let mut plan = cf::EMPTY;
    let parts: Vec<u16> = (1..ALL).collect();
    unsafe {
        must(cf::cf_builder_new(&mut plan, STAGES as u16, 2 * STAGES as u16));
        must(cf::cf_builder_stage(
            &mut plan,
            cf::SOURCE,
            std::ptr::null(),
            0,
            cf::NO_FUNCTION,
            &mut 0,
        ));
        for _ in &parts {
            must(cf::cf_builder_stage(&mut plan, cf::APPLY, &0, 1, 0, &mut 0));
        }
        must(cf::cf_builder_stage(
            &mut plan,
            cf::ALL_OF,
            parts.as_ptr(),
            parts.len(),
            cf::NO_FUNCTION,
            &mut 0,
        ));
        must(cf::cf_build(&mut plan));
    }
    Caller(plan)
}

/// A round over a new desk of the plan.
fn over_library(plan: &mut Caller, way: Way) -> Duration {
    let mut callers = [cf::EMPTY; THREADS];
    must(unsafe { cf::cf_desk_open(&mut plan.0, callers.as_mut_ptr(), THREADS, u16::MAX, u16::MAX / 2) });
    let mut callers: Vec<Caller> = callers.into_iter().map(Caller).collect();
    let work = callers.iter_mut().enumerate().map(|(k, caller)| {
        move || {
            caller.begin(k == 0);
            match way {
                Way::LowestReady => caller.run_ready(),
                Way::Next => caller.run_next(),
                Way::OwnParts => (1 + k..=PARTS).step_by(THREADS).for_each(|stage| caller.run(stage as u16)),
            }
        }
    });
    let took = together(work.collect());
    assert!(callers[0].is_settled(ALL), "all functions were run");
    took
}

// ---- std ----

struct Queue {
    source: Option<i32>,
    next: usize,
    answers: Vec<Option<i32>>,
    left: usize,
}

/// A thread of the queue: waits for the source, and runs the next function until there is none.
fn run_queue(queue: &Mutex<Queue>, came: &Condvar, is_first: bool) {
    let mut held = queue.lock().expect("no thread panicked");
    if is_first {
        held.source = Some(1);
        came.notify_all();
    }
    loop {
        match held.source {
            None => held = came.wait(held).expect("no thread panicked"),
            Some(_) if held.next == PARTS => return,
            Some(value) => {
                let part = held.next;
                held.next += 1;
                drop(held);
                let answer = one_more(value);
                held = queue.lock().expect("no thread panicked");
                held.answers[part] = Some(answer);
                held.left -= 1;
            }
        }
    }
}

fn by_queue() -> Duration {
    let queue = Mutex::new(Queue {
        source: None,
        next: 0,
        answers: vec![None; PARTS],
        left: PARTS,
    });
    let came = Condvar::new();
    let work = (0..THREADS).map(|k| {
        let (queue, came) = (&queue, &came);
        move || run_queue(queue, came, k == 0)
    });
    let took = together(work.collect());
    let queue = queue.into_inner().expect("no thread panicked");
    assert!(queue.left == 0 && queue.answers.iter().all(|it| *it == Some(2)));
    took
}

fn by_channel() -> Duration {
    let (jobs, taken) = mpsc::channel::<(usize, i32)>();
    let (told, answers) = mpsc::channel::<(usize, i32)>();
    let taken = Mutex::new(taken);
    let mut jobs = Some(jobs);
    let work = (0..THREADS).map(|_| {
        let (jobs, taken, told) = (jobs.take(), &taken, told.clone());
        move || {
            if let Some(jobs) = jobs {
                (0..PARTS).for_each(|part| jobs.send((part, 1)).expect("it is received"));
            }
            // The lock is held while a job is waited for, and not while it is done.
            while let Ok((part, value)) = {
                let taken = taken.lock().expect("no thread panicked");
                taken.recv()
            } {
                told.send((part, one_more(value))).expect("it is received");
            }
        }
    });
    let took = together(work.collect());
    drop(told);
    assert_eq!(answers.into_iter().filter(|it| it.1 == 2).count(), PARTS);
    took
}

/// A thread with parts of its own: waits for the source, and puts its answers where all are.
fn run_parts(k: usize, source: &(Mutex<Option<i32>>, Condvar), answers: &Mutex<Vec<Option<i32>>>) {
    let mut held = source.0.lock().expect("no thread panicked");
    if k == 0 {
        *held = Some(1);
        source.1.notify_all();
    }
    let value = loop {
        match *held {
            Some(value) => break value,
            None => held = source.1.wait(held).expect("no thread panicked"),
        }
    };
    drop(held);
    for part in (k..PARTS).step_by(THREADS) {
        let answer = one_more(value);
        answers.lock().expect("no thread panicked")[part] = Some(answer);
    }
}

fn by_parts() -> Duration {
    let source = (Mutex::new(None), Condvar::new());
    let answers = Mutex::new(vec![None; PARTS]);
    let work = (0..THREADS).map(|k| {
        let (source, answers) = (&source, &answers);
        move || run_parts(k, source, answers)
    });
    let took = together(work.collect());
    assert!(answers.into_inner().expect("no thread panicked").iter().all(|it| *it == Some(2)));
    took
}

fn main() {
    let mut plan = plan();
    show("fan-out library, lowest ready", || over_library(&mut plan, Way::LowestReady));
    show("fan-out library, by cf_desk_next", || over_library(&mut plan, Way::Next));
    show("fan-out library, own parts", || over_library(&mut plan, Way::OwnParts));
    show("fan-out std, queue", by_queue);
    show("fan-out std, channel", by_channel);
    show("fan-out std, own parts", by_parts);
    #[cfg(feature = "futures")]
    peers::by_futures();
    #[cfg(feature = "tokio")]
    peers::by_tokio();
    #[cfg(feature = "rayon")]
    peers::by_rayon();
}
