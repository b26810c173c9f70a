//! Short random programs of calls to a few requests, with two judges. Nothing that could go on is left: a stage is pending only where it waits for one
//! that is, and whoever waits for a settled stage was woken. And no code of a user runs or is dropped under a request's lock: all values, functions,
//! errors, futures, wakers, executors and clocks of a program look for that.
//!
//! One thread makes the calls, runs the jobs and turns the clock, in any order, so each program comes again by its seed. `CF_PROGRAMS=FIRST..END`
//! in the environment names other seeds.
use crate::held::{is_held, refuse_memory};
use crate::{Alarm, AnyStage, Clock, Describe, Error, HandClock, Inline, Job, Request, Spawn, Stage};
use std::fmt;
use std::future::Future;
use std::panic::{catch_unwind, resume_unwind, AssertUnwindSafe};
use std::pin::Pin;
use std::sync::atomic::{AtomicUsize, Ordering};
use std::sync::{Arc, Mutex};
use std::task::{Context, Poll, Wake, Waker};
use std::time::Duration;

/// What a program keeps of what it saw: what ran under a lock.
#[derive(Clone, Default)]
struct Seen(Arc<Mutex<Vec<&'static str>>>);

impl Seen {
    /// Code of a user runs here.
    fn runs(&self, what: &'static str) {
        if is_held() {
            self.0.lock().unwrap().push(what);
        }
    }
}

/// Something of a user's, which looks as it is dropped.
struct Own(Seen, &'static str);

impl Drop for Own {
    fn drop(&mut self) {
        self.0.runs(self.1);
    }
}

struct Value(i32, Own);

impl Value {
    fn new(seen: &Seen, value: i32) -> Value {
        Value(value, Own(seen.clone(), "a value's drop"))
    }
}

impl Clone for Value {
    fn clone(&self) -> Value {
        self.1 .0.runs("a value's clone");
        Value::new(&self.1 .0, self.0)
    }
}

struct Fault(Own);

impl fmt::Debug for Fault {
    fn fmt(&self, f: &mut fmt::Formatter<'_>) -> fmt::Result {
        f.write_str("a fault")
    }
}

impl fmt::Display for Fault {
    fn fmt(&self, f: &mut fmt::Formatter<'_>) -> fmt::Result {
        self.0 .0.runs("an error's text");
        f.write_str("a fault")
    }
}

impl std::error::Error for Fault {}

struct Bell(AtomicUsize, Own);

impl Wake for Bell {
    fn wake(self: Arc<Bell>) {
        self.1 .0.runs("a waker");
        self.0.fetch_add(1, Ordering::SeqCst);
    }
}

/// A future that awaits a stage, once it has woken itself so often.
struct Awaits(Stage<Value>, usize, Own);

impl Future for Awaits {
    type Output = Result<Value, Error>;

    fn poll(mut self: Pin<&mut Awaits>, cx: &mut Context<'_>) -> Poll<Result<Value, Error>> {
        self.2 .0.runs("a future");
        if self.1 > 0 {
            self.1 -= 1;
            cx.waker().wake_by_ref();
            return Poll::Pending;
        }
        Pin::new(&mut self.0).poll(cx)
    }
}

/// Keeps jobs until the program runs them, or takes none any more.
#[derive(Clone)]
struct Queue(Arc<Mutex<(Vec<Job>, bool)>>, usize, Seen);

impl Spawn for Queue {
    fn spawn(&self, job: Job) -> Result<(), Job> {
        self.2.runs("an executor");
        let mut held = self.0.lock().unwrap();
        if held.1 {
            return Err(job);
        }
        held.0.push(job);
        Ok(())
    }

    fn parallelism(&self) -> usize {
        self.1
    }
}

struct Watched(HandClock, Seen);

impl Clock for Watched {
    fn now(&self) -> Duration {
        self.1.runs("a clock");
        self.0.now()
    }

    fn ring_after(&self, wait: Duration, alarm: Alarm) {
        self.1.runs("a clock");
        self.0.ring_after(wait, alarm);
    }
}

/// Of what a stage waits.
enum Of {
    Nobody,
    /// It is settled by nobody but a caller.
    Caller,
    All(Vec<Stage<Value>>),
    Any(Vec<Stage<Value>>),
    /// The first, and then the one that its function names.
    Then(Option<Stage<Value>>, Arc<Mutex<Option<Stage<Value>>>>),
}

struct Program {
    dice: u64,
    seen: Seen,
    clock: HandClock,
    requests: Vec<Request>,
    queues: Vec<Queue>,
    stages: Vec<(Stage<Value>, Of)>,
    waiting: Vec<(Stage<Value>, Arc<Bell>)>,
    told: Vec<String>,
    /// Whether machines are refused memory now and then.
    lacks: bool,
}

impl Program {
    fn new(seed: u64, lacks: bool) -> Program {
        let (seen, clock) = (Seen::default(), HandClock::new());
        let dice = seed.wrapping_mul(0x9E37_79B9_7F4A_7C15) ^ 0x5851_F42D_4C95_7F2D;
        let (requests, queues, stages, waiting, told) = (Vec::new(), Vec::new(), Vec::new(), Vec::new(), Vec::new());
        let mut program = Program { dice, seen, clock, requests, queues, stages, waiting, told, lacks };
        for name in ["one", "two"] {
            let spawn: Arc<dyn Spawn> = if program.roll(4) == 0 {
                Arc::new(Inline)
            } else {
                let queue = Queue(Arc::default(), [1, 1, 2, usize::MAX][program.roll(4)], program.seen.clone());
                program.queues.push(queue.clone());
                Arc::new(queue)
            };
            let describes = program.seen.clone();
            let clock = Watched(program.clock.clone(), program.seen.clone());
            let request = Request::with_clock(name, spawn, Arc::new(clock)).described(Describe::from_fn(move |_| {
                describes.runs("a description");
                String::new()
            }));
            program.requests.push(request);
        }
        program
    }

    fn roll(&mut self, of: usize) -> usize {
        self.dice = self.dice.wrapping_mul(6_364_136_223_846_793_005).wrapping_add(1_442_695_040_888_963_407);
        (self.dice >> 33) as usize % of
    }

    fn stage(&mut self) -> Stage<Value> {
        let at = self.roll(self.stages.len());
        self.stages[at].0.clone()
    }

    fn some(&mut self) -> Vec<Stage<Value>> {
        (0..1 + self.roll(3)).map(|_| self.stage()).collect()
    }

    fn value(&mut self) -> Value {
        let number = self.roll(100);
        Value::new(&self.seen, number as i32)
    }

    /// What a function does: it gives a value, fails or panics, and may settle a stage before.
    fn function(&mut self) -> impl FnOnce() -> Result<Value, Fault> + Send + 'static {
        let (seen, how) = (self.seen.clone(), self.roll(8));
        let settled = if self.stages.is_empty() || self.roll(3) > 0 { None } else { Some(self.stage()) };
        let (own, fault) = (Own(seen.clone(), "a function's drop"), Fault(Own(seen.clone(), "an error's drop")));
        move || {
            own.0.runs("a function");
            match (settled, how % 2) {
                (Some(stage), 0) => drop(stage.complete(Value::new(&own.0, 7))),
                (Some(stage), _) => drop(stage.cancel()),
                _ => {}
            }
            match how {
                0 => Err(fault),
                // As a panic does that is told to nobody.
                1 => resume_unwind(Box::new(Own(seen, "a payload's drop"))),
                _ => Ok(Value::new(&own.0, 8)),
            }
        }
    }

    fn add(&mut self, what: &str, stage: Stage<Value>, of: Of) {
        self.told.push(format!("{}: {what} is {stage:?}", self.stages.len()));
        self.stages.push((stage, of));
    }

    fn attach(&mut self) {
        let one = self.roll(2);
        let request = self.requests[one].clone();
        let what = if self.stages.is_empty() { 0 } else { self.roll(15) };
        let function = self.function();
        match what {
            0 | 1 => self.add("a promise", request.promise(), Of::Caller),
            2 | 3 => self.add("a supply", request.try_supply(function), Of::Nobody),
            4 | 5 => {
                let of = self.stage();
                self.add("a then", of.clone().and_then(move |_| function()), Of::All(vec![of]));
            }
            6 => {
                let of = self.stage();
                let seen = self.seen.clone();
                let stage = of.clone().handle(move |_| function().unwrap_or_else(|_| Value::new(&seen, 9)));
                self.add("a handle", stage, Of::All(vec![of]));
            }
            7 => {
                let of = self.stage();
                let seen = self.seen.clone();
                let stage = of.clone().recover(move |_| function().unwrap_or_else(|_| Value::new(&seen, 9)));
                self.add("a recover", stage, Of::All(vec![of]));
            }
            8 => {
                let (of, other) = (self.stage(), self.stage());
                let own = Own(self.seen.clone(), "a function's drop");
                let stage = of.clone().combine(&other, move |one, _| one.clone()).inspect(move |_| own.0.runs("a function"));
                self.add("a combine", stage, Of::All(vec![of, other]));
            }
            9 => {
                let (of, other) = (self.stage(), self.stage());
                self.add("an either", of.clone().either(&other, |one| one.clone()), Of::Any(vec![of, other]));
            }
            10 => {
                let of = self.some();
                let all = request.all_of(of.iter().map(|stage| stage as &dyn AnyStage));
                self.add("a row behind all", all.and_then(move |()| function()), Of::All(of));
            }
            11 => {
                let of = self.some();
                self.add("the first", request.first_of(&of), Of::Any(of));
            }
            12 => {
                let (of, inner, named) = (self.stage(), self.stage(), Arc::new(Mutex::new(None)));
                let by = Arc::clone(&named);
                let stage = of.clone().compose(move |_| {
                    *by.lock().unwrap() = Some(inner.clone());
                    inner
                });
                self.add("a compose", stage, Of::Then(Some(of), named));
            }
            13 => {
                let (of, inner, turns, named) = (self.stage(), self.stage(), self.roll(3), Arc::new(Mutex::new(None)));
                let own = Own(self.seen.clone(), "a future's drop");
                let by = Arc::clone(&named);
                let begins = move || {
                    *by.lock().unwrap() = Some(inner.clone());
                    Awaits(inner, turns, own)
                };
                if turns == 0 {
                    let stage = request.spawn(begins());
                    self.add("a future", stage, Of::Then(None, named));
                } else {
                    self.add("a future behind", of.clone().then_async(move |_| begins()), Of::Then(Some(of), named));
                }
            }
            _ => {
                let of = self.stage();
                self.add("an adopted", request.adopt(&of), Of::All(vec![of]));
            }
        }
    }

    fn act(&mut self) {
        let what = self.roll(15);
        if self.stages.is_empty() || what < 6 {
            return self.attach();
        }
        let (stage, value) = (self.stage(), self.value());
        self.told.push(format!("{what} to {stage:?}"));
        match what {
            6 | 7 => drop(stage.complete(value)),
            8 => drop(stage.fail(Fault(Own(self.seen.clone(), "an error's drop")))),
            9 if self.roll(4) == 0 => stage.request().cancel_all(),
            9 => drop(stage.cancel()),
            10 => {
                let wait = Duration::from_millis(self.roll(5) as u64);
                drop(if self.roll(2) == 0 { stage.or_timeout(wait) } else { stage.complete_on_timeout(value, wait) });
            }
            11 => self.wait(stage),
            12 => self.clock.turn(Duration::from_millis(1)),
            13 => {
                let told = self.requests[0].history().to_string();
                assert!(!told.is_empty() && stage.wait_timeout(Duration::ZERO).is_some() == stage.is_settled());
            }
            _ => drop(self.run_one()),
        }
    }

    /// A task awaits a stage, wakes for another waker, or goes.
    fn wait(&mut self, stage: Stage<Value>) {
        let bell = Arc::new(Bell(AtomicUsize::new(0), Own(self.seen.clone(), "a waker's drop")));
        let (mut handle, at) = (stage, self.roll(6));
        if at < self.waiting.len() {
            handle = self.waiting.swap_remove(at).0;
            if self.roll(3) == 0 {
                return;
            }
        }
        if Pin::new(&mut handle).poll(&mut Context::from_waker(&Waker::from(Arc::clone(&bell)))).is_pending() {
            self.waiting.push((handle, bell));
        }
    }

    /// Runs a job, or drops it. Whether there was one.
    fn run_one(&mut self) -> bool {
        let full: Vec<Queue> = self.queues.iter().filter(|queue| !queue.0.lock().unwrap().0.is_empty()).cloned().collect();
        if full.is_empty() {
            return false;
        }
        let queue = &full[self.roll(full.len())];
        let at = self.roll(queue.0.lock().unwrap().0.len());
        let job = queue.0.lock().unwrap().0.remove(at);
        if self.roll(20) == 0 {
            drop(job);
        } else {
            job.run();
        }
        true
    }

    /// Makes a call for which machines are refused memory at some place, if it needs any there: then the call panics.
    fn act_without_memory(&mut self) {
        let calls = self.roll(4);
        refuse_memory(Some(calls));
        let acted = catch_unwind(AssertUnwindSafe(|| self.act()));
        refuse_memory(None);
        if acted.is_err() {
            self.told.push(format!("which panics behind {calls} calls of a machine"));
        }
    }

    /// What is left that could go on. A stage whose function ends without memory is never finished, so it may wait for nothing.
    fn left(&self) -> Option<String> {
        let is_open = |stage: &Stage<Value>| !stage.is_settled();
        for (at, (stage, of)) in self.stages.iter().enumerate().filter(|_| !self.lacks) {
            let may_wait = match of {
                Of::Nobody => false,
                Of::Caller => true,
                Of::All(of) => of.iter().any(is_open),
                Of::Any(of) => of.iter().all(is_open),
                Of::Then(first, named) => first.as_ref().map_or(false, is_open) || named.lock().unwrap().as_ref().map_or(false, is_open),
            };
            if is_open(stage) && !may_wait {
                return Some(format!("{at}, {stage:?}, waits for nothing"));
            }
        }
        let unwoken = self.waiting.iter().find(|(stage, bell)| stage.is_settled() && bell.0.load(Ordering::SeqCst) == 0);
        unwoken.map(|(stage, _)| format!("who waits for {stage:?} wasn't woken"))
    }

    fn goes(&mut self) -> Result<(), String> {
        for _ in 0..8 + self.roll(24) {
            if self.lacks && self.roll(4) == 0 {
                self.act_without_memory();
            } else {
                self.act();
            }
        }
        while self.run_one() {}
        if let Some(left) = self.left() {
            return Err(left);
        }
        for one in 0..self.requests.len() {
            let (seen, stage) = (self.seen.clone(), self.requests[one].clone());
            let stage = stage.supply(move || Value::new(&seen, 1));
            self.add("at last a supply", stage, Of::Nobody);
        }
        while self.run_one() {}
        let last = self.stages.iter().rev().take(self.requests.len()).find(|it| !it.0.is_settled());
        if let Some(left) = self.left().or(last.map(|(stage, _)| format!("{stage:?} isn't run"))) {
            return Err(left);
        }
        if self.roll(3) == 0 {
            self.queues.iter().for_each(|queue| queue.0.lock().unwrap().1 = true);
            self.attach();
            while self.run_one() {}
        }
        self.requests.iter().for_each(Request::cancel_all);
        while self.run_one() {}
        if let Some((stage, _)) = self.stages.iter().find(|it| !it.0.is_settled()) {
            return Err(format!("{stage:?} isn't cancelled"));
        }
        if !self.requests.iter().all(|request| request.history().is_reproducible()) {
            return Err("a history doesn't come again".into());
        }
        self.left().map_or(Ok(()), Err)
    }
}

/// The program of a seed. What it leaves, or what ran under a lock, is told.
fn judged(seed: u64, lacks: bool) -> Result<(), String> {
    let mut program = Program::new(seed, lacks);
    let mut went = catch_unwind(AssertUnwindSafe(|| program.goes())).unwrap_or_else(|_| Err("it panicked".into()));
    let (seen, told) = (program.seen.clone(), program.told.join("\n"));
    drop(program);
    if let Some(what) = seen.0.lock().unwrap().first() {
        went = Err(format!("under a lock: {what}"));
    }
    if Arc::strong_count(&seen.0) > 1 && went.is_ok() {
        went = Err(format!("{} things of the user's are left in memory", Arc::strong_count(&seen.0) - 1));
    }
    went.map_err(|why| format!("seed {seed}: {why}\n{told}"))
}

/// Judges the programs of many seeds.
fn judge(lacks: bool, seeds: &str) {
    let seeds = std::env::var("CF_PROGRAMS").unwrap_or_else(|_| seeds.into());
    let (first, end) = seeds.split_once("..").expect("FIRST..END");
    for seed in first.parse().unwrap()..end.parse().unwrap() {
        judged(seed, lacks).unwrap_or_else(|why| panic!("{why}"));
    }
}

#[test]
fn nothing_that_could_go_on_is_left() {
    judge(false, "0..600");
}

/// A call that is refused memory panics. What it has done before is told, and all later calls go on.
#[test]
fn a_call_without_memory_leaves_a_request_that_goes_on() {
    judge(true, "0..300");
}
