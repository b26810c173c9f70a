//! What each call does in each state of a request, as one table: open, behind each of its ends, behind a panic, and in the midst of something else.
use crate::held::refuse_memory;
use crate::spawn::{caller_number, is_inline_free, requests_run_here, StandIn, CALLER};
use crate::{Error, HandClock, Job, Refusal, Request, Spawn, Stage};
use std::future::Future;
use std::panic::{catch_unwind, AssertUnwindSafe};
use std::pin::Pin;
use std::sync::atomic::{AtomicBool, Ordering};
use std::sync::mpsc::{channel, RecvTimeoutError};
use std::sync::Arc;
use std::task::{Context, Wake, Waker};
use std::thread;
use std::time::Duration;

/// Runs each job at once, as long as it takes any.
#[derive(Clone, Default)]
struct Directly(Arc<AtomicBool>);

impl Spawn for Directly {
    fn spawn(&self, job: Job) -> Result<(), Job> {
        if self.0.load(Ordering::SeqCst) {
            return Err(job);
        }
        job.run();
        Ok(())
    }
}

/// A request with a promise that nobody has completed, and a settled stage of another one.
#[derive(Clone)]
struct On {
    request: Request,
    gate: Stage<i32>,
    other: Stage<i32>,
    clock: HandClock,
}

impl On {
    fn new(executor: &Directly) -> On {
        let clock = HandClock::new();
        let request = Request::with_clock("on", Arc::new(executor.clone()), Arc::new(clock.clone()));
        let other = Request::new("other", Directly::default()).supply(|| 4);
        On { gate: request.promise(), request, other, clock }
    }
}

/// How a call ends.
type End = Box<dyn FnOnce() -> String + Send>;
type StageFn = fn(&On) -> End;

fn ends(stage: Stage<i32>) -> End {
    Box::new(move || match stage.peek() {
        None => "open".into(),
        Some(Ok(value)) => value.to_string(),
        Some(Err(Error::Cancelled)) => "cancelled".into(),
        Some(Err(Error::TimedOut(_))) => "late".into(),
        Some(Err(Error::Refused(Refusal::Closed))) => "closed".into(),
        Some(Err(Error::Refused(Refusal::Full))) => "full".into(),
        Some(Err(Error::Refused(Refusal::NoLedger))) => "no memory".into(),
        Some(Err(error)) => format!("{error:?}"),
    })
}

fn says(text: impl ToString) -> End {
    let text = text.to_string();
    Box::new(|| text)
}

struct Rings(AtomicBool);

impl Wake for Rings {
    fn wake(self: Arc<Rings>) {
        self.0.store(true, Ordering::SeqCst);
    }
}

/// The states, in the order of the table's columns.
const STATES: [&str; 9] = ["open", "closed", "cancelled", "over", "full", "left by a panic", "without memory", "unwinding", "in a function"];

#[rustfmt::skip]
const TABLE: [(&str, StageFn, [&str; STATES.len()]); 17] = [
    //                            open         closed       cancelled    over         full         panic        no memory    unwinding    function
    ("supply", supplies,         ["3",         "closed",    "3",         "3",         "full",      "3",         "no memory", "3",         "3"]),
    ("spawn", spawns,            ["3",         "closed",    "3",         "3",         "full",      "3",         "no memory", "3",         "3"]),
    ("promise", promises,        ["2",         "2",         "2",         "2",         "full",      "2",         "no memory", "2",         "2"]),
    ("then", attaches,           ["6",         "closed",    "cancelled", "2",         "full",      "6",         "no memory", "6",         "6"]),
    ("compose", composes,        ["5",         "closed",    "cancelled", "1",         "full",      "5",         "no memory", "5",         "5"]),
    ("combine", combines,        ["9",         "closed",    "cancelled", "5",         "full",      "9",         "no memory", "9",         "9"]),
    ("gather", gathers,          ["1",         "closed",    "cancelled", "1",         "full",      "1",         "no memory", "1",         "1"]),
    ("first_of", firsts,         ["5",         "5",         "cancelled", "1",         "full",      "5",         "no memory", "5",         "5"]),
    ("first", succeeds,          ["5",         "5",         "cancelled", "1",         "full",      "5",         "no memory", "5",         "5"]),
    ("adopt", adopts,            ["4",         "4",         "4",         "4",         "full",      "4",         "no memory", "4",         "4"]),
    ("or_timeout", limits,       ["late",      "late",      "cancelled", "1",         "late",      "late",      "panics",    "late",      "late"]),
    ("complete", completes,      ["Ok(())",    "Ok(())",    "Err(5)",    "Err(5)",    "Ok(())",    "Ok(())",    "panics",    "Ok(())",    "Ok(())"]),
    ("cancel", cancels,          ["true",      "true",      "true",      "false",     "true",      "true",      "panics",    "true",      "true"]),
    ("cancel_all", cancels_all,  ["cancelled", "cancelled", "cancelled", "1",         "cancelled", "cancelled", "panics",    "cancelled", "cancelled"]),
    ("a dropped await", leaves,  ["5",         "closed",    "cancelled", "1",         "full",      "5",         "no memory", "5",         "5"]),
    ("an await", awaits,         ["rings",     "rings",     "ready",     "ready",     "rings",     "rings",     "panics",    "rings",     "rings"]),
    ("history", tells,           ["true",      "true",      "true",      "true",      "true",      "true",      "true",      "true",      "true"]),
];

fn supplies(on: &On) -> End {
    ends(on.request.supply(|| 3))
}

fn spawns(on: &On) -> End {
    ends(on.request.spawn(async { Ok::<_, Error>(3) }))
}

fn promises(on: &On) -> End {
    let promise = on.request.promise();
    let _ = promise.complete(2);
    ends(promise)
}

fn attaches(on: &On) -> End {
    settles(on, on.gate.clone().then(|n| n + 1))
}

fn settles(on: &On, behind: Stage<i32>) -> End {
    refuse_memory(None);
    let _ = on.gate.complete(5);
    ends(behind)
}

fn composes(on: &On) -> End {
    let gate = on.gate.clone();
    settles(on, on.gate.clone().compose(move |_| gate))
}

fn combines(on: &On) -> End {
    settles(on, on.gate.clone().combine(&on.other, |one, other| one + other))
}

fn gathers(on: &On) -> End {
    settles(on, on.request.gather([&on.gate]).then(|row| row.len() as i32))
}

fn firsts(on: &On) -> End {
    settles(on, on.request.first_of([&on.gate, &on.gate]))
}

fn succeeds(on: &On) -> End {
    settles(on, on.request.first([&on.gate, &on.gate]))
}

fn adopts(on: &On) -> End {
    ends(on.request.adopt(&on.other))
}

fn limits(on: &On) -> End {
    let late = on.gate.clone().or_timeout(Duration::from_secs(1));
    on.clock.turn(Duration::from_secs(1));
    ends(late)
}

fn completes(on: &On) -> End {
    says(format!("{:?}", on.gate.complete(5)))
}

fn cancels(on: &On) -> End {
    says(on.gate.cancel())
}

fn cancels_all(on: &On) -> End {
    on.request.cancel_all();
    ends(on.gate.clone())
}

fn polls(stage: &mut Stage<i32>) -> (bool, Arc<Rings>) {
    let rings = Arc::new(Rings(AtomicBool::new(false)));
    let is_ready = Pin::new(stage).poll(&mut Context::from_waker(&Waker::from(Arc::clone(&rings)))).is_ready();
    (is_ready, rings)
}

/// Who awaits a stage gives that up, while its future runs, which goes on.
fn leaves(on: &On) -> End {
    let gate = on.gate.clone();
    let running = on.request.spawn(gate);
    let mut handle = running.clone();
    polls(&mut handle);
    drop(handle);
    settles(on, running)
}

fn awaits(on: &On) -> End {
    let mut handle = on.gate.clone();
    let (is_ready, rings) = polls(&mut handle);
    if is_ready {
        return says("ready");
    }
    let _ = on.gate.complete(5);
    says(if rings.0.load(Ordering::SeqCst) { "rings" } else { "sleeps" })
}

fn tells(on: &On) -> End {
    says(on.request.history().is_reproducible())
}

/// Does something while its thread unwinds.
struct Unwinds<'a>(&'a mut dyn FnMut());

impl Drop for Unwinds<'_> {
    fn drop(&mut self) {
        assert!(thread::panicking());
        (self.0)();
    }
}

/// Brings a request into a state, and makes a call there. How that ends.
fn called(state: &str, call: StageFn) -> String {
    let executor = Directly::default();
    let on = On::new(&executor);
    let mut ended: Option<End> = None;
    match state {
        "closed" => executor.0.store(true, Ordering::SeqCst),
        "cancelled" => on.request.cancel_all(),
        "over" => {
            on.gate.complete(1).unwrap();
            (0..crate::inner::SLOTS).for_each(|k| on.request.promise().complete(k).unwrap());
            assert!(on.request.0.lock().ledger.is_resting());
        }
        "full" => drop((0..4095).map(|_| on.request.promise::<i32>()).collect::<Vec<_>>()),
        "left by a panic" => {
            let panics = || {
                let _held = on.request.0.lock();
                panic!("under the lock");
            };
            assert!(catch_unwind(AssertUnwindSafe(panics)).is_err());
        }
        _ => {}
    }
    let made = catch_unwind(AssertUnwindSafe(|| match state {
        "without memory" => {
            refuse_memory(Some(0));
            ended = Some(call(&on));
        }
        "unwinding" => {
            let mut calls = || ended = Some(call(&on));
            let unwinds = || {
                let _unwinds = Unwinds(&mut calls);
                panic!("it unwinds");
            };
            drop(catch_unwind(AssertUnwindSafe(unwinds)).unwrap_err());
        }
        "in a function" => {
            let (sends, sent) = channel();
            let of = on.clone();
            drop(on.request.supply(move || sends.send(call(&of)).unwrap()));
            ended = Some(sent.recv().unwrap());
        }
        _ => ended = Some(call(&on)),
    }));
    refuse_memory(None);
    let told = if made.is_err() { "panics".into() } else { ended.expect("it was called")() };
    // The thread is a caller again, and the request goes on with what it can.
    assert_eq!((caller_number(), requests_run_here().len(), is_inline_free(), StandIn::current().is_there()), (CALLER, 0, true, false));
    if !matches!(state, "closed" | "full") {
        assert_eq!(on.request.supply(|| 8).then(|n| n + 1).wait_timeout(Duration::ZERO).expect("it goes on").unwrap(), 9);
    }
    on.request.cancel_all();
    assert!(on.gate.is_settled() && on.request.history().is_reproducible());
    told
}

#[test]
fn each_call_does_in_each_state_what_the_table_says() {
    let (sends, sent) = channel();
    let runs = thread::spawn(move || {
        for (column, state) in STATES.into_iter().enumerate() {
            for (name, call, row) in TABLE {
                sends.send((name, state, row[column], None)).unwrap();
                let told = called(state, call);
                sends.send((name, state, row[column], Some(told))).unwrap();
            }
        }
    });
    let (mut others, mut last) = (Vec::new(), None);
    loop {
        match sent.recv_timeout(Duration::from_secs(20)) {
            Ok((name, state, wanted, told)) => {
                others.extend(told.filter(|told| told != wanted).map(|told| format!("{name}, {state}: {told}, not {wanted}")));
                last = Some((name, state));
            }
            Err(RecvTimeoutError::Timeout) => panic!("{last:?} doesn't come back"),
            Err(RecvTimeoutError::Disconnected) => break,
        }
    }
    assert!(others.is_empty(), "{others:#?}");
    runs.join().unwrap_or_else(|_| panic!("in {last:?}"));
}
