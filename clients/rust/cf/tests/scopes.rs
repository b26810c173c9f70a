//! Scopes: what ends with one, who ends it, and who waits for it.
mod common;
use cf::{is_stopping, AnyStage, Error, HandClock, Inline, Join, Meter, Pool, Refusal, Request, Retry, Scope, Stage, Status};
use common::{comes_back, Counts, LONG};
use std::future::{pending, Future};
use std::iter::successors;
use std::panic::{catch_unwind, AssertUnwindSafe};
use std::pin::Pin;
use std::sync::atomic::{AtomicBool, AtomicU64, AtomicUsize, Ordering};
use std::sync::mpsc::channel;
use std::sync::{Arc, Mutex};
use std::task::{Context, Poll};
use std::thread;
use std::time::{Duration, Instant};

const SECOND: Duration = Duration::from_secs(1);

/// The history does the same again, and has a time for each event.
fn fits(request: &Request) {
    let history = request.history();
    assert!(history.is_reproducible(), "{history}");
    assert_eq!(history.times().count(), history.words().len(), "{history}");
}

fn is_cancelled<T: Clone + Send + Sync + 'static>(stage: &Stage<T>) -> bool {
    stage.peek().map_or(false, |told| told.err().map_or(false, |error| error.is_cancelled()))
}

/// A stage of each kind, behind these or behind nothing: what is left open of the request then is of the scope.
fn attach_all(scope: &Request, stage: &Stage<u32>, other: &Stage<u32>) -> Vec<Stage<u32>> {
    let by = scope.clone();
    vec![
        scope.promise(),
        scope.supply(|| 1),
        scope.try_supply(|| Err("away")),
        scope.spawn(pending::<Result<u32, Error>>()),
        scope.adopt(other),
        scope.all_of([stage as &dyn AnyStage, other]).then(|()| 1),
        scope.first_of([stage, other]),
        scope.gather([stage, other, stage]).then(|row| row.len() as u32),
        scope.first([stage, other]),
        scope.all([stage, other]).then(|row| row.len() as u32),
        scope.quorum(2, [stage, other, stage]).then(|row| row.len() as u32),
        scope.retry(Retry::times(2).delay(LONG), || Err::<u32, _>("away")),
        scope.retry_async(Retry::times(2), pending::<Result<u32, Error>>),
        stage.clone().then(|value| *value),
        stage.clone().and_then(|value| Ok::<_, Error>(*value)),
        stage.clone().then_async(|value| async move { Ok::<_, Error>(*value) }),
        stage.clone().compose(move |_| by.promise()),
        stage.clone().combine(other, |value, _| *value),
        stage.clone().either(other, |value| *value),
        stage.clone().handle(|_| 1),
        stage.clone().inspect(|_| ()),
        stage.clone().recover(|_| 1),
        stage.clone().recover_compose(|_| unreachable!("it doesn't fail")),
    ]
}

#[test]
fn what_is_attached_in_a_scope_ends_with_it() {
    let (request, other) = (Request::new("whole", Inline), Request::new("other", Inline));
    let (outside, elsewhere) = (request.promise::<u32>(), other.promise::<u32>());
    let scope = request.scope().named("backends");
    let inner = scope.scope();
    let inside = inner.promise::<u32>();
    let all = attach_all(&scope, &scope.promise(), &elsewhere);
    let open: Vec<Stage<u32>> = all.into_iter().filter(|stage| !stage.is_settled()).collect();
    assert_eq!(open.len(), 21, "{}", request.history());
    fits(&request);
    drop(scope);
    assert!(open.iter().chain([&inside]).all(is_cancelled), "{}", request.history());
    assert!(!outside.is_settled() && !elsewhere.is_settled());
    let told = request.history().to_string();
    assert!(told.contains("relay cancels 3 promise") && told.contains("caller cancels 1 backends"), "{told}");
    fits(&request);

    // Nothing is attached in it, or behind its stages, any more.
    let stages = request.history().names().len();
    for within in [&inner as &Request, &inner.clone()] {
        for late in attach_all(within, &inside, &elsewhere) {
            assert!(matches!(late.peek(), Some(Err(Error::Refused(Refusal::ScopeEnded)))), "{late:?}");
        }
        assert!(matches!(within.scope().ended(), Some(Error::Refused(Refusal::ScopeEnded))));
    }
    assert_eq!(request.history().names().len(), stages);
    outside.complete(3).unwrap();
    assert_eq!(outside.then(|value| value + 1).wait().unwrap(), 4);
    drop(elsewhere);
    assert_eq!(other.history().names().len(), 1);
}

/// What the scope itself attaches is settled once it has ended, each stage, also inner ones.
#[test]
fn nothing_of_a_scope_is_left_open() {
    let request = Request::new("none", Inline);
    let scope = request.scope();
    let far = Request::new("far", Inline).promise::<u32>();
    drop(attach_all(&scope, &scope.promise(), &far));
    drop(scope);
    let (meter, told) = (Meter::new(), request.history());
    assert!(told.line().ends_with("; 0 open"), "{}", told.line());
    let _scope = request.clone().metered(&meter).scope();
    assert_eq!(meter.open_requests().len(), 0, "an open scope alone: nobody has to settle it");
}

/// A scope always ends by a cancellation or a time-out. What has failed is told by its stages.
#[test]
fn the_end_of_a_scope_is_no_failure() {
    let request = Request::new("spans", Inline);
    let scope = request.scope();
    assert_eq!(scope.supply(|| 49).wait().unwrap(), 49);
    scope.end();
    assert_eq!(request.history().spans()[0].status, Status::Ok);
    let scope = request.scope();
    drop(scope.promise::<u32>());
    drop(scope);
    assert_eq!(request.history().spans()[0].status, Status::Error("cancelled".into()));
}

#[test]
fn a_stage_ends_a_scope() {
    let (request, other) = (Request::new("hedged", Inline), Request::new("other", Inline));
    let scope = request.scope();
    let quotes = [scope.promise::<u32>(), scope.promise(), scope.promise()];
    let best = scope.ends_with(scope.first(&quotes).recover(|_| 52));
    assert!(quotes[1].fail("away") && scope.ended().is_none());
    quotes[2].complete(49).unwrap();
    assert!(best.wait().unwrap() == 49 && is_cancelled(&quotes[0]) && scope.ended().unwrap().is_cancelled());
    fits(&request);

    // Failing, another request's, or refused: in whatever way it is settled.
    let (scope, elsewhere) = (request.scope(), other.promise::<u32>());
    let (open, ends) = (scope.promise::<u32>(), scope.ends_with(elsewhere.clone()));
    assert!(elsewhere.fail("away") && is_cancelled(&open) && ends.wait().is_err());
    let scope = request.scope();
    let (open, done) = (scope.promise::<u32>(), request.supply(|| 4));
    assert_eq!(scope.ends_with(done).wait().unwrap(), 4);
    assert!(is_cancelled(&open));
    let scope = request.scope();
    let open = scope.promise::<u32>();
    (request.history().names().len()..4096).for_each(|_| drop(request.promise::<u32>()));
    let refused = scope.ends_with(request.promise::<u32>());
    assert!(matches!(refused.wait(), Err(Error::Refused(Refusal::Full))) && is_cancelled(&open));
    assert!(matches!(request.scope().promise::<u32>().wait(), Err(Error::Refused(Refusal::Full))));
}

#[test]
fn deadlines() {
    let clock = HandClock::new();
    let request = Request::with_clock("deadlines", Arc::new(Inline), Arc::new(clock.clone()));
    let outside = request.promise::<u32>();
    let (scope, limited) = (request.scope().deadline(2 * SECOND), request.clone().deadline(3 * SECOND));
    let (inner, early) = (scope.scope().deadline(LONG), scope.scope().deadline(SECOND));
    let stages = [&early as &Request, &inner, &scope, &limited].map(|within| within.promise::<u32>());
    for (moment, open) in [(1, [false, true, true, true]), (2, [false, false, false, true]), (3, [false; 4])] {
        clock.turn(SECOND);
        assert_eq!([0, 1, 2, 3].map(|at| !stages[at].is_settled()), open, "after {moment} s");
    }
    assert!(stages.iter().all(is_cancelled) && !outside.is_settled());
    assert!(scope.ended().unwrap().is_timeout() && early.ended().unwrap().is_timeout() && inner.ended().unwrap().is_cancelled());
    assert!(matches!(limited.promise::<u32>().wait(), Err(Error::Refused(Refusal::ScopeEnded))));
    fits(&request);
}

/// By a `?`, by a panic, by a future that is dropped.
#[test]
fn a_scope_that_is_left_ends() {
    let request = Request::new("left", Inline);
    let (keeps, kept) = (Mutex::new(Vec::new()), request.promise::<u32>());
    let keep = |scope: &Scope| keeps.lock().unwrap().push(scope.promise::<u32>());
    let _ = (|| {
        let scope = request.scope();
        keep(&scope);
        Err::<(), _>("away")?;
        kept.complete(1).map_err(|_| "settled")
    })();
    let panics = || {
        let scope = request.scope();
        keep(&scope);
        panic!("left");
    };
    assert!(catch_unwind(AssertUnwindSafe(panics)).is_err());
    let mut future: Pin<Box<dyn Future<Output = ()> + '_>> = Box::pin(async {
        let scope = request.scope();
        keep(&scope);
        let _ = kept.clone().await;
    });
    assert!(future.as_mut().poll(&mut Context::from_waker(&Arc::new(Counts::default()).into())).is_pending());
    assert!(!keeps.lock().unwrap().last().unwrap().is_settled());
    drop(future);
    assert!(keeps.into_inner().unwrap().iter().all(is_cancelled) && !kept.is_settled());
    fits(&request);
}

// Joins.

#[test]
fn who_joins_waits_for_all() {
    comes_back(|| {
        let request = Request::new("joined", Pool::new(2));
        let (scope, gate, sum) = (request.scope(), request.promise::<u64>(), Arc::new(AtomicU64::new(0)));
        let (by, adds) = (scope.clone(), Arc::clone(&sum));
        let deep = scope.scope();
        let by_deep = deep.clone();
        drop(gate.clone());
        drop(scope.adopt(&gate));
        for k in 0..8 {
            let (adds, by, by_deep) = (Arc::clone(&adds), by.clone(), by_deep.clone());
            // Each function attaches one more.
            drop(scope.supply(move || {
                let again = Arc::clone(&adds);
                adds.fetch_add(1, Ordering::SeqCst);
                drop(if k % 2 == 0 { by } else { by_deep }.supply(move || again.fetch_add(10, Ordering::SeqCst)));
            }));
        }
        drop(scope.supply(|| 1).compose(|value| {
            Request::new("elsewhere", Pool::new(1)).supply({
                let value = *value;
                move || value
            })
        }));
        drop(scope.supply(|| 2).recover_compose(|_| unreachable!("it doesn't fail"))); // its relay is needed by nobody
        let open = deep.promise::<u32>();
        let settles = open.clone();
        let thread = thread::spawn(move || {
            thread::sleep(Duration::from_millis(20));
            settles.complete(1).unwrap();
        });
        scope.join().wait().unwrap();
        assert_eq!(sum.load(Ordering::SeqCst), 88);
        assert!(open.is_settled() && is_ended(&by));
        thread.join().unwrap();
        drop(deep);
        fits(&request);
    });
}

fn is_ended(handle: &Request) -> bool {
    matches!(handle.promise::<u32>().peek(), Some(Err(Error::Refused(Refusal::ScopeEnded))))
}

/// A failure that somebody takes over is no failure of the scope.
#[test]
fn a_failure_that_nobody_takes_over_ends_a_scope() {
    let request = Request::new("failures", Inline);
    let joined = |attach: &dyn Fn(&Scope)| {
        let scope = request.scope();
        attach(&scope);
        scope.join().wait().map_err(|error| error.to_string())
    };
    let away = |scope: &Scope| scope.try_supply(|| Err::<u32, _>("away"));
    assert_eq!(joined(&|_| ()), Ok(()));
    assert_eq!(joined(&|scope| drop(away(scope))), Err("away".into()));
    assert_eq!(joined(&|scope| drop(away(scope).recover(|_| 1))), Ok(()));
    assert_eq!(joined(&|scope| drop(away(scope).then(|value| value + 1))), Err("away".into()));
    assert_eq!(joined(&|scope| drop(scope.first([&away(scope), &scope.supply(|| 1)]))), Ok(()));
    assert_eq!(joined(&|scope| assert!(away(scope).wait().is_err())), Ok(()), "somebody has asked for it");
    assert_eq!(joined(&|scope| assert!(away(scope).is_settled())), Err("away".into()));
    assert_eq!(joined(&|scope| assert!(scope.promise::<u32>().cancel())), Ok(()));
    assert_eq!(joined(&|scope| drop(away(&scope.scope()))), Err("away".into()), "one within it");
    assert_eq!(joined(&|scope| drop(scope.supply(|| -> u32 { panic!("in a function") }))), Err("a function panicked: in a function".into()));
    assert_eq!(joined(&|scope| scope.end()), Err("cancelled".into()));
    assert_eq!(joined(&|scope| drop(scope.ends_with(scope.supply(|| 1)))), Ok(()));
    assert_eq!(joined(&|scope| drop(scope.ends_with(away(scope)))), Err("away".into()));
    let retry = Retry::times(3).delay(Duration::ZERO);
    assert_eq!(joined(&|scope| drop(scope.retry(retry.clone(), || Err::<u32, _>("away")).recover(|_| 1))), Ok(()));
    fits(&request);
}

/// At once, while others are open; a future of it is woken.
#[test]
fn the_first_failure_ends_a_scope_at_once() {
    let clock = HandClock::new();
    let request = Request::with_clock("at once", Arc::new(Inline), Arc::new(clock.clone()));
    let counts = Arc::new(Counts::default());
    let poll = |join: &mut Join| Pin::new(join).poll(&mut Context::from_waker(&Arc::clone(&counts).into()));
    let scope = request.scope();
    let open = [scope.promise::<u32>(), scope.promise(), scope.promise()];
    let handled = open[0].clone().recover(|_| 1);
    let mut join = scope.join();
    assert!(poll(&mut join).is_pending());
    assert!(open[0].fail("handled") && handled.is_settled());
    assert!(poll(&mut join).is_pending());
    open[1].complete(1).unwrap();
    assert!(poll(&mut join).is_pending());
    assert!(open[2].fail("lost") && counts.count() > 0);
    assert!(matches!(poll(&mut join), Poll::Ready(Err(error)) if error.to_string() == "lost"));

    // Others go on until then; a scope whose deadline passes says so, and a join that is dropped ends its scope.
    let scope = request.scope().deadline(SECOND);
    let open = scope.promise::<u32>();
    let mut join = scope.join();
    assert!(poll(&mut join).is_pending());
    clock.turn(SECOND);
    assert!(is_cancelled(&open) && matches!(poll(&mut join), Poll::Ready(Err(error)) if error.is_timeout()));
    let scope = request.scope();
    let open = scope.promise::<u32>();
    let mut join = scope.join();
    assert!(poll(&mut join).is_pending() && !open.is_settled());
    drop(join);
    assert!(is_cancelled(&open));
    fits(&request);
}

// Functions that are stopped.

struct Sets(Arc<AtomicBool>);

impl Drop for Sets {
    fn drop(&mut self) {
        self.0.store(true, Ordering::SeqCst);
    }
}

#[test]
fn functions_and_futures_are_stopped() {
    assert!(!is_stopping());
    comes_back(|| {
        let request = Request::new("stops", Pool::new(2));
        let ((begins, begun), (ends, ended), is_dropped) = (channel(), channel(), Arc::new(AtomicBool::new(false)));
        let (scope, sets) = (request.scope(), Sets(Arc::clone(&is_dropped)));
        let says = begins.clone();
        drop(scope.spawn(async move {
            let _sets = sets;
            says.send(is_stopping()).unwrap();
            pending::<Result<u32, Error>>().await
        }));
        let by = request.clone();
        drop(scope.supply(move || {
            begins.send(is_stopping()).unwrap();
            while !is_stopping() {
                thread::yield_now();
            }
            // A function that this one lets run is another one.
            let inner = Request::new("inner", Inline).supply(is_stopping).wait().unwrap();
            ends.send((inner, by.supply(is_stopping).wait().unwrap(), is_stopping())).unwrap();
        }));
        assert_eq!((begun.recv(), begun.recv()), (Ok(false), Ok(false)));
        drop(scope);
        assert!(is_dropped.load(Ordering::SeqCst), "in the same call");
        assert_eq!(ended.recv(), Ok((false, false, true)));
        assert!(!request.supply(is_stopping).wait().unwrap() && !is_stopping());
    });
}

/// A value that keeps a scope, and a scope that keeps a request, are freed.
#[test]
fn scopes_are_freed() {
    let (alive, pool) = (Arc::new(()), Pool::new(2));
    for way in 0..4 {
        let (request, held) = (Request::new("freed", pool.clone()), Arc::clone(&alive));
        let scope = request.scope().deadline(LONG);
        let seven =
            scope.retry(Retry::times(3).delay(Duration::from_millis(1)), move || if Arc::strong_count(&held) > 0 { Err("away") } else { Ok(7) });
        let (_adopts, future) = (Request::new("adopts", Inline).adopt(&scope.promise::<u32>()), Arc::clone(&alive));
        drop(scope.spawn(async move {
            let _held = future;
            pending::<Result<u32, Error>>().await
        }));
        match way {
            0 => drop(scope),
            1 => assert!(seven.wait().is_err()),
            2 => assert!(scope.join().wait().is_err()),
            _ => scope.end(),
        }
        request.cancel_all();
    }
    drop(pool);
    let begun = Instant::now();
    while Arc::strong_count(&alive) > 1 {
        assert!(begun.elapsed() < LONG, "the clock's thread lets go, too");
        thread::yield_now();
    }
}

// By chance.

struct Chance(u64);

impl Chance {
    fn next(&mut self, below: usize) -> usize {
        self.0 ^= self.0 << 13;
        self.0 ^= self.0 >> 7;
        self.0 ^= self.0 << 17;
        (self.0 % below as u64) as usize
    }
}

/// The kinds of words: docs/FORMATS.md, "Words of events".
const CANCEL: u64 = 3;
const CLAIM: u64 = 4;
const FAIL_AS: u64 = 8;

/// A scope, its name, and the one around it.
type Opened = (Arc<Scope>, String, Option<usize>);

/// Eight threads attach, settle, cancel and end scopes by chance. Then nothing of an ended scope is open, and no function of it began behind its end.
#[test]
fn threads_end_scopes_by_chance() {
    let pool = Pool::new(3);
    for seed in 1..=60_u64 {
        let opened = AtomicUsize::new(0);
        let request = Request::new("chance", pool.clone());
        // The scopes, with their names and their outer one, and the stages, with their scope.
        let opens = |by: &Request, outer| {
            let name = format!("scope {}", opened.fetch_add(1, Ordering::SeqCst));
            (Arc::new(by.scope().named(name.clone())), name, outer)
        };
        let scopes: Mutex<Vec<Opened>> = Mutex::new(vec![opens(&request, None)]);
        let stages: Mutex<Vec<(Stage<u32>, usize)>> = Mutex::default();
        thread::scope(|threads| {
            for k in 0..8 {
                let (scopes, stages, opens) = (&scopes, &stages, &opens);
                threads.spawn(move || {
                    let mut chance = Chance(seed * 1_000 + k + 1);
                    for _ in 0..40 {
                        let at = chance.next(scopes.lock().unwrap().len());
                        let scope = Arc::clone(&scopes.lock().unwrap()[at].0);
                        let known = stages.lock().unwrap().clone();
                        let some = if known.is_empty() { None } else { Some(known[chance.next(known.len())].clone()) };
                        let attached = match (chance.next(12), some) {
                            (0, _) if chance.next(3) == 0 => {
                                let inner = opens(&scope, Some(at));
                                scopes.lock().unwrap().push(inner);
                                continue;
                            }
                            (1, _) if chance.next(4) == 0 => {
                                scope.end();
                                continue;
                            }
                            (2, Some((stage, _))) => {
                                let _ = stage.complete(1);
                                continue;
                            }
                            (3, Some((stage, _))) => {
                                let _ = stage.cancel();
                                continue;
                            }
                            (4, Some((stage, within))) => (stage.then(|value| value + 1), within),
                            (5, Some((stage, within))) => {
                                let by = scope.clone();
                                (stage.compose(move |_| by.supply(|| 2)), within)
                            }
                            (6, Some((stage, _))) if chance.next(8) == 0 => (scope.ends_with(scope.first([&stage])), at),
                            (7, Some((stage, _))) => (scope.all([&stage, &stage]).then(|row| row.len() as u32), at),
                            (8, _) => (scope.retry(Retry::times(2).delay(Duration::from_millis(1)), || Err::<u32, _>("away")), at),
                            (9, _) => (scope.spawn(pending::<Result<u32, Error>>()), at),
                            (10, _) => (scope.promise(), at),
                            _ => (scope.supply(|| 3), at),
                        };
                        stages.lock().unwrap().push(attached);
                    }
                });
            }
        });
        let (scopes, stages) = (scopes.into_inner().unwrap(), stages.into_inner().unwrap());
        // The ends are read first: what ends meanwhile, by a function, isn't asked for.
        let ended: Vec<bool> = scopes.iter().map(|(scope, ..)| scope.ended().is_some()).collect();
        for (stage, within) in &stages {
            assert!(stage.is_settled() || !ended[*within], "seed {seed}: {stage:?}\n{}", request.history());
        }
        scopes[0].0.end();
        assert!(stages.iter().all(|(stage, _)| stage.is_settled()), "seed {seed}");
        // Functions that run on finish too late.
        let history = request.history();
        assert!(history.is_reproducible(), "seed {seed}");
        let words: Vec<(u64, u64)> = history.words().iter().map(|word| (word >> 56, word >> 36 & 4095)).collect();
        let ends = |stage: u64| words.iter().position(|word| *word == (CANCEL, stage) || *word == (FAIL_AS, stage));
        for (stage, within) in &stages {
            let around = successors(Some(*within), |at| scopes[*at].2);
            let numbers = around.filter_map(|at| history.names().iter().position(|name| *name == scopes[at].1));
            let end = numbers.filter_map(|number| ends(number as u64)).min().unwrap_or(usize::MAX);
            let begun = stage.number().and_then(|stage| words.iter().rposition(|word| *word == (CLAIM, u64::from(stage))));
            assert!(begun.map_or(true, |begun| begun < end), "seed {seed}: {stage:?}\n{history}");
        }
    }
}
