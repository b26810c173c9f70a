//! Pools whose functions wait: as many run as there are threads, in a row, for stages of other requests, for a while.
mod common;

use cf::{Alarm, Clock, Job, Pool, Request, Spawn, Stage};
use common::{comes_back, Yields, LONG, SHORT};
use std::cell::RefCell;
use std::panic::{set_hook, take_hook};
use std::sync::atomic::{AtomicBool, AtomicUsize, Ordering};
use std::sync::mpsc::{channel, Sender};
use std::sync::{Arc, Barrier, Mutex};
use std::thread::{self, ThreadId};
use std::time::Duration;

#[test]
fn all_threads_of_a_pool_wait_for_futures() {
    comes_back(|| {
        let (pool, all) = (Pool::new(4), Arc::new(Barrier::new(4)));
        let waits = |_| {
            let (pooled, all) = (Request::new("waits", pool.clone()), Arc::clone(&all));
            let by = pooled.clone();
            pooled.supply(move || {
                all.wait();
                by.spawn(Yields(1)).wait().unwrap()
            })
        };
        let pool_stages: Vec<Stage<i32>> = (0..4).map(waits).collect();
        assert!(pool_stages.iter().all(|pool_stage| pool_stage.wait().unwrap() == 5));
    });
}

#[test]
fn a_pool_of_one_thread_goes_on_while_it_waits_for_a_while() {
    comes_back(|| {
        let pooled = Request::new("until", Pool::new(1));
        let by = pooled.clone();
        let waited =
            pooled.supply(move || by.supply(|| 4).wait_timeout(LONG).unwrap().unwrap() + by.spawn(Yields(2)).wait_timeout(LONG).unwrap().unwrap());
        assert_eq!(waited.wait().unwrap(), 9);
    });
}

/// Many functions wait for one another on a pool of one thread, each for the next one.
#[test]
fn functions_wait_in_a_row() {
    comes_back(|| {
        let pooled = Request::new("row", Pool::new(1));
        let pool_gate = pooled.promise::<i32>();
        let mut last = pool_gate.clone();
        for _ in 0..30 {
            let before = last;
            last = pooled.supply(move || before.wait().unwrap() + 1);
        }
        pool_gate.complete(0).unwrap();
        assert_eq!(last.wait().unwrap(), 30);
    });
}

/// While functions of a pool wait, others run in their places, but no more at a time than the pool has threads.
#[test]
fn as_many_functions_run_as_a_pool_has_threads() {
    comes_back(|| {
        for threads in [1, 3] {
            let pool = Pool::new(threads);
            let (waits, runs) = (Request::new("waits", pool.clone()), Request::new("runs", pool));
            let pool_gate = waits.promise::<i32>();
            let waiting: Vec<_> = (0..5)
                .map(|_| {
                    let pool_gate = pool_gate.clone();
                    waits.supply(move || pool_gate.wait().unwrap())
                })
                .collect();
            let (now, most) = (Arc::new(AtomicUsize::new(0)), Arc::new(AtomicUsize::new(0)));
            let all = Arc::new(Barrier::new(threads));
            let counted = |k: usize| {
                let (now, most, all) = (Arc::clone(&now), Arc::clone(&most), Arc::clone(&all));
                runs.supply(move || {
                    most.fetch_max(1 + now.fetch_add(1, Ordering::SeqCst), Ordering::SeqCst);
                    // As many as there are threads have to meet.
                    if k < threads {
                        all.wait();
                    }
                    thread::sleep(Duration::from_millis(1));
                    now.fetch_sub(1, Ordering::SeqCst);
                })
            };
            let running: Vec<_> = (0..12).map(counted).collect();
            running.iter().for_each(|pool_stage| pool_stage.wait().unwrap());
            assert_eq!(most.load(Ordering::SeqCst), threads);
            pool_gate.complete(1).unwrap();
            assert!(waiting.iter().all(|pool_stage| pool_stage.wait().unwrap() == 1));
        }
    });
}

/// A thread for each job, one at a time.
struct Threads;

impl Spawn for Threads {
    fn spawn(&self, job: Job) -> Result<(), Job> {
        thread::spawn(move || job.run());
        Ok(())
    }
}

/// Once it goes on, one at a time is all that the executor gets again.
#[test]
fn a_function_that_has_waited_is_counted() {
    comes_back(|| {
        let pooled = Request::new("threads", Threads);
        let (pool_gate, (begins, begun)) = (pooled.promise::<i32>(), channel());
        let waits = pool_gate.clone();
        let waited = pooled.supply(move || {
            begins.send(()).unwrap();
            waits.wait().unwrap()
        });
        begun.recv().unwrap();
        thread::sleep(SHORT);
        pool_gate.complete(3).unwrap();
        assert_eq!(waited.wait().unwrap(), 3);
        let (now, most) = (Arc::new(AtomicUsize::new(0)), Arc::new(AtomicUsize::new(0)));
        let counted = |_| {
            let (now, most) = (Arc::clone(&now), Arc::clone(&most));
            pooled.supply(move || {
                most.fetch_max(1 + now.fetch_add(1, Ordering::SeqCst), Ordering::SeqCst);
                thread::sleep(Duration::from_millis(5));
                now.fetch_sub(1, Ordering::SeqCst);
            })
        };
        let running: Vec<_> = (0..8).map(counted).collect();
        running.iter().for_each(|pool_stage| pool_stage.wait().unwrap());
        assert_eq!(most.load(Ordering::SeqCst), 1);
    });
}

/// A function that waits on a thread which an executor has for it alone: another is asked for while it waits, though one at a time is all that
/// the executor takes.
#[test]
fn a_function_that_waits_is_not_counted() {
    comes_back(|| {
        let pooled = Request::new("threads", Threads);
        let (pool_gate, ran) = (pooled.promise::<i32>(), Arc::new(AtomicBool::new(false)));
        let (waits, opens) = (pool_gate.clone(), ran.clone());
        let other = pooled.promise::<i32>();
        let waited = pooled.supply({
            let other = other.clone();
            move || other.wait_timeout(LONG).unwrap().unwrap()
        });
        drop(waits.then(move |_| {
            opens.store(true, Ordering::SeqCst);
            other.complete(3).unwrap();
        }));
        pool_gate.complete(1).unwrap();
        assert_eq!(waited.wait().unwrap(), 3);
        assert!(ran.load(Ordering::SeqCst));
    });
}

/// All functions of a pool's threads meet, so each thread has to have one, whether they become ready one by one or at once.
#[test]
fn each_thread_of_a_pool_runs_a_function() {
    fn meet(attach: impl Fn(Arc<Barrier>) -> Stage<bool>) -> Vec<Stage<bool>> {
        let all = Arc::new(Barrier::new(4));
        (0..4).map(|_| attach(Arc::clone(&all))).collect()
    }
    comes_back(|| {
        let pooled = Request::new("meet", Pool::new(4));
        for _ in 0..3 {
            let pool_gate = pooled.promise::<i32>();
            let at_once = meet(|all| pool_gate.clone().then(move |_| all.wait().is_leader()));
            pool_gate.complete(1).unwrap();
            let one_by_one = || meet(|all| pooled.supply(move || all.wait().is_leader()));
            for pool_stages in [at_once, one_by_one(), one_by_one()] {
                assert_eq!(pool_stages.iter().filter(|pool_stage| pool_stage.wait().unwrap()).count(), 1);
            }
        }
    });
}

/// The one thread waits in a function of the second request, which it runs as it waits in one of the first, whose other function it needs.
#[test]
fn a_worker_that_waits_runs_functions_of_all_that_it_is_in() {
    comes_back(|| {
        let pool = Pool::new(1);
        let [one, two, three] = ["one", "two", "three"].map(|name| Request::new(name, pool.clone()));
        let (pool_gate, start) = (three.promise::<i32>(), two.promise::<i32>());
        let behind = pool_gate.clone().then(|n| n + 1);
        let middle = start.clone().then(move |n| n + behind.wait().unwrap());
        let by = one.clone();
        let waited = one.supply(move || {
            drop(by.supply(move || pool_gate.complete(4)));
            start.complete(1).unwrap();
            middle.wait().unwrap()
        });
        assert_eq!(waited.wait().unwrap(), 6);
    });
}

/// What the one thread waits for stands for a stage of another request, and that for one of a third.
#[test]
fn a_worker_that_waits_runs_functions_of_requests_that_are_followed() {
    comes_back(|| {
        let pool = Pool::new(1);
        let [one, two, three] = ["one", "two", "three"].map(|name| Request::new(name, pool.clone()));
        let by = one.clone();
        let waited = one.supply(move || {
            let (far, near) = (three.supply(|| 4), by.supply(|| 1));
            near.combine(&two.adopt(&far).then(|n| n + 1), |a, b| a + b).wait().unwrap()
        });
        assert_eq!(waited.wait().unwrap(), 6);
    });
}

/// A wait ends at its moment, also where there is something else to run for longer.
#[test]
fn a_worker_that_waits_until_a_moment_keeps_to_it() {
    comes_back(|| {
        let pooled = Request::new("until", Pool::new(1));
        let (pool_gate, by) = (pooled.promise::<i32>(), pooled.clone());
        let (never, ran) = (pool_gate.clone(), Arc::new(AtomicUsize::new(0)));
        let meanwhile = pooled.supply(move || {
            for _ in 0..200 {
                let ran = Arc::clone(&ran);
                drop(by.supply(move || {
                    thread::sleep(Duration::from_millis(10));
                    ran.fetch_add(1, Ordering::SeqCst);
                }));
            }
            assert!(never.wait_timeout(Duration::from_millis(30)).is_none());
            ran.load(Ordering::SeqCst)
        });
        assert!(meanwhile.wait().unwrap() < 150); // (each takes a third of the wait: far from all are run)
        pool_gate.cancel();
    });
}

#[test]
fn two_requests_wait_for_each_other_on_one_thread() {
    let pool = Pool::new(1);
    let (one, two) = (Request::new("one", pool.clone()), Request::new("two", pool));
    let pool_gate = two.promise::<i32>();
    let behind = pool_gate.clone().then(|n| n + 1);
    let opens = one.clone();
    // The only thread waits for a stage of the other request, whose own function it has to run, and which a function of its own opens.
    let waited = one.supply(move || {
        let open = pool_gate.clone();
        drop(opens.supply(move || open.complete(4)));
        behind.wait().unwrap()
    });
    assert_eq!(waited.wait_timeout(LONG).expect("no thread waits for itself").unwrap(), 5);
}

/// A clock that tells who drops it. A request drops it behind its executor.
struct Tells(Sender<ThreadId>);

impl Clock for Tells {
    fn now(&self) -> Duration {
        Duration::ZERO
    }

    fn ring_after(&self, _wait: Duration, _alarm: Alarm) {}
}

impl Drop for Tells {
    fn drop(&mut self) {
        self.0.send(thread::current().id()).unwrap();
    }
}

/// The last clone goes on a thread of the pool, which waits for the others and not for itself. That would be a panic, which only a hook sees.
#[test]
fn a_pool_goes_on_one_of_its_own_threads() {
    let panicked = Arc::new(Mutex::new(Vec::new()));
    let (seen, hook) = (Arc::clone(&panicked), take_hook());
    set_hook(Box::new(move |info| {
        seen.lock().unwrap().push(thread::current().id());
        hook(info);
    }));
    let ((tells, told), (goes_on, rests)) = (channel(), channel());
    let pooled = Request::with_clock("goes", Arc::new(Pool::new(2)), Arc::new(Tells(tells)));
    drop(pooled.supply(move || rests.recv().unwrap()));
    drop(pooled);
    goes_on.send(()).unwrap();
    let by = told.recv_timeout(LONG).unwrap();
    assert!(by != thread::current().id() && !panicked.lock().unwrap().contains(&by));
}

/// Tells that its thread ends.
struct Thread(Sender<()>);

impl Drop for Thread {
    fn drop(&mut self) {
        let _nobody_waits = self.0.send(());
    }
}

thread_local! {
    static ENDS: RefCell<Option<Thread>> = const { RefCell::new(None) };
}

/// While the one function waits, another runs on a thread more. Once both are done, one of the two threads goes.
#[test]
fn a_spare_thread_goes() {
    let ((ends, end), pooled) = (channel(), Request::new("spare", Pool::new(1)));
    let is_told = move || ENDS.with(|told| *told.borrow_mut() = Some(Thread(ends.clone())));
    let (gate, tells) = (pooled.promise::<i32>(), is_told.clone());
    let waits = gate.clone();
    let waited = pooled.supply(move || {
        tells();
        waits.wait().unwrap()
    });
    pooled.supply(is_told).wait().unwrap();
    gate.complete(1).unwrap();
    assert_eq!(waited.wait().unwrap(), 1);
    end.recv_timeout(LONG).expect("both are kept");
}

/// One thread, for which nobody stands in.
struct One(Mutex<Sender<Job>>);

impl Spawn for One {
    fn spawn(&self, job: Job) -> Result<(), Job> {
        self.0.lock().unwrap().send(job).map_err(|refused| refused.0)
    }
}

/// It runs a function that it waits for, in which it waits for one of that function's own request.
#[test]
fn a_worker_that_waits_runs_functions_of_what_it_runs_meanwhile() {
    let (sends, jobs) = channel::<Job>();
    thread::spawn(move || jobs.into_iter().for_each(Job::run));
    let executor = Arc::new(One(Mutex::new(sends)));
    let [one, two] = ["one", "two"].map(|name| Request::new(name, Arc::clone(&executor)));
    let waited = one.supply(move || {
        let (gate, by) = (Request::new("three", Arc::clone(&executor)).promise::<i32>(), two.clone());
        let needs = two.supply(move || {
            let opens = gate.clone();
            drop(by.supply(move || opens.complete(4)));
            gate.wait().unwrap()
        });
        needs.wait().unwrap()
    });
    assert_eq!(waited.wait_timeout(LONG).expect("it runs what opens the gate").unwrap(), 4);
}
