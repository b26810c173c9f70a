//! Functions on one thread that wait for stages: what runs meanwhile, on which thread, of which executor, under which lock.
mod common;

use cf::{Error, Job, Pool, Request, Spawn, Stage};
use common::{comes_back, Yields, LONG, SHORT};
use std::future::Future;
use std::pin::Pin;
use std::sync::mpsc::{channel, Sender};
use std::sync::{mpsc, Arc, Mutex};
use std::task::{Context, Poll, Waker};
use std::thread;

/// One thread, which serves a queue, and for which nobody stands in. Clones are the same.
#[derive(Clone)]
struct One(Arc<Mutex<Sender<Job>>>);

impl One {
    fn new(name: &str) -> One {
        let (jobs, queue) = channel::<Job>();
        let serves = move || queue.into_iter().for_each(Job::run);
        thread::Builder::new().name(name.into()).spawn(serves).unwrap();
        One(Arc::new(Mutex::new(jobs)))
    }
}

impl Spawn for One {
    fn spawn(&self, job: Job) -> Result<(), Job> {
        self.0.lock().unwrap().send(job).map_err(|refused| refused.0)
    }

    fn id(&self) -> usize {
        Arc::as_ptr(&self.0) as usize
    }
}

/// Pending once. Another thread wakes it later.
struct Woken(bool);

impl Future for Woken {
    type Output = Result<i32, Error>;

    fn poll(mut self: Pin<&mut Woken>, cx: &mut Context<'_>) -> Poll<Result<i32, Error>> {
        if std::mem::replace(&mut self.0, true) {
            return Poll::Ready(Ok(6));
        }
        let waker: Waker = cx.waker().clone();
        thread::spawn(move || {
            thread::sleep(SHORT);
            waker.wake();
        });
        Poll::Pending
    }
}

type Makes<'a> = &'a dyn Fn(&str) -> Request;

/// Runs the same with a pool of one thread, and with an executor of one thread for which nobody stands in.
fn on_one_thread(act: fn(Makes<'_>)) {
    comes_back(move || {
        let pool = Pool::new(1);
        act(&|name| Request::new(name, pool.clone()));
    });
    comes_back(move || {
        let one = One::new("one");
        act(&|name| Request::new(name, one.clone()));
    });
}

#[test]
fn one_thread_waits_for_functions() {
    on_one_thread(|one_thread| {
        let waiting = one_thread("functions");
        let by = waiting.clone();
        let deep = waiting.supply(move || by.supply(|| 20).then(|n| n + 1).combine(&by.supply(|| 2), |a, b| a * b).wait().unwrap());
        assert_eq!(deep.wait().unwrap(), 42);
        let (by, other) = (waiting.clone(), one_thread("other"));
        let far = waiting.supply(move || by.adopt(&other.supply(|| 4).then(|n| n + 1)).then(|n| n + 1).wait().unwrap());
        assert_eq!(far.wait().unwrap(), 6);
        let by = waiting.clone();
        let composed = waiting.supply(move || {
            let inner = by.clone();
            by.supply(|| 3).compose(move |_| inner.supply(|| 7)).wait().unwrap()
        });
        assert_eq!(composed.wait().unwrap(), 7);
        assert!(waiting.history().is_reproducible());
    });
}

#[test]
fn one_thread_waits_for_futures() {
    on_one_thread(|one_thread| {
        let waiting = one_thread("futures");
        let by = waiting.clone();
        assert_eq!(waiting.supply(move || by.spawn(Yields(3)).wait().unwrap()).wait().unwrap(), 5);
        let by = waiting.clone();
        assert_eq!(waiting.supply(move || by.spawn(Woken(false)).wait().unwrap()).wait().unwrap(), 6);
        let (by, other) = (waiting.clone(), one_thread("other"));
        let behind = waiting.supply(move || by.adopt(&other.spawn(Yields(2)).then(|n| n + 1)).wait().unwrap());
        assert_eq!(behind.wait().unwrap(), 6);
        assert!(waiting.history().is_reproducible());
    });
}

/// What the function waits for, anybody may complete. Another function of its request does.
#[test]
fn one_thread_waits_for_a_promise() {
    on_one_thread(|one_thread| {
        let waiting = one_thread("promises");
        let by = waiting.clone();
        completed_by_another(&waiting, by);
    });
}

/// A function of another request does, which nothing tells of.
#[test]
fn a_pool_of_one_thread_waits_for_a_promise_of_another_request() {
    comes_back(|| {
        let pool = Pool::new(1);
        completed_by_another(&Request::new("promises", pool.clone()), Request::new("other", pool));
    });
}

fn completed_by_another(waiting: &Request, by: Request) {
    let waited_gate = waiting.promise::<i32>();
    let waited = waiting.supply(move || {
        let opens = waited_gate.clone();
        drop(by.supply(move || opens.complete(4).is_ok()));
        waited_gate.then(|n| n + 1).wait().unwrap()
    });
    assert_eq!(waited.wait().unwrap(), 5);
}

/// A future on the only thread awaits what another function completes, and a function waits for the future.
#[test]
fn one_thread_waits_for_a_future_that_awaits_a_promise() {
    on_one_thread(|one_thread| {
        let waiting = one_thread("awaits");
        let (waited_gate, by) = (waiting.promise::<i32>(), waiting.clone());
        let waited = waiting.supply(move || {
            let (awaits, opens) = (waited_gate.clone(), waited_gate);
            let future = by.spawn(async move { awaits.await.map(|n| n + 1) });
            drop(by.supply(move || opens.complete(1).is_ok()));
            future.wait().unwrap()
        });
        assert_eq!(waited.wait().unwrap(), 2);
    });
}

/// The other executor's only thread is busy, while a function that waits for it could run what is ready there.
#[test]
fn a_function_runs_on_a_thread_of_its_own_executor() {
    let pools: [fn() -> Arc<dyn Spawn>; 2] = [|| Arc::new(Pool::new(1)), || Arc::new(One::new("waits"))];
    for outer in pools {
        comes_back(move || {
            let outer = Request::new("outer", outer());
            let inner = Request::new("inner", One::new("inner"));
            let (begun, begins) = channel();
            let (ends, end) = channel::<()>();
            let end = Mutex::new(end);
            let busy = inner.supply(move || end.lock().unwrap().recv().unwrap());
            let named = || thread::current().name().unwrap_or("").to_owned();
            let (function, future) = (inner.supply(named), inner.spawn(async move { Ok::<_, Error>(named()) }));
            let relayed = outer.adopt(&function);
            let waited = outer.supply(move || {
                begun.send(()).unwrap();
                [relayed.wait().unwrap(), function.wait().unwrap(), future.wait().unwrap()]
            });
            begins.recv().unwrap();
            thread::sleep(SHORT);
            ends.send(()).unwrap();
            assert_eq!(waited.wait().unwrap(), ["inner", "inner", "inner"]);
            busy.wait().unwrap();
        });
    }
}

/// What the stage needs is ready on another executor, which is busy, and on the own one, whose only thread waits.
#[test]
fn a_function_is_run_beside_one_of_another_executor() {
    comes_back(|| {
        let (own, other) = (Request::new("own", One::new("own")), Request::new("other", One::new("other")));
        let (ends, end) = channel::<()>();
        let end = Mutex::new(end);
        let busy = other.supply(move || end.lock().unwrap().recv().unwrap());
        let ready = other.supply(|| 1);
        let by = own.clone();
        let waited = own.supply(move || {
            let needed = by.supply(move || {
                ends.send(()).unwrap();
                2
            });
            ready.combine(&needed, |a, b| a + b).wait().unwrap()
        });
        assert_eq!(waited.wait().unwrap(), 3);
        busy.wait().unwrap();
    });
}

/// A function waits under a lock for one that runs already, and another one, which is ready, takes the lock.
#[test]
fn a_function_that_waits_under_a_lock_runs_nobody_who_takes_it() {
    for is_before in [false, true] {
        comes_back(move || {
            let waiting = Request::new("locked", Pool::new(2));
            let by = waiting.clone();
            let (waited_gate, lock) = (waiting.promise::<i32>(), Arc::new(Mutex::new(0)));
            let (own, others) = (Arc::clone(&lock), Arc::clone(&lock));
            let takes = waited_gate.clone().then(move |_| *others.lock().unwrap() += 1);
            let (ends, end) = channel::<()>();
            let end = Mutex::new(end);
            let waited = waiting.supply(move || {
                let held = own.lock().unwrap();
                let (begun, begins) = channel();
                let runs = by.supply(move || {
                    begun.send(()).unwrap();
                    end.lock().unwrap().recv().unwrap();
                    1
                });
                begins.recv().unwrap();
                if is_before {
                    // It is ready before the wait begins, and no other thread is free.
                    waited_gate.complete(1).unwrap();
                }
                thread::spawn(move || {
                    thread::sleep(SHORT);
                    let _ = waited_gate.complete(1);
                    thread::sleep(SHORT);
                    ends.send(()).unwrap();
                });
                *held + runs.then(|n| n + 1).wait().unwrap()
            });
            assert_eq!(waited.wait().unwrap(), 2);
            takes.wait().unwrap();
            assert_eq!(*lock.lock().unwrap(), 1);
        });
    }
}

/// The function that is ready ends once the wait has, so who waits can't be the one that runs it.
#[test]
fn a_wait_for_a_while_begins_no_function() {
    on_one_thread(|one_thread| {
        let waiting = one_thread("until");
        let (by, never) = (waiting.clone(), waiting.promise::<i32>());
        let waited = waiting.supply(move || {
            let (ends, end) = channel::<()>();
            let end = Mutex::new(end);
            let slow = by.supply(move || end.lock().unwrap().recv().is_ok());
            assert!(never.wait_timeout(SHORT).is_none());
            assert!(slow.wait_timeout(SHORT).is_none());
            ends.send(()).unwrap();
            slow.wait().unwrap()
        });
        assert!(waited.wait().unwrap());
    });
}

#[test]
fn a_worker_that_waits_runs_others() {
    let waiting = Request::new("one thread", Pool::new(1));
    let by = waiting.clone();
    let deep = waiting.supply(move || by.supply(|| 20).then(|n| n + 1).wait().unwrap() * 2);
    assert_eq!(deep.wait_timeout(LONG).unwrap().unwrap(), 42);
    let (by, waited_gate) = (waiting.clone(), waiting.promise::<i32>());
    let (told, tells) = mpsc::channel();
    let open = waited_gate.clone();
    let outer = waiting.supply(move || {
        let inner = by.promise_then(open);
        told.send(()).unwrap();
        inner.wait().unwrap()
    });
    tells.recv().unwrap();
    thread::sleep(SHORT);
    waited_gate.complete(4).unwrap();
    assert_eq!(outer.wait_timeout(LONG).unwrap().unwrap(), 5);
}

trait More {
    fn promise_then(&self, waited_gate: Stage<i32>) -> Stage<i32>;
}

impl More for Request {
    fn promise_then(&self, waited_gate: Stage<i32>) -> Stage<i32> {
        waited_gate.then(|n| n + 1)
    }
}
