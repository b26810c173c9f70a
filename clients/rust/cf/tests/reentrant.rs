//! What calls a request again in the midst of a call: futures that wake themselves, wakers under a lock, values and wakers that look at the
//! request as they are dropped, functions that settle their own stage.
mod common;

use cf::{Error, Inline, Pool, Refusal, Request, Stage};
use common::{comes_back, poll, Directly, Looks, Yields};
use std::cell::RefCell;
use std::future::Future;
use std::pin::Pin;
use std::sync::atomic::{AtomicBool, AtomicUsize, Ordering};
use std::sync::{Arc, Mutex};
use std::task::{Context, Poll, Wake, Waker};
use std::thread;
use std::time::Duration;

#[test]
fn a_future_wakes_itself_while_it_is_polled() {
    comes_back(|| {
        assert_eq!(Request::new("yields", Directly).spawn(Yields(20)).wait().unwrap(), 5);
        assert_eq!(Request::new("yields", Inline).spawn(Yields(2000)).wait().unwrap(), 5);
        assert_eq!(Request::new("yields", Pool::new(2)).spawn(Yields(2000)).wait().unwrap(), 5);
    });
}

/// Another thread wakes a future whose poll holds a lock that the thread has.
#[test]
fn a_waker_is_called_under_a_lock_that_the_poll_takes() {
    struct Locked(Arc<Mutex<(bool, Option<Waker>)>>, Arc<AtomicBool>);
    impl Future for Locked {
        type Output = Result<i32, Error>;
        fn poll(self: Pin<&mut Locked>, cx: &mut Context<'_>) -> Poll<Result<i32, Error>> {
            let mut held = self.0.lock().unwrap();
            if held.0 {
                return Poll::Ready(Ok(5));
            }
            held.1 = Some(cx.waker().clone());
            self.1.store(true, Ordering::SeqCst);
            Poll::Pending
        }
    }
    comes_back(|| {
        let (shared, polled) = (Arc::new(Mutex::new((false, None::<Waker>))), Arc::new(AtomicBool::new(false)));
        let reentered_stage = Request::new("locked", Pool::new(2)).spawn(Locked(Arc::clone(&shared), Arc::clone(&polled)));
        while !polled.load(Ordering::SeqCst) {
            thread::yield_now();
        }
        let mut held = shared.lock().unwrap();
        held.0 = true;
        held.1.take().unwrap().wake();
        thread::sleep(Duration::from_millis(20));
        drop(held);
        assert_eq!(reentered_stage.wait().unwrap(), 5);
    });
}

/// The last handle of another request goes with an answer that comes too late, and what that request holds looks at this one.
#[test]
fn a_late_answer_is_dropped_without_the_lock() {
    comes_back(|| {
        let reentered = Request::new("looks", Inline);
        let reentered_gate = reentered.promise::<i32>();
        let (by, source) = (reentered_gate.clone(), reentered.promise::<i32>());
        let late: Arc<Mutex<Option<Stage<i32>>>> = Arc::default();
        let cancels = Arc::clone(&late);
        let composed = source.clone().compose(move |_| {
            assert!(cancels.lock().unwrap().take().unwrap().cancel());
            let other = Request::new("other", Directly);
            drop(other.supply(move || Looks(by)));
            other.promise()
        });
        *late.lock().unwrap() = Some(composed.clone());
        reentered_gate.complete(1).unwrap();
        source.complete(2).unwrap();
        assert!(composed.wait().unwrap_err().is_cancelled());
        assert!(reentered.history().is_reproducible());
    });
}

/// A waker that looks at the request as it is dropped: one that is replaced, one whose handle goes, and one that is woken.
#[test]
fn a_waker_is_dropped_without_the_lock() {
    struct Looks(Stage<i32>, Arc<AtomicUsize>);
    impl Wake for Looks {
        fn wake(self: Arc<Self>) {}
    }
    impl Drop for Looks {
        fn drop(&mut self) {
            let _ = self.0.peek();
            self.1.fetch_add(1, Ordering::SeqCst);
        }
    }
    comes_back(|| {
        let reentered = Request::new("looks", Inline);
        let (reentered_stage, gone) = (reentered.promise::<i32>(), Arc::new(AtomicUsize::new(0)));
        let waker = || Waker::from(Arc::new(Looks(reentered.promise(), Arc::clone(&gone))));
        let (mut handle, mut other) = (reentered_stage.clone(), reentered_stage.clone());
        assert!(!poll(&mut handle, &waker()) && !poll(&mut handle, &waker()));
        assert_eq!(gone.load(Ordering::SeqCst), 1);
        assert!(!poll(&mut other, &waker()));
        drop(handle);
        assert_eq!(gone.load(Ordering::SeqCst), 2);
        reentered_stage.complete(1).unwrap();
        assert_eq!(gone.load(Ordering::SeqCst), 3);
        assert!(poll(&mut other, &waker()));
    });
}

thread_local! {
    static LAST: RefCell<Option<Completes>> = const { RefCell::new(None) };
}

struct Completes(Stage<i32>);

impl Drop for Completes {
    fn drop(&mut self) {
        self.0.complete(1).unwrap();
    }
}

/// A thread completes a stage while it ends, when some of what this crate keeps for a thread is gone.
#[test]
fn a_thread_that_ends_runs_functions() {
    for first in [false, true] {
        comes_back(move || {
            let reentered = Request::new("ends", Inline);
            let reentered_gate = reentered.promise::<i32>();
            let behind = reentered_gate.clone().then(|n| n + 1).then_async(|n| async move { Ok::<_, Error>(*n + 1) });
            let ended = thread::spawn(move || {
                if first {
                    assert_eq!(Request::new("before", Inline).supply(|| 1).wait().unwrap(), 1);
                }
                LAST.with(|last| *last.borrow_mut() = Some(Completes(reentered_gate)));
                assert_eq!(Request::new("behind", Inline).supply(|| 1).wait().unwrap(), 1);
            });
            ended.join().unwrap();
            assert_eq!(behind.wait().unwrap(), 3);
        });
    }
}

#[test]
fn a_function_settles_its_own_stage() {
    for k in 0..3 {
        comes_back(move || {
            let reentered = Request::new("own", Pool::new(2));
            let own: Arc<Mutex<Option<Stage<i32>>>> = Arc::default();
            let (reentered_gate, of) = (reentered.promise::<i32>(), Arc::clone(&own));
            let reentered_stage = reentered_gate.clone().then(move |_| {
                let own = of.lock().unwrap().take().unwrap();
                match k {
                    0 => assert_eq!(own.complete(7), Ok(())),
                    1 => assert!(own.cancel()),
                    _ => assert!(own.fail("no stock")),
                }
                8
            });
            *own.lock().unwrap() = Some(reentered_stage.clone());
            reentered_gate.complete(1).unwrap();
            match (k, reentered_stage.wait()) {
                (0, Ok(7)) | (1, Err(Error::Cancelled)) | (2, Err(Error::Failed(_))) => {}
                (_, other) => panic!("{other:?}"),
            }
            assert!(reentered.history().is_reproducible());
        });
    }
}

/// A waker completes a stage. That is the caller's word, though the caller's thread has run a function of the stage behind before.
#[test]
fn a_waker_calls_in_the_name_of_who_settled_its_stage() {
    struct Completes(Stage<i32>);
    impl Wake for Completes {
        fn wake(self: Arc<Completes>) {
            self.0.complete(5).unwrap();
        }
    }
    let (completed, mut awaited) = (Request::new("completed", Inline).promise(), Request::new("awaited", Inline).promise::<i32>());
    assert!(!poll(&mut awaited, &Waker::from(Arc::new(Completes(completed.clone())))));
    let ran = awaited.clone().then(|n| n + 1);
    awaited.complete(3).unwrap();
    assert_eq!((ran.wait().unwrap(), completed.wait().unwrap()), (4, 5));
    let history = completed.request().history().to_string();
    assert!(history.contains("caller completes") && !history.contains("worker"), "{history}");
}

/// A function attaches one in another request, which `Inline` calls behind it, so that a row of them takes no stack.
#[test]
fn a_function_that_another_attaches_is_called_behind_it() {
    let (called, other) = (Arc::new(Mutex::new(Vec::new())), Request::new("other", Inline));
    let (calls, by) = (Arc::clone(&called), other.clone());
    let attached = Request::new("one", Inline).supply(move || {
        let behind = Arc::clone(&calls);
        let attached = by.supply(move || behind.lock().unwrap().push("attached"));
        calls.lock().unwrap().push("ends");
        attached
    });
    assert!(attached.wait_arc().unwrap().is_settled());
    assert_eq!(*called.lock().unwrap(), ["ends", "attached"]);
}

/// There is no room for what it composes.
#[test]
fn a_refused_function_is_dropped_without_the_lock() {
    comes_back(|| {
        let reentered = Request::new("full", Inline);
        let (source, looks) = (reentered.promise::<i32>(), Looks(reentered.supply(|| 1)));
        while reentered.promise::<i32>().peek().is_none() {}
        let composed = source.compose(move |_| looks.0.clone());
        assert!(matches!(composed.wait(), Err(Error::Refused(Refusal::Full))));
    });
}
