//! What panics: wakers, executors, clocks, values and futures as they are dropped, payloads. All else is told, and goes on.
mod common;

use cf::{Alarm, Clock, Error, Inline, Job, Pool, Request, Scope, Spawn, Stage};
use common::{comes_back, poll, Counts, Drops, Keeps, Panics, Throws, LONG};
use std::any::Any;
use std::panic::{catch_unwind, panic_any, AssertUnwindSafe};
use std::sync::atomic::{AtomicBool, AtomicUsize, Ordering};
use std::sync::{Arc, Mutex};
use std::task::Waker;
use std::time::Duration;

#[test]
fn a_waker_that_panics_keeps_nobody_from_being_told() {
    let panicking = Request::new("panics", Inline);
    let before_panic = panicking.promise::<i32>();
    let behind = before_panic.clone().then(|n| n + 1);
    let counts = Arc::new(Counts::default());
    let mut handles: Vec<Stage<i32>> = (0..5).map(|_| before_panic.clone()).collect();
    for (k, handle) in handles.iter_mut().enumerate() {
        let waker = if k % 2 == 0 { Waker::from(Arc::new(Panics)) } else { Waker::from(counts.clone()) };
        assert!(!poll(handle, &waker));
    }
    assert!(catch_unwind(AssertUnwindSafe(|| before_panic.complete(1))).is_err(), "the panic goes to who settled it");
    assert_eq!(counts.count(), 2);
    assert_eq!(behind.wait().unwrap(), 2);
    assert_eq!(panicking.supply(|| 3).wait().unwrap(), 3, "inline functions go on");
}

#[test]
fn a_worker_lives_on_after_a_waker_that_panics() {
    let panicking = Request::new("panics", Pool::new(1));
    let gate = panicking.promise::<i32>();
    let mut behind = gate.clone().then(|n| n + 1);
    assert!(!poll(&mut behind, &Waker::from(Arc::new(Panics))));
    gate.complete(1).unwrap();
    assert_eq!(behind.clone().wait().unwrap(), 2);
    assert_eq!(panicking.supply(|| 3).then(|n| n + 1).wait_timeout(LONG).unwrap().unwrap(), 4);
}

#[test]
fn a_drop_that_panics_keeps_nobody_from_being_told() {
    let panicking = Request::new("panics", Inline);
    let before_panic = panicking.promise::<i32>();
    let behind = [Drops, Drops].map(|held| before_panic.clone().then(move |_| drop(held)));
    let other = before_panic.clone().handle(|told| told.is_err());
    assert!(catch_unwind(AssertUnwindSafe(|| before_panic.cancel())).is_err());
    assert!(behind.iter().all(|behind| behind.wait().unwrap_err().is_cancelled()));
    assert!(other.wait().unwrap());
}

#[test]
fn payloads_of_panics_are_kept() {
    let panicking = Request::new("panics", Pool::new(2));
    let panicking_stage = panicking.supply(|| -> i32 { std::panic::panic_any(vec![1, 2]) }).then(|n| n + 1);
    match panicking_stage.wait() {
        Err(Error::Panicked(panic)) => assert_eq!(*panic.take_payload().unwrap().downcast::<Vec<i32>>().unwrap(), [1, 2]),
        other => panic!("{other:?}"),
    }
    match panicking_stage.wait() {
        Err(Error::Panicked(panic)) => assert!(panic.take_payload().is_none(), "it is had once"),
        other => panic!("{other:?}"),
    }
}

#[test]
fn an_executor_that_panics_keeps_nobody_from_being_told() {
    struct Fails(AtomicBool);
    impl Spawn for Fails {
        fn spawn(&self, job: Job) -> Result<(), Job> {
            assert!(!self.0.swap(false, Ordering::SeqCst), "in an executor");
            job.run();
            Ok(())
        }
    }
    comes_back(|| {
        let panicking = Request::new("panics", Fails(AtomicBool::new(true)));
        let before_panic = panicking.promise::<i32>();
        let behind = before_panic.clone().then(|n| n + 1);
        let (counts, mut waits) = (Arc::new(Counts::default()), before_panic.clone());
        assert!(!counts.polls(&mut waits));
        assert!(catch_unwind(AssertUnwindSafe(|| before_panic.complete(1))).is_err());
        assert_eq!(counts.count(), 1);
        assert!(behind.wait().is_err(), "its job was dropped");
        assert_eq!(panicking.supply(|| 4).wait().unwrap(), 4);
    });
}

/// The waker of a stage behind panics in a job that is run while those of the stage itself haven't been told.
#[test]
fn a_waker_that_panics_further_down_keeps_nobody_from_being_told() {
    comes_back(|| {
        let panicking = Request::new("panics", Inline);
        let before_panic = panicking.promise::<i32>();
        let (mut behind, mut waits) = (before_panic.clone().then(|n| n + 1), before_panic.clone());
        let counts = Arc::new(Counts::default());
        assert!(!poll(&mut behind, &Waker::from(Arc::new(Panics))) && !counts.polls(&mut waits));
        assert!(catch_unwind(AssertUnwindSafe(|| before_panic.complete(1))).is_err());
        assert_eq!(counts.count(), 1);
    });
}

/// The waker of a stage whose future ends when it is polled first panics in the midst of its worker's job.
#[test]
fn a_waker_that_panics_as_a_future_begins_ends_no_job() {
    comes_back(|| {
        let panicking = Request::new("panics", Inline);
        let before_panic = panicking.promise::<i32>();
        let mut behind = before_panic.clone().then_async(|n| std::future::ready(Ok::<_, Error>(*n + 1)));
        assert!(!poll(&mut behind, &Waker::from(Arc::new(Panics))));
        assert!(catch_unwind(AssertUnwindSafe(|| before_panic.complete(1))).is_err());
        assert_eq!(behind.wait().unwrap(), 2);
        assert_eq!(panicking.supply(|| 3).wait().unwrap(), 3);
    });
}

/// A job that is dropped leaves several stages ready, and the waker of the first panics.
#[test]
fn a_waker_that_panics_keeps_no_refused_stage_pending() {
    comes_back(|| {
        let keeps = Keeps::default();
        let before_panic = Request::new("dropped", keeps.clone()).promise::<i32>();
        let (mut first, second) = (before_panic.clone().then(|n| n + 1), before_panic.clone().then(|n| n + 2));
        assert!(!poll(&mut first, &Waker::from(Arc::new(Panics))));
        before_panic.complete(1).unwrap();
        let jobs = std::mem::take(&mut *keeps.0.lock().unwrap());
        assert!(catch_unwind(AssertUnwindSafe(|| drop(jobs))).is_err());
        assert!(second.wait().is_err());
    });
}

#[test]
fn a_clock_that_panics_leaves_no_stage_pending() {
    struct Breaks(AtomicUsize);
    impl Clock for Breaks {
        fn now(&self) -> Duration {
            assert!(self.0.fetch_add(1, Ordering::SeqCst) % 3 != 2, "in a clock");
            Duration::MAX
        }
        fn ring_after(&self, _wait: Duration, alarm: Alarm) {
            drop(alarm);
        }
    }
    comes_back(|| {
        let panicking = Request::with_clock("breaks", Arc::new(Pool::new(2)), Arc::new(Breaks(AtomicUsize::new(0))));
        for k in 0..20 {
            assert_eq!(panicking.supply(move || k).then(|k| k + 1).wait().unwrap(), k + 1);
        }
        assert!(panicking.history().is_reproducible());
    });
}

#[test]
fn a_future_whose_drop_panics_gives_its_claim_back() {
    comes_back(|| {
        let panicking = Request::new("drops", Inline);
        let held = Drops;
        let panicking_stage = panicking.spawn(async move {
            let _held = held;
            std::future::pending::<Result<i32, Error>>().await
        });
        assert!(catch_unwind(AssertUnwindSafe(|| panicking_stage.cancel())).is_err());
        let history = panicking.history().to_string();
        assert_eq!(history.matches("claims").count(), history.matches("finishes").count(), "{history}");
    });
}

/// Several things panic with what panics as it is dropped. All else is told, and the first is passed on.
#[test]
fn payloads_that_panic_keep_nobody_from_being_told() {
    comes_back(|| {
        let panicking = Request::new("payloads", Inline);
        let (before_panic, counts) = (panicking.promise::<i32>(), Arc::new(Counts::default()));
        let mut handles = [(); 5].map(|()| before_panic.clone());
        for (k, handle) in handles.iter_mut().enumerate() {
            let waker = if k == 2 { Waker::from(Arc::clone(&counts)) } else { Waker::from(Arc::new(Throws)) };
            assert!(!poll(handle, &waker));
        }
        let behind = before_panic.clone().then(|n| n + 1);
        let payload = catch_unwind(AssertUnwindSafe(|| before_panic.complete(1))).unwrap_err();
        assert!(payload.is::<Drops>());
        std::mem::forget(payload);
        assert_eq!((counts.count(), behind.wait().unwrap()), (1, 2));
        // Who was called in the midst of this is a caller again.
        assert!(panicking.promise::<i32>().cancel());
        let history = panicking.history().to_string();
        assert!(history.trim_end().lines().rev().any(|line| line.contains("caller") && line.contains("cancels")), "{history}");
    });
}

/// Drops that tell others are left by a thread that unwinds, and the first who is told panics: once more, which would end the process.
#[test]
fn a_thread_that_unwinds_tells_all() {
    /// Keeps an alarm until it is dropped.
    struct Holds(Arc<Mutex<Vec<Alarm>>>);
    impl Clock for Holds {
        fn now(&self) -> Duration {
            Duration::ZERO
        }
        fn ring_after(&self, _wait: Duration, alarm: Alarm) {
            self.0.lock().unwrap().push(alarm);
        }
    }
    type Way = fn(&Stage<i32>, &mut Option<Scope>, &Keeps, &Mutex<Vec<Alarm>>) -> Box<dyn Any>;
    let ways: [Way; 5] = [
        |_, scope, _, _| Box::new(scope.take()),
        |stage, _, _, _| Box::new(stage.clone().cancel_on_drop()),
        |_, _, jobs, _| Box::new(std::mem::take(&mut *jobs.0.lock().unwrap())),
        |_, _, _, alarms| Box::new(std::mem::take(&mut *alarms.lock().unwrap())),
        |_, _, _, _| {
            let last = Request::new("last", Inline);
            assert!(last.supply(|| Drops).is_settled());
            Box::new(last)
        },
    ];
    comes_back(move || {
        for (at, way) in ways.into_iter().enumerate() {
            let (jobs, alarms, counts) = (Keeps::default(), Arc::default(), Arc::new(Counts::default()));
            let panicking = Request::with_clock("unwinds", Arc::new(jobs.clone()), Arc::new(Holds(Arc::clone(&alarms))));
            let mut scope = Some(panicking.scope());
            let panicking_stage = scope.as_ref().map(|scope| scope.supply(|| 1).or_timeout(LONG)).expect("it is open");
            let [mut waits, mut other] = [(); 2].map(|()| panicking_stage.clone());
            assert!(!counts.polls(&mut waits) && !poll(&mut other, &Waker::from(Arc::new(Panics))));
            let payload = catch_unwind(AssertUnwindSafe(|| {
                let _left = way(&panicking_stage, &mut scope, &jobs, &alarms);
                panic_any("the first");
            }));
            assert_eq!(payload.unwrap_err().downcast_ref(), Some(&"the first"));
            assert_eq!((counts.count(), panicking_stage.is_settled()), (usize::from(at < 4), at < 4), "way {at}");
            drop(catch_unwind(AssertUnwindSafe(|| panicking.cancel_all())));
        }
    });
}
