//! The computer's clock: one for the process, so these tests have a process of their own, and go one after another.
mod common;

use cf::{Alarm, Clock, Error, Inline, Pool, Refusal, Request, SystemClock};
use common::{poll, Throws, LONG, SHORT};
use std::sync::mpsc::channel;
use std::sync::{Arc, Mutex, MutexGuard, PoisonError};
use std::task::Waker;
use std::thread;
use std::time::{Duration, Instant};

const HOUR: Duration = Duration::from_secs(3600);

fn alone() -> MutexGuard<'static, ()> {
    static ALONE: Mutex<()> = Mutex::new(());
    ALONE.lock().unwrap_or_else(PoisonError::into_inner)
}

/// A timeout of another request has to come.
fn goes_on() {
    let late = Request::new("another", Inline).promise::<i32>().or_timeout(SHORT);
    assert!(late.wait_timeout(LONG).expect("the clock stands").unwrap_err().is_timeout());
}

#[test]
fn an_earlier_timeout_wakes_the_clock() {
    let _alone = alone();
    let clocked = Request::new("later", Inline);
    let later = clocked.promise::<i32>().or_timeout(HOUR);
    for _ in 0..5 {
        // By then the clock waits for the later one.
        thread::sleep(SHORT);
        goes_on();
    }
    assert!(!later.is_settled());
}

/// Functions behind timeouts run on the clock's thread where they are `Inline`. Each ends once another request has timed out.
#[test]
fn a_function_that_takes_long_delays_no_other_timeout() {
    let _alone = alone();
    let mut slow = Vec::new();
    for _ in 0..3 {
        let (begun, begins) = channel();
        let (ends, end) = channel::<()>();
        let end = Mutex::new(end);
        let waits = Request::new("slow", Inline).promise::<i32>().or_timeout(SHORT).recover(move |_| {
            begun.send(()).unwrap();
            end.lock().unwrap().recv().map_or(0, |()| 1)
        });
        begins.recv().unwrap();
        goes_on();
        slow.push((ends, waits));
    }
    for (ends, waits) in slow {
        ends.send(()).unwrap();
        assert_eq!(waits.wait().unwrap(), 1);
        goes_on();
    }
}

fn panics_at_its_end(clocked_stage: &mut cf::Stage<i32>) {
    assert!(!poll(clocked_stage, &Waker::from(Arc::new(Throws))));
}

#[test]
fn a_waker_that_panics_ends_neither_the_clock_nor_a_pool() {
    let _alone = alone();
    let clocked = Request::new("panics", Pool::new(1));
    let (mut first, mut second) = (clocked.promise::<i32>(), clocked.promise::<i32>());
    panics_at_its_end(&mut first);
    panics_at_its_end(&mut second);
    let _ = (first.clone().or_timeout(SHORT), second.clone().or_timeout(SHORT));
    assert!(first.wait().is_err() && second.wait().is_err());
    goes_on();
    let mut behind = clocked.supply(|| thread::sleep(SHORT)).then(|()| 1);
    panics_at_its_end(&mut behind);
    assert_eq!(behind.wait().unwrap(), 1);
    assert_eq!(clocked.supply(|| 3).wait_timeout(LONG).expect("the pool stands").unwrap(), 3);
}

/// A moment that no number of nanoseconds says, or that no clock does.
#[test]
fn a_timeout_that_never_comes_leaves_the_stage() {
    struct Beyond;
    impl Clock for Beyond {
        fn now(&self) -> Duration {
            SystemClock.now()
        }
        fn ring_after(&self, _wait: Duration, alarm: Alarm) {
            SystemClock.ring_after(Duration::MAX, alarm);
        }
    }
    let _alone = alone();
    let never = Request::new("never", Inline).promise::<i32>().or_timeout(Duration::MAX).complete_on_timeout(4, Duration::MAX);
    let beyond = Request::with_clock("beyond", Arc::new(Inline), Arc::new(Beyond)).promise::<i32>().or_timeout(SHORT);
    goes_on();
    for clocked_stage in [never, beyond] {
        assert!(!clocked_stage.is_settled());
        assert!(clocked_stage.complete(1).is_ok());
    }
}

/// A value that a stage would get later goes with the stage's end, and doesn't wait for the alarm.
#[test]
fn a_settled_stage_keeps_no_value_for_later() {
    let _alone = alone();
    let alive = Arc::new(());
    let clocked = Request::new("later", Inline);
    let [first, second, third] = [(); 3].map(|()| clocked.promise::<Arc<()>>().complete_on_timeout(Arc::clone(&alive), HOUR));
    assert_eq!(Arc::strong_count(&alive), 4);
    assert!(first.cancel());
    assert_eq!(Arc::strong_count(&alive), 3);
    let second = second.complete_on_timeout(Arc::clone(&alive), SHORT);
    assert!(second.wait().is_ok());
    // The clock's thread may be about to drop the other value, and then the request, yet.
    let sinks_to = |count: usize| {
        let since = Instant::now();
        while Arc::strong_count(&alive) > count {
            assert!(since.elapsed() < LONG, "{} are kept", Arc::strong_count(&alive));
            thread::yield_now();
        }
    };
    // The one that the stage has, and the third's; and then none.
    sinks_to(3);
    drop((clocked, first, second, third));
    sinks_to(1);
    let late = Request::new("late", Inline).promise::<i32>();
    late.cancel();
    assert!(late.complete_on_timeout(1, SHORT).wait().is_err());
}

/// Clocks that drop what they are to ring: at once, and later.
#[test]
fn an_alarm_that_is_dropped_lets_its_stage_fail() {
    #[derive(Clone, Default)]
    struct Drops(Arc<Mutex<Vec<Alarm>>>, bool);
    impl Clock for Drops {
        fn now(&self) -> Duration {
            SystemClock.now()
        }
        fn ring_after(&self, _wait: Duration, alarm: Alarm) {
            if self.1 {
                self.0.lock().unwrap().push(alarm);
            }
        }
    }
    let _alone = alone();
    for keeps in [false, true] {
        let clock = Drops(Arc::default(), keeps);
        let clocked = Request::with_clock("dropped", Arc::new(Inline), Arc::new(clock.clone()));
        let clocked_stage = clocked.promise::<i32>().or_timeout(HOUR);
        let given = clocked.promise::<i32>().complete_on_timeout(1, HOUR);
        let settled = clocked.promise::<i32>().or_timeout(HOUR);
        let _ = settled.complete(2);
        let behind = clocked_stage.clone().recover(|_| 3);
        assert_eq!(clocked_stage.is_settled(), !keeps);
        clock.0.lock().unwrap().drain(..).for_each(drop);
        assert!(matches!(clocked_stage.wait(), Err(Error::Refused(Refusal::NoClock))));
        assert!(matches!(given.wait(), Err(Error::Refused(Refusal::NoClock))));
        assert_eq!((settled.wait().is_ok(), behind.wait().unwrap()), (keeps, 3));
        assert!(clocked.history().is_reproducible());
    }
}
