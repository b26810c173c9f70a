//! Timeouts and alarms of stages: they settle, ring in their order, and are swept once they aren't needed.
mod common;

use cf::{Alarm, Clock, HandClock, Inline, Pool, Request, Stage};
use common::{comes_back, poll, LONG, SHORT};
use std::panic::{catch_unwind, panic_any, AssertUnwindSafe};
use std::sync::{Arc, Mutex};
use std::task::{Wake, Waker};
use std::time::Duration;

#[test]
fn timeouts_settle() {
    let timed = Request::new("timed", Pool::new(4));
    let slow = timed.promise::<i32>().or_timeout(SHORT);
    assert!(slow.wait().unwrap_err().is_timeout());
    assert_eq!(timed.promise().complete_on_timeout(5, SHORT).wait().unwrap(), 5);
    let kept = timed.supply(|| 1).or_timeout(LONG);
    assert_eq!(kept.wait().unwrap(), 1);
    assert!(timed.promise::<i32>().wait_timeout(SHORT).is_none());
    assert_eq!(timed.supply(|| 2).wait_timeout(LONG).unwrap().unwrap(), 2);
}

#[test]
fn alarms_ring_in_their_order() {
    let clock = HandClock::new();
    let timed = Request::with_clock("by hand", Arc::new(Inline), Arc::new(clock.clone()));
    let order = Arc::new(Mutex::new(Vec::new()));
    for seconds in [3, 1, 2, 1] {
        let order = order.clone();
        let timed_stage = timed.promise().complete_on_timeout(seconds, Duration::from_secs(seconds));
        drop(timed_stage.then(move |n| order.lock().unwrap().push(*n)));
    }
    clock.turn(Duration::from_millis(1999));
    assert_eq!(*order.lock().unwrap(), [1, 1]);
    clock.turn(Duration::from_secs(5));
    assert_eq!(*order.lock().unwrap(), [1, 1, 2, 3]);
    let times: Vec<Duration> = timed.history().times().collect();
    assert_eq!(times.last(), Some(&Duration::from_secs(3)));
    assert!(timed.history().is_reproducible());
}

/// Of several limits of one stage the first settles it, and of those of one moment the one that was set first.
#[test]
fn the_first_limit_of_a_stage_settles_it() {
    let (clock, seconds) = (HandClock::new(), Duration::from_secs);
    let timed = Request::with_clock("by hand", Arc::new(Inline), Arc::new(clock.clone()));
    let given = timed.promise().or_timeout(seconds(3)).complete_on_timeout(1, seconds(4)).complete_on_timeout(2, seconds(2));
    let late = timed.promise().complete_on_timeout(1, seconds(4)).or_timeout(seconds(5)).or_timeout(seconds(3));
    let value_first = timed.promise().complete_on_timeout(1, seconds(3)).or_timeout(seconds(3)).complete_on_timeout(2, seconds(3));
    let timeout_first = timed.promise().or_timeout(seconds(3)).complete_on_timeout(1, seconds(3));
    let nothing = timed.promise().complete_on_timeout((), seconds(3));
    let all = timed.all_of([&nothing as &dyn cf::AnyStage, &value_first]).complete_on_timeout((), seconds(3));
    clock.turn(seconds(6));
    assert_eq!((given.wait().unwrap(), value_first.wait().unwrap(), nothing.wait().unwrap(), all.wait().unwrap()), (2, 1, (), ()));
    assert!(late.wait().unwrap_err().to_string().contains("after 3s") && timeout_first.wait().unwrap_err().is_timeout());
    let history = timed.history();
    assert_eq!(history.words().len(), 6 + 5, "a word for each stage that no other one settles: {history}");
    assert!(history.is_reproducible());
}

/// A moment that no number tells is never reached, and keeps no other one from being.
#[test]
fn the_longest_limit_never_comes() {
    let (clock, seconds) = (HandClock::new(), Duration::from_secs);
    let timed = Request::with_clock("by hand", Arc::new(Inline), Arc::new(clock.clone()));
    clock.turn(seconds(5));
    let longest = timed.promise::<i32>().or_timeout(Duration::from_nanos(u64::MAX)).complete_on_timeout(1, Duration::MAX);
    let soon = timed.promise().complete_on_timeout(2, seconds(1));
    clock.turn(seconds(3600));
    assert_eq!((longest.is_settled(), soon.peek().unwrap().unwrap()), (false, 2));
}

/// One alarm at a time serves all limits of a request: it is asked for where an earlier one comes, and where one was rung.
#[test]
fn a_request_asks_for_one_alarm_at_a_time() {
    #[derive(Clone, Default)]
    struct Asked(Arc<Mutex<Vec<(Duration, Alarm)>>>);
    impl Clock for Asked {
        fn now(&self) -> Duration {
            Duration::ZERO
        }
        fn ring_after(&self, wait: Duration, alarm: Alarm) {
            self.0.lock().unwrap().push((wait, alarm));
        }
    }
    let (clock, seconds) = (Asked::default(), Duration::from_secs);
    let timed = Request::with_clock("asked", Arc::new(Inline), Arc::new(clock.clone()));
    let stages: Vec<Stage<i32>> = [5, 7, 6, 3, 4].into_iter().map(|wait| timed.promise().or_timeout(seconds(wait))).collect();
    let waits = || clock.0.lock().unwrap().iter().map(|(wait, alarm)| (wait.as_secs(), alarm.is_wanted())).collect::<Vec<_>>();
    assert_eq!(waits(), [(5, false), (3, true)]);
    let settled = || stages.iter().map(|stage| u8::from(stage.is_settled())).collect::<Vec<_>>();
    let ring = |at: usize| {
        let alarm = clock.0.lock().unwrap().remove(at).1;
        alarm.ring();
    };
    // One that isn't wanted any more does nothing, be it rung or dropped.
    ring(0);
    assert_eq!((settled(), waits()), (vec![0; 5], vec![(3, true)]));
    ring(0);
    assert_eq!((settled(), waits()), (vec![0, 0, 0, 1, 0], vec![(4, true)]));
    ring(0);
    assert_eq!((settled(), waits()), (vec![0, 0, 0, 1, 1], vec![(5, true)]));
    // The clock's own time hasn't come so far: what would be due before that comes with the last alarm's moment.
    let early = timed.promise::<i32>().or_timeout(seconds(1));
    assert_eq!(waits(), [(5, false), (4, true)]);
    ring(1);
    assert!(early.wait().unwrap_err().is_timeout());
    assert!(stages[0].cancel() && stages[1].complete(1).is_ok() && stages[2].cancel());
    assert_eq!(waits(), [(5, false), (5, false)]);
    assert!(timed.history().is_reproducible());
}

#[test]
fn a_turn_tells_all_timeouts_though_wakers_panic() {
    struct Numbered(u64);
    impl Wake for Numbered {
        fn wake(self: Arc<Self>) {
            panic_any(self.0);
        }
    }
    let clock = HandClock::new();
    let request = Request::with_clock("by hand", Arc::new(Inline), Arc::new(clock.clone()));
    let timed: Vec<Stage<i32>> = (1..4).map(|seconds| request.promise().or_timeout(Duration::from_secs(seconds))).collect();
    let mut handles = timed.clone();
    for (handle, number) in handles.iter_mut().zip(1..3) {
        assert!(!poll(handle, &Waker::from(Arc::new(Numbered(number)))));
    }
    let panicked = catch_unwind(AssertUnwindSafe(|| clock.turn(Duration::from_secs(5)))).expect_err("the panic goes on");
    assert_eq!(panicked.downcast_ref(), Some(&1_u64), "the first one");
    assert_eq!(clock.now(), Duration::from_secs(5));
    assert!(timed.into_iter().all(|stage| stage.wait_timeout(Duration::ZERO).expect("it was told").unwrap_err().is_timeout()));
    let times: Vec<Duration> = request.history().times().collect();
    assert_eq!(times[times.len() - 3..], [1, 2, 3].map(Duration::from_secs));
    clock.turn(Duration::from_secs(1));
}

#[test]
fn many_timeouts_are_swept() {
    let timed = Request::new("swept", Inline);
    for k in 0..1000 {
        let timed_stage = timed.promise().or_timeout(Duration::from_secs(3600));
        assert_eq!(timed_stage.complete(k), Ok(()));
    }
    assert!(timed.promise::<i32>().or_timeout(Duration::from_millis(2)).wait().unwrap_err().is_timeout());
}

/// Values whose drops panic would have been given later.
#[test]
fn alarms_are_swept_whatever_their_values_do() {
    struct Drops(bool);
    impl Drop for Drops {
        fn drop(&mut self) {
            assert!(!self.0, "in a drop");
        }
    }
    comes_back(|| {
        let timed = Request::new("swept", Inline);
        let late = timed.promise::<i32>().or_timeout(Duration::from_millis(300));
        for k in 0..300 {
            let timed_stage = timed.promise().complete_on_timeout(Drops(k % 5 == 0), Duration::from_secs(3600));
            assert_eq!(catch_unwind(AssertUnwindSafe(|| timed_stage.cancel())).is_err(), k % 5 == 0);
            assert!(timed_stage.is_settled());
        }
        assert!(late.wait().unwrap_err().is_timeout());
    });
}

#[test]
fn alarms_of_one_moment_ring_as_they_were_asked_for() {
    let (clock, rung) = (HandClock::new(), Arc::new(Mutex::new(Vec::new())));
    let timed: Vec<Stage<()>> = (0..20)
        .map(|k| {
            let (rings, timed) = (Arc::clone(&rung), Request::with_clock("by hand", Arc::new(Inline), Arc::new(clock.clone())));
            timed.promise().complete_on_timeout(k, Duration::from_secs(1)).then(move |k| rings.lock().unwrap().push(*k))
        })
        .collect();
    clock.turn(Duration::from_secs(1));
    assert!(timed.iter().all(Stage::is_settled));
    assert_eq!(*rung.lock().unwrap(), (0..20).collect::<Vec<_>>());
}

/// What it rings turns it further.
#[test]
fn a_clock_does_not_go_back() {
    let (clock, seconds) = (HandClock::new(), Duration::from_secs);
    let (turns, timed) = (clock.clone(), Request::with_clock("by hand", Arc::new(Inline), Arc::new(clock.clone())));
    let turned = timed.promise::<i32>().or_timeout(seconds(1)).handle(move |_| turns.turn(seconds(10)));
    clock.turn(seconds(2));
    assert!(turned.is_settled());
    assert_eq!(clock.now(), seconds(11));
}

/// Stands, and keeps the alarms that it is asked for.
#[derive(Clone, Default)]
struct Stands(Arc<Mutex<Vec<Alarm>>>);

impl Clock for Stands {
    fn now(&self) -> Duration {
        Duration::ZERO
    }

    fn ring_after(&self, _wait: Duration, alarm: Alarm) {
        self.0.lock().unwrap().push(alarm);
    }
}

#[test]
fn a_settled_stage_of_two_timeouts_wants_no_alarm() {
    let clock = Stands::default();
    let timed = Request::with_clock("stands", Arc::new(Inline), Arc::new(clock.clone()));
    let timed_stage = timed.promise().or_timeout(Duration::from_secs(2)).complete_on_timeout(1, Duration::from_secs(3));
    let wanted = || clock.0.lock().unwrap().iter().filter(|alarm| alarm.is_wanted()).count();
    assert_eq!(wanted(), 1);
    timed_stage.complete(5).unwrap();
    assert_eq!(wanted(), 0);
}

/// The function runs in the call that rings, and may take long.
#[test]
fn the_next_alarm_is_asked_for_before_a_function_runs() {
    let (clock, seconds) = (Stands::default(), Duration::from_secs);
    let timed = Request::with_clock("stands", Arc::new(Inline), Arc::new(clock.clone()));
    let (later, looks) = (timed.promise::<i32>().or_timeout(seconds(2)), clock.clone());
    let asked = timed.promise::<i32>().or_timeout(seconds(1)).handle(move |_| looks.0.lock().unwrap().len());
    let alarm = clock.0.lock().unwrap().pop().expect("it is the first that comes");
    alarm.ring();
    assert_eq!((asked.peek().expect("it was called").unwrap(), later.is_settled()), (2, false));
}
