//! What GUIDE.md says to write: a delayed start, further tries, a deadline for a whole request.
use cf::{HandClock, Inline, Request, Retry};
use std::sync::atomic::{AtomicU32, Ordering::SeqCst};
use std::sync::Arc;
use std::time::Duration;

const SECOND: Duration = Duration::from_secs(1);

/// A request, and a clock that a test turns.
fn request() -> (Request, HandClock) {
    let clock = HandClock::new();
    (Request::with_clock("instead", Arc::new(Inline), Arc::new(clock.clone())), clock)
}

#[test]
fn a_delayed_start() {
    let (request, clock) = request();
    let later = request.promise().complete_on_timeout((), 2 * SECOND).then(|()| 49);
    clock.turn(SECOND);
    assert!(!later.is_settled());
    clock.turn(SECOND);
    assert_eq!(later.wait().unwrap(), 49);
}

#[test]
fn tries_with_longer_and_longer_waits() {
    for (times, wanted) in [(3, "49"), (2, "away")] {
        let ((request, clock), asked) = (request(), Arc::new(AtomicU32::new(0)));
        let asks = Arc::clone(&asked);
        let told = request.retry(Retry::times(times).delay(SECOND).jitter(false), move || match asks.fetch_add(1, SeqCst) {
            2 => Ok(49),
            _ => Err("away"),
        });
        assert_eq!(asked.load(SeqCst), 1);
        clock.turn(SECOND);
        assert_eq!(asked.load(SeqCst), 2);
        clock.turn(SECOND);
        assert_eq!(asked.load(SeqCst), 2);
        clock.turn(SECOND);
        assert_eq!(told.wait().map_or_else(|error| error.to_string(), |cents| cents.to_string()), wanted);
    }
}

/// What the answer waits for is cancelled with it.
#[test]
fn a_deadline_for_a_whole_request() {
    let clock = HandClock::new();
    let request = Request::with_clock("order 17", Arc::new(Inline), Arc::new(clock.clone())).deadline(Duration::from_secs(60));
    let answer = request.promise::<u32>().then(|cents| cents * 2);
    clock.turn(Duration::from_secs(60));
    assert!(answer.wait().unwrap_err().is_cancelled());
}
