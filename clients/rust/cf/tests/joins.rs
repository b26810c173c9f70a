//! The first success, all or the first failure, and a quorum.
use cf::{Error, HandClock, Inline, Meter, Pool, Refusal, Request, Stage};
use std::panic::{catch_unwind, AssertUnwindSafe};
use std::sync::Arc;
use std::thread;
use std::time::Duration;

fn promises(request: &Request, count: usize) -> Vec<Stage<u32>> {
    (0..count).map(|_| request.promise()).collect()
}

fn why<T: std::fmt::Debug>(told: Result<T, Error>) -> String {
    told.unwrap_err().to_string()
}

/// The history does the same again, and has a time for each event.
fn fits(request: &Request) {
    let history = request.history();
    assert!(history.is_reproducible(), "{history}");
    assert_eq!(history.times().count(), history.words().len(), "{history}");
}

#[test]
fn the_first_success() {
    let request = Request::new("first", Inline);
    let some = promises(&request, 3);
    let won = request.first(&some);
    assert!(some[0].fail("away"));
    assert!(!won.is_settled());
    some[2].complete(7).unwrap();
    assert_eq!(won.wait().unwrap(), 7);
    some[1].complete(8).unwrap();
    assert_eq!(request.first(&some).wait().unwrap(), 7, "as it would have been before");

    let parts = promises(&request, 2);
    let lost = request.first([&parts[0], &parts[1], &parts[0]]);
    assert!(parts[0].fail("one"));
    assert!(!lost.is_settled());
    assert!(parts[1].fail("two"));
    assert_eq!((why(lost.clone().wait()), lost.blamed()), ("two".into(), Some(6)));
    let cancelled = promises(&request, 1);
    let none = request.first(&cancelled);
    assert!(cancelled[0].cancel());
    assert!(none.wait().unwrap_err().is_cancelled());
    fits(&request);
}

#[test]
fn all_or_the_first_failure() {
    let request = Request::new("all", Inline);
    let some = promises(&request, 3);
    let values = request.all([&some[0], &some[1], &some[0]]);
    some[1].complete(1).unwrap();
    some[0].complete(0).unwrap();
    assert_eq!(values.wait().unwrap(), [0, 1, 0]);
    let failed = request.all([&some[0], &request.promise(), &some[2]]);
    assert!(some[2].fail("away"));
    assert_eq!(why(failed.wait()), "away");
    assert_eq!(request.all::<u32>([]).wait().unwrap(), [0; 0]);
    fits(&request);
}

#[test]
fn a_quorum() {
    let request = Request::new("quorum", Inline);
    let some = promises(&request, 4);
    let votes = request.quorum(2, &some[..3]);
    assert!(some[0].fail("away"));
    some[2].complete(2).unwrap();
    assert!(!votes.is_settled());
    some[1].complete(1).unwrap();
    assert_eq!(votes.wait().unwrap(), [1, 2]);
    let lost = request.quorum(3, [&some[3], &some[1], &request.promise(), &some[3]]);
    assert!(some[3].fail("too many"));
    assert_eq!(why(lost.wait()), "too many");
    assert_eq!(request.quorum(2, [&some[2], &some[2], &request.promise()]).wait().unwrap(), [2, 2]);
    let stages = request.history().names().len();
    for wanted in [0, 2] {
        assert!(catch_unwind(AssertUnwindSafe(|| request.quorum(wanted, [&some[1]]))).is_err());
    }
    assert!(catch_unwind(AssertUnwindSafe(|| request.first::<u32>([]))).is_err());
    assert_eq!(request.history().names().len(), stages);
    fits(&request);
}

/// Who settles a join otherwise: a cancel, a limit, the end of a scope. Its parts go on.
#[test]
fn a_join_that_ends_otherwise() {
    let clock = HandClock::new();
    let request = Request::with_clock("otherwise", Arc::new(Inline), Arc::new(clock.clone()));
    let some = promises(&request, 2);
    let (given_up, late) = (request.first(&some), request.first(&some).or_timeout(Duration::from_secs(1)));
    let filled = request.first(&some).complete_on_timeout(9, Duration::from_secs(1));
    assert!(given_up.cancel());
    clock.turn(Duration::from_secs(1));
    assert!(given_up.wait().unwrap_err().is_cancelled() && late.wait().unwrap_err().is_timeout());
    assert_eq!(filled.wait().unwrap(), 9);
    assert!(!some[0].is_settled());
    let (early, done) = (request.first(&some).or_timeout(Duration::from_secs(1)), request.all(&some));
    some[1].complete(1).unwrap();
    assert_eq!(early.wait().unwrap(), 1);
    fits(&request);
    request.cancel_all();
    assert!(done.wait().unwrap_err().is_cancelled());
    fits(&request);
}

/// A function that waits for a join, on the only thread: it runs what the join needs.
#[test]
fn who_waits_runs_what_it_needs() {
    let request = Request::new("waits", Pool::new(1));
    let within = request.clone();
    let waited = request.supply(move || {
        let some = [within.try_supply(|| Err("away")), within.supply(|| 49)];
        within.first(&some).wait().unwrap()
    });
    assert_eq!(waited.wait().unwrap(), 49);
}

#[test]
fn stages_of_other_requests() {
    let (request, other) = (Request::new("joins", Inline), Request::new("other", Inline));
    let some = promises(&other, 2);
    let won = request.first(&some);
    some[1].complete(3).unwrap();
    assert_eq!(won.wait().unwrap(), 3);
    let open = request.history();
    assert!(open.to_string().contains("relay cancels 0 relay of 0 of other"), "{open}");
    let full = Request::new("full", Inline);
    let last = promises(&full, 4095).pop().unwrap();
    assert!(matches!(full.all([&last]).wait(), Err(Error::Refused(Refusal::Full))));
}

/// In histories the relay settles a join. A meter doesn't tell that it waits.
#[test]
fn what_is_told_of_joins() {
    let meter = Meter::new();
    let request = Request::new("told", Inline).metered(&meter);
    let some = promises(&request, 2);
    let won = request.first(&some);
    assert_eq!(meter.open_requests()[0].waits.len(), 2);
    some[1].complete(1).unwrap();
    assert_eq!(won.wait().unwrap(), 1);
    let told = request.history().to_string();
    assert!(told.contains("relay completes 2 first with 1"), "{told}");
}

/// Threads that settle parts at once: a join ends as its parts say.
#[test]
fn parts_of_many_threads() {
    let pool = Pool::new(2);
    for seed in 0..200_u32 {
        let request = Request::new("raced", pool.clone());
        let count = 1 + seed as usize % 5;
        let wanted = 1 + (seed as usize / 5) % count;
        let some = promises(&request, count);
        let (votes, first, all) = (request.quorum(wanted, &some), request.first(&some), request.all(&some));
        let has_value = |k: usize| (seed >> k) & 1 == 0;
        thread::scope(|scope| {
            for (k, part) in some.iter().enumerate() {
                scope.spawn(move || {
                    let _ = if has_value(k) { part.complete(k as u32).is_ok() } else { part.fail("away") };
                });
            }
        });
        let values = (0..count).filter(|k| has_value(*k)).count();
        let ends = [votes.wait().is_ok(), first.wait().is_ok(), all.wait().is_ok()];
        assert_eq!(ends, [values >= wanted, values > 0, values == count], "seed {seed}");
        fits(&request);
    }
}
