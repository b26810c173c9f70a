//! What is freed, and when: functions, values and futures of stages that are over, requests that wait for themselves, relays that nobody
//! needs.
use cf::{Error, HandClock, Inline, Refusal, Request, Stage};
use std::sync::Arc;
use std::time::Duration;

#[test]
fn dropped_functions_and_values_are_freed() {
    let alive = Arc::new(());
    {
        let freed = Request::new("dropped", Inline);
        let never = freed.promise::<i32>();
        let (kept_alive, given) = (alive.clone(), alive.clone());
        let freed_behind = never.then(move |_| kept_alive);
        assert!(freed_behind.cancel());
        assert_eq!(Arc::strong_count(&alive), 2, "the function of a cancelled stage is dropped");
        let (source, kept_alive) = (freed.promise::<i32>(), alive.clone());
        let consequence = source.clone().then(move |_| drop(kept_alive));
        assert!(source.cancel() && consequence.is_settled());
        assert_eq!(Arc::strong_count(&alive), 2, "and that of one that fails with its source");
        let value = freed.promise::<Arc<()>>();
        value.complete(given).unwrap();
        assert_eq!(Arc::strong_count(&alive), 2);
        drop(value.complete(alive.clone()).unwrap_err());
        assert_eq!(Arc::strong_count(&alive), 2, "a value that came too late is given back");
    }
    assert_eq!(Arc::strong_count(&alive), 1);
}

#[test]
fn a_future_that_nobody_can_wake_goes_with_its_request() {
    let alive = Arc::new(());
    let kept_alive = alive.clone();
    let freed = Request::new("left", Inline);
    let stage = freed.spawn(async move {
        let _held = kept_alive;
        std::future::pending::<()>().await;
        Ok::<i32, Error>(1)
    });
    assert!(!stage.is_settled());
    assert_eq!(Arc::strong_count(&alive), 2);
    drop((stage, freed));
    assert_eq!(Arc::strong_count(&alive), 1);
}

/// Requests whose futures await pending stages of each other keep one another in memory, until the futures' stages are cancelled, as with the scope
/// of a client that hangs up, or time out.
#[test]
fn requests_that_await_each_other_go_with_what_ends_their_futures() {
    for is_limited in [false, true] {
        let (alive, clock) = (Arc::new(()), HandClock::new());
        let freed = ["one", "two"].map(|name| Request::with_clock(name, Arc::new(Inline), Arc::new(clock.clone())));
        let awaited = [0, 1].map(|other| freed[1 - other].promise::<i32>());
        for (request, of) in freed.iter().zip(awaited) {
            let held = Arc::clone(&alive);
            let stage = request.spawn(async move {
                let _held = held;
                of.await
            });
            drop(if is_limited { stage.or_timeout(Duration::from_secs(1)) } else { stage });
        }
        assert_eq!(Arc::strong_count(&alive), 3);
        if is_limited {
            drop(freed);
            clock.turn(Duration::from_secs(1));
        } else {
            freed.iter().for_each(Request::cancel_all);
            drop(freed);
        }
        assert_eq!(Arc::strong_count(&alive), 1, "limited: {is_limited}");
    }
}

/// All that a request does, it does also once all its stages were settled, when a large one has its words alone.
#[test]
fn a_large_request_goes_on_once_it_was_over() {
    let (clock, pause) = (Arc::new(HandClock::new()), Duration::from_millis(20));
    let large = Request::with_clock("large", Arc::new(Inline), clock.clone());
    let (source, limited) = (large.promise::<i32>(), large.promise::<i32>().or_timeout(pause));
    let last = (0..100).fold(source.clone(), |stage, _| stage.then(|value| *value + 1));
    assert!(limited.cancel() && source.complete(1).is_ok());
    assert_eq!(last.wait().unwrap(), 101);
    clock.turn(2 * pause);
    let is_true = |events| {
        let history = large.history();
        assert_eq!((history.words().len(), history.is_reproducible()), (events, true));
        assert_eq!(cf_graph::run_script(history.script().as_bytes()), Ok(history.report()));
    };
    is_true(102 + 2 + 200);

    assert!(!last.cancel() && source.complete(2).is_err());
    let again = large.promise::<i32>().or_timeout(pause);
    let (behind, other) = (last.then(|value| *value + 1), again.clone().recover(|error| if error.is_timeout() { 7 } else { 8 }));
    assert_eq!((behind.wait().unwrap(), other.is_settled()), (102, false));
    clock.turn(pause);
    assert_eq!(other.wait().unwrap(), 7);
    is_true(102 + 2 + 200 + 2 + 3 + 5);
}

/// What nobody can settle any more goes with the last handle of its request, also where a stage of the same request waits for it.
#[test]
fn a_request_that_waits_for_itself_is_freed() {
    let alive = Arc::new(());
    let kept_alive = Arc::clone(&alive);
    let freed = Request::new("itself", Inline);
    let (gate, by) = (freed.promise::<i32>(), freed.clone());
    let composed = gate.clone().compose(move |_| by.promise::<i32>());
    drop(composed.clone().then(move |_| drop(kept_alive)));
    gate.complete(1).unwrap();
    assert!(!composed.is_settled());
    drop((freed, gate, composed));
    assert_eq!(Arc::strong_count(&alive), 1);
}

/// A stage that stays pending lets go of a request once its relay there is settled otherwise.
#[test]
fn a_relay_that_is_settled_keeps_no_request_alive() {
    let long = Request::new("long", Inline).promise::<i32>();
    for k in 0..3 {
        let alive = Arc::new(());
        let freed = Request::new("short", Inline);
        let kept = freed.promise::<Arc<()>>();
        kept.complete(Arc::clone(&alive)).unwrap();
        let (relay, other) = (freed.adopt(&long), freed.adopt(&long));
        match k {
            0 => assert!(relay.cancel() && other.fail("no")),
            1 => assert!(relay.complete(4).is_ok() && other.complete(5).is_ok()),
            _ => freed.cancel_all(),
        }
        drop((freed, kept, relay, other));
        assert_eq!(Arc::strong_count(&alive), 1);
    }
    let again = Request::new("again", Inline).adopt(&long);
    long.complete(1).unwrap();
    assert_eq!(again.wait().unwrap(), 1);
}

/// What is adopted for a stage alone goes with that stage, though the stage of the other request stays: a shutdown that many requests look at.
#[test]
fn a_stage_that_is_settled_keeps_no_relay() {
    let long = Request::new("long", Inline);
    let (shutdown, config) = (long.promise::<i32>(), long.promise::<i32>());
    type Ends = fn(&Request, &Stage<i32>, &Stage<i32>);
    let ways: [Ends; 9] = [
        |r, shutdown, _| assert_eq!(r.first_of([shutdown, &r.supply(|| 1)]).wait().unwrap(), 1),
        |r, shutdown, config| {
            let work = r.promise();
            let first = r.first_of([shutdown, config, &work]);
            work.complete(2).unwrap();
            assert_eq!(first.wait().unwrap(), 2);
        },
        |r, shutdown, _| assert_eq!(r.supply(|| 3).either(shutdown, |n| *n).wait().unwrap(), 3),
        |r, shutdown, _| assert!(r.promise::<i32>().combine(shutdown, |a, b| a + b).cancel()),
        |r, shutdown, config| assert!(r.gather([shutdown, config]).fail("no")),
        |r, shutdown, config| assert!(r.all_of([shutdown as &dyn cf::AnyStage, config]).cancel()),
        |r, shutdown, _| {
            let of = shutdown.clone();
            let composed = r.supply(|| 1).compose(move |_| of);
            assert!(!composed.is_settled() && composed.complete(4).is_ok());
        },
        |r, shutdown, _| {
            // The request is full, but for the relay.
            let first = r.promise::<i32>();
            (1..4095).for_each(|_| drop(r.promise::<i32>()));
            assert!(matches!(first.either(shutdown, |n| *n).wait(), Err(Error::Refused(Refusal::Full))));
        },
        |r, shutdown, _| {
            drop(r.gather([shutdown]));
            r.cancel_all();
        },
    ];
    for (k, way) in ways.into_iter().enumerate() {
        let alive = Arc::new(());
        let freed = Request::new("short", Inline);
        freed.promise().complete(Arc::clone(&alive)).unwrap();
        way(&freed, &shutdown, &config);
        assert!(freed.history().is_reproducible());
        drop(freed);
        assert_eq!(Arc::strong_count(&alive), 1, "way {k}");
    }
    // What isn't settled goes on.
    let r = Request::new("waits", Inline);
    let (first, both) = (r.first_of([&shutdown, &r.promise()]), r.gather([&shutdown, &config]));
    shutdown.complete(7).unwrap();
    config.complete(8).unwrap();
    assert_eq!((first.wait().unwrap(), both.wait().unwrap()), (7, vec![7, 8]));
}

/// An error, values with which one worker has called one function after another, and the function of a stage that got a value without it.
#[test]
fn what_functions_gave_and_took_goes_with_their_request() {
    #[derive(Debug)]
    struct Holds(#[allow(dead_code)] Arc<()>);
    impl std::fmt::Display for Holds {
        fn fmt(&self, f: &mut std::fmt::Formatter<'_>) -> std::fmt::Result {
            f.write_str("no")
        }
    }
    impl std::error::Error for Holds {}
    let alive = Arc::new(());
    let freed = Request::new("given", Inline);
    let gate = freed.promise::<i32>();
    let held = Arc::clone(&alive);
    let passed = gate.clone().recover(move |_| Arc::strong_count(&held) as i32);
    let held = [(); 2].map(|()| {
        let held = Arc::clone(&alive);
        gate.clone().then(move |_| held)
    });
    let behind = held.map(|held| held.then(Arc::strong_count));
    gate.complete(1).unwrap();
    assert!(passed.is_settled() && behind.iter().all(Stage::is_settled));
    assert_eq!(Arc::strong_count(&alive), 3, "the two values");
    assert!(freed.promise::<i32>().fail(Holds(Arc::clone(&alive))));
    assert_eq!(Arc::strong_count(&alive), 4, "and the error");
    drop((freed, gate, passed, behind));
    assert_eq!(Arc::strong_count(&alive), 1);
}

/// What is gathered and never settled goes with the last handle of its request.
#[test]
fn a_request_that_gathers_is_freed() {
    let alive = Arc::new(());
    let freed = Request::new("gathers", Inline);
    let (first, second, held) = (freed.promise::<i32>(), freed.promise::<i32>(), Arc::clone(&alive));
    let both = freed.gather([&first, &second]).then(move |_| Arc::strong_count(&held));
    first.complete(1).unwrap();
    assert!(!both.is_settled());
    drop((freed, first, second, both));
    assert_eq!(Arc::strong_count(&alive), 1);
}
