//! Which requests are open, why, and what is counted of those that are over?
mod common;

use cf::{HandClock, Inline, Meter, Pool, Request};
use common::{comes_back, LONG};
use std::sync::mpsc::channel;
use std::sync::{Arc, Mutex};
use std::time::Duration;

const SECOND: Duration = Duration::from_secs(1);

/// A request with a meter, and a clock that a test turns.
fn metered(meter: &Meter, name: &str) -> (Request, HandClock) {
    let clock = HandClock::new();
    (Request::with_clock(name, Arc::new(Inline), Arc::new(clock.clone())).metered(meter), clock)
}

/// What is said of each open request.
fn said(meter: &Meter) -> Vec<String> {
    meter.open_requests().iter().map(ToString::to_string).collect()
}

/// The values of a metric, each with its labels.
fn values(meter: &Meter, name: &str) -> Vec<String> {
    let name = format!("cf_memory_{name}");
    let is_its = |line: &&str| line.strip_prefix(&*name).map_or(false, |rest| rest.starts_with(['{', ' ']));
    meter.text().lines().filter(is_its).map(|line| line[name.len()..].trim().to_owned()).collect()
}

#[test]
fn a_request_is_told_while_a_stage_is_open() {
    comes_back(|| {
        let meter = Meter::new();
        let ((one, clock), (two, _)) = (metered(&meter, "one"), metered(&meter, "two\n"));
        assert!(said(&meter).is_empty());
        let (first, second) = (one.promise::<u32>(), two.promise::<u32>().named("a\nb"));
        clock.turn(2 * SECOND);
        let of_two = "two\\n, open for 0.0 s: 0 a\\nb has waited to be settled for 0.0 s";
        assert_eq!(said(&meter), ["one, open for 2.0 s: 0 promise has waited to be settled for 2.0 s", of_two]);
        assert_eq!((values(&meter, "open_requests"), values(&meter, "oldest_request_seconds")), (vec!["2".into()], vec!["2".into()]));
        drop((one, first));
        assert_eq!(said(&meter), [of_two]);
        assert!(meter.flush(LONG));
        assert_eq!(values(&meter, "request_seconds_count"), ["1"]);
        let seen = meter.open_requests();
        second.fail("away");
        drop((two, second));
        assert!(said(&meter).is_empty() && meter.flush(LONG));
        assert_eq!(values(&meter, "request_seconds_count"), ["1"]);
        drop(seen);
        assert!(meter.flush(LONG));
        assert_eq!((values(&meter, "request_seconds_count"), values(&meter, "failed_requests_total")), (vec!["2".into()], vec!["1".into()]));
    });
}

#[test]
fn the_meter_that_is_named_last_has_it() {
    let (first, second) = (Meter::new(), Meter::new());
    let request = Request::new("a", Inline).metered(&first).metered(&second);
    let promise = request.promise::<u32>();
    assert_eq!((first.open_requests().len(), second.open_requests().len()), (0, 1));
    drop((request, promise));
    assert!(first.flush(LONG) && second.flush(LONG));
    assert_eq!((values(&first, "request_seconds_count"), values(&second, "request_seconds_count")), (vec!["0".into()], vec!["1".into()]));
}

#[test]
fn why_a_request_is_open() {
    comes_back(|| {
        let meter = Meter::new();
        let request = Request::new("order", Pool::new(1)).metered(&meter);
        let why = || -> Vec<String> {
            let open = meter.open_requests();
            let timeless = |wait: &String| {
                let parts = wait.trim_end_matches(char::is_numeric).split(" for ");
                parts.map(|it| it.trim_start_matches(|c: char| c.is_numeric() || c == '.')).collect()
            };
            open.iter().flat_map(|it| it.waits.iter().map(timeless)).collect()
        };
        let ((begins, begun), (ends, end)) = (channel(), channel::<()>());
        let end = Mutex::new(end);
        let slow = request.supply(move || (begins.send(()).unwrap(), end.lock().unwrap().recv().unwrap())).named("slow");
        begun.recv_timeout(LONG).unwrap();
        let behind = slow.clone().then(|_| 1).named("behind");
        let queued = request.supply(|| 2).named("queued");
        let approval = request.promise::<u32>().named("approval");
        let given = approval.clone();
        let composed = queued.clone().compose(move |_| given).named("composed");
        let elsewhere = Request::new("elsewhere", Inline).promise::<u32>();
        let other = elsewhere.clone();
        let far = queued.clone().compose(move |_| other).named("far");
        assert_eq!(why(), [" slow has run s, on worker ", " queued has been ready s", " approval has waited to be settled s"]);
        for name in ["open_requests", "running_functions", "ready_functions", "open_promises"] {
            assert_eq!(values(&meter, name), ["1"], "{name}");
        }
        slow.cancel();
        assert_eq!(why()[0], " slow is settled, and its function has run on s, on worker ");
        ends.send(()).unwrap();
        assert!(behind.wait().is_err());
        assert_eq!(queued.wait().unwrap(), 2);
        while why().len() != 2 {}
        assert_eq!(why()[0], " approval has waited to be settled s");
        assert!(why()[1].ends_with(" has waited to be settled s"), "{:?}", why());
        approval.complete(4).unwrap();
        assert_eq!(composed.wait().unwrap(), 4);
        elsewhere.complete(5).unwrap();
        assert_eq!(far.wait().unwrap(), 5);
        while !why().is_empty() {}
    });
}

#[test]
fn times_fall_into_their_buckets() {
    let meter = Meter::new();
    let (request, clock) = metered(&meter, "order");
    let promise = request.promise::<u32>();
    let turned = clock.clone();
    let last = promise.clone().then(move |_| turned.turn(20 * SECOND));
    clock.turn(SECOND / 20);
    promise.complete(4).unwrap();
    last.wait().unwrap();
    drop((request, promise, last));
    assert!(meter.flush(LONG));
    let buckets = |name: &str| -> Vec<String> {
        values(&meter, &format!("{name}_bucket")).iter().map(|it| it.rsplit(' ').next().unwrap().to_owned()).collect()
    };
    assert_eq!(values(&meter, "wait_seconds_bucket")[3], "{le=\"0.05\"} 1");
    assert_eq!(values(&meter, "wait_seconds_bucket")[10], "{le=\"+Inf\"} 1");
    assert_eq!(buckets("wait_seconds"), ["0", "0", "0", "1", "1", "1", "1", "1", "1", "1", "1"]);
    assert_eq!(buckets("queue_seconds"), ["1"; 11]);
    assert_eq!(buckets("function_seconds"), ["0", "0", "0", "0", "0", "0", "0", "0", "0", "1", "1"]);
    assert_eq!(buckets("request_seconds"), buckets("function_seconds"));
    assert_eq!((values(&meter, "function_seconds_sum"), values(&meter, "wait_seconds_sum")), (vec!["20".into()], vec!["0.05".into()]));
    assert_eq!(values(&meter, "failed_requests_total"), ["0"]);
}
