//! What stages do, by threads and without a runtime.
use cf::{Error, Inline, Pool, Request, Stage};
use std::sync::atomic::{AtomicUsize, Ordering};
use std::sync::{mpsc, Arc, Barrier, Mutex};

fn request() -> Request {
    Request::new("test", Pool::new(4))
}

#[test]
fn functions_take_values() {
    let r = request();
    let source = r.promise::<i32>();
    let next = source.clone().then(|n| n + 1);
    let text = next.clone().and_then(|n| if *n > 0 { Ok(n.to_string()) } else { Err("not positive") });
    let both = next.combine(&text, |n, text| format!("{n} {text}"));
    assert!(!both.is_settled() && both.peek().is_none());
    assert_eq!(source.complete(3), Ok(()));
    assert_eq!(both.wait().unwrap(), "4 4");
    assert_eq!(source.complete(5), Err(5));
    assert_eq!(source.wait().unwrap(), 3);
}

#[test]
fn errors_are_passed_on_and_recovered() {
    let r = request();
    let parsed = r.try_supply(|| "x".parse::<i32>());
    let behind = parsed.clone().then(|n| n * 2).combine(&r.supply(|| 1), |a, b| a + b);
    let error = behind.wait().unwrap_err();
    assert!(error.is::<std::num::ParseIntError>(), "{error:?}");
    assert_eq!(behind.blamed(), parsed.number());
    assert_eq!(behind.clone().recover(|_| -1).wait().unwrap(), -1);
    assert!(behind.clone().handle(|it| it.is_err()).wait().unwrap());
    let text = behind.and_then(|_| Ok::<_, &str>(1)).wait().unwrap_err().to_string();
    assert_eq!(text, "invalid digit found in string");
}

/// Its function gives a stage above it, which is settled once the request has grown.
#[test]
fn a_compose_that_waits_ends_as_the_later_stage() {
    for is_cancelled in [false, true] {
        let r = Request::new("test", Inline);
        let (gate, given) = (r.promise::<i32>(), Arc::new(Mutex::new(None)));
        let gives = Arc::clone(&given);
        let composed = gate.clone().compose(move |_| gives.lock().unwrap().take().unwrap());
        let later = r.promise::<i32>();
        *given.lock().unwrap() = Some(later.clone());
        gate.complete(1).unwrap();
        let many: Vec<_> = (0..100).map(|_| r.promise::<i32>()).collect();
        assert!(many.iter().chain([&composed, &later]).all(|stage| !stage.is_settled()));
        if is_cancelled {
            r.cancel_all();
            assert!(composed.wait().unwrap_err().is_cancelled());
        } else {
            later.complete(5).unwrap();
            assert_eq!(composed.wait().unwrap(), 5);
        }
        assert!(r.history().is_reproducible());
    }
}

#[test]
fn an_error_passed_on_by_a_question_mark_stays_what_it_is() {
    let r = request();
    let cancelled = r.promise::<i32>();
    assert!(cancelled.cancel());
    let other = cancelled.clone();
    let asks = r.try_supply(move || -> Result<i32, Error> { Ok(other.wait()? + 1) });
    assert!(asks.wait().unwrap_err().is_cancelled());
}

#[test]
fn panics_become_errors() {
    let r = request();
    let text = r.supply(|| -> i32 { panic!("at {}", 5) }).then(|n| n + 1).wait().unwrap_err().to_string();
    assert_eq!(text, "a function panicked: at 5");
    let fixed = r.supply(|| -> i32 { panic!("fixed") });
    assert!(matches!(fixed.wait(), Err(Error::Panicked(said)) if said.message() == "fixed"));
    assert_eq!(r.supply(|| 1).wait().unwrap(), 1, "its thread goes on");
}

#[test]
fn the_first_decides() {
    let r = request();
    let (a, b) = (r.promise::<i32>(), r.promise::<i32>());
    let first = a.clone().either(&b, |n| n * 10);
    let any = r.first_of([&a, &b, &r.promise()]);
    b.complete(2).unwrap();
    assert_eq!((first.wait().unwrap(), any.wait().unwrap()), (20, 2));
    a.complete(1).unwrap();
    assert_eq!(any.wait().unwrap(), 2);
}

#[test]
fn all_of_waits_for_all() {
    let r = request();
    let numbers: Vec<Stage<i32>> = (0..9).map(|k| r.supply(move || k)).collect();
    let text = r.supply(|| "text".to_string());
    let all = r.all_of(numbers.iter().map(|it| it as &dyn cf::AnyStage).chain([&text as &dyn cf::AnyStage]));
    all.wait().unwrap();
    assert!(numbers.iter().all(Stage::is_settled) && text.is_settled());
    assert_eq!(r.gather(&numbers).wait().unwrap(), (0..9).collect::<Vec<_>>());
    r.all_of([]).wait().unwrap();
    let failed = r.try_supply(|| Err::<i32, _>("no"));
    assert_eq!(r.gather([&numbers[0], &failed]).wait().unwrap_err().to_string(), "no");
}

#[test]
fn many_that_are_settled_are_gathered_at_once() {
    let r = Request::new("settled", Inline);
    let numbers: Vec<Stage<i32>> = (0..9).map(|k| r.supply(move || k)).collect();
    assert!(r.all_of(numbers.iter().map(|it| it as &dyn cf::AnyStage)).is_settled());
    assert_eq!(r.first_of(&numbers).peek().unwrap().unwrap(), 0);
    assert_eq!(r.history().words().len(), 9 * 3 + 2 * 8);
    assert!(r.history().is_reproducible());
}

/// By its function and the line that attaches it, also where one closure is handed in at two lines.
#[test]
fn a_stage_is_called_by_where_it_is_attached() {
    let (r, one_more) = (Request::new("called", Inline), |n: &i32| n + 1);
    let first = r.promise::<i32>().then(one_more);
    let mut last = first.then(one_more);
    for _ in 0..5 {
        last = last.then(one_more).handle(|told| told.is_ok()).then(|_| 1);
    }
    let history = r.history();
    let names = history.names();
    assert_eq!((names[0].as_str(), names.len()), ("promise", 18));
    assert!(names[1] != names[2] && names[3] != names[2], "{names:?}");
    assert!((6..18).all(|at| names[at] == names[at - 3]), "{names:?}");
}

#[test]
fn composing_takes_a_stage_of_this_request_or_another() {
    let (r, other) = (request(), request());
    let by = r.clone();
    let own = r.supply(|| 3).compose(move |&n| by.supply(move || n * 2));
    let before = r.promise::<i32>();
    let lower = before.clone();
    let links = r.supply(|| 1).compose(move |_| lower);
    let elsewhere = r.supply(|| 5).compose(move |&n| other.supply(move || n + 1));
    let settled = {
        let done = r.supply(|| 9);
        done.wait().unwrap();
        let by = r.clone();
        r.supply(|| 0).compose(move |_| {
            let s = by.supply(|| 8);
            s.wait().unwrap();
            s
        })
    };
    before.complete(4).unwrap();
    assert_eq!((own.wait().unwrap(), links.wait().unwrap(), elsewhere.wait().unwrap(), settled.wait().unwrap()), (6, 4, 6, 8));
    let recovered = r.try_supply(|| Err::<i32, _>("no")).recover_compose({
        let r = r.clone();
        move |_| r.supply(|| 7)
    });
    assert_eq!(recovered.wait().unwrap(), 7);
    let cancelled = r.supply(|| 1).compose({
        let r = r.clone();
        move |_| {
            let s = r.promise::<i32>();
            s.cancel();
            s
        }
    });
    assert!(cancelled.wait().unwrap_err().is_cancelled());
    assert!(r.history().is_reproducible());
}

#[test]
fn a_cancelled_stage_refuses_its_claim_and_a_late_finish_changes_nothing() {
    let r = Request::new("one thread", Pool::new(1));
    let (begun, waits) = (Arc::new(Barrier::new(2)), Arc::new(Barrier::new(2)));
    let ran = Arc::new(AtomicUsize::new(0));
    let (b, w) = (begun.clone(), waits.clone());
    let running = r.supply(move || {
        b.wait();
        w.wait();
        1
    });
    let counts = ran.clone();
    let waiting = r.supply(move || counts.fetch_add(1, Ordering::SeqCst));
    begun.wait();
    assert!(waiting.cancel() && waiting.cancel());
    assert!(running.cancel());
    waits.wait();
    assert!(running.wait().unwrap_err().is_cancelled());
    assert_eq!(r.supply(|| 3).wait().unwrap(), 3);
    assert_eq!(ran.load(Ordering::SeqCst), 0);
    let text = r.history().to_string();
    assert!(text.contains("too late"), "{text}");
}

#[test]
fn inspecting_keeps_the_outcome() {
    let r = request();
    let (tells, told) = mpsc::channel();
    assert_eq!(r.supply(|| 6).inspect(move |it| tells.send(it.is_ok()).unwrap()).wait().unwrap(), 6);
    assert!(told.recv().unwrap());
    let failed = r.promise::<i32>();
    let seen = failed.clone().inspect(|_| panic!("left aside"));
    assert!(failed.fail("no"));
    assert_eq!(seen.wait().unwrap_err().to_string(), "no");
}

#[test]
fn values_need_not_be_clone() {
    struct Big(u64);
    let r = request();
    let big = r.supply(|| Big(7));
    assert_eq!(big.clone().then(|big| big.0).wait().unwrap(), 7);
    assert_eq!(big.wait_arc().unwrap().0, 7);
}

#[test]
fn debug_says_where_it_is() {
    let r = Request::new("debug", Inline);
    let stage = r.promise::<i32>().named("price");
    assert_eq!(format!("{stage:?}"), "Stage(0 price, pending)");
    stage.fail("no");
    assert_eq!(format!("{stage:?}"), "Stage(0 price, error: no)");
    assert_eq!(format!("{r:?}"), r#"Request { name: "debug", stages: 1, settled: 1, events: 2 }"#);
    assert!(format!("{:?}", r.supply(|| 1)).contains("stages.rs:"));
}

#[test]
fn cancelling_all_ends_all() {
    let r = request();
    let source = r.promise::<i32>();
    let behind: Vec<Stage<i32>> = (0..5).map(|_| source.clone().then(|n| *n)).collect();
    r.cancel_all();
    assert!(source.wait().unwrap_err().is_cancelled() && behind.iter().all(|it| it.wait().unwrap_err().is_cancelled()));
}

#[test]
fn handles_are_send_and_sync_and_unpin() {
    fn all<T: Send + Sync + Unpin>() {}
    all::<Stage<i32>>();
    all::<Request>();
    all::<cf::History>();
    all::<Error>();
}

/// Relays of one stage have the same number in two requests. One that is cancelled is let go of, and not the other.
#[test]
fn a_relay_that_is_cancelled_takes_no_other_along() {
    let source = Request::new("followed", Inline).promise::<i32>();
    let [first, second] = [(); 2].map(|()| Request::new("follows", Inline).adopt(&source));
    assert!(first.cancel());
    source.complete(5).unwrap();
    assert_eq!(second.peek().expect("it is told").unwrap(), 5);
}

/// A composing stage takes two places, and what waits for so many stages one less than these.
#[test]
fn the_last_places_of_a_request_are_taken() {
    let nearly_full = |left: usize| {
        let r = Request::new("nearly full", Inline);
        let first = r.promise::<i32>();
        (1..4096 - left).for_each(|_| drop(r.promise::<i32>()));
        (r, first)
    };
    let is_refused = |stage: Stage<i32>| matches!(stage.wait_timeout(std::time::Duration::ZERO), Some(Err(Error::Refused(cf::Refusal::Full))));
    let (r, first) = nearly_full(1);
    let given = first.clone();
    assert!(is_refused(first.clone().compose(move |_| given)) && is_refused(r.first_of([&first, &first, &first])));
    let last = r.first_of([&first, &first]);
    assert!(is_refused(r.promise()) && is_refused(r.first_of([&first, &first])));
    first.complete(1).unwrap();
    assert_eq!(last.wait().unwrap(), 1);
    let (r, first) = nearly_full(2);
    let given = first.clone();
    let composed = first.clone().compose(move |_| given);
    assert!(is_refused(r.promise()));
    first.complete(2).unwrap();
    assert_eq!(composed.wait().unwrap(), 2);
    let (r, first) = nearly_full(2);
    assert!(is_refused(r.first_of([&first; 4])) && !r.first_of([&first; 3]).is_settled() && is_refused(r.promise()));
}

/// One worker calls functions with one value, two, an end, and the first value again.
#[test]
fn functions_of_one_job_are_called_with_their_own_values() {
    let r = Request::new("one job", Inline);
    let [a, b] = ["a", "b"].map(|name| (name, r.promise::<String>()));
    let one = || a.1.clone().then(String::clone);
    let behind = [one(), a.1.clone().combine(&b.1, |a, b| format!("{a}{b}")), one(), a.1.clone().handle(|told| told.unwrap().to_uppercase()), one()];
    for (name, stage) in [&b, &a] {
        stage.complete((*name).into()).unwrap();
    }
    assert_eq!(behind.map(|stage| stage.wait().unwrap()), ["a", "ab", "a", "A", "a"]);
}
