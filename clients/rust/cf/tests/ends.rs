//! When is a request over, who is told of it, and which spans has it?
mod common;

use cf::{Describe, Ends, History, Inline, Pool, Request, Span, SpanFile, Status};
use common::{comes_back, LONG, SHORT};
use std::sync::atomic::{AtomicU32, Ordering::SeqCst};
use std::sync::mpsc::{channel, Receiver};
use std::sync::{Arc, Barrier, Mutex};
use std::thread;
use std::time::{Duration, SystemTime};

/// Ends that send what they are told, and who receives it.
fn told<T: Send + 'static>(of: impl Fn(&History) -> T + Send + Sync + 'static) -> (Ends, Receiver<T>) {
    let (sends, receives) = channel();
    let sends = Mutex::new(sends);
    (Ends::new(move |history| sends.lock().unwrap().send(of(history)).unwrap()), receives)
}

#[test]
fn a_request_is_over_once_its_last_handle_is_dropped() {
    comes_back(|| {
        let (ends, told) = told(History::to_string);
        let request = Request::new("a", Pool::new(2)).on_end(&ends);
        let stage = request.supply(|| 1).then(|one| one + 1);
        drop(request);
        assert_eq!(stage.wait().unwrap(), 2);
        assert!(told.recv_timeout(SHORT).is_err());
        drop(stage);
        assert!(told.recv_timeout(LONG).unwrap().ends_with("ends: 2\n"));
        drop(Request::new("a promise", Inline).on_end(&ends).promise::<u32>());
        assert!(told.recv_timeout(LONG).unwrap().starts_with("a promise: 1 event, 1 stage\n"));
        assert!(ends.flush(LONG) && told.try_recv().is_err());
    });
}

#[test]
fn a_function_is_told_of_one_request_after_another() {
    let (now, most) = (AtomicU32::new(0), Arc::new(AtomicU32::new(0)));
    let its = Arc::clone(&most);
    let ends = Ends::new(move |_| {
        its.fetch_max(now.fetch_add(1, SeqCst) + 1, SeqCst);
        thread::sleep(SHORT);
        now.fetch_sub(1, SeqCst);
    });
    for _ in 0..3 {
        drop(Request::new("a", Inline).on_end(&ends));
        thread::sleep(SHORT / 4);
    }
    assert!(ends.flush(LONG));
    assert_eq!(most.load(SeqCst), 1);
}

#[test]
fn the_last_ends_are_told() {
    let ((first, old), (second, new)) = (told(History::line), told(History::line));
    drop(Request::new("a", Inline).on_end(&first).on_end(&second));
    assert!(first.flush(LONG) && second.flush(LONG));
    assert!(old.try_recv().is_err());
    assert_eq!(new.try_recv().unwrap(), "a: 0 events, 0 stages; 0 failed; 0 open");
}

#[test]
fn what_is_told_is_described() {
    let by = Describe::from_fn(|_| std::thread::current().name().unwrap_or("none").into());
    for (describe, text) in [(Describe::Nothing, "ends: -"), (by, "ends: cf ends")] {
        let (ends, told) = told(History::to_string);
        Request::new("a", Inline).described(describe).on_end(&ends).supply(|| "token").wait().unwrap();
        let told = told.recv_timeout(LONG).unwrap();
        assert!(told.contains(text) && !told.contains("token"), "{told}");
    }
}

#[test]
fn a_function_that_panics_is_called_again() {
    let (ends, told) = told(|history| history.words().len());
    let panics = Ends::new(move |_| panic!("no exporter"));
    for _ in 0..2 {
        Request::new("a", Inline).on_end(&panics).supply(|| 1).wait().unwrap();
        Request::new("a", Inline).on_end(&ends).supply(|| 1).wait().unwrap();
    }
    assert!(panics.flush(LONG) && ends.flush(LONG));
    assert_eq!(told.try_iter().collect::<Vec<_>>(), [3, 3]);
}

#[test]
fn a_slow_function_holds_up_nothing_and_is_told_of_so_many() {
    comes_back(|| {
        let gates = Arc::new((Barrier::new(2), Barrier::new(2)));
        let (seen, inside) = (Arc::new(Mutex::new(0)), Arc::clone(&gates));
        let count = Arc::clone(&seen);
        let ends = Ends::new(move |_| {
            let mut seen = count.lock().unwrap();
            *seen += 1;
            if *seen == 1 {
                inside.0.wait();
                inside.1.wait();
            }
        });
        for k in 0..2060 {
            Request::new("a", Inline).on_end(&ends).supply(move || k).wait().unwrap();
            if k == 0 {
                gates.0.wait();
            }
        }
        assert!(!ends.flush(SHORT));
        gates.1.wait();
        assert!(ends.flush(LONG));
        assert_eq!(*seen.lock().unwrap(), 2049);
    });
}

fn failing(describe: Describe) -> Vec<Span> {
    let request = Request::new("order \"17\"\n", Inline).described(describe);
    let load = request.supply(|| 1).named("load");
    drop(load.and_then(|_| Err::<u32, _>("card declined")).named("charge").then(|cents| cents + 1));
    request.history().spans()
}

#[test]
fn spans_tell_who_failed() {
    // Two clocks are read, one after another.
    let second = Duration::from_secs(1);
    let before = SystemTime::now() - second;
    let spans = failing(Describe::All);
    let declined = || Status::Error("card declined".into());
    let told: Vec<_> = spans.iter().map(|span| (span.name.as_str(), span.status.clone(), span.failed.as_deref(), span.sources.clone())).collect();
    assert_eq!(told[0], ("order \"17\"\n", declined(), None, vec![]));
    assert_eq!(told[1..], [("load", Status::Ok, None, vec![]), ("charge", declined(), Some("card declined"), vec![0])]);
    let called: Vec<_> = spans.iter().map(|span| span.call.as_ref().map(|call| (call.stage, call.form))).collect();
    assert_eq!(called, [None, Some((0, "supply")), Some((1, "apply"))]);
    assert!(spans[1].call.as_ref().unwrap().caller.starts_with("worker "));
    let [whole, load, charge] = [&spans[0], &spans[1], &spans[2]];
    let times = [before, whole.start, load.start, load.end, charge.start, charge.end, whole.end, SystemTime::now() + second];
    assert!(times.windows(2).all(|pair| pair[0] <= pair[1]), "{times:?}");
    let hidden = failing(Describe::Nothing);
    assert_eq!((&hidden[2].status, hidden[2].failed.as_deref()), (&Status::Error("-".into()), Some("-")));
}

#[test]
fn a_request_has_failed_if_nobody_took_a_failure() {
    let statuses = |request: &Request| request.history().spans().iter().map(|span| span.status.clone()).collect::<Vec<_>>();
    let request = Request::new("r", Pool::new(1));
    assert_eq!(statuses(&request), []);
    let promise = request.promise::<u32>();
    assert_eq!(statuses(&request), [Status::Unset]);
    let (own, fails) = (request.clone(), || Err::<u32, _>("inner"));
    let composed = promise.clone().compose(move |_| own.try_supply(fails)).recover(|_| 7);
    promise.complete(1).unwrap();
    assert_eq!(composed.wait().unwrap(), 7);
    assert_eq!(statuses(&request)[0], Status::Ok);
    let own = request.clone();
    request.supply(move || drop(own.try_supply(fails))).wait().unwrap();
    assert_eq!(statuses(&request)[0], Status::Ok);
    let below = request.try_supply(fails);
    assert_eq!(request.supply(|| 1).compose(move |_| below).recover(|_| 7).wait().unwrap(), 7);
    assert_eq!(statuses(&request)[0], Status::Ok);
    request.promise::<u32>().cancel();
    assert_eq!(statuses(&request)[0], Status::Error("cancelled".into()));
}

#[test]
fn a_span_ends_with_its_function() {
    comes_back(|| {
        let request = Request::new("r", Pool::new(1));
        let gate = Arc::new(Barrier::new(2));
        let inside = Arc::clone(&gate);
        let twice = move || {
            inside.wait();
            inside.wait();
        };
        let late = request.supply(twice);
        gate.wait();
        assert!(late.or_timeout(SHORT).wait().unwrap_err().is_timeout());
        let open = request.history().spans();
        assert_eq!((&open[1].status, open[1].end), (&Status::Error(format!("timed out, timed out after {SHORT:?}")), open[0].end));
        gate.wait();
        let behind = request.supply(|| 1);
        assert_eq!(behind.wait().unwrap(), 1);
        assert!(request.history().spans()[1].end > open[1].end);
    });
}

#[test]
fn a_file_has_a_line_for_each_request() {
    let path = std::env::temp_dir().join(format!("cf-spans-{}.jsonl", std::process::id()));
    let file = SpanFile::new(&path, "shop");
    let request = Request::new("order \"17\"\n", Inline);
    let load = request.supply(|| 1).named("load");
    drop(load.and_then(|_| Err::<u32, _>("declined")).named("charge"));
    for _ in 0..2 {
        file.add(&request.history()).unwrap();
    }
    file.add(&Request::new("nothing", Inline).history()).unwrap();
    let text = std::fs::read_to_string(&path).unwrap();
    std::fs::remove_file(&path).unwrap();
    let lines: Vec<&str> = text.lines().collect();
    let traces: Vec<&str> = lines.iter().map(|line| &line[line.find("traceId").unwrap() + 10..][..32]).collect();
    assert!(lines.len() == 2 && traces[0] != traces[1]);
    let mut shown = lines[0].replace(traces[0], "T");
    for time in ["startTimeUnixNano", "endTimeUnixNano", "timeUnixNano"] {
        let parts: Vec<String> = shown.split(&format!("\"{time}\":\"")).map(str::to_owned).collect();
        shown = parts[0].clone()
            + &parts[1..].iter().map(|part| format!("\"{time}\":\"N{}", part.trim_start_matches(char::is_numeric))).collect::<String>();
    }
    let caller = shown.split("cf.caller\",\"value\":{\"stringValue\":\"").nth(1).unwrap().split('"').next().unwrap().to_owned();
    let shown = shown.replace(&caller, "W");
    let times = r#""kind":1,"startTimeUnixNano":"N","endTimeUnixNano":"N","attributes":["#;
    let called = |stage: u16, form: &str| {
        format!(
            "{times}{{\"key\":\"cf.stage\",\"value\":{{\"intValue\":\"{stage}\"}}}},{{\"key\":\"cf.caller\",\"value\":{{\"stringValue\":\"W\"}}}},\
             {{\"key\":\"cf.form\",\"value\":{{\"stringValue\":\"{form}\"}}}}],\"events\":["
        )
    };
    let expected = [
        r#"{"resourceSpans":[{"resource":{"attributes":[{"key":"service.name","value":{"stringValue":"shop"}}]},"#,
        r#""scopeSpans":[{"scope":{"name":"cf"},"spans":[{"traceId":"T","spanId":"ffffffffffffffff","name":"order \"17\"\n","#,
        times,
        r#"],"events":[],"links":[],"status":{"code":2,"message":"declined"}},"#,
        r#"{"traceId":"T","spanId":"0000000000000001","parentSpanId":"ffffffffffffffff","name":"load","#,
        &called(0, "supply"),
        r#"],"links":[],"status":{"code":1}},"#,
        r#"{"traceId":"T","spanId":"0000000000000002","parentSpanId":"ffffffffffffffff","name":"charge","#,
        &called(1, "apply"),
        r#"{"timeUnixNano":"N","name":"exception","attributes":[{"key":"exception.message","value":{"stringValue":"declined"}}]}"#,
        r#"],"links":[{"traceId":"T","spanId":"0000000000000001"}],"status":{"code":2,"message":"declined"}}]}]}]}"#,
    ];
    assert_eq!(shown, expected.concat());
}
