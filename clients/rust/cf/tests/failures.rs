//! Time-outs and bad answers: events of their own in all that is told, and errors that are kept for all that hangs on them.
mod common;

use cf::{Describe, Error, HandClock, Inline, Job, Request, Stage};
use common::Keeps;
use std::fmt::Debug;
use std::sync::{Arc, Mutex};
use std::time::Duration;

const fn seconds(count: u64) -> Duration {
    Duration::from_secs(count)
}

fn failing(clock: &HandClock) -> Request {
    Request::with_clock("failures", Arc::new(Inline), Arc::new(clock.clone()))
}

/// What a history tells, without its head and its times.
fn told(failing: &Request) -> Vec<String> {
    failing.history().to_string().lines().skip(1).map(|line| line[14..].to_owned()).collect()
}

/// How many seconds the stage had whose time ran out, and its number.
fn timed_out<T: Clone + Debug + Send + Sync + 'static>(failed_stage: &Stage<T>) -> (u64, Option<u16>) {
    match failed_stage.peek() {
        Some(Err(Error::TimedOut(wait))) => (wait.as_secs(), failed_stage.blamed()),
        other => panic!("{other:?}"),
    }
}

/// The script does all again, by the library alone.
fn is_done_again(failing: &Request) {
    let history = failing.history();
    assert_eq!(cf_graph::run_script(history.script().as_bytes()), Ok(history.report()));
    assert!(history.is_reproducible());
}

#[test]
fn a_time_out_is_told_as_one() {
    let clock = HandClock::new();
    let failing = failing(&clock);
    let first = failing.promise::<i32>().named("first").or_timeout(seconds(4));
    let price = failing.promise::<i32>().named("price").or_timeout(seconds(5)).or_timeout(seconds(6));
    let behind = price.clone().then(|n| n + 1).named("behind");
    clock.turn(seconds(6));
    assert!(matches!(price.wait(), Err(Error::TimedOut(wait)) if wait == seconds(5)));
    assert_eq!((timed_out(&first), timed_out(&price), timed_out(&behind)), ((4, Some(0)), (5, Some(1)), (5, Some(1))));
    assert_eq!(
        told(&failing)[5..],
        ["clock times out 1 price, TEXT", "1 price ends: timed out, TEXT", "2 behind ends: timed out, TEXT, passed on"]
            .map(|line| line.replace("TEXT", "timed out after 5s"))
    );
    let history = failing.history();
    // The code is one more than the number of the stage of which the error is.
    assert_eq!(history.words()[3..], [8 << 56 | 1 << 48 | 1, 8 << 56 | 1 << 48 | 1 << 36 | 2]);
    let attaches = r#"["attach",{"form":"source"}],["attach",{"form":"source"}],["attach",{"form":"apply","of":[1],"fn":{"const":2}}]"#;
    let steps = r#"["failAs",0,"timeout",1],["failAs",1,"timeout",2]"#;
    assert_eq!(history.script(), format!(r#"{{"cf":3,"room":3,"stages":[],"steps":[{attaches},{steps}]}}"#));
    let ends = "stage 0 fault timeout 1 raw\nstage 1 fault timeout 2 raw\nstage 2 fault timeout 2 wrapped\n";
    assert_eq!(history.report(), format!("attached 0\nattached 1\nattached 2\ntrue\ntrue\n{ends}"));
    let account = history.account();
    assert!(account.contains(r#"["did",5,"576742295999610882","true"],["outcome",5,1,"fault timeout 2 raw"]"#), "{account}");
    assert!(account.contains(r#""errors":["","timed out after 4s","timed out after 5s",""]"#), "{account}");
    is_done_again(&failing);
    let failing = failing.described(Describe::Nothing);
    assert_eq!(told(&failing)[6], "1 price ends: timed out, -");
    assert!(failing.history().account().contains(r#""errors":["","-","-",""]"#));
}

/// A caller may say so, too.
#[test]
fn a_bad_answer_is_told_as_one() {
    let failing = failing(&HandClock::new());
    let price = failing.promise::<i32>().named("price");
    let behind = price.clone().then(|n| n + 1).named("behind");
    assert!(price.fail(Error::BadAnswer) && !price.fail(Error::BadAnswer) && !price.fail(Error::TimedOut(seconds(3))));
    assert!(matches!((price.wait(), behind.wait()), (Err(Error::BadAnswer), Err(Error::BadAnswer))));
    assert_eq!((price.blamed(), behind.blamed()), (Some(0), Some(0)));
    let slow = failing.promise::<i32>().named("slow");
    assert!(slow.fail(Error::TimedOut(seconds(3))));
    assert_eq!(timed_out(&slow), (3, Some(2)));
    assert_eq!(
        told(&failing)[2..],
        [
            "caller fails 0 price with a bad answer, a stage can't wait for that stage",
            "0 price ends: a bad answer, a stage can't wait for that stage",
            "1 behind ends: a bad answer, a stage can't wait for that stage, passed on",
            "caller fails 0 price with a bad answer: too late",
            "caller times out 0 price: too late",
            "caller attaches 2 slow, source",
            "caller times out 2 slow, timed out after 3s",
            "2 slow ends: timed out, timed out after 3s",
        ]
    );
    let bad = failing.promise::<i32>();
    assert!(bad.fail(Error::BadAnswer) && bad.then(|n| n + 1).blamed() == Some(3));
    let script = failing.history().script();
    assert!(script.starts_with(r#"{"cf":3,"room":5,"#) && script.contains(r#"["failAs",0,"badanswer",1],["failAs",0,"timeout",1]"#), "{script}");
    assert!(script.contains(r#"["failAs",2,"timeout",3]"#) && script.contains(r#"["failAs",3,"badanswer",4]"#), "{script}");
    is_done_again(&failing);
}

/// A stage that waits for one of a higher number of its request, and that one, which it was given before or after it ended.
fn composed(failing: &Request, is_late: bool, ends: impl FnOnce(&Stage<i32>)) -> Stage<i32> {
    let gate = failing.promise::<i32>();
    let given: Arc<Mutex<Option<Stage<i32>>>> = Arc::default();
    let gives = Arc::clone(&given);
    let composed = gate.clone().compose(move |_| gives.lock().unwrap().take().unwrap());
    let later = failing.promise::<i32>().named("later");
    *given.lock().unwrap() = Some(later.clone());
    if is_late {
        ends(&later);
        gate.complete(1).unwrap();
    } else {
        gate.complete(1).unwrap();
        ends(&later);
    }
    composed
}

#[test]
fn relays_end_as_what_they_stand_for() {
    for is_late in [false, true] {
        for (error, ends, raw) in [
            (Error::TimedOut(seconds(5)), ["relay times out ", " ends: timed out"], "fault timeout"),
            (Error::BadAnswer, ["relay fails ", " ends: a bad answer"], "fault badanswer"),
        ] {
            let text = error.to_string();
            // Of the same request: 0 its gate, 1 the relay, 2 what waits, 3 the stage for which the relay stands.
            let own = failing(&HandClock::new());
            let composed = composed(&own, is_late, |later| assert!(later.fail(error.clone())));
            assert_eq!((composed.wait().unwrap_err().to_string(), composed.blamed()), (text.clone(), Some(3)));
            assert!(own.history().report().contains(&format!("stage 1 {raw} 4 raw\nstage 2 {raw} 4 wrapped\nstage 3 {raw} 4 raw\n")));
            // Of another one.
            let (slow, other) = (failing(&HandClock::new()).promise::<i32>(), failing(&HandClock::new()));
            let relay = if is_late { None } else { Some(other.adopt(&slow)) };
            assert!(slow.fail(error));
            let relay = relay.unwrap_or_else(|| other.adopt(&slow));
            assert_eq!((relay.wait().unwrap_err().to_string(), relay.blamed()), (text.clone(), Some(0)));
            assert!(other.history().report().ends_with(&format!("stage 0 {raw} 1 raw\n")));
            for failing in [own, other] {
                let told = told(&failing);
                let at = told.iter().position(|line| line.starts_with(ends[0]) && line.contains(" relay of ")).expect("it says so");
                assert!(told[at + 1].ends_with(&format!("{}, {text}", ends[1])), "{told:?}");
                is_done_again(&failing);
            }
        }
    }
}

/// Each stage has the error of the one from which it came, as if that had been thrown.
#[test]
fn each_has_the_time_that_ran_out() {
    let clock = HandClock::new();
    let failing = failing(&clock);
    let (a, b, never) = (failing.promise::<i32>(), failing.promise::<i32>(), failing.promise::<i32>());
    let (five, three) = ((5, Some(0)), (3, Some(1)));
    let (one, two) = (a.clone().or_timeout(seconds(5)), b.clone().or_timeout(seconds(3)));
    let both = one.clone().combine(&two, |a, b| a + b);
    let last = two.clone().combine(&one, |a, b| a + b).then(|n| n + 1);
    let first = one.clone().either(&two, |n| *n);
    let all = failing.all_of([&never.clone().recover(|_| 1) as &dyn cf::AnyStage, &two, &one]);
    let any = failing.first_of([&never, &one, &two]);
    let own = one.clone().combine(&never, |a, b| a + b).or_timeout(seconds(7));
    let limited = one.clone().then(|n| n + 1).or_timeout(seconds(6));
    let handled = one.clone().inspect(|_| panic!("left aside"));
    let links = two.clone().recover_compose(move |_| a);
    let composed = failing.supply(|| 1).compose(move |_| b);
    let other = request_of_another(&clock, &two);
    clock.turn(seconds(7));
    assert_eq!((timed_out(&both), timed_out(&last), timed_out(&first), timed_out(&any)), (five, three, three, three));
    assert_eq!((timed_out(&own), timed_out(&handled), timed_out(&links), timed_out(&composed)), ((7, own.number()), five, five, three));
    assert_eq!((timed_out(&other), timed_out(&limited)), ((3, Some(0)), five));
    // What is attached behind them then.
    assert_eq!((timed_out(&last.clone().then(|n| n + 1)), timed_out(&one.clone().combine(&two, |a, b| a + b))), (three, five));
    assert_eq!((timed_out(&two.either(&one, |n| *n)), timed_out(&failing.gather([&one, &last]))), (three, five));
    assert!(!all.is_settled());
    assert!(never.fail(Error::BadAnswer));
    assert_eq!(timed_out(&all), three);
    is_done_again(&failing);
}

/// What hangs on a stage of another request.
fn request_of_another(clock: &HandClock, failed_stage: &Stage<i32>) -> Stage<i32> {
    failing(clock).adopt(failed_stage).then(|n| n + 1)
}

/// A worker that calls functions one after another calls each with the error of its own source.
#[test]
fn each_function_is_called_with_its_own() {
    let (clock, keeps) = (HandClock::new(), Keeps::default());
    let failing = Request::with_clock("functions", Arc::new(keeps.clone()), Arc::new(clock.clone()));
    let behind: Vec<Stage<String>> = [5, 3, 4]
        .into_iter()
        .map(|wait| {
            let slow = failing.promise::<i32>().or_timeout(seconds(wait));
            slow.then(|n| n + 1).handle(|told| told.map_or_else(Error::to_string, |n| n.to_string()))
        })
        .collect();
    let bad = failing.promise::<i32>();
    let told = bad.clone().handle(|told| told.map_or_else(Error::to_string, |n| n.to_string()));
    assert!(bad.fail(Error::BadAnswer));
    clock.turn(seconds(5));
    loop {
        let jobs = std::mem::take(&mut *keeps.0.lock().unwrap());
        if jobs.is_empty() {
            break;
        }
        jobs.into_iter().for_each(Job::run);
    }
    let texts: Vec<String> = behind.iter().map(|failed_stage| failed_stage.peek().unwrap().unwrap()).collect();
    assert_eq!(texts, ["timed out after 5s", "timed out after 3s", "timed out after 4s"]);
    assert_eq!(told.peek().unwrap().unwrap(), Error::BadAnswer.to_string());
    is_done_again(&failing);
}

/// A row of stages all of which end at once.
#[test]
fn a_long_row_times_out() {
    let clock = HandClock::new();
    let failing = failing(&clock);
    let first = failing.promise::<i32>();
    let mut last = first.clone();
    for _ in 1..4096 {
        last = last.then(|n| n + 1);
    }
    drop(first.or_timeout(seconds(5)));
    clock.turn(seconds(5));
    assert_eq!(timed_out(&last), (5, Some(0)));
}
