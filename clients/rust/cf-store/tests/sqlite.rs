//! Requests in a file of SQLite's, or in a database of PostgreSQL's.
#[macro_use]
mod common;

use cf_graph::{Call, Event, Failure};
use cf_store::{Entry, Error, Failed, Functions, Mark, Opened, Options, Put, Request, SQLite, Service, Store, StoreError, Timer, WordCounts};
use common::{hasty, patient, settled, until, AnyStore, Place};
use rustix::fs::{flock, FlockOperation};
use serde_json::{json, Value};
use std::collections::BTreeMap;
use std::process::Command;
use std::sync::atomic::{AtomicU32, Ordering};
use std::sync::{Arc, Barrier};
use std::time::Duration;

fn add_one(number: i64) -> Result<i64, String> {
    Ok(number + 1)
}

#[test]
fn functions_are_called_with_what_is_behind_them() {
    let place = Place::new("functions");
    let functions = Functions::new()
        .with("seven", 1, || Ok::<_, String>(7))
        .with("inc", 1, add_one)
        .with("add", 1, |a: i64, b: i64| Ok::<_, String>(a + b))
        .with("declined", 1, |_: i64| Err::<i64, _>("card declined"))
        .with("kind", 1, |_: i64| Err::<i64, _>(Failed::new("NoStock", "none left")))
        .with("sorry", 1, |failed: Failed| Ok::<_, String>(format!("sorry, {failed}")))
        .with("either_way", 1, |value: Option<i64>, failed: Option<Failed>| Ok::<_, String>(json!([value, failed.map(|it| it.text)])))
        .with("panics", 1, |_: i64| -> Result<i64, String> { panic!("oh") })
        .with("wants_text", 1, |text: String| Ok::<_, String>(text));
    let service = Service::new(place.store(), functions).unwrap();
    let request = service.request("all").unwrap();
    let number = request.promise("number").unwrap();
    let inc = number.then("inc").unwrap();
    let sum = inc.combine(&request.supply("seven", &[]).unwrap(), "add").unwrap();
    let declined = inc.then("declined").unwrap();
    assert!(number.complete(&41).unwrap());
    assert!(!number.complete(&1).unwrap());
    assert_eq!(settled::<i64>(&sum), Ok(49));
    let sorry = declined.recover("sorry").unwrap();
    assert_eq!(settled::<String>(&sorry), Ok("sorry, card declined".into()));
    assert!(matches!(settled::<i64>(&declined), Err(Error::Failed(failed)) if failed.text == "card declined" && failed.args.is_none()));
    assert_eq!(settled::<i64>(&inc.then("kind").unwrap()), Err(Error::Failed(Failed::new("NoStock", "none left"))));
    assert_eq!(settled::<Value>(&inc.handle("either_way").unwrap()), Ok(json!([42, null])));
    assert_eq!(settled::<Value>(&declined.handle("either_way").unwrap()), Ok(json!([null, "card declined"])));
    assert_eq!(settled::<i64>(&inc.then("panics").unwrap()), Err(Error::Failed(Failed::new("Panic", "oh"))));
    assert!(matches!(settled::<String>(&inc.then("wants_text").unwrap()), Err(Error::Failed(failed)) if failed.kind == "TypeError"));
    assert!(matches!(settled::<String>(&inc), Err(Error::Unreadable(_))));
    assert_eq!(settled::<i64>(&request.supply("add", &[json!(1), json!(2)]).unwrap()), Ok(3));
    assert_eq!(settled::<i64>(&request.promise("never").unwrap().either(&inc, "inc").unwrap()), Ok(43));
    assert_eq!(settled::<Value>(&request.all_of(&[&inc, &sum, &sorry]).unwrap()), Ok(Value::Null));
    assert_eq!(settled::<i64>(&request.first_of(&[&inc, &request.promise("late").unwrap()]).unwrap()), Ok(42));
    assert!(matches!(inc.then("nobody"), Err(StoreError::NotRegistered(name)) if name == "nobody"));
}

#[test]
fn another_service_goes_on_with_it() {
    let place = Place::new("another");
    let calls = Arc::new(AtomicU32::new(0));
    let counted = |calls: &Arc<AtomicU32>| {
        let calls = Arc::clone(calls);
        move |number: i64| {
            calls.fetch_add(1, Ordering::SeqCst);
            Ok::<_, String>(number + 1)
        }
    };
    let first = Service::new(place.store(), Functions::new().with("inc", 1, counted(&calls))).unwrap();
    let request = first.request("shared").unwrap();
    let number = request.promise("number").unwrap();
    let mut last = number.clone();
    for _ in 0..20 {
        last = last.then("inc").unwrap();
    }
    for _ in 0..20 {
        number.then("inc").unwrap(); // (all of these are ready at once)
    }
    drop(first);
    assert!(matches!(last.wait::<i64>(), Err(Error::Store(StoreError::Refused(_)))), "the service is shut down");
    let workers: Vec<_> = (0..3)
        .map(|_| {
            let mut options = patient();
            options.takes_all = true;
            Service::with(place.store(), Functions::new().with("inc", 1, counted(&calls)), options).unwrap()
        })
        .collect();
    let second = Service::with(place.store(), Functions::new(), patient()).unwrap();
    let request = second.open("shared").unwrap();
    assert!(request.stage(0).unwrap().complete(&0).unwrap());
    assert_eq!(settled::<i64>(&request.stage(20).unwrap()), Ok(20));
    for number in 21..41 {
        assert_eq!(settled::<i64>(&request.stage(number).unwrap()), Ok(1));
    }
    assert_eq!(calls.load(Ordering::SeqCst), 40, "each function is called once");
    drop(workers);
    assert_eq!(settled::<i64>(&request.stage(20).unwrap()), Ok(20));
    assert!(matches!(second.open("no such"), Err(StoreError::Gone(name)) if name == "no such"));
}

#[test]
fn what_is_closed_is_opened_again() {
    let place = Place::new("closed");
    let service = Service::with(place.store(), Functions::new().with("inc", 1, add_one), hasty()).unwrap();
    let request = service.request("closed").unwrap();
    let number = request.promise("number").unwrap();
    number.complete(&1).unwrap();
    assert_eq!(request.name(), "closed");
    let store = place.store();
    assert!(store.news(None).unwrap().0.contains_key("closed"));
    request.end().unwrap();
    assert!(!store.news(None).unwrap().0.contains_key("closed"));
    std::thread::sleep(Duration::from_millis(300)); // (the service lets it go by then)
    let inc = number.then("inc").unwrap();
    assert!(store.news(None).unwrap().0.contains_key("closed"));
    assert_eq!(settled::<i64>(&inc), Ok(2));
    assert_eq!(service.resume().unwrap().len(), 1);
}

#[test]
fn timers_are_fired_by_any_service() {
    let place = Place::new("timers");
    let service = Service::with(place.store(), Functions::new(), patient()).unwrap();
    let request = service.request("timers").unwrap();
    let [slow, other, soon] = ["slow", "other", "soon"].map(|name| request.promise(name).unwrap());
    slow.or_timeout(Duration::from_millis(50)).unwrap();
    other.complete_on_timeout("in its place", Duration::from_millis(50)).unwrap();
    soon.or_timeout(Duration::from_secs(60)).unwrap();
    soon.complete(&Value::Null).unwrap();
    assert_eq!(settled::<i64>(&slow), Err(Error::TimedOut(Some(Failed::new("TimeoutError", "slow took longer than 0.05 s")))));
    assert_eq!(settled::<String>(&other), Ok("in its place".into()));
    assert_eq!(settled::<Value>(&soon), Ok(Value::Null));
    drop(service);
    let due = place.store().due_timers(f64::MAX).unwrap();
    assert_eq!(due.iter().map(|timer| timer.stage).collect::<Vec<_>>(), [2], "what was fired is forgotten");
}

/// The code of a time-out is the place of the word whose payload says what ran out. All that hangs on the stage has it, too.
#[test]
fn each_has_the_time_that_ran_out() {
    let place = Place::new("ran_out");
    let functions = Functions::new()
        .with("add", 1, |a: i64, b: i64| Ok::<_, String>(a + b))
        .with("either_way", 1, |value: Option<i64>, failed: Option<Failed>| Ok::<_, String>(json!([value, failed.map(|it| it.text)])))
        .composing("waiting", 1, |request: &Request, number: u16| Ok::<_, Failed>(request.stage(number).unwrap()));
    let service = Service::with(place.store(), functions, patient()).unwrap();
    let request = service.request("ran out").unwrap();
    let [one, two, given] = ["one", "two", "given"].map(|name| request.promise(name).unwrap());
    let first = [one.combine(&two, "add").unwrap(), given.compose("waiting").unwrap()];
    let second = [two.combine(&one, "add").unwrap(), request.all_of(&[&two, &one]).unwrap()];
    let handled = one.handle("either_way").unwrap();
    one.or_timeout(Duration::from_millis(50)).unwrap();
    two.or_timeout(Duration::from_millis(60)).unwrap();
    given.complete(&one.number()).unwrap();
    let late = |text: &str| Err(Error::TimedOut(Some(Failed::new("TimeoutError", text))));
    let reader = Service::with(place.store(), Functions::new(), patient()).unwrap();
    let other = reader.open("ran out").unwrap();
    for (stages, text) in [(first, "one took longer than 0.05 s"), (second, "two took longer than 0.06 s")] {
        for stage in stages {
            assert_eq!(settled::<i64>(&stage), late(text));
            assert_eq!(settled::<i64>(&other.stage(stage.number()).unwrap()), late(text));
        }
    }
    assert_eq!(settled::<Value>(&handled), Ok(json!([null, "one took longer than 0.05 s"])));
    let store = place.store();
    let number = store.find("ran out").unwrap().unwrap().number;
    let mut failed = Vec::new();
    for (at, entry) in (1..).zip(store.read("ran out", number, 0).unwrap()) {
        if let Call::FailAs(stage, failure) = Event::from_word(entry.word).unwrap().call {
            assert_eq!(failure, Failure::TimedOut(at));
            assert!(store.payload("ran out", number, at as usize).unwrap().is_some());
            failed.push(stage);
        }
    }
    let account = request.history().unwrap().account().unwrap();
    assert!(account.contains("one took longer than 0.05 s") && account.contains("two took longer than 0.06 s"), "{account}");
    failed.sort_unstable();
    assert_eq!(failed, [0, 1, 4], "both promises, and what the composing stage waits for");
}

#[test]
fn a_request_that_is_cancelled() {
    let place = Place::new("cancelled");
    let (begun, goes) = (Arc::new(AtomicU32::new(0)), Arc::new(Barrier::new(2)));
    let (begins, waits) = (begun.clone(), goes.clone());
    let waiting = move || {
        begins.fetch_add(1, Ordering::SeqCst);
        waits.wait();
        Ok::<_, String>(1)
    };
    let working = Service::with(place.store(), Functions::new().with("waits", 1, waiting), patient()).unwrap();
    let other = Service::with(place.store(), Functions::new(), patient()).unwrap();
    let request = working.request("cancelled").unwrap();
    let (runs, is_settled) = (request.supply("waits", &[]).unwrap(), request.promise("settled").unwrap());
    assert!(is_settled.complete(&1).unwrap());
    for _ in 0..40 {
        request.promise("open").unwrap();
    }
    until(|| begun.load(Ordering::SeqCst) == 1);
    let late = other.open("cancelled").unwrap().promise("late").unwrap();
    request.cancel_all().unwrap();
    let left: Vec<u16> = std::iter::once(0).chain(2..43).collect();
    let cancelled = |number: &u16| request.stage(*number).unwrap().peek::<i64>() == Err(Error::Cancelled);
    assert_eq!((0..43).filter(cancelled).collect::<Vec<_>>(), left, "also what runs, and what another process has attached");
    assert_eq!(settled::<i64>(&late), Err(Error::Cancelled));
    let store = place.store();
    let opened = store.find("cancelled").unwrap().unwrap();
    let words = store.read("cancelled", opened.number, 0).unwrap();
    let by_words: Vec<u16> = words.iter().filter(|it| it.word >> 56 == 3).map(|it| (it.word >> 36) as u16 & 0xfff).collect();
    assert_eq!(by_words, left.iter().rev().copied().collect::<Vec<_>>(), "the last one first");
    request.cancel_all().unwrap();
    assert_eq!(request.promise("later").unwrap().number(), 43);
    goes.wait();
    assert_eq!(settled::<i64>(&is_settled), Ok(1));
    assert_eq!(settled::<i64>(&runs), Err(Error::Cancelled));
}

#[test]
fn settled_once() {
    let place = Place::new("settled");
    let service = Service::with(place.store(), Functions::new(), patient()).unwrap();
    let request = service.request("settled").unwrap();
    let [failed, cancelled, left] = ["failed", "cancelled", "left"].map(|name| request.promise(name).unwrap());
    assert!(failed.fail(&Failed::new("Closed", "we are closed")).unwrap());
    assert!(!failed.cancel().unwrap());
    assert!(cancelled.cancel().unwrap());
    assert!(cancelled.abandon().unwrap(), "it is cancelled after the call");
    assert!(!cancelled.complete(&1).unwrap());
    assert_eq!(settled::<i64>(&failed), Err(Error::Failed(Failed::new("Closed", "we are closed"))));
    assert_eq!(settled::<i64>(&cancelled), Err(Error::Cancelled));
    assert_eq!(left.peek::<i64>(), Ok(None));
    assert_eq!(left.wait_timeout::<i64>(Duration::from_millis(5)), Ok(None));
    let large = "x".repeat(100_000);
    assert!(left.complete(&large).unwrap());
    assert_eq!(settled::<String>(&left), Ok(large.clone()));
    let other = Service::with(place.store(), Functions::new(), patient()).unwrap();
    let there = other.open("settled").unwrap().named("left").unwrap().unwrap();
    assert_eq!((there.number(), settled::<String>(&there)), (2, Ok(large)));
}

#[test]
fn a_request_is_full() {
    let place = Place::new("full");
    let service = Service::with(place.store(), Functions::new(), patient()).unwrap();
    let request = service.request("full").unwrap();
    let first = request.promise("promise").unwrap();
    let many = 40; // (each is a commit)
    for _ in 1..many {
        request.promise("promise").unwrap();
    }
    assert!(first.complete(&1).unwrap());
    assert_eq!(request.stage(many - 1).unwrap().number(), many - 1);
    assert!(request.stage(many).is_none());
}

/// What the process that dies does: it claims the stage, and is gone.
fn dies(request: &Request) {
    let _never = settled::<i64>(&request.stage(1).unwrap());
}

#[test]
fn a_process_dies() {
    if let Ok(address) = std::env::var("CF_STORE_DIES") {
        let functions = Functions::new().with("inc", 1, |_: i64| -> Result<i64, String> { std::process::abort() });
        let service = Service::with(AnyStore::open(&address), functions, patient()).unwrap();
        return dies(&service.open("dies").unwrap());
    }
    let place = Place::new("dies");
    let mut nobody = patient();
    nobody.threads = 0;
    let planner = Service::with(place.store(), Functions::new().with("inc", 1, add_one), nobody).unwrap();
    let request = planner.request("dies").unwrap();
    let number = request.promise("number").unwrap();
    let once = number.then("inc").unwrap();
    let again = once.again(1).unwrap();
    number.complete(&1).unwrap();
    drop(planner);
    let child = Command::new(std::env::current_exe().unwrap()).arg("a_process_dies").env("CF_STORE_DIES", place.address()).status().unwrap();
    assert!(!child.success());
    let service = Service::with(place.store(), Functions::new().with("inc", 1, add_one), hasty()).unwrap();
    let request = service.open("dies").unwrap();
    assert_eq!(
        settled::<i64>(&request.stage(once.number()).unwrap()),
        Err(Error::Abandoned("the worker that ran inc is gone, and it may have run".into()))
    );
    assert_eq!(settled::<i64>(&request.stage(again.number()).unwrap()), Ok(2));
}

#[test]
fn what_hangs_on_an_abandoned_stage_is_not_tried_again() {
    let place = Place::new("hangs");
    let functions = Functions::new().with("null", 1, |_: Option<i64>| Ok::<_, String>(1)).with("nulls", 1, |_: Value, _: Value| Ok::<_, String>(1));
    let service = Service::new(place.store(), functions).unwrap();
    let request = service.request("hangs").unwrap();
    let (one, two) = (request.promise("one").unwrap(), request.promise("two").unwrap());
    let tries = [one.then("null").unwrap(), one.either(&two, "null").unwrap(), one.combine(&two, "nulls").unwrap()].map(|it| it.again(2).unwrap());
    assert!(one.fail(&Failed::new("Abandoned", "gone")).unwrap());
    assert!(two.complete(&1).unwrap());
    for last in tries {
        assert_eq!(settled::<i64>(&last), Err(Error::Abandoned("gone".into())));
    }
}

#[test]
fn a_try_whose_process_is_gone_is_done_once_more() {
    let place = Place::new("once more");
    let functions = || Functions::new().with("null", 1, |_: Option<i64>| Ok::<_, String>(1));
    let mut nobody = patient();
    nobody.threads = 0;
    let planner = Service::with(place.store(), functions(), nobody).unwrap();
    let request = planner.request("once more").unwrap();
    let one = request.promise("one").unwrap();
    let last = one.then("null").unwrap().again(2).unwrap();
    assert!(one.fail(&Failed::new("Closed", "we are closed")).unwrap());
    assert!(request.stage(last.number() - 1).unwrap().fail(&Failed::new("Abandoned", "gone")).unwrap());
    let service = Service::with(place.store(), functions(), patient()).unwrap();
    let told = settled::<i64>(&service.open("once more").unwrap().stage(last.number()).unwrap());
    assert_eq!(told, Err(Error::Failed(Failed::new("Closed", "we are closed"))));
}

#[test]
fn a_try_of_a_try_calls_the_function_of_the_first_stage() {
    let place = Place::new("tries");
    let mut nobody = patient();
    nobody.threads = 0;
    let planner = Service::with(place.store(), Functions::new().with("inc", 1, add_one), nobody).unwrap();
    let request = planner.request("tries").unwrap();
    let number = request.promise("number").unwrap();
    let first = number.then("inc").unwrap();
    let second = first.again(1).unwrap();
    let third = second.again(1).unwrap();
    assert!(number.complete(&1).unwrap());
    for lost in [first, second] {
        assert!(lost.fail(&Failed::new("Abandoned", "gone")).unwrap());
    }
    let service = Service::with(place.store(), Functions::new().with("inc", 1, add_one), patient()).unwrap();
    assert_eq!(settled::<i64>(&service.open("tries").unwrap().stage(third.number()).unwrap()), Ok(2));
}

/// The further try of a stage that was settled by hand, and whose function wasn't called, is called with what its sources hold.
#[test]
fn a_try_of_what_was_settled_by_hand() {
    let place = Place::new("by hand");
    let functions = || Functions::new().with("say", 1, |it: Value| Ok::<_, String>(json!({ "got": it })));
    let mut nobody = patient();
    nobody.threads = 0;
    let planner = Service::with(place.store(), functions(), nobody).unwrap();
    let request = planner.request("by hand").unwrap();
    let tried = |first: Value, second: Value| {
        let (one, two) = (request.promise("one").unwrap(), request.promise("two").unwrap());
        let either = one.either(&two, "say").unwrap();
        let again = either.again(1).unwrap();
        assert!(one.complete(&first).unwrap() && two.complete(&second).unwrap());
        assert!(either.fail(&Failed::new("Abandoned", "by hand")).unwrap());
        again.number()
    };
    let rows = [(json!(null), json!(5)), (json!(5), json!(null)), (json!(5), json!(6)), (json!(null), json!(null))];
    let tries = rows.clone().map(|(first, second)| (tried(first.clone(), second), first));
    let service = Service::with(place.store(), functions(), patient()).unwrap();
    let request = service.open("by hand").unwrap();
    for (again, first) in tries {
        assert_eq!(settled::<Value>(&request.stage(again).unwrap()), Ok(json!({ "got": first })), "null is a value, too");
    }
}

#[test]
fn what_is_no_row_is_told() {
    let place = Place::new("broken");
    let store = place.store();
    store.open("no plan", "{}").unwrap();
    let service = Service::with(place.store(), Functions::new(), patient()).unwrap();
    store.open("old plan", r#"{"cf":2,"flow":"","stages":[]}"#).unwrap();
    for name in ["no plan", "old plan"] {
        assert!(matches!(service.open(name), Err(StoreError::Broken { place: 0, .. })));
    }
    if let Some(path) = Place::new("no database").file() {
        std::fs::write(path, "this is no database, as its first bytes tell. ".repeat(50)).unwrap();
        assert!(matches!(SQLite::open(path), Err(StoreError::Refused(_))));
    }
}

#[test]
fn python_goes_on_with_it() {
    let place = Place::new("python");
    if common::python_goes_on(place.address(), || place.store()).is_none() {
        eprintln!("left out: CF_PYTHON names no client for Python with its C module");
    }
}

/// A store of which the first two that read have to do so at the same time.
struct Meets {
    store: AnyStore,
    reads: AtomicU32,
    both: Barrier,
}

macro_rules! met {
    ($(fn $name:ident($($arg:ident: $type:ty),*) -> $told:ty;)*) => {$(
        fn $name(&self, $($arg: $type),*) -> Result<$told, StoreError> {
            if stringify!($name) == "read" && self.reads.fetch_add(1, Ordering::SeqCst) < 2 {
                self.both.wait();
            }
            self.store.$name($($arg),*)
        }
    )*};
}

impl Store for Meets {
    questions!(met);
}

#[test]
fn two_threads_that_open_a_request_have_the_same_one() {
    let place = Place::new("meets");
    Service::new(place.store(), Functions::new()).unwrap().request("r").unwrap().promise("p").unwrap();
    let store = Meets { store: place.store(), reads: AtomicU32::new(0), both: Barrier::new(2) };
    let service = Service::new(store, Functions::new()).unwrap();
    let opened = std::thread::scope(|scope| [(); 2].map(|()| scope.spawn(|| service.open("r").unwrap())).map(|it| it.join().unwrap()));
    for request in opened {
        assert_eq!(request.stage(0).unwrap().peek::<i64>(), Ok(None));
    }
}

/// Who writes waits for the turn of another process.
#[test]
fn who_has_no_turn_waits() {
    let place = Place::new("turns");
    let Some(path) = place.file() else { return };
    let (store, done) = (place.store(), Arc::new(AtomicU32::new(0)));
    let line = std::fs::File::options().write(true).open(format!("{}-line", path.display())).unwrap();
    flock(&line, FlockOperation::LockExclusive).unwrap();
    std::thread::scope(|scope| {
        let opens = scope.spawn(|| {
            store.open("r", "{}").unwrap();
            done.load(Ordering::SeqCst)
        });
        std::thread::sleep(Duration::from_millis(100));
        done.store(1, Ordering::SeqCst);
        flock(&line, FlockOperation::Unlock).unwrap();
        assert_eq!(opens.join().unwrap(), 1, "it has written before");
    });
}

/// It is refused, whatever the trigger says, and its request isn't taken for dropped.
#[test]
fn a_put_that_a_trigger_forbids() {
    let place = Place::new("forbidden");
    let (store, none) = (place.store(), BTreeMap::new());
    let number = store.open("r", "{}").unwrap().number;
    if place.file().is_some() {
        place.query("create trigger forbids before insert on cf_word when new.token = 13 begin select raise(abort, 'UNIQUE'); end");
    } else {
        place
            .query("create function forbids() returns trigger language plpgsql as $$ begin raise exception 'UNIQUE' using errcode = '23505'; end $$");
        place.query("create trigger forbids before insert on cf_word for each row when (new.token = 13) execute function forbids()");
    }
    for many in 1..=3 {
        let entries: Vec<Entry> = (1..=many).map(|k| Entry { word: 1, token: if k == many { 13 } else { k } }).collect();
        for opens in [false, true] {
            let told = store.append(Put { request: "r", number, at: 0, entries: &entries, payloads: &none, opens });
            assert!(matches!(&told, Err(StoreError::Refused(why)) if why.contains("UNIQUE")), "{told:?}");
            assert_eq!(store.read("r", number, 0), Ok(vec![]));
        }
    }
    assert_eq!(store.payloads("r", number, &[1, 2]), Ok(vec![None, None]));
    assert_eq!(store.payloads("r", number + 1, &[1, 2]), Err(StoreError::Gone("r".into())));
}

/// Nothing of it stands where a later place is taken, as behind a word that somebody took out.
#[test]
fn a_group_over_a_gap() {
    let place = Place::new("gap");
    let (store, none) = (place.store(), BTreeMap::new());
    let number = store.open("r", "{}").unwrap().number;
    let entries: Vec<Entry> = (1..=5).map(|token| Entry { word: 1, token }).collect();
    assert_eq!(store.append(Put { request: "r", number, at: 0, entries: &entries, payloads: &none, opens: false }), Ok(None));
    place.query("delete from cf_word where at = 2");
    for many in [2, 3] {
        for opens in [false, true] {
            let told = store.append(Put { request: "r", number, at: 2, entries: &entries[..many], payloads: &none, opens });
            assert!(matches!(told, Err(StoreError::Broken { place: 3, .. })), "{told:?}");
        }
    }
    let stands = place.query("select 'place ' || at from cf_word order by at");
    assert_eq!(stands, ["place 0", "place 1", "place 3", "place 4"]);
}

#[test]
fn the_usual_options() {
    let usual = Options::default();
    assert_eq!((usual.threads, usual.lease, usual.takes_all, usual.on_end.is_none()), (4, Duration::from_secs(10), false, true));
}

/// By which histories tell it from others.
#[test]
fn a_service_has_the_name_of_its_process() {
    let place = Place::new("names");
    let _service = Service::new(place.store(), Functions::new()).unwrap();
    until(|| place.query("select name from cf_name") == [format!("rust {}", std::process::id())]);
}
