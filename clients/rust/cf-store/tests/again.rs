//! What is done again: a name is used again, and what failed for a moment is tried again.
#[macro_use]
mod common;

use cf_store::{Entry, Error, Flow, Functions, Mark, Opened, Put, Service, Store, StoreError, Timer, WordCounts};
use common::{patient, settled, until, AnyStore, Place};
use std::collections::BTreeMap;
use std::sync::atomic::{AtomicU32, Ordering::SeqCst};
use std::sync::{Arc, Mutex};
use std::time::Duration;

fn add_one(number: i64) -> Result<i64, String> {
    Ok(number + 1)
}

/// A store that fails so often in one of its calls, and tells these timers as due, too.
#[derive(Clone)]
struct Fails {
    store: Arc<AnyStore>,
    call: &'static str,
    left: Arc<AtomicU32>,
    due: Arc<Mutex<Vec<Timer>>>,
}

impl Fails {
    fn new(place: &Place, call: &'static str, times: u32) -> Fails {
        Fails { store: Arc::new(place.store()), call, left: Arc::new(AtomicU32::new(times)), due: Arc::default() }
    }

    fn may(&self, call: &str) -> Result<(), StoreError> {
        let fails = call == self.call && self.left.fetch_update(SeqCst, SeqCst, |left| left.checked_sub(1)).is_ok();
        if fails {
            return Err(StoreError::Refused(format!("no {call}")));
        }
        Ok(())
    }
}

impl Store for Fails {
    passed_on! {
        fn open(name: &str, plan: &str) -> Opened;
        fn find(name: &str) -> Option<Opened>;
        fn append(put: Put<'_>) -> Option<Vec<Entry>>;
        fn read(name: &str, number: i64, at: usize) -> Vec<Entry>;
        fn news(since: Option<Mark>) -> (WordCounts, Mark);
        fn wait_for_change(wait: Duration) -> ();
        fn beat(session: u64) -> ();
        fn beats() -> BTreeMap<u64, i64>;
        fn drop_beat(session: u64) -> ();
        fn name_session(session: u64, name: &str) -> ();
        fn now() -> f64;
        fn set_timer(timer: &Timer) -> ();
    }

    fn payload(&self, name: &str, number: i64, place: usize) -> Result<Option<Vec<u8>>, StoreError> {
        self.may(&format!("payload {place}"))?;
        self.store.payload(name, number, place)
    }

    fn end(&self, name: &str, number: i64, at: usize) -> Result<bool, StoreError> {
        self.may("end")?;
        self.store.end(name, number, at)
    }

    fn due_timers(&self, now: f64) -> Result<Vec<Timer>, StoreError> {
        let mut due = self.store.due_timers(now)?;
        due.extend(self.due.lock().unwrap().iter().cloned());
        Ok(due)
    }

    fn drop_timer(&self, timer: &Timer) -> Result<(), StoreError> {
        self.may("drop of a timer")?;
        self.due.lock().unwrap().retain(|it| it.number != timer.number);
        self.store.drop_timer(timer)
    }
}

fn service(store: Fails) -> Service {
    let mut options = patient();
    options.warns = |_| {};
    Service::with(store, Functions::new().with("inc", 1, add_one), options).unwrap()
}

/// Drops a request, as processes in Python can.
fn drop_request(place: &Place, number: i64) {
    place.query(&format!("delete from cf_request where id = {number}"));
    for table in ["cf_word", "cf_name"] {
        place.query(&format!("delete from {table} where request = {number}"));
    }
}

/// A request is dropped, and another of its name opened: who has the first is told so, and its timers are nothing to the second.
#[test]
fn a_name_is_used_again() {
    let place = Place::new("again");
    let store = Fails::new(&place, "drop of a timer", 1);
    let service = service(store.clone());
    let first = service.request("again").unwrap();
    let told = first.promise("told").unwrap();
    let number = store.find("again").unwrap().unwrap().number;
    drop_request(&place, number);
    let second = service.request("again").unwrap();
    assert!(matches!(settled::<i64>(&told), Err(Error::Store(StoreError::Gone(_)))));
    let later = second.promise("later").unwrap();
    let last = later.then("inc").unwrap();
    let old = Timer { request: "again".into(), number, stage: 0, due: 0.0, payload: b"N".to_vec() };
    store.due.lock().unwrap().push(old);
    until(|| store.due.lock().unwrap().is_empty());
    assert!(later.complete(&1).unwrap());
    assert_eq!(settled::<i64>(&last), Ok(2));
}

/// What a claim is called with can't be read for a moment: it is called with that later.
#[test]
fn a_value_that_cannot_be_read_once() {
    let place = Place::new("unread");
    let mut nobody = patient();
    nobody.threads = 0;
    let asks = Service::with(place.store(), Functions::new().with("inc", 1, add_one), nobody).unwrap();
    let number = asks.request("unread").unwrap().promise("number").unwrap();
    number.complete(&1).unwrap();
    let inc = number.then("inc").unwrap();
    let store = Fails::new(&place, "payload 2", 1);
    let works = service(store.clone());
    drop(works.open("unread"));
    assert_eq!(settled::<i64>(&inc), Ok(2));
    assert_eq!(store.left.load(SeqCst), 0);
}

/// A flow whose stages are all settled is closed later, where that fails at first, also if nobody works on it any more.
#[test]
fn a_flow_that_cannot_be_closed_at_first() {
    let place = Place::new("unclosed");
    let store = Fails::new(&place, "end", 4);
    let service = service(store.clone());
    let mut flow = Flow::new("one");
    flow.promise("number");
    drop(service.start(&flow, "unclosed", &[serde_json::json!(1)]).unwrap());
    until(|| !store.news(None).unwrap().0.contains_key("unclosed"));
    assert_eq!(store.left.load(SeqCst), 0);
}

#[test]
fn who_attaches_to_a_closed_request_opens_it() {
    let place = Place::new("opens");
    common::who_attaches_to_a_closed_request_opens_it(|| place.store());
}

#[test]
fn who_waits_elsewhere_is_told_of_the_last_word() {
    let place = Place::new("elsewhere");
    common::who_waits_elsewhere_is_told_of_the_last_word(|| place.store());
}
