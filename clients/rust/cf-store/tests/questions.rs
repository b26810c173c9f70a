//! How often is the store asked?
#[macro_use]
mod common;

use cf_store::{Entry, Functions, Mark, Opened, Put, Service, Store, StoreError, Timer, WordCounts};
use common::{patient, settled, AnyStore, Place};
use std::collections::BTreeMap;
use std::sync::{Arc, Mutex};
use std::time::Duration;

const MANY: usize = 50;

/// How often each question was asked.
type Asked = Arc<Mutex<BTreeMap<&'static str, usize>>>;

/// A store that counts its questions.
struct Counted {
    store: AnyStore,
    asked: Asked,
}

macro_rules! counted {
    ($(fn $name:ident($($arg:ident: $type:ty),*) -> $told:ty;)*) => {$(
        fn $name(&self, $($arg: $type),*) -> Result<$told, StoreError> {
            *self.asked.lock().unwrap().entry(stringify!($name)).or_default() += 1;
            self.store.$name($($arg),*)
        }
    )*};
}

impl Store for Counted {
    questions!(counted);
}

fn service(place: &Place, threads: usize) -> (Service, Asked) {
    let (asked, mut options) = (Asked::default(), patient());
    options.threads = threads;
    let functions = Functions::new().with("seven", 1, || Ok::<_, String>(7)).with("inc", 1, |it: i64| Ok::<_, String>(it + 1));
    (Service::with(Counted { store: place.store(), asked: Arc::clone(&asked) }, functions, options).unwrap(), asked)
}

/// How often this was asked.
fn times(asked: &Asked, what: &str) -> usize {
    asked.lock().unwrap().get(what).copied().unwrap_or_default()
}

#[test]
fn a_put_is_one_question() {
    let place = Place::new("questions");
    let (planner, asked) = service(&place, 0);
    let request = planner.request("asked").unwrap();
    for _ in 0..MANY {
        request.supply("seven", &[]).unwrap();
    }
    assert_eq!((times(&asked, "append"), times(&asked, "payload"), times(&asked, "payloads")), (MANY, 0, 0));
    assert!(times(&asked, "read") < MANY / 2, "what it has put itself it reads only where the pump sees it first: {asked:?}");
    drop(planner);

    let (worker, asked) = service(&place, 1);
    let request = worker.open("asked").unwrap();
    for number in 0..MANY as u16 {
        assert_eq!(settled::<i64>(&request.stage(number).unwrap()), Ok(7));
    }
    assert_eq!(times(&asked, "append"), MANY + 1, "a finish and the next claim are one put");
    assert_eq!((times(&asked, "payload"), times(&asked, "payloads")), (0, 1), "what is said of all stages is asked for at once");
    for _ in 0..MANY {
        assert_eq!(settled::<i64>(&request.supply("seven", &[]).unwrap()), Ok(7));
    }
    assert_eq!((times(&asked, "payload"), times(&asked, "payloads")), (0, 1), "it knows what it has put itself");
    assert!(times(&asked, "read") < MANY / 2, "{asked:?}");
}

#[test]
fn a_chain_is_a_put_a_stage() {
    let place = Place::new("chains");
    let (planner, _) = service(&place, 0);
    let request = planner.request("chain").unwrap();
    let mut last = request.promise("first").unwrap();
    for _ in 0..MANY {
        last = last.then("inc").unwrap();
    }
    assert!(request.stage(0).unwrap().complete(&0).unwrap());
    drop(planner);
    let (worker, asked) = service(&place, 1);
    let last = worker.open("chain").unwrap().stage(last.number()).unwrap();
    assert_eq!(settled::<i64>(&last), Ok(MANY as i64));
    assert_eq!(times(&asked, "append"), MANY + 1, "the finish of each comes with the claim of the next");
}

#[test]
fn what_is_said_of_many_stages_is_asked_for_at_once() {
    let place = Place::new("said");
    let (asks, _) = service(&place, 0);
    let request = asks.request("r").unwrap();
    for _ in 0..MANY {
        request.promise("p").unwrap();
    }
    let (reads, asked) = service(&place, 0);
    assert!(reads.open("r").unwrap().named("another").unwrap().is_none());
    let asked = asked.lock().unwrap().clone();
    assert_eq!((asked.get("payloads"), asked.get("payload")), (Some(&1), None));
}
