//! Transactional functions: their effects stand once, with the finish, or not at all.
#[macro_use]
mod common;

use cf_store::{Entry, Error, Failed, Flow, Functions, Mark, Opened, Put, Service, Store, StoreError, Timer, Transaction, WordCounts};
use common::{hasty, patient, rows, settled, AnyStore, Place};
use serde_json::json;
use std::any::Any;
use std::collections::BTreeMap;
use std::process::Command;
use std::sync::atomic::{AtomicU32, Ordering};
use std::sync::{mpsc, Arc, Mutex};
use std::thread;
use std::time::Duration;

type Effects = Vec<String>;

/// An effect by an engine's connection.
fn pay(db: &mut dyn Any, name: &str) -> Result<String, Failed> {
    rows(db, &format!("insert into paid values ('{name}')")).map(|_| name.to_owned()).map_err(|error| Failed::new("DatabaseError", error))
}

fn does(db: &mut dyn Any, statement: &str) -> Result<String, Failed> {
    rows(db, statement).map(|_| String::new()).map_err(|error| Failed::new("DatabaseError", error))
}

/// Registers a function of the connection of a place's engine.
fn transactional<F>(functions: Functions, place: &Place, name: &str, act: F) -> Functions
where
    F: Fn(&mut dyn Any, &str) -> Result<String, Failed> + Send + Sync + 'static,
{
    of_address(functions, place.address(), name, act)
}

fn of_address<F>(functions: Functions, address: &str, name: &str, act: F) -> Functions
where
    F: Fn(&mut dyn Any, &str) -> Result<String, Failed> + Send + Sync + 'static,
{
    #[cfg(feature = "postgres")]
    if address.starts_with("postgresql:") {
        return functions.transactional(name, 1, move |db: &mut cf_store::PostgresTransaction, it: String| act(db, &it));
    }
    assert!(address.starts_with("sqlite:"));
    functions.transactional(name, 1, move |db: &mut rusqlite::Connection, it: String| act(db, &it))
}

/// A place with a table of effects.
fn ledger(name: &str) -> Place {
    let place = Place::new(name);
    place.query("create table paid (name text)");
    place
}

fn paid(place: &Place) -> Effects {
    place.query("select name from paid order by name")
}

fn failed(ended: Result<serde_json::Value, Error>) -> Failed {
    match ended {
        Err(Error::Failed(failed)) => failed,
        other => panic!("{other:?}"),
    }
}

#[test]
fn an_effect_stands_with_its_finish() {
    let place = ledger("effects");
    let functions = Functions::new().transactional("other", 1, |_: &mut u8| Ok::<_, String>(1)).with("same", 1, |name: String| Ok::<_, String>(name));
    let functions = transactional(functions, &place, "pay", pay).parameters("pay", 1, &["name"]);
    let functions = transactional(functions, &place, "fails", |db, name| {
        pay(db, name).unwrap();
        Err(Failed::new("CardDeclined", "no card"))
    });
    let functions = transactional(functions, &place, "panics", |db, name| {
        pay(db, name).unwrap();
        panic!("oh")
    });
    let service = Service::with(place.store(), functions, patient()).unwrap();
    let mut flow = Flow::new("order");
    let name = flow.promise("name");
    let paying = flow.then(name, "pay");
    let (behind, beside) = (flow.then(paying, "same"), flow.then(name, "pay"));
    let request = service.start(&flow, "order", &[json!("anna")]).unwrap();
    assert_eq!(settled::<String>(&request.step(behind).unwrap()), Ok("anna".into()), "what follows a transaction comes behind it");
    assert_eq!(settled::<String>(&request.step(beside).unwrap()), Ok("anna".into()));
    assert_eq!(paid(&place), ["anna", "anna"]);
    let named = request.supply_named("pay", &[], json!({"name": "bert"}).as_object().unwrap()).unwrap();
    assert_eq!(settled::<String>(&named), Ok("bert".into()));
    let supply = |function: &str| failed(settled(&request.supply(function, &[json!("carla")]).unwrap()));
    assert_eq!(supply("fails"), Failed::new("CardDeclined", "no card"));
    assert_eq!(supply("panics"), Failed::new("Panic", "oh"));
    assert_eq!(failed(settled(&request.supply("other", &[]).unwrap())).kind, "TypeError");
    assert_eq!(paid(&place), ["anna", "anna", "bert"], "what a function that fails has done is undone");
}

#[test]
fn others_of_the_process_go_on_meanwhile() {
    let place = ledger("meanwhile");
    let (begun, begins) = mpsc::channel();
    let begun = Mutex::new(begun);
    let slow = move |db: &mut dyn Any, name: &str| {
        begun.lock().unwrap().send(()).unwrap();
        thread::sleep(Duration::from_millis(300));
        pay(db, name)
    };
    let functions = transactional(Functions::new(), &place, "slow", slow).with("inc", 1, |it: i64| Ok::<_, String>(it + 1));
    let service = Service::with(place.store(), functions, patient()).unwrap();
    let request = service.request("two").unwrap();
    let [name, other, gate] = ["name", "other", "gate"].map(|it| request.promise(it).unwrap());
    let paying = name.then("slow").unwrap();
    name.complete("anna").unwrap();
    begins.recv_timeout(Duration::from_secs(60)).unwrap();
    thread::scope(|scope| {
        for it in [&other, &gate] {
            scope.spawn(move || assert!(it.complete(&2).unwrap()));
        }
    });
    assert_eq!(settled::<String>(&paying), Ok("anna".into()));
    assert_eq!(settled::<i64>(&other.then("inc").unwrap()), Ok(3));
    assert_eq!(paid(&place), ["anna"]);
}

#[test]
fn a_transactional_function_neither_puts_nor_ends_its_transaction() {
    let place = ledger("puts");
    let planner = Service::with(place.store(), Functions::new(), patient()).unwrap();
    let (own, other) = (planner.request("own").unwrap(), planner.request("other").unwrap());
    let puts: Arc<Mutex<Option<cf_store::Request>>> = Arc::default();
    let its = Arc::clone(&puts);
    let late =
        |request: &cf_store::Request| request.promise("late").and_then(|it| it.name()).map_err(|error| Failed::new("StoreError", error.to_string()));
    let functions = transactional(Functions::new(), &place, "own", move |_, _| late(its.lock().unwrap().as_ref().unwrap()));
    let functions = transactional(functions, &place, "other", move |_, _| late(&other));
    let functions = transactional(functions, &place, "undoes", |db, name| pay(db, name).and_then(|_| does(db, "rollback")));
    let functions = transactional(functions, &place, "commits", |db, _| {
        does(db, "rollback")?;
        does(db, "begin").and_then(|_| does(db, "commit"))
    });
    let functions = transactional(functions, &place, "begins", |db, _| does(db, "rollback").and_then(|_| does(db, "begin")));
    let functions = transactional(functions, &place, "pay", pay);
    let service = Service::with(place.store(), functions, patient()).unwrap();
    let request = service.open("own").unwrap();
    *puts.lock().unwrap() = Some(request.clone());
    let supply = |function: &str| settled(&request.supply(function, &[json!("x")]).unwrap());
    assert!(failed(supply("own")).text.contains("transactional function can't put"));
    if place.store().locks_out_others() {
        assert!(failed(supply("other")).text.contains("transactional function can't put"));
    }
    for function in ["undoes", "commits", "begins"] {
        assert!(failed(supply(function)).text.contains("ended its transaction"), "{function}");
    }
    assert_eq!(settled::<String>(&request.supply("pay", &[json!("anna")]).unwrap()), Ok("anna".into()));
    assert!(own.promise("after").is_ok(), "others can put");
    assert_eq!(paid(&place), ["anna"]);
    *puts.lock().unwrap() = None;
}

#[test]
fn a_process_dies_in_its_transaction() {
    if let Ok(address) = std::env::var("CF_STORE_DIES_WITHIN") {
        let dies = |db: &mut dyn Any, name: &str| {
            pay(db, name).unwrap();
            std::process::abort()
        };
        let functions = of_address(Functions::new(), &address, "pay", dies);
        let service = Service::with(AnyStore::open(&address), functions, patient()).unwrap();
        let _never = settled::<String>(&service.open("dies").unwrap().stage(0).unwrap());
        return;
    }
    let place = ledger("within");
    let mut nobody = patient();
    nobody.threads = 0;
    let planner = Service::with(place.store(), transactional(Functions::new(), &place, "pay", pay), nobody).unwrap();
    let request = planner.request("dies").unwrap();
    let last = request.supply("pay", &[json!("anna")]).unwrap().again(1).unwrap();
    drop(planner);
    let mut child = Command::new(std::env::current_exe().unwrap());
    assert!(!child.arg("a_process_dies_in").env("CF_STORE_DIES_WITHIN", place.address()).status().unwrap().success());
    let service = Service::with(place.store(), transactional(Functions::new(), &place, "pay", pay), hasty()).unwrap();
    let request = service.open("dies").unwrap();
    assert_eq!(settled::<String>(&request.stage(last.number()).unwrap()), Ok("anna".into()));
    assert!(matches!(settled::<String>(&request.stage(0).unwrap()), Err(Error::Abandoned(_))));
    assert_eq!(paid(&place), ["anna"], "what the process had done was undone, and the next try did it once");
}

/// A store with transactions that fail as they are told to, in which others can put: effects are texts of a list.
struct Wrapped {
    store: AnyStore,
    effects: Arc<Mutex<Effects>>,
    /// Told as a commit begins and how often before; it may say that its answer is lost, before or behind it.
    commits: Box<dyn Fn(u32) -> Cut + Send + Sync>,
    many: AtomicU32,
    /// Whether the connection is gone once a function has failed.
    is_away: fn(u32) -> bool,
    /// Called before a put.
    before: Box<dyn Fn() + Send + Sync>,
}

#[derive(Clone, Copy, PartialEq)]
enum Cut {
    Never,
    Before,
    Behind,
}

struct Open<'a> {
    of: &'a Wrapped,
    done: Effects,
    put: Option<Held>,
}

/// A put that is kept.
struct Held {
    request: String,
    number: i64,
    at: usize,
    entries: Vec<Entry>,
    payloads: BTreeMap<usize, Vec<u8>>,
}

impl Held {
    fn put(&self) -> Put<'_> {
        Put { request: &self.request, number: self.number, at: self.at, entries: &self.entries, payloads: &self.payloads, opens: false }
    }
}

impl Transaction for Open<'_> {
    fn connection(&mut self) -> &mut dyn Any {
        &mut self.done
    }

    fn is_away(&mut self) -> bool {
        (self.of.is_away)(self.of.many.fetch_add(1, Ordering::SeqCst))
    }

    fn append(&mut self, put: Put<'_>) -> Result<bool, StoreError> {
        (self.of.before)();
        let (entries, payloads) = (put.entries.to_vec(), put.payloads.clone());
        self.put = Some(Held { request: put.request.into(), number: put.number, at: put.at, entries, payloads });
        Ok(self.of.store.read(put.request, put.number, 0)?.len() == put.at)
    }

    fn commit(&mut self) -> Result<(), StoreError> {
        let cut = (self.of.commits)(self.of.many.fetch_add(1, Ordering::SeqCst));
        let held = self.put.take().unwrap();
        if cut != Cut::Before {
            assert_eq!(self.of.store.append(held.put())?, None);
            self.of.effects.lock().unwrap().append(&mut self.done);
        }
        match cut {
            Cut::Never => Ok(()),
            _ => Err(StoreError::Unknown("cut".into())),
        }
    }
}

impl Store for Wrapped {
    questions!(passed_on);

    fn transacts(&self) -> bool {
        true
    }

    fn transaction(&self) -> Result<Box<dyn Transaction + '_>, StoreError> {
        Ok(Box::new(Open { of: self, done: Vec::new(), put: None }))
    }
}

/// Runs a function in such a store, in a request `r` of stage 0; what stage 0 ended in, the effects that stand, and how often it was called.
fn tried(
    place: &Place,
    commits: impl Fn(u32) -> Cut + Send + Sync + 'static,
    is_away: fn(u32) -> bool,
    act: impl Fn(u32) -> Result<(), Failed> + Send + Sync + 'static,
) -> (Result<serde_json::Value, Error>, Effects, u32) {
    tried_before(place, commits, is_away, act, || ())
}

fn tried_before(
    place: &Place,
    commits: impl Fn(u32) -> Cut + Send + Sync + 'static,
    is_away: fn(u32) -> bool,
    act: impl Fn(u32) -> Result<(), Failed> + Send + Sync + 'static,
    before: impl Fn() + Send + Sync + 'static,
) -> (Result<serde_json::Value, Error>, Effects, u32) {
    let (effects, calls): (Arc<Mutex<Effects>>, Arc<AtomicU32>) = Default::default();
    let store = Wrapped {
        store: place.store(),
        effects: Arc::clone(&effects),
        commits: Box::new(commits),
        many: AtomicU32::new(0),
        is_away,
        before: Box::new(before),
    };
    let counted = Arc::clone(&calls);
    let pay = move |done: &mut Effects| {
        done.push("paid".into());
        act(counted.fetch_add(1, Ordering::SeqCst))
    };
    let mut options = patient();
    options.warns = |_| {};
    let service = Service::with(store, Functions::new().transactional("pay", 1, pay), options).unwrap();
    let told = settled(&service.request("r").unwrap().supply("pay", &[]).unwrap());
    drop(service);
    let (effects, calls) = (effects.lock().unwrap().clone(), calls.load(Ordering::SeqCst));
    (told, effects, calls)
}

#[test]
fn a_commit_whose_answer_is_lost() {
    for (cut, calls) in [(Cut::Before, 2), (Cut::Behind, 1)] {
        let place = Place::new(&format!("commit {calls}"));
        let told = tried(&place, move |many| if many == 0 { cut } else { Cut::Never }, |_| false, |_| Ok(()));
        assert_eq!(told, (Ok(json!(null)), vec!["paid".to_owned()], calls), "it stands once");
        let words = place.store().find("r").unwrap().map(|it| place.store().read("r", it.number, 0).unwrap().len());
        assert_eq!(words, Some(3));
    }
}

/// Another session of a place, which runs nothing.
fn another(address: &str) -> cf_store::Request {
    let mut nobody = patient();
    nobody.threads = 0;
    let service = Service::with(AnyStore::open(address), Functions::new(), nobody).unwrap();
    service.open("r").unwrap()
}

#[test]
fn a_place_that_a_transaction_loses() {
    // another word is put between the look at what stands and the put
    let place = Place::new("loses");
    let (address, cut) = (place.address().to_owned(), AtomicU32::new(0));
    let before = move || {
        if cut.fetch_add(1, Ordering::SeqCst) == 0 {
            another(&address).promise("in between").unwrap();
        }
    };
    let (told, effects, calls) = tried_before(&place, |_| Cut::Never, |_| false, |_| Ok(()), before);
    assert_eq!((told, effects, calls), (Ok(json!(null)), vec!["paid".to_owned()], 2), "its effect is undone, and done again");
}

#[test]
fn no_effect_is_for_nothing() {
    let place = Place::new("nothing");
    let address = place.address().to_owned();
    let act = move |_| {
        another(&address).stage(0).unwrap().fail(&Failed::new("Other", "somebody else's")).unwrap();
        Ok(())
    };
    let (told, effects, calls) = tried(&place, |_| Cut::Never, |_| false, act);
    assert_eq!((told, effects, calls), (Err(Error::Failed(Failed::new("Other", "somebody else's"))), vec![], 1));
}

#[test]
fn what_fails_for_a_lost_connection_is_done_again() {
    let place = Place::new("away");
    let act = |call| if call < 2 { Err(Failed::new("ConnectionError", "cut")) } else { Ok(()) };
    let (told, effects, calls) = tried(&place, |_| Cut::Never, |many| many < 2, act);
    assert_eq!((told, effects, calls), (Ok(json!(null)), vec!["paid".to_owned()], 3));
    let place = Place::new("not away");
    let (told, effects, calls) = tried(&place, |_| Cut::Never, |_| false, |_| Err(Failed::new("CardDeclined", "no card")));
    assert_eq!((failed(told).kind.as_str(), effects, calls), ("CardDeclined", vec![], 1));
}
