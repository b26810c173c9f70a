//! What only a server shows: who waits for whose lock. It is left out with a line where CF_STORES names no database of PostgreSQL's.
#[macro_use]
mod common;

use cf_graph::{Call, Event, Form, Of};
use cf_store::{Entry, Functions, Postgres, Put, Service, Store, StoreError, Timer};
use common::{patient, rows, settled, until, AnyStore, Place};
use std::collections::BTreeMap;
use std::sync::atomic::{AtomicU32, Ordering};
use std::sync::{mpsc, Mutex};
use std::time::Duration;

/// A place in a database, where nobody waits long for a lock.
fn impatient(name: &str) -> Option<(Place, String)> {
    let place = Place::new(name);
    if place.file().is_some() {
        eprintln!("left out: CF_STORES names no database of PostgreSQL's");
        return None;
    }
    drop(place.store());
    let address = format!("{}%20-clock_timeout%3D50", place.address());
    Some((place, address))
}

fn entries(many: u64) -> Vec<Entry> {
    let word = Event { who: 0, call: Call::Attach(Form::Source, Of::None, None) }.word().unwrap();
    (1..=many).map(|token| Entry { word, token }).collect()
}

fn put<'a>(number: i64, entries: &'a [Entry], payloads: &'a BTreeMap<usize, Vec<u8>>) -> Put<'a> {
    Put { request: "r", number, at: 0, entries, payloads, opens: false }
}

#[test]
fn a_drop_and_what_is_kept_for_its_request_wait_for_each_other() {
    let Some((place, address)) = impatient("drops") else { return };
    let (store, impatient, none) = (place.store(), AnyStore::open(&address), BTreeMap::new());
    let number = store.open("r", "{}").unwrap().number;
    let words = entries(2);
    // a put is under way
    let mut puts = store.transaction().unwrap();
    assert!(puts.append(put(number, &words[..1], &none)).unwrap());
    let mut drops = impatient.transaction().unwrap();
    let locked = rows(drops.connection(), &format!("select name from cf_request where id = {number} for update"));
    assert!(locked.is_err(), "who drops it waits for the put");
    drop((drops, puts));
    // a drop is under way
    let mut drops = store.transaction().unwrap();
    rows(drops.connection(), &format!("delete from cf_request where id = {number}")).unwrap();
    let timer = Timer { request: "r".into(), number, stage: 0, due: 1.0, payload: b"N".to_vec() };
    for many in [1, 2] {
        for opens in [false, true] {
            let told = impatient.append(Put { opens, ..put(number, &words[..many], &none) });
            assert!(matches!(told, Err(StoreError::Unknown(_))), "a put of {many} waits for the drop");
        }
        let mut puts = impatient.transaction().unwrap();
        assert!(matches!(puts.append(put(number, &words[..many], &none)), Err(StoreError::Unknown(_))), "and one in a transaction");
    }
    assert!(matches!(impatient.set_timer(&timer), Err(StoreError::Unknown(_))));
    drops.commit().unwrap();
    for many in [1, 2] {
        for opens in [false, true] {
            assert_eq!(impatient.append(Put { opens, ..put(number, &words[..many], &none) }), Err(StoreError::Gone("r".into())));
        }
        assert!(!impatient.transaction().unwrap().append(put(number, &words[..many], &none)).unwrap());
    }
    assert_eq!(impatient.set_timer(&timer), Err(StoreError::Gone("r".into())));
    assert_eq!(place.query("select word::text from cf_word union all select stage::text from cf_timer"), [""; 0]);
}

#[test]
fn who_connects_waits_for_no_transaction() {
    let Some((place, address)) = impatient("connects") else { return };
    let store = place.store();
    let mut puts = store.transaction().unwrap();
    rows(puts.connection(), "insert into cf_word values (1, 1, 1, 1)").unwrap();
    assert_eq!(AnyStore::open(&address).find("r"), Ok(None), "its tables are there");
}

/// As in a switch-over. One that lets nobody in is away, too, and one that can't be written to from the start is refused.
#[test]
fn a_server_that_can_only_be_read_later_is_away() {
    let Some((place, _)) = impatient("switches") else { return };
    let role = format!("cf_role_{}", std::process::id());
    let address = place.address().replacen("postgres@", &format!("{role}@"), 1);
    assert!(matches!(Postgres::connect(&address), Err(StoreError::Unknown(_))), "nobody is let in");
    place.query(&format!("create role {role} superuser login"));
    let store = AnyStore::open(&address);
    place.query(&format!("alter role {role} set default_transaction_read_only = on"));
    assert!(matches!(store.transaction().err(), Some(StoreError::Unknown(_))));
    assert!(matches!(Postgres::connect(&address), Err(StoreError::Refused(_))));
    place.query(&format!("alter role {role} reset all"));
    assert!(store.transaction().is_ok());
    drop(store);
    place.query(&format!("drop role {role}"));
}

#[test]
fn a_lock_that_is_not_free_loses_no_value() {
    let Some((place, address)) = impatient("locks") else { return };
    let ((begun, begins), (goes, go)) = (mpsc::channel(), mpsc::channel());
    let (begun, go) = (Mutex::new(begun), Mutex::new(go));
    let slow = move || {
        begun.lock().unwrap().send(()).unwrap();
        go.lock().unwrap().recv_timeout(Duration::from_secs(60)).map(|()| 7)
    };
    let service = Service::with(AnyStore::open(&address), Functions::new().with("slow", 1, slow), patient()).unwrap();
    let stage = service.request("r").unwrap().supply("slow", &[]).unwrap();
    begins.recv_timeout(Duration::from_secs(60)).unwrap();
    let store = place.store();
    let mut locks = store.transaction().unwrap();
    rows(locks.connection(), "lock table cf_word in access exclusive mode").unwrap();
    goes.send(()).unwrap();
    std::thread::sleep(Duration::from_millis(200)); // (its finish is refused a few times)
    drop(locks);
    assert_eq!(settled::<i64>(&stage), Ok(7));
}

/// Notices are sent again once their connection has ended.
#[test]
fn a_put_is_noticed_by_any_connection() {
    let Some((place, address)) = impatient("notices") else { return };
    let store = AnyStore::open(&format!("{address}%20-capplication_name%3Dcf_notices"));
    let sends = "application_name = 'cf_notices' and query = 'notify cf'";
    let (many, words, none) = (AtomicU32::new(0), entries(1), BTreeMap::new());
    for _ in 0..2 {
        until(|| {
            let name = format!("r {}", many.fetch_add(1, Ordering::SeqCst));
            let number = store.open(&name, "{}").unwrap().number;
            assert_eq!(store.append(Put { request: &name, ..put(number, &words, &none) }), Ok(None));
            place.query(&format!("select pid::text from pg_stat_activity where {sends}")).len() == 1
        });
        place.query(&format!("select pg_terminate_backend(pid)::text from pg_stat_activity where {sends}"));
    }
}
