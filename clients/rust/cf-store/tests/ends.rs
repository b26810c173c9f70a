//! Who is told of requests that were closed?
#[macro_use]
mod common;

use cf_store::{context, within, Ends, Flow, Functions, History, HistoryItem, Service};
use common::{patient, settled, Place};
use serde_json::{json, Map, Value};
use std::sync::mpsc::{channel, Receiver};
use std::sync::Mutex;
use std::time::Duration;

const SHORT: Duration = Duration::from_millis(300);
const LONG: Duration = Duration::from_secs(60);

/// The lines of a history, and the context in which they were told.
type Told = (String, Map<String, Value>);

/// Ends that send what they are told, and who receives it.
fn told(tells: fn(HistoryItem<'_>) -> String) -> (Ends, Receiver<Told>) {
    let (sends, receives) = channel();
    let sends = Mutex::new(sends);
    let hook = move |history: &History| sends.lock().unwrap().send((history.lines().unwrap(), context())).unwrap();
    (Ends::telling(tells, hook), receives)
}

fn service(place: &Place, ends: &Ends) -> Service {
    let mut options = patient();
    options.on_end = Some(ends.clone());
    options.takes_all = true;
    Service::with(place.store(), Functions::new().with("inc", 1, |it: i64| Ok::<_, String>(it + 1)), options).unwrap()
}

#[test]
fn one_process_tells_the_end_of_a_flow() {
    let place = Place::new("ends of flows");
    let (ends, told) = told(|what| what.full_text());
    let services = [service(&place, &ends), service(&place, &ends)];
    let mut flow = Flow::new("count");
    let number = flow.promise("number");
    let last = flow.then(number, "inc");
    let anna = || json!({"tenant": "anna"}).as_object().unwrap().clone();
    for name in ["one", "two", "three"] {
        let request = within(anna(), || services[0].start(&flow, name, &[json!(41)]).unwrap());
        assert_eq!(settled::<i64>(&request.step(last).unwrap()), Ok(42));
        let (lines, carried) = told.recv_timeout(LONG).unwrap();
        assert!(lines.starts_with(&format!("{name}: 3 events, 2 stages")) && lines.contains("1 inc ends: 42"), "{lines}");
        assert_eq!(carried, anna());
    }
    assert!(told.recv_timeout(SHORT).is_err());
}

#[test]
fn what_is_opened_again_is_told_again() {
    let place = Place::new("ends again");
    let (ends, told) = told(|_| "-".into());
    let service = service(&place, &ends);
    let request = service.request("again").unwrap();
    let number = request.promise("number").unwrap();
    assert!(number.complete(&41).unwrap());
    assert!(told.recv_timeout(SHORT).is_err(), "it wasn't closed");
    request.end().unwrap();
    assert!(told.recv_timeout(LONG).unwrap().0.starts_with("again: 2 events, 1 stage"));
    request.end().unwrap();
    assert!(ends.flush(LONG) && told.try_recv().is_err(), "it was closed before");
    assert_eq!(settled::<i64>(&number.then("inc").unwrap()), Ok(42));
    request.end().unwrap();
    let (lines, carried) = told.recv_timeout(LONG).unwrap();
    assert!(lines.starts_with("again: 5 events, 2 stages") && lines.contains("1 inc ends: -"), "{lines}");
    assert_eq!(carried, Map::new());
}

#[test]
fn a_hook_that_panics_is_called_again() {
    let place = Place::new("ends of panics");
    let (sends, told) = channel();
    let sends = Mutex::new(sends);
    let ends = Ends::new(move |history| {
        sends.lock().unwrap().send(history.lines().unwrap()).unwrap();
        panic!("no exporter");
    });
    let service = service(&place, &ends);
    for name in ["one", "two"] {
        service.request(name).unwrap().end().unwrap();
        assert!(told.recv_timeout(LONG).unwrap().starts_with(&format!("{name}: 0 events, 0 stages")));
    }
    assert!(ends.flush(LONG));
}
