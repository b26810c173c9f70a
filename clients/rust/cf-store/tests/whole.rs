//! Is each call of a store done whole or not at all, whichever change of a row fails on the way?
#[macro_use]
mod common;

use cf_graph::{Call, Event, Form, Of, Value};
use cf_store::{Entry, Put, Store, StoreError, Timer};
use common::{rows, AnyStore, Place};
use std::collections::BTreeMap;

/// What rows are told by, of each table.
const TABLES: [(&str, &str); 8] = [
    ("cf_request", "id || ' ' || name || ' ' || (closed is not null)"),
    ("cf_word", "request || ' ' || at || ' ' || word || ' ' || token || ' ' || coalesce(length(payload), -1)"),
    ("cf_large", "request || ' ' || place || ' ' || length(payload)"),
    ("cf_beat", "session || ' ' || count"),
    ("cf_timer", "request || ' ' || stage || ' ' || due"),
    ("cf_glance", "request || ' ' || words"),
    ("cf_name", "request || ' ' || session || ' ' || name"),
    ("effects", "name"),
];

/// A place whose tables refuse one of the changes to come.
struct Cut {
    place: Place,
    /// By which the test asks and arms.
    store: AnyStore,
    tables: Vec<(&'static str, &'static str)>,
}

impl Cut {
    fn new() -> Cut {
        let place = Place::new("whole");
        let store = place.store();
        let is_file = place.file().is_some();
        let tables: Vec<_> = TABLES.into_iter().filter(|it| is_file || it.0 != "cf_large").collect();
        let mut making = vec![
            "create table effects (name text)".to_owned(),
            "create table cf_left (many int)".to_owned(),
            "insert into cf_left values (0)".to_owned(),
        ];
        if !is_file {
            making.push("create sequence cf_changes".to_owned());
            making.push(
                "create function cf_cut() returns trigger language plpgsql as $$ begin \
                 if nextval('cf_changes') = (select many from cf_left) then raise exception 'cut'; end if; return coalesce(new, old); end $$"
                    .to_owned(),
            );
        }
        for (table, _) in &tables {
            for change in ["insert", "update", "delete"] {
                making.push(if is_file {
                    format!(
                        "create trigger cf_{change}_{table} before {change} on {table} when (select many from cf_left) > 0 begin \
                         update cf_left set many = many - 1; select raise(abort, 'cut') where (select many from cf_left) = 0; end"
                    )
                } else {
                    format!("create trigger cf_{change} before {change} on {table} for each row execute function cf_cut()")
                });
            }
        }
        let cut = Cut { place, store, tables };
        cut.does(&making);
        cut
    }

    /// Does statements in one transaction, and gives the texts of the last one's first column.
    fn does(&self, statements: &[String]) -> Vec<String> {
        let mut transaction = self.store.transaction().unwrap();
        let told = statements.iter().map(|it| rows(transaction.connection(), it).unwrap()).last();
        transaction.commit().unwrap();
        told.unwrap_or_default()
    }

    /// Has this change from here on be refused, where it isn't 0.
    fn at(&self, change: usize) {
        let mut arming = vec![format!("update cf_left set many = {change}")];
        if self.place.file().is_none() {
            arming.push("alter sequence cf_changes restart".to_owned());
        }
        self.does(&arming);
    }

    /// All that stands.
    fn stands(&self) -> Vec<String> {
        let told: Vec<_> = self.tables.iter().map(|(table, text)| format!("select '{table} ' || {text} from {table}")).collect();
        self.does(&[format!("{} order by 1", told.join(" union all "))])
    }

    /// Makes a call again and again, with each of its changes refused once, and gives what it is told in the end and by how many changes.
    fn whole<T>(&self, name: &str, store: &AnyStore, call: impl Fn(&AnyStore) -> Result<T, StoreError>) -> (T, usize) {
        let before = self.stands();
        for change in 1.. {
            self.at(change);
            let told = call(store);
            self.at(0);
            match told {
                Ok(told) => {
                    assert_ne!(self.stands(), before, "{name} changes something");
                    return (told, change - 1);
                }
                Err(error) => assert_eq!(self.stands(), before, "{name}, whose change {change} failed: {error}"),
            }
        }
        unreachable!()
    }
}

fn entries(first: u64, calls: &[Call]) -> Vec<Entry> {
    let word = |call: &Call| Event { who: 0, call: *call }.word().unwrap();
    calls.iter().zip(first..).map(|(call, token)| Entry { word: word(call), token }).collect()
}

#[test]
fn a_call_is_done_whole_or_not_at_all() {
    let cut = Cut::new();
    let store = cut.place.store();
    let opened = cut.whole("open", &store, |it| it.open("r", "{}")).0;
    let (small, large) = (b"{}".to_vec(), vec![b'x'; 5000]);
    let attach = Call::Attach(Form::Source, Of::None, None);
    let put = |at, entries: &[Entry], payloads: &BTreeMap<usize, Vec<u8>>, store: &AnyStore| {
        store.append(Put { request: "r", number: opened.number, at, entries, payloads, opens: false })
    };
    let mut changes = Vec::new();
    let one = entries(1, &[attach]);
    let small = BTreeMap::from([(1, small)]);
    changes.push(cut.whole("a put of one word", &store, |it| put(0, &one, &small, it)));
    let two = entries(2, &[attach, attach]);
    let both = BTreeMap::from([(2, large.clone()), (3, large)]);
    changes.push(cut.whole("a put of two words with large payloads", &store, |it| put(1, &two, &both, it)));
    let settled = entries(4, &[Call::Complete(0, Value::Nil), Call::Cancel(1)]);
    changes.push(cut.whole("a put of two words", &store, |it| put(3, &settled, &BTreeMap::new(), it)));
    assert!(changes.iter().all(|(stands, _)| stands.is_none()));
    let many: Vec<usize> = changes.iter().map(|it| it.1).collect();
    assert_eq!(many, if cut.place.file().is_some() { [1, 4, 2] } else { [1, 2, 2] }, "each of their changes failed once");

    let last = entries(6, &[Call::Cancel(2)]);
    let acts = |it: &AnyStore| {
        let mut transaction = it.transaction()?;
        rows(transaction.connection(), "insert into effects values ('paid')").map_err(StoreError::Refused)?;
        let stands =
            transaction.append(Put { request: "r", number: opened.number, at: 5, entries: &last, payloads: &BTreeMap::new(), opens: false })?;
        assert!(stands);
        transaction.commit()
    };
    assert_eq!(cut.whole("a transaction", &store, acts).1, 2);

    let timer = |due| Timer { request: "r".into(), number: opened.number, stage: 0, due, payload: b"N".to_vec() };
    cut.whole("a timer", &store, |it| it.set_timer(&timer(1.0)));
    cut.whole("another of the stage", &store, |it| it.set_timer(&timer(2.0)));
    cut.does(&[format!("insert into cf_glance values ({}, 1, '')", opened.number)]);
    assert_eq!(cut.whole("an end", &store, |it| it.end("r", opened.number, 6)), (true, 3), "with its timer and its glance");
    let opens = |at, entries: &[Entry], payloads: &BTreeMap<usize, Vec<u8>>, store: &AnyStore| {
        store.append(Put { request: "r", number: opened.number, at, entries, payloads, opens: true })
    };
    let (one, more) = (entries(7, &[attach]), entries(8, &[attach, attach]));
    let both = BTreeMap::from([(8, vec![0; 3]), (9, vec![b'x'; 5000])]);
    assert_eq!(cut.whole("a put that opens it again", &store, |it| opens(6, &one, &BTreeMap::new(), it)), (None, 2));
    assert_eq!(store.end("r", opened.number, 7), Ok(true));
    let changes = if cut.place.file().is_some() { 4 } else { 3 };
    assert_eq!(cut.whole("a put of two words that opens it again", &store, |it| opens(7, &more, &both, it)), (None, changes));
    assert_eq!(store.payloads("r", opened.number, &[8, 9]).unwrap(), both.values().cloned().map(Some).collect::<Vec<_>>());
    assert_eq!(store.read("r", opened.number, 7).unwrap(), more);
    assert_eq!(store.end("r", opened.number + 1, 9), Err(StoreError::Gone("r".into())));
    assert_eq!(store.end("r", opened.number, 9), Ok(true));
    assert_eq!(opens(8, &more, &both, &store), Ok(Some(more[1..].to_vec())), "its place is taken");
    assert_eq!(store.news(None).unwrap().0, BTreeMap::new(), "and it stays closed");
    assert_eq!(opens(9, &more, &BTreeMap::new(), &store), Ok(None));
    assert_eq!(store.news(None).unwrap().0, BTreeMap::from([("r".to_owned(), Some(11))]));
    cut.whole("a timer of what was opened again", &store, |it| it.set_timer(&timer(3.0)));
    cut.whole("the drop of a timer", &store, |it| it.drop_timer(&timer(3.0)));
    for _ in 0..2 {
        cut.whole("a beat", &store, |it| it.beat(7));
    }
    cut.whole("a session's name", &store, |it| it.name_session(7, "seven"));
    assert_eq!(cut.whole("the drop of a session", &store, |it| it.drop_beat(7)).1, 2, "with its name");
}
