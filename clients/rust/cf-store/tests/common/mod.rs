//! What tests of stores have in common: a place for rows, and a process in Python that works on the same requests.
#![allow(dead_code)]

use cf_store::{Entry, Flow, Functions, Mark, Opened, Options, Put, Service, Stage, Store, StoreError, Timer, Transaction, WordCounts};
use std::any::Any;
use std::collections::BTreeMap;
use std::io::Write;
use std::panic::{catch_unwind, AssertUnwindSafe};
use std::path::{Path, PathBuf};
use std::process::{Child, Command, Stdio};
use std::sync::atomic::{AtomicBool, AtomicU32, Ordering::SeqCst};
use std::sync::{Arc, Mutex};
use std::time::{Duration, Instant};

/// The questions of a store, handed to a macro that answers them.
#[allow(unused_macros)]
macro_rules! questions {
    ($answered:ident) => {
        $answered! {
            fn open(name: &str, plan: &str) -> Opened;
            fn find(name: &str) -> Option<Opened>;
            fn append(put: Put<'_>) -> Option<Vec<Entry>>;
            fn read(name: &str, number: i64, at: usize) -> Vec<Entry>;
            fn payload(name: &str, number: i64, place: usize) -> Option<Vec<u8>>;
            fn payloads(name: &str, number: i64, places: &[usize]) -> Vec<Option<Vec<u8>>>;
            fn news(since: Option<Mark>) -> (WordCounts, Mark);
            fn wait_for_change(wait: Duration) -> ();
            fn end(name: &str, number: i64, at: usize) -> bool;
            fn beat(session: u64) -> ();
            fn beats() -> BTreeMap<u64, i64>;
            fn drop_beat(session: u64) -> ();
            fn name_session(session: u64, name: &str) -> ();
            fn now() -> f64;
            fn set_timer(timer: &Timer) -> ();
            fn due_timers(now: f64) -> Vec<Timer>;
            fn drop_timer(timer: &Timer) -> ();
        }
    };
}

/// Methods of a store that `self.store` does.
#[macro_export]
macro_rules! passed_on {
    ($(fn $name:ident($($arg:ident: $type:ty),*) -> $told:ty;)*) => {$(
        fn $name(&self, $($arg: $type),*) -> Result<$told, StoreError> {
            self.store.$name($($arg),*)
        }
    )*};
}

/// A store of an address: `sqlite:///PATH`, or of a database of PostgreSQL's.
pub struct AnyStore {
    store: Box<dyn Store>,
}

impl AnyStore {
    pub fn open(address: &str) -> AnyStore {
        let store: Box<dyn Store> = match address.strip_prefix("sqlite:///") {
            #[cfg(feature = "sqlite")]
            Some(path) => Box::new(cf_store::SQLite::open(path).unwrap()),
            #[cfg(feature = "postgres")]
            None => Box::new(cf_store::Postgres::connect(address).unwrap()),
            #[allow(unreachable_patterns)]
            _ => panic!("{address} is an address of an engine that is left out"),
        };
        AnyStore { store }
    }
}

impl Store for AnyStore {
    questions!(passed_on);

    fn transacts(&self) -> bool {
        self.store.transacts()
    }

    fn locks_out_others(&self) -> bool {
        self.store.locks_out_others()
    }

    fn transaction(&self) -> Result<Box<dyn Transaction + '_>, StoreError> {
        self.store.transaction()
    }
}

/// A store whose process is killed behind its puts, once it `dies`, and that tells no news while somebody has the `gate`.
struct Watched<S> {
    store: S,
    dies: Arc<AtomicBool>,
    gate: Arc<Mutex<()>>,
    /// How often it was asked for news.
    news: Arc<AtomicU32>,
}

macro_rules! watched {
    ($(fn $name:ident($($arg:ident: $type:ty),*) -> $told:ty;)*) => {$(
        fn $name(&self, $($arg: $type),*) -> Result<$told, StoreError> {
            if stringify!($name) == "news" {
                drop(self.gate.lock().unwrap());
                self.news.fetch_add(1, SeqCst);
            }
            let told = self.store.$name($($arg),*);
            if stringify!($name) == "append" && self.dies.load(SeqCst) {
                panic!("killed");
            }
            told
        }
    )*};
}

impl<S: Store> Store for Watched<S> {
    questions!(watched);
}

/// Whoever attaches to a closed request, and is killed right behind that, leaves it open: one that was closed by itself, or elsewhere.
pub fn who_attaches_to_a_closed_request_opens_it<S: Store + 'static>(store: impl Fn() -> S) {
    let (dies, mut options) = (Arc::new(AtomicBool::new(false)), Options::default());
    options.lease = Duration::from_secs(1000);
    let its = Watched { store: store(), dies: Arc::clone(&dies), gate: Arc::default(), news: Arc::default() };
    let service = Service::with(its, Functions::new(), options).unwrap();
    let mut flow = Flow::new("one");
    flow.promise("p");
    let over = service.start(&flow, "over", &[1.into()]).unwrap();
    let plain = service.request("plain").unwrap();
    let store = store();
    let open = || store.news(None).unwrap().0;
    until(|| !open().contains_key("over"));
    assert_eq!(store.end("plain", store.find("plain").unwrap().unwrap().number, 0), Ok(true));
    dies.store(true, SeqCst);
    for request in [over, plain] {
        assert!(!open().contains_key(request.name()));
        let killed = catch_unwind(AssertUnwindSafe(|| request.promise("late").map(|_| ())));
        assert!(killed.is_err());
        assert!(open().contains_key(request.name()), "{} has a stage that is ready", request.name());
    }
}

/// Whoever waits for a stage is told of it soon, also where another process closes the request right behind its last word.
pub fn who_waits_elsewhere_is_told_of_the_last_word<S: Store + 'static>(store: impl Fn() -> S) {
    let (gate, news, mut options) = (Arc::new(Mutex::new(())), Arc::new(AtomicU32::new(0)), Options::default());
    options.lease = Duration::from_secs(1000);
    options.threads = 0;
    let its = Watched { store: store(), dies: Arc::default(), gate: Arc::clone(&gate), news: Arc::clone(&news) };
    let asks = Service::with(its, Functions::new(), options.clone()).unwrap();
    let mut flow = Flow::new("one");
    let step = flow.promise("p");
    let stage = asks.start(&flow, "r", &[]).unwrap().step(step).unwrap();
    until(|| news.load(SeqCst) > 1);
    let looks_away = gate.lock().unwrap();
    let other = Service::with(store(), Functions::new(), options).unwrap();
    assert!(other.open("r").unwrap().stage(0).unwrap().complete(&7).unwrap());
    let store = store();
    until(|| !store.news(None).unwrap().0.contains_key("r"));
    drop(looks_away);
    assert_eq!(stage.wait_timeout::<i64>(Duration::from_secs(60)), Ok(Some(7)));
}

/// Comes back once this is so.
pub fn until(is_so: impl Fn() -> bool) {
    let begun = Instant::now();
    while !is_so() {
        assert!(begun.elapsed() < Duration::from_secs(60));
        std::thread::sleep(Duration::from_millis(5));
    }
}

/// A place for rows of its own, which goes with the value: a file of SQLite's, or, where CF_STORES names a database of PostgreSQL's, a schema there.
pub struct Place {
    address: String,
    name: String,
    /// The file, or the database.
    of: Result<PathBuf, String>,
}

impl Place {
    pub fn new(name: &str) -> Place {
        let stores = std::env::var("CF_STORES").unwrap_or_default();
        let database = stores.split_whitespace().find(|it| cfg!(feature = "postgres") && it.starts_with("postgresql://"));
        let place = match database {
            Some(database) => {
                let name = format!("cf_{}_{}", std::process::id(), name.replace(|it: char| !it.is_ascii_alphanumeric(), "_"));
                let address = format!("{database}{}options=-csearch_path%3D{name}", if database.contains('?') { "&" } else { "?" });
                Place { address, name, of: Err(database.to_owned()) }
            }
            None => {
                let path = std::env::temp_dir().join(format!("cf-store-{}-{name}.db", std::process::id()));
                Place { address: format!("sqlite:///{}", path.display()), name: name.to_owned(), of: Ok(path) }
            }
        };
        place.remove();
        #[cfg(feature = "postgres")]
        if let Err(database) = &place.of {
            query(database, &format!("create schema {}", place.name));
        }
        place
    }

    pub fn store(&self) -> AnyStore {
        AnyStore::open(&self.address)
    }

    /// Its address, as Python has it, too.
    pub fn address(&self) -> &str {
        &self.address
    }

    /// Its file, if it is one of SQLite's.
    pub fn file(&self) -> Option<&Path> {
        self.of.as_deref().ok()
    }

    /// Does a statement, and gives the texts of its first column.
    pub fn query(&self, statement: &str) -> Vec<String> {
        query(&self.address, statement)
    }

    fn remove(&self) {
        match &self.of {
            Ok(path) => {
                for end in ["", "-line", "-wal", "-shm"] {
                    let mut name = path.clone().into_os_string();
                    name.push(end);
                    let _not_there = std::fs::remove_file(name);
                }
            }
            Err(database) => drop(query(database, &format!("drop schema if exists {} cascade", self.name))),
        }
    }
}

impl Drop for Place {
    fn drop(&mut self) {
        self.remove();
    }
}

/// Does a statement in a transaction of its own, and gives the texts of its first column.
pub fn query(address: &str, statement: &str) -> Vec<String> {
    let store = AnyStore::open(address);
    let mut transaction = store.transaction().unwrap();
    let told = rows(transaction.connection(), statement);
    transaction.commit().unwrap();
    told.unwrap()
}

/// The same by the connection of an engine's transaction.
pub fn rows(connection: &mut dyn Any, statement: &str) -> Result<Vec<String>, String> {
    #[cfg(feature = "postgres")]
    if let Some(connection) = connection.downcast_mut::<cf_store::PostgresTransaction>() {
        let rows = connection.query(statement, &[]).map_err(|error| error.to_string())?;
        return Ok(rows.iter().map(|row| row.get(0)).collect());
    }
    #[cfg(feature = "sqlite")]
    if let Some(connection) = connection.downcast_mut::<rusqlite::Connection>() {
        let text = |error: rusqlite::Error| error.to_string();
        let mut asked = connection.prepare(statement).map_err(text)?;
        let rows = asked.query_map([], |row| row.get(0)).map_err(text)?.collect::<Result<_, _>>();
        return rows.map_err(text);
    }
    panic!("a connection of another engine")
}

/// Of a service that takes nobody for gone, however slow the machine is.
pub fn patient() -> Options {
    let mut options = Options::default();
    options.lease = Duration::from_secs(60);
    options
}

/// Of one that is to find soon that somebody is gone, or that a request is closed. Nobody else may run a function meanwhile.
pub fn hasty() -> Options {
    let mut options = Options::default();
    options.lease = Duration::from_millis(500);
    options
}

/// Runs a program in Python over `cf.store`, with these arguments. `None` where the client for Python isn't there, or its C module.
pub fn python(program: &str, args: &[&str]) -> Option<Child> {
    let client = std::env::var_os("CF_PYTHON").filter(|it| std::path::Path::new(it).join("cf/_cf.abi3.so").exists())?;
    let mut command = Command::new(std::env::var_os("CF_INTERPRETER").unwrap_or_else(|| "python3".into()));
    command.args(["-B", "-c", program]).args(args).env("PYTHONPATH", client).stdout(Stdio::piped());
    command.spawn().ok()
}

/// What a program has printed, once it has ended.
pub fn printed(child: Child) -> String {
    let (ended_well, told) = printed_by(child);
    assert!(ended_well, "the program in Python fails");
    told
}

/// Has `cf_look check` judge an account, where CF_LOOK names that program.
pub fn fits(account: &str) {
    let Some(program) = std::env::var_os("CF_LOOK").filter(|it| std::path::Path::new(it).exists()) else { return };
    let mut look = Command::new(program).arg("check").stdin(Stdio::piped()).stdout(Stdio::piped()).spawn().unwrap();
    look.stdin.take().unwrap().write_all(account.as_bytes()).unwrap();
    assert_eq!(printed_by(look), (true, "fits\n".into()));
}

fn printed_by(child: Child) -> (bool, String) {
    let told = child.wait_with_output().unwrap();
    (told.status.success(), String::from_utf8(told.stdout).unwrap())
}

/// Settled within a minute.
pub fn settled<T: serde::de::DeserializeOwned>(stage: &Stage) -> Result<T, cf_store::Error> {
    stage.wait_timeout(Duration::from_secs(60)).map(|told| told.expect("it is settled within 60 s"))
}

const FINISHES: &str = "
import sys
from cf.store import DurableService, connect
service = DurableService(connect(sys.argv[1]), 2, lease=60)
@service.function('twice', version=1)
def twice(number):
    return 2 * number
@service.function('fails', version=1)
def fails(number):
    raise ValueError(f'no {number}')
print(service.open('of rust')[5].result(60), end='')
service.shutdown()
";

const BEGINS: &str = "
import sys
from cf.store import DurableService, connect
service = DurableService(connect(sys.argv[1]), 0, lease=60)
@service.function('inc', version=1)
def inc(number): ...
@service.function('declined', version=1)
def declined(number): ...
request = service.request('of python')
number = request.promise('number')
stage = number
for _ in range(3):
    stage = stage.then(inc)
stage.then(declined)
number.complete(39)
print('begun', end='')
service.shutdown()
";

/// A request that was begun in Rust is gone on with in Python, and the other way round. `None` where Python isn't there.
pub fn python_goes_on<S: Store + 'static>(address: &str, store: impl Fn() -> S) -> Option<()> {
    let functions = || {
        let refuse = |_: i64| Err::<i64, _>(cf_store::Failed::new("CardDeclined", "no card"));
        Functions::new().with("inc", 1, |number: i64| Ok::<_, String>(number + 1)).with("declined", 1, refuse)
    };
    let theirs = functions().with("twice", 1, |number: i64| Ok::<_, String>(number)).with("fails", 1, |number: i64| Ok::<_, String>(number));
    let mut planner = Options::default();
    planner.threads = 0; // (it knows names of functions that Python has)
    let planner = Service::with(store(), theirs, planner).unwrap();
    let request = planner.request("of rust").unwrap();
    let number = request.promise("number").unwrap();
    let stage = number.then("inc").unwrap().then("twice").unwrap().then("inc").unwrap();
    let failed = stage.then("fails").unwrap();
    let end = stage.then("twice").unwrap();
    number.complete(&20).unwrap();
    let child = python(FINISHES, &[address])?;
    let service = Service::with(store(), functions(), Options::default()).unwrap();
    let request = service.open("of rust").unwrap();
    assert_eq!(settled::<i64>(&request.stage(end.number()).unwrap()), Ok(86));
    assert_eq!(printed(child), "86");
    let failed = settled::<i64>(&request.stage(failed.number()).unwrap());
    assert_eq!(failed, Err(cf_store::Error::Failed(cf_store::Failed::new("ValueError", "no 43"))));

    assert_eq!(printed(python(BEGINS, &[address])?), "begun");
    let request = service.open("of python").unwrap();
    assert_eq!(settled::<i64>(&request.stage(3).unwrap()), Ok(42));
    let declined = cf_store::Error::Failed(cf_store::Failed::new("CardDeclined", "no card"));
    assert_eq!(settled::<i64>(&request.stage(4).unwrap()), Err(declined));
    Some(())
}
