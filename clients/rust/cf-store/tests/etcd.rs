//! Requests in an etcd cluster. Each test starts etcd's server for itself, and is left out with a line where there is none.
#[macro_use]
mod common;

use cf_store::{Entry, Error, Etcd, Functions, Put, Service, Store, StoreError, Timer};
use common::settled;
use serde_json::{json, Value};
use std::collections::BTreeMap;
use std::io::{Read, Write};
use std::iter;
use std::net::{Shutdown, TcpListener, TcpStream};
use std::path::PathBuf;
use std::process::{Child, Command, Stdio};
use std::sync::atomic::{AtomicBool, AtomicU32, Ordering};
use std::sync::{Arc, Mutex};
use std::thread;
use std::time::{Duration, Instant, SystemTime, UNIX_EPOCH};

const HOST: &str = "127.0.0.1";

/// A server in a folder of its own.
struct Server {
    folder: PathBuf,
    ports: [u16; 2],
    child: Child,
}

/// One that nobody listens at. The kernel gives no port below 32,768 to who connects.
fn free_port() -> u16 {
    let any = || 10_000 + (SystemTime::now().duration_since(UNIX_EPOCH).unwrap().subsec_micros() % 22_768) as u16;
    iter::repeat_with(any).find(|port| TcpListener::bind((HOST, *port)).is_ok()).unwrap()
}

impl Server {
    fn start(name: &str) -> Option<Server> {
        if Command::new("etcd").arg("--version").stdout(Stdio::null()).status().is_err() {
            eprintln!("left out: there is no etcd");
            return None;
        }
        let folder = std::env::temp_dir().join(format!("cf-store-{}-{name}.etcd", std::process::id()));
        loop {
            let ports = [free_port(), free_port()];
            let mut server = Server { child: Server::run(&folder, ports), folder: folder.clone(), ports };
            if server.answers() {
                return Some(server);
            } // (another program has taken a port meanwhile)
        }
    }

    fn run(folder: &PathBuf, [client, peer]: [u16; 2]) -> Child {
        let (client, peer) = (format!("http://{HOST}:{client}"), format!("http://{HOST}:{peer}"));
        let mut command = Command::new("etcd");
        command.args(["--name", "n", "--listen-client-urls", &client, "--advertise-client-urls", &client, "--listen-peer-urls", &peer]);
        command.args(["--initial-advertise-peer-urls", &peer, "--initial-cluster", &format!("n={peer}"), "--data-dir"]).arg(folder);
        command.stdout(Stdio::null()).stderr(Stdio::null()).spawn().unwrap()
    }

    /// Waits until it answers; false where it has ended.
    fn answers(&mut self) -> bool {
        let until = Instant::now() + Duration::from_secs(60);
        while !self.post("/v3/kv/range", &json!({"key": "AA=="})).contains("\"revision\"") {
            if self.child.try_wait().unwrap().is_some() {
                return false;
            }
            assert!(Instant::now() < until, "etcd doesn't answer");
            thread::sleep(Duration::from_millis(20));
        }
        self.child.try_wait().unwrap().is_none() // (else another's server answers at this port)
    }

    /// What the server answers, or nothing where it doesn't.
    fn post(&self, path: &str, body: &Value) -> String {
        let (body, mut told) = (body.to_string(), String::new());
        let Ok(mut stream) = TcpStream::connect((HOST, self.ports[0])) else { return told };
        let head = format!("POST {path} HTTP/1.1\r\nHost: etcd\r\nConnection: close\r\nContent-Length: {}\r\n\r\n", body.len());
        let _cut_off = stream.write_all((head + &body).as_bytes()).and_then(|()| stream.read_to_string(&mut told));
        told
    }

    fn kill(&mut self) {
        let _has_ended = self.child.kill();
        self.child.wait().unwrap();
    }

    fn restart(&mut self) {
        self.child = Server::run(&self.folder, self.ports);
        assert!(self.answers());
    }

    fn address(&self) -> String {
        format!("etcd://{HOST}:{}", self.ports[0])
    }

    fn store(&self) -> Etcd {
        Etcd::connect(&self.address()).unwrap()
    }
}

impl Drop for Server {
    fn drop(&mut self) {
        self.kill();
        let _left = std::fs::remove_dir_all(&self.folder);
    }
}

/// What stands between a store and its server, and passes all on, unless it is told otherwise.
struct Between {
    port: u16,
    open: Arc<Mutex<Vec<TcpStream>>>,
    /// Whether what the server answers is lost, and the connection with it.
    loses_answers: Arc<AtomicBool>,
    watches: Arc<AtomicU32>,
}

impl Between {
    fn new(to: u16) -> Between {
        let listener = TcpListener::bind((HOST, 0)).unwrap();
        let made =
            Between { port: listener.local_addr().unwrap().port(), open: Arc::default(), loses_answers: Arc::default(), watches: Arc::default() };
        let (open, loses, watches) = (Arc::clone(&made.open), Arc::clone(&made.loses_answers), Arc::clone(&made.watches));
        thread::spawn(move || {
            for theirs in listener.incoming().flatten() {
                let Ok(its) = TcpStream::connect((HOST, to)) else { continue };
                open.lock().unwrap().extend([theirs.try_clone().unwrap(), its.try_clone().unwrap()]);
                let (asks, asked, loses, watches) = (theirs.try_clone().unwrap(), its.try_clone().unwrap(), Arc::clone(&loses), Arc::clone(&watches));
                thread::spawn(move || {
                    pass_on(asks, asked, |told| {
                        watches.fetch_add(told.starts_with(b"POST /v3/watch").into(), Ordering::SeqCst);
                        true
                    })
                });
                thread::spawn(move || pass_on(its, theirs, |_| !loses.load(Ordering::SeqCst)));
            }
        });
        made
    }

    /// Cuts all connections.
    fn cut(&self) {
        for it in self.open.lock().unwrap().drain(..) {
            let _was_closed = it.shutdown(Shutdown::Both);
        }
    }

    fn store(&self) -> Etcd {
        Etcd::connect(&format!("{HOST}:{}", self.port)).unwrap()
    }
}

fn pass_on(mut from: TcpStream, mut to: TcpStream, passes: impl Fn(&[u8]) -> bool) {
    let mut part = [0; 65536];
    while let Ok(many @ 1..) = from.read(&mut part) {
        if !passes(&part[..many]) || to.write_all(&part[..many]).is_err() {
            break;
        }
    }
    let _was_closed = (from.shutdown(Shutdown::Both), to.shutdown(Shutdown::Both));
}

fn add_one(number: i64) -> Result<i64, String> {
    Ok(number + 1)
}

const PLAN: &str = r#"{"cf":3,"flow":"","stages":[]}"#;

fn entry(word: u64, token: u64) -> Entry {
    Entry { word, token }
}

#[test]
fn rows_stand_in_keys() {
    let Some(server) = Server::start("rows") else { return };
    let (store, name) = (server.store(), "order 17/ü%~");
    assert_eq!(store.find(name), Ok(None));
    let (_, before) = store.news(None).unwrap();
    let opened = store.open(name, PLAN).unwrap();
    assert_eq!(store.open(name, "another plan"), Ok(opened.clone()));
    assert_eq!(server.store().find(name), Ok(Some(opened.clone())));
    let now = store.now().unwrap();
    assert!(opened.name == name && opened.plan == PLAN && (now - 60.0..=now).contains(&opened.opened) && opened.number > 0);

    let (number, large) = (opened.number, vec![b'x'; 200_000]);
    let payloads = BTreeMap::from([(1, b"\x00\xff".to_vec()), (2, large.clone())]);
    let both = [entry(u64::from(u32::MAX), 5), entry(0, 6)];
    let put = Put { request: name, number, at: 0, entries: &both, payloads: &payloads, opens: false };
    assert_eq!(store.append(put), Ok(None));
    assert_eq!(store.append(put), Ok(Some(both.to_vec())), "where it stood the same put is told what stands");
    let other = [entry(9, 9)];
    let none = BTreeMap::new();
    assert_eq!(store.append(Put { entries: &other, payloads: &none, ..put }), Ok(Some(both.to_vec())), "the place is taken");
    assert_eq!(store.append(Put { entries: &other, payloads: &none, at: 1, ..put }), Ok(Some(both[1..].to_vec())));
    assert_eq!(store.append(Put { entries: &other, payloads: &none, at: 2, ..put }), Ok(None));
    assert_eq!(store.read(name, number, 0), Ok([both.to_vec(), other.to_vec()].concat()));
    assert_eq!(store.read(name, number, 2), Ok(other.to_vec()));
    assert_eq!(store.read(name, number, 3), Ok(vec![]));
    assert_eq!(store.payload(name, number, 1), Ok(Some(b"\x00\xff".to_vec())));
    assert_eq!(store.payload(name, number, 2), Ok(Some(large)));
    assert_eq!(store.payload(name, number, 3), Ok(None));

    let gone = Err(StoreError::Gone(name.into()));
    assert_eq!(store.append(Put { number: number + 1, at: 3, ..put }), gone.clone().map(|_: ()| None));
    assert_eq!(store.read(name, number + 1, 0), gone.clone().map(|_: ()| vec![]));
    assert_eq!(store.payload(name, number + 1, 1), gone.clone().map(|_: ()| None));
    assert_eq!(store.payloads(name, number + 1, &[1]), gone.clone().map(|_: ()| vec![]));
    let many = vec![entry(1, 1); 41];
    assert!(matches!(store.append(Put { at: 3, entries: &many, payloads: &none, ..put }), Err(StoreError::Refused(_))));
    for size in [2_000_000, 3_000_000] {
        // (etcd refuses the one, and gRPC the other before it)
        let huge = BTreeMap::from([(4, vec![b'x'; size])]);
        assert!(matches!(store.append(Put { at: 3, entries: &other, payloads: &huge, ..put }), Err(StoreError::Refused(_))));
    }

    let (all, mark) = store.news(None).unwrap();
    assert_eq!(all, BTreeMap::from([(name.to_owned(), Some(3))]));
    assert_eq!(store.news(Some(before)).unwrap().0, all);
    assert_eq!(store.news(Some(mark)), Ok((BTreeMap::new(), mark)));
    assert_eq!(store.end(name, number, 2), Ok(false), "it has more words");
    assert_eq!(store.end(name, number + 1, 3), Err(StoreError::Gone(name.into())));
    assert_eq!(store.end(name, number, 3), Ok(true));
    assert_eq!(store.end(name, number, 3), Ok(false));
    assert_eq!(store.news(None).unwrap().0, BTreeMap::new());
    assert_eq!(store.append(Put { entries: &other, payloads: &none, at: 3, opens: true, ..put }), Ok(None));
    assert_eq!(store.news(Some(mark)).unwrap().0, BTreeMap::from([(name.to_owned(), Some(4))]));
    assert_eq!(store.end(name, number, 4), Ok(true));
}

#[test]
fn sessions_and_timers_stand_in_keys() {
    let Some(server) = Server::start("sessions") else { return };
    let store = server.store();
    let inside = Functions::new().transactional("inside", 1, |_: &mut u8| Ok::<_, String>(1));
    assert!(matches!(Service::new(server.store(), inside), Err(StoreError::Refused(_))), "it has no transactions");
    for _ in 0..3 {
        store.beat(0x7f_ffff_ffff).unwrap();
    }
    store.beat(1).unwrap();
    store.name_session(1, "one").unwrap();
    assert_eq!(store.beats(), Ok(BTreeMap::from([(1, 1), (0x7f_ffff_ffff, 3)])));
    store.drop_beat(0x7f_ffff_ffff).unwrap();
    store.beat(0x7f_ffff_ffff).unwrap();
    assert_eq!(store.beats(), Ok(BTreeMap::from([(1, 1), (0x7f_ffff_ffff, 1)])));

    let number = store.open("a b", PLAN).unwrap().number;
    let timer = |stage, due, payload: &[u8]| Timer { request: "a b".into(), number, stage, due, payload: payload.to_vec() };
    let (late, early) = (timer(1, 20.5, b"E1"), timer(2, 10.25, b"N"));
    for it in [timer(1, 5.0, b"V"), late.clone(), early.clone()] {
        store.set_timer(&it).unwrap();
    }
    assert_eq!(store.due_timers(10.0), Ok(vec![]));
    assert_eq!(store.due_timers(21.0), Ok(vec![early.clone(), late.clone()]));
    store.drop_timer(&early).unwrap();
    assert_eq!(store.due_timers(21.0), Ok(vec![late]));
    assert_eq!(store.set_timer(&Timer { number: number + 1, ..early }), Err(StoreError::Gone("a b".into())));
    assert_eq!(store.end("a b", number, 0), Ok(true));
    assert_eq!(store.due_timers(21.0), Ok(vec![]), "a request that is closed has no timers");
}

#[test]
fn answers_come_in_parts() {
    let Some(server) = Server::start("parts") else { return };
    let put = |number: i32| json!({"request_put": {"key": base64::encode(format!("cf/o/request%20{number:04}")), "value": base64::encode("0")}});
    for first in (0..2300).step_by(115) {
        let told = server.post("/v3/kv/txn", &json!({"success": (first..first + 115).map(put).collect::<Vec<_>>()}));
        assert!(told.contains("\"succeeded\":true"), "{told}");
    }
    let (ends, mark) = server.store().news(None).unwrap();
    assert_eq!(ends.len(), 2300);
    assert!(ends.contains_key("request 0000") && ends.contains_key("request 2299"));
    assert_eq!(server.store().news(Some((mark.0 - 2, 0))).unwrap().0.len(), 230);
}

#[test]
fn who_attaches_to_a_closed_request_opens_it() {
    let Some(server) = Server::start("opens") else { return };
    common::who_attaches_to_a_closed_request_opens_it(|| server.store());
}

#[test]
fn an_answer_that_is_lost_is_unknown() {
    let Some(mut server) = Server::start("unknown") else { return };
    let between = Between::new(server.ports[0]);
    let store = between.store();
    let number = store.open("lost", PLAN).unwrap().number;
    let (entries, payloads) = ([entry(3, 4)], BTreeMap::new());
    let put = Put { request: "lost", number, at: 0, entries: &entries, payloads: &payloads, opens: false };
    between.loses_answers.store(true, Ordering::SeqCst);
    assert!(matches!(store.append(put), Err(StoreError::Unknown(_))));
    between.loses_answers.store(false, Ordering::SeqCst);
    assert_eq!(store.append(put), Ok(Some(entries.to_vec())), "it had landed");

    server.kill();
    assert!(matches!(store.news(None), Err(StoreError::Unknown(_))));
    assert!(matches!(Etcd::connect(&server.address()), Err(StoreError::Unknown(_))));
    assert!(matches!(Etcd::connect("etcd://nowhere"), Err(StoreError::Refused(_))));
    server.restart();
    assert_eq!(store.read("lost", number, 0), Ok(entries.to_vec()));
    let second = Etcd::connect(&format!("etcd://{HOST}:{},{HOST}:{}", free_port(), server.ports[0])).unwrap();
    assert_eq!(second.read("lost", number, 0), Ok(entries.to_vec()), "the next member answers");
}

#[test]
fn a_watch_tells_that_something_was_put() {
    let Some(server) = Server::start("watch") else { return };
    let between = Between::new(server.ports[0]);
    let (store, other) = (between.store(), server.store());
    let number = store.open("watched", PLAN).unwrap().number;
    let put = |at: usize| {
        let (entries, payloads) = ([entry(3, at as u64)], BTreeMap::new());
        assert_eq!(other.append(Put { request: "watched", number, at, entries: &entries, payloads: &payloads, opens: false }), Ok(None));
    };
    let waits = |wait| {
        let began = Instant::now();
        store.wait_for_change(Duration::from_millis(wait)).unwrap();
        began.elapsed()
    };
    waits(1); // (the watch is opened)
    assert!((0..4).any(|_| waits(200) >= Duration::from_millis(150)), "nothing was put");
    put(0);
    assert!(waits(20_000) < Duration::from_secs(10));
    between.cut();
    waits(5000);
    waits(5000); // (it is opened again)
    assert_eq!(between.watches.load(Ordering::SeqCst), 2);
    put(1);
    assert!(waits(20_000) < Duration::from_secs(10));
}

#[test]
fn connections_are_cut_while_it_is_worked_on() {
    let Some(server) = Server::start("cut") else { return };
    let between = Between::new(server.ports[0]);
    let calls = Arc::new(AtomicU32::new(0));
    let counted = Arc::clone(&calls);
    let inc = move |number: i64| {
        counted.fetch_add(1, Ordering::SeqCst);
        add_one(number)
    };
    let service = Service::with(between.store(), Functions::new().with("inc", 1, inc), common::patient()).unwrap();
    let request = service.request("cut").unwrap();
    let number = request.promise("number").unwrap();
    let (mut last, over) = (number.clone(), AtomicBool::new(false));
    thread::scope(|scope| {
        scope.spawn(|| {
            let mut pause = Duration::from_millis(30);
            while !over.load(Ordering::SeqCst) {
                thread::sleep(pause);
                between.cut();
                pause += pause / 20; // (so that all comes through on a slow machine, too)
            }
        });
        for _ in 0..20 {
            last = last.then("inc").unwrap();
        }
        assert!(number.complete(&0).unwrap());
        let slow = request.promise("slow").unwrap();
        slow.or_timeout(Duration::from_millis(50)).unwrap();
        let told = (settled::<i64>(&last), settled::<i64>(&slow));
        over.store(true, Ordering::SeqCst);
        assert_eq!(told.0, Ok(20));
        assert!(matches!(told.1, Err(Error::TimedOut(Some(_)))));
    });
    assert_eq!(calls.load(Ordering::SeqCst), 20, "each function is called once");
    request.end().unwrap();
    drop(service);
    assert_eq!(server.store().beats(), Ok(BTreeMap::new()));
}

#[test]
fn python_goes_on_with_it() {
    let Some(server) = Server::start("python") else { return };
    if common::python_goes_on(&server.address(), || server.store()).is_none() {
        eprintln!("left out: CF_PYTHON names no client for Python with its C module");
    }
}
