//! A worker of `conformance/stores/engines faults languages`: it works on the requests of a run with others, in Python and Java, until it is told to
//! stop or is killed. Its functions are those of `languages_functions.py`. What it means to do, what it is told and what it sees it writes to
//! FOLDER/log-rust-PID at once, before it goes on, so a log outlives a kill.
//!
//!     faults ADDRESS FOLDER SEED
//!     faults write ADDRESS LOG      attaches stages, and writes a line to LOG for each, as `power.py` wants
//!
//! With SPOILT it is a worker that the judge has to find: `twice` calls a function twice for one claim, `gives` gives another value, `puts` says that
//! words stand that it never put, `answers` says the contrary of what a call was answered, `shows` shows another value of a stage.
use cf_store::{Entry, Error, Failed, Functions, Mark, Opened, Options, Put, Request, SQLite, Service, Stage, Store, StoreError, Timer, WordCounts};
use serde_json::{json, Value};
use std::collections::{BTreeMap, BTreeSet, HashMap, HashSet};
use std::fs::{self, File};
use std::io::Write;
use std::path::{Path, PathBuf};
use std::sync::atomic::{AtomicU64, Ordering};
use std::sync::{Arc, Mutex, MutexGuard, PoisonError};
use std::time::{Duration, Instant};
use std::{env, process, thread};

type Fault = Box<dyn std::error::Error>;

/// How many requests are worked on at a time.
const WINDOW: usize = 8;
/// How many stages a request has at most, more or less.
const MOST: usize = 16;
/// After so many seconds a call that doesn't come back ends the process.
const HANG: u64 = 60;

/// Numbers by chance, from a seed.
struct Chance(u64);

impl Chance {
    fn below(&mut self, many: usize) -> usize {
        self.0 = self.0.wrapping_add(0x9e37_79b9_7f4a_7c15);
        let mut mixed = (self.0 ^ self.0 >> 30).wrapping_mul(0xbf58_476d_1ce4_e5b9);
        mixed = (mixed ^ mixed >> 27).wrapping_mul(0x94d0_49bb_1331_11eb);
        ((mixed ^ mixed >> 31) % many as u64) as usize
    }

    fn one<'a, T>(&mut self, of: &'a [T]) -> &'a T {
        &of[self.below(of.len())]
    }
}

fn locked<T>(mutex: &Mutex<T>) -> MutexGuard<'_, T> {
    mutex.lock().unwrap_or_else(PoisonError::into_inner)
}

/// The process's own log.
struct Notes {
    file: File,
    spoilt: String,
    /// Tokens of words that were put, and of which it isn't known whether they stand.
    doubt: Mutex<HashSet<u64>>,
    /// The numbers of requests.
    numbers: Mutex<HashMap<String, i64>>,
    count: AtomicU64,
    began: Instant,
    /// When the main thread went on last, in milliseconds since the beginning.
    last: AtomicU64,
}

static NOTES: Mutex<Option<Arc<Notes>>> = Mutex::new(None);

impl Notes {
    fn open(folder: &str) -> std::io::Result<Arc<Notes>> {
        let file = File::options().append(true).create(true).open(format!("{folder}/log-rust-{}", process::id()))?;
        let spoilt = env::var("SPOILT").unwrap_or_default();
        let (doubt, numbers, count, last) = Default::default();
        let notes = Arc::new(Notes { file, spoilt, doubt, numbers, count, began: Instant::now(), last });
        *locked(&NOTES) = Some(Arc::clone(&notes));
        Ok(notes)
    }

    fn write(&self, said: &Value) {
        (&self.file).write_all(format!("{said}\n").as_bytes()).expect("the log can be written");
    }

    /// Whether this is every second time, at which a spoilt worker does so.
    fn spoils(&self, how: &str) -> bool {
        self.spoilt == how && self.count.fetch_add(1, Ordering::Relaxed) % 2 == 1
    }

    /// The words of a row that this process put, and of which it is told that they stand.
    fn told(&self, name: &str, number: i64, at: usize, entries: &[Entry]) {
        locked(&self.numbers).insert(name.to_owned(), number);
        for (place, entry) in (at + 1..).zip(entries) {
            if locked(&self.doubt).remove(&entry.token) {
                let place = place + if self.spoils("puts") { 1000 } else { 0 };
                self.write(&json!(["did", name, number, entry.session(), name, place, entry.word, null]));
            }
        }
    }

    fn number(&self, request: &Request) -> i64 {
        locked(&self.numbers).get(request.name()).copied().unwrap_or_default()
    }

    fn goes_on(&self) {
        self.last.store(self.began.elapsed().as_millis() as u64, Ordering::Relaxed);
    }
}

/// Tells what goes wrong in the service.
fn warned(text: &str) {
    if let Some(notes) = &*locked(&NOTES) {
        notes.write(&json!([if text.contains("doesn't answer") { "warned" } else { "error" }, "", text]));
    }
}

/// A store whose answers to puts are written down before anybody goes on with them.
struct Noted(Box<dyn Store>, Arc<Notes>);

impl Store for Noted {
    fn append(&self, put: Put<'_>) -> Result<Option<Vec<Entry>>, StoreError> {
        let (store, notes) = (&self.0, &self.1);
        locked(&notes.doubt).extend(put.entries.iter().map(|it| it.token));
        let stands = store.append(put)?;
        match &stands {
            Some(others) if others.first() != put.entries.first() => {
                locked(&notes.doubt).retain(|token| put.entries.iter().all(|it| it.token != *token));
                notes.told(put.request, put.number, put.at, others);
            }
            _ => notes.told(put.request, put.number, put.at, put.entries),
        }
        Ok(stands)
    }

    fn read(&self, name: &str, number: i64, at: usize) -> Result<Vec<Entry>, StoreError> {
        let entries = self.0.read(name, number, at)?;
        self.1.told(name, number, at, &entries);
        Ok(entries)
    }

    fn open(&self, name: &str, plan: &str) -> Result<Opened, StoreError> {
        self.0.open(name, plan)
    }

    fn find(&self, name: &str) -> Result<Option<Opened>, StoreError> {
        self.0.find(name)
    }

    fn payload(&self, name: &str, number: i64, place: usize) -> Result<Option<Vec<u8>>, StoreError> {
        self.0.payload(name, number, place)
    }

    fn news(&self, since: Option<Mark>) -> Result<(WordCounts, Mark), StoreError> {
        self.0.news(since)
    }

    fn wait_for_change(&self, wait: Duration) -> Result<(), StoreError> {
        self.0.wait_for_change(wait)
    }

    fn end(&self, name: &str, number: i64, at: usize) -> Result<bool, StoreError> {
        self.0.end(name, number, at)
    }

    fn beat(&self, session: u64) -> Result<(), StoreError> {
        self.0.beat(session)
    }

    fn beats(&self) -> Result<BTreeMap<u64, i64>, StoreError> {
        self.0.beats()
    }

    fn drop_beat(&self, session: u64) -> Result<(), StoreError> {
        self.0.drop_beat(session)
    }

    fn name_session(&self, session: u64, name: &str) -> Result<(), StoreError> {
        self.0.name_session(session, name)
    }

    fn now(&self) -> Result<f64, StoreError> {
        self.0.now()
    }

    fn set_timer(&self, timer: &Timer) -> Result<(), StoreError> {
        self.0.set_timer(timer)
    }

    fn due_timers(&self, now: f64) -> Result<Vec<Timer>, StoreError> {
        self.0.due_timers(now)
    }

    fn drop_timer(&self, timer: &Timer) -> Result<(), StoreError> {
        self.0.drop_timer(timer)
    }
}

/// The store of an address.
fn store_of(address: &str) -> Result<Box<dyn Store>, StoreError> {
    if let Some(file) = address.strip_prefix("sqlite:///") {
        return Ok(Box::new(SQLite::open(file)?));
    }
    #[cfg(feature = "etcd")]
    if address.starts_with("etcd://") {
        return Ok(Box::new(cf_store::Etcd::connect(address)?));
    }
    #[cfg(feature = "postgres")]
    return Ok(Box::new(cf_store::Postgres::connect(address)?));
    #[cfg(not(feature = "postgres"))]
    return Err(StoreError::Refused(format!("{address} is of an engine without which this was built")));
}

/// What an engine answers that may be away for a while.
fn sure<T>(call: impl Fn() -> Result<T, StoreError>) -> Result<T, StoreError> {
    loop {
        match call() {
            Err(StoreError::Unknown(_)) => thread::sleep(Duration::from_millis(50)),
            told => return told,
        }
    }
}

// The functions.

const BELOW: u64 = 1 << 32;

/// A number that tells values apart.
fn number_of(value: &Value) -> u64 {
    let of_text = |text: &str| text.bytes().fold(2_166_136_261, |sum, byte| (sum ^ u64::from(byte)) * 16_777_619 % BELOW);
    match value {
        Value::Null => 0,
        Value::Bool(it) => u64::from(*it),
        Value::Number(it) => it.as_u64().unwrap_or_default() % BELOW,
        Value::String(text) => of_text(text),
        Value::Array(items) => items.iter().fold(1, |sum, it| (sum * 31 + number_of(it)) % BELOW),
        Value::Object(named) => named.iter().fold(0, |sum, (name, it)| (sum + of_text(name) * 31 + number_of(it)) % BELOW),
    }
}

/// What an error is to others, or null.
fn said_of(failed: &Value) -> Value {
    match failed {
        Value::Null => Value::Null,
        failed => json!({"error": failed["error"], "text": failed["text"]}),
    }
}

/// Says that a function runs, lets it take a while, and gives what it comes to.
fn called(name: &str, version: u32, args: &Value, most: usize, result: Result<Value, Failed>) -> Result<Value, Failed> {
    let notes = locked(&NOTES).clone().expect("the log is open");
    for _ in 0..1 + usize::from(notes.spoils("twice")) {
        notes.write(&json!(["run", name, version, args]));
    }
    let seed = notes.began.elapsed().as_nanos() as u64 ^ u64::from(process::id()) << 32;
    thread::sleep(Duration::from_micros(Chance(seed).below(most * 1000) as u64));
    notes.write(&json!(["ran", name, version]));
    result.map(|value| if notes.spoils("gives") { json!("another") } else { value })
}

fn functions() -> Functions {
    type Told = Result<Value, Failed>;
    let give = |it: Value| -> Told { called("give", 1, &json!([it]), 3, Ok(it.clone())) };
    let next = |it: Value| -> Told { called("next", 1, &json!([it]), 3, Ok(json!(number_of(&it) + 1))) };
    let after = |it: Value| -> Told { called("next", 2, &json!([it]), 3, Ok(json!(number_of(&it) + 2))) };
    let list = |it: Value| -> Told { called("list", 1, &json!([it]), 3, Ok(json!([number_of(&it), {"as ü": it}]))) };
    let wait = |it: Value| -> Told { called("wait", 1, &json!([it]), 150, Ok(json!({"waited": number_of(&it)}))) };
    let fail = |it: Value| -> Told { called("fail", 1, &json!([it]), 3, Err(Failed::new("ValueError", format!("{} fails", number_of(&it))))) };
    let add = |one: Value, other: Value| -> Told {
        called("add", 1, &json!([one, other]), 3, Ok(json!((number_of(&one) * 31 + number_of(&other)) % BELOW)))
    };
    let told = |value: Value, failed: Value| -> Told {
        called("told", 1, &json!([value, said_of(&failed)]), 3, Ok(json!([number_of(&value), failed["error"], failed["text"]])))
    };
    let rescue = |failed: Value| -> Told { called("rescue", 1, &json!([said_of(&failed)]), 3, Ok(json!([failed["error"], failed["text"]]))) };
    let ones = Functions::new().with("give", 1, give).with("next", 1, next).with("next", 2, after).with("list", 1, list).with("wait", 1, wait);
    ones.with("fail", 1, fail).with("add", 1, add).with("told", 1, told).with("rescue", 1, rescue)
}

/// The functions of one value, as often as they are to be taken.
const ONE: [&str; 8] = ["give", "next", "next", "list", "wait", "fail", "give", "list"];

// What a user does.

/// A request that this process has for a while, with the stages that it has seen settled and those whose timers it has set.
struct Kept {
    request: Request,
    shown: BTreeSet<u16>,
    timed: BTreeSet<u16>,
}

struct Worker {
    service: Service,
    notes: Arc<Notes>,
    folder: PathBuf,
    chance: Chance,
    seed: u64,
    count: u64,
    kept: BTreeMap<u64, Kept>,
    done: BTreeSet<u64>,
}

/// Whether the request of a number is a flow's. Processes in Python begin these, and others are begun by whoever comes first.
fn is_flow(number: u64) -> bool {
    number % 3 != 0
}

impl Worker {
    /// A text that no other call has, here or elsewhere.
    fn token(&mut self) -> String {
        self.count += 1;
        format!("rust ü {:x}-{}", self.seed, self.count)
    }

    /// The numbers that aren't finished, from the lowest on, so many at most: none once all are that were begun before the run was told to stop.
    fn active(&self) -> Vec<u64> {
        let number = |name: String| name.parse::<u64>().ok();
        let listed = fs::read_dir(self.folder.join("done")).into_iter().flatten().flatten();
        let finished: HashSet<u64> = listed.filter_map(|it| number(it.file_name().into_string().ok()?)).collect();
        let last = fs::read_to_string(self.folder.join("stop")).ok().and_then(number).unwrap_or(u64::MAX);
        (0..last).filter(|it| !finished.contains(it) && !self.done.contains(it)).take(WINDOW).collect()
    }

    /// The request of a number, if there is one or this process may begin it.
    fn opened(&mut self, number: u64) -> Result<Option<Request>, StoreError> {
        if let Some(kept) = self.kept.get(&number) {
            return Ok(Some(kept.request.clone()));
        }
        let name = number.to_string();
        let request = match self.service.open(&name) {
            Err(StoreError::Gone(_)) if is_flow(number) => return Ok(None),
            Err(StoreError::Gone(_)) => self.service.request(&name)?,
            opened => opened?,
        };
        self.kept.insert(number, Kept { request: request.clone(), shown: BTreeSet::new(), timed: BTreeSet::new() });
        Ok(Some(request))
    }

    /// The stages that aren't settled. What the others have come to is written down.
    fn look(&mut self, number: u64, request: &Request, stages: &[Stage]) -> Result<Vec<Stage>, StoreError> {
        let mut open = Vec::new();
        for stage in stages {
            if self.kept.get(&number).map_or(false, |kept| kept.shown.contains(&stage.number())) {
                continue;
            }
            let told = match stage.peek::<Value>() {
                Ok(None) => {
                    open.push(stage.clone());
                    continue;
                }
                Ok(Some(_)) if self.notes.spoils("shows") => json!(["value", "another"]),
                Ok(Some(value)) => json!(["value", value]),
                Err(Error::Cancelled) => json!(["cancelled"]),
                Err(Error::Failed(failed) | Error::TimedOut(Some(failed))) => json!(["error", {"error": failed.kind, "text": failed.text}]),
                Err(Error::Abandoned(text)) => json!(["error", {"error": "Abandoned", "text": text}]),
                Err(Error::TimedOut(None)) => json!(["error", {"error": "TimeoutError", "text": ""}]),
                Err(Error::Store(error)) => return Err(error),
                Err(other) => json!(["error", {"error": format!("{other:?}"), "text": other.to_string()}]),
            };
            self.notes.write(&json!(["shown", request.name(), self.notes.number(request), stage.number(), told]));
            if let Some(kept) = self.kept.get_mut(&number) {
                kept.shown.insert(stage.number());
            }
        }
        Ok(open)
    }

    /// Says what it is about to put, with a token; does it; and says what it was answered.
    fn means(
        &self,
        request: &Request,
        stage: &Stage,
        token: &str,
        call: impl FnOnce(&Stage) -> Result<Option<bool>, StoreError>,
    ) -> Result<(), StoreError> {
        let said = (request.name(), self.notes.number(request), stage.number(), token);
        self.notes.write(&json!(["means", said.0, said.1, said.2, said.3]));
        let told = call(stage)?.map(|it| it != self.notes.spoils("answers"));
        self.notes.write(&json!(["answered", said.0, said.1, said.2, said.3, told]));
        Ok(())
    }

    fn settle(&mut self, request: &Request, stage: &Stage) -> Result<(), StoreError> {
        let token = self.token();
        if self.chance.below(5) > 0 {
            self.means(request, stage, &token, |it| it.complete(&json!({ "token": token })).map(Some))
        } else {
            self.means(request, stage, &token, |it| it.fail(&Failed::new("ValueError", token.as_str())).map(Some))
        }
    }

    fn set_timer(&mut self, number: u64, request: &Request, stage: &Stage) -> Result<(), StoreError> {
        let seconds = (50_000 + self.chance.below(450_000)) as f64 / 1e6;
        let wait = Duration::from_secs_f64(seconds);
        if let Some(kept) = self.kept.get_mut(&number) {
            kept.timed.insert(stage.number());
        }
        if self.chance.below(2) > 0 {
            self.means(request, stage, &format!("{} s", wait.as_secs_f64()), |it| it.or_timeout(wait).map(|()| None))?;
        } else {
            let token = format!("timer {}", self.token());
            self.means(request, stage, &token, |it| it.complete_on_timeout(&json!({ "token": token }), wait).map(|()| None))?;
        }
        self.notes.write(&json!(["timer", request.name(), self.notes.number(request), stage.number()]));
        Ok(())
    }

    /// A stage more, with or without further tries.
    fn attach(&mut self, request: &Request, stages: &[Stage]) -> Result<(), StoreError> {
        let (token, function) = (self.token(), *self.chance.one(&ONE));
        let mut made = Vec::new();
        if stages.is_empty() || self.chance.below(10) < 2 {
            made.push(request.supply(function, &[json!({ "token": token })])?);
        } else {
            let (one, other) = (self.chance.one(stages).clone(), self.chance.one(stages).clone());
            made.push(match self.chance.below(9) {
                0 => request.promise(if self.chance.below(3) == 0 { "alarm" } else { "promise" })?,
                1 => request.all_of(&[&one, &other, self.chance.one(stages)])?,
                2 => request.first_of(&[&one, &other])?,
                3 => one.combine(&other, "add")?,
                4 => one.either(&other, function)?,
                5 => one.handle("told")?,
                6 => one.recover("rescue")?,
                _ => one.then(function)?,
            });
        }
        if !["promise", "alarm", "all of", "first of"].contains(&made[0].name()?.as_str()) {
            made.push(made[0].again(self.chance.below(3))?);
        }
        for stage in made {
            self.notes.write(&json!(["attached", request.name(), self.notes.number(request), stage.number()]));
        }
        Ok(())
    }

    fn step(&mut self, number: u64) -> Result<(), StoreError> {
        let Some(request) = self.opened(number)? else { return Ok(()) };
        request.refresh()?;
        let stages: Vec<_> = (0..).map_while(|it| request.stage(it)).collect();
        let open = self.look(number, &request, &stages)?;
        if !stages.is_empty() && open.is_empty() {
            return self.settled(number, &request, &stages);
        }
        let mut promises = Vec::new();
        for stage in &open {
            match stage.name()?.as_str() {
                "promise" => promises.push(stage.clone()),
                "alarm" if !self.kept.get(&number).map_or(true, |kept| kept.timed.contains(&stage.number())) => {
                    self.set_timer(number, &request, stage)?
                }
                _ => {}
            }
        }
        match self.chance.below(100) {
            pick if stages.is_empty() || pick < 20 && stages.len() < MOST => self.attach(&request, &stages),
            pick if pick < 60 && !promises.is_empty() => {
                let stage = self.chance.one(&promises).clone();
                self.settle(&request, &stage)
            }
            pick if pick < 68 => {
                let stage = self.chance.one(&open).clone();
                self.set_timer(number, &request, &stage)
            }
            pick if pick < 74 => {
                let stage = self.chance.one(&open).clone();
                let cancelled = if self.chance.below(3) > 0 { stage.cancel()? } else { stage.abandon()? };
                self.notes.write(&json!(["cancelled", request.name(), self.notes.number(&request), stage.number(), cancelled]));
                Ok(())
            }
            pick if pick < 90 => {
                self.kept.remove(&number);
                Ok(())
            }
            _ => Ok(()),
        }
    }

    /// All is settled: it is gone on with, or it is left to be.
    fn settled(&mut self, number: u64, request: &Request, stages: &[Stage]) -> Result<(), StoreError> {
        if stages.len() < MOST && self.chance.below(2) == 0 {
            return self.attach(request, stages);
        }
        if !is_flow(number) {
            request.end()?;
        }
        self.done.insert(number);
        self.kept.remove(&number);
        File::create(self.folder.join(format!("done/{number}"))).map_err(|error| StoreError::Refused(error.to_string()))?;
        Ok(())
    }

    /// Works until all is finished that was begun, and then until all requests of the store are closed.
    fn run(&mut self) {
        loop {
            self.notes.goes_on();
            let active = self.active();
            if active.is_empty() {
                break;
            }
            for _ in 0..3 {
                let number = *self.chance.one(&active);
                let told = self.step(number);
                self.refused(number, told);
            }
        }
        loop {
            self.notes.goes_on();
            let open = sure(|| self.service.resume()).unwrap_or_default();
            if open.is_empty() {
                return;
            }
            for request in open {
                let number = request.name().parse().unwrap_or_default();
                let told = self.finish(number, &request);
                self.refused(number, told);
            }
            thread::sleep(Duration::from_millis(50));
        }
    }

    /// Settles the promises of a request, and closes it where nothing is left.
    fn finish(&mut self, number: u64, request: &Request) -> Result<(), StoreError> {
        self.opened(number)?;
        let stages: Vec<_> = (0..).map_while(|it| request.stage(it)).collect();
        let open = self.look(number, request, &stages)?;
        for stage in &open {
            if ["promise", "alarm"].contains(&stage.name()?.as_str()) {
                self.settle(request, stage)?;
            }
        }
        if open.is_empty() && !is_flow(number) {
            request.end()?;
        }
        Ok(())
    }

    fn refused(&mut self, number: u64, told: Result<(), StoreError>) {
        if let Err(error) = told {
            self.kept.remove(&number);
            if !matches!(error, StoreError::Unknown(_) | StoreError::Full) {
                self.notes.write(&json!(["error", number.to_string(), error.to_string()]));
            }
        }
    }
}

/// Ends the process if its main thread doesn't go on.
fn watch(notes: &Notes, folder: &Path) {
    loop {
        thread::sleep(Duration::from_secs(1));
        let now = notes.began.elapsed().as_millis() as u64;
        if now > notes.last.load(Ordering::Relaxed) + HANG * 1000 {
            let _told_by_its_end = fs::write(folder.join(format!("hang-{}", process::id())), "a call doesn't come back");
            process::exit(3);
        }
    }
}

/// Attaches one stage after another, and writes a line for each that it is told of.
fn write(address: &str, log: &str) -> Result<(), Fault> {
    let folder = Path::new(log).parent().and_then(Path::to_str).unwrap_or(".");
    let service = Service::new(Noted(sure(|| store_of(address))?, Notes::open(folder)?), Functions::new())?;
    let mut out = File::options().append(true).create(true).open(log)?;
    for number in 0.. {
        let request = service.request(&format!("rust {number}"))?;
        for _ in 0..200 {
            request.promise("promise")?;
            out.write_all(b"attached\n")?;
        }
    }
    Ok(())
}

fn main() -> Result<(), Fault> {
    let words: Vec<String> = env::args().skip(1).collect();
    if let [first, address, log] = words.as_slice() {
        if first == "write" {
            return write(address, log);
        }
    }
    let [address, folder, seed] = words.as_slice() else { return Err("usage: faults ADDRESS FOLDER SEED".into()) };
    let (notes, seed) = (Notes::open(folder)?, seed.parse::<u64>()?);
    let (watched, within) = (Arc::clone(&notes), PathBuf::from(folder));
    thread::spawn(move || watch(&watched, &within));
    let mut options = Options::default();
    options.threads = 2;
    options.lease = Duration::from_millis(700);
    options.takes_all = true;
    options.warns = warned;
    let service = Service::with(Noted(sure(|| store_of(address))?, Arc::clone(&notes)), functions(), options)?;
    let (kept, done) = Default::default();
    let mut worker = Worker { service, notes: Arc::clone(&notes), folder: folder.into(), chance: Chance(seed), seed, count: 0, kept, done };
    worker.run();
    drop(worker);
    notes.write(&json!(["end"]));
    Ok(())
}
