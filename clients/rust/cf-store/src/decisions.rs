//! What a process decides of a request in a store: the rows of conformance/stores/decisions.rows, whose head says what their lines mean.
//!
//! Nothing runs beside a row: a function is called within the look that claims its stage, and the row's lines go on within the call.
use crate::error::{Error, Failed, StoreError};
use crate::functions::{Function, Functions};
use crate::host::Host;
use crate::request::{Request, Stage};
use crate::service::{Options, PumpState, Service, ServiceCore, ServiceJob};
use crate::sessions::Sessions;
use crate::store::{Mark, Opened, Put, Store, Timer, WordCounts};
use crate::testing::Memory;
use crate::view::{failed_bytes, RowView, WantedWord};
use cf_graph::{Answer, Call, Entry, Event, Form, Of, Value};
use serde_json::{json, Value as Json};
use std::collections::{BTreeMap, VecDeque};
use std::path::Path;
use std::sync::{Arc, Mutex, MutexGuard};
use std::time::{Duration, Instant};

const LEASE: Duration = Duration::from_secs(10);
/// The time between two looks.
const LOOKS: Duration = Duration::from_millis(200);
/// The number of the session of the process, and of those of other processes, by their letters.
const OWN: u64 = 1;
const OTHERS: [(&str, u64); 3] = [("B", 2), ("C", 3), ("D", 4)];
/// Errors that a client makes, which a row calls by their kind.
const KINDS: [&str; 3] = ["Abandoned", "StoreError", "CancelledError"];
/// What may come of a move, in the order in which a row tells it.
const TOLD: [&str; 5] = ["puts", "calls", "shows", "told", "closes"];

/// A row that is played.
struct Row {
    began: Instant,
    memory: Arc<Memory>,
    script: Mutex<Script>,
    process: Mutex<Option<Arc<Process>>>,
    others: Mutex<BTreeMap<String, RowView>>,
}

#[derive(Default)]
struct Script {
    given: Vec<String>,
    /// The next line.
    at: usize,
    /// The moves that were made, and what came of each, by `TOLD`.
    moves: Vec<(String, [Vec<String>; 5])>,
    /// The time that has passed.
    clock: Duration,
    names: Vec<String>,
    threads: usize,
    opened: Option<Opened>,
    /// The functions that run, the last one on top.
    running: Vec<String>,
    /// How many have ended.
    ended: usize,
    /// What comes of the next puts.
    puts: VecDeque<String>,
    /// Until when the store is silent, say; for `beats take`, how long.
    until: BTreeMap<String, Duration>,
    is_dropped: bool,
    /// Whether no line is left.
    is_over: bool,
    /// The stages that somebody waits for.
    waits: Vec<(String, Stage)>,
}

struct Process {
    core: Arc<ServiceCore>,
    request: Request,
    host: Arc<Led>,
    looks: Mutex<PumpState>,
}

/// A machine without threads, whose clock the row leads.
struct Led {
    row: Arc<Row>,
    session: u64,
    jobs: Mutex<VecDeque<ServiceJob>>,
}

impl Led {
    fn new(row: &Arc<Row>, session: u64) -> Arc<Led> {
        Arc::new(Led { row: Arc::clone(row), session, jobs: Mutex::default() })
    }
}

impl Host for Led {
    fn now(&self) -> Instant {
        self.row.began + self.row.script().clock
    }

    fn sleep(&self, wait: Duration) {
        self.row.pass(wait);
    }

    fn random_bits(&self, _bits: u32) -> u64 {
        self.session
    }

    fn has_threads(&self) -> bool {
        false
    }

    fn take_job(&self, job: ServiceJob) -> Option<ServiceJob> {
        self.jobs.lock().unwrap().push_back(job);
        None
    }

    fn wait_until(&self, _name: &str, _is_so: Arc<dyn Fn() -> bool + Send + Sync>, wait: Option<Duration>) {
        self.row.pass(wait.expect("nobody waits for ever"));
    }

    fn warn(&self, _tells: fn(&str), _request: &str, _text: &str) {}
}

/// A function that ends as the row says.
struct Scripted {
    name: &'static str,
    row: Arc<Row>,
}

impl Function<Vec<Json>> for Scripted {
    fn call(&self, args: Vec<Json>) -> Result<Json, Failed> {
        if self.row.script().is_over {
            return Ok(Json::Null);
        }
        let args: Vec<String> =
            args.iter().map(|it| if it.is_object() { error_text(&it.to_string().into_bytes()) } else { it.to_string() }).collect();
        self.row.tell("calls", format!("{}({})", self.name, args.join(", ")));
        self.row.script().running.push(self.name.into());
        self.row.look();
        let end = self.row.play();
        self.row.script().running.pop();
        match end.split_once(' ') {
            Some(("throws", text)) => Err(Failed::from_error(&text)),
            Some((_, value)) => Ok(serde_json::from_str(value).unwrap()),
            None => Ok(Json::Null),
        }
    }
}

/// A store in memory that answers as the row says.
struct Answering(Arc<Row>);

macro_rules! asked {
    ($(fn $name:ident($($arg:ident: $type:ty),*) -> $told:ty;)*) => {$(
        fn $name(&self, $($arg: $type),*) -> Result<$told, StoreError> {
            self.0.ask(stringify!($name))?;
            self.0.memory.$name($($arg),*)
        }
    )*};
}

impl Store for Answering {
    asked! {
        fn open(name: &str, plan: &str) -> Opened;
        fn find(name: &str) -> Option<Opened>;
        fn read(name: &str, number: i64, at: usize) -> Vec<Entry>;
        fn payload(name: &str, number: i64, place: usize) -> Option<Vec<u8>>;
        fn wait_for_change(wait: Duration) -> ();
        fn beat(session: u64) -> ();
        fn beats() -> BTreeMap<u64, i64>;
        fn drop_beat(session: u64) -> ();
        fn name_session(session: u64, name: &str) -> ();
        fn set_timer(timer: &Timer) -> ();
        fn due_timers(now: f64) -> Vec<Timer>;
        fn drop_timer(timer: &Timer) -> ();
    }

    fn news(&self, since: Option<Mark>) -> Result<(WordCounts, Mark), StoreError> {
        self.0.ask("news")?;
        if self.0.script().is_dropped {
            return Ok((WordCounts::new(), since.unwrap_or_default()));
        }
        self.0.memory.news(since)
    }

    fn end(&self, name: &str, number: i64, at: usize) -> Result<bool, StoreError> {
        self.0.ask("end")?;
        let closes = self.0.memory.end(name, number, at)?;
        if closes {
            self.0.tell("closes", String::new());
        }
        Ok(closes)
    }

    fn now(&self) -> Result<f64, StoreError> {
        self.0.ask("now")?;
        Ok(self.0.script().clock.as_secs_f64())
    }

    fn append(&self, put: Put<'_>) -> Result<Option<Vec<Entry>>, StoreError> {
        self.0.ask("append")?;
        let play = self.0.script().puts.pop_front().unwrap_or_default();
        match play.split_once(' ').map_or(play.as_str(), |it| it.0) {
            "lost" => return Err(silent()),
            "refuses" => return Err(refused()),
            "first" => self.0.put_other(&play["first ".len()..]),
            _ => {}
        }
        let told = self.0.memory.append(put)?;
        if told.is_none() {
            let words = put.entries.iter().zip(put.at + 1..).map(|(entry, place)| self.0.word_text(entry.word, put.payloads.get(&place)));
            let words: Vec<String> = words.collect();
            self.0.tell("puts", words.join(", "));
        }
        if play.starts_with("unanswered") {
            if let Some((_, then)) = play.split_once(" and ") {
                self.0.prepare(then);
            }
            return Err(silent());
        }
        Ok(told)
    }
}

impl Row {
    fn script(&self) -> MutexGuard<'_, Script> {
        self.script.lock().unwrap()
    }

    /// Plays a row, and gives its moves with what came of each.
    fn play_all(lines: &[&str]) -> Vec<String> {
        let given = lines.iter().filter(|it| !it.starts_with("  ")).map(|it| (*it).to_owned()).collect();
        let script = Script { given, threads: 1, ..Script::default() };
        let row = Arc::new(Row {
            began: Instant::now(),
            memory: Arc::default(),
            script: Mutex::new(script),
            process: Mutex::default(),
            others: Mutex::default(),
        });
        let known = row.play_head();
        let host = Led::new(&row, OWN);
        let options = Options { threads: row.script().threads, lease: LEASE, takes_all: true, warns: |_| {}, ..Options::default() };
        let scripted = |known: Functions, name: &'static str| known.with(name, 1, Scripted { name, row: Arc::clone(&row) });
        let functions = known.into_iter().fold(Functions::new(), scripted);
        let service = Service::hosted(Arc::new(Answering(Arc::clone(&row))), functions, options, Arc::clone(&host) as Arc<dyn Host>).unwrap();
        let (core, looks) = (Arc::clone(&service.shared), Mutex::new(PumpState::new(row.began)));
        let request = service.open("r").unwrap();
        *row.process.lock().unwrap() = Some(Arc::new(Process { core, request, host, looks }));
        row.play();
        drop(service);
        *row.process.lock().unwrap() = None;
        let mut script = row.script();
        script.waits.clear();
        let told = |(line, told): (String, [Vec<String>; 5])| {
            let of_kind = |(kind, its): (&'static str, Vec<String>)| its.into_iter().map(move |it| told_line(kind, &it));
            std::iter::once(line).chain(TOLD.into_iter().zip(told).flat_map(of_kind)).collect::<Vec<_>>()
        };
        std::mem::take(&mut script.moves).into_iter().flat_map(told).collect()
    }

    /// Plays what stands before the process begins, and gives the functions that it knows.
    fn play_head(self: &Arc<Row>) -> Vec<&'static str> {
        let (mut known, mut is_request, mut plan, mut before) = (vec!["f", "g", "h"], false, Vec::new(), Vec::new());
        loop {
            let line = {
                let script = self.script();
                script.given[script.at].clone()
            };
            if line.starts_with("> ") || line.starts_with("store: ") {
                break;
            }
            self.script().at += 1;
            match line.split_once(' ') {
                Some(("threads", many)) => self.script().threads = many.parse().unwrap(),
                Some(("knows", names)) => known.retain(|it| names.split(' ').any(|name| name == *it)),
                None if line == "request" => is_request = true,
                _ if line.contains(": ") => before.push(line),
                _ => plan.push(line),
            }
        }
        let mut stages = Vec::new();
        for line in plan.iter().filter(|_| !is_request) {
            let (form, of, mut said) = self.read_stage(line);
            said["form"] = json!(form);
            said["of"] = json!(of);
            self.script().names.push(said["name"].as_str().unwrap().into());
            stages.push(said);
        }
        let text = json!({"cf": 3, "flow": if is_request { "" } else { "row" }, "stages": stages}).to_string();
        let opened = self.memory.open("r", &text).unwrap();
        self.script().opened = Some(opened);
        for line in plan.iter().filter(|_| is_request) {
            self.put_other(&format!("D: attach {line}"));
        }
        before.iter().for_each(|line| self.put_other(line));
        known
    }

    fn number_of(&self, name: &str) -> u16 {
        self.script().names.iter().position(|it| it == name).unwrap_or_else(|| panic!("there is no stage {name}")) as u16
    }

    /// The form, the sources and the definition of a stage.
    fn read_stage(&self, line: &str) -> (&'static str, Vec<u16>, Json) {
        let words: Vec<&str> = line.split(' ').collect();
        let (name, form, rest) = (words[0], words[2], &words[3..]);
        let (rest, to) = rest.iter().position(|it| *it == "into").map_or((rest, None), |at| (&rest[..at], Some(rest[at + 1])));
        let of: Vec<u16> = rest.iter().filter(|it| self.script().names.iter().any(|known| known == *it)).map(|it| self.number_of(it)).collect();
        let mut said = json!({ "name": name });
        match form {
            "again" => said["again"] = json!(of[0]),
            "promise" => {}
            _ => (said["fn"], said["version"]) = (json!(rest[rest.len() - 1]), json!(1)),
        }
        if let Some(to) = to {
            said["to"] = json!(self.number_of(to));
        }
        (FORMS.iter().find(|it| it.0 == form).unwrap_or_else(|| panic!("{line}: there is no such form")).1, of, said)
    }

    /// Goes through the lines, until one ends the function that was called last; how it ends.
    fn play(self: &Arc<Row>) -> String {
        loop {
            let line = {
                let mut script = self.script();
                let Some(line) = script.given.get(script.at).cloned() else {
                    script.is_over = true;
                    return String::new();
                };
                script.at += 1;
                line
            };
            if let Some(said) = line.strip_prefix("store: ") {
                self.prepare(said);
            } else if let Some(said) = line.strip_prefix("> ") {
                self.script().moves.push((line.clone(), Default::default()));
                let (word, rest) = said.split_once(' ').unwrap_or((said, ""));
                if rest.starts_with("gives ") || rest.starts_with("throws ") {
                    let mut script = self.script();
                    assert_eq!(script.running.last().map(String::as_str), Some(word), "{line}: it was called last");
                    script.ended += 1;
                    return rest.into();
                }
                self.make_move(word, rest);
                self.look();
            } else {
                self.put_other(&line);
            }
        }
    }

    fn tell(&self, kind: &str, said: String) {
        let mut script = self.script();
        if !script.is_over {
            let told = &mut script.moves.last_mut().expect("a move").1;
            told[TOLD.iter().position(|it| *it == kind).unwrap()].push(said);
        }
    }

    // The process.

    fn process(&self) -> Arc<Process> {
        Arc::clone(self.process.lock().unwrap().as_ref().expect("the process has begun"))
    }

    /// Lets the process look what is new, and work until nothing is left to do.
    fn look(&self) {
        let process = self.process();
        loop {
            let ended = self.script().ended;
            if !process.core.is_stopping() {
                let _silent = process.core.pump_round(&mut process.looks.lock().unwrap());
            }
            while let Some(job) = self.next_job(&process) {
                process.core.do_job(&job);
            }
            self.show(&process);
            if self.script().ended == ended {
                return;
            }
        }
    }

    /// The next job, if a thread is free and takes it.
    fn next_job(&self, process: &Process) -> Option<ServiceJob> {
        let is_free = {
            let script = self.script();
            script.running.len() < script.threads.max(1)
        };
        if is_free && !process.core.is_stopping() {
            process.host.jobs.lock().unwrap().pop_front()
        } else {
            None
        }
    }

    /// Tells what those see who wait.
    fn show(&self, process: &Process) {
        if process.core.is_stopping() {
            return;
        }
        let waits = std::mem::take(&mut self.script().waits);
        for (name, stage) in waits {
            match stage.peek::<Json>() {
                Ok(None) => self.script().waits.push((name, stage)),
                Ok(Some(value)) => self.tell("shows", format!("{name} {value}")),
                Err(error) => self.tell("shows", format!("{name} {}", end_text(error))),
            }
        }
    }

    fn pass(&self, wait: Duration) {
        self.script().clock += wait;
        self.memory.beat(OTHERS[0].1).unwrap();
    }

    fn make_move(self: &Arc<Row>, word: &str, rest: &str) {
        let words: Vec<&str> = rest.split(' ').collect();
        match (word, words.as_slice()) {
            ("looks", _) => {}
            ("stands", ["still", seconds, "s"]) => self.pass(Duration::from_secs(seconds.parse().unwrap())),
            ("stops", _) => self.process().core.stop(),
            ("waits", ["for", name]) => {
                let stage = self.stage(name);
                self.script().waits.push(((*name).into(), stage));
            }
            (seconds, ["s", "pass"]) => self.let_pass(Duration::from_secs(seconds.parse().unwrap())),
            _ => {
                let told = match self.act(word, &words) {
                    Ok(told) => told.map_or("done".into(), |it| it.to_string()),
                    Err(StoreError::Unknown(_)) => "unknown".into(),
                    Err(StoreError::Gone(_)) => "gone".into(),
                    Err(_) => "refused".into(),
                };
                self.tell("told", told);
            }
        }
    }

    /// Lets time pass, until a function is called.
    fn let_pass(self: &Arc<Row>, wait: Duration) {
        let now = || {
            let script = self.script();
            (script.clock, script.at)
        };
        let (began, at) = now();
        while now().0 < began + wait && now().1 == at {
            self.pass(LOOKS);
            self.look();
        }
    }

    fn stage(&self, name: &str) -> Stage {
        self.process().request.stage(self.number_of(name)).expect("the process has read of it")
    }

    fn act(&self, word: &str, words: &[&str]) -> Result<Option<bool>, StoreError> {
        let value = |text: &str| serde_json::from_str::<Json>(text).unwrap();
        match (word, words) {
            ("attach", [name, "=", "apply", source, function]) => {
                self.stage(source).then(function)?;
                self.script().names.push((*name).into());
                Ok(None)
            }
            ("limit", [name, seconds, "s", rest @ ..]) => {
                let wait = Duration::from_secs(seconds.parse().unwrap());
                match rest {
                    [] => self.stage(name).or_timeout(wait)?,
                    [.., given] => self.stage(name).complete_on_timeout(&value(given), wait)?,
                }
                Ok(None)
            }
            ("complete", [name, given]) => self.stage(name).complete(&value(given)).map(Some),
            ("fail", [name, text]) => self.stage(name).fail(&Failed::from_error(text)).map(Some),
            ("cancel", [name]) => self.stage(name).cancel().map(Some),
            ("abandon", [name]) => self.stage(name).abandon().map(Some),
            _ => panic!("{word} {words:?}: there is no such move"),
        }
    }

    // The store.

    fn prepare(&self, said: &str) {
        let words: Vec<&str> = said.split(' ').collect();
        let mut script = self.script();
        match words.as_slice() {
            ["dropped"] => script.is_dropped = true,
            ["unanswered", "and", ..] => script.puts.push_back(said.into()),
            [key @ .., seconds, "s"] => {
                let (key, wait) = (key.join(" "), Duration::from_secs(seconds.parse().unwrap()));
                let until = if key == "beats take" { wait } else { script.clock + wait };
                script.until.insert(key, until);
            }
            [play @ .., many, "times"] => (0..many.parse().unwrap()).for_each(|_| script.puts.push_back(play.join(" "))),
            _ => script.puts.push_back(said.into()),
        }
    }

    /// What a call of the process's is told in place of an answer.
    fn ask(&self, call: &str) -> Result<(), StoreError> {
        let script = self.script();
        let is_now = |what: &str| !script.is_over && script.until.get(what).map_or(false, |until| script.clock < *until);
        if is_now("silent") || call == "payload" && is_now("payloads silent") {
            return Err(silent());
        }
        if script.is_dropped && matches!(call, "append" | "read" | "payload" | "end") {
            return Err(StoreError::Gone("r".into()));
        }
        if matches!(call, "append" | "beat") && is_now("takes nothing") {
            return Err(refused());
        }
        if let Some(wait) = script.until.get("beats take").copied().filter(|_| call == "beats" && !script.is_over) {
            drop(script);
            self.pass(wait);
        }
        Ok(())
    }

    /// A word of the process's, as the row tells it.
    fn word_text(&self, word: u64, payload: Option<&Vec<u8>>) -> String {
        let name = |stage: u16| self.script().names[usize::from(stage)].clone();
        let value = || payload.map_or("null".into(), |it| String::from_utf8(it.clone()).unwrap());
        let error = || error_text(payload.expect("an error has a payload"));
        match Event::from_word(word).unwrap().call {
            Call::Claim(stage) => format!("claim {}", name(stage)),
            Call::Finish(stage, Answer::Throw(_)) => format!("finish {} throws {}", name(stage), error()),
            Call::Finish(stage, _) => format!("finish {} {}", name(stage), value()),
            Call::Complete(stage, _) => format!("complete {} {}", name(stage), value()),
            Call::Fail(stage, _) => format!("fail {} {}", name(stage), error()),
            Call::FailAs(stage, _) => format!("time out {}", name(stage)),
            Call::Cancel(stage) => format!("cancel {}", name(stage)),
            Call::Attach(..) => "attach".into(),
            other => panic!("{other:?} is no word of a row"),
        }
    }

    // Other processes.

    /// Puts a word of another process's.
    fn put_other(self: &Arc<Row>, line: &str) {
        let (who, said) = line.split_once(": ").unwrap_or_else(|| panic!("what is this line for: {line}"));
        let opened = self.script().opened.clone().unwrap();
        if said == "close" {
            let many = self.memory.read("r", opened.number, 0).unwrap().len();
            assert!(self.memory.end("r", opened.number, many).unwrap());
            return;
        }
        let mut others = self.others.lock().unwrap();
        let view = others.entry(who.into()).or_insert_with(|| {
            let session = OTHERS.iter().find(|it| it.0 == who).expect("a process").1;
            self.memory.beat(session).unwrap();
            let sessions = Arc::new(Sessions::new(session, LEASE));
            RowView::new(Arc::clone(&self.memory) as Arc<dyn Store>, Led::new(self, session), opened, sessions).unwrap()
        });
        view.catch_up().unwrap();
        let wanted = self.read_word(view, said);
        let mut wanted = Some(wanted.unwrap_or_else(|| panic!("{line}: there is no such word")));
        view.put_words(false, |_| Ok(wanted.take().into_iter().collect())).unwrap();
    }

    fn read_word(&self, view: &mut RowView, said: &str) -> Option<WantedWord> {
        let words: Vec<&str> = said.split(' ').collect();
        let place = view.seen_count() + 1;
        let bytes = |text: &str| Some(text.as_bytes().to_vec());
        let wanted = |call, payload| Some(WantedWord { call, payload });
        match words.as_slice() {
            ["attach", name, ..] => {
                let (form, of, said) = self.read_stage(&said["attach ".len()..]);
                let form = FORMS.iter().find(|it| it.1 == form).unwrap().2;
                let function = (form != Form::Source).then_some(view.stage_count() as u16);
                self.script().names.push((*name).into());
                let of = match of.as_slice() {
                    [] => Of::None,
                    [first] => Of::One(*first),
                    _ => Of::Two(of[0], of[1]),
                };
                wanted(Call::Attach(form, of, function), bytes(&said.to_string()))
            }
            ["claim", name] => wanted(Call::Claim(self.number_of(name)), None),
            ["cancel", name] => wanted(Call::Cancel(self.number_of(name)), None),
            ["complete", name, "null"] => wanted(Call::Complete(self.number_of(name), Value::Nil), None),
            ["complete", name, value] => wanted(Call::Complete(self.number_of(name), Value::Nil), bytes(value)),
            ["fail", name, kind] => wanted(Call::Fail(self.number_of(name), 0), Some(failed_bytes(&Failed::new(*kind, "the row says so")))),
            ["finish", name, "into", promise, "as", given] => {
                let payload = json!({ "stage": self.number_of(given) }).to_string();
                view.finish_word(self.number_of(name), Answer::Link(self.number_of(promise)), bytes(&payload)).unwrap()
            }
            ["finish", name, "null"] => view.finish_word(self.number_of(name), Answer::Give(Value::Nil), None).unwrap(),
            ["finish", name, rest @ ..] => {
                let payload = if rest[0] == "without" { None } else { bytes(rest[0]) };
                view.finish_word(self.number_of(name), Answer::Give(Value::Int(place as i32)), payload).unwrap()
            }
            _ => None,
        }
    }
}

/// Forms as a row, as a plan and as the library calls them.
const FORMS: [(&str, &str, Form); 6] = [
    ("supply", "supply", Form::Supply),
    ("apply", "apply", Form::Apply),
    ("either", "applyEither", Form::ApplyEither),
    ("promise", "source", Form::Source),
    ("again", "exceptionally", Form::Exceptionally),
    ("compose", "compose", Form::Compose),
];

fn silent() -> StoreError {
    StoreError::Unknown("the row says so".into())
}

fn refused() -> StoreError {
    StoreError::Refused("the row says so".into())
}

fn failed_text(failed: &Failed) -> String {
    if KINDS.contains(&failed.kind.as_str()) {
        failed.kind.clone()
    } else {
        failed.text.clone()
    }
}

fn error_text(payload: &[u8]) -> String {
    failed_text(&serde_json::from_slice(payload).unwrap())
}

/// How a stage is shown that has no value.
fn end_text(error: Error) -> String {
    match error {
        Error::Failed(failed) => failed_text(&failed),
        Error::Abandoned(_) => "Abandoned".into(),
        Error::TimedOut(_) => "timed out".into(),
        Error::Cancelled => "cancelled".into(),
        Error::Store(StoreError::Gone(_)) => "gone".into(),
        Error::Store(StoreError::Broken { .. }) => "broken".into(),
        other => other.to_string(),
    }
}

fn told_line(kind: &str, said: &str) -> String {
    if said.is_empty() {
        format!("  {kind}")
    } else {
        format!("  {kind}: {said}")
    }
}

/// The rows: `CF_DECISIONS` names them, or they stand where this crate's sources come from. None where neither is so, as in a package.
fn rows() -> String {
    let beside = Path::new(env!("CARGO_MANIFEST_DIR")).join("../../../conformance/stores/decisions.rows");
    match std::env::var_os("CF_DECISIONS") {
        Some(named) => std::fs::read_to_string(named).expect("CF_DECISIONS names the rows"),
        None => std::fs::read_to_string(beside).unwrap_or_default(),
    }
}

#[test]
fn what_a_process_decides() {
    let mut wrong = String::new();
    for row in format!("\n{}", rows()).split("\n== ").skip(1) {
        let lines: Vec<&str> = row.lines().filter(|line| !line.is_empty() && !line.starts_with('#')).collect();
        let first = lines.iter().position(|line| line.starts_with("> ")).expect("a row has a move");
        let wanted: Vec<&str> = lines[first..].iter().copied().filter(|line| line.starts_with("> ") || line.starts_with("  ")).collect();
        let told = Row::play_all(&lines[1..]);
        if told != wanted {
            wrong += &format!("\n{}\n  wanted\n{}\n  as it is\n{}\n", lines[0], wanted.join("\n"), told.join("\n"));
        }
    }
    assert!(wrong.is_empty(), "{wrong}");
}
