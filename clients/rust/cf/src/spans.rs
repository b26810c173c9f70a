//! A history as OpenTelemetry's spans, which may be added to a file. Names and attributes are those of `cf_look trace --spans`.
use crate::describe::{is_unseen, push_escaped};
use crate::history::History;
use crate::spawn::FIRST_WORKER;
use crate::word::{self, Parts, WordForm, ATTACH, CLAIM, FINISH, LINKS, THROWS};
use cf_graph::{Claimed, Finished, Outcome, Reply};
use std::collections::hash_map::RandomState;
use std::collections::BTreeMap;
use std::fmt::Write as _;
use std::fs::OpenOptions;
use std::hash::{BuildHasher, Hasher};
use std::io::{self, Write as _};
use std::path::PathBuf;
use std::time::{SystemTime, UNIX_EPOCH};

/// What [`History::spans`] tells of a request, or of one call of a function.
///
/// ```
/// let shipment = cf::Request::new("shipment 9", cf::Inline);
/// shipment.supply(|| 49).named("price").wait().unwrap();
/// let spans = shipment.history().spans();
/// assert_eq!(spans.iter().map(|span| span.name.as_str()).collect::<Vec<_>>(), ["shipment 9", "price"]);
/// ```
#[derive(Clone, Debug, PartialEq, Eq)]
#[non_exhaustive]
pub struct Span {
    /// The name of the request or of the stage.
    pub name: String,
    /// The first event, or the claim.
    pub start: SystemTime,
    /// The finish; of the request, and of what isn't finished, the last event.
    pub end: SystemTime,
    /// Whose function was called, by whom; none of the request.
    pub call: Option<CalledFunction>,
    /// The stages to whose spans it has a link.
    pub sources: Vec<u16>,
    /// How the stage ended.
    pub status: Status,
    /// What the function failed with: the message of an event `exception` at the end.
    pub failed: Option<String>,
}

/// Which function was called.
///
/// ```
/// let shipment = cf::Request::new("shipment 9", cf::Inline);
/// shipment.supply(|| 49).wait().unwrap();
/// let called = shipment.history().spans()[1].call.clone().unwrap();
/// assert_eq!((called.stage, called.form), (0, "supply"));
/// ```
#[derive(Clone, Debug, PartialEq, Eq)]
#[non_exhaustive]
pub struct CalledFunction {
    /// The number of the stage, `cf.stage`.
    pub stage: u16,
    /// Who called it, `cf.caller`.
    pub caller: String,
    /// The stage's form, `cf.form`.
    pub form: &'static str,
}

/// How what a span is about ended.
///
/// ```
/// let shipment = cf::Request::new("shipment 9", cf::Inline);
/// let _ = shipment.try_supply(|| "x".parse::<u32>());
/// assert_eq!(shipment.history().spans()[0].status, cf::Status::Error("invalid digit found in string".into()));
/// ```
#[derive(Clone, Debug, PartialEq, Eq)]
pub enum Status {
    /// Not yet.
    Unset,
    /// With a value.
    Ok,
    /// With an error, of which this is told.
    Error(String),
}

/// Adds the spans of requests to a file: for each a line with the JSON of OpenTelemetry's protocol, as its collectors read it from files.
///
/// ```
/// let path = std::env::temp_dir().join(format!("spans-{}.jsonl", std::process::id()));
/// let file = cf::SpanFile::new(&path, "shop");
/// let shipment = cf::Request::new("shipment 9", cf::Inline);
/// shipment.supply(|| 49).named("price").wait().unwrap();
/// file.add(&shipment.history())?;
/// assert!(std::fs::read_to_string(&path)?.contains(r#""name":"price""#));
/// # std::fs::remove_file(path)?;
/// # Ok::<(), std::io::Error>(())
/// ```
#[derive(Clone, Debug)]
pub struct SpanFile {
    path: PathBuf,
    service: String,
}

impl SpanFile {
    /// This file, which is made as it is needed, for requests of a service of this name.
    ///
    /// ```
    /// let file = cf::SpanFile::new("spans.jsonl", "shop");
    /// let ends = cf::Ends::new(move |history| file.add(history).unwrap_or_else(|error| eprintln!("no spans: {error}")));
    /// ```
    pub fn new(path: impl Into<PathBuf>, service: &str) -> SpanFile {
        SpanFile { path: path.into(), service: service.into() }
    }

    /// Adds the spans of a request. A request to which nothing happened has none.
    ///
    /// # Errors
    ///
    /// Where the file can't be opened or written.
    ///
    /// ```
    /// let shipment = cf::Request::new("shipment 9", cf::Inline);
    /// assert!(cf::SpanFile::new("/no/such/folder/spans", "shop").add(&shipment.history()).is_ok());
    /// let _ = shipment.promise::<u32>();
    /// assert!(cf::SpanFile::new("/no/such/folder/spans", "shop").add(&shipment.history()).is_err());
    /// ```
    pub fn add(&self, history: &History) -> io::Result<()> {
        let spans = history.spans();
        if spans.is_empty() {
            return Ok(());
        }
        let trace = format!("{:016x}{:016x}", random(), random());
        let spans: Vec<String> = spans.iter().map(|span| json(&trace, span)).collect();
        let line = format!(
            "{{\"resourceSpans\":[{{\"resource\":{{\"attributes\":[{}]}},\"scopeSpans\":[{{\"scope\":{{\"name\":\"cf\"}},\"spans\":[{}]}}]}}]}}\n",
            attribute("service.name", &self.service),
            spans.join(",")
        );
        OpenOptions::new().create(true).append(true).open(&self.path)?.write_all(line.as_bytes())
    }
}

/// A number of 64 bits that isn't 0, by the keys that std takes from the system.
fn random() -> u64 {
    RandomState::new().build_hasher().finish() | 1
}

/// The number of the span of a request, and of that of a stage.
const WHOLE: u64 = u64::MAX;

fn json(trace: &str, span: &Span) -> String {
    let number = span.call.as_ref().map_or(WHOLE, |call| u64::from(call.stage) + 1);
    let mut text = format!("{{\"traceId\":\"{trace}\",\"spanId\":\"{number:016x}\",");
    if span.call.is_some() {
        let _ = write!(text, "\"parentSpanId\":\"{WHOLE:016x}\",");
    }
    let (start, end) = (nanoseconds(span.start), nanoseconds(span.end));
    let _ =
        write!(text, "\"name\":{},\"kind\":1,\"startTimeUnixNano\":\"{start}\",\"endTimeUnixNano\":\"{end}\",\"attributes\":[", quoted(&span.name));
    if let Some(call) = &span.call {
        let stage = format!("{{\"key\":\"cf.stage\",\"value\":{{\"intValue\":\"{}\"}}}}", call.stage);
        text += &[stage, attribute("cf.caller", &call.caller), attribute("cf.form", call.form)].join(",");
    }
    text += "],\"events\":[";
    if let Some(failed) = &span.failed {
        let told = attribute("exception.message", failed);
        let _ = write!(text, "{{\"timeUnixNano\":\"{end}\",\"name\":\"exception\",\"attributes\":[{told}]}}");
    }
    let link = |source: &u16| format!("{{\"traceId\":\"{trace}\",\"spanId\":\"{:016x}\"}}", u64::from(*source) + 1);
    let _ = write!(text, "],\"links\":[{}],\"status\":{{", span.sources.iter().map(link).collect::<Vec<_>>().join(","));
    text += &match &span.status {
        Status::Unset => "\"code\":0".to_owned(),
        Status::Ok => "\"code\":1".to_owned(),
        Status::Error(message) => format!("\"code\":2,\"message\":{}", quoted(message)),
    };
    text + "}}"
}

fn attribute(key: &str, value: &str) -> String {
    format!("{{\"key\":\"{key}\",\"value\":{{\"stringValue\":{}}}}}", quoted(value))
}

/// A JSON string, which is one line also for who takes other letters for the end of one.
fn quoted(text: &str) -> String {
    let mut quoted = String::from('"');
    for letter in text.chars() {
        match letter {
            '"' => quoted += "\\\"",
            '\\' => quoted += "\\\\",
            letter if is_unseen(letter) => push_escaped(&mut quoted, letter),
            letter => quoted.push(letter),
        }
    }
    quoted + "\""
}

fn nanoseconds(at: SystemTime) -> u128 {
    at.duration_since(UNIX_EPOCH).unwrap_or_default().as_nanos()
}

impl History {
    /// What happened as OpenTelemetry's spans: one for the request, and then within it one for each call of a function, in the order of their
    /// stages. There are none where nothing happened. The request has failed where a stage has that no other one waits for; those that functions
    /// attached aren't looked at for that.
    ///
    /// ```
    /// let shipment = cf::Request::new("shipment 9", cf::Inline);
    /// let price = shipment.supply(|| 49).named("price");
    /// price.then(|price| price + 3).named("total").wait().unwrap();
    /// let spans = shipment.history().spans();
    /// assert_eq!((spans[2].name.as_str(), &spans[2].sources[..]), ("total", &[0][..]));
    /// ```
    #[must_use]
    pub fn spans(&self) -> Vec<Span> {
        Reading::new(self).spans()
    }

    /// Whether a stage has failed that no other one waits for.
    pub(crate) fn has_failed(&self) -> bool {
        let reading = Reading::new(self);
        reading.ends.iter().any(|(stage, ended)| !reading.inner[usize::from(*stage)] && matches!(ended, Outcome::Fault { .. }))
    }
}

/// What spans need of a history.
struct Reading<'a> {
    history: &'a History,
    times: Vec<SystemTime>,
    /// Of each stage its form and its sources.
    shapes: Vec<(usize, Vec<u16>)>,
    /// Of each stage whose function was called, by whom and when, and the place of its finish.
    calls: BTreeMap<u16, (u8, usize, Option<usize>)>,
    ends: BTreeMap<u16, Outcome>,
    /// What functions failed with.
    failed: BTreeMap<u16, String>,
    /// Of each stage whether another one waits for it, or a function attached it, or it is a scope.
    inner: Vec<bool>,
}

impl<'a> Reading<'a> {
    fn new(history: &'a History) -> Reading<'a> {
        let times = history.times().map(|at| history.since() + at).collect();
        let inner = vec![false; history.names().len()];
        let (shapes, calls) = (Vec::new(), BTreeMap::new());
        let mut it = Reading { history, times, shapes, calls, ends: BTreeMap::new(), failed: BTreeMap::new(), inner };
        let mut running = [0_usize; 64];
        for (place, done) in history.replay().into_iter().enumerate() {
            it.read(place, word::decode(done.word), done.reply, &mut running);
            it.ends.extend(done.settled);
        }
        let waited = it.shapes.iter().flat_map(|(_, of)| of.clone()).chain(history.joins().flat_map(|it| it.of.iter().copied()));
        let inner: Vec<u16> = waited.chain(history.scopes().iter().copied()).collect();
        inner.into_iter().for_each(|stage| it.inner[usize::from(stage)] = true);
        it
    }

    fn read(&mut self, place: usize, parts: Parts, reply: Reply, running: &mut [usize; 64]) {
        let who = usize::from(parts.who);
        match (parts.kind, reply) {
            (ATTACH, Reply::Attached(Some(stage))) => {
                let (form, of, _) = parts.attach_parts();
                self.shapes.push((form, of));
                self.inner[usize::from(stage)] |= parts.who >= FIRST_WORKER && running[who] > 0;
                if form == WordForm::Compose as usize || form == WordForm::ExceptionallyCompose as usize {
                    self.inner[usize::from(stage) - 1] = true; // its relay
                }
            }
            (CLAIM, Reply::Claimed(Claimed::Granted(_))) => {
                self.calls.insert(parts.stage, (parts.who, place, None));
                running[who] += 1;
            }
            (FINISH, Reply::Finished(answer)) if answer != Finished::NotYours => {
                running[who] = running[who].saturating_sub(1);
                if let Some((_, _, finish)) = self.calls.get_mut(&parts.stage) {
                    *finish = Some(place);
                }
                if parts.tag == LINKS {
                    self.inner[parts.low as usize] = true;
                }
                if parts.tag == THROWS && answer == Finished::Won {
                    self.failed.insert(parts.stage, self.history.error(parts.low));
                }
            }
            _ => {}
        }
    }

    fn spans(mut self) -> Vec<Span> {
        let (start, end) = match (self.times.first(), self.times.last()) {
            (Some(start), Some(end)) => (*start, *end),
            _ => return Vec::new(),
        };
        let last: Vec<Status> = (0..self.inner.len()).filter(|stage| !self.inner[*stage]).map(|stage| self.status(stage as u16)).collect();
        let failed = last.iter().find(|status| matches!(status, Status::Error(_))).cloned();
        let is_open = last.is_empty() || last.contains(&Status::Unset);
        let status = failed.unwrap_or(if is_open { Status::Unset } else { Status::Ok });
        let whole = Span { name: self.history.name().into(), start, end, call: None, sources: Vec::new(), status, failed: None };
        let mut spans = vec![whole];
        for (stage, (who, claim, finish)) in self.calls.clone() {
            let (form, of) = &self.shapes[usize::from(stage)];
            let sources = of.iter().copied().filter(|source| self.calls.contains_key(source)).collect();
            let call = Some(CalledFunction { stage, caller: crate::history::caller(who), form: word::FORM_NAMES[*form] });
            let (start, end) = (self.times[claim], finish.map_or(end, |place| self.times[place]));
            let (name, failed) = (self.history.names()[usize::from(stage)].clone(), self.failed.remove(&stage));
            spans.push(Span { name, start, end, call, sources, status: self.status(stage), failed });
        }
        spans
    }

    fn status(&self, stage: u16) -> Status {
        match self.ends.get(&stage) {
            None => Status::Unset,
            Some(Outcome::Value(_)) => Status::Ok,
            Some(Outcome::Fault { cause, .. }) => Status::Error(self.history.failure(*cause)),
        }
    }
}
