//! What happened to a request: in words, as an account that `cf_look check` judges, as a script that `cf run` does again, as a page. The library
//! tells it; here stands what it can't know.
use crate::core::Core;
use crate::describe::{escape_text, shorten, Describe};
use crate::error::Error;
#[cfg(feature = "serde")]
use crate::json::Json;
use crate::ledger::{is_replayed, new_tale, replay, How, Joined, Replayed};
use crate::record::EventTimes;
use crate::spawn::{CALLER, CLOCK, FIRST_WORKER, RELAY};
use crate::value::Val;
use crate::word::{self, Parts, ATTACH, CANCEL, COMPLETE, FAIL, FAIL_AS, FINISH, SOME, THROWS};
use cf_graph::{Cause, Finished, Label, Outcome, Refused, Reply, TaleFormat};
use std::collections::BTreeSet;
use std::ffi::OsStr;
use std::fmt;
use std::io::{self, Write as _};
use std::process::{Command, Stdio};
use std::thread;
use std::time::{Duration, SystemTime};

/// The events of a request until some moment, in their one order, and what its stages ended in. It stays as it is while the request goes on.
/// `Display` tells it in words.
///
/// What names and texts of others hold is told in one line: a line break in one is written `\n`, and what turns the direction of a text
/// `\u202e`. [`Request::described`](crate::Request::described) says how much is told of values and errors.
///
/// ```
/// let shipment = cf::Request::new("shipment 9", cf::Inline);
/// let price = shipment.promise::<u32>().named("price");
/// price.complete(49).unwrap();
/// let told: Vec<String> = shipment.history().to_string().lines().map(|line| line[line.len().min(14)..].to_owned()).collect();
/// assert_eq!(told[1..], ["caller attaches 0 price, source", "caller completes 0 price with 49", "0 price ends: 49"]);
/// ```
#[derive(Clone)]
pub struct History {
    name: String,
    words: Vec<u64>,
    record: EventTimes,
    /// What stages were settled with.
    outcomes: Vec<Option<Outcome>>,
    names: Vec<String>,
    /// What stages gave, by their numbers, and what they failed with, by the codes.
    values: Vec<Option<KeptEnd<Val>>>,
    errors: Vec<Option<KeptEnd<Error>>>,
    joins: Vec<Joined>,
    /// The stages that are scopes.
    scopes: Vec<u16>,
    /// When the request began.
    since: SystemTime,
}

/// What a stage ended in, or what is told of it where that isn't all: then what it ended in isn't kept.
#[derive(Clone)]
enum KeptEnd<T> {
    Raw(T),
    Text(String),
}

impl<T> KeptEnd<T> {
    fn keep_all(kept: Vec<Option<T>>) -> Vec<Option<KeptEnd<T>>> {
        kept.into_iter().map(|it| it.map(KeptEnd::Raw)).collect()
    }

    /// Keeps texts in the place of these.
    fn keep_texts(all: &mut [Option<KeptEnd<T>>], tell: impl Fn(&T) -> String) {
        all.iter_mut().flatten().for_each(|kept| *kept = KeptEnd::Text(kept.text(&tell)));
    }

    fn text(&self, tell: impl Fn(&T) -> String) -> String {
        match self {
            KeptEnd::Raw(it) => tell(it),
            KeptEnd::Text(text) => text.clone(),
        }
    }
}

impl History {
    pub(crate) fn new(core: &Core) -> History {
        let (history, describe) = History::take_from(core);
        history.keep_described(&describe)
    }

    /// All as it is, and what is to be told of it.
    pub(crate) fn take_from(core: &Core) -> (History, Describe) {
        let since = SystemTime::now().checked_sub(Duration::from_nanos(core.now())).unwrap_or(SystemTime::UNIX_EPOCH);
        let mut inner = core.lock();
        let words = inner.ledger.words();
        let record = inner.ledger.record.clone();
        let outcomes = inner.slots.iter().map(|slot| slot.outcome()).collect();
        let slots = inner.slots.iter();
        let (of, kept): (Vec<u16>, Vec<_>) = slots.map(|slot| (slot.made, (slot.value().cloned(), slot.error().cloned()))).unzip();
        let made = inner.made.clone();
        let (given, describe) = (inner.names.clone(), inner.describe.clone());
        let (joins, scopes) = (inner.ledger.joins.clone(), inner.scopes.all.iter().copied().collect());
        drop(inner);
        let mut names: Vec<String> = of.into_iter().map(|of| made[usize::from(of)].to_string()).collect();
        given.into_iter().for_each(|(stage, name)| names[usize::from(stage)] = name.into_owned());
        let (values, errors) = kept.into_iter().unzip();
        let (values, mut errors) = (KeptEnd::keep_all(values), KeptEnd::keep_all(errors));
        errors.insert(0, None);
        (History { name: core.name.to_string(), words, record, outcomes, names, values, errors, joins, scopes, since }, describe)
    }

    /// The same, which keeps what is told of values and errors alone, where that isn't all.
    pub(crate) fn keep_described(mut self, describe: &Describe) -> History {
        if !matches!(describe, Describe::All) {
            KeptEnd::keep_texts(&mut self.values, |value| describe.tell(Ok(value)));
            KeptEnd::keep_texts(&mut self.errors, |error| describe.tell(Err(error)));
        }
        self
    }

    // For spans.

    pub(crate) fn name(&self) -> &str {
        &self.name
    }

    pub(crate) fn since(&self) -> SystemTime {
        self.since
    }

    /// What the events are answered, and what they settle, as they are done again.
    pub(crate) fn replay(&self) -> Vec<Replayed> {
        replay(&self.words, self.names.len() as u16).expect("memory for a ledger")
    }

    /// The stages that end by others, but for those that are only cancelled then.
    pub(crate) fn joins(&self) -> impl Iterator<Item = &Joined> {
        self.joins.iter().filter(|it| it.how != How::IsCancelled)
    }

    /// The stages that are scopes.
    pub(crate) fn scopes(&self) -> &[u16] {
        &self.scopes
    }

    /// What is told of a cause.
    pub(crate) fn failure(&self, cause: Cause) -> String {
        match cause {
            Cause::Thrown(code) => self.error(code),
            Cause::Cancelled => "cancelled".into(),
            Cause::TimedOut(code) => format!("timed out, {}", self.error(code)),
            Cause::BadAnswer(code) => format!("a bad answer, {}", self.error(code)),
            _ => "an error".into(),
        }
    }

    /// What is told of an error.
    pub(crate) fn error(&self, code: u32) -> String {
        self.errors[code as usize].as_ref().map_or_else(|| AN_ERROR.into(), |error| escape_text(&error.text(short_text)))
    }

    /// The words of all events, in their one order: docs/FORMATS.md, "Words of events".
    ///
    /// ```
    /// let shipment = cf::Request::new("shipment 9", cf::Inline);
    /// let _ = shipment.promise::<u32>();
    /// assert_eq!(shipment.history().words(), [7 << 56]);
    /// ```
    pub fn words(&self) -> &[u64] {
        &self.words
    }

    /// When each event was done, since the request began.
    ///
    /// ```
    /// let shipment = cf::Request::new("shipment 9", cf::Inline);
    /// shipment.supply(|| 49).wait().unwrap();
    /// assert_eq!(shipment.history().times().count(), 3);
    /// ```
    pub fn times(&self) -> impl Iterator<Item = Duration> + '_ {
        self.record.moments().map(Duration::from_nanos)
    }

    /// The names of stages, by their numbers.
    ///
    /// ```
    /// let shipment = cf::Request::new("shipment 9", cf::Inline);
    /// let _ = shipment.promise::<u32>().named("price");
    /// assert_eq!(shipment.history().names(), ["price"]);
    /// ```
    pub fn names(&self) -> &[String] {
        &self.names
    }

    /// Does all again on a ledger of its own, and says whether each stage ends again as it was shown.
    ///
    /// ```
    /// let shipment = cf::Request::new("shipment 9", cf::Pool::new(4));
    /// shipment.supply(|| 20).then(|n| n + 1).wait().unwrap();
    /// assert!(shipment.history().is_reproducible());
    /// ```
    #[must_use]
    pub fn is_reproducible(&self) -> bool {
        self.record.event_count() == self.words.len() && is_replayed(&self.words, &self.outcomes).unwrap_or(false)
    }

    /// What `cf run` does again, and `cf_look dot` draws: a line of JSON. A function stands there as `{"const": N}`, and is never called, since
    /// each finish is a step. It is of version 2, or of 3 where a stage was to time out or to have a bad answer.
    ///
    /// ```
    /// let shipment = cf::Request::new("shipment 9", cf::Inline);
    /// shipment.promise().complete(49).unwrap();
    /// assert_eq!(shipment.history().script(), r#"{"cf":2,"room":1,"stages":[],"steps":[["attach",{"form":"source"}],["complete",0,0]]}"#);
    /// ```
    #[must_use]
    pub fn script(&self) -> String {
        trim_newline(self.tell(TaleFormat::Script))
    }

    /// What `cf run` prints of the script.
    ///
    /// ```
    /// let shipment = cf::Request::new("shipment 9", cf::Inline);
    /// shipment.promise().complete(49).unwrap();
    /// assert_eq!(shipment.history().report(), "attached 0\ntrue\nstage 0 value 0\n");
    /// ```
    #[must_use]
    pub fn report(&self) -> String {
        self.tell(TaleFormat::Report)
    }

    /// What `cf_look check` judges and `cf_look page` shows, a line of JSON: the events, and what they were answered and what stages hold in the
    /// end, both by the graph. [`is_reproducible`](History::is_reproducible) says whether stages showed the same. The members `name`, `names`,
    /// `times` (nanoseconds), `lanes`, `values`, `errors` and `relays` are for people.
    ///
    /// ```
    /// let shipment = cf::Request::new("shipment 9", cf::Inline);
    /// shipment.promise().complete(49).unwrap();
    /// assert!(shipment.history().account().contains(r#""outcomes":["value 0"]"#));
    /// ```
    #[must_use]
    pub fn account(&self) -> String {
        let mut account = trim_newline(self.tell(TaleFormat::Account));
        // The library doesn't tell which stages stand in for others.
        let relays: Vec<_> = self.joins().filter(|it| it.how == How::Follows).map(|it| format!("[{},{}]", it.stage, it.of[0])).collect();
        if !relays.is_empty() {
            account.truncate(account.len() - 1);
            account += &format!(",\"relays\":[{}]}}", relays.join(","));
        }
        account + "\n"
    }

    /// A page for a browser, which loads nothing, as the program `cf_look` makes it of the account.
    ///
    /// # Errors
    ///
    /// `NotFound` where `cf_look` isn't on the path; else those of [`page_made_by`](History::page_made_by).
    ///
    /// ```
    /// let shipment = cf::Request::new("shipment 9", cf::Inline);
    /// shipment.promise().complete(49).unwrap();
    /// match shipment.history().page() {
    ///     Ok(page) => assert!(page.contains("shipment 9")),
    ///     Err(error) => assert_eq!(error.kind(), std::io::ErrorKind::NotFound),
    /// }
    /// ```
    pub fn page(&self) -> io::Result<String> {
        self.page_made_by("cf_look")
    }

    /// The same, by the program `cf_look` that stands there.
    ///
    /// # Errors
    ///
    /// Where the program can't be started, or ends with another status than 0: what it says then.
    ///
    /// ```
    /// let shipment = cf::Request::new("shipment 9", cf::Inline);
    /// assert!(shipment.history().page_made_by("/no/such/program").is_err());
    /// ```
    pub fn page_made_by(&self, program: impl AsRef<OsStr>) -> io::Result<String> {
        page_of(&self.account(), program.as_ref())
    }

    /// All in one line, for a log: how much happened, how long that took, how many stages failed and which was the first, which are open. A `;` of a
    /// name or a text is written `\u003b`.
    ///
    /// ```
    /// let shipment = cf::Request::new("shipment 9", cf::Inline);
    /// shipment.promise().complete(49).unwrap();
    /// assert!(shipment.history().line().starts_with("shipment 9: 2 events, 1 stage in "));
    /// ```
    #[must_use]
    pub fn line(&self) -> String {
        self.tell(TaleFormat::Line)
    }

    fn tell(&self, telling: TaleFormat) -> String {
        self.try_tell(telling).expect("memory for a text")
    }

    fn try_tell(&self, telling: TaleFormat) -> Result<String, Refused> {
        let is_for_people = matches!(telling, TaleFormat::Lines | TaleFormat::Line);
        let words = if is_for_people { self.words_for_people()? } else { self.words.clone() };
        let mut tale = new_tale(&words, self.names.len() as u16)?;
        if matches!(telling, TaleFormat::Script | TaleFormat::Report) {
            return tale.text(telling);
        }
        tale.set_times(&self.times().map(|at| at.as_nanos() as u64).collect::<Vec<_>>())?;
        tale.say(Label::Name, [&self.name])?;
        tale.say(Label::Stages, &self.names)?;
        tale.say(Label::Callers, callers(&words))?;
        let (shown, lost) = (if is_for_people { short_text } else { full_text }, |text: &str| is_for_people.then(|| text.to_owned()));
        tale.say(Label::Values, texts(&self.values, |value| Describe::All.tell(Ok(value))).chain(lost(A_VALUE)))?;
        tale.say(Label::Errors, texts(&self.errors, shown).chain(lost(AN_ERROR)))?;
        tale.text(telling)
    }

    /// The words, of which those that came too late name no value and no error of a stage, since nobody keeps theirs: the number in them is the one
    /// behind those of all stages, or 0 for a time-out and a bad answer.
    fn words_for_people(&self) -> Result<Vec<u64>, Refused> {
        let lost = self.names.len() as u64;
        let apart = |Replayed { word, reply, .. }| {
            let parts = word::decode(word);
            let is_kept = !matches!(reply, Reply::Flag(false) | Reply::Finished(Finished::Late | Finished::NotYours));
            match (parts.kind, parts.tag) {
                _ if is_kept => word,
                (COMPLETE | FINISH, SOME) => word - u64::from(parts.low) + lost,
                (FAIL, _) | (FINISH, THROWS) => word - u64::from(parts.low) + lost + 1,
                (FAIL_AS, _) => word - u64::from(parts.low),
                _ => word,
            }
        };
        Ok(self.by_relays(replay(&self.words, self.names.len() as u16)?.into_iter().map(apart)))
    }

    /// These words, with those as a relay's by which the machine settles one of this request, or a join, or cancels with a scope.
    fn by_relays(&self, words: impl Iterator<Item = u64>) -> Vec<u64> {
        let relays: BTreeSet<u16> = self.joins().map(|it| it.stage).collect();
        let is_relays = |parts: Parts| parts.who == CLOCK && (parts.kind == CANCEL || parts.kind != ATTACH && relays.contains(&parts.stage));
        words.map(|word| if is_relays(word::decode(word)) { word::with_caller(RELAY, word) } else { word }).collect()
    }
}

/// The page of an account, by a program.
pub(crate) fn page_of(account: &str, program: &OsStr) -> io::Result<String> {
    let mut command = Command::new(program);
    let mut looking = command.arg("page").stdin(Stdio::piped()).stdout(Stdio::piped()).stderr(Stdio::piped()).spawn()?;
    let input = looking.stdin.take();
    let ended = thread::scope(|scope| {
        // A program that reads no further says why by its status.
        scope.spawn(|| input.map(|mut input| input.write_all(account.as_bytes())));
        looking.wait_with_output()
    })?;
    if !ended.status.success() {
        let said = String::from_utf8_lossy(&ended.stderr);
        return Err(io::Error::new(io::ErrorKind::Other, format!("cf_look ended with {}: {}", ended.status, said.trim())));
    }
    String::from_utf8(ended.stdout).map_err(|error| io::Error::new(io::ErrorKind::InvalidData, error))
}

/// What the callers are called, up to the last that did something.
fn callers(words: &[u64]) -> Vec<String> {
    words.iter().map(|word| word::decode(*word).who).max().map_or(Vec::new(), |last| (0..=last).map(caller).collect())
}

impl fmt::Display for History {
    /// A line for each event, and one for each stage that was settled by it: docs/FORMATS.md, "Histories in words".
    fn fmt(&self, f: &mut fmt::Formatter<'_>) -> fmt::Result {
        f.write_str(&self.tell(TaleFormat::Lines))
    }
}

impl fmt::Debug for History {
    fn fmt(&self, f: &mut fmt::Formatter<'_>) -> fmt::Result {
        write!(f, "History({}, {} events, {} stages)", escape_text(&self.name), self.words.len(), self.names.len())
    }
}

/// What is told of values and errors that nobody keeps.
const A_VALUE: &str = "a value";
const AN_ERROR: &str = "an error";

fn full_text(error: &Error) -> String {
    Describe::All.tell(Err(error))
}

fn short_text(error: &Error) -> String {
    shorten(full_text(error))
}

/// What is told of each stage's, and nothing of a stage that has none.
fn texts<'a, T>(all: &'a [Option<KeptEnd<T>>], tell: impl Fn(&T) -> String + 'a) -> impl Iterator<Item = String> + 'a {
    all.iter().map(move |kept| kept.as_ref().map_or_else(String::new, |kept| kept.text(&tell)))
}

fn trim_newline(mut line: String) -> String {
    line.truncate(line.trim_end().len());
    line
}

pub(crate) fn caller(who: u8) -> String {
    match who {
        CALLER => "caller".into(),
        CLOCK => "clock".into(),
        RELAY => "relay".into(),
        _ => format!("worker {}", who - FIRST_WORKER),
    }
}

/// The members of [`History::account`].
#[cfg(feature = "serde")]
impl serde::Serialize for History {
    fn serialize<S: serde::Serializer>(&self, serializer: S) -> Result<S::Ok, S::Error> {
        Json::parse(&self.account()).serialize(serializer)
    }
}

#[cfg(feature = "serde")]
impl serde::Serialize for Json {
    fn serialize<S: serde::Serializer>(&self, serializer: S) -> Result<S::Ok, S::Error> {
        match self {
            Json::True => serializer.serialize_bool(true),
            Json::Number(number) => serializer.serialize_i64(*number),
            Json::Text(text) => serializer.serialize_str(text),
            Json::List(items) => serializer.collect_seq(items),
            Json::Object(members) => serializer.collect_map(members.iter().map(|(name, member)| (name, member))),
        }
    }
}
