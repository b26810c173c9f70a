//! What happened in requests that are over, counted, and which ones are open.
use crate::aside::Aside;
use crate::core::Core;
use crate::describe::escape_text;
use crate::history::{caller, History};
use crate::ledger::How;
use crate::request::Request;
use crate::word::{self, WordForm, ATTACH, CLAIM, FINISH, LINKS};
use cf_graph::{Claimed, Finished, Reply};
use std::collections::BTreeMap;
use std::fmt::{self, Display, Write as _};
use std::sync::{Arc, Mutex, MutexGuard, PoisonError, Weak};
use std::time::Duration;

/// Counts what happened in requests that are over, and tells which ones are open, and why: what [`Request::metered`](crate::Request::metered)
/// takes. It is a handle: clones are the same.
///
/// What is open is looked at when it is asked for, which takes some microseconds a request. Histograms are made of the [`History`] of each request
/// that is over, on a thread of their own, as [`Ends`](crate::Ends) are told: while 2,048 requests wait for it, further ones aren't counted. Times
/// are those of the request's clock.
///
/// ```
/// let meter = cf::Meter::new();
/// let request = cf::Request::new("order 17", cf::Inline).metered(&meter);
/// let approval = request.promise::<u32>().named("approval");
/// assert_eq!(meter.open_requests()[0].to_string(), "order 17, open for 0.0 s: 0 approval has waited to be settled for 0.0 s");
/// assert!(meter.text().contains("cf_memory_open_promises 1\n"));
/// drop((request, approval));
/// assert!(meter.flush(std::time::Duration::from_secs(60)));
/// assert!(meter.text().contains("cf_memory_request_seconds_count 1\n"));
/// ```
#[derive(Clone)]
pub struct Meter(Arc<State>);

struct State {
    open: Mutex<Open>,
    ends: Aside<History>,
    counted: Arc<Mutex<Counts>>,
}

#[derive(Default)]
struct Open {
    /// How many were opened. The number of each is its key.
    count: u64,
    requests: BTreeMap<u64, Weak<Core>>,
}

/// A request's place in a meter.
pub(crate) struct Metered {
    meter: Meter,
    number: u64,
}

/// A request that isn't over, and why, as [`Meter::open_requests`] found it. `Display` tells it in one line.
///
/// ```
/// let meter = cf::Meter::new();
/// let request = cf::Request::new("order 17", cf::Inline).metered(&meter);
/// let approval = request.promise::<u32>();
/// let open = &meter.open_requests()[0];
/// assert_eq!((open.request.name(), open.waits.len()), ("order 17", 1));
/// # drop(approval);
/// ```
#[derive(Clone, Debug)]
#[non_exhaustive]
pub struct OpenRequest {
    /// A handle of it, which keeps it open.
    pub request: Request,
    /// For how long it is open.
    pub age: Duration,
    /// Why it isn't over: a text for each function that runs or is ready, and for each stage that somebody has to settle. What waits for another
    /// stage of the request isn't told: that stage is. The texts are for people.
    pub waits: Vec<String>,
}

impl Display for OpenRequest {
    fn fmt(&self, f: &mut fmt::Formatter<'_>) -> fmt::Result {
        write!(f, "{}, open for {:.1} s: {}", escape_text(self.request.name()), self.age.as_secs_f64(), self.waits.join("; "))
    }
}

impl Meter {
    /// One that has counted nothing.
    ///
    /// ```
    /// assert!(cf::Meter::new().open_requests().is_empty());
    /// ```
    #[must_use]
    pub fn new() -> Meter {
        let counted = Arc::<Mutex<Counts>>::default();
        let its = Arc::clone(&counted);
        Meter(Arc::new(State { open: Mutex::default(), ends: Aside::new(move |history| lock(&its).count(&history)), counted }))
    }

    /// The requests that aren't over, the oldest first. One whose stages are all settled isn't told. Each has one more handle then: a request whose
    /// other handles go meanwhile is over once this list is dropped.
    ///
    /// ```
    /// let meter = cf::Meter::new();
    /// let request = cf::Request::new("order 17", cf::Inline).metered(&meter);
    /// let _approval = request.promise::<u32>();
    /// meter.open_requests().iter().for_each(|open| println!("{open}"));
    /// ```
    #[must_use]
    pub fn open_requests(&self) -> Vec<OpenRequest> {
        self.look().requests
    }

    /// All of it in Prometheus' text form, version 0.0.4.
    ///
    /// ```
    /// assert!(cf::Meter::new().text().starts_with("# HELP cf_memory_open_requests "));
    /// ```
    #[must_use]
    pub fn text(&self) -> String {
        let look = self.look();
        let (oldest, oldest_ready) = (look.requests.first().map_or(0.0, |it| it.age.as_secs_f64()), look.oldest_ready.as_secs_f64());
        let mut text = String::new();
        push(&mut text, "open_requests", "Requests that aren't over.", "gauge", look.requests.len());
        push(&mut text, "oldest_request_seconds", "The age of the oldest of them.", "gauge", oldest);
        push(&mut text, "running_functions", "Functions at work.", "gauge", look.running);
        push(&mut text, "ready_functions", "Functions that no thread has taken yet.", "gauge", look.ready);
        push(&mut text, "oldest_ready_seconds", "For how long the oldest of them has been ready.", "gauge", oldest_ready);
        push(&mut text, "open_promises", "Stages that somebody has to settle.", "gauge", look.promises);
        lock(&self.0.counted).push_to(&mut text);
        text
    }

    /// Waits until all requests are counted that were over before, or so long. Whether they are.
    ///
    /// ```
    /// assert!(cf::Meter::new().flush(std::time::Duration::from_secs(1)));
    /// ```
    pub fn flush(&self, wait: Duration) -> bool {
        self.0.ends.flush(wait)
    }

    pub(crate) fn note_open(&self, core: &Arc<Core>) -> Metered {
        let mut open = lock(&self.0.open);
        open.count += 1;
        let number = open.count;
        open.requests.insert(number, Arc::downgrade(core));
        Metered { meter: self.clone(), number }
    }

    fn look(&self) -> Look {
        // No handle is dropped under the lock: the drop of a last one takes it.
        let open: Vec<Arc<Core>> = lock(&self.0.open).requests.values().filter_map(Weak::upgrade).collect();
        let mut look = Look::default();
        open.into_iter().for_each(|core| look.at(Request(core, Ok(None))));
        look
    }
}

impl Metered {
    /// The meter doesn't tell of the request any more.
    pub(crate) fn forget(&self) {
        lock(&self.meter.0.open).requests.remove(&self.number);
    }

    pub(crate) fn tell_end(self, history: History) {
        self.forget();
        self.meter.0.ends.tell(history);
    }
}

impl Default for Meter {
    fn default() -> Meter {
        Meter::new()
    }
}

impl fmt::Debug for Meter {
    fn fmt(&self, f: &mut fmt::Formatter<'_>) -> fmt::Result {
        f.debug_struct("Meter").field("requests", &lock(&self.0.open).requests.len()).finish_non_exhaustive()
    }
}

fn lock<T>(of: &Mutex<T>) -> MutexGuard<'_, T> {
    of.lock().unwrap_or_else(PoisonError::into_inner)
}

/// By which events what happened to a stage.
#[derive(Clone, Copy, Default)]
struct Marks {
    ready: Option<usize>,
    claimed: Option<usize>,
    finished: Option<usize>,
    settled: Option<usize>,
    /// From when on somebody has to settle a promise.
    promised: Option<usize>,
    /// Who has claimed it.
    by: u8,
}

impl Marks {
    fn of(history: &History) -> Vec<Marks> {
        let mut marks = vec![Marks::default(); history.names().len()];
        for (place, done) in history.replay().into_iter().enumerate() {
            let parts = word::decode(done.word);
            let at = usize::from(parts.stage);
            match (parts.kind, done.reply) {
                (ATTACH, Reply::Attached(Some(stage))) => {
                    let (form, at) = (parts.attach_parts().0, usize::from(stage));
                    marks[at].promised = (form == WordForm::Source as usize).then_some(place);
                    if form == WordForm::Compose as usize || form == WordForm::ExceptionallyCompose as usize {
                        marks[at - 1].promised = None; // its relay, which waits once the function has linked to it
                    }
                }
                (CLAIM, Reply::Claimed(Claimed::Granted(_))) => (marks[at].claimed, marks[at].by) = (Some(place), parts.who),
                (FINISH, Reply::Finished(answer)) if answer != Finished::NotYours => {
                    marks[at].finished = Some(place);
                    if parts.tag == LINKS && parts.low as usize + 1 == at {
                        marks[at - 1].promised = Some(place);
                    }
                }
                _ => {}
            }
            for stage in done.ready {
                marks[usize::from(stage)].ready.get_or_insert(place);
            }
            done.settled.iter().for_each(|(stage, _)| marks[usize::from(*stage)].settled = Some(place));
        }
        let joins = history.joins().filter(|it| it.how != How::Follows).map(|it| it.stage);
        joins.chain(history.scopes().iter().copied()).for_each(|stage| marks[usize::from(stage)].promised = None); // (others settle it)
        marks
    }
}

/// What is open.
#[derive(Default)]
struct Look {
    requests: Vec<OpenRequest>,
    running: usize,
    ready: usize,
    promises: usize,
    oldest_ready: Duration,
}

impl Look {
    fn at(&mut self, request: Request) {
        let (history, age) = (History::take_from(&request.0).0, Duration::from_nanos(request.0.now()));
        let times: Vec<Duration> = history.times().collect();
        let since = |place: usize| age.saturating_sub(times[place]);
        let why = |(stage, mark): (usize, &Marks)| Some(format!("{stage} {}{}", escape_text(&history.names()[stage]), self.why(mark, since)?));
        let waits: Vec<String> = Marks::of(&history).iter().enumerate().filter_map(why).collect();
        if !waits.is_empty() {
            self.requests.push(OpenRequest { request, age, waits });
        }
    }

    /// What a stage waits for, unless that is another stage, or nothing.
    fn why(&mut self, mark: &Marks, since: impl Fn(usize) -> Duration) -> Option<String> {
        let said = |what: &str, place| format!(" {what} for {:.1} s", since(place).as_secs_f64());
        match *mark {
            Marks { claimed: Some(claimed), finished: None, settled, by, .. } => {
                self.running += 1;
                let what = settled.map_or("has run", |_| "is settled, and its function has run on");
                Some(format!("{}, on {}", said(what, claimed), caller(by)))
            }
            Marks { settled: Some(_), .. } => None,
            Marks { ready: Some(ready), claimed: None, .. } => {
                self.ready += 1;
                self.oldest_ready = self.oldest_ready.max(since(ready));
                Some(said("has been ready", ready))
            }
            Marks { promised: Some(promised), .. } => {
                self.promises += 1;
                Some(said("has waited to be settled", promised))
            }
            _ => None,
        }
    }
}

/// The upper bounds of buckets, in seconds.
const BOUNDS: [f64; 10] = [0.001, 0.005, 0.01, 0.05, 0.1, 0.5, 1.0, 5.0, 10.0, 60.0];

/// How many of what was counted took at most so long.
#[derive(Default)]
struct Histogram {
    counts: [u64; BOUNDS.len() + 1],
    sum: f64,
}

impl Histogram {
    fn add(&mut self, time: Duration) {
        let seconds = time.as_secs_f64();
        self.counts[BOUNDS.iter().take_while(|bound| **bound < seconds).count()] += 1;
        self.sum += seconds;
    }

    fn push_to(&self, text: &mut String, name: &str, help: &str) {
        push_head(text, name, help, "histogram");
        let mut up_to = 0;
        for (count, bound) in self.counts.iter().zip(BOUNDS.iter().map(f64::to_string).chain(["+Inf".to_owned()])) {
            up_to += count;
            let _ = writeln!(text, "cf_memory_{name}_bucket{{le=\"{bound}\"}} {up_to}");
        }
        let _ = write!(text, "cf_memory_{name}_sum {}\ncf_memory_{name}_count {up_to}\n", self.sum);
    }
}

/// What was counted of requests that are over.
#[derive(Default)]
struct Counts {
    requests: Histogram,
    functions: Histogram,
    queue: Histogram,
    waits: Histogram,
    failed: u64,
}

impl Counts {
    fn count(&mut self, history: &History) {
        let times: Vec<Duration> = history.times().collect();
        let between = |first: usize, second: usize| times[second].saturating_sub(times[first]);
        for mark in Marks::of(history) {
            if let Some(claimed) = mark.claimed {
                self.queue.add(between(mark.ready.unwrap_or(claimed), claimed));
            }
            if let (Some(claimed), Some(finished)) = (mark.claimed, mark.finished) {
                self.functions.add(between(claimed, finished));
            }
            if let (Some(promised), Some(settled)) = (mark.promised, mark.settled) {
                self.waits.add(between(promised, settled));
            }
        }
        self.requests.add(if times.is_empty() { Duration::ZERO } else { between(0, times.len() - 1) });
        self.failed += u64::from(history.has_failed());
    }

    fn push_to(&self, text: &mut String) {
        self.requests.push_to(text, "request_seconds", "How long requests took that are over, from the first to the last event.");
        self.functions.push_to(text, "function_seconds", "How long their functions ran.");
        self.queue.push_to(text, "queue_seconds", "How long their ready functions waited for a thread.");
        self.waits.push_to(text, "wait_seconds", "How long their promises were open.");
        push(text, "failed_requests_total", "Requests that are over, and failed: a stage for which no other one waits did.", "counter", self.failed);
    }
}

fn push_head(text: &mut String, name: &str, help: &str, kind: &str) {
    let _ = write!(text, "# HELP cf_memory_{name} {help}\n# TYPE cf_memory_{name} {kind}\n");
}

fn push(text: &mut String, name: &str, help: &str, kind: &str, value: impl Display) {
    push_head(text, name, help, kind);
    let _ = writeln!(text, "cf_memory_{name} {value}");
}
