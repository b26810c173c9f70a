//! Services whose clock and threads a test leads by hand, over rows in memory.
use crate::error::{Error, StoreError};
use crate::flow::Flow;
use crate::functions::Functions;
use crate::host::{Host, RealHost};
use crate::request::{Request, Stage};
use crate::service::{Options, PumpState, Service, ServiceCore, ServiceJob};
use crate::store::{Mark, Opened, Put, Store, Timer, WordCounts};
use crate::testing::Memory;
use crate::view::{RowView, WantedWord};
use cf_graph::{Answer, Call, Entry, Event};
use std::collections::{BTreeMap, VecDeque};
use std::sync::atomic::{AtomicBool, AtomicU32, Ordering::SeqCst};
use std::sync::{mpsc, Arc, Mutex};
use std::thread;
use std::time::{Duration, Instant};

const LEASE: Duration = Duration::from_secs(10);
/// How long a test waits for what comes soon.
const LONG: Duration = Duration::from_secs(20);

/// A moment that moves by hand.
#[derive(Clone)]
struct TestClock(Arc<Mutex<Instant>>);

impl TestClock {
    fn new() -> TestClock {
        TestClock(Arc::new(Mutex::new(Instant::now())))
    }

    fn now(&self) -> Instant {
        *self.0.lock().unwrap()
    }

    fn pass(&self, wait: Duration) {
        *self.0.lock().unwrap() += wait;
    }
}

/// A machine without threads: what they were to do waits for the test.
struct ByHand {
    clock: TestClock,
    session: u64,
    jobs: Mutex<VecDeque<ServiceJob>>,
    /// What was told that can't be done.
    told: Mutex<Vec<String>>,
}

impl Host for ByHand {
    fn now(&self) -> Instant {
        self.clock.now()
    }

    fn sleep(&self, wait: Duration) {
        self.clock.pass(wait);
    }

    fn random_bits(&self, _bits: u32) -> u64 {
        self.session
    }

    fn has_threads(&self) -> bool {
        false
    }

    fn take_job(&self, job: ServiceJob) -> Option<ServiceJob> {
        self.jobs.lock().unwrap().push_back(job);
        None
    }

    fn warn(&self, _tells: fn(&str), _request: &str, text: &str) {
        self.told.lock().unwrap().push(text.to_owned());
    }
}

/// A machine with threads, on which nobody has to sleep.
#[derive(Default)]
struct Hurried(Mutex<Duration>);

impl Host for Hurried {
    fn now(&self) -> Instant {
        Instant::now() + *self.0.lock().unwrap()
    }

    fn sleep(&self, wait: Duration) {
        *self.0.lock().unwrap() += wait;
    }
}

/// Is told of each call of a store, with what it puts, and may answer in its place; of a put behind it, too, as `appended`.
type OnCall = Arc<dyn Fn(&'static str, &[Entry]) -> Result<(), StoreError> + Send + Sync>;

/// A store in memory that tells of its calls.
struct TellingStore {
    memory: Arc<Memory>,
    called: OnCall,
}

macro_rules! told {
    ($(fn $name:ident($($arg:ident: $type:ty),*) -> $told:ty;)*) => {$(
        fn $name(&self, $($arg: $type),*) -> Result<$told, StoreError> {
            (self.called)(stringify!($name), &[])?;
            self.memory.$name($($arg),*)
        }
    )*};
}

impl Store for TellingStore {
    told! {
        fn open(name: &str, plan: &str) -> Opened;
        fn find(name: &str) -> Option<Opened>;
        fn read(name: &str, number: i64, at: usize) -> Vec<Entry>;
        fn payload(name: &str, number: i64, place: usize) -> Option<Vec<u8>>;
        fn news(since: Option<Mark>) -> (WordCounts, Mark);
        fn wait_for_change(wait: Duration) -> ();
        fn end(name: &str, number: i64, at: usize) -> bool;
        fn beat(session: u64) -> ();
        fn beats() -> BTreeMap<u64, i64>;
        fn drop_beat(session: u64) -> ();
        fn name_session(session: u64, name: &str) -> ();
        fn now() -> f64;
        fn set_timer(timer: &Timer) -> ();
        fn due_timers(now: f64) -> Vec<Timer>;
        fn drop_timer(timer: &Timer) -> ();
    }

    fn append(&self, put: Put<'_>) -> Result<Option<Vec<Entry>>, StoreError> {
        (self.called)("append", put.entries)?;
        let told = self.memory.append(put);
        (self.called)("appended", put.entries)?;
        told
    }
}

/// A service with its machine.
struct TestProcess {
    service: Service,
    host: Arc<ByHand>,
    looks: Mutex<PumpState>,
}

impl TestProcess {
    fn new(memory: &Arc<Memory>, clock: &TestClock, session: u64, threads: usize, functions: Functions, called: OnCall) -> TestProcess {
        let host = Arc::new(ByHand { clock: clock.clone(), session, jobs: Mutex::default(), told: Mutex::default() });
        let store = Arc::new(TellingStore { memory: Arc::clone(memory), called });
        let options = Options { threads, lease: LEASE, takes_all: true, warns: |_| {}, ..Options::default() };
        let service = Service::hosted(store, functions, options, Arc::clone(&host) as Arc<dyn Host>).unwrap();
        TestProcess { service, host, looks: Mutex::new(PumpState::new(clock.now())) }
    }

    /// A turn of its pump, and what its threads do then.
    fn turn(&self) {
        self.look();
        self.work();
    }

    fn look(&self) {
        self.service.shared.pump_round(&mut self.looks.lock().unwrap()).unwrap();
    }

    fn work(&self) {
        loop {
            let Some(job) = self.host.jobs.lock().unwrap().pop_front() else { return };
            self.service.shared.do_job(&job);
        }
    }
}

fn silent() -> OnCall {
    Arc::new(|_, _| Ok(()))
}

#[test]
fn who_starts_over_many_requests_beats() {
    let (memory, clock) = (Arc::new(Memory::default()), TestClock::new());
    let plan = Flow::default().plan_text(&Functions::new()).unwrap();
    for number in 0..40 {
        memory.open(&format!("request {number}"), &plan).unwrap();
    }
    let (last, longest) = (Arc::new(Mutex::new(clock.now())), Arc::new(Mutex::new(Duration::ZERO)));
    let (reads, its_longest) = (clock.clone(), Arc::clone(&longest));
    let called = move |call, _: &[Entry]| {
        match call {
            "read" => reads.pass(Duration::from_secs(1)),
            "beat" => {
                let now = reads.now();
                let before = std::mem::replace(&mut *last.lock().unwrap(), now);
                let mut longest = its_longest.lock().unwrap();
                *longest = (*longest).max(now - before);
            }
            _ => {}
        }
        Ok(())
    };
    let process = TestProcess::new(&memory, &clock, 1, 1, Functions::new(), Arc::new(called));
    let began = clock.now();
    process.turn();
    assert!(clock.now() - began >= Duration::from_secs(40), "each row was read, which took a second");
    assert_eq!(*longest.lock().unwrap(), LEASE / 5, "of beats");
}

#[test]
fn what_is_there_before_it_is_known_is_begun_at_once() {
    let (memory, clock) = (Arc::new(Memory::default()), TestClock::new());
    let functions = || Functions::new().with("seven", 1, || Ok::<_, String>(7));
    let asks = TestProcess::new(&memory, &clock, 1, 0, functions(), silent());
    let works = TestProcess::new(&memory, &clock, 2, 1, functions(), silent());
    works.turn(); // (no other beat is due as long as the clock stands)
    let begun = asks.service.request("r").unwrap().supply("seven", &[]).unwrap();
    works.turn();
    asks.turn();
    assert_eq!(begun.peek::<i64>(), Ok(Some(7)));
}

#[test]
fn who_stops_beats_until_its_functions_have_ended() {
    let ((beats, beaten), (begun, begins), (goes, go)) = (mpsc::channel(), mpsc::channel(), mpsc::channel());
    let (beats, begun, go) = (Mutex::new(beats), Mutex::new(begun), Mutex::new(go));
    let called = move |call: &str, _: &[Entry]| {
        if call == "beat" {
            let _nobody_counts = beats.lock().unwrap().send(());
        }
        Ok(())
    };
    let slow = move || {
        begun.lock().unwrap().send(()).unwrap();
        go.lock().unwrap().recv_timeout(LONG).map(|()| 7)
    };
    let options = Options { lease: Duration::from_millis(50), ..Options::default() };
    let store = Arc::new(TellingStore { memory: Arc::default(), called: Arc::new(called) });
    let service = Service::hosted(store, Functions::new().with("slow", 1, slow), options, Arc::new(RealHost)).unwrap();
    let shared = Arc::clone(&service.shared);
    service.request("r").unwrap().supply("slow", &[]).unwrap();
    begins.recv_timeout(LONG).unwrap();
    let stops = thread::spawn(move || drop(service));
    while !shared.is_stopping() {
        thread::yield_now();
    }
    beaten.try_iter().for_each(drop);
    for _ in 0..3 {
        beaten.recv_timeout(LONG).expect("it is there as long as its function runs");
    }
    goes.send(()).unwrap();
    stops.join().unwrap();
}

#[test]
fn a_further_try_takes_what_an_earlier_one_has_attached() {
    let (memory, clock) = (Arc::new(Memory::default()), TestClock::new());
    let watches = Arc::new(TestProcess::new(&memory, &clock, 1, 0, Functions::new(), silent()));
    let functions = |stops: Option<Arc<TestProcess>>| {
        let ticks = clock.clone();
        let loads = move |request: &Request, number: i64| {
            let loaded = request.supply("inc", &[number.into()])?;
            for watcher in stops.iter().flat_map(|it| [it; 6]) {
                ticks.pass(LEASE / 4);
                watcher.turn();
            }
            loaded.then("inc")
        };
        Functions::new().with("inc", 1, |number: i64| Ok::<_, String>(number + 1)).composing("loads", 1, loads)
    };
    let stops = TestProcess::new(&memory, &clock, 2, 1, functions(Some(Arc::clone(&watches))), silent());
    let request = stops.service.request("r").unwrap();
    let number = request.promise("number").unwrap();
    let last = number.compose("loads").unwrap().again(2).unwrap();
    let behind_it = last.again(1).unwrap();
    assert!(number.complete(&1).unwrap());
    watches.turn();
    stops.work();
    assert_eq!(names(&request, "inc"), 1, "it was taken for gone, and attaches nothing any more");
    let works = TestProcess::new(&memory, &clock, 3, 1, functions(None), silent());
    works.turn();
    let request = works.service.open("r").unwrap();
    works.work();
    for stage in [last, behind_it] {
        assert_eq!(request.stage(stage.number()).unwrap().peek::<i64>(), Ok(Some(3)));
    }
    assert_eq!(names(&request, "inc"), 2, "what was attached before isn't attached once more");
}

/// How many stages have this name.
fn names(request: &Request, name: &str) -> usize {
    (0..).map_while(|number| request.stage(number)).filter(|stage| stage.name().unwrap() == name).count()
}

#[test]
fn who_stops_puts_a_value_for_a_minute() {
    const SECOND: Duration = Duration::from_secs(1);
    // What becomes of its finish from when on (from its function's end on) until when (from the stop on), and when it stops; whether the value stands.
    let (unknown, refused) = (StoreError::Unknown("away".into()), StoreError::Refused("away".into()));
    let rows = [
        (unknown.clone(), 0, 50, true),
        (unknown.clone(), 59, 50, true),
        (unknown.clone(), 1000, 50, true),
        (unknown, 59, 10_000, false),
        (refused.clone(), 0, 50, true),
        (refused.clone(), 1000, 50, true),
        (refused, 59, 10_000, false),
    ];
    for (answer, stops, ends, is_kept) in rows {
        let (clock, shared) = (TestClock::new(), Arc::new(Mutex::new(None::<Arc<ServiceCore>>)));
        let (time, its, begun) = (clock.clone(), Arc::clone(&shared), Mutex::new(None));
        let said = answer.clone();
        let called = move |call: &str, entries: &[Entry]| {
            let finishes = |entry: &Entry| matches!(Event::from_word(entry.word).unwrap().call, Call::Finish(..));
            let is_its = call == "append" && entries.iter().any(finishes);
            let (now, mut begun) = (time.now(), begun.lock().unwrap());
            if !is_its && (call != "beat" || begun.is_none()) {
                return Ok(());
            }
            let stop = *begun.get_or_insert(now) + stops * SECOND;
            let its = its.lock().unwrap();
            let its = its.as_ref().unwrap();
            if now >= stop && !its.is_stopping() {
                its.stop();
            }
            if now < stop + ends * SECOND {
                return Err(said.clone());
            }
            Ok(())
        };
        let memory = Arc::new(Memory::default());
        let process = TestProcess::new(&memory, &clock, 1, 1, Functions::new().with("seven", 1, || Ok::<_, String>(7)), Arc::new(called));
        *shared.lock().unwrap() = Some(Arc::clone(&process.service.shared));
        process.service.request("r").unwrap().supply("seven", &[]).unwrap();
        let began = clock.now();
        process.work();
        let took = clock.now() - began;
        assert!(took <= (stops + 150) * SECOND, "{answer} at {stops}, and it ends {took:?} later");
        let other = TestProcess::new(&memory, &clock, 2, 0, Functions::new(), silent());
        let stands = other.service.open("r").unwrap().stage(0).unwrap().peek::<i64>();
        assert_eq!(stands, Ok(is_kept.then_some(7)), "{answer} at {stops} until {ends}");
        let lost = "request \"r\": stage 0: what its function came to is lost: ";
        let is_told = process.host.told.lock().unwrap().iter().any(|it| it.starts_with(lost));
        assert_eq!(is_told, !is_kept, "{answer} at {stops} until {ends}");
    }
}

/// A flow's request whose one stage is open, and the service that has begun it.
fn begun(memory: &Arc<Memory>, clock: &TestClock, called: OnCall) -> (Stage, TestProcess) {
    let process = TestProcess::new(memory, clock, 1, 0, Functions::new(), called);
    let mut flow = Flow::new("one");
    let step = flow.promise("p");
    let stage = process.service.start(&flow, "r", &[]).unwrap().step(step).unwrap();
    process.turn();
    (stage, process)
}

/// Completes that stage in another process, which closes the request.
fn completed_elsewhere(memory: &Arc<Memory>, clock: &TestClock) {
    let other = TestProcess::new(memory, clock, 2, 0, Functions::new(), silent());
    assert!(other.service.open("r").unwrap().stage(0).unwrap().complete(&7).unwrap());
    other.work();
    assert!(!memory.is_open("r"));
}

#[test]
fn who_waits_is_told_of_the_last_word_of_a_request_that_was_closed() {
    let (memory, clock) = (Arc::new(Memory::default()), TestClock::new());
    let (stage, process) = begun(&memory, &clock, silent());
    completed_elsewhere(&memory, &clock);
    process.look();
    let jobs = || process.host.jobs.lock().unwrap().len();
    assert_eq!(jobs(), 1, "without a look at all that is open");
    clock.pass(LEASE);
    process.look();
    assert_eq!(jobs(), 1, "one thread reads it");
    process.work();
    assert_eq!(stage.peek(), Ok(Some(7)));
    // and again, once it was let go
    let other = TestProcess::new(&memory, &clock, 3, 0, Functions::new(), silent());
    let late = other.service.open("r").unwrap().promise("late").unwrap();
    process.turn();
    let waits = process.service.open("r").unwrap().stage(1).unwrap();
    assert!(late.complete(&8).unwrap());
    other.work();
    assert!(!memory.is_open("r"));
    process.turn();
    assert_eq!(waits.peek(), Ok(Some(8)));
    // and where it was let go before it was opened and closed again
    let later = other.service.open("r").unwrap().promise("later").unwrap();
    assert!(later.complete(&9).unwrap());
    other.work();
    assert!(!memory.is_open("r"));
    process.turn();
    assert_eq!(waits.request.stage(2).unwrap().peek(), Ok(Some(9)));
}

#[test]
fn what_others_have_put_is_read_when_asked_for() {
    let (memory, clock) = (Arc::new(Memory::default()), TestClock::new());
    let (stage, _process) = begun(&memory, &clock, silent());
    let other = TestProcess::new(&memory, &clock, 2, 0, Functions::new(), silent());
    other.service.open("r").unwrap().promise("late").unwrap();
    assert!(stage.request.stage(1).is_none());
    stage.request.refresh().unwrap();
    assert!(stage.request.stage(1).is_some());
}

#[test]
fn a_request_that_goes_on_as_it_is_let_go() {
    let (memory, clock) = (Arc::new(Memory::default()), TestClock::new());
    let (stage, process) = begun(&memory, &clock, silent());
    completed_elsewhere(&memory, &clock);
    process.look(); // it sees that the request is closed
    stage.request.promise("late").unwrap();
    drop(stage);
    process.work();
    assert!(process.service.shared.request_as_kept("r").is_some(), "it goes on with what was opened again meanwhile");
    let (memory, clock) = (Arc::new(Memory::default()), TestClock::new());
    let (stage, process) = begun(&memory, &clock, silent());
    completed_elsewhere(&memory, &clock);
    process.turn();
    drop(stage);
    assert!(process.service.shared.request_as_kept("r").is_none(), "it forgets what is closed");
}

#[test]
fn an_attach_that_the_store_is_silent_about() {
    let (memory, clock) = (Arc::new(Memory::default()), TestClock::new());
    let is_silent = Arc::new(AtomicBool::new(false));
    let says = Arc::clone(&is_silent);
    let called = move |call: &str, _: &[Entry]| {
        if call == "appended" && says.load(SeqCst) {
            return Err(StoreError::Unknown("silent".into()));
        }
        Ok(())
    };
    let (stage, process) = begun(&memory, &clock, Arc::new(called));
    completed_elsewhere(&memory, &clock);
    process.turn();
    is_silent.store(true, SeqCst);
    assert_eq!(stage.request.promise("late").map(|_| ()), Err(StoreError::Unknown("silent".into())));
    drop(stage);
    assert_eq!(process.service.shared.open_requests().len(), 1, "it may stand, so the service works on it");
    is_silent.store(false, SeqCst);
    process.turn();
    let late = process.service.open("r").unwrap().stage(1).unwrap();
    assert!(late.complete(&1).unwrap());
}

/// A stage of a service with threads, which another one has completed with 7, and that service. Its store is told of calls.
fn completed(called: OnCall) -> (Stage, Service) {
    let memory = Arc::new(Memory::default());
    let other = TestProcess::new(&memory, &TestClock::new(), 1, 0, Functions::new(), silent());
    assert!(other.service.request("r").unwrap().promise("p").unwrap().complete(&7).unwrap());
    let options = Options { threads: 1, warns: |_| {}, ..Options::default() };
    let service = Service::hosted(Arc::new(TellingStore { memory, called }), Functions::new(), options, Arc::new(Hurried::default())).unwrap();
    (service.open("r").unwrap().stage(0).unwrap(), service)
}

/// What comes of something on a thread of its own, which has to come soon.
fn soon<T: Send + 'static>(act: impl FnOnce() -> T + Send + 'static) -> T {
    let (gives, gets) = mpsc::channel();
    thread::spawn(move || gives.send(act()));
    gets.recv_timeout(LONG).expect("it comes soon")
}

#[test]
fn a_payload_is_shown_once_it_can_be_read() {
    let is_silent = Arc::new(AtomicBool::new(true));
    let (says, (asks, asked)) = (Arc::clone(&is_silent), mpsc::channel());
    let called = move |call: &str, _: &[Entry]| {
        if call == "payload" && says.load(SeqCst) {
            let _nobody_counts = asks.send(());
            return Err(StoreError::Unknown("silent".into()));
        }
        Ok(())
    };
    let asks = Mutex::new(called);
    let (stage, _service) = completed(Arc::new(move |call, entries| asks.lock().unwrap()(call, entries)));
    for ask in [Stage::peek::<i64>, |stage: &Stage| stage.wait_timeout(Duration::from_millis(1))] {
        assert_eq!(ask(&stage), Ok(None), "its value can't be read");
    }
    let waits = stage.clone();
    let (gives, gets) = mpsc::channel();
    thread::spawn(move || gives.send(waits.wait::<i64>()));
    for _ in 0..3 {
        asked.recv_timeout(LONG).expect("it is asked for again");
    }
    is_silent.store(false, SeqCst);
    assert_eq!(gets.recv_timeout(LONG).expect("the wait goes on"), Ok(7));
    assert_eq!(stage.peek(), Ok(Some(7)));
}

#[test]
fn a_wait_keeps_its_limit_whoever_hangs() {
    let gate = Arc::new(Mutex::new(()));
    let its = Arc::clone(&gate);
    let called = move |call: &str, _: &[Entry]| {
        if call == "payload" {
            drop(its.lock().unwrap());
        }
        Ok(())
    };
    let (stage, _service) = completed(Arc::new(called));
    let ask = |stage: &Stage| {
        let (peeks, waits) = (stage.clone(), stage.clone());
        (soon(move || peeks.peek::<i64>()), soon(move || waits.wait_timeout::<i64>(Duration::from_millis(1))))
    };
    let hangs = gate.lock().unwrap();
    assert_eq!(ask(&stage), (Ok(None), Ok(None)), "the store hangs");
    drop(hangs);
    let view = stage.request.inner.view();
    assert_eq!(ask(&stage), (Ok(None), Ok(None)), "another thread has the view");
    drop(view);
    assert_eq!(soon(move || stage.wait_timeout::<i64>(Duration::from_secs(60))), Ok(Some(7)));
}

#[test]
fn a_put_whose_answer_was_lost_is_told_what_it_did_and_no_more() {
    let (memory, clock) = (Arc::new(Memory::default()), TestClock::new());
    let other = TestProcess::new(&memory, &clock, 2, 0, Functions::new(), silent());
    let is_lost = Arc::new(AtomicBool::new(false));
    let loses = Arc::clone(&is_lost);
    let called = move |call: &str, _: &[Entry]| {
        if call == "appended" && loses.swap(false, SeqCst) {
            other.service.open("r").unwrap().promise("another's").unwrap(); // (behind it, before it is asked for again)
            return Err(StoreError::Unknown("no answer".into()));
        }
        Ok(())
    };
    let process = TestProcess::new(&memory, &clock, 1, 0, Functions::new(), Arc::new(called));
    let request = process.service.request("r").unwrap();
    is_lost.store(true, SeqCst);
    let own = request.promise("own").unwrap();
    assert_eq!((own.number(), own.name().unwrap()), (0, "own".into()));
    assert_eq!(request.stage(1).unwrap().name().unwrap(), "another's");
}

#[test]
fn a_stage_that_ends_as_one_that_is_not_there() {
    let functions = Functions::new().composing("gives", 1, |request: &Request, _: i64| request.promise("p"));
    let process = TestProcess::new(&Arc::default(), &TestClock::new(), 1, 0, functions, silent());
    let request = process.service.request("r").unwrap();
    let number = request.promise("number").unwrap();
    let stage = number.compose("gives").unwrap();
    assert!(number.complete(&1).unwrap());
    let (composes, promise) = (stage.number(), stage.number() - 1);
    request.inner.put_words(|_| Ok(vec![WantedWord { call: Call::Claim(composes), payload: None }])).unwrap();
    let said = format!("{{\"stage\":{}}}", composes + 1).into_bytes();
    let links = |view: &mut RowView| Ok(view.finish_word(composes, Answer::Link(promise), Some(said.clone()))?.into_iter().collect());
    request.inner.put_words(links).unwrap();
    process.turn();
    assert!(matches!(stage.peek::<i64>(), Err(Error::Store(StoreError::Broken { .. }))), "the row names a stage that isn't there");
}

#[test]
fn what_goes_wrong_in_a_look_is_told() {
    static TOLD: AtomicU32 = AtomicU32::new(0);
    let left = AtomicU32::new(1);
    let called = move |call: &str, _: &[Entry]| match call {
        "due_timers" if left.swap(0, SeqCst) > 0 => Err(StoreError::Unknown("no answer".into())),
        _ => Ok(()),
    };
    let tells = |text: &str| {
        TOLD.fetch_add(u32::from(text == "the store doesn't answer: no answer"), SeqCst);
    };
    let options = Options { warns: tells, ..Options::default() };
    let store = Arc::new(TellingStore { memory: Arc::default(), called: Arc::new(called) });
    let _service = Service::hosted(store, Functions::new(), options, Arc::new(RealHost)).unwrap();
    let until = Instant::now() + LONG;
    while TOLD.load(SeqCst) == 0 {
        assert!(Instant::now() < until);
        thread::yield_now();
    }
}
