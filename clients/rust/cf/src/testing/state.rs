//! What a run consists of, and what its moves touch.
//!
//! What happened to requests isn't told by anybody: behind each move their machines are asked for the words that came, with what these were
//! answered and settled, and for what is ready ([`State::scan_requests`]).
use super::carrier::Carrier;
use super::footprint::{Access, Dependents, Footprint, Thing};
use super::moves::{Place, Who};
use super::stored::Sharing;
use crate::core::Core;
use crate::error::Error;
use crate::ledger::{replay, How, Joined, Replayed};
use crate::task::Polling;
use crate::value::{CallArgs, Returned, StageFn, Val};
use crate::word::{self, ATTACH, CLAIM, FINISH, LINKS};
use cf_graph::{Finished, Reply};
use std::collections::{BTreeMap, BTreeSet, VecDeque};
use std::sync::Arc;
use std::time::Duration;

/// How runs go.
#[derive(Clone, Copy, Debug)]
pub(crate) struct Settings {
    /// How many functions may go on at a time; 0 is any number.
    pub(crate) workers: usize,
    /// Limits need not pass, and those of settled stages pass like others, as `cf_look explore` has it.
    pub(crate) free_clock: bool,
    /// A function lets others go on at each change that it makes.
    pub(crate) fine: bool,
    /// What comes to the same is left out.
    pub(crate) reduce: bool,
    /// What a function panics with is its stage's error, and no fault.
    pub(crate) panics: bool,
    /// Functions are called on threads of their own, since one waits.
    pub(crate) has_threads: bool,
}

/// A request of the run.
pub(crate) struct OpenedRequest {
    pub(crate) core: Arc<Core>,
    /// Whether something was done to it since it was looked at.
    pub(crate) is_dirty: bool,
    pub(crate) ready: Vec<u16>,
    /// The moment of its clock, in nanoseconds.
    pub(crate) now: u64,
    pub(crate) timers_made: u32,
    /// How many events and joins were looked at.
    seen: (usize, usize),
}

/// What may come from outside.
pub(crate) struct Arrival {
    pub(crate) core: Arc<Core>,
    pub(crate) place: Place,
    pub(crate) ways: Vec<Way>,
    pub(crate) is_never: bool,
}

#[derive(Clone)]
pub(crate) enum Way {
    Value(Val),
    Error(Error),
    Never,
}

/// Another caller, and the calls that it has yet to make.
pub(crate) struct OtherCaller {
    pub(crate) name: String,
    pub(crate) calls: VecDeque<(Box<dyn FnOnce() + Send>, bool)>,
    pub(crate) called: u16,
    pub(crate) all: u16,
}

/// What has to hold, and what holds then.
pub(crate) struct Check {
    pub(crate) text: String,
    pub(crate) holds: Box<dyn FnMut() -> bool + Send>,
}

/// A function that goes on: that of a stage, a caller's call, or the test itself.
pub(crate) struct Flight {
    pub(crate) name: String,
    /// The claim of a stage's function.
    pub(crate) claim: Option<Claim>,
    pub(crate) wait: Option<Wait>,
    /// Tells its waits apart.
    pub(crate) waits: u32,
    /// The time for which it waits is over.
    pub(crate) is_late: bool,
    pub(crate) chosen: u16,
    pub(crate) carrier: Option<Arc<Carrier>>,
    /// What it shares with others, with each move.
    pub(crate) shares: Vec<Thing>,
}

pub(crate) struct Claim {
    pub(crate) who: u8,
    pub(crate) call: Option<(StageFn, CallArgs)>,
    /// What the function gave.
    pub(crate) gave: Option<Returned>,
    /// It gave a future, which was woken.
    pub(crate) woken: Option<Arc<Polling>>,
}

/// What a flight waits for.
pub(crate) struct Wait {
    pub(crate) name: String,
    pub(crate) until: Until,
}

pub(crate) enum Until {
    Settled(Arc<Core>, Place),
    /// Its turn.
    Now,
    /// One of these ways is chosen.
    Chosen(Vec<String>),
    /// The store answers in one of the ways that are possible, for the so-manyth time.
    Asks(u32, Box<dyn Fn() -> Vec<u16> + Send>),
    /// Something of the store is so.
    So(Box<dyn Fn() -> bool + Send>),
}

impl Wait {
    pub(crate) fn is_over(&self) -> bool {
        match &self.until {
            Until::Settled(core, place) => core.lock().slot(place.stage).is_settled(),
            Until::Now => true,
            Until::So(is_so) => is_so(),
            Until::Chosen(_) | Until::Asks(..) => false,
        }
    }
}

/// What is due.
pub(crate) struct WorldTimer {
    pub(crate) due: u64,
    pub(crate) number: u32,
    pub(crate) place: Place,
    pub(crate) rings: Rings,
}

pub(crate) enum Rings {
    /// The limit of a stage.
    Limit,
    /// The wait of a flight, which is the so-manyth of it, and how long it is.
    Wait(Who, u32, Duration),
}

/// Something that the test gave back: says what it is called, where it isn't settled.
pub(crate) type NotSettled = Box<dyn Fn() -> Option<String> + Send>;

pub(crate) struct State {
    pub(crate) settings: Settings,
    pub(crate) requests: Vec<OpenedRequest>,
    pub(crate) flights: Vec<(Who, Flight)>,
    pub(crate) outside: Vec<Arrival>,
    pub(crate) callers: Vec<OtherCaller>,
    pub(crate) timers: Vec<WorldTimer>,
    /// The stages of timers that passed, or that nobody wants any more.
    pub(crate) passed: Vec<Place>,
    pub(crate) checks: Vec<Check>,
    pub(crate) at_end: Vec<Check>,
    /// What the end is.
    pub(crate) end: Option<Box<dyn FnOnce() -> String + Send>>,
    pub(crate) awaited: Vec<NotSettled>,
    /// What functions share that were marked.
    pub(crate) marks: BTreeMap<Place, Vec<&'static str>>,
    /// In how many ways workers could have been chosen.
    pub(crate) weight: u128,
    /// It fails.
    pub(crate) why: String,
    pub(crate) needs_threads: bool,
    pub(crate) is_stopped: bool,
    /// Nothing comes any more.
    pub(crate) is_over: bool,
    /// Nobody looks any more.
    pub(crate) is_closed: bool,
    pub(crate) footprint: Option<Footprint>,
    /// What the last move settled.
    pub(crate) settled: Vec<Place>,
    /// A store, and the processes that share it.
    pub(crate) sharing: Option<Arc<dyn Sharing>>,
    /// What threads of killed processes had begun.
    pub(crate) dead: Vec<Flight>,
    behind: Dependents,
    /// Relays of stages, also those that were let go.
    relays: BTreeMap<Place, Vec<Place>>,
    are_settled: BTreeSet<Place>,
}

impl State {
    pub(crate) fn new(settings: Settings) -> State {
        State {
            settings,
            requests: Vec::new(),
            flights: Vec::new(),
            outside: Vec::new(),
            callers: Vec::new(),
            timers: Vec::new(),
            passed: Vec::new(),
            checks: Vec::new(),
            at_end: Vec::new(),
            end: None,
            awaited: Vec::new(),
            marks: BTreeMap::new(),
            weight: 1,
            why: String::new(),
            needs_threads: false,
            is_stopped: false,
            is_over: false,
            is_closed: false,
            footprint: None,
            settled: Vec::new(),
            sharing: None,
            dead: Vec::new(),
            behind: Dependents::default(),
            relays: BTreeMap::new(),
            are_settled: BTreeSet::new(),
        }
    }

    /// This move touches a thing.
    pub(crate) fn touch(&mut self, thing: Thing, how: Access) {
        if let Some(footprint) = &mut self.footprint {
            footprint.touch(thing, how);
        }
    }

    /// This order fails.
    pub(crate) fn fail(&mut self, why: impl Into<String>) {
        if self.why.is_empty() {
            self.why = why.into();
        }
    }

    pub(crate) fn add_request(&mut self, core: Arc<Core>) {
        self.touch(Thing::Open, Access::Changes);
        self.requests.push(OpenedRequest { core, is_dirty: false, ready: Vec::new(), now: 0, timers_made: 0, seen: (0, 0) });
    }

    pub(crate) fn request(&mut self, number: u16) -> &mut OpenedRequest {
        &mut self.requests[usize::from(number)]
    }

    pub(crate) fn flight(&mut self, who: Who) -> Option<&mut Flight> {
        self.flights.iter_mut().find(|it| it.0 == who).map(|it| &mut it.1)
    }

    pub(crate) fn take_flight(&mut self, who: Who) -> Option<Flight> {
        let at = self.flights.iter().position(|it| it.0 == who)?;
        Some(self.flights.remove(at).1)
    }

    /// What a stage's function shares with others.
    pub(crate) fn shares(&self, place: Place) -> Vec<Thing> {
        let marks = self.marks.get(&place);
        marks.map_or_else(|| vec![Thing::User], |names| names.iter().map(|name| Thing::Named(name)).collect())
    }

    pub(crate) fn add_timer(&mut self, place: Place, wait: Duration, rings: Rings) {
        self.touch(Thing::Clock(place.request), Access::Changes);
        let request = self.request(place.request);
        request.timers_made += 1;
        let (due, number) = (request.now.saturating_add(u64::try_from(wait.as_nanos()).unwrap_or(u64::MAX)), request.timers_made);
        self.timers.push(WorldTimer { due, number, place, rings });
    }

    /// Whether nobody wants a timer any more.
    pub(crate) fn is_lost(&self, timer: &WorldTimer) -> bool {
        match &timer.rings {
            Rings::Limit => self.requests[usize::from(timer.place.request)].core.lock().slot(timer.place.stage).is_settled(),
            Rings::Wait(who, waits, _) => {
                let flight = self.flights.iter().find(|it| it.0 == *who).map(|it| &it.1);
                flight.map_or(true, |flight| flight.waits != *waits || flight.wait.as_ref().map_or(true, Wait::is_over))
            }
        }
    }

    /// A relay stands for a stage of another request.
    pub(crate) fn note_link(&mut self, relay: Place, of: Place) {
        self.relays.entry(of).or_default().push(relay);
    }

    /// Looks at what was done to requests since it was looked: what that touches, and what is ready.
    pub(crate) fn scan_requests(&mut self) {
        for number in 0..self.requests.len() {
            if std::mem::take(&mut self.requests[number].is_dirty) {
                self.scan_request(number as u16);
            }
        }
    }

    fn scan_request(&mut self, number: u16) {
        let (events, joins) = self.request(number).seen;
        let core = Arc::clone(&self.request(number).core);
        let mut inner = core.lock();
        let words = inner.ledger.words();
        let stages = inner.slots.len() as u16;
        let joined = inner.ledger.joins[joins..].to_vec();
        let ready: Vec<u16> = std::iter::successors(inner.ledger.lowest_ready(0), |stage| inner.ledger.lowest_ready(stage + 1)).collect();
        drop(inner);
        self.request(number).seen = (words.len(), joins + joined.len());
        for Joined { stage, of, how } in joined {
            let stage = Place::new(number, stage);
            for other in of.into_iter().map(|other| Place::new(number, other)) {
                if how == How::Follows {
                    self.note_link(stage, other);
                } else {
                    self.behind.add(stage, other);
                    self.touch(Thing::Stage(other), Access::Reads);
                }
            }
        }
        let mut news = Vec::new();
        let replies = if words.len() > events { replay(&words, stages).expect("memory for a ledger") } else { Vec::new() };
        for Replayed { word, reply, settled, .. } in replies.into_iter().skip(events) {
            self.note_consequences(&std::mem::take(&mut news));
            self.note_event(number, word, reply, &mut news);
            for (stage, _) in settled {
                let place = Place::new(number, stage);
                self.are_settled.insert(place);
                self.settled.push(place);
                news.push(place);
            }
        }
        let before = std::mem::replace(&mut self.request(number).ready, ready.clone());
        news.extend(ready.into_iter().filter(|stage| !before.contains(stage)).map(|stage| Place::new(number, stage)));
        self.note_consequences(&news);
    }

    /// What an event touches.
    fn note_event(&mut self, number: u16, word: u64, reply: Reply, news: &mut Vec<Place>) {
        let parts = word::decode(word);
        let place = Place::new(number, parts.stage);
        match (parts.kind, reply) {
            (ATTACH, Reply::Attached(Some(stage))) => {
                let stage = Place::new(number, stage);
                for of in parts.attach_parts().1 {
                    let of = Place::new(number, of);
                    self.behind.add(stage, of);
                    self.touch(Thing::Stage(of), Access::Reads);
                }
                self.touch(Thing::Attach(number), Access::Changes);
                self.touch(Thing::Stage(stage), Access::Changes);
            }
            (CLAIM, _) => self.touch(Thing::Stage(place), Access::Changes),
            (FINISH, _) => {
                self.touch(Thing::Stage(place), Access::Changes);
                if parts.tag == LINKS && reply == Reply::Finished(Finished::Won) {
                    let target = Place::new(number, parts.low as u16);
                    self.behind.add(place, target);
                    self.touch(Thing::Stage(target), Access::Reads);
                    news.push(place);
                }
                self.note_dropped(place);
            }
            (_, reply) => self.touch(Thing::Stage(place), if reply == Reply::Flag(true) { Access::Changes } else { Access::Reads }),
        }
    }

    /// A claim is finished. A future whose stage was settled otherwise was dropped then, with what it has.
    fn note_dropped(&mut self, place: Place) {
        if let Some(flight) = self.take_flight(Who::Function(place)) {
            flight.shares.iter().for_each(|thing| self.touch(*thing, Access::Changes));
        }
    }

    /// What is touched by what changed: what stands behind it, and relays, which it would settle.
    fn note_consequences(&mut self, news: &[Place]) {
        if self.footprint.is_none() || news.is_empty() {
            return;
        }
        let mut touched: Vec<(Place, Access)> = news.iter().map(|place| (*place, Access::Changes)).collect();
        self.behind.reach(news, |place| self.are_settled.contains(&place), |place, how| touched.push((place, how)));
        touched.extend(news.iter().flat_map(|place| self.relays.get(place).into_iter().flatten()).map(|relay| (*relay, Access::Reads)));
        touched.into_iter().for_each(|(place, how)| self.touch(Thing::Stage(place), how));
    }
}
