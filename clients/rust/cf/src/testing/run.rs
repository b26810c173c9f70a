//! One run of a test, of which a search chooses each move: it says which may be next ([`Run::moves`]), and makes one ([`Run::make`]).
//!
//! What may differ from run to run is small and known: which ready function is claimed, called or finished next, which future that was woken is
//! polled, what comes from outside, what another caller does, which limit passes. Each is a move; what it leads to in the graph, and all that the
//! code does that it runs, belongs to it.
use super::carrier::{Act, Carriers, LeavePanic};
use super::footprint::{Access, Footprint, Thing};
use super::moves::{Move, Place, StoreMove, Who};
use super::state::{Check, Claim, Flight, Rings, Settings, State, Until, Wait, Way};
use super::stored::StoredHistory;
use super::watch::Here;
use super::world::World;
use crate::core::Core;
use crate::describe::escape_text;
use crate::error::{Error, Panic};
use crate::history::History;
use crate::spawn::{as_caller, mark_running, set_called, swallow_panic, Payload, CALLER, FIRST_WORKER};
use crate::task::Polling;
use crate::value::{CallArgs, Returned};
use std::collections::BTreeSet;
use std::panic::{catch_unwind, AssertUnwindSafe};
use std::sync::{Arc, Mutex, MutexGuard, PoisonError};

/// A test, and what it gave back.
pub(crate) type Test = Arc<dyn Fn(&World) -> Vec<super::state::NotSettled> + Send + Sync>;

/// The order ends here: it fails, or is to be begun again with threads, as the state says.
pub(crate) struct Stopped;

/// What is left of a run that has ended.
pub(crate) struct RunRemains {
    /// In the order in which they were opened.
    pub(crate) requests: Vec<Arc<Core>>,
    /// The words of a store's requests.
    pub(crate) words: Vec<Vec<u64>>,
    /// The histories of a store's requests, if the run has failed.
    pub(crate) stored: Vec<Arc<dyn StoredHistory>>,
}

/// How many workers histories tell apart.
const NUMBERS: usize = 60;

pub(crate) struct Run {
    state: Mutex<State>,
}

impl Run {
    pub(crate) fn new(settings: Settings) -> Arc<Run> {
        Arc::new(Run { state: Mutex::new(State::new(settings)) })
    }

    pub(crate) fn lock(&self) -> MutexGuard<'_, State> {
        self.state.lock().unwrap_or_else(PoisonError::into_inner)
    }

    /// What tells its executor from others.
    pub(crate) fn id(self: &Arc<Run>) -> usize {
        Arc::as_ptr(self) as usize
    }

    // What may come next.

    /// The moves that are possible, in an order that the same row always has.
    pub(crate) fn moves(&self) -> Vec<Move> {
        let mut guard = self.lock();
        let state = &mut *guard;
        let mut keys = Vec::new();
        state.flights.iter().for_each(|(who, flight)| push_next_moves(*who, flight, &mut keys));
        if free_workers(state) > 0 {
            for (number, request) in (0..).zip(&state.requests) {
                keys.extend(request.ready.iter().map(|stage| Move::Begin(Place::new(number, *stage))));
            }
        }
        for (number, arrival) in (0..).zip(&state.outside) {
            if !arrival.is_never && !arrival.core.lock().slot(arrival.place.stage).is_settled() {
                keys.extend((0..arrival.ways.len() as u16).map(|way| Move::Come(number, way)));
            }
        }
        for (number, caller) in (0..).zip(&state.callers) {
            if !caller.calls.is_empty() && !state.flights.iter().any(|it| it.0 == Who::Caller(number)) {
                keys.push(Move::By(number, caller.called));
            }
        }
        let (limits, settings, is_shared) = (next_limits(state), state.settings, state.sharing.is_some());
        drop(guard);
        keys.extend(&limits);
        if is_shared {
            let stored = self.stored_moves(keys.is_empty());
            keys.extend(stored.into_iter().map(Move::Stored));
        }
        let are_limits_alone = keys.len() == limits.len();
        // It may be at any moment that no limit passes any more, and comes to the same at the end; but for what is left out the move has to be
        // there as long as the limits are.
        if settings.free_clock && !limits.is_empty() && (settings.reduce || are_limits_alone) {
            keys.push(Move::Stop);
        }
        keys
    }

    // Moves.

    /// Makes a move, and tells what it touched.
    pub(crate) fn make(self: &Arc<Run>, key: Move, carriers: &mut Carriers) -> Result<Footprint, Stopped> {
        let mut state = self.lock();
        state.footprint = Some(Footprint::default());
        state.settled.clear();
        match key {
            Move::Begin(place) | Move::Call(place) | Move::Poll(place) | Move::End(place) => {
                state.touch(Thing::Flight(Who::Function(place)), Access::Changes);
            }
            Move::Go(who) | Move::Choose(who, _) => state.touch(Thing::Flight(who), Access::Changes),
            Move::Come(number, _) => state.touch(Thing::Outside(number), Access::Changes),
            Move::By(number, _) => state.touch(Thing::Flight(Who::Caller(number)), Access::Changes),
            Move::Limit(..) | Move::Stop | Move::Stored(_) => {}
        }
        drop(state);
        match key {
            Move::Begin(place) => self.begin(place)?,
            Move::Call(place) => self.call(place, carriers)?,
            Move::Poll(place) => self.poll(place, carriers)?,
            Move::Go(who) => self.resume_code(who, None, carriers)?,
            Move::Choose(who, way) => self.resume_code(who, Some(way), carriers)?,
            Move::End(place) => self.end(place)?,
            Move::Come(number, way) => self.settle_from_outside(number, way)?,
            Move::By(number, _) => self.make_call(number, carriers)?,
            Move::Limit(place, number) => self.pass_limit(place, number)?,
            Move::Stored(key) => self.make_store_move(key, carriers)?,
            Move::Stop => {
                let mut state = self.lock();
                state.is_stopped = true;
                let requests: BTreeSet<u16> = state.timers.iter().map(|timer| timer.place.request).collect();
                requests.into_iter().for_each(|request| state.touch(Thing::Clock(request), Access::Changes));
            }
        }
        let mut state = self.lock();
        state.scan_requests();
        let footprint = state.footprint.take().unwrap_or_default();
        drop(state);
        Ok(footprint)
    }

    fn core(&self, number: u16) -> Arc<Core> {
        Arc::clone(&self.lock().request(number).core)
    }

    fn begin(self: &Arc<Run>, place: Place) -> Result<(), Stopped> {
        let mut state = self.lock();
        if state.settings.workers > 0 {
            state.touch(Thing::Workers, Access::Changes);
            state.weight = state.weight.saturating_mul(free_workers(&state) as u128);
        }
        let who = FIRST_WORKER + (state.flights.len() % NUMBERS) as u8;
        let shares = state.shares(place);
        drop(state);
        let core = self.core(place.request);
        let (name, call) = self.run_layer(|| {
            core.change(|inner, after| {
                let claimed = inner.claim(who, place.stage, after);
                (inner.name(place.stage), (claimed.call, inner.call_args(claimed.args)))
            })
        })?;
        let claim = Claim { who, call: Some(call), gave: None, woken: None };
        let flight = Flight { name, claim: Some(claim), wait: None, waits: 0, is_late: false, chosen: 0, carrier: None, shares };
        self.lock().flights.push((Who::Function(place), flight));
        Ok(())
    }

    /// What functions share that this one does.
    pub(crate) fn note_sharing(state: &mut State, who: Who) {
        let shares = state.flight(who).map_or(Vec::new(), |flight| flight.shares.clone());
        if !shares.contains(&Thing::User) && !state.checks.is_empty() && !matches!(who, Who::Thread(..)) {
            state.touch(Thing::Checked, Access::Changes);
        }
        shares.into_iter().for_each(|thing| state.touch(thing, Access::Changes));
    }

    fn call(self: &Arc<Run>, place: Place, carriers: &mut Carriers) -> Result<(), Stopped> {
        let who = Who::Function(place);
        let mut state = self.lock();
        Run::note_sharing(&mut state, who);
        let claim = state.flight(who).and_then(|flight| flight.claim.as_mut()).expect("it is claimed");
        let ((call, given), number) = (claim.call.take().expect("it is called once"), claim.who);
        drop(state);
        let (run, core) = (Arc::clone(self), self.core(place.request));
        let act = move || as_caller(number, || run.call_function(&core, place, number, || call(&given)));
        self.carry(who, Box::new(act), carriers)
    }

    /// Calls a function of a stage, and keeps what it gives.
    fn call_function(&self, core: &Arc<Core>, place: Place, number: u8, call: impl FnOnce() -> Returned) {
        let running = mark_running(core, false);
        set_called(Some(place.stage));
        let gave = catch_unwind(AssertUnwindSafe(call));
        drop(running);
        match gave {
            Ok(Returned::Later(future)) => Polling::poll_first(core, number, place.stage, future),
            Ok(gave) => self.take_returned(place, gave),
            Err(payload) => self.take_returned(place, Returned::Error(Error::Panicked(Panic::new(payload)))),
        }
    }

    /// What a stage's function gave, unless it was left.
    pub(crate) fn take_returned(&self, place: Place, gave: Returned) {
        let mut state = self.lock();
        let is_left = state.is_closed || state.needs_threads || !state.why.is_empty();
        match state.flight(Who::Function(place)).and_then(|flight| flight.claim.as_mut()) {
            Some(claim) if !is_left => claim.gave = Some(gave),
            _ => {
                drop(state);
                swallow_panic(|| drop(gave));
            }
        }
    }

    fn poll(self: &Arc<Run>, place: Place, carriers: &mut Carriers) -> Result<(), Stopped> {
        let who = Who::Function(place);
        let mut state = self.lock();
        Run::note_sharing(&mut state, who);
        let claim = state.flight(who).and_then(|flight| flight.claim.as_mut()).expect("it is claimed");
        let (polling, number) = (claim.woken.take().expect("it was woken"), claim.who);
        drop(state);
        self.carry(who, Box::new(move || as_caller(number, || polling.poll())), carriers)
    }

    pub(crate) fn resume_code(self: &Arc<Run>, who: Who, chosen: Option<u16>, carriers: &mut Carriers) -> Result<(), Stopped> {
        let mut state = self.lock();
        Run::note_sharing(&mut state, who);
        let flight = state.flight(who).expect("who goes on is there");
        let (wait, carrier) = (flight.wait.take(), flight.carrier.clone().expect("what waits has a thread"));
        flight.chosen = chosen.unwrap_or(0);
        if let Some(Wait { until: Until::Settled(_, place), .. }) = &wait {
            state.touch(Thing::Stage(*place), Access::Reads);
        }
        drop(state);
        let has_ended = carrier.resume();
        self.keep_carried(who, carrier, has_ended, carriers);
        self.check_stopped()
    }

    fn end(self: &Arc<Run>, place: Place) -> Result<(), Stopped> {
        let mut state = self.lock();
        if state.settings.workers > 0 {
            state.touch(Thing::Workers, Access::Changes);
        }
        let flight = state.take_flight(Who::Function(place)).expect("it was called");
        let claim = flight.claim.expect("it is claimed");
        let gave = claim.gave.expect("it gave something");
        if let (Returned::Error(Error::Panicked(panic)), false) = (&gave, state.settings.panics) {
            state.fail(format!("{} panicked: {}", flight.name, panic.message()));
            return Err(Stopped);
        }
        drop(state);
        let core = self.core(place.request);
        self.run_layer(|| core.finish(claim.who, place.stage, gave))
    }

    fn settle_from_outside(self: &Arc<Run>, number: u16, way: u16) -> Result<(), Stopped> {
        let mut state = self.lock();
        let arrival = &mut state.outside[usize::from(number)];
        let (core, place, way) = (Arc::clone(&arrival.core), arrival.place, arrival.ways[usize::from(way)].clone());
        arrival.is_never = matches!(way, Way::Never);
        drop(state);
        let with = match way {
            Way::Value(value) => Ok(value),
            Way::Error(error) => Err(error),
            Way::Never => return Ok(()),
        };
        self.run_layer(|| drop(core.settle(CALLER, place.stage, with)))
    }

    fn make_call(self: &Arc<Run>, number: u16, carriers: &mut Carriers) -> Result<(), Stopped> {
        let mut state = self.lock();
        let caller = &mut state.callers[usize::from(number)];
        caller.called += 1;
        let (name, (call, is_pure)) = (caller.name.clone(), caller.calls.pop_front().expect("it has a call to make"));
        let shares = if is_pure { Vec::new() } else { vec![Thing::User] };
        let flight = Flight { name, claim: None, wait: None, waits: 0, is_late: false, chosen: 0, carrier: None, shares };
        let who = Who::Caller(number);
        state.flights.push((who, flight));
        Run::note_sharing(&mut state, who);
        drop(state);
        self.carry_call(who, call, carriers)
    }

    fn pass_limit(self: &Arc<Run>, place: Place, number: u32) -> Result<(), Stopped> {
        let mut guard = self.lock();
        let state = &mut *guard;
        let at = state.timers.iter().position(|timer| timer.place.request == place.request && timer.number == number).expect("it is due");
        let timer = state.timers.remove(at);
        state.passed.push(place);
        state.touch(Thing::Clock(place.request), Access::Changes);
        let others: Vec<Place> = state.passed.iter().chain(state.timers.iter().map(|timer| &timer.place)).copied().collect();
        others.into_iter().filter(|other| other.request == place.request).for_each(|other| state.touch(Thing::Stage(other), Access::Reads));
        let request = state.request(place.request);
        request.now = request.now.max(timer.due);
        match timer.rings {
            Rings::Limit => {
                let core = Arc::clone(&request.core);
                drop(guard);
                self.run_layer(|| core.pass_time_to(timer.due))
            }
            Rings::Wait(who, waits, _) => {
                state.touch(Thing::Flight(who), Access::Changes);
                if let Some(flight) = state.flight(who).filter(|flight| flight.waits == waits) {
                    flight.is_late = true;
                }
                Ok(())
            }
        }
    }

    // Code that isn't the kit's.

    /// Does something of the layer on the search's thread. A waker or a `Drop` that panics fails the order.
    pub(crate) fn run_layer<T>(self: &Arc<Run>, act: impl FnOnce() -> T) -> Result<T, Stopped> {
        let here = Here { run: Arc::clone(self), who: None, carrier: None };
        let done = here.run_as(|| catch_unwind(AssertUnwindSafe(act)));
        match done {
            Ok(done) => self.check_stopped().map(|()| done),
            Err(payload) => {
                self.note_panic("a waker or a drop", payload);
                Err(Stopped)
            }
        }
    }

    /// Whether the order ends here.
    fn check_stopped(&self) -> Result<(), Stopped> {
        let state = self.lock();
        if state.needs_threads || !state.why.is_empty() {
            return Err(Stopped);
        }
        Ok(())
    }

    /// Code has panicked that may not, unless it was left.
    fn note_panic(&self, name: &str, payload: Payload) {
        if payload.downcast_ref::<LeavePanic>().is_some() {
            return;
        }
        let panic = Panic::new(payload);
        self.lock().fail(format!("{name} panicked: {}", panic.message()));
    }

    /// Calls what may not panic.
    pub(crate) fn carry_call(self: &Arc<Run>, who: Who, call: Act, carriers: &mut Carriers) -> Result<(), Stopped> {
        let run = Arc::clone(self);
        let name = self.lock().flight(who).map_or(String::new(), |flight| flight.name.clone());
        let act = move || {
            if let Err(payload) = catch_unwind(AssertUnwindSafe(call)) {
                run.note_panic(&name, payload);
            }
        };
        self.carry(who, Box::new(act), carriers)
    }

    /// Calls code of the test's, on a thread of its own where some waits.
    fn carry(self: &Arc<Run>, who: Who, act: Act, carriers: &mut Carriers) -> Result<(), Stopped> {
        if self.lock().settings.has_threads {
            let carrier = carriers.take();
            let here = Here { run: Arc::clone(self), who: Some(who), carrier: Some(Arc::clone(&carrier)) };
            let has_ended = carrier.begin(Box::new(move || here.run_as(act)));
            self.keep_carried(who, carrier, has_ended, carriers);
        } else {
            let here = Here { run: Arc::clone(self), who: Some(who), carrier: None };
            let ended = here.run_as(|| catch_unwind(AssertUnwindSafe(act)));
            if let Err(payload) = ended {
                self.note_panic("a waker or a drop", payload);
            }
            self.note_ended(who);
        }
        self.check_stopped()
    }

    fn keep_carried(&self, who: Who, carrier: Arc<super::carrier::Carrier>, has_ended: bool, carriers: &mut Carriers) {
        if has_ended {
            carriers.give(carrier);
            self.note_ended(who);
        } else if let Some(flight) = self.lock().flight(who) {
            flight.carrier = Some(carrier);
        }
    }

    /// Code has come to its end, or its future rests.
    fn note_ended(&self, who: Who) {
        let mut state = self.lock();
        match who {
            Who::Function(_) => {
                if let Some(flight) = state.flight(who) {
                    flight.carrier = None;
                }
            }
            Who::Caller(_) | Who::Test | Who::Thread(..) => drop(state.take_flight(who)),
        }
    }

    // Beginning and end.

    /// Calls the test, which is one move.
    pub(crate) fn start(self: &Arc<Run>, test: &Test, carriers: &mut Carriers) -> Result<(), Stopped> {
        let flight = Flight {
            name: "the test".into(),
            claim: None,
            wait: None,
            waits: 0,
            is_late: false,
            chosen: 0,
            carrier: None,
            shares: vec![Thing::User],
        };
        let mut state = self.lock();
        state.flights.push((Who::Test, flight));
        state.footprint = Some(Footprint::default());
        drop(state);
        let (run, test) = (Arc::clone(self), Arc::clone(test));
        let call = move || {
            let world = World(Arc::clone(&run));
            let awaited = test(&world);
            run.lock().awaited = awaited;
        };
        self.carry_call(Who::Test, Box::new(call), carriers)?;
        let mut state = self.lock();
        state.scan_requests();
        state.footprint = None;
        state.settled.clear();
        Ok(())
    }

    /// Looks whether all that must hold between moves does. What that looks at is added to what is watched, and a move that changes it is marked.
    pub(crate) fn check_all(self: &Arc<Run>, watched: &mut BTreeSet<Thing>, footprint: &mut Footprint) -> Result<(), Stopped> {
        self.check_stopped()?;
        let mut state = self.lock();
        if state.checks.is_empty() {
            return Ok(());
        }
        let mut checks = std::mem::take(&mut state.checks);
        state.footprint = Some(Footprint::default());
        drop(state);
        let held = checks.iter_mut().try_for_each(|check| self.check_one(check));
        let mut state = self.lock();
        checks.append(&mut state.checks);
        state.checks = checks;
        let seen = state.footprint.take().unwrap_or_default();
        drop(state);
        watched.extend(seen.things().map(|it| it.0));
        let is_seen = |(thing, how): (Thing, Access)| thing == Thing::User || how == Access::Changes && watched.contains(&thing);
        if footprint.things().any(is_seen) {
            footprint.touch(Thing::Checked, Access::Changes);
        }
        held
    }

    fn check_one(self: &Arc<Run>, check: &mut Check) -> Result<(), Stopped> {
        let here = Here { run: Arc::clone(self), who: None, carrier: None };
        let held = here.run_as(|| catch_unwind(AssertUnwindSafe(|| (check.holds)())));
        match held {
            Ok(true) => {}
            Ok(false) => self.lock().fail(check.text.clone()),
            Err(payload) if payload.downcast_ref::<LeavePanic>().is_some() => {}
            Err(payload) => {
                let panic = Panic::new(payload);
                self.lock().fail(format!("{}: {}", check.text, panic.message()));
            }
        }
        self.check_stopped()
    }

    /// Nothing may come any more: looks whether all that must hold at the end does.
    pub(crate) fn finish(self: &Arc<Run>) -> Result<(), Stopped> {
        let mut state = self.lock();
        state.is_over = true;
        let waits = |flight: &Flight| match &flight.wait {
            Some(wait) => Some(format!("{} waits for {}", flight.name, wait.name)),
            None => flight.claim.as_ref().map(|_| format!("the future of {} is never woken", flight.name)),
        };
        let waiting: Vec<String> = state.flights.iter().filter_map(|it| waits(&it.1)).collect();
        if !waiting.is_empty() {
            state.fail(format!("deadlock: {}", waiting.join(", ")));
        }
        let (awaited, mut at_end) = (std::mem::take(&mut state.awaited), std::mem::take(&mut state.at_end));
        drop(state);
        self.check_stopped()?;
        if let Some(name) = awaited.iter().find_map(|open| open()) {
            self.lock().fail(format!("{name} is never settled"));
        }
        self.check_stopped()?;
        at_end.iter_mut().try_for_each(|check| self.check_one(check))
    }

    /// What the end is, by the test.
    pub(crate) fn end_text(self: &Arc<Run>) -> Option<String> {
        let end = self.lock().end.take()?;
        let here = Here { run: Arc::clone(self), who: None, carrier: None };
        here.run_as(|| catch_unwind(AssertUnwindSafe(end))).ok()
    }

    /// Ends code that waits, and lets go of all but what is told of the run.
    pub(crate) fn close(&self, carriers: &mut Carriers) -> RunRemains {
        let state = self.lock();
        let waiting: Vec<_> = state.flights.iter().map(|it| &it.1).chain(&state.dead).filter_map(|it| it.carrier.clone()).collect();
        let (sharing, has_failed) = (state.sharing.clone(), !state.why.is_empty());
        drop(state);
        let words = sharing.as_ref().map_or(Vec::new(), |sharing| sharing.words_of_rows());
        let stored = sharing.filter(|_| has_failed).map_or(Vec::new(), |sharing| sharing.histories());
        for carrier in waiting {
            if carrier.end() {
                carriers.give(carrier);
            }
        }
        let mut state = self.lock();
        let settings = state.settings;
        let closed = std::mem::replace(&mut *state, State::new(settings));
        state.is_closed = true;
        state.why = closed.why.clone();
        state.weight = closed.weight;
        state.needs_threads = closed.needs_threads;
        drop(state);
        let State { requests, flights, outside, callers, checks, at_end, end, awaited, sharing, dead, .. } = closed;
        swallow_panic(|| drop((flights, outside, callers, checks, at_end, end, awaited, dead)));
        if let Some(sharing) = sharing {
            swallow_panic(|| sharing.close());
        }
        RunRemains { requests: requests.into_iter().map(|request| request.core).collect(), words, stored }
    }

    // In words.

    /// What this move settled, which was the last one, but what came from outside, and relays, whose stages are told.
    pub(crate) fn settled_texts(&self, key: Move) -> Vec<String> {
        let mut state = self.lock();
        state.scan_requests();
        let settled = std::mem::take(&mut state.settled);
        let came = if let Move::Come(number, _) = key { Some(state.outside[usize::from(number)].place) } else { None };
        let others = settled.into_iter().filter(|place| Some(*place) != came);
        let told: Vec<String> = others.filter_map(|place| end_text(&state.request(place.request).core, place.stage)).collect();
        let sharing = state.sharing.clone();
        drop(state);
        told.into_iter().chain(sharing.map_or(Vec::new(), |sharing| sharing.take_told())).collect()
    }

    /// What a move is called. It is asked before the move is made.
    pub(crate) fn move_text(&self, key: Move) -> String {
        let mut state = self.lock();
        if let (Move::Stored(key), Some(sharing)) = (key, state.sharing.clone()) {
            let asked = match key {
                StoreMove::Ask(process, thread, ..) => state.flight(Who::Thread(process, thread)),
                _ => None,
            };
            let asks = asked.map_or(String::new(), |it| format!("{} {}", it.name, it.wait.as_ref().map_or("", |wait| &wait.name)));
            drop(state);
            return asks + &sharing.move_text(key);
        }
        let flight = |state: &mut State, who: Who| state.flight(who).map_or(String::new(), |flight| flight.name.clone());
        match key {
            Move::Begin(place) => format!("{} is claimed", stage_name(&state.request(place.request).core, place.stage)),
            Move::Call(place) => format!("{} is called", flight(&mut state, Who::Function(place))),
            Move::Poll(place) => format!("the future of {} is polled", flight(&mut state, Who::Function(place))),
            Move::Go(who) => format!("{} goes on", flight(&mut state, who)),
            Move::Choose(who, way) => {
                let chosen = match state.flight(who).and_then(|flight| flight.wait.as_ref()).map(|wait| &wait.until) {
                    Some(Until::Chosen(ways)) => ways[usize::from(way)].clone(),
                    _ => String::new(),
                };
                format!("{} gets {chosen}", flight(&mut state, who))
            }
            Move::End(place) => {
                let who = Who::Function(place);
                let gave = state.flight(who).and_then(|flight| flight.claim.as_ref()).and_then(|claim| claim.gave.as_ref());
                let does = match gave {
                    Some(Returned::Error(Error::Panicked(_))) => "panics",
                    Some(Returned::Error(_)) => "fails",
                    _ => "returns",
                };
                format!("{} {does}", flight(&mut state, who))
            }
            Move::Come(number, way) => {
                let arrival = &state.outside[usize::from(number)];
                let (name, describe) = (stage_name(&arrival.core, arrival.place.stage), arrival.core.lock().describe.clone());
                match &arrival.ways[usize::from(way)] {
                    Way::Value(value) => format!("{name} comes: {}", describe.tell(Ok(value))),
                    Way::Error(error) => format!("{name} fails: {}", describe.tell(Err(error))),
                    Way::Never => format!("{name} never comes"),
                }
            }
            Move::By(number, call) => {
                let caller = &state.callers[usize::from(number)];
                if caller.all == 1 {
                    caller.name.clone()
                } else {
                    format!("{}, call {}", caller.name, call + 1)
                }
            }
            Move::Limit(place, number) => {
                let timer = state.timers.iter().find(|timer| timer.place.request == place.request && timer.number == number);
                match timer.map(|timer| &timer.rings) {
                    Some(Rings::Wait(who, _, wait)) => {
                        let waits = state.flights.iter().find(|it| it.0 == *who).map(|it| &it.1);
                        let of = waits.and_then(|flight| flight.wait.as_ref()).map_or("", |wait| &wait.name);
                        format!("{} has waited {wait:?} for {of}", waits.map_or("", |flight| &flight.name))
                    }
                    _ => format!("the limit of {} passes", stage_name(&state.request(place.request).core, place.stage)),
                }
            }
            Move::Stop => "no limit passes any more".into(),
            Move::Stored(key) => key.to_string(),
        }
    }
}

/// The histories of requests.
pub(crate) fn histories(requests: &[Arc<Core>]) -> Vec<History> {
    requests.iter().map(|core| History::new(core)).collect()
}

fn stage_name(core: &Core, stage: u16) -> String {
    escape_text(&core.lock().name(stage))
}

/// What a stage ended in, unless it is a relay.
fn end_text(core: &Core, stage: u16) -> Option<String> {
    let inner = core.lock();
    let (name, told, describe) = (inner.name(stage), inner.end_of(stage)?, inner.describe.clone());
    drop(inner);
    if name.starts_with("relay of ") {
        return None;
    }
    let name = escape_text(&name);
    Some(match &told {
        Err(Error::Cancelled) => format!("{name} is cancelled"),
        Err(error) => format!("{name} ends: {}", escape_text(&describe.tell(Err(error)))),
        Ok(value) => format!("{name} ends: {}", escape_text(&describe.tell(Ok(value)))),
    })
}

/// How many more functions may be claimed.
fn free_workers(state: &State) -> usize {
    match state.settings.workers {
        0 => 1,
        workers => workers.saturating_sub(state.flights.iter().filter(|it| it.1.claim.is_some()).count()),
    }
}

/// What somebody whose code goes on may do next.
fn push_next_moves(who: Who, flight: &Flight, keys: &mut Vec<Move>) {
    match (&flight.wait, &flight.claim, who) {
        (Some(Wait { until: Until::Chosen(ways), .. }), ..) => keys.extend((0..ways.len() as u16).map(|way| Move::Choose(who, way))),
        (Some(Wait { until: Until::Asks(time, ways), .. }), _, Who::Thread(process, thread)) => {
            keys.extend(ways().into_iter().map(|way| Move::Stored(StoreMove::Ask(process, thread, *time, way))));
        }
        (Some(wait), ..) if flight.is_late || wait.is_over() => keys.push(Move::Go(who)),
        (None, Some(claim), Who::Function(place)) if claim.call.is_some() => keys.push(Move::Call(place)),
        (None, Some(claim), Who::Function(place)) if claim.gave.is_some() => keys.push(Move::End(place)),
        (None, Some(claim), Who::Function(place)) if claim.woken.is_some() => keys.push(Move::Poll(place)),
        _ => {}
    }
}

/// The next limit of each request.
fn next_limits(state: &mut State) -> Vec<Move> {
    if !state.settings.free_clock {
        let lost: Vec<bool> = state.timers.iter().map(|timer| state.is_lost(timer)).collect();
        let mut lost = lost.into_iter();
        let passed = &mut state.passed;
        state.timers.retain(|timer| {
            let is_lost = lost.next().unwrap_or(false);
            if is_lost {
                passed.push(timer.place);
            }
            !is_lost
        });
    }
    if state.is_stopped {
        return Vec::new();
    }
    let mut due: Vec<(u16, u64, u32, Place)> = state.timers.iter().map(|timer| (timer.place.request, timer.due, timer.number, timer.place)).collect();
    due.sort_unstable();
    due.dedup_by_key(|it| it.0);
    due.into_iter().map(|(_, _, number, place)| Move::Limit(place, number)).collect()
}

/// What a function is called with is sent to another thread.
const _: fn() = || {
    fn is_send<T: Send>() {}
    is_send::<CallArgs>();
};
