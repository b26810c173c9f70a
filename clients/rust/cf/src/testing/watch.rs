//! What the layer tells a run: which requests are opened, that something was done to one, who reads, who waits; and the executor and the clock of a
//! world.
use super::carrier::{leave_code, Carrier};
use super::footprint::{Access, Thing};
use super::moves::{Place, Who};
use super::run::Run;
use super::state::{Rings, Until, Wait};
use crate::clock::{Alarm, Clock};
use crate::core::Core;
use crate::spawn::{Job, JobKind, Spawn};
use crate::value::Returned;
use std::cell::RefCell;
use std::sync::Arc;
use std::thread;
use std::time::Duration;

/// The run that goes on on a thread, and whose code.
#[derive(Clone)]
pub(crate) struct Here {
    pub(crate) run: Arc<Run>,
    pub(crate) who: Option<Who>,
    pub(crate) carrier: Option<Arc<Carrier>>,
}

thread_local! {
    static HERE: RefCell<Option<Here>> = const { RefCell::new(None) };
}

impl Here {
    pub(crate) fn current() -> Option<Here> {
        HERE.try_with(|here| here.borrow().clone()).ok().flatten()
    }

    /// Does something as code of a run.
    pub(crate) fn run_as<T>(self, act: impl FnOnce() -> T) -> T {
        struct Back(Option<Here>);
        impl Drop for Back {
            fn drop(&mut self) {
                let before = self.0.take();
                drop(HERE.try_with(|here| here.replace(before)));
            }
        }
        let _back = Back(HERE.try_with(|here| here.replace(Some(self))).ok().flatten());
        act()
    }
}

/// The run that a request belongs to, and its number there.
pub(crate) struct Watch {
    run: Arc<Run>,
    number: u16,
}

impl Watch {
    /// What watches a request that is opened here with this executor.
    pub(crate) fn for_executor(executor: usize) -> Option<Watch> {
        let run = Here::current()?.run;
        if run.id() != executor {
            return None;
        }
        let number = run.lock().requests.len() as u16;
        Some(Watch { run, number })
    }

    pub(crate) fn note_opened(&self, core: &Arc<Core>) {
        self.run.lock().add_request(Arc::clone(core));
    }

    /// The number of the request in the run, if it is of this one.
    pub(crate) fn number_in(&self, run: &Arc<Run>) -> Option<u16> {
        Arc::ptr_eq(&self.run, run).then_some(self.number)
    }

    /// The time of its request, in nanoseconds.
    pub(crate) fn now(&self) -> u64 {
        self.run.lock().requests.get(usize::from(self.number)).map_or(0, |request| request.now)
    }

    fn here(&self) -> Option<Here> {
        Here::current().filter(|here| Arc::ptr_eq(&here.run, &self.run))
    }

    /// Something was done to the request, and told.
    pub(crate) fn note_changed(&self) {
        let here = self.here();
        let mut state = self.run.lock();
        if state.is_closed {
            return;
        }
        if here.is_none() {
            let who = thread::current().name().unwrap_or("without a name").to_owned();
            state.fail(format!("the thread {who} changed a request: threads of your own are outside the world"));
        }
        let fine = state.settings.fine;
        state.request(self.number).is_dirty = true;
        drop(state);
        if fine && here.map_or(false, |here| here.who.is_some()) {
            self.run.point();
        }
    }

    /// A stage gets a limit.
    pub(crate) fn note_limit(&self, core: &Core, stage: u16, wait: Duration) {
        let is_settled = core.lock().slot(stage).is_settled();
        let mut state = self.run.lock();
        if !is_settled && !state.is_closed {
            state.add_timer(Place::new(self.number, stage), wait, Rings::Limit);
        }
    }

    /// Somebody reads a stage.
    pub(crate) fn note_read(&self, stage: u16) {
        if self.here().is_some() {
            self.run.lock().touch(Thing::Stage(Place::new(self.number, stage)), Access::Reads);
        }
    }

    /// Somebody looks at all stages.
    pub(crate) fn note_look(&self, stages: usize) {
        if self.here().is_some() {
            let mut state = self.run.lock();
            state.touch(Thing::Attach(self.number), Access::Reads);
            (0..stages as u16).for_each(|stage| state.touch(Thing::Stage(Place::new(self.number, stage)), Access::Reads));
        }
    }

    /// A relay of another request is to end as a stage does.
    pub(crate) fn note_link(&self, stage: u16, to: &Core, relay: u16) {
        if let Some(number) = to.watch.as_ref().and_then(|watch| watch.number_in(&self.run)) {
            self.run.lock().note_link(Place::new(number, relay), Place::new(self.number, stage));
        }
    }

    /// Lets others go on until a stage is settled, or so long. False where the thread is none of the run's, and has to wait by itself.
    pub(crate) fn wait_for_stage(&self, core: &Arc<Core>, stage: u16, wait: Option<Duration>) -> bool {
        if self.run.lock().is_closed {
            return true;
        }
        if self.here().is_none() {
            return false;
        }
        if wait != Some(Duration::ZERO) {
            let name = core.lock().name(stage);
            self.run.wait(Wait { name, until: Until::Settled(Arc::clone(core), Place::new(self.number, stage)) }, wait);
        }
        true
    }

    /// What a future gave in the end.
    pub(crate) fn take_returned(&self, stage: u16, gave: Returned) {
        self.run.take_returned(Place::new(self.number, stage), gave);
    }
}

/// The executor of a world.
pub(crate) struct Executor(pub(crate) Arc<Run>);

impl Spawn for Executor {
    /// Functions that are ready are found by the search. One job stands for all that a request asks for.
    fn spawn(&self, job: Job) -> Result<(), Job> {
        let core = match job.kind() {
            Some(JobKind::Work(core)) => core,
            Some(JobKind::Poll(polling)) => polling.core_and_stage().0,
            None => return Ok(()),
        };
        let number = core.watch.as_ref().and_then(|watch| watch.number_in(&self.0));
        let number = match number {
            Some(number) => number,
            None => {
                self.0.lock().fail("a request of the world was opened outside it, by a thread of your own");
                return Err(job);
            }
        };
        let turn = job.into_kind();
        let mut state = self.0.lock();
        if let (Some(JobKind::Poll(polling)), false) = (&turn, state.is_closed) {
            let who = Who::Function(Place::new(number, polling.core_and_stage().1));
            state.touch(Thing::Flight(who), Access::Changes);
            if let Some(claim) = state.flight(who).and_then(|flight| flight.claim.as_mut()) {
                claim.woken = Some(Arc::clone(polling));
            }
        }
        drop(state);
        drop(turn);
        Ok(())
    }

    fn id(&self) -> usize {
        self.0.id()
    }
}

/// The clock of a world. Each request has a time of its own.
pub(crate) struct WorldClock(pub(crate) Arc<Run>);

impl Clock for WorldClock {
    fn now(&self) -> Duration {
        let mut state = self.0.lock();
        (0..state.requests.len()).for_each(|request| state.touch(Thing::Clock(request as u16), Access::Reads));
        Duration::from_nanos(state.requests.iter().map(|request| request.now).max().unwrap_or(0))
    }

    /// A run rings no alarms: it knows each limit.
    fn ring_after(&self, _wait: Duration, alarm: Alarm) {
        let core = alarm.core.upgrade();
        if core.and_then(|core| core.watch.as_ref().and_then(|watch| watch.number_in(&self.0))).is_none() {
            self.0.lock().fail("a request has the clock of the world and another executor");
        }
        alarm.forget();
    }
}

impl Run {
    /// Lets others go on. Without it a function is one move up to where it waits.
    pub(crate) fn point(self: &Arc<Run>) {
        self.wait(Wait { name: "its turn".into(), until: Until::Now }, None);
    }

    /// Lets others go on until something is so, or one of several ways is chosen, which is told then.
    pub(crate) fn wait(self: &Arc<Run>, wait: Wait, limit: Option<Duration>) -> u16 {
        let here = Here::current().filter(|here| Arc::ptr_eq(&here.run, self));
        let mut state = self.lock();
        if state.is_closed || thread::panicking() {
            return 0;
        }
        let carried = here.and_then(|here| Some((here.who?, here.carrier)));
        let (who, carrier) = match carried {
            _ if state.is_over => {
                state.fail(format!("{} is never settled", wait.name));
                drop(state);
                leave_code();
                return 0;
            }
            _ if !state.settings.has_threads => {
                state.needs_threads = true;
                drop(state);
                leave_code();
                return 0;
            }
            Some((who, Some(carrier))) => (who, carrier),
            _ => {
                state.fail(format!("a waker, a drop or a check waits for {}, in the midst of a move", wait.name));
                drop(state);
                leave_code();
                return 0;
            }
        };
        let place = match &wait.until {
            Until::Settled(_, place) => Some(*place),
            _ => None,
        };
        let flight = match state.flight(who) {
            Some(flight) => flight,
            None => {
                drop(state); // (its process was killed)
                leave_code();
                return 0;
            }
        };
        flight.is_late = false;
        flight.waits += 1;
        flight.wait = Some(wait);
        let waits = flight.waits;
        if let (Some(limit), Some(place)) = (limit, place) {
            state.add_timer(place, limit, Rings::Wait(who, waits, limit));
        }
        drop(state);
        carrier.pause();
        self.lock().flight(who).map_or(0, |flight| flight.chosen)
    }
}
