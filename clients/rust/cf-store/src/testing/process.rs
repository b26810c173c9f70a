//! A process of a world: a service over the world's store, whose threads, clock and chance are the search's.
use super::bounds::{OF_CALLS, OF_PUTS, OF_READS, OF_WRITES};
use super::sharing::SharedStore;
use super::transaction::WorldTransaction;
use crate::error::{Failed, StoreError};
use crate::functions::failed_by_panic;
use crate::host::Host;
use crate::request::Returned;
use crate::service::{Service, ServiceJob};
use crate::store::{Mark, Opened, Put, Store, Timer, Transaction, WordCounts};
use crate::view::RowView;
use cf::testing::{Seam, WaitsFor};
use cf_graph::Entry;
use std::collections::BTreeMap;
use std::fmt;
use std::ops::Deref;
use std::panic::{catch_unwind, resume_unwind, AssertUnwindSafe};
use std::sync::{Arc, Mutex, TryLockError};
use std::time::{Duration, Instant};

/// A process of a world: a [`Service`] over its store, which dies where the search kills it. A clone is the same process.
///
/// What a test itself asks of it is a part of the test's move, and always answered. What [`calls`](Process::calls) is given, and what its own threads
/// do, is a move for each call of the store.
#[derive(Clone)]
pub struct Process {
    pub(super) shop: Arc<SharedStore>,
    pub(super) number: u16,
    pub(super) service: Arc<Service>,
}

impl Process {
    /// Has a thread of the process call something, at any moment. It may put and wait. What it panics with fails the order. `name` is what is told of
    /// it.
    pub fn calls<R>(&self, name: &str, call: impl FnOnce() -> R + Send + 'static) {
        self.shop.touch_process(self.number, true);
        self.shop.ask_work(self.number, |work| {
            let number = work.made;
            work.made += 1;
            work.callers.push_back((number, name.into(), Box::new(move || drop(call()))));
        });
    }

    /// The time of its own clock, which is the world's and what it is ahead of that.
    pub fn now(&self) -> Duration {
        self.shop.touch_process(self.number, false);
        self.shop.ask_work(self.number, |work| work.clock)
    }

    /// Whether it was killed.
    pub fn is_dead(&self) -> bool {
        self.shop.touch_process(self.number, false);
        self.shop.ask_work(self.number, |work| work.is_dead)
    }
}

impl Deref for Process {
    type Target = Service;

    fn deref(&self) -> &Service {
        &self.service
    }
}

impl fmt::Debug for Process {
    fn fmt(&self, f: &mut fmt::Formatter<'_>) -> fmt::Result {
        f.debug_struct("Process").field("number", &self.number).finish_non_exhaustive()
    }
}

/// Time, chance, locks and threads of a process.
pub(super) struct ProcessHost {
    pub(super) shop: Arc<SharedStore>,
    pub(super) number: u16,
    /// The moment of time zero.
    pub(super) zero: Instant,
}

impl Host for ProcessHost {
    fn now(&self) -> Instant {
        self.zero + self.shop.ask_work(self.number, |work| work.clock)
    }

    /// What comes next is a move in any case.
    fn sleep(&self, _wait: Duration) {}

    /// SplitMix64, by the process's number.
    fn random_bits(&self, bits: u32) -> u64 {
        let drawn = self.shop.ask_work(self.number, |work| {
            work.drawn += 1;
            work.drawn
        });
        let mut mixed = (u64::from(self.number) << 32 | drawn).wrapping_mul(0x9e37_79b9_7f4a_7c15);
        mixed = (mixed ^ mixed >> 30).wrapping_mul(0xbf58_476d_1ce4_e5b9);
        mixed = (mixed ^ mixed >> 27).wrapping_mul(0x94d0_49bb_1331_11eb);
        (mixed ^ mixed >> 31) >> (64 - bits)
    }

    fn has_threads(&self) -> bool {
        false
    }

    /// Requests that were closed are kept, unless somebody is to be told of their last words.
    fn take_job(&self, job: ServiceJob) -> Option<ServiceJob> {
        if matches!(&job, ServiceJob::LetGo(leaving) if !self.shop.matters(self.number, &leaving.inner.name)) {
            return None;
        }
        if self.shop.own_thread(self.number).is_none() {
            self.shop.touch_process(self.number, true);
        }
        self.shop.ask_work(self.number, |work| {
            let number = work.made;
            work.made += 1;
            work.queue.push_back((number, Arc::new(job)));
        });
        None
    }

    fn wait_until_free(&self, view: &Arc<Mutex<RowView>>) {
        if self.shop.own_thread(self.number).is_none() {
            self.shop.touch_process(self.number, false);
        }
        let is_held = |view: &Mutex<RowView>| matches!(view.try_lock(), Err(TryLockError::WouldBlock));
        while is_held(view) && !self.shop.seam.is_over() {
            let view = Arc::clone(view);
            self.shop.seam.wait("a lock".into(), WaitsFor::Until(Box::new(move || !is_held(&view))));
        }
    }

    fn wait_until(&self, name: &str, is_so: Arc<dyn Fn() -> bool + Send + Sync>, wait: Option<Duration>) {
        match (wait, self.shop.own_thread(self.number)) {
            (Some(wait), Some(thread)) => {
                let (is_so, name) = (Arc::clone(&is_so), name.to_owned());
                self.shop.ask_work(self.number, |work| work.wait_limited(thread, name, wait, is_so));
            }
            (Some(_), None) => self.shop.seam.fail(format!("who waits so long for {name} is no thread of its process: take Process::calls")),
            (None, _) => {}
        }
        self.shop.seam.wait(name.into(), WaitsFor::Until(Box::new(move || is_so())));
        if let Some(thread) = self.shop.own_thread(self.number) {
            self.shop.ask_work(self.number, |work| work.threads.get_mut(&thread).map(|it| it.late = None));
        }
    }

    fn call_function(&self, name: &str, call: &mut dyn FnMut() -> Result<Returned, Failed>) -> Result<Returned, Failed> {
        let called = match self.shop.own_thread(self.number) {
            None => catch_unwind(AssertUnwindSafe(call)),
            Some(thread) => {
                self.shop.wait_for_answer(self.number, thread, format!("calls {name}"), OF_CALLS);
                let marks = self.shop.marks_of(name);
                self.shop.ask_work(self.number, |work| work.set_runs_code(thread, true));
                let called = self.shop.seam.call_sharing((self.number, thread), marks.as_deref(), || catch_unwind(AssertUnwindSafe(call)));
                self.shop.ask_work(self.number, |work| work.set_runs_code(thread, false));
                called
            }
        };
        called.unwrap_or_else(|payload| {
            if Seam::is_leaving(&*payload) {
                resume_unwind(payload);
            }
            let failed = failed_by_panic(&*payload);
            if !self.shop.seam.keeps_panics() {
                self.shop.seam.fail(format!("{name} panicked: {}", failed.text));
            }
            Err(failed)
        })
    }

    fn note_standing(&self, request: &str, place: usize, word: u64, granted: Option<u16>) {
        self.shop.note_standing(self.number, request, place, word, granted);
    }

    fn warn(&self, _tells: fn(&str), request: &str, _text: &str) {
        self.shop.ask_work(self.number, |work| work.stuck.insert(request.into()));
    }

    fn note_broken(&self, error: &StoreError) {
        if let StoreError::Broken { .. } = error {
            self.shop.seam.fail(format!("{} can't go on: {error}", self.shop.name_of(self.number)));
        }
    }
}

/// The store as one process has it. What it asks is a move, but where its process looks what is new.
pub(super) struct ProcessStore {
    pub(super) shop: Arc<SharedStore>,
    pub(super) number: u16,
}

impl ProcessStore {
    fn change_rows<T>(&self, text: String, act: impl FnOnce() -> Result<T, StoreError>) -> Result<T, StoreError> {
        self.shop.ask_store(self.number, OF_WRITES, text, None, act)
    }

    /// Does what changes a request.
    fn change_row<T>(&self, name: &str, text: String, act: impl FnOnce() -> Result<T, StoreError>) -> Result<T, StoreError> {
        self.change_rows(text, || {
            self.shop.touch_row(name, true);
            act()
        })
    }
}

impl Store for ProcessStore {
    fn open(&self, name: &str, plan: &str) -> Result<Opened, StoreError> {
        self.change_rows(format!("opens {name}"), || {
            let (opened, is_new) = self.shop.rows.open(name, plan)?;
            self.shop.touch_rows(is_new);
            if is_new {
                self.shop.touch_row(name, true);
            }
            Ok(opened)
        })
    }

    fn find(&self, name: &str) -> Result<Option<Opened>, StoreError> {
        self.shop.touch_rows(false);
        self.shop.rows.memory.find(name)
    }

    fn append(&self, put: Put<'_>) -> Result<Option<Vec<Entry>>, StoreError> {
        self.shop.ask_store(self.number, OF_PUTS, self.shop.rows.put_text(put), Some((put, &[])), || self.shop.append(put))
    }

    fn read(&self, name: &str, number: i64, at: usize) -> Result<Vec<Entry>, StoreError> {
        self.shop.ask_store(self.number, OF_READS, format!("reads {name}"), None, || {
            self.shop.touch_row(name, false);
            self.shop.rows.memory.read(name, number, at)
        })
    }

    /// What stands never changes.
    fn payload(&self, name: &str, number: i64, place: usize) -> Result<Option<Vec<u8>>, StoreError> {
        self.shop.rows.memory.payload(name, number, place)
    }

    fn news(&self, since: Option<Mark>) -> Result<(WordCounts, Mark), StoreError> {
        let news = self.shop.rows.memory.news(since)?;
        self.shop.touch_rows(false);
        news.0.keys().filter(|name| self.shop.works_on(self.number, name)).for_each(|name| self.shop.touch_row(name, false));
        Ok(news)
    }

    /// The search says when a process looks.
    fn wait_for_change(&self, _wait: Duration) -> Result<(), StoreError> {
        Ok(())
    }

    fn end(&self, name: &str, number: i64, at: usize) -> Result<bool, StoreError> {
        self.change_row(name, format!("closes {name}"), || self.shop.rows.memory.end(name, number, at))
    }

    fn beat(&self, session: u64) -> Result<(), StoreError> {
        self.shop.rows.memory.beat(session)
    }

    fn beats(&self) -> Result<BTreeMap<u64, i64>, StoreError> {
        self.shop.rows.memory.beats()
    }

    fn drop_beat(&self, session: u64) -> Result<(), StoreError> {
        self.shop.rows.memory.drop_beat(session)
    }

    fn name_session(&self, _session: u64, _name: &str) -> Result<(), StoreError> {
        Ok(())
    }

    fn now(&self) -> Result<f64, StoreError> {
        Ok(self.shop.ask_work(self.number, |work| work.clock).as_secs_f64())
    }

    fn set_timer(&self, timer: &Timer) -> Result<(), StoreError> {
        let stage = self.shop.rows.stage_name(&timer.request, timer.stage);
        self.change_row(&timer.request, format!("sets the limit of {stage}"), || self.shop.rows.memory.set_timer(timer))
    }

    /// The search says when a limit has passed.
    fn due_timers(&self, _now: f64) -> Result<Vec<Timer>, StoreError> {
        Ok(self.shop.ask_work(self.number, |work| work.due.clone().into_iter().collect()))
    }

    fn drop_timer(&self, timer: &Timer) -> Result<(), StoreError> {
        let stage = self.shop.rows.stage_name(&timer.request, timer.stage);
        self.change_row(&timer.request, format!("forgets the limit of {stage}"), || self.shop.rows.memory.drop_timer(timer))
    }

    fn transacts(&self) -> bool {
        true
    }

    fn transaction(&self) -> Result<Box<dyn Transaction + '_>, StoreError> {
        Ok(Box::new(WorldTransaction::new(&self.shop, self.number)))
    }
}
