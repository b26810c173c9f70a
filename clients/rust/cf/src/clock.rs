//! Clocks: the time, and alarms.
use crate::core::Core;
use crate::spawn::{catch_panic, run_in_drop, swallow_panic};
use std::cmp::{self, Reverse};
use std::collections::BinaryHeap;
use std::fmt;
use std::panic::{catch_unwind, resume_unwind, AssertUnwindSafe};
use std::sync::atomic::{AtomicBool, Ordering};
use std::sync::{Arc, Condvar, Mutex, MutexGuard, PoisonError, Weak};
use std::thread;
use std::time::{Duration, Instant};

/// A clock, by which times of histories and timeouts go. [`SystemClock`] is the computer's; tests turn a [`HandClock`].
///
/// ```
/// use cf::{Alarm, Clock, Inline, Request, SystemClock};
/// use std::{sync::Arc, time::Duration};
///
/// /// A clock that rings ten times as soon.
/// struct Hasty;
///
/// impl Clock for Hasty {
///     fn now(&self) -> Duration {
///         SystemClock.now() * 10
///     }
///     fn ring_after(&self, wait: Duration, alarm: Alarm) {
///         SystemClock.ring_after(wait / 10, alarm)
///     }
/// }
///
/// let reminder = Request::with_clock("reminder 2", Arc::new(Inline), Arc::new(Hasty));
/// assert!(reminder.promise::<u32>().or_timeout(Duration::from_millis(20)).wait().unwrap_err().is_timeout());
/// ```
pub trait Clock: Send + Sync + 'static {
    /// The time since a moment of the clock's own. It never goes back. If it panics, an event has the time of the one before it.
    fn now(&self) -> Duration;

    /// Rings the alarm after `wait`, but not before it returns. A request asks for one alarm at a time, up to the first of its timeouts. If an
    /// earlier timeout comes, it asks for an earlier alarm, and the one before isn't wanted any more ([`Alarm::is_wanted`]).
    fn ring_after(&self, wait: Duration, alarm: Alarm);

    /// Whether it is the computer's own, which requests read directly.
    #[doc(hidden)]
    fn is_system(&self) -> bool {
        false
    }
}

/// The alarm for a request's next timeout, which a [`Clock`] rings. It doesn't keep the request alive. If a wanted alarm is dropped, the stages with
/// timeouts fail with [`Refusal::NoClock`](crate::Refusal::NoClock), since nothing rings for them any more.
///
/// ```
/// struct Stopped;
/// impl cf::Clock for Stopped {
///     fn now(&self) -> std::time::Duration {
///         std::time::Duration::ZERO
///     }
///     fn ring_after(&self, _wait: std::time::Duration, alarm: cf::Alarm) {
///         drop(alarm);
///     }
/// }
/// let reminder = cf::Request::with_clock("reminder 2", std::sync::Arc::new(cf::Inline), std::sync::Arc::new(Stopped));
/// let late = reminder.promise::<u32>().or_timeout(std::time::Duration::from_secs(5));
/// assert!(matches!(late.wait(), Err(cf::Error::Refused(cf::Refusal::NoClock))));
/// ```
pub struct Alarm {
    pub(crate) core: Weak<Core>,
    /// The alarm's number in its request.
    pub(crate) number: u64,
    pub(crate) wait: Duration,
}

impl Alarm {
    /// Rings: the open stages whose timeouts have come time out or get their values. If there are later timeouts, the request first asks its clock
    /// for the next alarm.
    ///
    /// ```
    /// struct AtOnce;
    /// impl cf::Clock for AtOnce {
    ///     fn now(&self) -> std::time::Duration {
    ///         std::time::Duration::ZERO
    ///     }
    ///     fn ring_after(&self, _wait: std::time::Duration, alarm: cf::Alarm) {
    ///         std::thread::spawn(move || alarm.ring());
    ///     }
    /// }
    /// let reminder = cf::Request::with_clock("reminder 2", std::sync::Arc::new(cf::Inline), std::sync::Arc::new(AtOnce));
    /// assert!(reminder.promise::<u32>().or_timeout(std::time::Duration::from_secs(5)).wait().unwrap_err().is_timeout());
    /// ```
    pub fn ring(mut self) {
        if let Some(core) = std::mem::take(&mut self.core).upgrade() {
            core.ring_alarm(self.number);
        }
    }

    /// Drops the alarm without failing its stages: its moment never comes.
    pub(crate) fn forget(mut self) {
        self.core = Weak::new();
    }

    /// Whether a stage waits for it. A clock may drop alarms that aren't wanted.
    ///
    /// ```
    /// fn swept(alarms: &mut Vec<cf::Alarm>) {
    ///     alarms.retain(cf::Alarm::is_wanted);
    /// }
    /// ```
    pub fn is_wanted(&self) -> bool {
        self.core.upgrade().map_or(false, |core| core.lock().awaited.is_for(self.number))
    }
}

impl Drop for Alarm {
    fn drop(&mut self) {
        if let Some(core) = self.core.upgrade() {
            run_in_drop(|| core.give_up_alarm(self.number));
        }
    }
}

impl fmt::Debug for Alarm {
    fn fmt(&self, f: &mut fmt::Formatter<'_>) -> fmt::Result {
        write!(f, "Alarm(after {:?})", self.wait)
    }
}

/// The computer's clock. A thread rings its alarms, from the first timeout on. If an alarm takes long, as by a function of an
/// [`Inline`](crate::Inline) request, another thread rings the others. If the system refuses the thread, the next timeout tries again.
///
/// ```
/// use cf::{Clock, SystemClock};
/// let before = SystemClock.now();
/// assert!(SystemClock.now() >= before);
/// ```
#[derive(Clone, Copy, Debug, Default)]
pub struct SystemClock;

impl Clock for SystemClock {
    #[inline]
    fn now(&self) -> Duration {
        first_moment().elapsed()
    }

    fn is_system(&self) -> bool {
        true
    }

    fn ring_after(&self, wait: Duration, alarm: Alarm) {
        let at = match self.now().checked_add(wait) {
            Some(at) => at,
            None => return alarm.forget(),
        };
        let mut held = ALARMS.lock();
        held.start_ringer();
        let due = held.due();
        let is_first = due.add(at, alarm);
        let is_full = due.alarms.len() > due.sweep;
        drop(held);
        if is_first {
            ALARMS.came.notify_one();
        }
        if is_full {
            drop_unwanted();
        }
    }
}

/// The moment at which the system's clock begins.
fn first_moment() -> Instant {
    thread_local! {
        static BEGUN: Instant = first();
    }
    fn first() -> Instant {
        static FIRST: Mutex<Option<Instant>> = Mutex::new(None);
        *FIRST.lock().unwrap_or_else(PoisonError::into_inner).get_or_insert_with(Instant::now)
    }
    BEGUN.try_with(|begun| *begun).unwrap_or_else(|_| first())
}

/// Tries again to start the thread that rings, if the system has refused it.
pub(crate) fn retry_ringer() {
    if ALARMS.is_refused.load(Ordering::Relaxed) {
        ALARMS.lock().start_ringer();
    }
}

struct Alarms {
    held: Mutex<Ringers>,
    /// The system has refused the ringer.
    is_refused: AtomicBool,
    /// An alarm is the first now.
    came: Condvar,
    /// The ringer rings.
    rings: Condvar,
}

/// The alarms, and their two threads: the ringer, and a spare one that takes its place if an alarm takes long.
struct Ringers {
    due: Option<Due>,
    has_ringer: bool,
    has_spare: bool,
    /// The spare one watches whether the ringer goes on.
    watches: bool,
    /// The ringer's number: one that was kept up finds another.
    ringer: u64,
    is_ringing: bool,
    /// The number of alarms that were rung.
    rung: u64,
}

static ALARMS: Alarms = Alarms { held: Mutex::new(Ringers::NONE), is_refused: AtomicBool::new(false), came: Condvar::new(), rings: Condvar::new() };

/// How long an alarm may keep the ringer up.
const KEPT_UP: Duration = Duration::from_millis(10);

impl Alarms {
    fn lock(&self) -> MutexGuard<'_, Ringers> {
        lock(&self.held)
    }
}

impl Ringers {
    const NONE: Ringers = Ringers { due: None, has_ringer: false, has_spare: false, watches: false, ringer: 0, is_ringing: false, rung: 0 };

    fn due(&mut self) -> &mut Due {
        self.due.get_or_insert_with(Due::new)
    }

    fn start_ringer(&mut self) {
        self.has_ringer = self.has_ringer || start_thread(ring_alarms);
        ALARMS.is_refused.store(!self.has_ringer, Ordering::Relaxed);
    }
}

/// Alarms by their moments.
struct Due {
    alarms: BinaryHeap<Reverse<DueAlarm>>,
    number: u64,
    /// The number of alarms above which unwanted ones are dropped.
    sweep: usize,
}

/// An alarm and its moment. Those of one moment ring in the order in which they came.
struct DueAlarm {
    at: Duration,
    number: u64,
    alarm: Alarm,
}

impl Ord for DueAlarm {
    fn cmp(&self, other: &DueAlarm) -> cmp::Ordering {
        (self.at, self.number).cmp(&(other.at, other.number))
    }
}

impl PartialOrd for DueAlarm {
    fn partial_cmp(&self, other: &DueAlarm) -> Option<cmp::Ordering> {
        Some(self.cmp(other))
    }
}

impl PartialEq for DueAlarm {
    fn eq(&self, other: &DueAlarm) -> bool {
        self.cmp(other).is_eq()
    }
}

impl Eq for DueAlarm {}

impl Due {
    fn new() -> Due {
        Due { alarms: BinaryHeap::new(), number: 0, sweep: 64 }
    }

    /// The moment of the first alarm.
    fn first_moment(&self) -> Option<Duration> {
        self.alarms.peek().map(|Reverse(first)| first.at)
    }

    /// Adds an alarm, and says whether it is the first now.
    fn add(&mut self, at: Duration, alarm: Alarm) -> bool {
        let is_first = self.first_moment().map_or(true, |first| at < first);
        self.number += 1;
        self.alarms.push(Reverse(DueAlarm { at, number: self.number, alarm }));
        is_first
    }

    /// Takes the first alarm if its moment has come; otherwise gives the time until then.
    fn take_due(&mut self, now: Duration) -> Result<Alarm, Option<Duration>> {
        match self.first_moment() {
            Some(first) if first <= now => self.alarms.pop().map(|Reverse(first)| first.alarm).ok_or(None),
            first => Err(first.map(|first| first - now)),
        }
    }
}

fn lock<T>(held: &Mutex<T>) -> MutexGuard<'_, T> {
    held.lock().unwrap_or_else(PoisonError::into_inner)
}

/// Drops unwanted alarms. It asks and drops them without the lock, since a request may end with that. A `Drop` that panics loses no other alarm.
fn drop_unwanted() {
    let alarms = std::mem::take(&mut ALARMS.lock().due().alarms);
    let is_wanted = |alarm: &Alarm| catch_unwind(AssertUnwindSafe(|| alarm.is_wanted())).unwrap_or(false);
    let (wanted, unwanted): (Vec<_>, Vec<_>) = alarms.into_iter().partition(|Reverse(rings)| is_wanted(&rings.alarm));
    let mut held = ALARMS.lock();
    let due = held.due();
    due.alarms.extend(wanted);
    due.sweep = 64 + 2 * due.alarms.len();
    drop(held);
    ALARMS.came.notify_one();
    for rings in unwanted {
        swallow_panic(|| drop(rings));
    }
}

/// Starts a thread of the clock, unless the system refuses it.
fn start_thread(act: fn()) -> bool {
    thread::Builder::new().name("cf clock".into()).spawn(act).is_ok()
}

/// Rings each alarm at its moment, without the lock, until another thread does so in its place.
fn ring_alarms() {
    let mut held = ALARMS.lock();
    let ringer = held.ringer;
    while held.ringer == ringer {
        match held.due().take_due(SystemClock.now()) {
            Ok(alarm) => {
                held.rung += 1;
                held.is_ringing = true;
                if !held.has_spare {
                    held.has_spare = start_thread(stand_by);
                }
                let watches = held.watches;
                drop(held);
                if !watches {
                    ALARMS.rings.notify_one();
                }
                // A waker that panics doesn't stop the clock.
                swallow_panic(|| alarm.ring());
                held = ALARMS.lock();
                held.is_ringing = held.ringer != ringer && held.is_ringing;
            }
            Err(None) => held = ALARMS.came.wait(held).unwrap_or_else(PoisonError::into_inner),
            Err(Some(wait)) => held = ALARMS.came.wait_timeout(held, wait).unwrap_or_else(PoisonError::into_inner).0,
        }
    }
}

/// Waits until one alarm keeps the ringer up, and takes its place.
fn stand_by() {
    let mut held = ALARMS.lock();
    loop {
        held = ALARMS.rings.wait_while(held, |held| !held.is_ringing).unwrap_or_else(PoisonError::into_inner);
        held.watches = true;
        let rung = held.rung;
        let is_same = |held: &mut Ringers| held.is_ringing && held.rung == rung;
        held = ALARMS.rings.wait_timeout_while(held, KEPT_UP, is_same).unwrap_or_else(PoisonError::into_inner).0;
        held.watches = false;
        if is_same(&mut held) {
            held.ringer += 1;
            (held.is_ringing, held.has_spare) = (false, false);
            drop(held);
            return ring_alarms();
        }
    }
}

/// A clock that stands until it is turned by hand. Clones are the same clock.
///
/// ```
/// use cf::{HandClock, Inline, Request};
/// use std::{sync::Arc, time::Duration};
/// let clock = HandClock::new();
/// let reminder = Request::with_clock("reminder 2", Arc::new(Inline), Arc::new(clock.clone()));
/// let quote = reminder.promise::<u32>().or_timeout(Duration::from_secs(3600)).recover(|_| 52);
/// clock.turn(Duration::from_secs(3599));
/// assert!(!quote.is_settled());
/// clock.turn(Duration::from_secs(1));
/// assert_eq!(quote.wait().unwrap(), 52);
/// ```
#[derive(Clone)]
pub struct HandClock(Arc<Mutex<(Duration, Due)>>);

impl HandClock {
    /// A clock that stands at 0.
    ///
    /// ```
    /// use cf::{Clock, HandClock};
    /// assert_eq!(HandClock::new().now(), std::time::Duration::ZERO);
    /// ```
    pub fn new() -> HandClock {
        HandClock(Arc::new(Mutex::new((Duration::ZERO, Due::new()))))
    }

    /// Lets it be so much later, and rings what is due by then, one after another, on this thread. A waker or a `Drop` of somebody's that
    /// panics keeps no other timeout from being told.
    ///
    /// # Panics
    ///
    /// Where such a waker or `Drop` does, once all are told, with what the first of them panicked with; and where it would be later than a
    /// `Duration` can say.
    ///
    /// ```
    /// use cf::{Clock, HandClock};
    /// use std::time::Duration;
    /// let clock = HandClock::new();
    /// clock.turn(Duration::from_secs(5));
    /// assert_eq!(clock.now(), Duration::from_secs(5));
    /// ```
    pub fn turn(&self, by: Duration) {
        let end = self.now() + by;
        let mut panicked = None;
        loop {
            let mut held = self.lock();
            let (now, due) = &mut *held;
            *now = due.first_moment().map_or(end, |first| first.min(end)).max(*now);
            let next = due.take_due(*now);
            drop(held);
            match next {
                Ok(alarm) => catch_panic(&mut panicked, || alarm.ring()),
                Err(_) => break,
            };
        }
        if let Some(payload) = panicked {
            resume_unwind(payload);
        }
    }

    fn lock(&self) -> MutexGuard<'_, (Duration, Due)> {
        lock(&self.0)
    }
}

impl Default for HandClock {
    fn default() -> HandClock {
        HandClock::new()
    }
}

impl fmt::Debug for HandClock {
    fn fmt(&self, f: &mut fmt::Formatter<'_>) -> fmt::Result {
        write!(f, "HandClock({:?})", self.now())
    }
}

impl Clock for HandClock {
    fn now(&self) -> Duration {
        self.lock().0
    }

    fn ring_after(&self, wait: Duration, alarm: Alarm) {
        let mut held = self.lock();
        match held.0.checked_add(wait) {
            Some(at) => drop(held.1.add(at, alarm)),
            None => alarm.forget(),
        }
    }
}

#[cfg(test)]
mod tests {
    use super::*;
    use crate::{Inline, Request};
    use std::thread::ThreadId;

    /// The clock finds no alarms while those that nobody wants are left out. It looks again behind that.
    #[test]
    fn alarms_that_are_wanted_ring_behind_a_sweep() {
        let request = Request::new("swept", Inline);
        let stage = request.promise::<i32>().or_timeout(Duration::from_millis(300));
        let held = request.0.lock();
        let sweeps = thread::spawn(drop_unwanted);
        thread::sleep(Duration::from_millis(50));
        ALARMS.came.notify_all();
        thread::sleep(Duration::from_millis(50));
        drop(held);
        sweeps.join().unwrap();
        assert!(stage.wait_timeout(Duration::from_secs(60)).expect("the alarm is rung").unwrap_err().is_timeout());
    }

    /// And so do those that come meanwhile.
    #[test]
    fn alarms_that_come_in_a_sweep_ring() {
        let request = Request::new("swept", Inline);
        let stage = request.promise::<i32>().or_timeout(Duration::from_secs(3600));
        let held = request.0.lock();
        let sweeps = thread::spawn(drop_unwanted);
        thread::sleep(Duration::from_millis(50));
        let came = Request::new("came", Inline).promise::<i32>().or_timeout(Duration::from_millis(300));
        drop(held);
        sweeps.join().unwrap();
        assert!(came.wait_timeout(Duration::from_secs(60)).expect("the alarm is rung").unwrap_err().is_timeout());
        assert!(!stage.is_settled());
    }

    /// Tells which thread drops it, and panics.
    struct Ends(Arc<Mutex<Option<ThreadId>>>);

    impl Drop for Ends {
        fn drop(&mut self) {
            *lock(&self.0) = Some(thread::current().id());
            panic!("in a drop");
        }
    }

    /// A request with an alarm, and which thread it ends on.
    fn ends_badly(wait: Duration, is_wanted: bool) -> (Arc<Core>, Arc<Mutex<Option<ThreadId>>>) {
        let (request, ended) = (Request::new("ends", Inline), Arc::default());
        assert!(request.promise().complete(Ends(Arc::clone(&ended))).is_ok());
        let late = request.promise::<i32>().or_timeout(wait);
        assert!(is_wanted || late.cancel());
        (Arc::clone(&request.0), ended)
    }

    /// Comes back once a sweep has so many of a request, and waits for its lock; or if another one was there before.
    fn is_asked(core: &Arc<Core>, had: usize) {
        let since = Instant::now();
        while Arc::strong_count(core) == had && since.elapsed() < Duration::from_secs(2) {
            thread::yield_now();
        }
        thread::sleep(Duration::from_millis(2));
    }

    /// A request ends while it is asked whether it wants its alarm.
    #[test]
    fn an_alarm_is_left_out_whose_request_ends_with_a_panic() {
        for round in 0.. {
            let wait = Duration::from_secs(4000 + round);
            let (core, ended) = ends_badly(wait, true);
            let held = core.lock();
            let sweeps = thread::spawn(drop_unwanted);
            is_asked(&core, 1);
            drop(held);
            swallow_panic(|| drop(core));
            sweeps.join().unwrap();
            if *lock(&ended) != Some(thread::current().id()) {
                assert!(!ALARMS.lock().due().alarms.iter().any(|Reverse(rings)| rings.alarm.wait == wait), "it is kept");
                return;
            }
        }
    }

    /// And one ends as its alarm is dropped, which is no longer wanted.
    #[test]
    fn a_sweep_goes_on_where_a_request_ends_with_a_panic() {
        let (asked_last, (core, _)) = (Request::new("asked last", Inline), ends_badly(Duration::from_secs(3000), false));
        let _late = asked_last.promise::<i32>().or_timeout(Duration::from_secs(3600));
        let held = asked_last.0.lock();
        let sweeps = thread::spawn(drop_unwanted);
        is_asked(&asked_last.0, Arc::strong_count(&asked_last.0));
        let last = core.lock();
        drop(held);
        is_asked(&core, 1);
        drop(last);
        swallow_panic(|| drop(core));
        assert!(sweeps.join().is_ok());
    }
}
