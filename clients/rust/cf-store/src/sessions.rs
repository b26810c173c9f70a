//! Which sessions are alive, by their beats and their words.
use std::collections::BTreeMap;
use std::sync::atomic::{AtomicBool, Ordering};
use std::sync::{Mutex, MutexGuard, PoisonError};
use std::time::{Duration, Instant};

/// The number of leases after which the beats of a gone session are dropped.
const LONG_GONE: u32 = 100;

/// What a service knows of all sessions, its own included.
pub(crate) struct Sessions {
    pub(crate) own: u64,
    watcher: Mutex<Watcher>,
    /// Whether another session has failed a stage of this one, which hasn't beaten since.
    is_given_up: AtomicBool,
}

impl Sessions {
    /// Knows no session but its own. Another one is gone after a lease without a sign of life.
    pub(crate) fn new(own: u64, lease: Duration) -> Sessions {
        let watcher = Watcher { seen: BTreeMap::new(), time: Duration::ZERO, answered: None, lease };
        Sessions { own, watcher: Mutex::new(watcher), is_given_up: AtomicBool::new(false) }
    }

    /// Notes that the store is asked for all beats.
    pub(crate) fn begin_question(&self, now: Instant) {
        self.watcher().begin_question(now);
    }

    /// Takes in all beats, which have just come, and gives the sessions that are long gone.
    pub(crate) fn take_in_beats(&self, now: Instant, beats: BTreeMap<u64, i64>) -> Vec<u64> {
        self.watcher().take_in_beats(now, beats)
    }

    /// Notes that the store takes no beat now, or doesn't tell of any.
    pub(crate) fn note_silence(&self) {
        self.watcher().note_silence();
    }

    /// Notes a new word of a session, which is a sign of life.
    pub(crate) fn note_word_of(&self, session: u64, now: Instant) {
        self.watcher().note_sign_of_life(session, now);
    }

    /// Whether another session gave no sign of life for a lease.
    pub(crate) fn is_gone(&self, session: u64, now: Instant) -> bool {
        session != self.own && self.watcher().is_gone(session, now)
    }

    /// Notes that another session has failed a stage of this one, and may take it for gone. It may also fail what this one claims before its next
    /// beat.
    pub(crate) fn note_given_up(&self) {
        self.is_given_up.store(true, Ordering::SeqCst);
    }

    /// Notes a beat of the own session.
    pub(crate) fn note_own_beat(&self) {
        self.is_given_up.store(false, Ordering::SeqCst);
    }

    /// Whether the own session must beat before it claims a stage.
    pub(crate) fn is_given_up(&self) -> bool {
        self.is_given_up.load(Ordering::SeqCst)
    }

    fn watcher(&self) -> MutexGuard<'_, Watcher> {
        self.watcher.lock().unwrap_or_else(PoisonError::into_inner)
    }
}

/// Finds gone sessions by this process's own clock: those without a sign of life for a lease in which the store answered. Time counts only from an
/// answer to the next question, and for half a lease at most: in a longer pause the process or the machine stood still, and others may have, too.
struct Watcher {
    /// Each session's count of beats, if that was read, and the time of its last sign of life.
    seen: BTreeMap<u64, (Option<i64>, Duration)>,
    /// The time that has counted.
    time: Duration,
    /// The moment of the last answer, if the store wasn't asked since.
    answered: Option<Instant>,
    lease: Duration,
}

impl Watcher {
    /// The time that has counted by now.
    fn counted(&self, now: Instant) -> Duration {
        self.time + self.answered.map_or(Duration::ZERO, |answered| (now - answered).min(self.lease / 2))
    }

    fn begin_question(&mut self, now: Instant) {
        self.time = self.counted(now);
        self.answered = None;
    }

    /// Forgets all signs of life: while the store is away nobody can give one.
    fn note_silence(&mut self) {
        self.answered = None;
        self.seen.clear();
    }

    /// Takes in all beats, and gives the sessions that are long gone.
    fn take_in_beats(&mut self, now: Instant, beats: BTreeMap<u64, i64>) -> Vec<u64> {
        self.answered = Some(now);
        for (session, count) in beats {
            if self.seen.get(&session).map_or(true, |(known, _)| *known != Some(count)) {
                self.seen.insert(session, (Some(count), self.time));
            }
        }
        let until = self.time.saturating_sub(self.lease * LONG_GONE);
        let mut gone = Vec::new();
        self.seen.retain(|session, (count, since)| {
            let stays = *since >= until;
            gone.extend(count.filter(|_| !stays).map(|_| *session));
            stays
        });
        gone
    }

    fn note_sign_of_life(&mut self, session: u64, now: Instant) {
        let time = self.counted(now);
        self.seen.entry(session).or_insert((None, time)).1 = time;
    }

    /// Whether a session gave no sign of life for a lease. One that never beat counts from now on.
    fn is_gone(&mut self, session: u64, now: Instant) -> bool {
        let counted = self.counted(now);
        let (_, since) = *self.seen.entry(session).or_insert((None, counted));
        self.time.saturating_sub(since) > self.lease
    }
}
