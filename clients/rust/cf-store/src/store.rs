//! What a store is asked: rows of entries, their payloads, timers, and which sessions are there.
use crate::error::StoreError;
use cf_graph::Entry;
use std::any::Any;
use std::collections::BTreeMap;
use std::time::Duration;

/// A request as it was opened. A later request of the same name has another number.
#[derive(Clone, Debug, PartialEq)]
pub struct Opened {
    /// The request's name.
    pub name: String,
    /// The text of its plan.
    pub plan: String,
    /// When it was opened, in seconds of the store's clock since 1970.
    pub opened: f64,
    /// Its own number.
    pub number: i64,
}

/// Entries that are to stand behind the first `at` of a request's row: all of them or none.
#[derive(Clone, Copy, Debug)]
pub struct Put<'a> {
    /// The request's name.
    pub request: &'a str,
    /// The request's own number.
    pub number: i64,
    /// The number of entries before them.
    pub at: usize,
    /// The entries, at least one.
    pub entries: &'a [Entry],
    /// The payloads of words that have one, by the words' places, which are counted from 1.
    pub payloads: &'a BTreeMap<usize, Vec<u8>>,
    /// Whether the put also opens a closed request again, in one step.
    pub opens: bool,
}

/// A timer, which settles a stage at a moment unless it is settled by then.
#[derive(Clone, Debug, PartialEq)]
pub struct Timer {
    /// The request's name.
    pub request: String,
    /// The request's own number, or 0 for any request of the name.
    pub number: i64,
    /// The stage.
    pub stage: u16,
    /// The moment, in seconds of the store's clock since 1970.
    pub due: f64,
    /// A letter, and bytes: `E` and an error for a stage that times out, `V` and a value, or `N` for null.
    pub payload: Vec<u8>,
}

/// The point up to which [`Store::news`] has told: two numbers of the store's own.
pub type Mark = (i64, i64);

/// The number of words of each request, by name; None for a closed one.
pub type WordCounts = BTreeMap<String, Option<usize>>;

/// Checks rows of a place, a word and a token, which stand behind `at` others without a gap, and gives their entries.
#[cfg_attr(not(any(feature = "sqlite", feature = "postgres")), allow(dead_code))]
pub(crate) fn check_row(name: &str, at: usize, rows: impl IntoIterator<Item = (i64, i64, i64)>) -> Result<Vec<Entry>, StoreError> {
    let mut entries = Vec::new();
    for (place, word, token) in rows {
        let expected = at + entries.len();
        if place != expected as i64 {
            return Err(StoreError::broken(name, expected + 1, format!("no word stands there, and one stands at {}", place + 1)));
        }
        if word < 0 || token < 0 {
            return Err(StoreError::broken(name, expected + 1, format!("{word} with {token} is no word with its token")));
        }
        entries.push(Entry { word: word as u64, token: token as u64 });
    }
    Ok(entries)
}

/// Rows in an engine. Any thread may use it. Each call may answer [`StoreError::Unknown`], and one that has a request's number
/// [`StoreError::Gone`] where that was dropped.
///
/// The engine puts a group of entries whole or not at all, and only where none stands yet; what it has answered is on disk; and what it gives to
/// read is the row, or a beginning of it.
pub trait Store: Send + Sync {
    /// Opens a request, or gives the one of this name, which may have another plan.
    fn open(&self, name: &str, plan: &str) -> Result<Opened, StoreError>;

    /// Finds a request.
    fn find(&self, name: &str) -> Result<Option<Opened>, StoreError>;

    /// Puts entries. None if they stand now; otherwise the entries that stand from their first place on.
    fn append(&self, put: Put<'_>) -> Result<Option<Vec<Entry>>, StoreError>;

    /// Reads the entries behind the first `at`. A stale answer is a shorter one.
    fn read(&self, name: &str, number: i64, at: usize) -> Result<Vec<Entry>, StoreError>;

    /// Reads the payload of a place, if it has one.
    fn payload(&self, name: &str, number: i64, place: usize) -> Result<Option<Vec<u8>>, StoreError>;

    /// Reads the payloads of several places, in their order. By default it reads each by itself.
    fn payloads(&self, name: &str, number: i64, places: &[usize]) -> Result<Vec<Option<Vec<u8>>>, StoreError> {
        places.iter().map(|place| self.payload(name, number, *place)).collect()
    }

    /// Tells the number of words of each open request that may have changed since a mark, and the next mark. Without a mark it tells all open
    /// requests and no others. With a mark it may leave out one that was opened again, and may include a closed one that got words meanwhile.
    fn news(&self, since: Option<Mark>) -> Result<(WordCounts, Mark), StoreError>;

    /// Waits until others may have put something since the last call, for `wait` at most. One thread at a time calls it.
    fn wait_for_change(&self, wait: Duration) -> Result<(), StoreError>;

    /// Closes a request that has just `at` words, and forgets its timers. True if this call has closed it. A put that [opens](Put::opens) it takes
    /// that back.
    fn end(&self, name: &str, number: i64, at: usize) -> Result<bool, StoreError>;

    /// Counts a beat of a session: a sign of life.
    fn beat(&self, session: u64) -> Result<(), StoreError>;

    /// Tells the number of beats of each session.
    fn beats(&self) -> Result<BTreeMap<u64, i64>, StoreError>;

    /// Forgets a session that has ended.
    fn drop_beat(&self, session: u64) -> Result<(), StoreError>;

    /// Names a session, as long as its beats are kept.
    fn name_session(&self, session: u64, name: &str) -> Result<(), StoreError>;

    /// Tells the time of the store's clock, in seconds since 1970.
    fn now(&self) -> Result<f64, StoreError>;

    /// Sets a stage's timer, in place of one that it had.
    fn set_timer(&self, timer: &Timer) -> Result<(), StoreError>;

    /// Tells the timers that are due at this moment.
    fn due_timers(&self, now: f64) -> Result<Vec<Timer>, StoreError>;

    /// Forgets a stage's timer.
    fn drop_timer(&self, timer: &Timer) -> Result<(), StoreError>;

    /// Whether [`transaction`](Store::transaction) is supported.
    fn transacts(&self) -> bool {
        false
    }

    /// Whether an open transaction keeps all others from putting.
    fn locks_out_others(&self) -> bool {
        false
    }

    /// Begins a transaction, in which a function's effect and the word of its finish stand or fall together.
    fn transaction(&self) -> Result<Box<dyn Transaction + '_>, StoreError> {
        Err(StoreError::Refused("the store has no transactions that a function can take part in".into()))
    }
}

/// A transaction of an engine, with a connection of its own. When it is dropped it ends without effect, unless it was committed.
pub trait Transaction {
    /// The connection that a function gets.
    fn connection(&mut self) -> &mut dyn Any;

    /// Whether the connection is gone, or the engine can't write now. Then a function's failure may be due to that, and all is undone.
    fn is_away(&mut self) -> bool {
        false
    }

    /// Puts within the transaction. False if the place was taken.
    fn append(&mut self, put: Put<'_>) -> Result<bool, StoreError>;

    /// Commits. [`StoreError::Unknown`] if it may stand or not.
    fn commit(&mut self) -> Result<(), StoreError>;
}
