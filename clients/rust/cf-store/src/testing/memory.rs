//! A store in memory, which keeps what an engine keeps.
use super::rows::lock;
use crate::error::StoreError;
use crate::store::{Mark, Opened, Put, Store, Timer, WordCounts};
use cf_graph::Entry;
use std::collections::BTreeMap;
use std::sync::Mutex;
use std::time::Duration;

#[derive(Default)]
pub(crate) struct Memory(Mutex<MemoryState>);

#[derive(Default)]
struct MemoryState {
    rows: BTreeMap<String, StoredRow>,
    beats: BTreeMap<u64, i64>,
    /// With the number of each, and how many were made.
    timers: BTreeMap<(i64, u16), (u32, Timer)>,
    timers_made: u32,
    /// How many requests were opened and puts made.
    changes: i64,
}

/// What stands of a request.
struct StoredRow {
    opened: Opened,
    is_closed: bool,
    entries: Vec<Entry>,
    payloads: BTreeMap<usize, Vec<u8>>,
    /// The number of its last change.
    changed: i64,
}

impl MemoryState {
    fn row(&mut self, name: &str, number: i64) -> Result<&mut StoredRow, StoreError> {
        self.rows.get_mut(name).filter(|row| row.opened.number == number).ok_or_else(|| StoreError::Gone(name.into()))
    }
}

impl Memory {
    pub(crate) fn is_open(&self, name: &str) -> bool {
        lock(&self.0).rows.get(name).map_or(false, |row| !row.is_closed)
    }

    /// The timers, with the number of each.
    pub(super) fn timers(&self) -> Vec<(u32, Timer)> {
        lock(&self.0).timers.values().cloned().collect()
    }
}

impl Store for Memory {
    fn open(&self, name: &str, plan: &str) -> Result<Opened, StoreError> {
        let kept = &mut *lock(&self.0);
        let opened = Opened { name: name.into(), plan: plan.into(), opened: 0.0, number: kept.rows.len() as i64 + 1 };
        kept.changes += 1;
        let row = || StoredRow { opened, is_closed: false, entries: Vec::new(), payloads: BTreeMap::new(), changed: kept.changes };
        Ok(kept.rows.entry(name.into()).or_insert_with(row).opened.clone())
    }

    fn find(&self, name: &str) -> Result<Option<Opened>, StoreError> {
        Ok(lock(&self.0).rows.get(name).map(|row| row.opened.clone()))
    }

    fn append(&self, put: Put<'_>) -> Result<Option<Vec<Entry>>, StoreError> {
        let mut kept = lock(&self.0);
        let change = kept.changes + 1;
        let row = kept.row(put.request, put.number)?;
        if row.entries.len() != put.at {
            return Ok(Some(row.entries.get(put.at..).map_or(Vec::new(), <[Entry]>::to_vec)));
        }
        row.entries.extend_from_slice(put.entries);
        row.is_closed &= !put.opens;
        row.changed = change;
        row.payloads.extend(put.payloads.iter().map(|(place, payload)| (*place, payload.clone())));
        kept.changes = change;
        Ok(None)
    }

    fn read(&self, name: &str, number: i64, at: usize) -> Result<Vec<Entry>, StoreError> {
        Ok(lock(&self.0).row(name, number)?.entries.get(at..).map_or(Vec::new(), <[Entry]>::to_vec))
    }

    fn payload(&self, name: &str, number: i64, place: usize) -> Result<Option<Vec<u8>>, StoreError> {
        Ok(lock(&self.0).row(name, number)?.payloads.get(&place).cloned())
    }

    fn news(&self, since: Option<Mark>) -> Result<(WordCounts, Mark), StoreError> {
        let kept = lock(&self.0);
        let is_told = |row: &StoredRow| since.map_or(!row.is_closed, |(since, _)| row.changed > since);
        let rows = kept.rows.iter().filter(|it| is_told(it.1));
        let news = rows.map(|(name, row)| (name.clone(), (!row.is_closed).then_some(row.entries.len())));
        Ok((news.collect(), (kept.changes, 0)))
    }

    fn wait_for_change(&self, _wait: Duration) -> Result<(), StoreError> {
        Ok(())
    }

    fn end(&self, name: &str, number: i64, at: usize) -> Result<bool, StoreError> {
        let mut kept = lock(&self.0);
        let row = kept.row(name, number)?;
        let closes = !row.is_closed && row.entries.len() == at;
        row.is_closed |= closes;
        if closes {
            kept.timers.retain(|key, _| key.0 != number);
        }
        Ok(closes)
    }

    fn beat(&self, session: u64) -> Result<(), StoreError> {
        *lock(&self.0).beats.entry(session).or_default() += 1;
        Ok(())
    }

    fn beats(&self) -> Result<BTreeMap<u64, i64>, StoreError> {
        Ok(lock(&self.0).beats.clone())
    }

    fn drop_beat(&self, session: u64) -> Result<(), StoreError> {
        lock(&self.0).beats.remove(&session);
        Ok(())
    }

    fn name_session(&self, _session: u64, _name: &str) -> Result<(), StoreError> {
        Ok(())
    }

    fn now(&self) -> Result<f64, StoreError> {
        Ok(0.0)
    }

    fn set_timer(&self, timer: &Timer) -> Result<(), StoreError> {
        let mut kept = lock(&self.0);
        kept.row(&timer.request, timer.number)?;
        kept.timers_made += 1;
        let made = kept.timers_made;
        kept.timers.insert((timer.number, timer.stage), (made, timer.clone()));
        Ok(())
    }

    fn due_timers(&self, now: f64) -> Result<Vec<Timer>, StoreError> {
        Ok(lock(&self.0).timers.values().filter(|it| it.1.due <= now).map(|it| it.1.clone()).collect())
    }

    fn drop_timer(&self, timer: &Timer) -> Result<(), StoreError> {
        lock(&self.0).timers.remove(&(timer.number, timer.stage));
        Ok(())
    }
}
