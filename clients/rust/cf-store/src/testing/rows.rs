//! What stands in a world's store, and what a reader of all words knows of it.
use super::memory::Memory;
use crate::error::{Error, StoreError};
use crate::history::History;
use crate::host::Host;
use crate::plan;
use crate::sessions::Sessions;
use crate::store::{Opened, Put, Store};
use crate::view::RowView;
use cf_graph::{Answer, Call, Entry, Event};
use serde_json::Value as Json;
use std::collections::BTreeMap;
use std::sync::{Arc, Mutex, MutexGuard, PoisonError};
use std::time::Duration;

pub(super) fn lock<T>(mutex: &Mutex<T>) -> MutexGuard<'_, T> {
    mutex.lock().unwrap_or_else(PoisonError::into_inner)
}

/// A put that is on its way.
#[derive(Clone, Debug)]
pub(super) struct Flying {
    pub(super) request: String,
    pub(super) number: i64,
    pub(super) at: usize,
    entries: Vec<Entry>,
    payloads: BTreeMap<usize, Vec<u8>>,
    opens: bool,
    /// Of the transaction that it commits.
    pub(super) effects: Vec<Json>,
    pub(super) has_landed: bool,
}

impl Flying {
    pub(super) fn new(put: Put<'_>, effects: &[Json]) -> Flying {
        let Put { request, number, at, entries, payloads, opens } = put;
        let (entries, payloads, effects) = (entries.to_vec(), payloads.clone(), effects.to_vec());
        Flying { request: request.into(), number, at, entries, payloads, opens, effects, has_landed: false }
    }

    pub(super) fn put(&self) -> Put<'_> {
        Put { request: &self.request, number: self.number, at: self.at, entries: &self.entries, payloads: &self.payloads, opens: self.opens }
    }
}

/// A view of all words, with the stages of which it was told that they are settled.
struct Read {
    view: RowView,
    settled: Vec<bool>,
}

/// Rows are numbered in the order in which they were opened.
#[derive(Default)]
pub(super) struct Rows {
    pub(super) memory: Arc<Memory>,
    names: Mutex<Vec<String>>,
    views: Mutex<BTreeMap<String, Read>>,
    /// What came to stand in this move.
    pub(super) told: Mutex<Vec<String>>,
}

impl Rows {
    pub(super) fn names(&self) -> Vec<String> {
        lock(&self.names).clone()
    }

    pub(super) fn number_of(&self, name: &str) -> Option<u32> {
        lock(&self.names).iter().position(|known| known == name).map(|at| at as u32)
    }

    /// Asks of a request by all words that stand. Nothing where there is none.
    pub(super) fn ask_view<T>(&self, name: &str, ask: impl FnOnce(&mut RowView) -> T) -> Option<T> {
        lock(&self.views).get_mut(name).map(|it| ask(&mut it.view))
    }

    /// The first stage of a name.
    pub(super) fn stage_number(view: &mut RowView, stage: &str) -> Option<u16> {
        (0..view.stage_count() as u16).find(|number| view.stage_spec(*number).map_or(false, |said| said.name == stage))
    }

    /// What a stage is called.
    pub(super) fn stage_name(&self, request: &str, stage: u16) -> String {
        let said = self.ask_view(request, |view| if usize::from(stage) < view.stage_count() { view.stage_spec(stage).ok() } else { None });
        said.flatten().map_or_else(|| format!("stage {stage}"), |said| said.name)
    }

    /// What a put is called.
    pub(super) fn put_text(&self, put: Put<'_>) -> String {
        let part = |(place, entry): (usize, &Entry)| {
            let (stage, does) = match Event::from_word(entry.word).map(|event| event.call) {
                Ok(Call::Attach(..)) => {
                    let said = put.payloads.get(&place).and_then(|payload| plan::read_stage_spec(payload, usize::MAX).ok());
                    return format!("{} is attached", said.map_or_else(|| "a stage".into(), |said| said.name));
                }
                Ok(Call::Claim(stage)) => (stage, "is claimed"),
                Ok(Call::Complete(stage, _)) => (stage, "is completed"),
                Ok(Call::Fail(stage, _) | Call::FailAs(stage, _)) => (stage, "is failed"),
                Ok(Call::Cancel(stage)) => (stage, "is cancelled"),
                Ok(Call::Finish(stage, Answer::Throw(_))) => (stage, "has failed"),
                Ok(Call::Finish(stage, Answer::Link(_))) => (stage, "is linked"),
                Ok(Call::Finish(stage, _)) => (stage, "is finished"),
                Ok(_) | Err(_) => return "something is changed".into(),
            };
            format!("{} {does}", self.stage_name(put.request, stage))
        };
        format!("puts to {}: {}", put.request, (put.at + 1..).zip(put.entries).map(part).collect::<Vec<_>>().join(", "))
    }

    /// Opens a request, and says whether it is new.
    pub(super) fn open(&self, name: &str, plan: &str) -> Result<(Opened, bool), StoreError> {
        let is_new = self.memory.find(name)?.is_none();
        let opened = self.memory.open(name, plan)?;
        if is_new {
            let sessions = Arc::new(Sessions::new(0, Duration::ZERO));
            let view = RowView::new(Arc::clone(&self.memory) as Arc<dyn Store>, Arc::new(Reader), opened.clone(), sessions)?;
            lock(&self.names).push(name.into());
            lock(&self.views).insert(name.into(), Read { view, settled: Vec::new() });
        }
        Ok((opened, is_new))
    }

    /// As [`Store::append`].
    pub(super) fn append(&self, put: Put<'_>) -> Result<Option<Vec<Entry>>, StoreError> {
        let stands = self.memory.append(put)?;
        let mut told = lock(&self.told);
        if stands.is_some() {
            told.push("another's word stands there".into());
            return Ok(stands);
        }
        let mut views = lock(&self.views);
        let Read { view, settled } = views.get_mut(put.request).expect("it was opened");
        view.catch_up()?;
        settled.resize(view.stage_count(), false);
        for stage in 0..view.stage_count() as u16 {
            if view.is_settled(stage) && !std::mem::replace(&mut settled[usize::from(stage)], true) {
                told.push(format!("{} {}", view.stage_spec(stage)?.name, end_text(view, stage)));
            }
        }
        Ok(None)
    }

    /// What happened to a request, in which sessions are called so. Nothing of a row that can't be told.
    pub(super) fn history(&self, name: &str, sessions: BTreeMap<u64, String>) -> Option<History> {
        let opened = self.memory.find(name).ok()??;
        Some(History::new(&*self.memory, &Reader, opened, |it| it.full_text()).ok()?.with_session_names(sessions))
    }

    /// The entries of each request, in the order in which they were opened.
    pub(super) fn entries(&self) -> Vec<Vec<Entry>> {
        let number = |name: &str| self.memory.find(name).ok().flatten().map_or(0, |opened| opened.number);
        self.names().iter().map(|name| self.memory.read(name, number(name), 0).unwrap_or_default()).collect()
    }
}

/// What a settled stage came to, in words.
pub(super) fn end_text(view: &mut RowView, stage: u16) -> String {
    match read_end(view, stage) {
        Some(Ok(value)) => format!("ends: {value}"),
        Some(Err(Error::Cancelled)) => "is cancelled".into(),
        Some(Err(error)) => format!("ends: {error}"),
        None => "is open".into(),
    }
}

/// What a stage ended in, if it is settled.
pub(super) fn read_end(view: &mut RowView, stage: u16) -> Option<Result<Json, Error>> {
    view.read_end(stage).unwrap_or_else(|error| Some(Err(error.into())))
}

/// What a reader's view asks for.
struct Reader;

impl Host for Reader {
    fn random_bits(&self, _bits: u32) -> u64 {
        1
    }
}
