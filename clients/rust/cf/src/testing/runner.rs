//! Runs of a test: with any choice of moves, again by a row, and told in words.
use super::carrier::Carriers;
use super::footprint::{Footprint, Thing};
use super::moves::{row_of, Move};
use super::report::{Failure, ToldMove};
use super::run::{histories, Run, RunRemains, Stopped, Test};
use super::state::Settings;
use super::watch::Here;
use crate::spawn::swallow_panic;
use std::collections::{BTreeSet, VecDeque};
use std::panic::{catch_unwind, resume_unwind, AssertUnwindSafe};
use std::sync::Arc;

/// Who chooses the moves of a run.
pub(crate) trait Guide {
    /// The move at this place of the row, of those that are possible. With None the run is cut short.
    fn choose(&mut self, place: usize, keys: &[Move]) -> Option<Move>;

    /// A move was made, and touched this.
    fn note_made(&mut self, _key: Move, _footprint: &Footprint) {}
}

/// How a run ended: by itself, cut short by who chose, or failed.
#[derive(Clone, Copy, Debug, PartialEq, Eq)]
pub(crate) enum RunEnd {
    End,
    Cut,
    Failed,
}

/// A run that has ended. Its requests go with it.
pub(crate) struct Ran {
    pub(crate) how: RunEnd,
    pub(crate) row: Vec<Move>,
    pub(crate) why: String,
    pub(crate) told: Vec<ToldMove>,
    /// What the end is, and in how many ways workers could have been chosen.
    pub(crate) end: Option<String>,
    pub(crate) weight: u128,
    /// Whether there are checks.
    pub(crate) is_checked: bool,
    left: RunRemains,
}

impl Ran {
    /// A run that failed and was told, as a value.
    pub(crate) fn failure(&self) -> Failure {
        Failure::new(self.why.clone(), self.row.clone(), self.told.clone(), histories(&self.left.requests), self.left.stored.clone())
    }

    fn words(&self) -> Vec<Vec<u64>> {
        self.left.requests.iter().map(|core| core.lock().ledger.words()).chain(self.left.words.iter().cloned()).collect()
    }
}

impl Drop for Ran {
    /// A function that was never called may have its own request, so all that is left is cancelled.
    fn drop(&mut self) {
        for core in self.left.requests.drain(..) {
            swallow_panic(|| core.cancel_all(crate::spawn::CALLER));
            swallow_panic(|| drop(core));
        }
    }
}

/// What ends a search, which is begun again with threads, since code waits.
pub(crate) struct NeedsThreads;

/// Runs a test as often as is asked.
pub(crate) struct Runner {
    test: Test,
    pub(crate) settings: Settings,
    /// What checks have looked at.
    pub(crate) watched: BTreeSet<Thing>,
    carriers: Carriers,
}

impl Runner {
    pub(crate) fn new(test: Test, settings: Settings) -> Runner {
        Runner { test, settings, watched: BTreeSet::new(), carriers: Carriers::default() }
    }

    /// One run.
    pub(crate) fn go(&mut self, guide: &mut dyn Guide, tells: bool) -> Ran {
        let run = Run::new(self.settings);
        let (mut row, mut told) = (Vec::new(), Vec::new());
        let here = Here { run: Arc::clone(&run), who: None, carrier: None };
        let ended = here.run_as(|| {
            catch_unwind(AssertUnwindSafe(|| {
                let how = self.led(&run, guide, tells, &mut row, &mut told).unwrap_or(RunEnd::Failed);
                (how, if how == RunEnd::End { run.end_text() } else { None })
            }))
        });
        let is_checked = !run.lock().checks.is_empty();
        let left = run.close(&mut self.carriers);
        let state = run.lock();
        let (why, weight, needs_threads) = (state.why.clone(), state.weight, state.needs_threads);
        drop(state);
        let (ended, panicked) = ended.map_or_else(|payload| ((RunEnd::Failed, None), Some(payload)), |ended| (ended, None));
        let ran = Ran { how: ended.0, row, why, told, end: ended.1, weight, is_checked, left };
        if let Some(payload) = panicked {
            resume_unwind(payload);
        }
        if needs_threads {
            resume_unwind(Box::new(NeedsThreads));
        }
        ran
    }

    fn led(&mut self, run: &Arc<Run>, guide: &mut dyn Guide, tells: bool, row: &mut Vec<Move>, told: &mut Vec<ToldMove>) -> Result<RunEnd, Stopped> {
        run.start(&self.test, &mut self.carriers)?;
        run.check_all(&mut self.watched, &mut Footprint::default())?;
        loop {
            let keys = run.moves();
            let key = guide.choose(row.len(), &keys);
            if keys.is_empty() {
                run.finish()?;
                return Ok(RunEnd::End);
            }
            let key = match key {
                Some(key) => key,
                None => return Ok(RunEnd::Cut),
            };
            row.push(key);
            if tells {
                told.push(ToldMove { text: run.move_text(key), settled: Vec::new() });
            }
            let mut made = run.make(key, &mut self.carriers);
            if tells {
                told.last_mut().expect("it was told").settled = run.settled_texts(key);
            }
            if let Ok(footprint) = &mut made {
                run.check_all(&mut self.watched, footprint)?;
            }
            guide.note_made(key, &made?);
        }
    }

    /// Follows a row as far as it can be followed, and goes on with whoever went on last, else with the first.
    pub(crate) fn again(&mut self, row: &[Move]) -> Ran {
        self.go(&mut Again { left: row.iter().copied().collect(), last: None }, true)
    }

    /// Makes the moves of a row, each as soon as those that stand before it have come or can't come yet. What each touched is told.
    pub(crate) fn in_order(&mut self, row: &[Move]) -> (Ran, Vec<Footprint>) {
        let mut guide = InOrder { left: row.to_vec(), footprints: Vec::new() };
        let ran = self.go(&mut guide, false);
        (ran, guide.footprints)
    }

    /// Does a run again. What the row doesn't decide shows.
    ///
    /// # Panics
    ///
    /// Where something else comes of it.
    pub(crate) fn same(&mut self, ran: &Ran) {
        let again = self.go(&mut Same(&ran.row), false);
        let is_same = again.row == ran.row && again.how == ran.how && again.why == ran.why && again.words() == ran.words();
        assert!(
            is_same,
            "the test isn't deterministic: done again, the order\n    {}\nwas\n    {}\nand came to {}, before to {}",
            row_of(&ran.row),
            row_of(&again.row),
            came_to(&again),
            came_to(ran)
        );
    }
}

fn came_to(ran: &Ran) -> String {
    match ran.how {
        RunEnd::Failed => ran.why.clone(),
        _ => "an end".into(),
    }
}

struct Again {
    left: VecDeque<Move>,
    last: Option<Move>,
}

impl Guide for Again {
    fn choose(&mut self, _place: usize, keys: &[Move]) -> Option<Move> {
        if keys.is_empty() {
            return None;
        }
        while let Some(key) = self.left.pop_front() {
            if keys.contains(&key) {
                self.last = Some(key);
                return Some(key);
            }
        }
        let last = self.last.map(Move::actor);
        let own = keys.iter().find(|key| last == Some(key.actor()));
        self.last = Some(*own.unwrap_or(&keys[0]));
        self.last
    }
}

struct InOrder {
    left: Vec<Move>,
    footprints: Vec<Footprint>,
}

impl Guide for InOrder {
    fn choose(&mut self, _place: usize, keys: &[Move]) -> Option<Move> {
        match self.left.iter().position(|key| keys.contains(key)) {
            Some(at) => Some(self.left.remove(at)),
            None => keys.first().copied(),
        }
    }

    fn note_made(&mut self, _key: Move, footprint: &Footprint) {
        self.footprints.push(footprint.clone());
    }
}

struct Same<'a>(&'a [Move]);

impl Guide for Same<'_> {
    fn choose(&mut self, place: usize, keys: &[Move]) -> Option<Move> {
        self.0.get(place).filter(|key| keys.contains(key)).copied()
    }
}
