//! Which stages are scopes, which ones are of them, and what a scope waits for.
//!
//! A scope is a source. The machine cancels the stages that are of it once it is settled. Which those are is noted here for what is attached behind
//! them, and for who joins the scope.
use crate::core::Core;
use crate::error::{Error, Refusal};
use crate::inner::{panic_refused, After, Inner};
use crate::ledger::How;
use crate::name::Made;
use crate::spawn::RELAY;
use crate::word::WordForm;
use cf_graph::Refused;
use std::collections::{BTreeMap, BTreeSet};
use std::iter::successors;
use std::sync::Arc;

/// The scopes of a request. A request without scopes has nothing to look up.
#[derive(Default)]
pub(crate) struct Scopes {
    /// The stages that are scopes.
    pub(crate) all: BTreeSet<u16>,
    /// The scope of each stage that is of one.
    of: BTreeMap<u16, u16>,
    /// The stages of scopes whose failure somebody takes over: a stage behind it, or who has asked for its result.
    taken: BTreeSet<u16>,
}

impl Scopes {
    #[inline]
    pub(crate) fn scope_of(&self, stage: u16) -> Option<u16> {
        self.of.get(&stage).copied()
    }

    /// Somebody takes the failures of these stages over.
    #[inline]
    pub(crate) fn note_taken(&mut self, stages: &[u16]) {
        if !self.of.is_empty() {
            self.taken.extend(stages.iter().filter(|stage| self.of.contains_key(stage)));
        }
    }

    /// The stages within a scope, but for scopes.
    fn within(&self, scope: u16) -> impl Iterator<Item = u16> + '_ {
        let is_within = move |stage| successors(self.scope_of(stage), |outer| self.scope_of(*outer)).any(|it| it == scope);
        self.of.keys().copied().filter(move |stage| !self.all.contains(stage) && is_within(*stage))
    }
}

/// What is left of a scope.
pub(crate) enum Left {
    /// This stage is settled once all of these stages have values, or one of them has failed.
    Open(u16),
    /// Nothing. That is how it ended.
    Nothing(Result<(), Error>),
}

impl Inner {
    /// Whether something may be attached there.
    #[inline]
    pub(crate) fn is_open(&mut self, within: Option<u16>) -> Result<(), Refusal> {
        match within {
            Some(scope) if self.slot(scope).is_settled() => Err(Refusal::ScopeEnded),
            _ => Ok(()),
        }
    }

    /// Puts a stage that was just attached into a scope, which is open.
    #[cold]
    pub(crate) fn put_in(&mut self, stage: u16, scope: u16, after: &mut After) -> Result<(), Refusal> {
        self.scopes.of.insert(stage, scope);
        match self.ledger.join(stage, &[scope], How::IsCancelled) {
            Ok(()) => self.show_settled(after),
            Err(Refused::NO_MEMORY) => {
                // Nobody has it, and its function isn't called.
                let _ = self.settle(RELAY, stage, Err(Error::Cancelled), after);
                return Err(Refusal::NoLedger);
            }
            Err(why) => unreachable!("{why}, of stages that are there"),
        }
        Ok(())
    }

    /// What is left of a scope, unless a stage of it failed that nobody takes over: with this it fails.
    fn left_of_scope(&mut self, who: u8, scope: u16, after: &mut After) -> Left {
        let (settled, open): (Vec<u16>, Vec<u16>) = self.scopes.within(scope).partition(|stage| self.slots[usize::from(*stage)].is_settled());
        let is_lost = |stage: &u16| !self.scopes.taken.contains(stage);
        let mut failures = settled.into_iter().filter(is_lost).filter_map(|stage| self.end_of(stage)?.err());
        if let Some(error) = failures.find(|error| !error.is_cancelled()) {
            return Left::Nothing(Err(error));
        }
        if open.is_empty() {
            return Left::Nothing(self.end_of_scope(scope));
        }
        let last: Vec<u16> = open.iter().copied().filter(is_lost).collect();
        let of = if last.is_empty() { open } else { last };
        let join = self.join((who, None), of.len() as u16, &of, Made::without_function(|| "join"), after);
        join.map_or_else(|why| Left::Nothing(Err(why.into())), Left::Open)
    }

    /// How a scope ended: well, if it is open or has ended with a stage.
    fn end_of_scope(&self, scope: u16) -> Result<(), Error> {
        let (outer, mut joins) = (self.scopes.scope_of(scope), self.ledger.joins.iter());
        let is_over = joins.any(|it| it.stage == scope && Some(it.of[0]) != outer && self.slots[usize::from(it.of[0])].is_settled());
        match self.end_of(scope) {
            Some(Err(error)) if !(is_over && error.is_cancelled()) => Err(error),
            _ => Ok(()),
        }
    }
}

impl Core {
    /// Opens a scope.
    pub(crate) fn open_scope(self: &Arc<Core>, who: u8, within: Option<u16>, made: Made) -> Result<u16, Refusal> {
        self.change(|inner, after| {
            let scope = inner.attach((who, within), WordForm::Source, &[], None, made, after)?;
            inner.scopes.all.insert(scope);
            Ok(scope)
        })
    }

    /// Lets a scope end once a stage is settled.
    pub(crate) fn end_scope_with(self: &Arc<Core>, scope: u16, stage: u16) {
        self.change(|inner, after| {
            inner.end_by(scope, &[stage], How::IsCancelled, after).unwrap_or_else(|why| panic_refused(why));
        });
    }

    /// What is left of a scope.
    pub(crate) fn left_of_scope(self: &Arc<Core>, who: u8, scope: u16) -> Left {
        #[cfg(feature = "testing")]
        self.tell_watch(|watch| watch.note_look(self.lock().slots.len()));
        self.change(|inner, after| inner.left_of_scope(who, scope, after))
    }
}
