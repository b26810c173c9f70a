//! What tests know of a request's lock, and what they do under it: whether this thread has one, and whether the machine is refused memory.
use cf_graph::Refused;
use std::cell::Cell;
use std::ops::{Deref, DerefMut};

thread_local! {
    static LOCKS: Cell<usize> = const { Cell::new(0) };
    static LEFT: Cell<Option<usize>> = const { Cell::new(None) };
}

/// A lock of which it is known that this thread has it.
pub(crate) struct Known<G>(G);

impl<G> Known<G> {
    pub(crate) fn new(guard: G) -> Known<G> {
        LOCKS.with(|locks| locks.set(locks.get() + 1));
        Known(guard)
    }
}

impl<G> Drop for Known<G> {
    fn drop(&mut self) {
        LOCKS.with(|locks| locks.set(locks.get() - 1));
    }
}

impl<G: Deref> Deref for Known<G> {
    type Target = G::Target;

    fn deref(&self) -> &G::Target {
        &self.0
    }
}

impl<G: DerefMut> DerefMut for Known<G> {
    fn deref_mut(&mut self) -> &mut G::Target {
        &mut self.0
    }
}

/// Whether this thread has the lock of a request.
pub(crate) fn is_held() -> bool {
    LOCKS.with(|locks| locks.get() > 0)
}

/// Memory for a call of a machine, unless it is refused to this thread now.
pub(crate) fn memory() -> Result<(), Refused> {
    LEFT.with(|left| match left.get() {
        Some(0) => Err(Refused::NO_MEMORY),
        calls => {
            left.set(calls.map(|calls| calls - 1));
            Ok(())
        }
    })
}

/// Refuses this thread's machines memory after so many calls, until they have it again.
pub(crate) fn refuse_memory(after: Option<usize>) {
    LEFT.with(|left| left.set(after));
}
