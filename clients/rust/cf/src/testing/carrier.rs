//! Threads that carry code which may wait. One thread of a run goes on at a time: the search hands it the turn, and gets it back once the code waits
//! or has ended.
use std::panic::resume_unwind;
use std::sync::{Arc, Condvar, Mutex, MutexGuard, PoisonError};
use std::thread::{self, JoinHandle};

use crate::spawn::swallow_panic;

/// What user code panics with where it is to be left, which nobody prints.
pub(crate) struct LeavePanic;

/// Leaves user code. Where that is left already, what is dropped goes on.
pub(crate) fn leave_code() {
    if !thread::panicking() {
        resume_unwind(Box::new(LeavePanic));
    }
}

pub(crate) type Act = Box<dyn FnOnce() + Send>;

enum CarrierTurn {
    Idle,
    Begins(Act),
    Runs,
    Rests,
    GoesOn,
    /// What rests is to end.
    Ends,
    /// The thread is to end.
    Quits,
}

/// A thread that carries one function at a time.
pub(crate) struct Carrier {
    turn: Mutex<CarrierTurn>,
    changed: Condvar,
}

impl Carrier {
    fn lock(&self) -> MutexGuard<'_, CarrierTurn> {
        self.turn.lock().unwrap_or_else(PoisonError::into_inner)
    }

    fn wait_until<'a>(&self, turn: MutexGuard<'a, CarrierTurn>, is_there: impl Fn(&CarrierTurn) -> bool) -> MutexGuard<'a, CarrierTurn> {
        let waited = self.changed.wait_while(turn, |turn| !is_there(turn));
        waited.unwrap_or_else(PoisonError::into_inner)
    }

    /// Hands the turn over, and waits for it. Whether the code has ended.
    fn hand_over(&self, turn: CarrierTurn) -> bool {
        let mut held = self.lock();
        *held = turn;
        self.changed.notify_all();
        let held = self.wait_until(held, |turn| matches!(turn, CarrierTurn::Idle | CarrierTurn::Rests));
        matches!(*held, CarrierTurn::Idle)
    }

    /// Lets code go until it waits or has ended. Whether it has ended.
    pub(crate) fn begin(&self, act: Act) -> bool {
        self.hand_over(CarrierTurn::Begins(act))
    }

    /// Lets code that waits go on. Whether it has ended.
    pub(crate) fn resume(&self) -> bool {
        self.hand_over(CarrierTurn::GoesOn)
    }

    /// Called by the code: gives the turn back, and waits for the next one.
    pub(crate) fn pause(&self) {
        if thread::panicking() {
            return;
        }
        let mut held = self.lock();
        *held = CarrierTurn::Rests;
        self.changed.notify_all();
        let mut held = self.wait_until(held, |turn| matches!(turn, CarrierTurn::GoesOn | CarrierTurn::Ends));
        let ends = matches!(*held, CarrierTurn::Ends);
        *held = CarrierTurn::Runs;
        drop(held);
        if ends {
            leave_code();
        }
    }

    /// Ends code that waits. Whether it has ended: some may wait again and again.
    pub(crate) fn end(&self) -> bool {
        (0..100).any(|_| self.hand_over(CarrierTurn::Ends))
    }

    fn serve(&self) {
        loop {
            let mut held = self.wait_until(self.lock(), |turn| matches!(turn, CarrierTurn::Begins(_) | CarrierTurn::Quits));
            let act = match std::mem::replace(&mut *held, CarrierTurn::Runs) {
                CarrierTurn::Begins(act) => act,
                _ => return,
            };
            drop(held);
            swallow_panic(act);
            *self.lock() = CarrierTurn::Idle;
            self.changed.notify_all();
        }
    }
}

/// Those that are idle, which runs use again.
#[derive(Default)]
pub(crate) struct Carriers {
    idle: Vec<Arc<Carrier>>,
    threads: Vec<(Arc<Carrier>, JoinHandle<()>)>,
}

impl Carriers {
    /// One that is idle.
    ///
    /// # Panics
    ///
    /// Where the system starts no thread.
    pub(crate) fn take(&mut self) -> Arc<Carrier> {
        self.idle.pop().unwrap_or_else(|| {
            let carrier = Arc::new(Carrier { turn: Mutex::new(CarrierTurn::Idle), changed: Condvar::new() });
            let serves = Arc::clone(&carrier);
            let thread = thread::Builder::new().name("cf testing".into()).spawn(move || serves.serve()).expect("a thread for what waits");
            self.threads.push((Arc::clone(&carrier), thread));
            carrier
        })
    }

    /// Gives back one that is idle.
    pub(crate) fn give(&mut self, carrier: Arc<Carrier>) {
        self.idle.push(carrier);
    }
}

impl Drop for Carriers {
    /// A thread whose code doesn't end is left.
    fn drop(&mut self) {
        for (carrier, thread) in self.threads.drain(..) {
            let mut turn = carrier.lock();
            let is_idle = matches!(*turn, CarrierTurn::Idle);
            *turn = CarrierTurn::Quits;
            drop(turn);
            carrier.changed.notify_all();
            if is_idle {
                drop(thread.join());
            }
        }
    }
}

#[cfg(test)]
mod tests {
    use super::*;

    #[test]
    fn a_thread_that_is_given_back_is_used_again() {
        let mut carriers = Carriers::default();
        let carrier = carriers.take();
        carriers.give(Arc::clone(&carrier));
        assert!(Arc::ptr_eq(&carrier, &carriers.take()));
    }
}
