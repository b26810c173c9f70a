//! What the crate `cf-store` has of a run: processes that share a store in memory, whose threads, clocks and engine are the search's. What a store's
//! moves are, and what they do, stands there. Nothing here is for others' use, and it may change with any version.
use super::carrier::{leave_code, Carriers};
use super::footprint::{Access, Thing};
use super::moves::{StoreMove, Who};
use super::run::{Run, Stopped};
use super::state::{Flight, Until, Wait};
use super::watch::Here;
use super::world::World;
use std::any::Any;
use std::fmt;
use std::sync::Arc;

/// A store in memory, and the processes that share it.
pub trait Sharing: Send + Sync {
    /// What may happen beside what threads do that go on. `is_alone` says that nothing else may.
    fn possible_moves(&self, is_alone: bool) -> Vec<StoreMove>;

    /// Makes a move other than an ask. What a thread is to do in it is given back.
    fn make_move(&self, key: StoreMove) -> ThreadWork;

    /// What a move is called; of an ask, in which way it is answered. It is asked before the move is made.
    fn move_text(&self, key: StoreMove) -> String;

    /// What was done since this was asked last.
    fn take_told(&self) -> Vec<String>;

    /// The words of all rows.
    fn words_of_rows(&self) -> Vec<Vec<u64>>;

    /// The history of each row, in the order in which they were opened.
    fn histories(&self) -> Vec<Arc<dyn StoredHistory>>;

    /// Lets go of what processes have.
    fn close(&self);
}

/// What happened to a request in a store, for a [`Failure`](super::Failure).
pub trait StoredHistory: Send + Sync + fmt::Debug {
    /// What `cf_look check` judges, a line.
    fn account(&self) -> String;

    /// What `cf run` does again.
    fn script(&self) -> String;

    /// The history as the crate `cf-store` has it.
    fn as_any(&self) -> &dyn Any;
}

/// What a thread is to do in a move.
pub enum ThreadWork {
    /// Nothing.
    Nothing,
    /// A thread of a process begins: its name, whether it does what a test says, and what it does.
    Begins(u16, u32, String, bool, Box<dyn FnOnce() + Send>),
    /// The time is over for which a thread waits.
    Late(u16, u32),
    /// The threads of a process do nothing more.
    Ends(u16),
}

/// What a thread waits for.
pub enum WaitsFor {
    /// One of the ways that are possible, for the so-manyth time.
    Asks(u32, Box<dyn Fn() -> Vec<u16> + Send>),
    /// That something is so.
    Until(Box<dyn Fn() -> bool + Send>),
}

/// A run, as a store sees it.
#[derive(Clone)]
pub struct Seam(Arc<Run>);

impl World {
    /// The run, for a store.
    #[doc(hidden)]
    pub fn seam(&self) -> Seam {
        Seam(Arc::clone(&self.0))
    }
}

impl Seam {
    /// Has a store's moves be tried, too. A store's threads wait, so the search begins again with threads, if it has none.
    ///
    /// # Panics
    ///
    /// Where the world has a store.
    pub fn keep_store(&self, make: impl FnOnce() -> Arc<dyn Sharing>) {
        let mut state = self.0.lock();
        if !state.settings.has_threads {
            state.needs_threads = true;
            drop(state);
            leave_code();
            return;
        }
        assert!(state.sharing.is_none(), "a world has one store");
        state.sharing = Some(make());
    }

    /// Whether what comes to the same is left out.
    pub fn is_reducing(&self) -> bool {
        self.0.lock().settings.reduce
    }

    /// Whether what a function panics with is its stage's error.
    pub fn keeps_panics(&self) -> bool {
        self.0.lock().settings.panics
    }

    /// This move reads something of a store, or changes it.
    pub fn touch(&self, kind: &'static str, number: u32, changes: bool) {
        self.0.lock().touch(Thing::Stored(kind, number), if changes { Access::Changes } else { Access::Reads });
    }

    /// The thread of a process that this is.
    pub fn current_thread(&self) -> Option<(u16, u32)> {
        match Here::current().filter(|here| Arc::ptr_eq(&here.run, &self.0))?.who? {
            Who::Thread(process, thread) => Some((process, thread)),
            _ => None,
        }
    }

    /// Calls a function that shares with others what has these names, or whatever there is: all that it does up to its end touches that.
    pub fn call_sharing<T>(&self, (process, thread): (u16, u32), names: Option<&[&'static str]>, call: impl FnOnce() -> T) -> T {
        let who = Who::Thread(process, thread);
        let mut things: Vec<Thing> = names.map_or_else(|| vec![Thing::User], |names| names.iter().map(|name| Thing::Named(name)).collect());
        let mut state = self.0.lock();
        if names.is_some() && !state.checks.is_empty() {
            things.push(Thing::Checked);
        }
        things.iter().for_each(|thing| state.touch(*thing, Access::Changes));
        let more = things.len();
        if let Some(flight) = state.flight(who) {
            flight.shares.extend(things);
        }
        drop(state);
        let told = call();
        if let Some(flight) = self.0.lock().flight(who) {
            flight.shares.truncate(flight.shares.len() - more);
        }
        told
    }

    /// Lets others go on until something is so, or a way is chosen, which is told.
    pub fn wait(&self, name: String, waits: WaitsFor) -> u16 {
        let until = match waits {
            WaitsFor::Asks(time, ways) => Until::Asks(time, ways),
            WaitsFor::Until(is_so) => Until::So(is_so),
        };
        self.0.wait(Wait { name, until }, None)
    }

    /// Whether nobody looks any more.
    pub fn is_over(&self) -> bool {
        let state = self.0.lock();
        state.is_closed || !state.why.is_empty()
    }

    /// This order fails. A thread's code is left.
    pub fn fail(&self, why: String) {
        self.0.lock().fail(why);
        self.leave_thread();
    }

    /// Leaves a thread's code.
    pub fn leave_thread(&self) {
        leave_code();
    }

    /// Whether this is what code is left by.
    pub fn is_leaving(payload: &(dyn std::any::Any + Send)) -> bool {
        payload.downcast_ref::<super::carrier::LeavePanic>().is_some()
    }
}

impl Run {
    /// What may happen in the store.
    pub(crate) fn stored_moves(&self, is_alone: bool) -> Vec<StoreMove> {
        let sharing = self.lock().sharing.clone();
        sharing.map_or(Vec::new(), |sharing| sharing.possible_moves(is_alone))
    }

    pub(crate) fn make_store_move(self: &Arc<Run>, key: StoreMove, carriers: &mut Carriers) -> Result<(), Stopped> {
        if let StoreMove::Ask(process, thread, _, way) = key {
            return self.resume_code(Who::Thread(process, thread), Some(way), carriers);
        }
        let sharing = self.lock().sharing.clone().expect("a store, whose move it is");
        match self.run_layer(|| sharing.make_move(key))? {
            ThreadWork::Nothing => Ok(()),
            ThreadWork::Begins(process, thread, name, is_caller, act) => {
                let who = Who::Thread(process, thread);
                let mut shares = vec![Thing::Stored("process", u32::from(process))];
                if is_caller {
                    shares.push(Thing::User);
                }
                let flight = Flight { name, claim: None, wait: None, waits: 0, is_late: false, chosen: 0, carrier: None, shares };
                let mut state = self.lock();
                state.flights.push((who, flight));
                Run::note_sharing(&mut state, who);
                drop(state);
                self.carry_call(who, act, carriers)
            }
            ThreadWork::Late(process, thread) => {
                if let Some(flight) = self.lock().flight(Who::Thread(process, thread)) {
                    flight.is_late = true;
                }
                Ok(())
            }
            ThreadWork::Ends(process) => {
                let mut state = self.lock();
                let is_its = |who: Who| matches!(who, Who::Thread(its, _) if its == process);
                let (dead, living): (Vec<_>, Vec<_>) = std::mem::take(&mut state.flights).into_iter().partition(|it| is_its(it.0));
                state.flights = living;
                state.dead.extend(dead.into_iter().map(|it| it.1));
                Ok(())
            }
        }
    }
}

impl fmt::Debug for ThreadWork {
    fn fmt(&self, f: &mut fmt::Formatter<'_>) -> fmt::Result {
        f.write_str("Then")
    }
}

impl fmt::Debug for WaitsFor {
    fn fmt(&self, f: &mut fmt::Formatter<'_>) -> fmt::Result {
        f.write_str("Waits")
    }
}

impl fmt::Debug for Seam {
    fn fmt(&self, f: &mut fmt::Formatter<'_>) -> fmt::Result {
        f.write_str("Seam")
    }
}
