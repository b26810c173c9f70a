//! A service's own code in every order, over rows in memory that processes share: who moves next, what becomes of each call of the store, who is
//! killed when.
//!
//! It is the search of [`cf::testing`], which has these moves beside its own. A test is a function of a [`World`], whose [`store`](Stores::store) it
//! asks for:
//!
//! ```
//! use cf::testing::{orders, World};
//! use cf_store::testing::{Bounds, Stores};
//! use cf_store::Functions;
//! use serde_json::json;
//! use std::sync::atomic::{AtomicU32, Ordering::SeqCst};
//! use std::sync::Arc;
//!
//! fn checkout(world: &World) {
//!     let charges = Arc::new(AtomicU32::new(0));
//!     let charged = Arc::clone(&charges);
//!     let functions = Functions::new().with("charge", 1, move |_order: u32| Ok::<_, String>(charged.fetch_add(1, SeqCst)));
//!     let store = world.store(Bounds::new().killed(1));
//!     let (one, _two) = (store.worker("one", &functions), store.worker("two", &functions));
//!     one.request("order 17").unwrap().supply("charge", &[json!(17)]).unwrap().again(1).unwrap();
//!     world.check("charged at most once", move || charges.load(SeqCst) <= 1);
//! }
//!
//! let failure = &orders(checkout).failed[0];
//! assert!(failure.to_string().contains("It is so if 4 (one is killed) comes before 3 (one calls charge)."));
//! ```
//!
//! `docs/TESTING.md` says what a move is, what is left out, and what the search doesn't see.
//!
//! # The design
//!
//! - `bounds.rs` says how often what may go wrong, and in which ways a call of the store may be answered.
//! - `memory.rs` is the store. `rows.rs` has what a reader of all its words knows.
//! - `process.rs` is a process: a [`Service`](crate::Service) whose host and store are the search's.
//! - `sharing.rs` has the moves of processes. `transaction.rs` has what becomes of transactional functions.
mod bounds;
mod memory;
mod process;
mod rows;
mod sharing;
mod transaction;

use crate::error::Error;
use crate::functions::Functions;
use crate::history::History;
use cf::testing::{Failure, StoredHistory, World};
use cf_graph::Entry;
use rows::{end_text, lock, read_end, Rows};
use serde_json::Value;
use sharing::{ServiceCore, SharedStore};
use std::any::Any;
use std::fmt;
use std::sync::Arc;
use std::time::Duration;

pub use bounds::Bounds;
#[cfg(test)]
pub(crate) use memory::Memory;
pub use process::Process;

/// What a [`World`] has for requests in stores.
pub trait Stores {
    /// A store in memory that processes share. What may go wrong there is bounded for each order.
    ///
    /// # Panics
    ///
    /// Where the world has one.
    fn store(&self, bounds: Bounds) -> WorldStore;
}

impl Stores for World {
    fn store(&self, bounds: Bounds) -> WorldStore {
        let shop = Arc::new(SharedStore::new(self.seam(), bounds));
        self.seam().keep_store(|| Arc::new(ServiceCore(Arc::clone(&shop))));
        WorldStore(shop)
    }
}

/// What a [`Failure`] has of requests in a store.
///
/// ```
/// use cf::testing::{orders, World};
/// use cf_store::testing::{Bounds, Histories, Stores};
/// use cf_store::Functions;
///
/// fn approval(world: &World) {
///     let store = world.store(Bounds::new());
///     let clerk = store.process("the clerk", &Functions::new());
///     let approval = clerk.request("order 17").unwrap().promise("approval").unwrap();
///     clerk.calls("the clerk", move || approval.complete("yes"));
///     world.at_end("nobody approves", move || !store.is_settled("order 17", "approval"));
/// }
///
/// let failure = &orders(approval).failed[0];
/// let told = failure.in_store()[0].lines().unwrap();
/// assert!(told.contains("the clerk completes 0 approval with \"yes\""), "{told}");
/// ```
pub trait Histories {
    /// The history of each request in the store, in the order in which they were opened, by all words that stand. Sessions are called as their
    /// processes. [`Failure::account`], `script` and `page` tell of these requests, too: they are counted on from those in memory.
    fn in_store(&self) -> Vec<&History>;
}

impl Histories for Failure {
    fn in_store(&self) -> Vec<&History> {
        self.stored().iter().filter_map(|it| it.as_any().downcast_ref()).collect()
    }
}

impl StoredHistory for History {
    fn account(&self) -> String {
        History::account(self).expect("memory for a text") + "\n"
    }

    fn script(&self) -> String {
        History::script(self).expect("memory for a text")
    }

    fn as_any(&self) -> &dyn Any {
        self
    }
}

/// What a process has.
///
/// ```
/// # use cf_store::testing::ProcessOptions;
/// # use std::time::Duration;
/// let shop = ProcessOptions::new().workers(0).ahead(Duration::from_secs(60));
/// ```
#[derive(Clone, Copy, Debug)]
pub struct ProcessOptions {
    workers: usize,
    takes_all: bool,
    lease: Duration,
    ahead: Duration,
}

impl Default for ProcessOptions {
    fn default() -> ProcessOptions {
        ProcessOptions::new()
    }
}

impl ProcessOptions {
    /// One thread runs functions, of requests that the process has opened. Its lease is 10 s.
    pub fn new() -> ProcessOptions {
        ProcessOptions { workers: 1, takes_all: false, lease: Duration::from_secs(10), ahead: Duration::ZERO }
    }

    /// How many threads run functions. With 0 it runs none.
    #[must_use]
    pub fn workers(self, workers: usize) -> ProcessOptions {
        ProcessOptions { workers, ..self }
    }

    /// It works on all requests.
    #[must_use]
    pub fn takes_all(self) -> ProcessOptions {
        ProcessOptions { takes_all: true, ..self }
    }

    /// As of [`Options`](crate::Options).
    #[must_use]
    pub fn lease(self, lease: Duration) -> ProcessOptions {
        ProcessOptions { lease, ..self }
    }

    /// How much its clock is ahead of the world's.
    #[must_use]
    pub fn ahead(self, ahead: Duration) -> ProcessOptions {
        ProcessOptions { ahead, ..self }
    }
}

/// Rows in memory that processes of a world share: what [`Stores::store`] gives. A clone is the same store.
#[derive(Clone)]
pub struct WorldStore(Arc<SharedStore>);

impl WorldStore {
    /// A process with a service over this store, which works on the requests that it has opened, and runs functions on one thread. `name` is what it
    /// is called where an order is told.
    ///
    /// Of a [transactional](Functions::transactional) function the connection is a `Vec<Value>`, for [`effects`](WorldStore::effects).
    pub fn process(&self, name: &str, functions: &Functions) -> Process {
        self.process_with(name, functions, ProcessOptions::new())
    }

    /// The same with options.
    pub fn process_with(&self, name: &str, functions: &Functions, options: ProcessOptions) -> Process {
        self.0.process(name, functions, options)
    }

    /// A process that works on all requests.
    pub fn worker(&self, name: &str, functions: &Functions) -> Process {
        self.process_with(name, functions, ProcessOptions::new().takes_all())
    }

    /// Says that a registered function neither reads nor changes what other functions share, so that fewer orders are tried. Nothing checks that.
    pub fn pure(&self, function: &str) {
        self.touches(function, &[]);
    }

    /// Says that a registered function shares with others no more than what has these names, as [`World::touches`] does. Nothing checks that.
    pub fn touches(&self, function: &str, names: &[&'static str]) {
        self.0.set_marks(function, names);
    }

    /// The value or the error that the first stage of this name ended with, by all words that stand. Nothing where it isn't settled.
    pub fn outcome(&self, request: &str, stage: &str) -> Option<Result<Value, Error>> {
        self.0.touch_row(request, false);
        self.0.rows.ask_view(request, |view| Rows::stage_number(view, stage).and_then(|number| read_end(view, number))).flatten()
    }

    /// Whether the first stage of this name is settled, by all words that stand.
    pub fn is_settled(&self, request: &str, stage: &str) -> bool {
        self.outcome(request, stage).is_some()
    }

    /// What each stage of each request came to, by all words that stand, to compare the ends of orders.
    pub fn outcomes(&self) -> Vec<String> {
        let mut told = Vec::new();
        for name in self.0.rows.names() {
            self.0.touch_row(&name, false);
            let line = |view: &mut crate::view::RowView, stage| {
                let said = view.stage_spec(stage).map_or_else(|_| format!("stage {stage}"), |said| said.name);
                format!("{name}: {said} {}", end_text(view, stage))
            };
            let lines = self.0.rows.ask_view(&name, |view| (0..view.stage_count() as u16).map(|stage| line(view, stage)).collect::<Vec<_>>());
            told.extend(lines.unwrap_or_default());
        }
        told
    }

    /// What transactional functions have pushed to their connection, in the order in which they were committed: it stands exactly where the finish of
    /// the function's stage does.
    ///
    /// ```
    /// use cf::testing::{orders, World};
    /// use cf_store::testing::{Bounds, Stores};
    /// use cf_store::Functions;
    /// use serde_json::{json, Value};
    ///
    /// fn checkout(world: &World) {
    ///     let charge = |effects: &mut Vec<Value>, order: u32| {
    ///         effects.push(json!(order));
    ///         Ok::<_, String>(order)
    ///     };
    ///     let functions = Functions::new().transactional("charge", 1, charge);
    ///     let store = world.store(Bounds::new().killed(1).unanswered(1));
    ///     let (one, _two) = (store.worker("one", &functions), store.worker("two", &functions));
    ///     one.request("order 17").unwrap().supply("charge", &[json!(17)]).unwrap().again(1).unwrap();
    ///     world.check("charged at most once", move || store.effects().len() <= 1);
    /// }
    ///
    /// assert!(orders(checkout).failed.is_empty());
    /// ```
    pub fn effects(&self) -> Vec<Value> {
        self.0.effects()
    }

    /// The claims that processes were told to be theirs: the process's name, the request's, and the stage. For what has to hold at the end.
    pub fn granted(&self) -> Vec<(String, String, u16)> {
        lock(&self.0.told).granted.clone()
    }

    /// The words that processes were told to stand: the process's name, the request's, the place, which is counted from 1, and the word. For what has
    /// to hold at the end.
    pub fn answered(&self) -> Vec<(String, String, usize, u64)> {
        lock(&self.0.told).answered.clone()
    }

    /// The requests' names, and the entries of each, in the order in which they were opened.
    pub fn entries(&self) -> Vec<(String, Vec<Entry>)> {
        self.0.rows.names().into_iter().zip(self.0.rows.entries()).collect()
    }
}

impl fmt::Debug for WorldStore {
    fn fmt(&self, f: &mut fmt::Formatter<'_>) -> fmt::Result {
        f.debug_struct("WorldStore").field("requests", &self.0.rows.names()).finish_non_exhaustive()
    }
}
