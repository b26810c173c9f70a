//! A service's own code in every order: which ready function is called next, what arrives when, whether a limit passes before, who cancels what.
//!
//! A test is a function of a [`World`]. It is called once for each order, and makes requests whose executor and clock are the search's:
//!
//! ```
//! use cf::testing::{orders, World};
//! use std::sync::atomic::{AtomicU32, Ordering::SeqCst};
//! use std::{sync::Arc, time::Duration};
//!
//! fn checkout(world: &World) -> cf::Stage<u32> {
//!     let charges = Arc::new(AtomicU32::new(0));
//!     let (once, again) = (Arc::clone(&charges), Arc::clone(&charges));
//!     let price = world.arrives(world.request("order 17").promise().named("price"), 4900);
//!     let paid = price.then(move |_| once.fetch_add(1, SeqCst)).named("charge").or_timeout(Duration::from_secs(2));
//!     world.check("charged at most once", move || charges.load(SeqCst) <= 1);
//!     paid.recover(move |_| again.fetch_add(1, SeqCst)).named("charge again")
//! }
//!
//! let failure = &orders(checkout).failed[0];
//! assert_eq!(failure.row(), "come.0.0 begin.0.1 call.0.1 limit.0.1.1 begin.0.2 call.0.2");
//! assert!(failure.to_string().contains("It is so if 4 (the limit of charge passes) comes before 2 (charge is claimed)."));
//! ```
//!
//! `docs/TESTING.md` says what a move is, what is left out, and what the search doesn't see.
//!
//! # In a test
//!
//! ```toml
//! [dev-dependencies]
//! cf = { version = "1", features = ["testing"] }
//! ```
//!
//! With cargo's resolver 2 the feature is then on in tests alone. [`every_order`] panics with the story of the order that fails:
//!
//! ```
//! # fn checkout(world: &cf::testing::World) -> cf::Stage<u32> { world.request("order 17").supply(|| 49) }
//! // The body of a `#[test]`:
//! cf::testing::every_order(checkout);
//! ```
//!
//! Put `Orders::new().row("..")` in its place, with the row that the story ends with, to run that order alone, under a debugger say.
//!
//! # Beside loom and shuttle
//!
//! These try orders of what threads do to atomics and locks. Here the orders are those of what the requests' graphs leave open: functions, polls,
//! arrivals, limits, calls. Code between two of these is one move, also where it uses `std`'s atomics and locks, unless it calls [`World::point`].
//! Nothing of the code under test is replaced: it gets an executor and a clock, and may use any type of `std`.
//!
//! # The design
//!
//! - `run.rs` is one run: the moves that are possible, and making one. `state.rs` is what it consists of, and reads from the requests' machines what
//!   a move touched. `watch.rs` is what the layer tells a run, with the executor and the clock. `carrier.rs` has threads for code that waits, of which
//!   one goes on at a time; until something waits there are none.
//! - `world.rs` is what a test is given. `stored.rs` is what the crate `cf-store` has of a run, for requests in a store and the processes that share
//!   it.
//! - `footprint.rs` says which moves are independent, by what they touched. `moves.rs` has the moves and their texts.
//! - `runner.rs` makes runs with any choice of moves. `tree.rs` goes through all orders, but those that can come to nothing else; `chance.rs` draws
//!   some.
//! - `smaller.rs` makes a failing order smaller, and finds the moves that decide. `report.rs` has what is told, and `orders.rs` what is called.
#[cfg(test)]
mod asked;
mod carrier;
mod chance;
mod footprint;
mod moves;
mod orders;
mod report;
mod run;
mod runner;
mod smaller;
mod state;
mod stored;
mod tree;
mod watch;
mod world;

#[doc(hidden)]
pub use moves::StoreMove;
pub use orders::{every_order, orders, Orders};
pub use report::{Failure, Pair, Report, ToldMove};
#[doc(hidden)]
pub use stored::{Seam, Sharing, StoredHistory, ThreadWork, WaitsFor};
pub(crate) use watch::Watch;
pub use world::{Awaited, Calls, World};
