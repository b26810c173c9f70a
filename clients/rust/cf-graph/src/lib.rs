//! Completable futures that are proved: Java's `CompletableFuture` over numbered stages.
//!
//! A [`PlanBuilder`] makes a [`Plan`], and that any number of graphs and desks. A [`Graph`] goes to any thread, and is in one call at a
//! time, since each takes it by `&mut`. A [`Desk`] is a graph that threads share without a lock, each by a [`Caller`] of its own; closed
//! with all of them it gives the one history of what they did. A [`Ledger`] is a graph that keeps the words of all that was done to it, a
//! [`Request`] a ledger that says what is to be done next, a [`Row`] what one session
//! knows of the words in a store, and a [`Sweep`] a graph whose functions are called in one go. A [`Tale`] tells
//! what words did, as texts. What C owes by docs/C.md is met by the types: nothing copies a handle, and dropping frees it. `src/handle.rs`
//! says how each thing owed is met, and `tests/owners.rs` tries to break it.
//!
//! What is left needs `unsafe` of your own anyway: make no call in a signal handler, and none in the child of a fork of a process with threads. A
//! refused call gives [`Refused`] and changes nothing. Notices of desks aren't there yet.
//!
//! No owner is `Clone`:
//!
//! ```compile_fail
//! fn twice(graph: cf_graph::Graph) -> (cf_graph::Graph, cf_graph::Graph) {
//!     (graph.clone(), graph)
//! }
//! ```
//!
//! ```compile_fail
//! fn twice(caller: cf_graph::Caller) -> (cf_graph::Caller, cf_graph::Caller) {
//!     (caller.clone(), caller)
//! }
//! ```
//!
//! What a desk was closed with is gone, and so is a graph that is a sweep:
//!
//! ```compile_fail
//! fn after_closing(desk: cf_graph::Desk, callers: Vec<cf_graph::Caller>) {
//!     let _ = desk.close(callers);
//!     drop(callers);
//! }
//! ```
//!
//! ```compile_fail
//! fn while_it_is_swept(mut graph: cf_graph::Graph) {
//!     let _sweep = graph.sweep();
//!     let _ = graph.restart();
//! }
//! ```
//!
//! One call at a time has a handle, and has it once:
//!
//! ```compile_fail
//! fn with_itself(caller: &mut cf_graph::Caller) {
//!     let _ = caller.meet(caller);
//! }
//! ```
//!
//! ```compile_fail
//! fn while_it_works(mut graph: cf_graph::Graph) {
//!     let _ = graph.work(0, |_, _| cf_graph::Answer::Link(graph.stage_count().unwrap()));
//! }
//! ```
//!
//! ```compile_fail
//! fn on_two_threads(graph: &mut cf_graph::Graph) {
//!     std::thread::scope(|scope| {
//!         scope.spawn(|| graph.restart());
//!         scope.spawn(|| graph.restart());
//!     });
//! }
//! ```
#![deny(missing_docs, unsafe_op_in_unsafe_fn)]
#![warn(missing_debug_implementations, unreachable_pub, rust_2018_idioms, clippy::undocumented_unsafe_blocks)]
mod clock;
mod closed;
mod desk;
mod event;
mod graph;
mod handle;
mod ledger;
mod plan;
mod refused;
mod request;
mod row;
mod step;
mod sweep;
mod tale;
mod text;
mod values;

pub use clock::nanos;
pub use closed::{Closed, Record};
pub use desk::{Caller, Desk, NotClosed};
pub use event::{Call, Event, Of};
pub use graph::Graph;
pub use ledger::{Changes, Ledger, Misfit, News, Stage, State};
pub use plan::{Form, Limit, Plan, PlanBuilder, Sizes};
pub use refused::Refused;
pub use request::{Calls, Deadline, Request, RequestSizes, SettledStage, Task, Todo};
pub use row::{Entry, Row, RowOpening};
pub use step::{ClaimedStage, Stepped};
pub use sweep::Sweep;
pub use tale::{Label, Tale, TaleFormat};
pub use text::{outcome_text, run_script, ScriptFault};
pub use values::{Answer, Args, Cause, Claimed, Failure, Finished, Now, Outcome, Reply, Ticked, Value};
