//! Requests that outlive their process, and that processes share: what happened to a request stands as a row of words in a store.
//!
//! A process that works on a request reads the row and has its graph. To change something it puts a word behind the words that it has seen. Of
//! two that put at one place the store takes one; the other reads what stands there, and decides again. So the row is the one order of all that
//! happened. What a session, which is one running [`Service`], knows of a row and may put there, the proved [`Row`](cf_graph::Row) says. Python's
//! `cf.store` has the same rows: a request that it opened is gone on with here, and the other way round. Functions are known by name and
//! version, and values are JSON.
//!
//! # Calls
//!
//! | | |
//! |---|---|
//! | functions | [`Functions::with`], [`composing`](Functions::composing), [`transactional`](Functions::transactional), [`parameters`](Functions::parameters) |
//! | a service | [`Service::new`], [`with`](Service::with) and [`Options`] |
//! | a request | [`request`](Service::request) opens it or goes on with it, [`start`](Service::start) by a [`Flow`]; [`open`](Service::open) finds one, [`resume`](Service::resume) all that are open; [`end`](Request::end) closes it |
//! | its first stages | [`supply`](Request::supply), [`supply_named`](Request::supply_named), [`promise`](Request::promise), [`all_of`](Request::all_of), [`first_of`](Request::first_of), [`gather`](Request::gather) |
//! | attach a stage behind one | [`then`](Stage::then), [`combine`](Stage::combine), [`either`](Stage::either), [`handle`](Stage::handle), [`when_done`](Stage::when_done), [`recover`](Stage::recover), [`compose`](Stage::compose), [`again`](Stage::again) |
//! | find one | [`named`](Request::named), [`stage`](Request::stage), [`step`](Request::step) |
//! | settle it, unless it is settled | [`complete`](Stage::complete), [`fail`](Stage::fail), [`cancel`](Stage::cancel), [`abandon`](Stage::abandon); by a timer [`or_timeout`](Stage::or_timeout), [`complete_on_timeout`](Stage::complete_on_timeout) |
//! | what it ended with | [`wait`](Stage::wait), [`wait_timeout`](Stage::wait_timeout), [`peek`](Stage::peek) |
//! | what happened | [`history`](Request::history), [`history_described_by`](Request::history_described_by), [`Options::on_end`] |
//! | what goes along | [`within`], [`context`](context()) |
//!
//! Each call that changes something is in the store when it returns. It asks the store, so it holds its thread: in a task of tokio call it by
//! `spawn_blocking`. docs/STORES.md says what holds of requests in all languages.
//!
//! ```no_run
//! # #[cfg(feature = "sqlite")]
//! # mod shown {
//! use cf_store::{Functions, Service, SQLite};
//! use serde_json::{json, Value};
//!
//! fn charge(mut order: Value) -> Result<Value, String> {
//!     order["paid"] = json!(4900);
//!     Ok(order)
//! }
//!
//! # fn shown() -> Result<(), Box<dyn std::error::Error>> {
//! let functions = Functions::new().with("charge", 1, charge);
//! let service = Service::new(SQLite::open("orders.db")?, functions)?;
//! let request = service.request("order 17")?;
//! let order = request.promise("order")?;
//! let paid = order.then("charge")?;
//! order.complete(&json!({"number": 17}))?;
//! println!("{}", paid.wait::<Value>()?);
//! # Ok(())
//! # }
//! # }
//! ```
#![cfg(feature = "json")]
#![forbid(unsafe_code)]
#![deny(missing_docs)]
#![warn(missing_debug_implementations, unreachable_pub, rust_2018_idioms)]
#[cfg(all(test, feature = "testing"))]
mod by_hand;
mod context;
#[cfg(all(test, feature = "testing"))]
mod decisions;
mod ends;
mod engines;
mod error;
#[cfg(feature = "etcd")]
mod etcd;
mod flow;
mod functions;
mod history;
mod host;
#[cfg(feature = "etcd")]
mod http;
mod plan;
#[cfg(feature = "postgres")]
mod postgres;
mod request;
mod service;
mod sessions;
#[cfg(feature = "sqlite")]
mod sqlite;
mod store;
#[cfg(feature = "testing")]
pub mod testing;
mod view;

pub use cf_graph::Entry;
pub use context::{context, within};
pub use ends::Ends;
pub use error::{Error, Failed, StoreError};
#[cfg(feature = "etcd")]
pub use etcd::Etcd;
pub use flow::{Flow, Step};
pub use functions::{Composing, Function, Functions, Transactional};
pub use history::{History, HistoryItem};
#[cfg(feature = "postgres")]
pub use postgres::{Postgres, PostgresTransaction};
pub use request::{Request, Stage};
pub use service::{Options, Service};
#[cfg(feature = "sqlite")]
pub use sqlite::SQLite;
pub use store::{Mark, Opened, Put, Store, Timer, Transaction, WordCounts};
