//! Futures with a flight recorder: typed stages that run on any executor and can be awaited, of which each request leaves one history.
//!
//! A [`Request`] holds stages that belong together. A [`Stage<T>`](Stage) is a value that will be there: functions are attached behind it
//! ([`then`](Stage::then), [`combine`](Stage::combine), [`recover`](Stage::recover) ..), which a [`Spawn`] runs; it can be settled
//! ([`complete`](Stage::complete), [`fail`](Stage::fail), [`cancel`](Stage::cancel), [`or_timeout`](Stage::or_timeout)), waited for by a
//! thread ([`wait`](Stage::wait)) and, as it is a [`Future`](std::future::Future), awaited under any runtime.
//!
//! Which stage is settled with what, and who may call which function, is decided by a machine of the proved library `libcf`: one word for each
//! change, in one order. So each request has one [`History`], which can be read, judged by `cf_look check`, done again by `cf run`, and drawn.
//!
//! ```
//! use cf::{Pool, Request};
//! use std::time::Duration;
//!
//! # fn main() -> Result<(), cf::Error> {
//! let request = Request::new("order 17", Pool::new(4));
//! let user = request.supply(|| "Ada");
//! let price = request.try_supply(|| "49".parse::<u32>()).or_timeout(Duration::from_millis(500)).recover(|_| 52).named("price");
//! let told = user.combine(&price, |user, price| format!("{user} pays {price}")).named("told");
//! assert_eq!(told.wait()?, "Ada pays 49");
//! assert!(request.history().to_string().contains("told ends: \"Ada pays 49\""));
//! assert!(request.history().is_reproducible());
//! # Ok(())
//! # }
//! ```
//!
//! # Calls
//!
//! | | |
//! |---|---|
//! | a request | [`new`](Request::new), [`with_clock`](Request::with_clock), [`try_new`](Request::try_new); [`described`](Request::described), [`on_end`](Request::on_end), [`metered`](Request::metered), [`deadline`](Request::deadline), [`history`](Request::history) |
//! | its first stages | [`supply`](Request::supply), [`try_supply`](Request::try_supply), [`spawn`](Request::spawn), [`promise`](Request::promise), [`adopt`](Request::adopt), [`all_of`](Request::all_of), [`first_of`](Request::first_of), [`gather`](Request::gather), [`first`](Request::first), [`all`](Request::all), [`quorum`](Request::quorum), [`retry`](Request::retry), [`retry_async`](Request::retry_async) |
//! | stages that end together | [`scope`](Request::scope); [`deadline`](Scope::deadline), [`ends_with`](Scope::ends_with), [`end`](Scope::end), [`join`](Scope::join), [`ended`](Scope::ended); [`is_stopping`] |
//! | attach a stage behind one | [`then`](Stage::then), [`and_then`](Stage::and_then), [`then_async`](Stage::then_async), [`compose`](Stage::compose), [`combine`](Stage::combine), [`either`](Stage::either), [`handle`](Stage::handle), [`inspect`](Stage::inspect), [`recover`](Stage::recover), [`recover_compose`](Stage::recover_compose) |
//! | settle it, unless it is settled | [`complete`](Stage::complete), [`fail`](Stage::fail), [`cancel`](Stage::cancel), [`cancel_on_drop`](Stage::cancel_on_drop); all of a request [`cancel_all`](Request::cancel_all) |
//! | settle it by the clock | [`or_timeout`](Stage::or_timeout), [`complete_on_timeout`](Stage::complete_on_timeout) |
//! | what it ended with | `await`, [`wait`](Stage::wait), [`wait_timeout`](Stage::wait_timeout), [`peek`](Stage::peek); for values that aren't `Clone` [`arc`](Stage::arc), [`wait_arc`](Stage::wait_arc), [`peek_arc`](Stage::peek_arc) |
//!
//! # Failing
//!
//! A stage without a value has an [`Error`]: what a function returned or panicked with, a cancellation, a timeout. What is attached behind it
//! has the same error, without its function being called, up to a [`recover`](Stage::recover), a [`handle`](Stage::handle) or an
//! [`inspect`](Stage::inspect). A panic is kept with its payload ([`Panic`]); it ends neither a worker nor the request.
//!
//! # Panics
//!
//! | What panics | What comes of it |
//! |---|---|
//! | a stage's function or future | its stage fails with [`Error::Panicked`], and so do those behind it. The worker and the request go on |
//! | a waker, or the `Drop` of a value, a function or a future | all others are told first, and each stage is settled as it would have been. Then the panic goes on to the caller whose call settled the stage, also by `complete` or `cancel`, or on an executor of your own to whoever runs the job. If several panic, the first panic goes on |
//! | the same, on a thread of a [`Pool`] or of [`SystemClock`] | it ends neither the thread nor the pool or the clock |
//! | the same, within [`HandClock::turn`] | all timeouts that are due are told first. Then the first panic goes on to the caller |
//! | the same, on a thread of rayon | rayon calls the pool's handler of panics. If the pool has none, rayon ends the process |
//! | the same, in a job of `Tasks` or `Blocking` | it ends that task of tokio, as tokio has it for any task |
//! | a value's `Drop`, as the last handle of a request goes | the panic goes on to whoever dropped that handle |
//! | a waker or a `Drop`, in the drop of a [`Scope`], a [`CancelOnDrop`], a [`Job`], an [`Alarm`] or a last handle by a thread that unwinds | all others are told. The panic ends there, since a second one would end the process. Rust before 1.71 ends it nevertheless |
//! | [`Spawn::spawn`] | all others are told first. Then the panic goes on to the caller. The job is dropped. If another job of the request is under way, it runs what was ready; if not, what was ready fails with [`Refusal::Closed`]. Later functions run |
//! | [`Clock::now`] | the event has the time of the one before it |
//!
//! Where memory is refused for a new stage, that has failed with [`Refusal::NoLedger`]. Where it is refused for any other event, the call panics; what
//! it did before that is told, and later calls go on. A stage whose function has ended by then stays open until it is settled otherwise. Where std is
//! refused memory, it ends the process.
//!
//! # Who runs what
//!
//! Functions run where [`Spawn`] says: on the threads of a [`Pool`], at once ([`Inline`]), or by a type of your own. Wakers, and the `Drop` of
//! values and functions, run on the thread that settled the stage. None of them runs under a lock of the request.
//!
//! A function may wait for a stage ([`wait`](Stage::wait)), also on the only thread of its executor. Meanwhile its thread runs what the stage
//! needs, on its own stack, where few levels fit: functions and futures of its own executor that have to end before the wait can. It isn't
//! counted as one of the jobs that [run at a time](Spawn::parallelism), and a [`Pool`] starts a spare thread for what else there is; a task of
//! tokio hands over to another thread, where its runtime has several. Under other executors, where the stage needs a promise or a future, the
//! thread runs any function of its executor, of the requests that it knows of, since each may be the one that completes it: don't hold a lock
//! there that these take. A wait for a while runs nothing, since it couldn't end in time.
//!
//! A function that holds a handle of its own request keeps that alive until it was called or dropped, and a value that holds one for good. A future
//! keeps its request as long as somebody has its waker: one that awaits a pending stage of another request keeps both until that stage is settled.
//!
//! # What is told
//!
//! A [`History`] tells what stages gave and failed with. [`Describe`] says how much of that, for requests whose values are nobody else's
//! business. Names, values and errors are told in one line whatever stands in them, so that none looks like an event.
//!
//! # Traces
//!
//! [`Request::on_end`] has a function told of the [`History`] of each request that is over ([`Ends`]). [`History::spans`] tells it as
//! OpenTelemetry's spans, and [`SpanFile`] adds these to a file.
//!
//! # Features
//!
//! | Feature | What it adds | It needs |
//! |---|---|---|
//! | `tokio` | `Blocking`, `Tasks` and `TokioClock`: functions and futures on a runtime of tokio, timeouts by its clock | tokio 1 |
//! | `rayon` | a `rayon::ThreadPool` is a [`Spawn`] | rayon 1 |
//! | `serde` | a [`History`] is `Serialize`, as its account | serde 1 |
//! | `tracing` | a function, and its future, has the span of tracing that was current where it was attached | tracing 0.1 |
//! | `testing` | `testing`: a service's own code is tried in every order, by its tests | |
//!
//! Without features it needs `libcf` and `std` alone, and Rust 1.63.
//!
//! # Costs
//!
//! On four cores of 2.5 GHz: about 0.1 µs to attach a stage, 0.25 to claim, call and finish its function on one thread, and 0.2 to 0.5 a stage
//! where eight threads run trivial functions. docs/PERFORMANCE.md says what takes the time. A settled stage takes 170 bytes beside its value; where
//! all stages of a request of more than 64 are settled, 72. One that somebody has waited for takes 4 more, and so does each before it. Values, errors
//! and the history are kept until nobody has the request or one of its stages any more.
#![cfg_attr(docsrs, feature(doc_cfg))]
#![forbid(unsafe_code)]
#![deny(missing_docs)]
#![warn(missing_debug_implementations, unreachable_pub, rust_2018_idioms)]

mod aside;
mod clock;
mod context;
mod core;
mod describe;
mod ends;
mod error;
#[cfg(test)]
mod held;
mod help;
mod history;
mod inner;
#[cfg(feature = "serde")]
mod json;
mod ledger;
mod meter;
mod name;
#[cfg(test)]
mod programs;
mod record;
mod request;
mod retry;
#[cfg(feature = "tokio")]
mod runtime;
mod scope;
mod scopes;
#[cfg(test)]
mod search;
mod slot;
mod spans;
mod spawn;
mod stage;
#[cfg(test)]
mod states;
mod task;
#[cfg(feature = "testing")]
pub mod testing;
mod value;
mod wakers;
mod word;

#[doc(hidden)]
pub use aside::Aside;
pub use clock::{Alarm, Clock, HandClock, SystemClock};
pub use describe::{Describe, Describes};
pub use ends::Ends;
pub use error::{BoxError, Error, Panic, Refusal};
pub use history::History;
pub use meter::{Meter, OpenRequest};
pub use request::Request;
pub use retry::Retry;
#[cfg(feature = "tokio")]
pub use runtime::{Blocking, Tasks, TokioClock};
pub use scope::{Join, Scope};
pub use spans::{CalledFunction, Span, SpanFile, Status};
pub use spawn::{is_stopping, Inline, Job, Pool, Spawn};
pub use stage::{AnyStage, ArcOf, CancelOnDrop, Stage};
