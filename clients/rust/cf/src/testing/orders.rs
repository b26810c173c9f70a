//! Runs a test in every order.
use super::chance::Chance;
use super::moves::moves_of;
use super::report::Report;
use super::run::Test;
use super::runner::{NeedsThreads, RunEnd, Runner};
use super::smaller::{pairs_of, Smaller};
use super::state::Settings;
use super::tree::Tree;
use super::world::{open, Awaited, World};
use std::panic::{catch_unwind, resume_unwind, AssertUnwindSafe};
use std::sync::Arc;
use std::time::{Duration, Instant};

/// Orders in turn, before some by chance.
const AT_FIRST: u64 = 100;
/// One of so many is by chance, and so much of the time.
const PART: u32 = 10;
/// In place of a time that no clock can tell.
const LONG: Duration = Duration::from_secs(1_000_000_000);
/// Failures that are made smaller.
const MOST_TOLD: usize = 20;

/// Runs a test in every order, until one fails: [`Orders::run`] with nothing said otherwise.
///
/// # Panics
///
/// As [`Orders::run`].
///
/// ```
/// use cf::testing::orders;
/// use std::sync::atomic::{AtomicU32, Ordering::SeqCst};
/// use std::{sync::Arc, time::Duration};
///
/// let report = orders(|world| {
///     let charges = Arc::new(AtomicU32::new(0));
///     let (once, again) = (Arc::clone(&charges), Arc::clone(&charges));
///     let price = world.arrives(world.request("order 17").promise().named("price"), 4900);
///     let paid = price.then(move |_| once.fetch_add(1, SeqCst)).or_timeout(Duration::from_secs(2));
///     world.check("charged at most once", move || charges.load(SeqCst) <= 1);
///     paid.recover(move |_| again.fetch_add(1, SeqCst))
/// });
/// assert_eq!(report.failed[0].why, "charged at most once");
/// ```
pub fn orders<A: Awaited>(test: impl Fn(&World) -> A + Send + Sync + 'static) -> Report {
    Orders::new().run(test)
}

/// Runs a test in every order, and panics with the story of the first order that fails: for a `#[test]`.
///
/// # Panics
///
/// Where an order fails, and as [`Orders::run`].
///
/// ```
/// cf::testing::every_order(|world| world.request("order 17").supply(|| 49));
/// ```
pub fn every_order<A: Awaited>(test: impl Fn(&World) -> A + Send + Sync + 'static) {
    Orders::new().every_order(test);
}

/// How a search goes: its bounds, and what is tried.
///
/// ```
/// use cf::testing::Orders;
/// use std::time::Duration;
/// let report = Orders::new().time(Duration::from_secs(5)).workers(1).run(|world| world.request("order 17").supply(|| 49));
/// assert!(report.whole);
/// ```
#[derive(Clone, Debug)]
#[must_use = "it runs nothing by itself"]
pub struct Orders {
    most: u64,
    time: Duration,
    row: Option<String>,
    chance: u64,
    seed: u64,
    failures: usize,
    smaller: bool,
    whole: bool,
    settings: Settings,
}

impl Default for Orders {
    fn default() -> Orders {
        Orders::new()
    }
}

impl Orders {
    /// Up to 100,000 orders within ten seconds, until one fails.
    pub fn new() -> Orders {
        let settings = Settings { workers: 0, free_clock: false, fine: false, reduce: true, panics: false, has_threads: false };
        let time = Duration::from_secs(10);
        Orders { most: 100_000, time, row: None, chance: 0, seed: 0, failures: 1, smaller: true, whole: false, settings }
    }

    /// How many runs are made at most to try orders: those that are tried to their end, and those that are given up on the way.
    pub fn most(self, most: u64) -> Orders {
        Orders { most, ..self }
    }

    /// How long the search may take by the real clock, until its last order is begun. An order isn't cut off.
    pub fn time(self, time: Duration) -> Orders {
        Orders { time, ..self }
    }

    /// Tries one order alone, as a failure has printed it, with all else as it was then.
    pub fn row(self, row: &str) -> Orders {
        Orders { row: Some(row.into()), ..self }
    }

    /// Draws so many orders by this seed, in place of all in turn; with 0 orders all in turn. The same seed draws the same orders.
    pub fn chance(self, orders: u64, seed: u64) -> Orders {
        Orders { chance: orders, seed, ..self }
    }

    /// Ends the search once so many orders have failed: 1, unless this is called.
    pub fn failures(self, failures: usize) -> Orders {
        Orders { failures, ..self }
    }

    /// How many functions may go on at the same time; 0 is any number, and what holds unless this is called. Less is left out with a bound.
    pub fn workers(mut self, workers: usize) -> Orders {
        self.settings.workers = workers;
        self
    }

    /// Lets others go on at each change that a function makes to a stage. Each such place multiplies the orders.
    pub fn fine(mut self) -> Orders {
        self.settings.fine = true;
        self
    }

    /// Tries also the orders that can come to nothing else: many times as many.
    pub fn all(mut self) -> Orders {
        self.settings.reduce = false;
        self
    }

    /// Tells failing orders as they were found, not made smaller, and without the moves that decide.
    pub fn as_found(self) -> Orders {
        Orders { smaller: false, ..self }
    }

    /// Limits need not pass, as in `cf_look explore`.
    pub fn free_clock(mut self) -> Orders {
        self.settings.free_clock = true;
        self
    }

    /// What a function panics with is its stage's error, as it is in service. Else it fails the order.
    pub fn panics(mut self) -> Orders {
        self.settings.panics = true;
        self
    }

    /// Lets [`every_order`](Orders::every_order) panic, too, where not all orders could be tried.
    pub fn whole(self) -> Orders {
        Orders { whole: true, ..self }
    }

    /// Runs a test, once for each order. It has to make all that it uses anew, and to do the same each time. What it gives back has to be settled in
    /// the end. A fault in the test itself is an order that fails.
    ///
    /// Each order is a run of the test from its start, which takes some 50 to 80 µs in a release build. Where functions wait, each move hands the
    /// turn from one thread to another.
    ///
    /// # Panics
    ///
    /// Where the test does something else when it is run again with the same moves: both rows are told. What differs may be a clock, a random
    /// number, a map's order, a thread of its own, or something that outlives a run. Where a row isn't one. Where the system starts no thread for
    /// functions that wait.
    pub fn run<A: Awaited>(&self, test: impl Fn(&World) -> A + Send + Sync + 'static) -> Report {
        self.searched(Arc::new(move |world: &World| open(test(world))))
    }

    /// Runs a test as [`run`](Orders::run) does, and panics with the story of the orders that fail.
    ///
    /// # Panics
    ///
    /// Where an order fails, where the bounds let none be tried, with [`whole`](Orders::whole) where not all were tried, and as
    /// [`run`](Orders::run).
    pub fn every_order<A: Awaited>(&self, test: impl Fn(&World) -> A + Send + Sync + 'static) {
        let report = self.run(test);
        assert!(report.failed.is_empty() && report.orders > 0 && (report.whole || !self.whole), "{report}");
    }

    fn searched(&self, test: Test) -> Report {
        let begun = Instant::now();
        let mut settings = self.settings;
        loop {
            let mut runner = Runner::new(Arc::clone(&test), settings);
            match catch_unwind(AssertUnwindSafe(|| self.search(&mut runner, begun))) {
                Ok(mut report) => {
                    report.took = begun.elapsed();
                    return report;
                }
                Err(payload) if payload.downcast_ref::<NeedsThreads>().is_some() && !settings.has_threads => settings.has_threads = true,
                Err(payload) => resume_unwind(payload),
            }
        }
    }

    fn search(&self, runner: &mut Runner, begun: Instant) -> Report {
        let (mut report, until) = (Report::default(), begun.checked_add(self.time).unwrap_or(begun + LONG));
        if let Some(row) = &self.row {
            let moves = moves_of(row).unwrap_or_else(|word| panic!("a row has no move {word:?}"));
            let ran = runner.again(&moves);
            report.orders = 1;
            if ran.how == RunEnd::Failed {
                report.failed.push(ran.failure());
                report.failed[0].pairs = pairs_of(runner, &report.failed[0]);
            }
            return report;
        }
        if self.chance > 0 {
            Chance::new(self.seed).run_some(runner, &mut report, self.chance, until, self.failures);
        } else {
            self.in_turn(runner, &mut report, until);
        }
        report.failed = report.failed.iter().map(|failure| runner.again(&failure.moves).failure()).collect();
        if self.smaller {
            report.failed.truncate(MOST_TOLD);
            report.failed = report.failed.into_iter().map(|failure| Smaller::make_smaller(runner, failure)).collect();
            report.failed.iter_mut().for_each(|failure| failure.pairs = pairs_of(runner, failure));
        }
        report
    }

    /// Some orders in turn, and if these aren't all, some by chance: what needs the last of many to come first is met late by the search in turn, and
    /// soon by chance.
    fn in_turn(&self, runner: &mut Runner, report: &mut Report, until: Instant) {
        let (mut tree, at_first) = (Tree::new(runner), AT_FIRST.min(self.most));
        tree.run_some(runner, report, at_first, until, self.failures);
        if report.whole {
            return;
        }
        let now = Instant::now();
        let part = now + until.saturating_duration_since(now) / PART;
        let left = self.most - at_first;
        Chance::new(self.seed).run_some(runner, report, left.min(self.most / u64::from(PART)), part, self.failures);
        tree.run_some(runner, report, left - report.by_chance, until, self.failures);
    }
}
