//! What a search found: how many orders it tried, and those that failed, each as a value that can be told and done again.
use super::moves::{row_of, Move};
use super::stored::StoredHistory;
use crate::history::{page_of, History};
use std::collections::BTreeMap;
use std::fmt;
use std::io;
use std::sync::Arc;
use std::time::Duration;

/// What a search found.
///
/// ```
/// let report = cf::testing::orders(|world| world.request("order 17").supply(|| 49));
/// assert_eq!(report.to_string().split(" orders").next(), Some("1"));
/// ```
#[derive(Clone, Debug, Default)]
#[must_use = "it says which orders failed"]
#[non_exhaustive]
pub struct Report {
    /// How many orders were tried to their end, those by chance too.
    pub orders: u64,
    /// How many of them by chance.
    pub by_chance: u64,
    /// How many runs were given up on the way, since they could come to nothing else.
    pub cut: u64,
    /// How many moves weren't tried where they could come to nothing else. Behind each are one or more orders.
    pub left_out: u64,
    /// Whether no further order can come to anything else.
    pub whole: bool,
    /// How long it took, by the real clock.
    pub took: Duration,
    /// The orders that failed, in the order in which they were found; at most twenty, unless they are told [as
    /// found](super::Orders::as_found).
    pub failed: Vec<Failure>,
    /// How many orders came to each end, if the test said what its end is ([`World::end_is`](super::World::end_is)).
    pub ends: BTreeMap<String, u128>,
}

impl fmt::Display for Report {
    fn fmt(&self, f: &mut fmt::Formatter<'_>) -> fmt::Result {
        let seen = if self.whole { "which are all that differ" } else { "which aren't all" };
        write!(f, "{} orders, {seen}; {} failed; {:.2} s", self.orders, self.failed.len(), self.took.as_secs_f64())?;
        self.failed.iter().try_for_each(|failure| write!(f, "\n\n{failure}"))
    }
}

/// A move in words, and what it settled.
#[derive(Clone, Debug, PartialEq, Eq)]
#[non_exhaustive]
pub struct ToldMove {
    /// Such as `charge is called`.
    pub text: String,
    /// Such as `charge ends: 49`.
    pub settled: Vec<String>,
}

/// Two moves that decide, by their places in [`Failure::told`], counted from 0: in the other order the same row doesn't fail. The story counts from 1.
#[derive(Clone, Copy, Debug, PartialEq, Eq)]
#[non_exhaustive]
pub struct Pair {
    /// The one that comes first in the order that fails.
    pub first: usize,
    /// The other one.
    pub second: usize,
}

/// An order that fails. `Display` tells it as a story.
#[derive(Clone, Debug)]
#[non_exhaustive]
pub struct Failure {
    /// What doesn't hold.
    pub why: String,
    /// The moves in words, with what each settled.
    pub told: Vec<ToldMove>,
    /// The pairs of moves that decide.
    pub pairs: Vec<Pair>,
    /// The history of each request in memory, in the order in which they were opened. Of requests in a store, `cf-store`'s trait `Histories` gives them.
    pub histories: Vec<History>,
    pub(crate) stored: Vec<Arc<dyn StoredHistory>>,
    pub(crate) moves: Vec<Move>,
}

impl Failure {
    pub(crate) fn new(why: String, moves: Vec<Move>, told: Vec<ToldMove>, histories: Vec<History>, stored: Vec<Arc<dyn StoredHistory>>) -> Failure {
        Failure { why, told, pairs: Vec::new(), histories, stored, moves }
    }

    /// The order as a text, which [`Orders::row`](super::Orders::row) takes.
    pub fn row(&self) -> String {
        row_of(&self.moves)
    }

    /// How often a move is made by somebody else than the move before it.
    pub fn switches(&self) -> usize {
        self.moves.windows(2).filter(|pair| pair[0].actor() != pair[1].actor()).count()
    }

    /// The account of a request, for `cf_look check`. Requests are counted from 0, in the order in which they were opened, those in a store behind
    /// those in memory.
    ///
    /// # Panics
    ///
    /// Where the order has no such request.
    pub fn account(&self, request: usize) -> String {
        self.histories.get(request).map_or_else(|| self.stored_history(request).account(), History::account)
    }

    /// The script of a request, for `cf run` and `cf_look dot`.
    ///
    /// # Panics
    ///
    /// As [`account`](Failure::account).
    pub fn script(&self, request: usize) -> String {
        self.histories.get(request).map_or_else(|| self.stored_history(request).script(), History::script)
    }

    /// The page of a request for a browser, as [`History::page`] makes it.
    ///
    /// # Errors
    ///
    /// As of [`History::page`].
    ///
    /// # Panics
    ///
    /// As [`account`](Failure::account).
    pub fn page(&self, request: usize) -> io::Result<String> {
        page_of(&self.account(request), "cf_look".as_ref())
    }

    /// The history of each request in the store, in the order in which they were opened.
    #[doc(hidden)]
    pub fn stored(&self) -> &[Arc<dyn StoredHistory>] {
        &self.stored
    }

    fn stored_history(&self, request: usize) -> &dyn StoredHistory {
        &*self.stored[request - self.histories.len()]
    }
}

impl fmt::Display for Failure {
    fn fmt(&self, f: &mut fmt::Formatter<'_>) -> fmt::Result {
        let s = if self.told.len() == 1 { "" } else { "s" };
        writeln!(f, "{}: not so in this order of {} move{s}", self.why, self.told.len())?;
        for (number, told) in (1..).zip(&self.told) {
            write!(f, "{number:5}. {}", told.text)?;
            told.settled.iter().try_for_each(|it| write!(f, "; {it}"))?;
            writeln!(f)?;
        }
        for Pair { first, second } in self.pairs.iter().copied() {
            let (one, other) = (&self.told[first].text, &self.told[second].text);
            writeln!(f, "It is so if {} ({other}) comes before {} ({one}).", second + 1, first + 1)?;
        }
        write!(f, "This order alone: .row(\"{}\")", self.row())
    }
}
