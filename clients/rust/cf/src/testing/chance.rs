//! Orders by chance: each who moves has a priority, and a few changes of these come at random places (as PCT does it). An order that few switches
//! make is so found with a likelihood that doesn't shrink as the number of orders grows.
use super::moves::{Actor, Move};
use super::report::Report;
use super::runner::{Guide, RunEnd, Runner};
use std::collections::BTreeMap;
use std::time::Instant;

/// A fault that so many moves in the right order make.
const DEPTH: usize = 3;
/// Moves, which a row has at first by guess.
const SHORT: usize = 20;

/// Numbers by a seed (SplitMix64).
pub(crate) struct Dice(u64);

impl Dice {
    pub(crate) fn new(seed: u64) -> Dice {
        Dice(seed)
    }

    fn roll(&mut self) -> u64 {
        self.0 = self.0.wrapping_add(0x9e37_79b9_7f4a_7c15);
        let mut mixed = self.0;
        mixed = (mixed ^ mixed >> 30).wrapping_mul(0xbf58_476d_1ce4_e5b9);
        mixed = (mixed ^ mixed >> 27).wrapping_mul(0x94d0_49bb_1331_11eb);
        mixed ^ mixed >> 31
    }

    fn below(&mut self, most: usize) -> usize {
        (self.roll() % most as u64) as usize
    }
}

/// Whose priority decides on a move: what goes wrong in a store has one of its own.
#[derive(Clone, Copy, PartialEq, Eq, PartialOrd, Ord)]
enum Decides {
    Actor(Actor),
    Wrong(Move),
}

fn decides(key: Move) -> Decides {
    match key {
        Move::Stored(stored) if stored.goes_wrong() => Decides::Wrong(key),
        _ => Decides::Actor(key.actor()),
    }
}

/// A search that draws each order.
pub(crate) struct Chance {
    dice: Dice,
    longest: usize,
    /// The higher ones go first. Those that a change has put behind all others are below 0.
    levels: BTreeMap<Decides, i64>,
    changes: Vec<usize>,
}

impl Chance {
    pub(crate) fn new(seed: u64) -> Chance {
        Chance { dice: Dice::new(seed), longest: SHORT, levels: BTreeMap::new(), changes: Vec::new() }
    }

    /// So many orders, until the moment comes or so many have failed.
    pub(crate) fn run_some(&mut self, runner: &mut Runner, report: &mut Report, times: u64, until: Instant, failures: usize) {
        for _ in 0..times {
            if Instant::now() >= until || report.failed.len() >= failures {
                return;
            }
            self.levels.clear();
            self.changes = (1..DEPTH).map(|_| self.dice.below(self.longest)).collect();
            let ran = runner.go(self, false);
            self.longest = self.longest.max(ran.row.len());
            report.orders += 1;
            report.by_chance += 1;
            if ran.how == RunEnd::Failed {
                report.failed.push(ran.failure());
            }
        }
    }

    /// The one of the highest priority. Of the ways of one and the same, any.
    fn best(&mut self, keys: &[Move]) -> Move {
        let highest = keys.iter().map(|key| self.levels[&decides(*key)]).max();
        let best: Vec<Move> = keys.iter().filter(|key| highest == self.levels.get(&decides(**key)).copied()).copied().collect();
        match best[..] {
            [one] => one,
            _ => best[self.dice.below(best.len())],
        }
    }
}

impl Guide for Chance {
    fn choose(&mut self, place: usize, keys: &[Move]) -> Option<Move> {
        if keys.is_empty() {
            return None;
        }
        for key in keys {
            let level = (self.dice.roll() >> 1) as i64;
            let level = match decides(*key) {
                Decides::Actor(_) => level,
                // (about one goes wrong in an order)
                Decides::Wrong(_) if self.dice.below(self.longest) == 0 => i64::MAX,
                Decides::Wrong(_) => i64::MIN,
            };
            self.levels.entry(decides(*key)).or_insert(level);
        }
        let mut best = self.best(keys);
        if self.changes.contains(&place) {
            self.levels.insert(decides(best), -1 - place as i64);
            best = self.best(keys);
        }
        Some(best)
    }
}

#[cfg(test)]
mod tests {
    use super::*;

    /// So a seed draws the same orders everywhere.
    #[test]
    fn the_numbers_of_a_seed_are_those_of_splitmix() {
        let mut dice = Dice::new(0);
        assert_eq!([(); 3].map(|()| dice.roll()), [0xe220_a839_7b1d_cdaf, 0x6e78_9e6a_a1b9_65f4, 0x06c4_5d18_8009_454f]);
    }
}
