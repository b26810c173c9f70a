//! All orders, but those that can come to nothing else.
//!
//! The search is stateless: each order is a run from the start. It goes through a tree of moves, depth first, of which it has the path to the last
//! run. What is left out stands on what moves touched (footprint.rs):
//!
//! - *Races.* Two moves of a run race if they touch the same thing, and nothing between them makes them wait for one another. At the earlier one a
//!   move is added that leads to the other order, unless one of those that do so is there already (source sets). What no race asks for isn't tried.
//! - *Sleep sets.* A move that was tried at a place isn't tried again behind a sibling that is independent of it.
//! - A move that takes another one away races with it, though that one was never made: both are tried. A move in which an order fails takes all
//!   others away, and races with all before it.
//!
//! A workers' bound makes moves wait for one another in ways that races don't see; sleep sets alone are used then.
use super::footprint::{independent, Footprint};
use super::moves::{row_of, Move};
use super::report::Report;
use super::runner::{Guide, Ran, RunEnd, Runner};
use std::time::Instant;

/// Places of a row.
#[derive(Clone, Default)]
struct Places(Vec<u64>);

impl Places {
    fn add(&mut self, place: usize) {
        if self.0.len() <= place / 64 {
            self.0.resize(place / 64 + 1, 0);
        }
        self.0[place / 64] |= 1 << (place % 64);
    }

    fn add_all(&mut self, other: &Places) {
        if self.0.len() < other.0.len() {
            self.0.resize(other.0.len(), 0);
        }
        self.0.iter_mut().zip(&other.0).for_each(|(mine, theirs)| *mine |= theirs);
    }

    fn has(&self, place: usize) -> bool {
        self.0.get(place / 64).map_or(false, |bits| bits >> (place % 64) & 1 == 1)
    }
}

/// A place in the path: the moves that were possible, and those that were or are to be tried.
struct Node {
    keys: Vec<Move>,
    sleep: Vec<(Move, Footprint)>,
    done: Vec<(Move, Footprint)>,
    chosen: Move,
    footprint: Option<Footprint>,
    todo: Vec<Move>,
    /// The places of the moves that this one has to come after.
    before: Places,
}

/// A search that can be stopped and gone on with.
pub(crate) struct Tree {
    reduces: bool,
    races: bool,
    stack: Vec<Node>,
    sleep: Vec<(Move, Footprint)>,
    place: usize,
    runs: u64,
    watched: usize,
}

impl Tree {
    pub(crate) fn new(runner: &Runner) -> Tree {
        let reduces = runner.settings.reduce;
        let races = reduces && runner.settings.workers == 0;
        Tree { reduces, races, stack: Vec::new(), sleep: Vec::new(), place: 0, runs: 0, watched: 0 }
    }

    /// So many runs more, until all is seen, the moment comes, or so many orders have failed.
    pub(crate) fn run_some(&mut self, runner: &mut Runner, report: &mut Report, runs: u64, until: Instant, failures: usize) {
        for _ in 0..runs {
            if report.whole || report.failed.len() >= failures || Instant::now() >= until {
                return;
            }
            self.place = 0;
            self.sleep.clear();
            let ran = runner.go(self, false);
            if runner.watched.len() > self.watched && self.reduces && ran.is_checked {
                // Checks have looked at something new, so what moves touched before isn't known whole.
                self.watched = runner.watched.len();
                self.stack.clear();
                continue;
            }
            self.count(runner, report, ran);
            self.go_back(report);
        }
    }

    fn count(&mut self, runner: &mut Runner, report: &mut Report, ran: Ran) {
        if ran.how == RunEnd::Cut {
            report.cut += 1;
            return;
        }
        report.orders += 1;
        self.runs += 1;
        if self.runs.is_power_of_two() {
            runner.same(&ran);
        }
        if ran.how == RunEnd::Failed {
            self.note_failure(&ran);
            report.failed.push(ran.failure());
        } else if let Some(end) = &ran.end {
            *report.ends.entry(end.clone()).or_default() += ran.weight;
        }
    }

    /// An order fails. Where that is within a move, this takes all other moves away, since nothing comes behind it, and nobody knows what it would
    /// have touched. At an end nothing was left.
    fn note_failure(&mut self, ran: &Ran) {
        assert!(
            ran.row.len() == self.stack.len(),
            "the test isn't deterministic: the order\n    {}\nfails, and went on before: {}",
            row_of(&ran.row),
            ran.why
        );
        if let Some(last) = self.stack.last_mut().filter(|last| last.footprint.is_none()) {
            last.footprint = Some(Footprint::all());
            if self.races {
                last.todo = last.keys.clone();
                self.note_races(&Footprint::all());
            }
        }
    }

    /// Finds with which moves before the last one races, and has the other orders tried, too.
    fn note_races(&mut self, footprint: &Footprint) {
        let last = self.stack.len() - 1;
        let (mut before, mut racing) = (Places::default(), Vec::new());
        for place in (0..last).rev() {
            let node = &self.stack[place];
            let depends = node.footprint.as_ref().map_or(false, |it| !independent(it, footprint));
            if !before.has(place) && depends {
                before.add_all(&node.before);
                before.add(place);
                racing.push(place);
            }
        }
        self.stack[last].before = before;
        for place in racing {
            let firsts = self.firsts(place, last);
            let node = &mut self.stack[place];
            let is_there = |key: &Move| node.todo.contains(key) || node.sleep.iter().any(|it| it.0 == *key);
            if !firsts.iter().any(is_there) {
                // (Where none is possible there, the later move waits for the earlier one, and there is no other order.)
                let first = firsts.into_iter().find(|key| node.keys.contains(key));
                node.todo.extend(first);
            }
        }
    }

    /// What can come first of the moves behind a place that needn't come after it, and lead to the last one.
    fn firsts(&self, place: usize, last: usize) -> Vec<Move> {
        let (mut inside, mut firsts) = (Vec::new(), Vec::new());
        let needs_none = |number: usize| !self.stack[number].before.has(place);
        for each in (place + 1..last).filter(|number| needs_none(*number)).chain([last]) {
            if !inside.iter().any(|number| self.stack[each].before.has(*number)) {
                firsts.push(self.stack[each].chosen);
            }
            inside.push(each);
        }
        firsts
    }

    /// Goes back to the last place at which another move is to be tried.
    fn go_back(&mut self, report: &mut Report) {
        while let Some(node) = self.stack.last_mut() {
            let footprint = node.footprint.take().unwrap_or_else(Footprint::all);
            node.done.push((node.chosen, footprint));
            let is_left = |key: &&Move| !node.done.iter().chain(&node.sleep).any(|it| it.0 == **key);
            let following = node.keys.iter().filter(is_left).find(|key| !self.races || node.todo.contains(key));
            if let Some(following) = following {
                node.chosen = *following;
                return;
            }
            report.left_out += (node.keys.len() - node.done.len()) as u64;
            self.stack.pop();
        }
        report.whole = true;
    }
}

impl Guide for Tree {
    fn choose(&mut self, place: usize, keys: &[Move]) -> Option<Move> {
        if self.races && place > 0 && place == self.stack.len() {
            let last = &mut self.stack[place - 1];
            let gone: Vec<Move> = last.keys.iter().filter(|key| **key != last.chosen && !keys.contains(key)).copied().collect();
            let new = gone.into_iter().filter(|key| !last.todo.contains(key)).collect::<Vec<_>>();
            last.todo.extend(new);
        }
        if let Some(node) = self.stack.get(place) {
            let row = || row_of(&self.stack[..place].iter().map(|node| node.chosen).collect::<Vec<_>>());
            assert!(
                node.keys == keys,
                "the test isn't deterministic: after the moves\n    {}\nthere were\n    {}\nbefore, and now\n    {}",
                row(),
                row_of(&node.keys),
                row_of(keys)
            );
            return Some(node.chosen);
        }
        let chosen = keys.iter().find(|key| !self.sleep.iter().any(|it| it.0 == **key)).copied()?;
        let (sleep, todo) = (self.sleep.clone(), vec![chosen]);
        self.stack.push(Node { keys: keys.to_vec(), sleep, done: Vec::new(), chosen, footprint: None, todo, before: Places::default() });
        Some(chosen)
    }

    fn note_made(&mut self, key: Move, footprint: &Footprint) {
        let place = self.place;
        self.place += 1;
        if self.place < self.stack.len() {
            let before = self.stack[place].footprint.as_ref();
            assert!(
                before.map_or(false, |before| before.is_alike(footprint)),
                "the test isn't deterministic: at the end of\n    {}\nit touched {before:?} before, and now {footprint:?}",
                row_of(&self.stack[..=place].iter().map(|node| node.chosen).collect::<Vec<_>>())
            );
            return;
        }
        if self.races {
            self.note_races(footprint);
        }
        let node = &mut self.stack[place];
        node.footprint = Some(footprint.clone());
        if self.reduces {
            let known = node.sleep.iter().chain(&node.done);
            self.sleep = known.filter(|(other, touched)| *other != key && independent(touched, footprint)).cloned().collect();
        }
    }
}
