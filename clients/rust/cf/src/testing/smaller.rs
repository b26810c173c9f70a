//! A failing order made smaller, and the pairs of its moves that decide.
use super::footprint::{independent, Footprint};
use super::moves::Move;
use super::report::{Failure, Pair};
use super::runner::{RunEnd, Runner};

/// How many runs making one smaller takes at most.
const MOST: usize = 400;

/// Makes an order smaller: fewer moves first, then fewer switches from one who moves to another.
pub(crate) struct Smaller<'a> {
    runner: &'a mut Runner,
    best: Failure,
    given: Vec<Move>,
    left: usize,
}

impl Smaller<'_> {
    pub(crate) fn make_smaller(runner: &mut Runner, failure: Failure) -> Failure {
        let given = failure.moves.clone();
        let mut smaller = Smaller { runner, best: failure, given, left: MOST };
        while smaller.left > 0 && (smaller.is_shorter() | smaller.has_fewer_switches()) {}
        smaller.best
    }

    /// Whether an order without some moves that stand together is smaller; what is left out may come later.
    fn is_shorter(&mut self) -> bool {
        let (mut found, mut length) = (false, self.given.len());
        while length > 0 {
            let mut place = 0;
            while place < self.given.len() && self.left > 0 {
                let end = (place + length).min(self.given.len());
                if self.is_better([&self.given[..place], &self.given[end..]].concat()) {
                    found = true;
                } else {
                    place += length;
                }
            }
            length /= 2;
        }
        found
    }

    /// Whether one is smaller in which a move comes right behind the last one of the same.
    fn has_fewer_switches(&mut self) -> bool {
        let mut found = false;
        for late in 0..self.given.len() {
            for early in 0..late.saturating_sub(1) {
                let row = &self.given;
                if late < row.len() && self.left > 0 && row[early].actor() == row[late].actor() {
                    let row = [&row[..=early], &row[late..=late], &row[early + 1..late], &row[late + 1..]].concat();
                    found |= self.is_better(row);
                }
            }
        }
        found
    }

    fn is_better(&mut self, row: Vec<Move>) -> bool {
        self.left -= 1;
        let ran = self.runner.again(&row);
        if ran.how != RunEnd::Failed || ran.why != self.best.why {
            return false;
        }
        let made = ran.failure();
        if (made.moves.len(), made.switches()) >= (self.best.moves.len(), self.best.switches()) {
            return false;
        }
        self.given = made.moves.clone();
        self.best = made;
        true
    }
}

/// The pairs of moves that decide: the same row with the second before the first doesn't fail.
pub(crate) fn pairs_of(runner: &mut Runner, failure: &Failure) -> Vec<Pair> {
    let row = &failure.moves;
    let (_, mut footprints) = runner.in_order(row);
    footprints.resize_with(row.len(), Footprint::all);
    let (mut before, mut pairs): (Vec<Vec<bool>>, _) = (Vec::new(), Vec::new());
    for second in 0..row.len() {
        let (mine, racing) = races(row, &footprints, &before, second);
        before.push(mine);
        for first in racing {
            let (late, others): (Vec<usize>, Vec<usize>) = (first + 1..second).partition(|place| before[*place][first]);
            let places = (0..first).chain(others).chain([second, first]).chain(late).chain(second + 1..row.len());
            let swapped: Vec<Move> = places.map(|place| row[place]).collect();
            let (ran, _) = runner.in_order(&swapped);
            let did = ran.row.iter().position(|key| *key == row[second]);
            let is_second = did.map_or(false, |did| !ran.row[..did].contains(&row[first]));
            if ran.how == RunEnd::End && is_second {
                pairs.push(Pair { first, second });
            }
        }
    }
    pairs
}

/// The moves that one has to come after, and those of others among them with which it races.
fn races(row: &[Move], footprints: &[Footprint], before: &[Vec<bool>], last: usize) -> (Vec<bool>, Vec<usize>) {
    let (mut mine, mut racing) = (vec![false; row.len()], Vec::new());
    for place in (0..last).rev() {
        let is_own = row[place].actor() == row[last].actor();
        if !mine[place] && (is_own || !independent(&footprints[place], &footprints[last])) {
            mine[place] = true;
            mine.iter_mut().zip(&before[place]).for_each(|(mine, it)| *mine |= it);
            if !is_own {
                racing.push(place);
            }
        }
    }
    (mine, racing)
}
