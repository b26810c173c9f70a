//! What a move touches. Two moves that touch nothing in common come to the same in either order, so one order is enough.
//!
//! A footprint says of each thing whether a move reads it, changes it, or leads to it. A move *leads* to the stages behind one that it settles:
//! these are settled once all others before them are, so of two moves that only lead to the same stage it doesn't matter which comes first, unless
//! one of them settles it.
use super::moves::{Place, Who};
use std::collections::{BTreeMap, BTreeSet};

/// What moves share.
#[derive(Clone, Copy, Debug, PartialEq, Eq, PartialOrd, Ord, Hash)]
pub(crate) enum Thing {
    Stage(Place),
    /// Whose code it is that goes on.
    Flight(Who),
    /// All that functions share of which nothing is known.
    User,
    /// What functions share that were marked with this name.
    Named(&'static str),
    /// The number that the next stage of a request has, and the next request.
    Attach(u16),
    Open,
    /// The clock of a request.
    Clock(u16),
    Outside(u16),
    Workers,
    /// What checks look at.
    Checked,
    /// Something of a store, by its kind and number.
    Stored(&'static str, u32),
    /// Whatever there is.
    All,
}

#[derive(Clone, Copy, Debug, PartialEq, Eq)]
pub(crate) enum Access {
    Reads,
    Changes,
    Leads,
}

/// What a move touches, by the order of things.
#[derive(Clone, Debug, Default, PartialEq, Eq)]
pub(crate) struct Footprint(Vec<(Thing, Access)>);

impl Footprint {
    /// That of a move of which nothing is known.
    pub(crate) fn all() -> Footprint {
        Footprint(vec![(Thing::All, Access::Changes)])
    }

    /// Adds that a thing is touched so.
    pub(crate) fn touch(&mut self, thing: Thing, how: Access) {
        match self.0.binary_search_by_key(&thing, |it| it.0) {
            Ok(at) if self.0[at].1 != how => self.0[at].1 = Access::Changes,
            Ok(_) => {}
            Err(at) => self.0.insert(at, (thing, how)),
        }
    }

    pub(crate) fn things(&self) -> impl Iterator<Item = (Thing, Access)> + '_ {
        self.0.iter().copied()
    }

    pub(crate) fn has(&self, thing: Thing) -> bool {
        self.0.binary_search_by_key(&thing, |it| it.0).is_ok()
    }

    /// Whether it is the same, but for what checks look at, which may be more by now.
    pub(crate) fn is_alike(&self, other: &Footprint) -> bool {
        let own = self.0.iter().filter(|it| it.0 != Thing::Checked);
        own.eq(other.0.iter().filter(|it| it.0 != Thing::Checked))
    }
}

/// Whether two neighbouring moves come to the same in either order.
pub(crate) fn independent(one: &Footprint, other: &Footprint) -> bool {
    if one.has(Thing::All) || other.has(Thing::All) {
        return false;
    }
    let (mut ones, mut others) = (one.0.iter().peekable(), other.0.iter().peekable());
    while let (Some(mine), Some(theirs)) = (ones.peek(), others.peek()) {
        match mine.0.cmp(&theirs.0) {
            std::cmp::Ordering::Less => drop(ones.next()),
            std::cmp::Ordering::Greater => drop(others.next()),
            std::cmp::Ordering::Equal if mine.1 != theirs.1 || mine.1 == Access::Changes => return false,
            std::cmp::Ordering::Equal => {
                ones.next();
                others.next();
            }
        }
    }
    true
}

/// Which stages stand behind which.
#[derive(Default)]
pub(crate) struct Dependents(BTreeMap<Place, Vec<Place>>);

impl Dependents {
    /// A stage stands behind another one.
    pub(crate) fn add(&mut self, stage: Place, of: Place) {
        self.0.entry(of).or_default().push(stage);
    }

    /// What changed stages lead to. That one behind them is settled already is read: it hides the change from those behind it.
    pub(crate) fn reach(&self, changed: &[Place], is_settled: impl Fn(Place) -> bool, mut reach: impl FnMut(Place, Access)) {
        let (mut row, mut seen) = (changed.to_vec(), changed.iter().copied().collect::<BTreeSet<Place>>());
        while let Some(place) = row.pop() {
            for &stage in self.0.get(&place).into_iter().flatten() {
                if !seen.insert(stage) {
                    continue;
                }
                if is_settled(stage) {
                    reach(stage, Access::Reads);
                } else {
                    row.push(stage);
                    reach(stage, Access::Leads);
                }
            }
        }
    }
}

#[cfg(test)]
mod tests {
    use super::*;

    fn of(things: &[(Thing, Access)]) -> Footprint {
        let mut made = Footprint::default();
        things.iter().for_each(|(thing, how)| made.touch(*thing, *how));
        made
    }

    #[test]
    fn what_is_touched_alike_may_change_places_unless_it_is_changed() {
        let (one, two) = (Thing::Stage(Place::new(0, 1)), Thing::Stage(Place::new(0, 2)));
        let ways = [Access::Reads, Access::Changes, Access::Leads];
        for mine in ways {
            for theirs in ways {
                assert_eq!(independent(&of(&[(one, mine)]), &of(&[(one, theirs)])), mine == theirs && mine != Access::Changes);
                assert!(independent(&of(&[(one, mine)]), &of(&[(two, theirs)])));
            }
            assert!(!independent(&Footprint::all(), &of(&[(one, mine)])) && !independent(&of(&[(one, mine)]), &Footprint::all()));
        }
        assert_eq!(of(&[(one, Access::Reads), (one, Access::Leads)]), of(&[(one, Access::Changes)]));
    }

    /// 1 and 2 stand behind 0, and 3 behind 1, which is settled.
    #[test]
    fn what_is_settled_hides_what_stands_behind_it() {
        let (mut behind, at) = (Dependents::default(), |stage| Place::new(0, stage));
        [(1, 0), (2, 0), (3, 1)].iter().for_each(|(stage, of)| behind.add(at(*stage), at(*of)));
        let mut reached = Vec::new();
        behind.reach(&[at(0)], |place| place == at(1), |place, how| reached.push((place, how)));
        assert_eq!(reached, [(at(1), Access::Reads), (at(2), Access::Leads)]);
    }
}
