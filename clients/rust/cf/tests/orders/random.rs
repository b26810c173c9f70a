//! Random programs, which the search has to bring to the same ends with and without what it leaves out. This is what those of a request (made.rs) and
//! those over a store (cf-store's kept.rs) have in common.
use cf::testing::{Orders, Report, World};
use std::collections::BTreeSet;
use std::fmt::Debug;
use std::panic::catch_unwind;
use std::time::Duration;

/// Numbers by a seed (SplitMix64).
pub struct Dice(u64);

impl Dice {
    pub fn below(&mut self, most: usize) -> usize {
        self.0 = self.0.wrapping_add(0x9e37_79b9_7f4a_7c15);
        let mut mixed = self.0;
        mixed = (mixed ^ mixed >> 30).wrapping_mul(0xbf58_476d_1ce4_e5b9);
        mixed = (mixed ^ mixed >> 27).wrapping_mul(0x94d0_49bb_1331_11eb);
        ((mixed ^ mixed >> 31) % most as u64) as usize
    }

    pub fn one_of<T: Copy>(&mut self, of: &[T]) -> T {
        of[self.below(of.len())]
    }

    pub fn mark(&mut self) -> Mark {
        self.one_of(&[Mark::None, Mark::None, Mark::Pure, Mark::Touches])
    }
}

/// What is said of a function.
#[derive(Clone, Copy, Debug, PartialEq)]
pub enum Mark {
    None,
    Pure,
    Touches,
}

/// A program by its seed. What its functions do is drawn once, so that each run does the same.
pub trait Program: Clone + Debug + Send + Sync + 'static {
    /// What the programs are called.
    const WHERE: &'static str;

    fn of(dice: &mut Dice) -> Self;

    fn run(&self, world: &World);
}

/// Compares programs. `CF_PROGRAMS` says which, or else `said`, as `FIRST COUNT MOST`: the seeds from FIRST on, of which those with over MOST orders
/// are left out. `CF_ENDS` names a file for each that differs, and last what was compared.
pub fn come_to_the_same_ends<P: Program>(said: &str) {
    let said = std::env::var("CF_PROGRAMS").unwrap_or_else(|_| said.into());
    let numbers: Vec<u64> = said.split_whitespace().map(|word| word.parse().unwrap()).collect();
    let (first, count, most) = (numbers[0], numbers[1], numbers[2]);
    let (mut programs, mut all, mut tried, mut otherwise) = (0, 0, 0, Vec::new());
    for seed in first..first + count {
        match catch_unwind(|| compared::<P>(seed, most)) {
            Ok(Some((orders, runs, differs))) => {
                (programs, all, tried) = (programs + 1, all + orders, tried + runs);
                otherwise.extend(differs);
            }
            Ok(None) => {}
            Err(payload) => otherwise.push(format!("program {seed}{} panics: {:?}", P::WHERE, payload.downcast_ref::<String>())),
        }
    }
    let told = format!(
        "{programs} programs{} of {all} orders have the same ends in {tried} runs; {} were too large; {} otherwise",
        P::WHERE,
        count - programs,
        otherwise.len()
    );
    let lines = [&otherwise[..], &[told]].concat().join("\n");
    if let Some(path) = std::env::var_os("CF_ENDS") {
        std::fs::write(path, &lines).unwrap();
    }
    assert!(otherwise.is_empty() && programs > count / 4, "{lines}");
}

/// What a program comes to with and without what is left out, if it isn't too large: how many orders there are, how many runs were enough, and
/// what differs.
fn compared<P: Program>(seed: u64, most: u64) -> Option<(u64, u64, Option<String>)> {
    let program = P::of(&mut Dice(seed));
    let orders = Orders::new().failures(usize::MAX).as_found().time(Duration::from_secs(600));
    let (plainly, reduced) = (program.clone(), program.clone());
    let plain = orders.clone().all().most(most).run(move |world| plainly.run(world));
    if !plain.whole {
        return None;
    }
    let reduced = orders.most(2 * most + 1_000).run(move |world| reduced.run(world));
    let is_same = reduced.whole && both(&plain) == both(&reduced);
    let differs = || format!("program {seed}{}: {:?}, and with what is left out {:?}: {program:?}", P::WHERE, both(&plain), both(&reduced));
    Some((plain.orders, reduced.orders + reduced.cut, (!is_same).then(differs)))
}

/// The ends, and why orders fail.
fn both(report: &Report) -> (BTreeSet<&str>, BTreeSet<&str>) {
    (report.ends.keys().map(String::as_str).collect(), report.failed.iter().map(|failure| failure.why.as_str()).collect())
}
