//! Random programs over a store. In each of their orders no claim may be granted twice, and each put stands as its process was told.
use crate::random::{come_to_the_same_ends, Dice, Mark, Program};
use crate::services::{is_done, Shared};
use crate::{is_granted_once, stands_once};
use cf::testing::World;
use cf_store::testing::{Bounds, Process, ProcessOptions, Stores, WorldStore};
use cf_store::{Error, Failed, Flow, Functions, Request, Stage, StoreError};
use serde_json::{json, Value};
use std::time::Duration;

/// Variables.
const SHARED: usize = 2;

#[derive(Clone, Copy, Debug)]
enum Does {
    Set,
    Add,
    Copy,
    Fail,
    Nothing,
}

/// What a function does, to a variable.
#[derive(Clone, Copy, Debug)]
struct Act(Does, usize, Mark);

#[derive(Clone, Copy, Debug)]
enum Kind {
    Supply,
    Transact,
    Promise,
    Then,
    Handle,
    Again,
    Combine,
    Compose,
}

/// A stage: its function, and the one behind which it stands.
#[derive(Clone, Copy, Debug)]
struct Said(Kind, usize, usize);

#[derive(Clone, Copy, Debug)]
enum Word {
    Cancel,
    Abandon,
    Complete,
    Attach,
    Wait,
    Looks,
    Open,
}

#[derive(Clone, Debug)]
struct OverStore {
    workers: usize,
    /// Whether the request is a flow's, of a promise that has its value from the beginning, and a function behind it.
    is_flow: bool,
    acts: [Act; 2],
    stages: Vec<Said>,
    /// What a client does to a stage, with a variable.
    call: Option<(Word, usize, usize)>,
    bounds: Bounds,
    check: Option<usize>,
    has_limit: bool,
}

impl Program for OverStore {
    const WHERE: &'static str = " over a store";

    fn of(dice: &mut Dice) -> OverStore {
        let workers = dice.one_of(&[1, 1, 1, 2]);
        let does = [Does::Set, Does::Add, Does::Copy, Does::Fail, Does::Nothing];
        let act = |dice: &mut Dice| Act(dice.one_of(&does), dice.below(SHARED), dice.mark());
        let acts = [act(dice), act(dice)];
        let stages: Vec<Said> = (0..dice.one_of(&[1, 1, 2])).map(|at| Said::of(dice, at)).collect();
        let words = [Word::Cancel, Word::Abandon, Word::Complete, Word::Attach, Word::Wait, Word::Looks, Word::Open];
        let call = (dice.below(3) > 0).then(|| (dice.one_of(&words), dice.below(stages.len()), dice.below(SHARED)));
        let none = Bounds::new();
        let bounds = [none.lost(1), none.unanswered(1), none.late(1), none.silent(1), none.killed(1), none.slow(1)];
        let bounds = if dice.below(10) < 8 { dice.one_of(&bounds) } else { none };
        let check = (dice.below(10) < 3).then(|| dice.below(SHARED));
        OverStore { workers, is_flow: dice.below(8) == 0, acts, stages, call, bounds, check, has_limit: dice.below(100) < 15 }
    }

    fn run(&self, world: &World) {
        let made = Kept { shared: Shared::default(), log: Shared::default(), told: Shared::default(), stages: Shared::default() };
        let (functions, store) = (made.functions(self.acts), world.store(self.bounds));
        for (number, act) in self.acts.iter().enumerate() {
            (0..3).for_each(|arguments| match act.2 {
                Mark::None => {}
                Mark::Pure => store.pure(&name(number, arguments)),
                Mark::Touches => store.touches(&name(number, arguments), &["log"]),
            });
        }
        (0..self.workers).for_each(|number| drop(store.worker(&format!("worker {number}"), &functions)));
        let shop = store.process_with("shop", &functions, ProcessOptions::new().workers(0));
        let request = if self.is_flow { begun(&shop) } else { shop.request("order").unwrap() };
        for said in &self.stages {
            let stage = made.attach(&request, *said);
            made.stages.get().push(stage);
        }
        if self.has_limit {
            made.stages.get()[0].or_timeout(Duration::from_secs(2)).unwrap();
        }
        if let Some(call) = self.call {
            let (made, clients) = (made.clone(), shop.clone());
            shop.calls("a client", move || made.call(&clients, call));
        }
        if let Some(variable) = self.check {
            let (shared, store) = (made.shared.clone(), store.clone());
            world.check("checked", move || shared.get()[variable] < 2 || store.outcomes()[0].ends_with("is open"));
        }
        let (granted, stands) = (store.clone(), store.clone());
        world.at_end("no claim is granted twice", move || is_granted_once(&granted));
        world.at_end("no word stands twice, and each as it was told", move || stands_once(&stands));
        world.end_is(move || made.end(&store));
    }
}

impl Said {
    fn of(dice: &mut Dice, at: usize) -> Said {
        let first = [Kind::Supply, Kind::Supply, Kind::Transact, Kind::Promise];
        let behind = [Kind::Then, Kind::Handle, Kind::Again, Kind::Combine, Kind::Compose];
        let kinds = if at > 0 { [&first[..], &behind, &behind].concat() } else { first.to_vec() };
        Said(dice.one_of(&kinds), dice.below(2), dice.below(at.max(1)))
    }
}

/// One run of a program.
#[derive(Clone)]
struct Kept {
    shared: Shared<[usize; SHARED]>,
    /// What functions that are marked share.
    log: Shared<Vec<usize>>,
    /// What the client was told.
    told: Shared<Vec<String>>,
    stages: Shared<Vec<Stage>>,
}

impl Kept {
    fn act(&self, Act(does, variable, mark): Act, given: usize) -> Result<usize, Failed> {
        match mark {
            Mark::Pure => return Ok(given),
            Mark::Touches => {
                self.log.get().push(given);
                return Ok(given);
            }
            Mark::None => {}
        }
        let shared = &mut *self.shared.get();
        match does {
            Does::Set => shared[variable] = 1,
            Does::Add => shared[variable] += 1,
            Does::Copy => shared[variable] = shared[1 - variable] + 1,
            Does::Fail if shared[variable] % 2 == 0 => {
                shared[variable] += 1;
                return Err(Failed::new("KeyError", variable.to_string()));
            }
            Does::Fail | Does::Nothing => {}
        }
        Ok(shared[variable])
    }

    /// Each act by as many arguments as there may be, in a transaction, and as that of a stage that composes.
    fn functions(&self, acts: [Act; 2]) -> Functions {
        acts.into_iter().enumerate().fold(Functions::new(), |functions, (number, act)| {
            let (none, one, two, there) = (self.clone(), self.clone(), self.clone(), self.clone());
            let transacts = move |effects: &mut Vec<Value>| there.act(act, 0).map(|did| effects.push(json!(did)));
            let composes = move |request: &Request, _: Value| request.supply(&name(number, 0), &[]);
            let functions = functions.transactional(&in_transaction(number), 1, transacts).composing(&composing(number), 1, composes);
            let functions = functions.with(&name(number, 0), 1, move || none.act(act, 0));
            let functions = functions.with(&name(number, 1), 1, move |_: Value| one.act(act, 1));
            functions.with(&name(number, 2), 1, move |_: Value, _: Value| two.act(act, 2))
        })
    }

    fn attach(&self, request: &Request, Said(kind, function, of): Said) -> Stage {
        let of = self.stages.get().get(of).cloned();
        let of = || of.as_ref().expect("it is there");
        let attached = match kind {
            Kind::Supply => request.supply(&name(function, 0), &[]),
            Kind::Transact => request.supply(&in_transaction(function), &[]),
            Kind::Promise => request.promise("promise"),
            Kind::Then => of().then(&name(function, 1)),
            Kind::Handle => of().handle(&name(function, 2)),
            Kind::Again => of().again(1),
            Kind::Combine => of().combine(of(), &name(function, 2)),
            Kind::Compose => of().compose(&composing(function)),
        };
        attached.expect("the test is always answered")
    }

    /// What a client does, and what it was told.
    fn call(&self, shop: &Process, (word, number, variable): (Word, usize, usize)) {
        let stage = self.stages.get()[number].clone();
        let told = match word {
            Word::Cancel => stage.cancel().map(|did| did.to_string()),
            Word::Abandon => stage.abandon().map(|did| did.to_string()),
            Word::Complete => stage.complete(&7).map(|did| did.to_string()),
            Word::Attach => stage.handle(&name(0, 2)).map(|_| String::new()),
            Word::Open => shop.request("another order").and_then(|it| it.supply(&name(0, 0), &[])).map(|_| String::new()),
            Word::Looks => {
                let is_done = is_done(&stage);
                self.shared.get()[variable] = usize::from(is_done);
                return;
            }
            Word::Wait => match stage.wait_timeout::<Value>(Duration::from_secs(5)) {
                Ok(None) => Ok("late".into()),
                Err(Error::Store(error)) => Err(error),
                Ok(Some(_)) | Err(_) => Ok("there".into()),
            },
        };
        let told = told.unwrap_or_else(|error| match error {
            StoreError::Unknown(_) => "unknown".into(),
            error => error.to_string(),
        });
        self.told.get().push(told);
    }

    fn end(&self, store: &WorldStore) -> String {
        format!("{:?} {:?} {:?} {:?} {:?}", store.outcomes(), store.effects(), *self.shared.get(), *self.log.get(), *self.told.get())
    }
}

fn name(act: usize, arguments: usize) -> String {
    format!("f{act} of {arguments}")
}

fn in_transaction(act: usize) -> String {
    format!("f{act} in a transaction")
}

fn composing(act: usize) -> String {
    format!("f{act} composes")
}

/// A request of a flow.
fn begun(shop: &Process) -> Request {
    let mut flow = Flow::new("orders");
    let order = flow.promise("promise");
    flow.then(order, &name(0, 1));
    shop.start(&flow, "order", &[json!(1)]).unwrap()
}

#[test]
fn random_programs_come_to_the_same_ends() {
    come_to_the_same_ends::<OverStore>("0 20 60");
}
