//! Random programs of user code.
use crate::random::{come_to_the_same_ends, Dice, Mark, Program};
use crate::services::Shared;
use cf::testing::World;
use cf::{AnyStage, Request, Stage};
use std::time::Duration;

/// Variables.
const SHARED: usize = 3;

#[derive(Clone, Copy, Debug)]
enum Does {
    Set,
    Add,
    Read,
    Nothing,
    Complete,
    Cancel,
    Looks,
    Attach,
    Wait,
}

/// Something that a function does: to a variable, with a value, with a stage.
#[derive(Clone, Copy, Debug)]
struct Act(Does, usize, i32, usize);

#[derive(Clone, Copy, Debug)]
enum Kind {
    Supply,
    Promise,
    Arrives,
    Async,
    Then,
    Handle,
    Recover,
    Combine,
    Either,
    AllOf,
    Compose,
}

#[derive(Clone, Debug)]
struct Said {
    kind: Kind,
    of: [usize; 2],
    acts: Vec<Act>,
    mark: Mark,
    /// 0 arrives, 1 fails, 2 may come.
    comes: usize,
}

#[derive(Clone, Debug)]
struct OfRequests {
    requests: usize,
    stages: Vec<Said>,
    callers: Vec<Vec<Act>>,
    limits: Vec<(usize, u64)>,
    check: Option<(usize, i32, usize)>,
}

impl Program for OfRequests {
    const WHERE: &'static str = "";

    fn of(dice: &mut Dice) -> OfRequests {
        let requests = dice.one_of(&[1, 1, 2]);
        let stages: Vec<Said> = (0..2 + dice.below(3)).map(|at| Said::of(dice, at)).collect();
        let count = stages.len();
        let callers = many(dice, 0, |dice| many(dice, 1, |dice| Act::of(dice, count)));
        let limits = (0..dice.one_of(&[0, 0, 1, 2])).map(|_| (dice.below(count), 1 + dice.below(3) as u64)).collect();
        let check = (dice.below(10) < 3).then(|| (dice.below(SHARED), 1 + dice.below(3) as i32, dice.below(count)));
        OfRequests { requests, stages, callers, limits, check }
    }

    fn run(&self, world: &World) {
        let made = Made { shared: Shared::new([0; SHARED]), log: Shared::new(Vec::new()), stages: Shared::new(Vec::new()) };
        let requests: Vec<Request> = (0..self.requests).map(|number| world.request(&format!("request {number}"))).collect();
        for (at, said) in self.stages.iter().enumerate() {
            let stage = made.make(world, &requests[at % requests.len()], said);
            made.stages.get().push(stage);
        }
        for (number, seconds) in &self.limits {
            drop(made.stage(*number).or_timeout(Duration::from_secs(*seconds)));
        }
        for (number, acts) in self.callers.iter().enumerate() {
            let call = |act: Act| {
                let made = made.clone();
                move || made.act(act, false)
            };
            let mut calls = world.calls(&format!("caller {number}"), call(acts[0]));
            for act in &acts[1..] {
                calls = calls.and_then(call(*act));
            }
        }
        if let Some((variable, most, number)) = self.check {
            let (shared, stage) = (made.shared.clone(), made.stage(number));
            world.check("checked", move || shared.get()[variable] < most || !stage.is_settled());
        }
        world.end_is(move || made.end());
    }
}

impl Said {
    fn of(dice: &mut Dice, at: usize) -> Said {
        let first = [Kind::Supply, Kind::Promise, Kind::Arrives, Kind::Async];
        let behind = [Kind::Then, Kind::Handle, Kind::Recover, Kind::Combine, Kind::Either, Kind::AllOf, Kind::Compose];
        let kinds = if at > 0 { [&first[..], &behind].concat() } else { first.to_vec() };
        let of = if at > 0 { [dice.below(at), dice.below(at)] } else { [0, 0] };
        let acts = many(dice, 0, |dice| Act::of(dice, at));
        Said { kind: dice.one_of(&kinds), of, acts, mark: dice.mark(), comes: dice.below(3) }
    }
}

impl Act {
    fn of(dice: &mut Dice, count: usize) -> Act {
        let own = [Does::Set, Does::Add, Does::Read, Does::Nothing];
        let others = [Does::Complete, Does::Cancel, Does::Looks, Does::Attach, Does::Wait];
        let kinds = if count > 0 { [&own[..], &others].concat() } else { own.to_vec() };
        Act(dice.one_of(&kinds), dice.below(SHARED), dice.below(4) as i32, dice.below(count.max(1)))
    }
}

/// So many or more, up to two.
fn many<T>(dice: &mut Dice, least: usize, mut make: impl FnMut(&mut Dice) -> T) -> Vec<T> {
    (0..least + dice.below(3 - least)).map(|_| make(dice)).collect()
}

/// One run of a program.
#[derive(Clone)]
struct Made {
    shared: Shared<[i32; SHARED]>,
    log: Shared<Vec<usize>>,
    stages: Shared<Vec<Stage<i32>>>,
}

impl Made {
    fn stage(&self, number: usize) -> Stage<i32> {
        self.stages.get()[number].clone()
    }

    /// What a stage's function does.
    fn function(&self, said: &Said) -> impl FnOnce() -> i32 + Send + 'static {
        let (made, said) = (self.clone(), said.clone());
        move || match said.mark {
            Mark::Pure => 1,
            Mark::Touches => {
                made.log.get().push(said.of[0]);
                2
            }
            Mark::None => {
                said.acts.iter().for_each(|act| made.act(*act, true));
                made.shared.get().iter().sum()
            }
        }
    }

    fn act(&self, Act(does, variable, value, number): Act, may_wait: bool) {
        match does {
            Does::Set => self.shared.get()[variable] = value,
            Does::Add => self.shared.get()[variable] += 1,
            Does::Read => {
                let mut shared = self.shared.get();
                shared[variable] = shared[(variable + 1) % SHARED] + 1;
            }
            Does::Nothing => {}
            Does::Complete => assert!(self.stage(number).complete(value).map_or_else(|back| back == value, |()| true)),
            Does::Cancel => assert!(self.stage(number).cancel() || self.stage(number).is_settled()),
            Does::Looks => {
                let is_settled = self.stage(number).is_settled();
                self.shared.get()[variable] = i32::from(is_settled);
            }
            Does::Attach => {
                let shared = self.shared.clone();
                let stage = self.stage(number).handle(move |_| {
                    shared.get()[variable] = value;
                    value
                });
                self.stages.get().push(stage);
            }
            Does::Wait if may_wait => {
                let stage = self.stage(number);
                let told = match value {
                    0 => Some(stage.wait()),
                    seconds => stage.wait_timeout(Duration::from_secs(seconds as u64)),
                };
                self.shared.get()[variable] = told.map_or(7, |told| told.map_or(8, |_| 9));
            }
            Does::Wait => {}
        }
    }

    fn make(&self, world: &World, request: &Request, said: &Said) -> Stage<i32> {
        let of = said.of.map(|number| self.stages.get().get(number).cloned());
        let one = || request.adopt(of[0].as_ref().expect("it is there"));
        let two = || request.adopt(of[1].as_ref().expect("it is there"));
        let function = self.function(said);
        let stage = match said.kind {
            Kind::Supply => request.supply(function),
            Kind::Promise => return request.promise(),
            Kind::Arrives => {
                let promise = request.promise();
                return match said.comes {
                    0 => world.arrives(promise, 5),
                    1 => world.fails(promise, "x"),
                    _ => world.may(promise, 6),
                };
            }
            Kind::Async => {
                // It uses what functions share before its own function does.
                let (made, said) = (self.clone(), Said { mark: Mark::None, ..said.clone() });
                return request.spawn(async move {
                    let awaited = (said.acts.len() > 1).then(|| made.stages.get().first().cloned()).flatten();
                    if let Some(awaited) = awaited {
                        made.shared.get()[0] += awaited.await.unwrap_or(3);
                    }
                    let function = made.function(&said);
                    Ok::<_, cf::Error>(function())
                });
            }
            Kind::Then => one().then(move |_| function()),
            Kind::Handle => one().handle(move |_| function()),
            Kind::Recover => one().recover(move |_| function()),
            Kind::Combine => one().combine(&two(), move |_, _| function()),
            Kind::Either => one().either(&two(), move |_| function()),
            Kind::AllOf => {
                let (one, two) = (one(), two());
                request.all_of([&one as &dyn AnyStage, &two]).then(move |()| function())
            }
            Kind::Compose => {
                let two = two();
                return one().compose(move |_| two);
            }
        };
        match said.mark {
            Mark::None => {}
            Mark::Pure => world.pure(&stage),
            Mark::Touches => world.touches(&stage, &["log"]),
        }
        stage
    }

    fn end(&self) -> String {
        let told = |stage: &Stage<i32>| stage.peek().map_or("open".into(), |told| told.map_or_else(|error| error.to_string(), |it| it.to_string()));
        let stages: Vec<String> = self.stages.get().iter().map(told).collect();
        format!("{stages:?} {:?} {:?}", *self.shared.get(), *self.log.get())
    }
}

#[test]
fn random_programs_come_to_the_same_ends() {
    come_to_the_same_ends::<OfRequests>("0 60 200");
}
