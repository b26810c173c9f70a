//! Lets eight threads race random requests, and prints what became of each: conformance/clients/rust-requests judges it.
//!
//!     random FIRST COUNT [CF_LOOK]
//!
//! Each seed makes two requests, of which the one takes stages of the other. Eight threads attach stages of all forms, complete, fail, cancel
//! and name them, let them time out and have bad answers, while four threads run their functions, which give values, return errors, panic, rest,
//! wait for stages, or give futures. Three lines for each history, one of them taken in the midst of the race: the account, the script, and the
//! report with tabs for ends of lines. A thread that is told that it has settled a stage has to find there what it settled it with. The outcomes
//! that stages showed have to come again on a ledger, which does the words of the history. At the end no stage may be ready or claimed, each has
//! to have the error of the stage from which that came, and by the program CF_LOOK the first history has to become a page: else the status isn't
//! 0.
use cf::{Error, HandClock, Pool, Request, Spawn, Stage, SystemClock};
use cf_graph::{Call, Cause, Event, Ledger, Outcome, PlanBuilder, State};
use std::sync::Arc;
use std::time::{Duration, Instant};
use std::{env, panic, process, thread};

#[derive(Clone)]
struct Dice(u64);

impl Dice {
    fn of(seed: u64) -> Dice {
        Dice((seed + 1).wrapping_mul(0x9e37_79b9_7f4a_7c15) | 1)
    }

    fn roll(&mut self, sides: usize) -> usize {
        self.0 ^= self.0 << 13;
        self.0 ^= self.0 >> 7;
        self.0 ^= self.0 << 17;
        ((self.0 >> 11) % sides as u64) as usize
    }

    fn pick<'a, T>(&mut self, of: &'a [T]) -> &'a T {
        &of[self.roll(of.len())]
    }
}

/// What a stage calls: it gives, returns an error, panics or rests.
fn function(dice: &mut Dice) -> impl FnOnce(i64) -> Result<i64, Box<dyn std::error::Error + Send + Sync>> + Send + 'static {
    let (what, rests, given) = (dice.roll(20), dice.roll(12) == 0, dice.roll(1000) as i64);
    move |n| {
        if rests {
            thread::sleep(Duration::from_micros(300));
        }
        match what {
            0..=2 => Err(format!("no answer {given}").into()),
            3 => panic::panic_any(given),
            _ => Ok(n.wrapping_add(given)),
        }
    }
}

fn must(told: Result<i64, Box<dyn std::error::Error + Send + Sync>>) -> i64 {
    told.unwrap_or_else(|error| panic::panic_any(error.to_string()))
}

/// Attaches one stage, or settles one.
fn step(dice: &mut Dice, request: &Request, stages: &[Stage<i64>], others: &[Stage<i64>]) -> Option<Stage<i64>> {
    let a = dice.pick(stages).clone();
    let b = if dice.roll(6) == 0 { dice.pick(others) } else { dice.pick(stages) }.clone();
    let (f, by, rest) = (function(dice), request.clone(), function(dice));
    let all = [a.clone(), b.clone(), dice.pick(stages).clone()];
    let late = Duration::from_micros(*dice.pick(&[1, 100, 400_000]));
    Some(match dice.roll(27) {
        0 => request.promise(),
        1 | 2 => request.try_supply(move || f(1)),
        3 | 4 => a.and_then(move |n| f(*n)),
        5 => a.then(move |n| must(f(*n))),
        6 => a.handle(move |told| told.map_or(-1, |n| *n)),
        7 => a.recover(move |_| must(f(2))),
        8 => a.inspect(move |_| drop(f(3))),
        9 | 10 => a.combine(&b, move |a, b| must(f(a + b))),
        11 => a.either(&b, move |n| must(f(*n))),
        12 => a.compose(move |_| b),
        13 => a.compose(move |n| {
            let both = by.supply(|| 5).combine(&by.try_supply(move || rest(4)), |a, b| a * b);
            both.named(format!("of {n}")).or_timeout(late)
        }),
        14 => a.recover_compose(move |_| b),
        15 => request.all_of(all[..dice.roll(4)].iter().map(|it| it as &dyn cf::AnyStage)).then(|()| 0),
        16 => request.first_of(&all),
        17 => request.gather(&all).then(|all| all.iter().sum()),
        18 => request.spawn(async move { a.await.map(|n| n + 1) }),
        19 => a.then_async(move |n| async move { b.await.map(|b| b + *n) }).or_timeout(Duration::from_millis(1 + *dice.pick(&[0, 400]))),
        20 => request.promise().or_timeout(Duration::from_micros(500)),
        21 => request.promise().complete_on_timeout(7, Duration::from_micros(500)),
        22 => {
            // Nobody else gives this number.
            let mine = i64::MIN | dice.0 as i64;
            let fails = |error: Box<dyn std::error::Error + Send + Sync>| !a.fail(error) || a.blamed() == a.number();
            assert!(match dice.roll(6) {
                0 => a.complete(mine).is_ok() == matches!(a.peek(), Some(Ok(it)) if it == mine),
                1 => fails("gone".into()),
                2 => !a.cancel() || matches!(a.peek(), Some(Err(error)) if error.is_cancelled()),
                3 => fails(Error::TimedOut(Duration::from_nanos(dice.roll(1000) as u64)).into()),
                4 => fails(Error::BadAnswer.into()),
                _ => a.clone().named("named").number() == a.number(),
            });
            return None;
        }
        23 => request.first(&all),
        24 => request.all(&all).then(|all| all.iter().sum()),
        25 => request.quorum(1 + dice.roll(3), &all).then(|some| some.iter().sum()),
        // A worker that waits runs others; what it waits for is there, or comes by the clock.
        _ => {
            let waits = request.promise().complete_on_timeout(1, Duration::from_micros(200));
            request.try_supply(move || waits.wait())
        }
    })
}

struct Raced {
    midst: cf::History,
    request: Request,
    other: Request,
    stages: Vec<Stage<i64>>,
    promises: Vec<Stage<i64>>,
}

fn race(seed: u64, spawn: &Arc<dyn Spawn>) -> Raced {
    let mut dice = Dice::of(seed);
    let clock = Arc::new(SystemClock);
    let room = *dice.pick(&[1, 8, 64]);
    let request = Request::try_new(&format!("seed {seed}"), spawn.clone(), clock, room).expect("a ledger");
    let other = Request::with_clock("other", spawn.clone(), Arc::new(HandClock::new()));
    let others = vec![other.promise(), other.supply(|| 9), other.try_supply(|| Err("no other"))];
    let (midst, stages) = thread::scope(|scope| {
        let race = |k| {
            let (mut dice, request, others) = (Dice::of(seed << 8 | k), &request, &others);
            scope.spawn(move || {
                let mut stages = vec![request.promise(), request.supply(|| 3)];
                for _ in 0..2 + dice.roll(10) {
                    stages.extend(step(&mut dice, request, &stages, others));
                }
                for stage in &stages {
                    if dice.roll(3) == 0 {
                        let _ = stage.complete(4);
                    }
                }
                stages
            })
        };
        let threads: Vec<_> = (0..8).map(race).collect();
        let midst = request.history();
        let _ = match seed % 4 {
            0 => others[0].fail(Error::TimedOut(Duration::from_secs(1))),
            1 => others[0].fail(Error::BadAnswer),
            _ => others[0].complete(seed as i64).is_ok(),
        };
        (midst, threads.into_iter().flat_map(|thread| thread.join().expect("it ends")).collect())
    });
    Raced { midst, request, other, stages, promises: others }
}

/// From which stage each has its error, by the code of that error, done again in a ledger for which what times out or has a bad answer throws. A
/// code is one more than the number of its stage.
fn blamed(history: &cf::History) -> Vec<Option<u16>> {
    const CLOCK: u8 = 1;
    let mut plan = PlanBuilder::new().and_then(|plan| plan.build()).expect("a plan");
    let mut ledger = Ledger::new(&mut plan, history.names().len().max(1) as u16).expect("a ledger");
    let code = |ledger: &mut Ledger, stage: u16| match ledger.stage(stage).expect("the stage is there").state {
        State::Settled(Outcome::Fault { cause: Cause::Thrown(code), .. }) => Some(code as u16 - 1),
        _ => None,
    };
    for &word in history.words() {
        let Event { who, call } = Event::from_word(word).expect("an event");
        let call = match call {
            Call::FailAs(stage, _) => {
                // A relay of the same request has what the stage has for which it stands. The clock names whose error it is, also for a join.
                let of = history.names()[usize::from(stage)].strip_prefix("relay of ").and_then(|of| of.parse().ok());
                let own = if who == CLOCK { word as u16 - 1 } else { stage };
                let from = of.map_or(Some(own), |of| code(&mut ledger, of)).expect("the stage failed");
                Call::Fail(stage, u32::from(from) + 1)
            }
            call => call,
        };
        ledger.apply_event(Event { who, call }).expect("the words fit");
    }
    (0..history.names().len() as u16).map(|stage| code(&mut ledger, stage)).collect()
}

/// Whether each stage has the error of the stage from which it came.
fn have_their_errors(stages: &[Stage<i64>], history: &cf::History) -> bool {
    let (from, outcomes) = (blamed(history), history.report());
    let told = |stage: &Stage<i64>| stage.peek().and_then(Result::err).map(|error| error.to_string());
    let number = |stage: &Stage<i64>| usize::from(stage.number().expect("there is room"));
    stages.iter().all(|stage| {
        let outcome = outcomes.lines().find_map(|line| line.strip_prefix(&format!("stage {} ", number(stage)))).expect("it is told");
        let is_so = match stage.peek() {
            Some(Err(Error::TimedOut(_))) => outcome.starts_with("fault t"),
            Some(Err(Error::BadAnswer)) => outcome.starts_with("fault badanswer ") || outcome.starts_with("fault thrown "),
            _ => !outcome.starts_with("fault timeout ") && !outcome.starts_with("fault badanswer "),
        };
        let of = stages.iter().find(|of| of.number() == stage.blamed());
        is_so && stage.blamed() == from[number(stage)] && of.map_or(true, |of| told(of) == told(stage))
    })
}

/// Whether a stage has what it needs, and its function isn't finished.
fn is_open(history: &cf::History) -> bool {
    let mut plan = PlanBuilder::new().and_then(|plan| plan.build()).expect("a plan");
    let mut ledger = Ledger::from_words(&mut plan, history.names().len().max(1) as u16, history.words()).expect("the words fit");
    (0..history.names().len() as u16).any(|stage| {
        let now = ledger.stage(stage).expect("the stage is there");
        now.who.is_some() || now.state == State::Ready || now.state == State::Claimed
    })
}

fn main() {
    let mut args = env::args().skip(1);
    let mut number = |other| args.next().map_or(other, |word| word.parse::<u64>().expect("a number"));
    let (first, count) = (number(0), number(100));
    let mut look = args.next();
    panic::set_hook(Box::new(|_| {}));
    let spawn: Arc<dyn Spawn> = Arc::new(Pool::new(4));
    for seed in first..first + count {
        let raced = race(seed, &spawn);
        let end = Instant::now() + Duration::from_secs(20);
        // Futures that wait for stages that nobody completes are claimed for good: what is left is cancelled.
        thread::sleep(Duration::from_millis(1));
        raced.request.cancel_all();
        let settled = |request: &Request| loop {
            let history = request.history();
            if !is_open(&history) {
                return history;
            }
            if Instant::now() > end {
                eprintln!("a stage waits that has what it needs:\n{history}");
                process::exit(1);
            }
            thread::sleep(Duration::from_micros(200));
        };
        let ended = settled(&raced.request);
        if !have_their_errors(&raced.stages, &ended) {
            eprintln!("a stage has the error of another:\n{ended}");
            process::exit(1);
        }
        for history in [ended, settled(&raced.other), raced.midst] {
            if !history.is_reproducible() {
                eprintln!("it doesn't come again:\n{history}");
                process::exit(1);
            }
            if let Some(program) = look.take() {
                let page = history.page_made_by(&program).expect("a page");
                assert!(page.starts_with("<!doctype html>") && page.contains(&format!("seed {seed}")), "{page}");
            }
            println!("{}\n{}\n{}", history.account().trim_end(), history.script(), history.report().replace('\n', "\t"));
        }
        drop(raced.promises.iter().map(Stage::peek).collect::<Vec<Option<Result<i64, Error>>>>());
    }
}
