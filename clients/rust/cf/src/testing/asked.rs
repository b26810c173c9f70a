//! Questions of `cf_look explore`, asked of a request in a world: what conformance/clients/rust-orders compares.
//!
//! `CF_QUESTIONS` names a file with a line for each question, and `CF_ANSWERS` where a line is written for each: the orders, the runs that were cut
//! short, whether that is all, how many orders failed, and each end with its number of orders.
use super::{Calls, Orders, Report, World};
use crate::core::Core;
use crate::error::Error;
use crate::name::Made;
use crate::spawn::{caller_number, CALLER};
use crate::stage::Stage;
use crate::value::{CallArgs, Returned, StageFn, Val};
use crate::word::WordForm;
use std::fmt;
use std::io::Write;
use std::sync::{Arc, Mutex};
use std::time::Duration;

/// What a function throws.
#[derive(Debug)]
struct Thrown(i32);

impl fmt::Display for Thrown {
    fn fmt(&self, f: &mut fmt::Formatter<'_>) -> fmt::Result {
        write!(f, "{}", self.0)
    }
}

impl std::error::Error for Thrown {}

fn thrown(code: i32) -> Error {
    Error::from_boxed(Box::new(Thrown(code)))
}

/// A stage as `apply 0 add:1`: its form, its sources, its function.
#[derive(Clone)]
struct StageLine {
    form: String,
    of: Vec<usize>,
    function: String,
}

#[derive(Clone)]
enum CallerStep {
    Complete(usize, Option<i32>),
    Fail(usize, i32),
    Cancel(usize),
    Now(usize),
    Join(usize, u32),
    Attach(StageLine),
}

/// A line: `counted 2 15000 1 | STAGE; .. | timeout 0 1; value 1 2 4 | STEP, ..; ..`, with the workers, the most orders and the room.
#[derive(Clone)]
struct Question {
    is_counted: bool,
    workers: usize,
    most: u64,
    room: usize,
    stages: Vec<StageLine>,
    /// The stage, the moment, and the value, if the limit gives one.
    limits: Vec<(usize, u64, Option<Option<i32>>)>,
    callers: Vec<Vec<CallerStep>>,
}

fn number<T: std::str::FromStr>(word: &str) -> T {
    word.parse().unwrap_or_else(|_| panic!("{word} is no number"))
}

fn value(word: &str) -> Option<i32> {
    (word != "nil").then(|| number(word))
}

impl StageLine {
    fn parse(words: &[&str]) -> StageLine {
        let of = words[1].split('+').filter(|word| *word != "-").map(number).collect();
        StageLine { form: words[0].into(), of, function: words[2].into() }
    }
}

impl CallerStep {
    fn parse(words: &[&str]) -> CallerStep {
        let stage = || number(words[1]);
        match words[0] {
            "complete" => CallerStep::Complete(stage(), value(words[2])),
            "fail" => CallerStep::Fail(stage(), number(words[2])),
            "cancel" => CallerStep::Cancel(stage()),
            "now" => CallerStep::Now(stage()),
            "join" => CallerStep::Join(stage(), number(words[2])),
            _ => CallerStep::Attach(StageLine::parse(&words[1..])),
        }
    }
}

impl Question {
    fn parse(line: &str) -> Question {
        let parts: Vec<&str> = line.split('|').collect();
        let words = |text: &'static str, part: usize| -> Vec<Vec<&str>> {
            let rows = parts[part].split(text).map(|row| row.split_whitespace().collect::<Vec<_>>());
            rows.filter(|row| !row.is_empty()).collect()
        };
        let head = words(";", 0).remove(0);
        let limit = |row: &Vec<&str>| (number(row[1]), number(row[2]), (row[0] == "value").then(|| value(row[3])));
        let steps = |row: &str| row.split(',').map(|step| CallerStep::parse(&step.split_whitespace().collect::<Vec<_>>())).collect();
        Question {
            is_counted: head[0] == "counted",
            workers: number(head[1]),
            most: number(head[2]),
            room: number(head[3]),
            stages: words(";", 1).iter().map(|row| StageLine::parse(row)).collect(),
            limits: words(";", 2).iter().map(limit).collect(),
            callers: parts[3].split(';').filter(|row| !row.trim().is_empty()).map(steps).collect(),
        }
    }
}

/// What a function answers, with what it is called with.
fn answer(function: &str, given: &CallArgs) -> Result<Option<i32>, Error> {
    let int = |value: &Val| value.as_any().downcast_ref::<i32>().copied();
    let (first, second, fault) = match given {
        CallArgs::Nothing => (None, None, None),
        CallArgs::One(value) | CallArgs::Got(Ok(value)) => (int(value), None, None),
        CallArgs::Two(first, second) => (int(first), Some(int(second).unwrap_or(0)), None),
        CallArgs::Got(Err(error)) => (None, None, Some(error)),
    };
    let (name, k) = function.split_once(':').unwrap_or((function, ""));
    match (name, fault) {
        ("const", _) => return Ok(value(k)),
        ("throw", _) => return Err(thrown(number(k))),
        ("rescue", Some(_)) => return Ok(value(k)),
        ("rescue", None) => return Ok(first),
        (_, Some(error)) => return Err(thrown(error.downcast_ref::<Thrown>().map_or(0, |thrown| thrown.0))),
        _ => {}
    }
    let x = first.unwrap_or(0);
    let n = if k.is_empty() { 0 } else { number::<i32>(k) };
    Ok(Some(match name {
        "add" => x.wrapping_add(n),
        "mul" => x.wrapping_mul(n),
        "div" if n == 0 => return Err(thrown(0)),
        "div" => x.wrapping_div(n),
        "neg" => x.wrapping_neg(),
        "sum" => x.wrapping_add(second.unwrap_or(0)),
        _ => panic!("there is no function {function}"),
    }))
}

fn of_value(value: Option<i32>) -> Val {
    value.map_or(Val::Nil, Val::new)
}

/// One run of a question.
#[derive(Clone)]
struct Asked {
    core: Arc<Core>,
    /// The numbers of the question's stages.
    stages: Arc<Mutex<Vec<u16>>>,
    room: Arc<Mutex<usize>>,
}

impl Asked {
    fn stage(&self, number: usize) -> Option<Stage<i32>> {
        let at = self.stages.lock().unwrap().get(number).copied()?;
        Some(Stage::new(&self.core, Ok(at)))
    }

    fn attach(&self, said: &StageLine) {
        let of: Vec<u16> = said.of.iter().map(|number| self.stages.lock().unwrap()[*number]).collect();
        let many = match said.form.as_str() {
            "allOf" => Some(cf_graph::Form::AllOf),
            "anyOf" => Some(cf_graph::Form::AnyOf),
            _ => None,
        };
        if let Some(form) = many {
            let at = self.core.gather((caller_number(), None), form, &of, Made::without_function(|| "asked"));
            return self.stages.lock().unwrap().push(at.expect("there is room"));
        }
        let (form, is_nil) = match said.form.as_str() {
            "source" => (WordForm::Source, false),
            "supply" | "runAsync" => (WordForm::Supply, said.form == "runAsync"),
            "apply" | "accept" | "thenRun" => (WordForm::Apply, said.form != "apply"),
            "combine" | "acceptBoth" | "runBoth" => (WordForm::Combine, said.form != "combine"),
            "applyEither" | "acceptEither" | "runEither" => (WordForm::ApplyEither, said.form != "applyEither"),
            "compose" => (WordForm::Compose, false),
            "exceptionallyCompose" => (WordForm::ExceptionallyCompose, false),
            "handle" => (WordForm::Handle, false),
            "whenComplete" => (WordForm::WhenComplete, false),
            "exceptionally" => (WordForm::Exceptionally, false),
            form => panic!("there is no form {form}"),
        };
        // What runs whatever comes is called with nothing.
        let (function, is_run) = (said.function.clone(), matches!(said.form.as_str(), "thenRun" | "runBoth" | "runEither"));
        let by = self.clone();
        let call: StageFn = match function.strip_prefix("goto:").map(number::<usize>) {
            Some(target) => Box::new(move |_| by.stage(target).expect("it is lower").into_returned()),
            None => Box::new(move |given| match answer(&function, if is_run { &CallArgs::Nothing } else { given }) {
                Ok(value) => Returned::Value(of_value(value.filter(|_| !is_nil))),
                Err(error) => Returned::Error(error),
            }),
        };
        let made = Made::without_function(|| "asked");
        let at = match form {
            WordForm::Source => self.core.attach(caller_number(), None, form, None, made),
            WordForm::Supply => self.core.attach(caller_number(), None, form, Some(call), made),
            WordForm::Compose | WordForm::ExceptionallyCompose => self.core.attach_composing(caller_number(), form, of[0], call, made),
            _ => self.core.attach_behind(caller_number(), form, &of, call, made),
        };
        self.stages.lock().unwrap().push(at.expect("there is room"));
    }

    fn settle(&self, stage: usize, with: Result<Val, Error>) {
        let at = self.stages.lock().unwrap()[stage];
        drop(self.core.settle(CALLER, at, with));
    }

    /// Makes a step, and says whether it is over: a join looks until the stage is settled, or so often.
    fn does(&self, step: &CallerStep, looks: u32) -> bool {
        match step {
            CallerStep::Complete(stage, value) => self.settle(*stage, Ok(of_value(*value))),
            CallerStep::Fail(stage, code) => self.settle(*stage, Err(thrown(*code))),
            CallerStep::Cancel(stage) => self.settle(*stage, Err(Error::Cancelled)),
            CallerStep::Now(stage) => drop(self.stage(*stage).map(|stage| stage.is_settled())),
            CallerStep::Join(stage, most) => return looks >= *most || self.stage(*stage).map_or(false, |stage| stage.is_settled()),
            CallerStep::Attach(said) => {
                let mut room = self.room.lock().unwrap();
                if *room > 0 {
                    *room -= 1;
                    drop(room);
                    self.attach(said);
                }
            }
        }
        true
    }

    /// A caller's steps: each call adds the next one.
    fn goes_on(self, calls: Calls, steps: Arc<Vec<CallerStep>>, at: usize, looks: u32) {
        let next = calls.clone();
        if at < steps.len() {
            drop(calls.and_then(move || {
                let is_over = self.does(&steps[at], looks);
                let (at, looks) = if is_over { (at + 1, 1) } else { (at, looks + 1) };
                self.goes_on(next, steps, at, looks);
            }));
        }
    }

    fn end(&self) -> String {
        let stages = self.stages.lock().unwrap().clone();
        let told = |core: &Core, stage: u16| core.lock().end_of(stage);
        let report = crate::History::new(&self.core).report();
        let lines: Vec<&str> = report.lines().filter(|line| line.starts_with("stage ")).collect();
        let end = |stage: &u16| {
            let words: Vec<&str> = lines[usize::from(*stage)].split(' ').skip(2).collect();
            match (&words[..], told(&self.core, *stage)) {
                (["value", _], Some(Ok(value))) => value.as_any().downcast_ref::<i32>().map_or("value nil".into(), |it| format!("value {it}")),
                (["fault", "thrown", _, wrapped], Some(Err(error))) => {
                    format!("fault thrown {} {wrapped}", error.downcast_ref::<Thrown>().map_or(0, |thrown| thrown.0))
                }
                // A limit of a question has no code, and one of a stage the stage's number.
                (["fault", "timeout", _, wrapped], _) => format!("fault timeout {wrapped}"),
                (words, _) => words.join(" "),
            }
        };
        stages.iter().map(end).collect::<Vec<_>>().join(", ")
    }
}

fn asked(question: &Question, world: &World) {
    let core = world.request("q").0;
    let asked = Asked { core, stages: Arc::default(), room: Arc::new(Mutex::new(question.room)) };
    question.stages.iter().for_each(|said| asked.attach(said));
    for (stage, at, gives) in &question.limits {
        let at_stage = asked.stages.lock().unwrap()[*stage];
        asked.core.set_limit(at_stage, Duration::from_secs(*at), gives.map(of_value));
    }
    for steps in &question.callers {
        if question.is_counted {
            let calls = Calls::none(world, "a caller");
            asked.clone().goes_on(calls, Arc::new(steps.clone()), 0, 1);
            continue;
        }
        let mut calls = Calls::none(world, "a caller");
        for step in steps {
            // A join is as many looks as it may take.
            for _ in 0..if let CallerStep::Join(_, most) = step { *most } else { 1 } {
                let (asked, step) = (asked.clone(), step.clone());
                let is_pure = !matches!(step, CallerStep::Attach(_) | CallerStep::Join(..));
                calls = calls.and_then(move || asked.does(&step, u32::MAX));
                calls = if is_pure { calls.pure() } else { calls };
            }
        }
    }
    world.end_is(move || asked.end());
}

fn told(report: &Report) -> String {
    let ends = report.ends.iter().map(|(end, orders)| format!("\t{end}\t{orders}")).collect::<String>();
    format!("{} {} {} {}{ends}\n", report.orders, report.cut, report.whole, report.failed.len())
}

fn answered(line: &str) -> String {
    let question = Question::parse(line);
    let orders =
        Orders::new().free_clock().failures(usize::MAX).as_found().time(Duration::from_secs(600)).most(question.most).workers(question.workers);
    let orders = if question.is_counted { orders.all() } else { orders };
    told(&orders.run(move |world| asked(&question, world)))
}

#[test]
fn questions_are_answered() {
    let asked = std::env::var_os("CF_QUESTIONS").map(|path| std::fs::read_to_string(path).unwrap());
    let mut answers = std::env::var_os("CF_ANSWERS").map(|path| std::fs::File::create(path).unwrap());
    for line in asked.as_deref().unwrap_or("counted 1 100 0 | source - - | | complete 0 1; cancel 0").lines() {
        let answer = answered(line);
        match &mut answers {
            Some(file) => file.write_all(answer.as_bytes()).unwrap(),
            None => assert_eq!(answer.split_once('\t').unwrap().1, "fault cancelled raw\t1\tvalue 1\t1\n"),
        }
    }
}
