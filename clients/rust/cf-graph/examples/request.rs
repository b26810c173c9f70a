//! A request: eight backends are asked, of which one doesn't answer before its limit; what they give is summed.
//! Four threads answer one request each, by graphs of one plan, and then one request together, by callers of one desk.
use cf_graph::{Answer, Args, Caller, Closed, Form, Graph, Limit, Outcome, Plan, PlanBuilder, Refused, Sizes, Ticked, Value};
use std::error::Error;
use std::thread;

const BACKENDS: u16 = 8;
const SLOW: u16 = 5;
const LIMIT: u32 = 60;

fn number(value: Value) -> i32 {
    match value {
        Value::Int(number) => number,
        Value::Nil => 0,
    }
}

/// The functions of stages: 0 asks a backend, 1 adds.
fn called(_function: u16, args: Args) -> Answer {
    match args {
        Args::One(given) => Answer::Give(Value::Int(10 * number(given))),
        Args::Two(left, right) => Answer::Give(Value::Int(number(left).wrapping_add(number(right)))),
        _ => Answer::Throw(500),
    }
}

fn plan() -> Result<(Plan, u16), Refused> {
    let mut builder = PlanBuilder::new()?;
    for _ in 0..BACKENDS {
        let answer = builder.stage(Form::Source, &[], None)?;
        builder.limit(answer, LIMIT, Limit::Give(Value::Int(0)))?;
    }
    let mut sum = builder.stage(Form::Apply, &[0], Some(0))?;
    for answer in 1..BACKENDS {
        let scaled = builder.stage(Form::Apply, &[answer], Some(0))?;
        sum = builder.stage(Form::Combine, &[sum, scaled], Some(1))?;
    }
    Ok((builder.build()?, sum))
}

fn request(mut graph: Graph, sum: u16, times: i32) -> Result<(Ticked, Option<Outcome>), Refused> {
    for backend in (0..BACKENDS).filter(|&backend| backend != SLOW) {
        graph.complete(backend, Value::Int(times * (i32::from(backend) + 1)))?;
    }
    graph.work(1, called)?;
    let ticked = graph.tick(LIMIT)?;
    graph.work(1, called)?;
    Ok((ticked, graph.outcome(sum)?))
}

/// What the first of four callers is told, how many functions they called, and their desk, closed.
fn together(plan: &mut Plan) -> Result<(Ticked, u32, Closed), Box<dyn Error>> {
    let (desk, mut callers) = plan.desk(Sizes { callers: 4, log: 500, calls: 200, growth: None })?;
    let (first, workers) = callers.split_first_mut().ok_or("no callers")?;
    let (ticked, calls) = thread::scope(|scope| {
        let threads: Vec<_> = workers.iter_mut().map(|caller| scope.spawn(move || caller.work(called))).collect();
        let ticked = answer(first);
        let calls: Result<u32, Refused> = threads.into_iter().map(|thread| thread.join().expect("a worker panics")).sum();
        (ticked, calls)
    });
    // What came to be ready behind the last look of all workers is left for the first.
    let rest = first.work(called)?;
    Ok((ticked?, calls? + rest, desk.close(callers)?))
}

fn answer(first: &mut Caller) -> Result<Ticked, Refused> {
    for backend in (0..BACKENDS).filter(|&backend| backend != SLOW) {
        first.complete(backend, Value::Int(i32::from(backend) + 1))?;
    }
    first.tick(LIMIT)
}

/// Does the events of a closed desk again, by one thread, and compares what they leave.
fn is_done_again(plan: &mut Plan, mut closed: Closed) -> Result<bool, Refused> {
    let mut again = plan.graph(0)?;
    for word in closed.words()? {
        again.apply(word)?;
    }
    let mut graph = closed.graph()?;
    for stage in 0..graph.stage_count()? {
        if graph.outcome(stage)? != again.outcome(stage)? {
            return Ok(false);
        }
    }
    Ok(true)
}

fn main() -> Result<(), Box<dyn Error>> {
    let (mut plan, sum) = plan()?;
    let mut threads = Vec::new();
    for times in 1..=4 {
        let graph = plan.graph(0)?;
        threads.push(thread::spawn(move || request(graph, sum, times)));
    }
    for (place, thread) in threads.into_iter().enumerate() {
        let (ticked, outcome) = thread.join().expect("a request panics")?;
        println!("request {}: {:?}, {:?}", place + 1, ticked, outcome);
    }
    let (ticked, calls, mut closed) = together(&mut plan)?;
    println!("together: {:?}, {} functions", ticked, calls);
    println!("the first event: {:?}", closed.events()?.first());
    println!("done again: {}", is_done_again(&mut plan, closed)?);
    let mut graph = plan.graph(1)?;
    println!("attached: {:?}, then {:?}", graph.attach(Form::Apply, &[sum], Some(0))?, graph.attach(Form::Apply, &[sum], Some(0))?);
    println!("no such stage: {}", graph.complete(999, Value::Nil).unwrap_err());
    Ok(())
}
