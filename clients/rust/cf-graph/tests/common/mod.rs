//! What several tests use: plans, sizes of desks, a function, and a closed desk that is done again.
#![allow(dead_code)] // (each test takes a part)
use cf_graph::*;

pub const fn sizes(callers: u8, log: u16, calls: u16) -> Sizes {
    Sizes { callers, log, calls, growth: None }
}

/// What a caller can fail a stage as, without a code and with one.
pub const FAILURES: [(Failure, Cause); 4] = [
    (Failure::TimedOut(0), Cause::TimedOut(0)),
    (Failure::TimedOut(7), Cause::TimedOut(7)),
    (Failure::BadAnswer(0), Cause::BadAnswer(0)),
    (Failure::BadAnswer(u32::MAX), Cause::BadAnswer(u32::MAX)),
];

/// 0 a source, and a row of so many applies behind it.
pub fn row(applies: u16) -> Plan {
    let mut builder = PlanBuilder::new().unwrap();
    let mut last = builder.stage(Form::Source, &[], None).unwrap();
    for function in 0..applies {
        last = builder.stage(Form::Apply, &[last], Some(function)).unwrap();
    }
    builder.build().unwrap()
}

pub fn one_more(args: Args) -> Answer {
    match args {
        Args::One(Value::Int(number)) => Answer::Give(Value::Int(number + 1)),
        _ => Answer::Throw(0),
    }
}

pub fn given(number: i32) -> Result<Option<Outcome>, Refused> {
    Ok(Some(Outcome::Value(Value::Int(number))))
}

pub fn completes(stage: u16, number: i32) -> u64 {
    Event { who: 0, call: Call::Complete(stage, Value::Int(number)) }.word().unwrap()
}

/// 0 a source, 1 an apply of it by function 3, 2 a source with a limit at 10, 3 a compose of it by function 1.
pub fn desk_plan() -> Plan {
    let mut builder = PlanBuilder::new().unwrap();
    builder.stage(Form::Source, &[], None).unwrap();
    builder.stage(Form::Apply, &[0], Some(3)).unwrap();
    builder.stage(Form::Source, &[], None).unwrap();
    builder.stage(Form::Compose, &[2], Some(1)).unwrap();
    builder.limit(2, 10, Limit::Timeout(7)).unwrap();
    builder.build().unwrap()
}

/// The closed graph, after all records and events are found to be those of one thread that does the events again.
pub fn replayed(plan: &mut Plan, room: u16, mut closed: Closed) -> Graph {
    let (words, events) = (closed.words().unwrap(), closed.events().unwrap());
    let mut again = plan.graph(room).unwrap();
    let replies: Vec<Reply> = words.iter().map(|&word| again.apply(word).unwrap()).collect();
    let mut placed = vec![false; words.len()];
    for caller in 0..closed.caller_count() {
        let mut last = 0;
        for record in closed.records(caller).unwrap() {
            let place = match record {
                Record::Did { place, .. } | Record::Saw { place, .. } | Record::SawNow { place, .. } => place,
                other => panic!("{other:?}"),
            };
            assert!(last <= place);
            if let Record::Did { event, reply, .. } = record {
                let at = place as usize - 1;
                assert!(last < place && !placed[at] && event.who == caller);
                assert_eq!((event, reply), (events[at], replies[at]));
                placed[at] = true;
            }
            last = place;
        }
    }
    assert!(placed.into_iter().all(|is| is));
    let mut graph = closed.graph().unwrap();
    assert_eq!(graph.stage_count(), again.stage_count());
    for stage in 0..graph.stage_count().unwrap() {
        assert_eq!(graph.outcome(stage), again.outcome(stage));
    }
    graph
}
