//! Desks: eight threads that race on one, openings that are refused, closing, and what a closed desk holds.
mod common;

use cf_graph::*;
use common::{desk_plan, replayed, row, sizes};
use std::mem::swap;
use std::thread;

const SIZES: Sizes = Sizes { callers: 8, log: 2_000, calls: 2_000, growth: None };

/// A source, so many applies of it, and after each a sum of all by then.
fn fan_out(count: u16) -> (Plan, u16) {
    let mut builder = PlanBuilder::new().unwrap();
    let mut sum = builder.stage(Form::Source, &[], None).unwrap();
    for _ in 0..count {
        let doubled = builder.stage(Form::Apply, &[0], Some(0)).unwrap();
        sum = builder.stage(Form::Combine, &[sum, doubled], Some(1)).unwrap();
    }
    (builder.build().unwrap(), sum)
}

fn called(_function: u16, args: Args) -> Answer {
    match args {
        Args::One(Value::Int(number)) => Answer::Give(Value::Int(2 * number)),
        Args::Two(Value::Int(left), Value::Int(right)) => Answer::Give(Value::Int(left + right)),
        _ => Answer::Throw(1),
    }
}

fn is_shared<T: Send + Sync>() {}

#[test]
fn desks_are_shared_and_callers_sent() {
    is_shared::<Desk>();
    is_shared::<Caller>();
    is_shared::<Closed>();
}

#[test]
fn a_closed_desk_has_all_that_was_told() {
    let (desk, mut desk_callers) = desk_plan().desk(sizes(2, 100, 100)).unwrap();
    desk_callers[1].read_outcome(0).unwrap();
    desk_callers[0].complete(0, Value::Int(7)).unwrap();
    desk_callers[1].claim(1).unwrap();
    desk_callers[1].read_now(0, Value::Nil).unwrap();
    desk_callers[1].finish(1, Answer::Give(Value::Int(8))).unwrap();
    desk_callers.reverse();
    let mut closed = desk.close(desk_callers).unwrap();
    let events = [(0, Call::Complete(0, Value::Int(7))), (1, Call::Claim(1)), (1, Call::Finish(1, Answer::Give(Value::Int(8))))];
    let events = events.map(|(who, call)| Event { who, call });
    assert_eq!(closed.events(), Ok(events.to_vec()));
    assert_eq!(closed.words().unwrap(), events.map(|event| event.word().unwrap()));
    assert_eq!(closed.records(0), Ok(vec![Record::Did { place: 1, event: events[0], reply: Reply::Flag(true) }]));
    let granted = Reply::Claimed(Claimed::Granted(Args::One(Value::Int(7))));
    let records = vec![
        Record::Saw { place: 0, stage: 0, outcome: None },
        Record::Did { place: 2, event: events[1], reply: granted },
        Record::SawNow { place: 2, stage: 0, absent: Value::Nil, now: Now::Value(Value::Int(7)) },
        Record::Did { place: 3, event: events[2], reply: Reply::Finished(Finished::Won) },
    ];
    assert_eq!(closed.records(1), Ok(records));
    assert!(closed.records(2).is_err());
    let mut graph = closed.graph().unwrap();
    assert_eq!(graph.outcome(1), Ok(Some(Outcome::Value(Value::Int(8)))));
}

#[test]
fn eight_threads_call_each_function_once() {
    let (mut plan, sum) = fan_out(200);
    let (desk, desk_callers) = plan.desk(SIZES).unwrap();
    let threads: Vec<_> = desk_callers.into_iter().map(|desk_caller| thread::spawn(move || works(desk_caller, sum))).collect();
    let (desk_callers, calls): (Vec<Caller>, Vec<u32>) = threads.into_iter().map(|thread| thread.join().unwrap()).unzip();
    assert_eq!(calls.iter().sum::<u32>(), 400);
    let closed = desk.close(desk_callers).unwrap();
    let mut graph = replayed(&mut plan, 0, closed);
    assert_eq!(graph.outcome(sum), Ok(Some(Outcome::Value(Value::Int(401)))));
}

/// Completes the source, and works until the sum is there.
fn works(mut desk_caller: Caller, sum: u16) -> (Caller, u32) {
    let mut calls = 0;
    desk_caller.complete(0, Value::Int(1)).unwrap();
    loop {
        calls += desk_caller.work(called).unwrap();
        if desk_caller.records_left().unwrap() > 1_000 && desk_caller.join(sum, 100).unwrap() == Now::Value(Value::Int(401)) {
            return (desk_caller, calls);
        }
        thread::yield_now();
    }
}

#[test]
fn one_of_eight_completions_wins() {
    for _ in 0..50 {
        let (desk, desk_callers) = desk_plan().desk(sizes(8, 8, 8)).unwrap();
        let mut threads = Vec::new();
        for mut desk_caller in desk_callers {
            threads.push(thread::spawn(move || {
                let won = desk_caller.complete(0, Value::Int(i32::from(desk_caller.number()))).unwrap();
                (won, desk_caller)
            }));
        }
        let told: Vec<(bool, Caller)> = threads.into_iter().map(|thread| thread.join().unwrap()).collect();
        let winners: Vec<i32> = told.iter().zip(0..).filter(|(told, _)| told.0).map(|(_, number)| number).collect();
        assert_eq!(winners.len(), 1);
        let mut graph = replayed(&mut desk_plan(), 0, desk.close(told.into_iter().map(|told| told.1).collect()).unwrap());
        assert_eq!(graph.outcome(0), Ok(Some(Outcome::Value(Value::Int(winners[0])))));
    }
}

#[test]
fn openings_are_refused() {
    let mut plan = desk_plan();
    let growing = |room, functions| Sizes { growth: Some((room, functions)), ..sizes(1, 1, 1) };
    for (sizes, why) in [
        (sizes(0, 0, 0), Refused::CALLERS),
        (sizes(65, 1, 1), Refused::CALLERS),
        (sizes(1, 0, 0), Refused::LOG),
        (sizes(64, 1, 0), Refused::CALLS),
        (growing(4_093, 0), Refused::ROOM),
        (growing(4_092, 3), Refused::FUNCTIONS),
    ] {
        assert_eq!(plan.desk(sizes).err(), Some(why), "{sizes:?}");
    }
    assert!(plan.desk(growing(4_092, 4)).is_ok());
}

#[test]
fn closing_takes_all_callers() {
    let mut plan = desk_plan();
    let (desk, mut desk_callers) = plan.desk(sizes(3, 10, 10)).unwrap();
    let (other, mut others) = plan.desk(sizes(1, 10, 10)).unwrap();
    assert_eq!(desk_callers[0].meet(&mut others[0]), Err(Refused::OTHER_DESK));
    let last = desk_callers.pop().unwrap();
    let refused = desk.close(desk_callers).err().unwrap();
    assert_eq!((refused.why, refused.callers.len()), (Refused::NOT_ALL, 2));
    let NotClosed { desk, callers: mut desk_callers, .. } = refused;
    desk_callers.push(others.pop().unwrap());
    let mut refused = desk.close(desk_callers).err().unwrap();
    assert_eq!(refused.why, Refused::OTHER_DESK);
    others.extend(refused.callers.pop());
    refused.callers.push(last);
    assert_eq!(refused.callers[0].complete(0, Value::Nil), Ok(true));
    assert_eq!(refused.desk.close(refused.callers).unwrap().words().unwrap().len(), 1);
    assert_eq!(other.close(others).unwrap().words(), Ok(vec![]));
}

/// The caller of one desk takes the place of another's, which as many callers are to close.
#[test]
fn callers_that_change_places_close_no_desk() {
    let mut plan = row(1);
    let (mut desk, mut desk_callers) = plan.desk(sizes(2, 9, 9)).unwrap();
    let (other, mut others) = plan.desk(sizes(2, 9, 9)).unwrap();
    for k in 0..2 {
        swap(&mut desk_callers[k], &mut others[1]);
        let refused = desk.close(desk_callers).unwrap_err();
        assert_eq!(refused.why, Refused::OTHER_DESK);
        (desk, desk_callers) = (refused.desk, refused.callers);
        swap(&mut desk_callers[k], &mut others[1]);
    }
    let refused = desk.close(others).unwrap_err();
    assert_eq!(refused.why, Refused::OTHER_DESK);
    assert_eq!(refused.desk.close(desk_callers).unwrap().caller_count(), 2);
    assert_eq!(other.close(refused.callers).unwrap().caller_count(), 2);
}
