//! Callers of a desk: what each is told, on one thread; those that are dropped while others call, that meet, and that are full.
mod common;

use cf_graph::*;
use common::{desk_plan, replayed, row, sizes, FAILURES};
use std::sync::atomic::{AtomicBool, Ordering};
use std::thread;
use std::time::{Duration, Instant};

#[test]
fn two_callers_do_what_a_graph_does() {
    let (desk, mut callers) = desk_plan().desk(sizes(2, 100, 100)).unwrap();
    assert_eq!(desk.sizes(), sizes(2, 100, 100));
    let (one, other) = callers.split_at_mut(1);
    let (one, other) = (&mut one[0], &mut other[0]);
    assert_eq!((one.number(), other.number()), (0, 1));
    assert_eq!(one.read_now(0, Value::Int(-1)), Ok(Now::Absent(Value::Int(-1))));
    assert_eq!(one.lowest_ready(), Ok(None));
    assert_eq!(one.claim(1), Ok(Claimed::NotReady));
    assert_eq!(one.complete(0, Value::Int(7)), Ok(true));
    assert_eq!(other.seen_count(), Ok(0));
    assert_eq!(other.complete(0, Value::Nil), Ok(false));
    assert_eq!((one.seen_count(), other.seen_count()), (Ok(2), Ok(3)));
    assert_eq!(other.lowest_ready(), Ok(Some(1)));
    assert_eq!((other.function(1), other.function(0)), (Ok(Some(3)), Ok(None)));
    assert_eq!(other.claim(1), Ok(Claimed::Granted(Args::One(Value::Int(7)))));
    assert_eq!(one.claim(1), Ok(Claimed::Taken));
    assert_eq!(one.finish(1, Answer::Give(Value::Nil)), Ok(Finished::NotYours));
    assert_eq!(one.join(1, 3), Ok(Now::Absent(Value::Nil)));
    assert_eq!(other.finish(1, Answer::Throw(4_000_000_000)), Ok(Finished::Won));
    let thrown = Outcome::Fault { cause: Cause::Thrown(4_000_000_000), wrapped: true };
    assert_eq!(one.read_outcome(1), Ok(Some(thrown)));
    assert_eq!(one.join(1, 0), Ok(Now::Completion(Cause::Thrown(4_000_000_000))));
    assert_eq!(one.tick(10), Ok(Ticked::Fired(1)));
    assert_eq!(other.tick(9), Ok(Ticked::Past));
    assert_eq!(other.fail(2, 1), Ok(false));
    assert_eq!(other.cancel(3), Ok(false));
    assert_eq!(other.read_outcome(3), Ok(Some(Outcome::Fault { cause: Cause::TimedOut(7), wrapped: true })));
    assert_eq!((one.records_left(), other.records_left()), (Ok(91), Ok(93)));
}

#[test]
fn callers_fail_stages_as_they_say() {
    for (failure, cause) in FAILURES {
        let (desk, mut callers) = desk_plan().desk(sizes(2, 9, 9)).unwrap();
        assert_eq!(callers[0].fail_as(2, failure), Ok(true));
        assert_eq!(callers[1].fail_as(2, failure), Ok(false));
        assert_eq!(callers[1].fail_as(9, failure), Err(Refused::NO_STAGE));
        assert_eq!(callers[1].read_outcome(3), Ok(Some(Outcome::Fault { cause, wrapped: true })));
        let mut closed = desk.close(callers).unwrap();
        let event = Event { who: 0, call: Call::FailAs(2, failure) };
        assert_eq!(closed.records(0), Ok(vec![Record::Did { place: 1, event, reply: Reply::Flag(true) }]));
        replayed(&mut desk_plan(), 0, closed);
    }
}

#[test]
fn callers_go_step_by_step() {
    let (_desk, mut callers) = desk_plan().desk(sizes(2, 100, 5)).unwrap();
    let (one, other) = callers.split_at_mut(1);
    let (one, other) = (&mut one[0], &mut other[0]);
    assert_eq!(one.step(None), (None, Ok(None)));
    assert_eq!(one.complete_all(&[(0, Value::Int(7)), (2, Value::Nil), (9, Value::Nil)]), (2, Err(Refused::NO_STAGE)));
    assert_eq!(one.complete_all(&[]), (0, Ok(())));
    assert_eq!(other.step(None), (None, Ok(Some(ClaimedStage { stage: 1, function: 3, args: Args::One(Value::Int(7)) }))));
    let second = ClaimedStage { stage: 3, function: 1, args: Args::One(Value::Nil) };
    assert_eq!(one.step(None), (None, Ok(Some(second))));
    assert_eq!(one.step(Some((1, Answer::Throw(1)))), (None, Err(Refused::NOT_HELD)));
    assert_eq!(other.cancel(1), Ok(true));
    assert_eq!(other.step(Some((1, Answer::Throw(1)))), (Some(Finished::Late), Ok(None)));
    assert_eq!(one.complete_all(&[(0, Value::Nil); 3]), (2, Err(Refused::PASS_FULL)));
    let linked = Some((3, Answer::Link(0)));
    assert_eq!(one.step(linked), (None, Err(Refused::PASS_FULL)));
    assert_eq!(other.claim(3), Ok(Claimed::Taken));
}

#[test]
fn callers_attach_for_all() {
    let mut plan = desk_plan();
    let growing = Sizes { growth: Some((4, 10)), ..sizes(4, 100, 100) };
    let (desk, mut callers) = plan.desk(growing).unwrap();
    assert_eq!(callers[0].attach(Form::Apply, &[4], Some(0)), Err(Refused::NO_STAGE));
    assert_eq!(callers[0].attach(Form::Apply, &[0], Some(10)), Err(Refused::BAD_ATTACH));
    assert_eq!(callers[0].attach(Form::AllOf, &[0, 0, 0], None), Err(Refused::WRONG_SOURCE_COUNT));
    thread::scope(|scope| {
        for caller in &mut callers {
            scope.spawn(move || assert!(caller.attach(Form::Apply, &[0], Some(9)).unwrap().is_some()));
        }
    });
    assert_eq!(callers[0].attach(Form::Apply, &[0], Some(9)), Ok(None));
    assert_eq!(callers[0].function(7), Ok(Some(9)));
    assert_eq!(callers[0].function(8), Err(Refused::NO_STAGE));
    assert_eq!(replayed(&mut plan, 4, desk.close(callers).unwrap()).stage_count(), Ok(8));
}

#[test]
fn full_callers_and_logs_refuse() {
    let (_desk, mut callers) = desk_plan().desk(sizes(2, 2, 2)).unwrap();
    let (one, other) = callers.split_at_mut(1);
    assert_eq!(one[0].complete(9, Value::Nil), Err(Refused::NO_STAGE));
    assert_eq!(one[0].complete(0, Value::Nil), Ok(true));
    assert_eq!(one[0].cancel(0), Ok(false));
    assert_eq!(one[0].read_outcome(0), Err(Refused::PASS_FULL));
    assert_eq!(one[0].complete(2, Value::Nil), Err(Refused::PASS_FULL));
    assert_eq!(other[0].complete(2, Value::Nil), Err(Refused::LOG_FULL));
    assert_eq!(other[0].read_outcome(0), Ok(Some(Outcome::Value(Value::Nil))));
}

#[test]
fn callers_meet() {
    let (_desk, mut callers) = desk_plan().desk(sizes(3, 10, 10)).unwrap();
    callers[0].complete(0, Value::Nil).unwrap();
    callers[1].complete(2, Value::Nil).unwrap();
    let (one, rest) = callers.split_at_mut(1);
    one[0].meet(&mut rest[1]).unwrap();
    assert_eq!((one[0].seen_count(), rest[1].seen_count()), (Ok(1), Ok(1)));
    let (middle, last) = rest.split_at_mut(1);
    last[0].meet(&mut middle[0]).unwrap();
    assert_eq!((middle[0].seen_count(), last[0].seen_count()), (Ok(2), Ok(2)));
}

#[test]
fn callers_are_dropped_in_any_order() {
    let (desk, mut callers) = desk_plan().desk(sizes(4, 10, 10)).unwrap();
    callers[2].complete(0, Value::Int(1)).unwrap();
    drop(callers.remove(2));
    drop(desk);
    assert_eq!(callers[2].read_outcome(0), Ok(Some(Outcome::Value(Value::Int(1)))));
    let threads: Vec<_> = callers.into_iter().map(|caller| thread::spawn(move || drop(caller))).collect();
    threads.into_iter().for_each(|thread| thread.join().unwrap());
    let (desk, callers) = desk_plan().desk(sizes(2, 10, 10)).unwrap();
    drop(desk.close(callers).unwrap());
}

/// Callers are dropped, and their desk with the last, while others are in the midst of their calls.
#[test]
fn callers_are_dropped_while_others_call() {
    for round in 0..20 {
        let (desk, callers) = row(50).desk(sizes(6, 2_000, 2_000)).unwrap();
        let threads: Vec<_> = callers
            .into_iter()
            .enumerate()
            .map(|(k, mut caller)| {
                thread::spawn(move || {
                    for call in 0..(20 * k + round) {
                        caller.complete((call % 50) as u16, Value::Int(1)).unwrap();
                        caller.read_outcome((call % 50) as u16).unwrap();
                    }
                    drop(caller);
                })
            })
            .collect();
        drop(desk);
        threads.into_iter().for_each(|thread| thread.join().unwrap());
    }
}

/// While callers of a large desk meet one another, one of a small desk asks to meet one of theirs.
#[test]
fn callers_of_two_desks_never_meet() {
    let opened = |stages: u16, events: u16, log: u16| {
        let mut builder = PlanBuilder::new().unwrap();
        for _ in 0..stages {
            builder.stage(Form::Source, &[], None).unwrap();
        }
        let (desk, mut callers) = builder.build().unwrap().desk(sizes(3, log, 3_000)).unwrap();
        for k in 0..events {
            callers[0].complete(k % stages, Value::Int(i32::from(k))).unwrap();
        }
        (desk, callers)
    };
    let ((small, mut few), (large, mut many)) = (opened(2, 4, 8), opened(3_000, 2_500, 60_000));
    let (mut one, mut other) = (few.pop().unwrap(), many.pop().unwrap());
    let ends = AtomicBool::new(false);
    thread::scope(|scope| {
        scope.spawn(|| {
            let (first, second) = many.split_at_mut(1);
            while !ends.load(Ordering::Relaxed) {
                first[0].meet(&mut second[0]).unwrap();
            }
        });
        let since = Instant::now();
        let mut told = one.meet(&mut other);
        while told == Err(Refused::OTHER_DESK) && since.elapsed() < Duration::from_secs(1) {
            told = one.meet(&mut other);
        }
        ends.store(true, Ordering::Relaxed);
        assert_eq!(told, Err(Refused::OTHER_DESK));
    });
    assert_eq!((one.seen_count(), other.seen_count()), (Ok(0), Ok(0)));
    few.push(one);
    many.push(other);
    assert_eq!(small.close(few).unwrap().words().unwrap().len(), 4);
    assert_eq!(large.close(many).unwrap().words().unwrap().len(), 2_500);
}
