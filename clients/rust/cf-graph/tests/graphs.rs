//! What each call of a graph answers, row by row, on five stages.
mod common;

use cf_graph::*;
use common::FAILURES;
use std::thread;

const THROWN: Outcome = fault(Cause::Thrown(4_000_000_000), false);

const TAKEN_OVER: Outcome = fault(Cause::Thrown(4_000_000_000), true);

const fn fault(cause: Cause, wrapped: bool) -> Outcome {
    Outcome::Fault { cause, wrapped }
}

/// 0 a source, 1 an apply of it, 2 a source with limits at 10, 3 a compose of 2, 4 a handle of 1.
fn plan() -> Plan {
    let mut builder = PlanBuilder::new().unwrap();
    for (form, of, function) in [
        (Form::Source, &[][..], None),
        (Form::Apply, &[0], Some(65_535)),
        (Form::Source, &[], None),
        (Form::Compose, &[2], Some(1)),
        (Form::Handle, &[1], Some(2)),
    ] {
        builder.stage(form, of, function).unwrap();
    }
    builder.limit(2, 10, Limit::Timeout(7)).unwrap();
    builder.build().unwrap()
}

fn graph(room: u16) -> Graph {
    plan().graph(room).unwrap()
}

#[test]
fn a_value_is_taken_over() {
    let mut graph = graph(0);
    assert_eq!(graph.value_now(0, Value::Int(-1)), Ok(Now::Absent(Value::Int(-1))));
    assert_eq!(graph.lowest_ready(), Ok(None));
    assert_eq!(graph.claim(7, 1), Ok(Claimed::NotReady));
    assert_eq!(graph.complete(0, Value::Int(i32::MIN)), Ok(true));
    assert_eq!(graph.complete(0, Value::Nil), Ok(false));
    assert_eq!(graph.lowest_ready(), Ok(Some(1)));
    assert_eq!(graph.function(1), Ok(Some(65_535)));
    assert_eq!(graph.function(0), Ok(None));
    assert_eq!(graph.claim(7, 1), Ok(Claimed::Granted(Args::One(Value::Int(i32::MIN)))));
    assert_eq!(graph.claim(8, 1), Ok(Claimed::Taken));
    assert_eq!(graph.finish(8, 1, Answer::Give(Value::Nil)), Ok(Finished::NotYours));
    assert_eq!(graph.finish(7, 1, Answer::Give(Value::Nil)), Ok(Finished::Won));
    assert_eq!(graph.claim(7, 1), Ok(Claimed::Settled));
    assert_eq!(graph.claim(7, 4), Ok(Claimed::Granted(Args::Got(Outcome::Value(Value::Nil)))));
    assert_eq!(graph.cancel(4), Ok(true));
    assert_eq!(graph.finish(7, 4, Answer::Throw(1)), Ok(Finished::Late));
    assert_eq!(graph.value_now(4, Value::Nil), Ok(Now::Cancellation));
    assert_eq!(graph.value_now(1, Value::Int(1)), Ok(Now::Value(Value::Nil)));
}

#[test]
fn a_fault_is_wrapped_where_it_is_taken_over() {
    let mut graph = graph(0);
    assert_eq!(graph.fail(0, 4_000_000_000), Ok(true));
    assert_eq!(graph.outcome(0), Ok(Some(THROWN)));
    assert_eq!(graph.outcome(1), Ok(Some(TAKEN_OVER)));
    assert_eq!(graph.value_now(1, Value::Nil), Ok(Now::Completion(Cause::Thrown(4_000_000_000))));
    assert_eq!(graph.claim(0, 4), Ok(Claimed::Granted(Args::Got(TAKEN_OVER))));
    assert_eq!(graph.outcome(4), Ok(None));
}

#[test]
fn a_failure_has_its_cause() {
    for (failure, cause) in FAILURES {
        let mut graph = graph(0);
        assert_eq!(graph.fail_as(0, failure), Ok(true));
        assert_eq!(graph.fail_as(0, failure), Ok(false));
        assert_eq!(graph.outcome(0), Ok(Some(fault(cause, false))));
        assert_eq!(graph.outcome(1), Ok(Some(fault(cause, true))));
        assert_eq!(graph.claim(0, 4), Ok(Claimed::Granted(Args::Got(fault(cause, true)))));
        assert_eq!(graph.fail_as(4, failure), Ok(true));
        assert_eq!(graph.finish(0, 4, Answer::Give(Value::Nil)), Ok(Finished::Late));
        assert_eq!(graph.value_now(4, Value::Nil), Ok(Now::Completion(cause)));
        assert_eq!(graph.fail_as(9, failure), Err(Refused::NO_STAGE));
        // The same by its word.
        let event = Event { who: 63, call: Call::FailAs(2, failure) };
        let mut ledger = Ledger::new(&mut plan(), 0).unwrap();
        assert_eq!((graph.apply(event.word().unwrap()), ledger.apply_event(event)), (Ok(Reply::Flag(true)), Ok(Reply::Flag(true))));
        assert_eq!(ledger.stage(2).unwrap().state, State::Settled(fault(cause, false)));
    }
}

#[test]
fn limits_fire_and_links_settle() {
    let mut graph = graph(0);
    assert_eq!(graph.complete(2, Value::Int(5)), Ok(true));
    assert_eq!(graph.claim(0, 3), Ok(Claimed::Granted(Args::One(Value::Int(5)))));
    assert_eq!(graph.finish(0, 3, Answer::Link(0)), Ok(Finished::Won));
    assert_eq!(graph.outcome(3), Ok(None));
    assert_eq!(graph.complete(0, Value::Int(6)), Ok(true));
    assert_eq!(graph.outcome(3), Ok(Some(Outcome::Value(Value::Int(6)))));
    assert!(graph.turn_count().unwrap() > 0);
    assert_eq!(graph.restart(), Ok(()));
    assert_eq!(graph.turn_count(), Ok(0));
    assert_eq!(graph.tick(10), Ok(Ticked::Fired(1)));
    assert_eq!(graph.tick(9), Ok(Ticked::Past));
    assert_eq!(graph.outcome(2), Ok(Some(fault(Cause::TimedOut(7), false))));
    assert_eq!(graph.outcome(3), Ok(Some(fault(Cause::TimedOut(7), true))));
    assert_eq!(graph.restart(), Ok(()));
    assert_eq!(graph.complete(2, Value::Nil), Ok(true));
    assert_eq!(graph.claim(0, 3), Ok(Claimed::Granted(Args::One(Value::Nil))));
    assert_eq!(graph.finish(0, 3, Answer::Give(Value::Nil)), Ok(Finished::Won));
    assert_eq!(graph.outcome(3), Ok(Some(fault(Cause::BadAnswer(0), true))));
}

#[test]
fn stages_are_attached_while_there_is_room() {
    let mut graph = graph(1);
    assert_eq!(graph.attach(Form::AllOf, &[0, 9], None), Err(Refused::NO_STAGE));
    assert_eq!(graph.attach(Form::AllOf, &[0, 0, 0], None), Err(Refused::WRONG_SOURCE_COUNT));
    assert_eq!(graph.attach(Form::Apply, &[0], None), Err(Refused::BAD_ATTACH));
    assert_eq!(graph.attach(Form::AnyOf, &[0, 1], None), Ok(Some(5)));
    assert_eq!(graph.attach(Form::AnyOf, &[0, 1], None), Ok(None));
    assert_eq!(graph.stage_count(), Ok(6));
    assert_eq!(graph.complete(0, Value::Int(2)), Ok(true));
    assert_eq!(graph.outcome(5), Ok(Some(Outcome::Value(Value::Int(2)))));
    assert_eq!(graph.restart(), Ok(()));
    assert_eq!(graph.outcome(5), Err(Refused::NO_STAGE));
}

#[test]
fn a_caller_goes_step_by_step() {
    let mut graph = graph(0);
    assert_eq!(graph.step(7, None), Ok(Stepped { finished: None, taken: None }));
    assert_eq!(graph.complete(0, Value::Int(5)), Ok(true));
    let first = ClaimedStage { stage: 1, function: 65_535, args: Args::One(Value::Int(5)) };
    assert_eq!(graph.step(7, None), Ok(Stepped { finished: None, taken: Some(first) }));
    assert_eq!(graph.step(8, Some((1, Answer::Throw(1)))), Err(Refused::NOT_HELD));
    assert_eq!(graph.step(7, Some((9, Answer::Throw(1)))), Err(Refused::NO_STAGE));
    assert_eq!(graph.cancel(1), Ok(true));
    let second = ClaimedStage { stage: 4, function: 2, args: Args::Got(fault(Cause::Cancelled, false)) };
    let step = graph.step(7, Some((1, Answer::Throw(1))));
    assert_eq!(step, Ok(Stepped { finished: Some(Finished::Late), taken: Some(second) }));
    let step = graph.step(7, Some((4, Answer::Give(Value::Int(6)))));
    assert_eq!(step, Ok(Stepped { finished: Some(Finished::Won), taken: None }));
    assert_eq!(graph.outcome(4), Ok(Some(Outcome::Value(Value::Int(6)))));
}

#[test]
fn a_caller_goes_round_with_several_tasks() {
    let mut graph = graph(0);
    assert_eq!(graph.step_all(7, &[]), Ok(vec![]));
    assert_eq!((graph.complete(0, Value::Int(5)), graph.complete(2, Value::Nil)), (Ok(true), Ok(true)));
    let none = Stepped { finished: None, taken: None };
    let steps = graph.step_all(7, &[None, None, None]).unwrap();
    assert_eq!(steps.iter().map(|step| step.taken.map(|taken| taken.stage)).collect::<Vec<_>>(), [Some(1), Some(3), None]);
    let (one, three) = (Some((1, Answer::Give(Value::Int(6)))), Some((3, Answer::Link(0))));
    assert_eq!(graph.step_all(7, &[one, Some((4, Answer::Throw(1)))]), Err(Refused::NOT_HELD));
    let last = ClaimedStage { stage: 4, function: 2, args: Args::Got(Outcome::Value(Value::Int(6))) };
    let won = Stepped { finished: Some(Finished::Won), ..none };
    let again = Stepped { finished: Some(Finished::NotYours), ..none };
    assert_eq!(graph.step_all(7, &[one, three, one]), Ok(vec![Stepped { taken: Some(last), ..won }, won, again]));
    assert_eq!(graph.outcome(3), Ok(Some(Outcome::Value(Value::Int(5)))));
}

#[test]
fn a_sweep_calls_all_functions() {
    let mut graph = graph(0);
    assert_eq!(graph.complete(0, Value::Int(5)), Ok(true));
    let mut sweep = graph.sweep().unwrap().into_graph().expect_err("a stage is ready");
    assert_eq!(sweep.step(Some((1, Answer::Throw(1)))), Err(Refused::NOT_HELD));
    assert_eq!(sweep.step(None), Ok(Some(ClaimedStage { stage: 1, function: 65_535, args: Args::One(Value::Int(5)) })));
    assert_eq!(sweep.step(None), Err(Refused::NOT_HELD));
    let last = ClaimedStage { stage: 4, function: 2, args: Args::Got(Outcome::Value(Value::Int(6))) };
    assert_eq!(sweep.step(Some((1, Answer::Give(Value::Int(6))))), Ok(Some(last)));
    assert_eq!(sweep.step(Some((4, Answer::Give(Value::Nil)))), Ok(None));
    let mut graph = sweep.into_graph().unwrap();
    assert_eq!(graph.outcome(4), Ok(Some(Outcome::Value(Value::Nil))));
    assert_eq!((Refused::NOT_OVER.name(), Refused::LOST.name()), ("NotOver".into(), "Lost".into()));
}

#[test]
fn graphs_outlive_their_plan_and_go_to_threads() {
    let mut plan = plan();
    let graphs: Vec<Graph> = (0..8).map(|_| plan.graph(0).unwrap()).collect();
    drop(plan);
    let threads: Vec<_> = graphs.into_iter().zip(0..).map(|(graph, k)| thread::spawn(move || doubled(graph, k))).collect();
    for (thread, k) in threads.into_iter().zip(0..) {
        assert_eq!(thread.join().unwrap(), Some(Outcome::Value(Value::Int(2 * k))));
    }
}

fn doubled(mut graph: Graph, k: i32) -> Option<Outcome> {
    graph.complete(0, Value::Int(k)).unwrap();
    let calls = graph.work(1, |_, args| match args {
        Args::One(Value::Int(number)) => Answer::Give(Value::Int(2 * number)),
        _ => Answer::Throw(0),
    });
    assert_eq!(calls, Ok(2));
    graph.outcome(1).unwrap()
}
