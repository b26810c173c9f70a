//! What each call of a request answers: lanes, relays, deadlines, what is told, and which code refuses it.
use cf_graph::*;

const OWN: u8 = 63;

/// A request of no plan with two lanes.
fn request(room: u16) -> Request {
    let mut nothing = PlanBuilder::new().unwrap().build().unwrap();
    Request::new(&mut nothing, RequestSizes { room, lanes: 2, own: OWN }, &[]).unwrap()
}

/// What the last call settled.
fn settled(request: &Request) -> Vec<(u16, Outcome)> {
    request.todo().settled().map(|told| (told.stage, told.outcome)).collect()
}

fn word(call: Call) -> u64 {
    Event { who: 0, call }.word().unwrap()
}

fn source() -> u64 {
    word(Call::Attach(Form::Source, Of::None, None))
}

fn apply(source: u16, function: u16) -> u64 {
    word(Call::Attach(Form::Apply, Of::One(source), Some(function)))
}

fn int(number: i32) -> Outcome {
    Outcome::Value(Value::Int(number))
}

fn fault(cause: Cause, wrapped: bool) -> Outcome {
    Outcome::Fault { cause, wrapped }
}

/// So many sources, each of which may be settled by itself.
fn sources(count: u16) -> Request {
    let mut request = request(count);
    for number in 0..count {
        assert_eq!(request.apply(source(), 0), Ok(Reply::Attached(Some(number))));
        assert!(request.todo().is_empty());
    }
    request
}

#[test]
fn each_lane_has_its_stages() {
    let mut request = request(3);
    request.apply(source(), 0).unwrap();
    request.apply(apply(0, 7), 1).unwrap();
    request.apply(apply(0, 8), 0).unwrap();
    assert_eq!((request.ready_count(0), request.ready_count(1)), (Ok(0), Ok(0)));
    request.apply(word(Call::Complete(0, Value::Int(3))), 0).unwrap();
    assert_eq!(settled(&request), [(0, int(3))]);
    assert_eq!((request.ready_count(0), request.ready_count(1), request.lowest_ready(2)), (Ok(1), Ok(1), Ok(Some(2))));
    let step = request.claim_next(4, 1, None).unwrap();
    assert_eq!(step, Stepped { finished: None, taken: Some(ClaimedStage { stage: 1, function: 7, args: Args::One(Value::Int(3)) }) });
    let step = request.claim_next(4, 1, Some((1, Answer::Give(Value::Nil)))).unwrap();
    assert_eq!(step, Stepped { finished: Some(Finished::Won), taken: None });
    assert_eq!(settled(&request)[0], (1, Outcome::Value(Value::Nil)));
    assert_eq!(request.stage(2).unwrap(), Stage { state: State::Ready, who: None });
    assert_eq!(request.stage_count(), Ok(3));
}

/// More than there was room for are told all the same, each once and in its order.
#[test]
fn many_are_told_at_once() {
    let mut request = request(100);
    request.apply(source(), 0).unwrap();
    for function in 1..100 {
        request.apply(apply(0, function), 0).unwrap();
    }
    request.apply(word(Call::Fail(0, 9)), 0).unwrap();
    assert_eq!(settled(&request).len(), 100);
    for (at, (stage, outcome)) in settled(&request).into_iter().enumerate() {
        assert_eq!((usize::from(stage), outcome), (at, fault(Cause::Thrown(9), at > 0)));
    }
    request.tell_rest().unwrap();
    assert!(settled(&request).is_empty());
}

/// A relay ends as the stage that it follows, by a word of the request's own caller, whether that is settled before or later.
#[test]
fn relays_end_as_what_they_follow() {
    let mut request = sources(6);
    for (relay, stage) in [(3, 0), (4, 1)] {
        request.follow(relay, stage).unwrap();
        assert!(settled(&request).is_empty());
    }
    request.apply(word(Call::Complete(0, Value::Int(5))), 0).unwrap();
    assert_eq!(settled(&request), [(0, int(5)), (3, int(5))]);
    request.apply(word(Call::Cancel(1)), 0).unwrap();
    let cancelled = fault(Cause::Cancelled, false);
    assert_eq!(settled(&request), [(1, cancelled), (4, cancelled)]);
    request.apply(word(Call::FailAs(2, Failure::BadAnswer(7))), 0).unwrap();
    request.follow(5, 2).unwrap();
    assert_eq!(settled(&request), [(5, fault(Cause::BadAnswer(7), false))]);
    let last = *request.words().unwrap().last().unwrap();
    assert_eq!(Event::from_word(last), Ok(Event { who: OWN, call: Call::FailAs(5, Failure::BadAnswer(7)) }));
}

/// A scope's end cancels what is of it, also a scope within it, and ends with a stage in whatever way that is settled.
#[test]
fn stages_are_cancelled_with_others() {
    let (mut request, cancelled) = (sources(6), fault(Cause::Cancelled, false));
    for (stage, of) in [(1, 0), (2, 1), (3, 0), (0, 4)] {
        request.cancel_with(stage, of).unwrap();
        assert!(settled(&request).is_empty());
    }
    request.apply(word(Call::Complete(3, Value::Int(5))), 0).unwrap();
    assert_eq!(settled(&request), [(3, int(5))]);
    request.apply(word(Call::Complete(4, Value::Int(6))), 0).unwrap();
    assert_eq!(settled(&request), [(4, int(6)), (0, cancelled), (1, cancelled), (2, cancelled)]);
    request.cancel_with(5, 0).unwrap();
    assert_eq!(settled(&request), [(5, cancelled)], "the scope has ended");
    assert_eq!((request.cancel_with(6, 0), request.cancel_with(5, 6)), (Err(Refused::NO_STAGE), Err(Refused::NO_STAGE)));
}

/// A row of stages is attached, each of which joins one more, or none is.
#[test]
fn any_number_of_stages_is_gathered() {
    let mut request = request(10);
    for _ in 0..4 {
        request.apply(source(), 0).unwrap();
    }
    assert_eq!((request.gather(9, Form::AllOf, &[0, 1, 2, 1]), settled(&request).len()), (Ok(6), 0));
    let words = request.words().unwrap();
    let attaches = |of| Ok(Event { who: 9, call: Call::Attach(Form::AllOf, of, None) });
    assert_eq!(Event::from_word(words[4]), attaches(Of::Two(0, 1)));
    assert_eq!((words.len(), Event::from_word(words[6])), (7, attaches(Of::Two(5, 1))));
    assert_eq!(request.gather(0, Form::AnyOf, &[3]), Ok(7));
    for (form, who, of, why) in [
        (Form::Combine, 0, &[0, 1][..], Refused::NO_SUCH_NUMBER),
        (Form::AllOf, 64, &[0, 1], Refused::NO_WORD),
        (Form::AllOf, 0, &[0, 10], Refused::NO_STAGE),
        (Form::AllOf, 0, &[0, 1, 2, 3], Refused::NO_ROOM),
    ] {
        assert_eq!((request.gather(who, form, of), request.stage_count()), (Err(why), Ok(8)));
    }
    for (stage, settles) in [(1, vec![1]), (0, vec![0, 4]), (3, vec![3, 7]), (2, vec![2, 5, 6])] {
        request.apply(word(Call::Complete(stage, Value::Int(1))), 0).unwrap();
        assert_eq!(settled(&request).into_iter().map(|(stage, _)| stage).collect::<Vec<_>>(), settles);
    }
    assert_eq!((request.gather(0, Form::AnyOf, &[6, 0, 3]), settled(&request)[1]), (Ok(9), (9, Outcome::Value(Value::Nil))));
    assert_eq!((request.gather(0, Form::AllOf, &[]), request.stage_count()), (Err(Refused::NO_ROOM), Ok(10)));
}

/// Deadlines come in the order of their moments, and those of one moment in the order in which they were set.
#[test]
fn deadlines_come_in_their_order() {
    let mut request = sources(4);
    request.set_deadline(0, 30, Limit::Timeout(8)).unwrap();
    request.set_deadline(1, 10, Limit::Give(Value::Int(8))).unwrap();
    request.set_deadline(3, 20, Limit::Timeout(u32::MAX)).unwrap();
    request.set_deadline(2, 20, Limit::Timeout(0)).unwrap();
    let first = Deadline { stage: 1, moment: 10, limit: Limit::Give(Value::Int(8)) };
    assert_eq!(request.next_deadline(), Ok(Some(first)));
    request.apply(word(Call::Complete(1, Value::Nil)), 0).unwrap();
    assert_eq!(request.next_deadline(), Ok(Some(Deadline { stage: 3, moment: 20, limit: Limit::Timeout(u32::MAX) })));
    request.pass_time_to(19).unwrap();
    assert!(settled(&request).is_empty());
    request.pass_time_to(100).unwrap();
    let late = |code| fault(Cause::TimedOut(code), false);
    assert_eq!(settled(&request), [(3, late(u32::MAX)), (2, late(0)), (0, late(8))]);
    assert_eq!(request.next_deadline(), Ok(None));
    assert_eq!(request.pass_time_to(99), Err(Refused::PAST_MOMENT));
}

/// How many jobs to start, beyond those that are on their way.
#[test]
fn each_job_is_wanted_once() {
    let mut request = request(6);
    let wanted = |request: &Request| [0, 1].map(|lane| (request.todo().wanted(lane), request.todo().coming(lane)));
    request.apply(source(), 0).unwrap();
    for (function, lane) in [(0, 1), (1, 0), (2, 1), (3, 1)] {
        request.apply(apply(0, function), lane).unwrap();
        assert!(request.todo().is_empty());
    }
    request.apply(word(Call::Complete(0, Value::Nil)), 0).unwrap();
    assert_eq!((wanted(&request), request.todo().is_empty()), ([(1, 0), (3, 0)], false));
    // The host starts fewer than it might, and is told of the others again.
    request.start_jobs(1, 2);
    assert_eq!(wanted(&request), [(1, 0), (1, 2)]);
    request.apply(source(), 0).unwrap();
    assert_eq!(wanted(&request), [(1, 0), (1, 2)]);
    request.start_jobs(1, 1);
    request.begin_job(1);
    assert_eq!(request.claim_next(4, 1, None).unwrap().taken.map(|taken| taken.stage), Some(1));
    assert_eq!(wanted(&request), [(1, 0), (0, 2)]);
    // One finds all taken, and another comes too late.
    for stage in [3, 4] {
        assert_eq!(request.claim_next(4, 1, None).unwrap().taken.map(|taken| taken.stage), Some(stage));
    }
    request.begin_job(1);
    assert_eq!((request.claim_next(5, 1, None).unwrap().taken, wanted(&request)), (None, [(1, 0), (0, 1)]));
    request.apply(apply(0, 4), 1).unwrap_err();
    request.restart().unwrap();
    assert_eq!((wanted(&request), request.todo().is_empty()), ([(0, 0); 2], true));
}

/// The moment is news where it isn't what it was before the call, also where more was told than there was room for.
#[test]
fn the_next_moment_is_told_once() {
    let mut request = sources(102);
    let next = |request: &Request| (request.todo().has_new_moment(), request.todo().next_moment());
    for (stage, moment, told) in [(0, 9, (true, Some(9))), (1, 9, (false, Some(9))), (2, 5, (true, Some(5)))] {
        request.set_deadline(stage, moment, Limit::Timeout(7)).unwrap();
        assert_eq!(next(&request), told);
    }
    for (settles, told) in [(2, (true, Some(9))), (1, (false, Some(9)))] {
        request.apply(word(Call::Complete(settles, Value::Nil)), 0).unwrap();
        assert_eq!(next(&request), told);
    }
    assert_eq!((request.apply(u64::MAX, 0), next(&request)), (Err(Refused::NO_WORD), (false, Some(9))));
    request.cancel_all(5).unwrap();
    assert_eq!((request.todo().settled_count(), next(&request)), (100, (true, None)));
    request.set_deadline(3, 4, Limit::Timeout(7)).unwrap();
    assert!(request.todo().is_empty());
}

/// Who still runs the function of a stage that was settled otherwise.
#[test]
fn functions_that_run_too_long_are_told() {
    let mut request = request(3);
    for function in 0..3 {
        request.apply(word(Call::Attach(Form::Supply, Of::None, Some(function))), 0).unwrap();
    }
    let mut task = Task::default();
    request.step(0, 0, &mut task).unwrap();
    request.claim_next(61, 0, None).unwrap();
    task.set_answer(Answer::Give(Value::Nil));
    request.step(0, 0, &mut task).unwrap();
    let stops = |request: &Request| request.todo().settled().map(|told| (told.stage, told.stop)).collect::<Vec<_>>();
    assert_eq!((stops(&request), task.stage()), (vec![(0, None)], Some(2)));
    request.cancel_all(5).unwrap();
    assert_eq!(stops(&request), [(1, Some(61)), (2, Some(0))]);
    assert_eq!(request.claim_next(61, 0, Some((1, Answer::Give(Value::Nil)))).unwrap().finished, Some(Finished::Late));
    assert!(request.todo().is_empty());
}

#[test]
fn a_lane_that_nobody_runs_is_refused() {
    let mut request = request(4);
    request.apply(word(Call::Attach(Form::Supply, Of::None, Some(0))), 1).unwrap();
    request.apply(word(Call::Attach(Form::Supply, Of::None, Some(1))), 0).unwrap();
    request.apply(word(Call::Attach(Form::Exceptionally, Of::One(0), Some(2))), 1).unwrap();
    request.refuse_lane(1, 77).unwrap();
    assert_eq!(settled(&request), [(0, fault(Cause::Thrown(77), false)), (2, fault(Cause::Thrown(77), false))]);
    assert_eq!((request.ready_count(0), request.ready_count(1)), (Ok(1), Ok(0)));
}

#[test]
fn all_is_cancelled_and_begins_again() {
    let mut request = sources(3);
    request.apply(word(Call::Complete(1, Value::Nil)), 0).unwrap();
    request.cancel_all(5).unwrap();
    let cancelled = fault(Cause::Cancelled, false);
    assert_eq!(settled(&request), [(0, cancelled), (2, cancelled)]);
    let words = request.words().unwrap();
    assert_eq!(Event::from_word(words[words.len() - 1]), Ok(Event { who: 5, call: Call::Cancel(2) }));
    request.restart().unwrap();
    assert_eq!((request.words(), request.stage_count()), (Ok(vec![]), Ok(0)));
    request.apply(source(), 0).unwrap();
    assert!(settled(&request).is_empty());
}

/// Each as it is made alone, up to the first that is refused.
#[test]
fn calls_are_made_in_one() {
    let mut request = request(5);
    let mut calls = Calls::default();
    calls.apply(source(), 0);
    calls.apply(source(), 0);
    calls.follow(1, 0);
    calls.apply(apply(1, 4), 1);
    calls.set_deadline(0, 6, Limit::Give(Value::Int(2)));
    calls.pass_time_to(6);
    calls.claim_next(3, 1, None);
    calls.claim_next(3, 1, Some((2, Answer::Throw(1))));
    assert_eq!(request.run(&mut calls), Ok(()));
    assert_eq!((calls.done_count(), calls.reply(1)), (8, Reply::Attached(Some(1))));
    assert_eq!(calls.step(6), Stepped { finished: None, taken: Some(ClaimedStage { stage: 2, function: 4, args: Args::One(Value::Int(2)) }) });
    assert_eq!(calls.step(7), Stepped { finished: Some(Finished::Won), taken: None });
    assert_eq!(settled(&request), [(0, int(2)), (1, int(2)), (2, fault(Cause::Thrown(1), true))]);
    calls.clear();
    calls.apply(source(), 0);
    calls.set_deadline(3, 7, Limit::Timeout(9));
    calls.pass_time_to(7);
    calls.apply(source(), 0);
    calls.refuse_lane(1, 5);
    calls.cancel_all(1);
    calls.apply(source(), 2);
    calls.pass_time_to(8);
    assert_eq!(request.run(&mut calls), Err(Refused::NO_LANE));
    assert_eq!((calls.done_count(), calls.len()), (6, 8));
    assert_eq!(settled(&request), [(3, fault(Cause::TimedOut(9), false)), (4, fault(Cause::Cancelled, false))]);
    calls.clear();
    assert_eq!((request.run(&mut calls), calls.is_empty(), settled(&request).is_empty()), (Ok(()), true, true));
}

/// What is told, follows, is due and is claimed stays.
#[test]
fn a_request_grows() {
    let mut request = request(2);
    request.apply(source(), 0).unwrap();
    request.apply(source(), 0).unwrap();
    request.follow(1, 0).unwrap();
    request.set_deadline(0, 9, Limit::Timeout(7)).unwrap();
    assert_eq!(request.apply(source(), 0), Err(Refused::NO_ROOM));
    request.grow().unwrap();
    for number in 2..18 {
        assert_eq!(request.apply(source(), 0), Ok(Reply::Attached(Some(number))));
    }
    assert_eq!(request.apply(source(), 0), Err(Refused::NO_ROOM));
    request.pass_time_to(9).unwrap();
    let late = fault(Cause::TimedOut(7), false);
    assert_eq!(settled(&request), [(0, late), (1, late)]);
    let mut full = sources(4_096);
    assert_eq!(full.grow(), Err(Refused::ROOM));
}

/// A refused call changes nothing.
#[test]
fn what_cannot_be_done_is_refused() {
    let mut nothing = PlanBuilder::new().unwrap().build().unwrap();
    let mut open = |room, lanes, own, of: &[u8]| Request::new(&mut nothing, RequestSizes { room, lanes, own }, of).err();
    assert_eq!((open(1, 0, 1, &[]), open(1, 17, 1, &[])), (Some(Refused::LANES), Some(Refused::LANES)));
    assert_eq!((open(1, 1, 1, &[0]), open(1, 1, 64, &[])), (Some(Refused::LANES), Some(Refused::NO_WORD)));
    assert_eq!(open(4_097, 1, 1, &[]), Some(Refused::ROOM));
    let mut request = sources(1);
    let words = request.words();
    assert_eq!(request.apply(source(), 0), Err(Refused::NO_ROOM));
    assert_eq!(request.apply(source(), 2), Err(Refused::NO_LANE));
    assert_eq!(request.apply(u64::MAX, 0), Err(Refused::NO_WORD));
    assert_eq!(request.apply(word(Call::Cancel(1)), 0), Err(Refused::NO_STAGE));
    assert_eq!(request.claim_next(64, 0, None), Err(Refused::NO_WORD));
    assert_eq!(request.claim_next(1, 2, None), Err(Refused::NO_LANE));
    assert_eq!(request.claim_next(1, 0, Some((0, Answer::Throw(1)))), Err(Refused::NOT_HELD));
    assert_eq!(request.claim_next(1, 0, Some((1, Answer::Throw(1)))), Err(Refused::NO_STAGE));
    assert_eq!((request.follow(0, 1), request.follow(1, 0)), (Err(Refused::NO_STAGE), Err(Refused::NO_STAGE)));
    assert_eq!(request.set_deadline(1, 5, Limit::Timeout(7)), Err(Refused::NO_STAGE));
    assert_eq!((request.refuse_lane(2, 1), request.ready_count(2)), (Err(Refused::NO_LANE), Err(Refused::NO_LANE)));
    assert_eq!((request.cancel_all(64), request.stage(1)), (Err(Refused::NO_WORD), Err(Refused::NO_STAGE)));
    assert_eq!(request.words(), words);
}
