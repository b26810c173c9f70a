//! Words and texts: events as words, scripts, outcomes and codes as texts.
mod common;

use cf_graph::*;
use common::desk_plan;

#[test]
fn words_are_read_as_they_are_written() {
    let calls = [
        Call::Complete(4_095, Value::Int(i32::MIN)),
        Call::Complete(0, Value::Nil),
        Call::Fail(1, u32::MAX),
        Call::FailAs(4_095, Failure::TimedOut(0)),
        Call::FailAs(4_095, Failure::TimedOut(u32::MAX)),
        Call::FailAs(0, Failure::BadAnswer(0)),
        Call::FailAs(0, Failure::BadAnswer(7)),
        Call::Cancel(2),
        Call::Claim(3),
        Call::Finish(4, Answer::Give(Value::Int(-1))),
        Call::Finish(4, Answer::Throw(u32::MAX)),
        Call::Finish(4, Answer::Link(65_535)),
        Call::Tick(u32::MAX),
        Call::Attach(Form::Source, Of::None, None),
        Call::Attach(Form::ExceptionallyCompose, Of::One(4_095), Some(4_095)),
        Call::Attach(Form::RunEither, Of::Two(4_095, 0), Some(0)),
        Call::Attach(Form::AnyOf, Of::Two(0, 4_095), None),
    ];
    for call in calls {
        let event = Event { who: 63, call };
        assert_eq!(Event::from_word(event.word().unwrap()), Ok(event));
    }
    for (who, call) in [(64, Call::Claim(0)), (0, Call::Claim(4_096)), (0, Call::Attach(Form::Apply, Of::One(0), None))] {
        assert_eq!(Event { who, call }.word(), Err(Refused::NO_WORD));
    }
    assert_eq!(Event::from_word(0), Err(Refused::NO_WORD));
    assert_eq!(desk_plan().graph(0).unwrap().apply(0), Err(Refused::NO_WORD));
}

#[test]
fn scripts_and_texts() {
    let script = br#"{"cf":1,"stages":[{"form":"source"},{"form":"apply","of":[0],"fn":{"add":5}}],"steps":[["complete",0,3],["work"]]}"#;
    assert_eq!(run_script(script), Ok("true\nworked 1\nstage 0 value 3\nstage 1 value 8\n".to_string()));
    assert_eq!(run_script(b"[]"), Err(ScriptFault::Line("fault 3 shape top".to_string())));
    let texts = [(None, "pending"), (Some(Outcome::Value(Value::Nil)), "value nil"), (Some(Outcome::Value(Value::Int(-3))), "value -3")];
    for (outcome, text) in texts {
        assert_eq!(outcome_text(outcome), text);
    }
    assert_eq!(outcome_text(Some(Outcome::Fault { cause: Cause::Thrown(7), wrapped: true })), "fault thrown 7 wrapped");
    for (cause, text) in [
        (Cause::TimedOut(0), "fault timeout raw"),
        (Cause::TimedOut(7), "fault timeout 7 raw"),
        (Cause::BadAnswer(0), "fault badanswer raw"),
        (Cause::BadAnswer(u32::MAX), "fault badanswer 4294967295 raw"),
    ] {
        assert_eq!(outcome_text(Some(Outcome::Fault { cause, wrapped: false })), text);
    }
    assert_eq!(Refused::NO_STAGE.name(), "NoStage");
    assert_eq!(Refused::BAD_SCRIPT.to_string(), "the script has a fault");
}
