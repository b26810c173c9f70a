//! What words did, told as texts: those that conformance/requests/told.json has for libraries of all languages, and what a tale refuses.
mod common;
#[path = "../../cf/src/json.rs"]
mod json;

use cf_graph::*;
use common::{completes, row};
use json::Json;
use std::path::Path;

const FORMS: [(&str, Form); 19] = [
    ("source", Form::Source),
    ("supply", Form::Supply),
    ("runAsync", Form::RunAsync),
    ("apply", Form::Apply),
    ("accept", Form::Accept),
    ("thenRun", Form::ThenRun),
    ("combine", Form::Combine),
    ("acceptBoth", Form::AcceptBoth),
    ("runBoth", Form::RunBoth),
    ("applyEither", Form::ApplyEither),
    ("acceptEither", Form::AcceptEither),
    ("runEither", Form::RunEither),
    ("compose", Form::Compose),
    ("handle", Form::Handle),
    ("whenComplete", Form::WhenComplete),
    ("exceptionally", Form::Exceptionally),
    ("allOf", Form::AllOf),
    ("anyOf", Form::AnyOf),
    ("exceptionallyCompose", Form::ExceptionallyCompose),
];
const SAID: [(&str, Label); 5] =
    [("name", Label::Name), ("stages", Label::Stages), ("callers", Label::Callers), ("values", Label::Values), ("errors", Label::Errors)];
const TELLINGS: [(&str, TaleFormat); 5] = [
    ("lines", TaleFormat::Lines),
    ("line", TaleFormat::Line),
    ("account", TaleFormat::Account),
    ("script", TaleFormat::Script),
    ("report", TaleFormat::Report),
];

impl Json {
    fn get(&self, name: &str) -> Option<&Json> {
        match self {
            Json::Object(members) => members.iter().find(|member| member.0 == name).map(|member| &member.1),
            other => panic!("{other:?}"),
        }
    }

    fn at(&self, name: &str) -> &Json {
        self.get(name).unwrap_or_else(|| panic!("{name} of {self:?}"))
    }

    fn list(&self) -> &[Json] {
        match self {
            Json::List(items) => items,
            other => panic!("{other:?}"),
        }
    }

    fn text(&self) -> &str {
        match self {
            Json::Text(text) => text,
            other => panic!("{other:?}"),
        }
    }

    fn number(&self) -> i64 {
        match self {
            Json::Number(number) => *number,
            other => panic!("{other:?}"),
        }
    }
}

/// The cases, where they are at hand: `CF_TOLD` names them, or they stand where this crate's sources come from.
fn cases() -> Option<Json> {
    let beside = Path::new(env!("CARGO_MANIFEST_DIR")).join("../../../conformance/requests/told.json");
    let path = std::env::var_os("CF_TOLD").map_or(beside, Into::into);
    Some(Json::parse(&std::fs::read_to_string(path).ok()?))
}

/// The plan of a case. The function of a stage has the number of the stage.
fn plan_of(case: &Json) -> Plan {
    let mut builder = PlanBuilder::new().unwrap();
    for (number, stage) in case.at("stages").list().iter().enumerate() {
        let name = stage.at("form").text();
        let form = FORMS.iter().find(|it| it.0 == name).unwrap().1;
        let of: Vec<u16> = stage.get("of").map_or(Vec::new(), |of| of.list().iter().map(|it| it.number() as u16).collect());
        builder.stage(form, &of, stage.get("fn").map(|_| number as u16)).unwrap();
    }
    for limit in case.get("limits").map_or(&[][..], Json::list) {
        let does = match limit.at("kind").text() {
            "timeout" => Limit::Timeout(limit.get("code").map_or(0, Json::number) as u32),
            _ => Limit::Give(Value::Int(limit.at("value").number() as i32)),
        };
        builder.limit(limit.at("stage").number() as u16, limit.at("at").number() as u32, does).unwrap();
    }
    builder.build().unwrap()
}

#[test]
fn cases_of_all_languages_are_told() {
    let cases = match cases() {
        Some(cases) => cases,
        None => return,
    };
    assert!(cases.list().len() >= 7);
    for case in cases.list() {
        let words: Vec<u64> = case.at("words").list().iter().map(|word| word.text().parse().unwrap()).collect();
        let mut tale = Tale::new(&mut plan_of(case), case.at("room").number() as u16, &words).unwrap();
        tale.set_times(&case.at("times").list().iter().map(|at| at.number() as u64).collect::<Vec<_>>()).unwrap();
        for (name, what) in SAID {
            tale.say(what, case.at("said").at(name).list().iter().map(Json::text)).unwrap();
        }
        for (name, as_what) in TELLINGS {
            let wanted = match case.at("texts").at(name) {
                Json::List(lines) => lines.iter().map(|line| format!("{}\n", line.text())).collect(),
                text => text.text().to_owned(),
            };
            assert_eq!(tale.text(as_what).unwrap(), wanted, "{}, {name}", case.at("case").text());
        }
    }
}

/// A text that is longer than what there is room for at first is told whole, and so is one that fills it.
#[test]
fn texts_of_all_lengths_are_told_whole() {
    let rest = ": 0 events, 1 stage\n";
    for length in [30, 4_095, 4_096, 4_097, 70_000] {
        let name = "n".repeat((length - rest.len()) % 2) + &"é".repeat((length - rest.len()) / 2);
        let mut tale = Tale::new(&mut row(0), 0, &[]).unwrap();
        tale.say(Label::Name, [&name]).unwrap();
        let lines = tale.text(TaleFormat::Lines).unwrap();
        assert!(lines.len() == length && lines == name + rest, "{length}");
    }
    let words: Vec<u64> = (0..300).map(|number| completes(0, number)).collect();
    let lines = Tale::new(&mut row(0), 0, &words).unwrap().text(TaleFormat::Lines).unwrap();
    assert_eq!((lines.lines().count(), lines.lines().last()), (302, Some("caller 0 completes 0 source with 299: too late")));
}

#[test]
fn what_is_said_last_is_told() {
    let mut tale = Tale::new(&mut row(0), 0, &[completes(0, 1)]).unwrap();
    let told = |tale: &mut Tale| tale.text(TaleFormat::Lines).unwrap().lines().nth(1).unwrap().to_owned();
    tale.say(Label::Values, ["no", "one"]).unwrap();
    tale.say(Label::Callers, [String::from("Ada")]).unwrap();
    tale.set_times(&[5]).unwrap();
    assert_eq!(told(&mut tale), "    0.000 ms  Ada completes 0 source with one");
    tale.say(Label::Values, ["no", "1"]).unwrap();
    tale.say(Label::Callers, [""; 0]).unwrap();
    tale.set_times(&[]).unwrap();
    assert_eq!(told(&mut tale), "caller 0 completes 0 source with 1");
}

#[test]
fn what_does_not_fit_is_refused() {
    let word = completes(0, 1);
    assert_eq!(Tale::new(&mut row(0), u16::MAX, &[]).err(), Some(Refused::ROOM));
    assert_eq!(Tale::new(&mut row(0), 0, &[word, u64::MAX]).err(), Some(Refused::NO_WORD));
    assert_eq!(Tale::new(&mut row(0), 0, &[word, completes(1, 1)]).err(), Some(Refused::NO_STAGE));
    let mut tale = Tale::new(&mut row(0), 0, &[word]).unwrap();
    assert_eq!(tale.set_times(&[1, 2]), Err(Refused::TOO_MANY));
    assert_eq!(tale.say(Label::Name, ["a", "b"]), Err(Refused::TOO_MANY));
    assert_eq!(tale.say(Label::Stages, vec![""; 4_097]), Err(Refused::TOO_MANY));
    assert_eq!(tale.say(Label::Callers, vec![""; 65]), Err(Refused::TOO_MANY));
    assert_eq!(tale.text(TaleFormat::Line).unwrap(), "a history: 1 event, 1 stage; 0 failed; 0 open");
}
