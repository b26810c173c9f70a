//! Flows, functions that compose, arguments by name, contexts and histories.
#[macro_use]
mod common;

use cf_store::{context, within, Error, Failed, Flow, Functions, HistoryItem, Request, Service, Store, StoreError};
use common::{fits, patient, printed, python, settled, Place};
use serde_json::{json, Map, Value};
use std::time::{Duration, Instant};

fn add_one(number: i64) -> Result<i64, String> {
    Ok(number + 1)
}

fn map(value: Value) -> Map<String, Value> {
    value.as_object().unwrap().clone()
}

/// Waits until it is so.
fn until(mut is_so: impl FnMut() -> bool) {
    let end = Instant::now() + Duration::from_secs(60);
    while !is_so() {
        assert!(Instant::now() < end, "it isn't so within 60 s");
        std::thread::sleep(Duration::from_millis(5));
    }
}

#[test]
fn a_function_gives_a_stage_to_wait_for() {
    let place = Place::new("compose");
    let functions = Functions::new()
        .with("inc", 1, add_one)
        .with("declined", 1, |_: i64| Err::<i64, _>(Failed::new("CardDeclined", "no card")))
        .composing("loading", 1, |request: &Request, number: i64| request.supply("inc", &[json!(number)])?.then("inc"))
        .composing("failing", 1, |request: &Request, number: i64| request.supply("declined", &[json!(number)]))
        .composing("refuses", 1, |_: &Request, _: i64| Err::<cf_store::Stage, _>(Failed::new("NoStock", "none left")))
        .composing("waiting", 1, |request: &Request, _: i64| request.promise("late"));
    let service = Service::with(place.store(), functions, patient()).unwrap();
    let request = service.request("composed").unwrap();
    let number = request.promise("number").unwrap();
    let loaded = number.compose("loading").unwrap();
    let behind = loaded.then("inc").unwrap();
    let [failed, refused, late] = ["failing", "refuses", "waiting"].map(|it| number.compose(it).unwrap());
    assert_eq!((loaded.name().unwrap(), request.stage(1).unwrap().name().unwrap()), ("loading".into(), "what loading gives".into()));
    number.complete(&10).unwrap();
    assert_eq!(settled::<i64>(&behind), Ok(13));
    assert_eq!(settled::<i64>(&loaded), Ok(12));
    assert_eq!(settled::<i64>(&failed), Err(Error::Failed(Failed::new("CardDeclined", "no card"))));
    assert_eq!(settled::<i64>(&refused), Err(Error::Failed(Failed::new("NoStock", "none left"))));
    assert_eq!(settled::<i64>(&request.stage(refused.number() - 1).unwrap()), Err(Error::Cancelled), "nothing comes of its promise");
    let mut found = None;
    until(|| {
        found = request.named("late").unwrap();
        found.is_some()
    });
    assert_eq!(late.peek::<i64>(), Ok(None));
    assert!(found.unwrap().complete(&7).unwrap());
    assert_eq!(settled::<i64>(&late), Ok(7));
    fits(&request.history().unwrap().account().unwrap());

    let other = service.request("another").unwrap();
    let functions = Functions::new().composing("strays", 1, move |_: &Request, _: i64| other.promise("elsewhere"));
    let second = Service::with(place.store(), functions, patient()).unwrap();
    let request = second.request("strays").unwrap();
    let number = request.promise("number").unwrap();
    let strays = number.compose("strays").unwrap();
    number.complete(&1).unwrap();
    assert!(matches!(settled::<i64>(&strays), Err(Error::Failed(failed)) if failed.kind == "TypeError"));
}

/// It doesn't wait for the next beat.
#[test]
fn what_a_relay_makes_ready_is_called_at_once() {
    let place = Place::new("relays");
    let functions = Functions::new()
        .with("inc", 1, add_one)
        .composing("gives", 1, |request: &Request, stage: u16| Ok::<_, Failed>(request.stage(stage).expect("it is there")));
    let mut seldom = patient();
    (seldom.threads, seldom.lease) = (1, Duration::from_secs(1000));
    let service = Service::with(place.store(), functions, seldom).unwrap();
    let request = service.request("relays").unwrap();
    let stage = request.promise("stage").unwrap();
    let last = stage.compose("gives").unwrap().then("inc").unwrap();
    assert!(stage.complete(&stage.number()).unwrap());
    assert_eq!(settled::<i64>(&last), Ok(1));
}

#[test]
fn what_composes_is_called_by_what_composes_alone() {
    let place = Place::new("kinds");
    let mut nobody = patient();
    nobody.threads = 0;
    let planner = Service::with(place.store(), Functions::new().with("f", 1, add_one), nobody).unwrap();
    let request = planner.request("kinds").unwrap();
    let number = request.promise("number").unwrap();
    let (plain, composed) = (number.then("f").unwrap(), number.compose("f").unwrap());
    number.complete(&1).unwrap();
    let first = Service::with(place.store(), Functions::new().with("f", 1, add_one), patient()).unwrap();
    first.open("kinds").unwrap();
    assert_eq!(settled::<i64>(&plain), Ok(2));
    assert_eq!(composed.wait_timeout::<i64>(Duration::from_millis(200)), Ok(None), "a function that gives a value isn't one that composes");
    let functions =
        Functions::new().composing("f", 1, |request: &Request, _: i64| request.supply("nothing", &[])).with("nothing", 1, || Ok::<_, String>(5));
    let second = Service::with(place.store(), functions, patient()).unwrap();
    second.open("kinds").unwrap();
    assert_eq!(settled::<i64>(&composed), Ok(5));
}

#[test]
fn arguments_are_given_by_name() {
    let place = Place::new("names");
    let pay = |cents: i64, to: Option<String>| Ok::<_, String>(json!([cents, to]));
    let functions = || Functions::new().with("pay", 1, pay).parameters("pay", 1, &["cents", "to"]).with("unnamed", 1, add_one);
    let service = Service::with(place.store(), functions(), patient()).unwrap();
    let request = service.request("names").unwrap();
    let supply = |args: &[Value], named| request.supply_named("pay", args, &map(named)).unwrap();
    assert_eq!(settled::<Value>(&supply(&[], json!({"to": "anna", "cents": 5}))), Ok(json!([5, "anna"])));
    assert_eq!(settled::<Value>(&supply(&[json!(6)], json!({"to": "bert"}))), Ok(json!([6, "bert"])));
    assert_eq!(settled::<Value>(&supply(&[], json!({"cents": 7}))), Ok(json!([7, null])), "what is left out is null");
    for (args, named) in [(vec![json!(1)], json!({"cents": 2})), (vec![], json!({"cents": 1, "from": "x"})), (vec![], json!({"to": "x"}))] {
        assert!(matches!(settled::<Value>(&supply(&args, named)), Err(Error::Failed(failed)) if failed.kind == "TypeError"));
    }
    let unnamed = request.supply_named("unnamed", &[], &map(json!({"number": 1}))).unwrap();
    assert_eq!(unnamed.wait_timeout::<i64>(Duration::from_millis(200)), Ok(None), "it waits for a process that has names for it");
    let named = Functions::new().with("unnamed", 1, add_one).parameters("unnamed", 1, &["number"]);
    let second = Service::with(place.store(), named, patient()).unwrap();
    second.open("names").unwrap();
    assert_eq!(settled::<i64>(&unnamed), Ok(2));
}

#[test]
fn contexts_go_along() {
    let place = Place::new("contexts");
    let tenant = || Ok::<_, String>(context().get("tenant").cloned());
    let functions = Functions::new()
        .with("tenant", 1, tenant)
        .with("behind", 1, move |_: Value| tenant())
        .composing("composes", 1, |request: &Request, _: Value| request.supply("tenant", &[]))
        .with("panics", 1, |_: Value| -> Result<i64, String> { panic!("oh") });
    let mut one = patient();
    one.threads = 1;
    let service = Service::with(place.store(), functions, one).unwrap();
    let request = service.request("contexts").unwrap();
    let of_anna = || map(json!({"tenant": "anna", "more": [1, 2]}));
    let [anna, composed] = within(of_anna(), || {
        assert_eq!(context(), of_anna());
        let anna = request.supply("tenant", &[]).unwrap();
        [anna.clone(), anna.compose("composes").unwrap()]
    });
    assert_eq!(context(), Map::new());
    assert_eq!(settled::<Value>(&anna), Ok(json!("anna")));
    assert_eq!(settled::<Value>(&composed), Ok(json!("anna")), "what a function attaches has the function's");
    let bert = within(map(json!({"tenant": "bert"})), || anna.then("behind").unwrap());
    assert_eq!(settled::<Value>(&bert), Ok(json!("bert")), "it is that of the place where the stage was attached");
    within(of_anna(), || anna.then("panics").unwrap());
    assert_eq!(settled::<Value>(&request.supply("tenant", &[]).unwrap()), Ok(Value::Null));
    let mut flow = Flow::new("flow");
    let step = flow.supply("tenant", &[]);
    let begun = within(of_anna(), || service.start(&flow, "a flow", &[]).unwrap());
    assert_eq!(settled::<Value>(&begun.step(step).unwrap()), Ok(json!("anna")));
    let again = within(map(json!({"tenant": "bert"})), || service.start(&flow, "a flow", &[]).unwrap());
    assert_eq!(settled::<Value>(&again.step(step).unwrap()), Ok(json!("anna")), "a plan is the same, wherever it was begun");
}

#[test]
fn histories_are_told() {
    let place = Place::new("histories");
    let functions = Functions::new().with("inc", 1, add_one).with("declined", 1, |_: i64| Err::<i64, _>(Failed::new("CardDeclined", "no\ncard")));
    let service = Service::with(place.store(), functions, patient()).unwrap();
    let mut flow = Flow::new("order");
    let number = flow.promise("number");
    let planned = flow.then(number, "inc");
    let request = service.start(&flow, "order 17", &[json!(41)]).unwrap();
    assert_eq!(settled::<i64>(&request.step(planned).unwrap()), Ok(42));
    let declined = request.step(planned).unwrap().then("declined").unwrap();
    assert!(settled::<i64>(&declined).is_err());
    let history = request.history().unwrap();
    let lines = history.lines().unwrap();
    for part in ["order 17: 6 events, 3 stages", "completes 0 number with 41", "1 inc ends: 42", "attaches 2 declined", "CardDeclined: no\\ncard"] {
        assert!(lines.contains(part), "{part} is missing in {lines}");
    }
    assert!(history.line().unwrap().contains("; 1 failed: 2 declined by CardDeclined: no\\ncard"), "{}", history.line().unwrap());
    let account: Value = serde_json::from_str(&history.account().unwrap()).unwrap();
    assert_eq!((account["events"].as_array().unwrap().len(), account["name"].as_str()), (6, Some("order 17")));
    fits(&history.account().unwrap());
    assert!(history.script().unwrap().starts_with('{'));
    let secret = request.history_described_by(|what| match what {
        HistoryItem::Value(_) => "a value".into(),
        _ => "an error".into(),
    });
    let told = secret.unwrap().lines().unwrap();
    assert!(told.contains("1 inc ends: a value") && told.contains("an error") && !told.contains("41") && !told.contains("card"), "{told}");
    let long = request.promise("long").unwrap();
    long.complete(&"ü".repeat(100)).unwrap();
    let told = request.history().unwrap().lines().unwrap();
    assert!(told.contains(&format!("\"{}...", "ü".repeat(56))) && !told.contains(&"ü".repeat(57)), "{told}");
}

#[test]
fn sessions_of_one_number_have_records_of_their_own() {
    let place = Place::new("numbers");
    let mut nobody = patient();
    nobody.threads = 0;
    let first = Service::with(place.store(), Functions::new(), nobody.clone()).unwrap();
    let request = first.request("numbers").unwrap();
    let promises: Vec<_> = (0..66).map(|_| request.promise("promise").unwrap().number()).collect();
    for number in promises {
        let other = Service::with(place.store(), Functions::new(), nobody.clone()).unwrap();
        assert!(other.open("numbers").unwrap().stage(number).unwrap().complete(&number).unwrap());
    }
    let account = request.history().unwrap().account().unwrap();
    fits(&account);
    let account: Value = serde_json::from_str(&account).unwrap();
    let callers = account["callers"].as_array().unwrap();
    let shared: usize = callers.iter().filter_map(|it| it["sessions"].as_array()).map(Vec::len).sum();
    assert!(callers.len() == 64 && shared >= 4, "67 sessions have 64 numbers");
}

#[test]
fn a_flow_is_begun_once() {
    let place = Place::new("flow");
    let functions = || {
        Functions::new()
            .with("inc", 1, add_one)
            .with("add", 1, |a: i64, b: i64| Ok::<_, String>(a + b))
            .with("sorry", 1, |failed: Failed| Ok::<_, String>(format!("sorry, {failed}")))
    };
    let more = functions()
        .with("declined", 1, |_: i64| Err::<i64, _>("card declined"))
        .with("pair", 1, |value: Value, failed: Value| Ok::<_, String>(json!([value, failed["text"]])));
    let service = Service::with(place.store(), more, patient()).unwrap();
    let mut flow = Flow::new("order");
    let [first, second] = ["first", "second"].map(|it| flow.promise(it));
    let sum = flow.combine(first, second, "add");
    let supplied = flow.supply("inc", &[json!(1)]);
    let either = flow.either(sum, supplied, "inc");
    let declined = flow.then(sum, "declined");
    let tried = flow.again(declined, 2);
    let sorry = flow.recover(tried, "sorry");
    let (handled, done) = (flow.handle(declined, "pair"), flow.when_done(sum, "pair"));
    let (all, any) = (flow.all_of(&[sum, sorry, supplied]), flow.first_of(&[sorry, declined]));
    assert_eq!(tried.number(), declined.number() + 2);

    let request = service.start(&flow, "order 17", &[json!(40), json!(2)]).unwrap();
    let of = |step| request.step(step).unwrap();
    assert_eq!(settled::<i64>(&of(sum)), Ok(42));
    assert!([43, 3].contains(&settled::<i64>(&of(either)).unwrap()));
    assert_eq!(settled::<String>(&of(sorry)), Ok("sorry, card declined".into()));
    assert_eq!(settled::<Value>(&of(handled)), Ok(json!([null, "card declined"])));
    assert_eq!(settled::<i64>(&of(done)), Ok(42));
    assert_eq!(settled::<Value>(&of(all)), Ok(Value::Null));
    assert!(settled::<Value>(&of(any)).is_err());
    let gathered = request.gather(&[&of(sum), &of(supplied), &of(sum)]).unwrap();
    assert_eq!(settled::<Value>(&gathered), Ok(json!([42, 2, 42])));
    assert!(matches!(request.gather(&[]), Err(StoreError::Refused(_))));
    until(|| !place.store().news(None).unwrap().0.contains_key("order 17")); // it is closed by itself
    let same = service.start(&flow, "order 17", &[json!(1), json!(1)]).unwrap();
    assert_eq!(settled::<i64>(&same.step(sum).unwrap()), Ok(42), "what is settled stays as it is");

    assert!(matches!(service.start(&flow, "too many", &[json!(1), json!(1), json!(1)]), Err(StoreError::Refused(_))));
    let mut other = Flow::new("order");
    other.promise("first");
    assert!(matches!(service.start(&other, "order 17", &[]), Err(StoreError::Broken { place: 0, .. })));
    other.then(first, "nobody");
    assert!(matches!(service.start(&other, "unknown", &[]), Err(StoreError::NotRegistered(name)) if name == "nobody"));
    let mut strange = Flow::new("strange");
    strange.then(sum, "inc");
    assert!(matches!(service.start(&strange, "strange", &[]), Err(StoreError::Refused(_))));
    let mut late = Flow::new("late");
    let gift = late.promise("gift");
    late.combine(first, gift, "add");
    assert!(matches!(service.start(&late, "late", &[]), Err(StoreError::Refused(_))), "first is a step of another flow");
    let mut wide = Flow::new("wide");
    let many: Vec<_> = (0..40).map(|_| wide.promise("promise")).collect();
    let given: Vec<_> = (0..40).map(|it| if it == 35 { Value::Null } else { json!(it) }).collect();
    let wide = service.start(&wide, "wide", &given).unwrap();
    for (step, value) in many.into_iter().zip(given) {
        assert_eq!(settled::<Value>(&wide.step(step).unwrap()), Ok(value));
    }
}

const STARTS: &str = "
import sys, contextvars
from cf.service import Flow
from cf.store import DurableService, connect
from cf.store.contexts import Variables
TENANT = contextvars.ContextVar('tenant')
service = DurableService(connect(sys.argv[1]), int(sys.argv[2]), lease=60, contexts=[Variables(tenant=TENANT)])
@service.function('pay', version=1)
def pay(cents, to='nobody'):
    return f'{cents} for {to} of {TENANT.get(None)}'
@service.function('inc', version=1)
def inc(number):
    return number + 1
@service.function('composes', version=1)
def composes(request, number):
    return request.supply(pay, number, to='python')
TENANT.set('carla')
flow = Flow('order')
number = flow.promise('number')
paid = flow.supply(pay, 5, to='anna')
more = number.then(inc).again()
request = service.start(flow, 1, name='a flow of both')
if sys.argv[2] == '0':
    composed = request[more].compose(composes)
print(request[more].result(60) if sys.argv[2] != '0' else composed.number, end='')
if sys.argv[2] != '0':
    request[5].result(60), request[6].result(60)
service.shutdown()
";

#[test]
fn python_begins_the_same_flow() {
    let place = Place::new("both");
    let pay = |cents: i64, to: Option<String>| Ok::<_, String>(json!([cents, to, context().get("tenant")]));
    let functions = Functions::new()
        .with("pay", 1, pay)
        .parameters("pay", 1, &["cents", "to"])
        .with("inc", 1, |number: i64| Ok::<_, String>(number + 100))
        .composing("composes", 1, |request: &Request, number: i64| request.supply_named("pay", &[json!(number)], &map(json!({"to": "rust"}))));
    let Some(child) = python(STARTS, &[place.address(), "0"]) else {
        eprintln!("left out: CF_PYTHON names no client for Python with its C module");
        return;
    };
    let composed = printed(child).parse().unwrap();
    let service = Service::with(place.store(), functions, patient()).unwrap();
    let mut flow = Flow::new("order");
    let number = flow.promise("number");
    let paid = flow.supply_named("pay", &[json!(5)], &map(json!({"to": "anna"})));
    let more = flow.then(number, "inc");
    let more = flow.again(more, 1);
    let request = service.start(&flow, "a flow of both", &[json!(2)]).unwrap();
    assert_eq!(settled::<Value>(&request.step(paid).unwrap()), Ok(json!([5, "anna", "carla"])));
    assert_eq!(settled::<i64>(&request.step(more).unwrap()), Ok(101));
    assert_eq!(settled::<Value>(&request.stage(composed).unwrap()), Ok(json!([101, "rust", "carla"])));
    let other = service.start(&flow, "a flow of rust's", &[json!(1)]).unwrap();
    assert_eq!(settled::<i64>(&other.step(more).unwrap()), Ok(101));
    drop(service);

    let mut nobody = patient();
    nobody.threads = 0;
    let planner = Functions::new().with("pay", 1, pay).with("inc", 1, add_one).composing("composes", 1, |it: &Request, _: i64| it.promise("never"));
    let second = Place::new("both 2");
    let planner = Service::with(second.store(), planner, nobody).unwrap();
    let request = within(map(json!({"tenant": "anna"})), || {
        let request = planner.start(&flow, "a flow of both", &[]).unwrap();
        request.step(more).unwrap().compose("composes").unwrap();
        request.supply_named("pay", &[json!(8)], &map(json!({"to": "bert"}))).unwrap();
        request
    });
    assert_eq!(printed(python(STARTS, &[second.address(), "2"]).unwrap()), "2");
    assert_eq!(settled::<Value>(&request.step(paid).unwrap()), Ok(json!("5 for anna of anna")));
    assert_eq!(settled::<Value>(&request.stage(5).unwrap()), Ok(json!("2 for python of anna")));
    assert_eq!(settled::<Value>(&request.stage(6).unwrap()), Ok(json!("8 for bert of anna")));
}

/// A flow gets a further promise. Whoever has its new steps doesn't take another stage for them in a request of the old ones.
#[test]
fn a_step_of_another_flow_is_no_stage() {
    let place = Place::new("steps");
    let functions = Functions::new().with("ship", 1, |_: Value, _: Value| Ok::<_, String>(1));
    let service = Service::with(place.store(), functions, patient()).unwrap();
    let (mut old, mut new, mut renamed) = (Flow::new("order"), Flow::new("order"), Flow::new("orders"));
    let (order, approval) = (old.promise("order"), old.promise("approval"));
    let shipped = old.combine(order, approval, "ship");
    let (same, fraud, moved) = (new.promise("order"), new.promise("fraud score"), new.promise("approval"));
    let handled = new.combine(same, moved, "ship");
    let other = renamed.promise("order");
    service.start(&old, "order 17", &[json!(17)]).unwrap();
    let request = service.open("order 17").unwrap();
    let named = |step| request.step(step).map(|it| it.name().unwrap());
    assert_eq!([order, approval, shipped].map(named), ["order", "approval", "ship"].map(|it| Some(it.to_owned())));
    assert_eq!(named(same), Some("order".into()), "up to this step the flows are one");
    assert_eq!([fraud, moved, handled, other].map(named), [None, None, None, None]);
    let mut turned = Flow::new("order");
    let (order, approval) = (turned.promise("order"), turned.promise("approval"));
    assert_eq!(named(turned.combine(approval, order, "ship")), None, "its sources are others");
    assert!(service.request("no flow's").unwrap().step(order).is_none());
}

#[test]
fn a_stage_of_another_request_is_no_source() {
    let place = Place::new("strangers");
    let functions = Functions::new().with("add", 1, |a: i64, b: i64| Ok::<_, String>(a + b)).with("inc", 1, add_one);
    let service = Service::with(place.store(), functions, patient()).unwrap();
    let [one, other] = ["one", "other"].map(|name| service.request(name).unwrap());
    let (own, stranger) = (one.promise("own").unwrap(), other.promise("stranger").unwrap());
    let refused = [
        own.combine(&stranger, "add"),
        own.either(&stranger, "inc"),
        one.all_of(&[&own, &stranger]),
        one.first_of(&[&own, &stranger]),
        one.gather(&[&own, &stranger]),
    ];
    for it in refused {
        assert!(matches!(it, Err(StoreError::Refused(_))), "{it:?}");
    }
    assert!(one.stage(1).is_none(), "nothing was attached");
    assert!(own.combine(&one.stage(0).unwrap(), "add").is_ok());
}
