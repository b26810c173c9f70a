//! What does the search find in services over a store, what may go wrong there, and what does it say of the crate?
#[path = "../common/mod.rs"]
mod common;
mod kept;
#[path = "../../../cf/tests/orders/random.rs"]
mod random;
mod services;

use cf::testing::{Orders, Report, World};
use cf_store::testing::{Bounds, Histories, ProcessOptions, Stores, WorldStore};
use cf_store::{context, within, Failed, Flow, Functions, Request, Stage, StoreError};
use serde_json::{json, Value};
use services::{charged_again, done_elsewhere, is_done, own_word_for_anothers, Done, Shared, SERVICES};
use std::collections::{BTreeMap, BTreeSet};
use std::sync::{Arc, Weak};
use std::time::Duration;

/// Longer than a machine at its limit takes. On one at rest each planted fault is found within milliseconds.
const LIMIT: Duration = Duration::from_secs(600);
/// By which order each planted fault has to be found.
const SOON: u64 = 20;

fn orders(test: impl Fn(&World) + Send + Sync + 'static) -> Report {
    Orders::new().time(LIMIT).run(test)
}

fn is_sound(report: &Report) {
    assert!(report.whole && report.failed.is_empty(), "{report}");
}

fn ends(report: &Report) -> Vec<&str> {
    is_sound(report);
    report.ends.keys().map(String::as_str).collect()
}

// Services.

#[test]
fn each_planted_fault_is_found() {
    for service in SERVICES {
        let report = orders(move |world| (service.runs)(world, false));
        assert!(!report.failed.is_empty() && report.orders + report.cut <= SOON, "{} is missed: {report}", service.name);
        assert_eq!(report.failed[0].why, service.why, "{}: {report}", service.name);
    }
}

#[test]
fn each_failing_order_fails_again_alone() {
    for service in SERVICES {
        let failure = orders(move |world| (service.runs)(world, false)).failed.remove(0);
        let again = Orders::new().row(&failure.row()).run(move |world| (service.runs)(world, false));
        assert_eq!((again.orders, &again.failed[0].why, again.failed[0].row()), (1, &failure.why, failure.row()), "{}", service.name);
    }
}

#[test]
fn each_sound_service_is_sound_in_all_orders() {
    for service in SERVICES {
        let report = orders(move |world| (service.runs)(world, true));
        assert!(report.whole && report.failed.is_empty(), "{}: {report}", service.name);
    }
}

#[test]
fn what_goes_wrong_is_tried_by_chance() {
    for service in [charged_again, done_elsewhere, own_word_for_anothers] {
        let report = Orders::new().time(LIMIT).chance(500, 3).run(move |world| service(world, false));
        assert!(!report.failed.is_empty(), "{report}");
    }
}

// Functions that compose, flows, and contexts.

#[test]
fn what_composes_comes_to_the_same_in_all_orders() {
    let report = orders(|world| {
        let charge = |order: u32| Ok::<_, String>(format!("{order} of {}", context()["from"]));
        let places = |request: &Request, order: u32| request.supply("charge", &[json!(order)]);
        let functions = Functions::new().with("charge", 1, charge).composing("places", 1, places);
        let store = world.store(Bounds::new());
        let (one, _two) = (store.worker("one", &functions), store.worker("two", &functions));
        let mut flow = Flow::new("orders");
        let order = flow.promise("order");
        within(json!({"from": "here"}).as_object().unwrap().clone(), || {
            let request = one.start(&flow, "order 17", &[json!(17)]).unwrap();
            request.step(order).unwrap().compose("places").unwrap();
        });
        world.end_is(move || store.outcomes().join(", "));
    });
    let told = r#""17 of \"here\"""#;
    let wanted = ["order ends: 17", &format!("what places gives ends: {told}"), &format!("places ends: {told}"), &format!("charge ends: {told}")];
    assert_eq!(ends(&report), [wanted.map(|it| format!("order 17: {it}")).join(", ")]);
    assert!(report.orders > 1, "{report}");
}

#[test]
fn others_go_on_before_the_lines_behind_a_put_of_what_composes() {
    let report = orders(|world| {
        let (charges, seen) = (Shared::<u32>::default(), Shared::<u32>::default());
        let (charged, known, sees) = (charges.clone(), charges, seen.clone());
        let charge = move || {
            *charged.get() += 1;
            Ok::<_, String>(())
        };
        let places = move |request: &Request, _order: u32| {
            let stage = request.supply("charge", &[])?;
            *sees.get() = *known.get();
            Ok::<_, StoreError>(stage)
        };
        let functions = Functions::new().with("charge", 1, charge).composing("places", 1, places);
        let store = world.store(Bounds::new());
        let (one, _two) = (store.worker("one", &functions), store.worker("two", &functions));
        let order = one.request("order 17").unwrap().promise("order").unwrap();
        order.complete(&17).unwrap();
        order.compose("places").unwrap();
        world.end_is(move || seen.get().to_string());
    });
    assert_eq!(ends(&report), ["0", "1"]);
}

// Transactional functions.

fn pay(effects: &mut Vec<Value>, order: u32) -> Done {
    effects.push(json!(order));
    Ok(())
}

/// A transactional function of a shop's, and what its client does meanwhile.
fn paying(world: &World, workers: usize, bounds: Bounds, meanwhile: Option<fn(&Stage)>) {
    let functions = Functions::new().transactional("pay", 1, pay);
    let store = world.store(bounds);
    store.pure("pay");
    (0..workers).for_each(|number| drop(store.worker(&format!("worker {number}"), &functions)));
    let shop = store.process_with("shop", &functions, ProcessOptions::new().workers(0));
    let paid = shop.request("order").unwrap().supply("pay", &[json!(17)]).unwrap();
    if let Some(meanwhile) = meanwhile {
        shop.calls("client", move || meanwhile(&paid));
    }
    let stands = store.clone();
    let is_paid = move || stands.effects().len() == usize::from(stands.outcome("order", "pay") == Some(Ok(Value::Null)));
    world.check("an effect stands exactly if its finish does", is_paid);
    world.end_is(move || format!("{} {}", store.effects().len(), store.outcomes().join(", ")));
}

#[test]
fn an_effect_stands_exactly_if_its_finish_does() {
    let (paid, cancelled) = ("1 order: pay ends: null", "0 order: pay is cancelled");
    let gone = "0 order: pay ends: the worker that ran pay is gone, and it may have run";
    for (fault, bounds) in faults() {
        let takes_for_gone = ["killed", "slow"].contains(&fault);
        let report = orders(move |world| paying(world, 1 + usize::from(takes_for_gone), bounds, None));
        assert_eq!(ends(&report), if takes_for_gone { vec![gone, paid] } else { vec![paid] }, "{fault}");
    }
    for bounds in [Bounds::new(), Bounds::new().late(1)] {
        let report = orders(move |world| paying(world, 1, bounds, Some(|paid| drop(paid.cancel()))));
        assert_eq!(ends(&report), [cancelled, paid]);
    }
}

#[test]
fn what_a_transaction_puts_is_told() {
    is_sound(&orders(|world| {
        let (store, its) = (world.store(Bounds::new()), world.clone());
        let functions = Functions::new().transactional("pay", 1, |_: &mut Vec<Value>| Done::Ok(()));
        store.worker("one", &functions).request("order").unwrap().supply("pay", &[]).unwrap();
        its.at_end("three words are told", move || store.answered().into_iter().map(|it| it.2).eq(1..=3));
    }));
}

#[test]
fn a_process_is_killed_within_a_transaction() {
    let report = orders(|world| {
        let (store, its) = (world.store(Bounds::new().killed(1)), world.clone());
        let pay = move |effects: &mut Vec<Value>| {
            effects.push(json!(17));
            its.point();
            Done::Ok(())
        };
        let functions = Functions::new().transactional("pay", 1, pay);
        let request = store.worker("one", &functions).request("order").unwrap();
        (0..2).for_each(|_| drop(request.supply("pay", &[]).unwrap()));
        world.end_is(move || format!("{} of {}", store.effects().len(), store.outcomes().iter().filter(|it| it.contains("pay ends: null")).count()));
    });
    assert_eq!(ends(&report), ["0 of 0", "1 of 1", "2 of 2"]);
}

#[test]
fn effects_of_two_requests_come_in_both_orders() {
    let report = orders(|world| {
        let store = world.store(Bounds::new());
        let functions = Functions::new().transactional("pay", 1, pay);
        store.pure("pay");
        for (number, name) in [(1, "first"), (2, "second")] {
            store.process(name, &functions).request(name).unwrap().supply("pay", &[json!(number)]).unwrap();
        }
        world.end_is(move || format!("{:?}", store.effects()));
    });
    assert_eq!(ends(&report), ["[Number(1), Number(2)]", "[Number(2), Number(1)]"]);
}

#[test]
fn others_put_before_a_commit_and_behind_it() {
    let report = orders(|world| {
        let store = world.store(Bounds::new());
        let functions = Functions::new().transactional("pay", 1, pay).with("load", 1, || Done::Ok(()));
        ["load", "pay"].iter().for_each(|name| store.pure(name));
        ["one", "two"].iter().for_each(|name| drop(store.worker(name, &functions)));
        let request = store.process_with("shop", &functions, ProcessOptions::new().workers(0)).request("order").unwrap();
        request.supply("pay", &[json!(17)]).unwrap();
        request.supply("load", &[]).unwrap();
        let (granted, last) = (store.clone(), store.clone());
        let is_paid_last = move || last.entries()[0].1.last().map_or(false, |entry| entry.word >> 36 & 0xfff == 0);
        let by = move || granted.granted().into_iter().map(|it| it.0).collect::<Vec<_>>().join("+");
        world.end_is(move || format!("by {}, paid last: {}", by(), is_paid_last()));
    });
    let by_one = ["by one+one, paid last: false", "by one+two, paid last: false", "by one+two, paid last: true"];
    let by_two = ["by two+one, paid last: false", "by two+one, paid last: true", "by two+two, paid last: false"];
    assert_eq!(ends(&report), [by_one, by_two].concat());
}

#[test]
fn what_a_function_that_fails_has_done_is_undone() {
    let report = orders(|world| {
        let store = world.store(Bounds::new().lost(1));
        let pay = |effects: &mut Vec<Value>| {
            effects.push(json!(17));
            Err::<(), _>(Failed::new("CardDeclined", "no card"))
        };
        let other = |_: &mut String| Done::Ok(());
        let functions = Functions::new().transactional("pay", 1, pay).transactional("other", 1, other);
        let request = store.worker("one", &functions).request("order").unwrap();
        request.supply("pay", &[]).unwrap();
        request.supply("other", &[]).unwrap();
        world.end_is(move || format!("{} {}", store.effects().len(), store.outcomes().join(", ")));
    });
    let (pay, other) = ("pay ends: CardDeclined: no card", "other ends: TypeError: it takes the connection of another engine");
    assert_eq!(ends(&report), [format!("0 order: {pay}, order: {other}")]);
}

// What is told.

#[test]
fn a_failure_reads_like_a_story() {
    let failure = &orders(|world| charged_again(world, false)).failed[0];
    let told: Vec<&str> = failure.told.iter().map(|it| &*it.text).collect();
    assert_eq!(
        told,
        [
            "worker 1 looks what is new",
            "worker 1 puts to order 17: charge is claimed",
            "worker 1 calls charge",
            "worker 1 is killed",
            "worker 2 takes worker 1 for gone",
            "worker 2 puts to order 17: charge is failed",
            "worker 2 puts to order 17: charge again is claimed",
            "worker 2 calls charge"
        ]
    );
    assert_eq!(failure.told[5].settled, ["charge ends: the worker that ran charge is gone, and it may have run"]);
    assert!(failure.to_string().contains("It is so if 4 (worker 1 is killed) comes before 3 (worker 1 calls charge)."), "{failure}");
}

#[test]
fn what_was_lost_is_told() {
    let failure = &orders(|world| own_word_for_anothers(world, false)).failed[0];
    let wanted = "a client puts to lock: owner is completed; it stands, and the store is silent for a minute";
    assert!(failure.told.iter().any(|it| it.text == wanted), "{failure}");
}

#[test]
fn a_failure_has_the_histories_of_its_requests() {
    let report = orders(|world| {
        world.request("in memory").promise().complete(1).unwrap();
        charged_again(world, false);
    });
    let failure = &report.failed[0];
    let [history] = &*failure.in_store() else { panic!("{failure}") };
    let told = history.lines().unwrap();
    let gone = "the worker that ran charge is gone, and it may...";
    let wanted = [
        "order 17: 5 events, 2 stages".into(),
        "the shop attaches 0 charge, supply".into(),
        "the shop attaches 1 charge again, exceptionally behind 0 charge".into(),
        "worker 1 claims 0 charge and calls it".into(),
        format!("worker 2 fails 0 charge with Abandoned: {gone}"),
        format!("              0 charge ends: Abandoned: {gone}"),
        format!("worker 2 claims 1 charge again and calls it with Abandoned: {gone}"),
    ];
    assert_eq!(told.lines().collect::<Vec<_>>(), wanted);
    assert_eq!(failure.account(1), history.account().unwrap() + "\n");
    assert_eq!(failure.script(1), history.script().unwrap());
    assert!(failure.account(0).contains("in memory") && failure.account(1).contains("worker 2"));
    common::fits(&failure.account(1));
}

// What each bound lets go wrong.

fn completed(stage: &Stage) -> String {
    match stage.complete(&7) {
        Ok(won) => won.to_string(),
        Err(StoreError::Unknown(_)) => "unknown".into(),
        Err(error) => panic!("{error}"),
    }
}

/// What a client's call comes to in all orders, with what stands then.
fn tried(bounds: Bounds) -> Report {
    orders(move |world| {
        let (store, told) = (world.store(bounds), Shared::<String>::default());
        let shop = store.process("shop", &Functions::new());
        let (stage, tells) = (shop.request("order").unwrap().promise("promise").unwrap(), told.clone());
        shop.calls("client", move || *tells.get() = completed(&stage));
        world.end_is(move || format!("{}, {}", told.get(), store.outcomes().join(", ")));
    })
}

#[test]
fn nothing_goes_wrong_without_a_bound() {
    assert_eq!(ends(&tried(Bounds::new())), ["true, order: promise ends: 7"]);
}

#[test]
fn what_is_lost_or_unanswered_is_asked_again() {
    for bounds in [Bounds::new().lost(1), Bounds::new().unanswered(1), Bounds::new().late(1)] {
        let report = tried(bounds);
        assert_eq!(ends(&report), ["true, order: promise ends: 7"]);
        assert!(report.orders > 1, "{report}");
    }
}

#[test]
fn a_silent_store_leaves_it_unknown() {
    let wanted = ["true, order: promise ends: 7", "unknown, order: promise ends: 7", "unknown, order: promise is open"];
    assert_eq!(ends(&tried(Bounds::new().silent(1))), wanted);
}

#[test]
fn a_put_that_was_given_up_comes_later_or_finds_its_place_taken() {
    let report = orders(|world| {
        let store = world.store(Bounds::new().silent(1).late(1));
        let shop = store.process("shop", &Functions::new());
        let stage = shop.request("order").unwrap().promise("promise").unwrap();
        shop.calls("client", move || {
            if completed(&stage) == "unknown" {
                drop(stage.fail(&Failed::new("KeyError", "x")));
            }
        });
        world.end_is(move || store.outcomes().join(", "));
    });
    assert_eq!(ends(&report), ["order: promise ends: 7", "order: promise ends: KeyError: x"]);
}

#[test]
fn a_put_that_was_on_its_way_is_told() {
    let report = orders(|world| {
        let store = world.store(Bounds::new().silent(1).late(1));
        let shop = store.process("shop", &Functions::new());
        let (stage, was_open) = (shop.request("order").unwrap().promise("promise").unwrap(), Shared::<bool>::default());
        let (looks, sees) = (store.clone(), was_open.clone());
        shop.calls("client", move || {
            let told = completed(&stage);
            *sees.get() = told == "unknown" && !looks.is_settled("order", "promise");
        });
        world.at_end("what wasn't there doesn't come", move || !*was_open.get() || !store.is_settled("order", "promise"));
    });
    let told: Vec<&str> = report.failed[0].told.iter().map(|it| &*it.text).collect();
    assert!(told.contains(&"the put that was on its way comes: puts to order: promise is completed"), "{report}");
}

#[test]
fn bounds_are_for_each_order() {
    let report = orders(|world| {
        let (store, asked) = (world.store(Bounds::new().unanswered(2)), Shared::<u32>::default());
        let shop = store.process("shop", &Functions::new());
        let (stage, asks) = (shop.request("order").unwrap().promise("promise").unwrap(), asked.clone());
        shop.calls("client", move || *asks.get() = u32::from(stage.complete(&1).unwrap()));
        world.end_is(move || asked.get().to_string());
    });
    assert_eq!(ends(&report), ["1"]);
    assert_eq!(report.orders, 3);
}

#[test]
fn others_move_before_an_answer_comes() {
    let test = |world: &World| {
        let (store, log) = (world.store(Bounds::new()), Shared::<Vec<String>>::default());
        let shop = store.process("shop", &Functions::new());
        let (stage, tells, sees) = (shop.request("order").unwrap().promise("promise").unwrap(), log.clone(), log.clone());
        shop.calls("client", move || {
            let told = stage.complete(&1).unwrap();
            tells.get().push(format!("told {told}"));
        });
        world.calls("another", move || {
            let seen = store.is_settled("order", "promise");
            sees.get().push(format!("seen {seen}"));
        });
        world.end_is(move || log.get().join(", "));
    };
    let wanted = ["seen false, told true", "seen true, told true", "told true, seen true"];
    assert_eq!(ends(&orders(test)), wanted);
    assert_eq!(ends(&Orders::new().time(LIMIT).all().run(test)), wanted);
}

#[test]
fn what_is_attached_to_a_closed_request_is_called_whoever_is_killed() {
    let report = orders(|world| {
        let store = world.store(Bounds::new().killed(1));
        let functions = Functions::new().with("charge", 1, || Done::Ok(()));
        let _worker = store.worker("worker", &functions);
        let shop = store.process("shop", &functions);
        let request = shop.request("order 17").unwrap();
        request.end().unwrap();
        shop.calls("client", move || drop(request.supply("charge", &[])));
        world.end_is(move || store.outcomes().join(", "));
    });
    let gone = "order 17: charge ends: the worker that ran charge is gone, and it may have run";
    assert_eq!(ends(&report), ["", "order 17: charge ends: null", gone]);
}

#[test]
fn a_killed_process_does_nothing_more() {
    let report = orders(|world| {
        let (store, log, its) = (world.store(Bounds::new().killed(1)), Shared::<Vec<&str>>::default(), world.clone());
        let logs = log.clone();
        let slow = move || {
            logs.get().push("begun");
            its.point();
            logs.get().push("ended");
            Done::Ok(())
        };
        let functions = Functions::new().with("slow", 1, slow);
        store.worker("one", &functions).request("order").unwrap().supply("slow", &[]).unwrap();
        store.process("shop", &Functions::new()).open("order").unwrap();
        world.end_is(move || format!("{} {}", log.get().join("+"), &store.outcomes()[0][12..16]));
    });
    assert_eq!(ends(&report), [" ends", " is o", "begun ends", "begun+ended ends"]);
}

#[test]
fn a_process_that_is_there_may_be_taken_for_gone() {
    let report = orders(|world| {
        let store = world.store(Bounds::new().slow(1));
        let functions = Functions::new().with("load", 1, || Ok::<_, Failed>(1));
        store.worker("one", &functions);
        store.process_with("shop", &functions, ProcessOptions::new().workers(0)).request("order").unwrap().supply("load", &[]).unwrap();
        world.end_is(move || store.outcomes().join(", "));
    });
    assert_eq!(ends(&report), ["order: load ends: 1", "order: load ends: the worker that ran load is gone, and it may have run"]);
}

#[test]
fn clocks_differ() {
    is_sound(&orders(|world| {
        let store = world.store(Bounds::new());
        let ahead = ProcessOptions::new().ahead(Duration::from_secs(60));
        assert_eq!(store.process("one", &Functions::new()).now(), Duration::ZERO);
        assert_eq!(store.process_with("two", &Functions::new(), ahead).now(), Duration::from_secs(60));
    }));
}

// What functions, callers and stages do.

#[test]
fn a_caller_waits_for_a_worker() {
    is_sound(&orders(|world| {
        let (store, got) = (world.store(Bounds::new()), Shared::<u32>::default());
        let functions = Functions::new().with("load", 1, || Ok::<_, Failed>(5));
        store.worker("one", &functions);
        let shop = store.process_with("shop", &functions, ProcessOptions::new().workers(0));
        let (clients, gets) = (shop.clone(), got.clone());
        shop.calls("client", move || *gets.get() = clients.request("order").unwrap().supply("load", &[]).unwrap().wait().unwrap());
        world.at_end("it is told", move || *got.get() == 5);
    }));
}

#[test]
fn who_waits_for_ever_is_a_deadlock() {
    let report = orders(|world| {
        let shop = world.store(Bounds::new().killed(1)).process("shop", &Functions::new());
        let clients = shop.clone();
        shop.calls("client", move || clients.request("order").unwrap().promise("a sign").unwrap().wait::<Value>());
    });
    assert_eq!(report.failed[0].why, "deadlock: client waits for a sign");
}

#[test]
fn a_wait_may_end_before() {
    let report = orders(|world| {
        let (shop, told) = (world.store(Bounds::new()).process("shop", &Functions::new()), Shared::<String>::default());
        let sign = shop.request("order").unwrap().promise("a sign").unwrap();
        let (waits, tells) = (sign.clone(), told.clone());
        shop.calls("client", move || *tells.get() = format!("{:?}", waits.wait_timeout::<String>(Duration::from_secs(5)).unwrap()));
        shop.calls("another", move || sign.complete("there"));
        world.end_is(move || told.get().clone());
    });
    assert_eq!(ends(&report), ["None", "Some(\"there\")"]);
}

#[test]
fn only_a_thread_of_the_process_waits_for_so_long() {
    let report = orders(|world| {
        let sign = world.store(Bounds::new()).process("shop", &Functions::new()).request("order").unwrap().promise("a sign").unwrap();
        world.calls("client", move || sign.wait_timeout::<Value>(Duration::from_secs(5)));
    });
    assert!(report.failed[0].why.starts_with("who waits so long for a sign is no thread of its process"), "{report}");
}

#[test]
fn a_limit_in_the_store_may_pass_at_any_moment() {
    let report = orders(|world| {
        let store = world.store(Bounds::new());
        let functions = Functions::new().with("load", 1, || Ok::<_, Failed>(5));
        store.worker("one", &functions);
        let shop = store.process_with("shop", &functions, ProcessOptions::new().workers(0));
        shop.request("order").unwrap().supply("load", &[]).unwrap().or_timeout(Duration::from_secs(2)).unwrap();
        world.end_is(move || store.outcomes().join(", "));
    });
    assert_eq!(ends(&report), ["order: load ends: 5", "order: load ends: load took longer than 2 s"]);
}

#[test]
fn two_threads_of_a_process() {
    is_sound(&orders(|world| {
        let (store, ran) = (world.store(Bounds::new()), Shared::<BTreeSet<u32>>::default());
        let runs = ran.clone();
        let functions = Functions::new().with("load", 1, move |number: u32| Ok::<_, Failed>(runs.get().insert(number)));
        store.touches("load", &["ran"]);
        let one = store.process_with("one", &functions, ProcessOptions::new().workers(2));
        let request = one.request("order").unwrap();
        [1, 2].iter().for_each(|number| drop(request.supply("load", &[json!(number)]).unwrap()));
        world.at_end("both are run", move || ran.get().len() == 2);
    }));
}

#[test]
fn what_a_function_or_a_caller_panics_with_fails_the_order() {
    let function = orders(|world| {
        let fails = || if world_is_there() { Done::Ok(()) } else { panic!("it isn't") };
        let functions = Functions::new().with("load", 1, fails);
        world.store(Bounds::new()).worker("one", &functions).request("order").unwrap().supply("load", &[]).unwrap();
    });
    assert_eq!(function.failed[0].why, "load panicked: it isn't");
    let caller = orders(|world| {
        let shop = world.store(Bounds::new()).process("shop", &Functions::new());
        shop.calls("client", || assert!(world_is_there(), "nor here"));
    });
    assert_eq!(caller.failed[0].why, "client panicked: nor here");
}

fn world_is_there() -> bool {
    false
}

#[test]
fn a_panic_is_its_stages_error_where_that_is_said() {
    let report = Orders::new().time(LIMIT).panics().run(|world| {
        let store = world.store(Bounds::new());
        let fails = || if world_is_there() { Done::Ok(()) } else { panic!("it isn't") };
        let functions = Functions::new().with("load", 1, fails);
        store.worker("one", &functions).request("order").unwrap().supply("load", &[]).unwrap();
        world.end_is(move || store.outcomes().join(", "));
    });
    assert_eq!(ends(&report), ["order: load ends: Panic: it isn't"]);
}

#[test]
fn what_a_test_keeps_of_a_run_is_let_go() {
    let kept = Shared::<Vec<Weak<()>>>::default();
    let keeps = kept.clone();
    let report = Orders::new().time(LIMIT).run(move |world| {
        let held = Arc::new(());
        keeps.get().push(Arc::downgrade(&held));
        let store = world.store(Bounds::new().killed(1));
        let functions = Functions::new().with("load", 1, move || Ok::<_, Failed>(Arc::strong_count(&held)));
        let one = store.worker("one", &functions);
        let (its, stage) = (one.clone(), one.request("order").unwrap().supply("load", &[]).unwrap());
        one.calls("client", move || {
            drop(stage.peek::<Value>());
            drop(its);
        });
    });
    is_sound(&report);
    assert!(kept.get().iter().all(|it| it.upgrade().is_none()), "what a run's functions have is kept");
}

// What the crate promises, over small plans, whatever goes wrong once.

type Attaches = fn(&Request) -> Stage;

const PLANS: [(&str, Attaches); 4] = [
    ("one stage", |request| request.supply("load", &[]).unwrap()),
    ("two in a row", |request| request.supply("load", &[]).unwrap().then("more").unwrap()),
    ("again", |request| request.supply("load", &[]).unwrap().again(1).unwrap()),
    ("transactional", |request| request.supply("pay", &[json!(17)]).unwrap()),
];

fn faults() -> [(&'static str, Bounds); 6] {
    let none = Bounds::new();
    [
        ("lost", none.lost(1)),
        ("unanswered", none.unanswered(1)),
        ("late", none.late(1)),
        ("silent", none.silent(1)),
        ("killed", none.killed(1)),
        ("slow", none.slow(1)),
    ]
}

/// Whether no claim is granted twice.
pub fn is_granted_once(store: &WorldStore) -> bool {
    let (granted, mut counts) = (store.granted(), BTreeMap::new());
    granted.iter().for_each(|(_, request, stage)| *counts.entry((request.clone(), *stage)).or_insert(0) += 1);
    counts.values().all(|count| *count == 1)
}

/// Whether a put stands once or never, and each word where its process was told.
pub fn stands_once(store: &WorldStore) -> bool {
    let rows: BTreeMap<_, _> = store.entries().into_iter().collect();
    let tokens: Vec<u64> = rows.values().flatten().map(|entry| entry.token).collect();
    let differ = tokens.iter().collect::<BTreeSet<_>>().len() == tokens.len();
    differ && store.answered().iter().all(|(_, request, place, word)| rows[request][place - 1].word == *word)
}

fn small(world: &World, plan: Attaches, workers: usize, bounds: Bounds) {
    let functions = Functions::new().with("load", 1, || Ok::<_, Failed>(1)).with("more", 1, |one: u32| Ok::<_, Failed>(one + 1));
    let functions = functions.transactional("pay", 1, pay);
    let store = world.store(bounds);
    ["load", "more", "pay"].iter().for_each(|name| store.pure(name));
    let one = store.worker("one", &functions);
    store.process_with("two", &functions, ProcessOptions::new().workers(workers - 1).takes_all());
    plan(&one.request("order").unwrap());
    let (stands, settles, granted) = (store.clone(), store.clone(), store.clone());
    world.at_end("no claim is granted twice", move || is_granted_once(&granted));
    world.at_end("a put stands once or never, and where its process was told", move || stands_once(&stands));
    world.at_end("all stages are settled", move || one.is_dead() && workers == 1 || settles.outcomes().iter().all(|it| !it.ends_with("is open")));
    world.end_is(move || format!("{:?} {:?} {:?}", store.outcomes(), store.granted(), store.effects()));
}

#[test]
fn no_claim_is_granted_twice_and_no_put_stands_twice() {
    for (name, plan) in PLANS {
        for (fault, bounds) in faults() {
            if name != "two in a row" || ["killed", "unanswered"].contains(&fault) {
                let report = orders(move |world| small(world, plan, 2, bounds));
                assert!(report.whole && report.failed.is_empty(), "{name}, {fault}: {report}");
            }
        }
    }
}

// What is left out.

/// Of two sources it is the one that the first try had: the first that was settled, or that was named if both were settled before.
#[test]
fn a_further_try_is_called_with_the_same() {
    for (is_before, wanted) in [(false, ["[7, 7]", "[7]"]), (true, ["[8, 8]", "[8]"])] {
        let report = orders(move |world| {
            let (store, called) = (world.store(Bounds::new().killed(1)), Shared::<Vec<u32>>::default());
            let calls = called.clone();
            let functions = Functions::new().with("load", 1, move |number: u32| {
                calls.get().push(number);
                Done::Ok(())
            });
            let request = store.process_with("shop", &functions, ProcessOptions::new().workers(0)).request("order").unwrap();
            let [one, two] = ["one", "two"].map(|name| request.promise(name).unwrap());
            let before = is_before.then(|| one.either(&two, "load").unwrap());
            match is_before {
                true => two.complete(&8).unwrap(),
                false => two.fail(&Failed::new("Declined", "no")).unwrap(),
            };
            one.complete(&7).unwrap();
            before.unwrap_or_else(|| one.either(&two, "load").unwrap()).again(1).unwrap();
            ["one", "two"].iter().for_each(|name| drop(store.worker(name, &functions)));
            world.end_is(move || format!("{:?}", called.get()));
        });
        assert_eq!(ends(&report), wanted);
    }
}

#[test]
fn the_ends_are_the_same_with_and_without_what_is_left_out() {
    for (name, plan) in PLANS {
        for (fault, bounds) in faults() {
            let reduced = orders(move |world| small(world, plan, 1, bounds));
            let plain = Orders::new().time(LIMIT).all().run(move |world| small(world, plan, 1, bounds));
            assert_eq!(ends(&reduced), ends(&plain), "{name}, {fault}");
        }
    }
}

#[test]
fn functions_in_two_processes_are_tried_in_both_orders() {
    let report = orders(|world| {
        let (store, log) = (world.store(Bounds::new()), Shared::<Vec<u32>>::default());
        let logs = log.clone();
        let load = move |number: u32| {
            logs.get().push(number);
            Done::Ok(())
        };
        let functions = Functions::new().with("load", 1, load);
        for (number, name) in [(1, "first"), (2, "second")] {
            let process = store.process(name, &functions);
            process.request(name).unwrap().supply("load", &[json!(number)]).unwrap();
        }
        world.end_is(move || format!("{:?}", log.get()));
    });
    assert_eq!(ends(&report), ["[1, 2]", "[2, 1]"]);
    assert!(report.orders + report.cut < 6, "{report}");
}

#[test]
fn each_of_two_workers_may_have_a_claim() {
    let report = orders(|world| {
        let store = world.store(Bounds::new());
        let functions = Functions::new().with("load", 1, || Done::Ok(()));
        store.pure("load");
        store.worker("one", &functions).request("order").unwrap().supply("load", &[]).unwrap();
        store.worker("two", &functions);
        world.end_is(move || store.granted().into_iter().map(|it| it.0).collect());
    });
    assert_eq!(ends(&report), ["one", "two"]);
}

#[test]
fn a_stage_is_seen_by_what_a_thread_of_its_process_has_put() {
    let report = orders(|world| {
        let (store, seen) = (world.store(Bounds::new()), Shared::<usize>::default());
        let functions = Functions::new().with("load", 1, || Ok::<_, Failed>(1)).with("more", 1, |one: u32| Ok::<_, Failed>(one + 1));
        ["load", "more"].iter().for_each(|name| store.pure(name));
        let one = store.process("one", &functions);
        let first = one.request("order").unwrap().supply("load", &[]).unwrap();
        let (stages, sees) = ([first.then("more").unwrap(), first], seen.clone());
        one.calls("client", move || *sees.get() = stages.iter().filter(|it| is_done(it)).count());
        world.end_is(move || seen.get().to_string());
    });
    assert_eq!(ends(&report), ["0", "1", "2"]);
}

#[test]
fn a_stage_is_seen_by_what_its_process_has_read() {
    let report = orders(|world| {
        let (store, seen) = (world.store(Bounds::new()), Shared::<bool>::default());
        let (one, two) = (store.process("one", &Functions::new()), store.process("two", &Functions::new()));
        let sign = one.request("order").unwrap().promise("a sign").unwrap();
        let (its, sees) = (two.open("order").unwrap().stage(0).unwrap(), seen.clone());
        one.calls("another", move || sign.complete("there"));
        two.calls("client", move || *sees.get() = is_done(&its));
        world.end_is(move || seen.get().to_string());
    });
    assert_eq!(ends(&report), ["false", "true"]);
}

#[test]
fn effects_are_seen_before_a_commit_and_behind_it() {
    let report = orders(|world| {
        let (store, seen) = (world.store(Bounds::new()), Shared::<usize>::default());
        let functions = Functions::new().transactional("pay", 1, pay);
        store.pure("pay");
        store.process("shop", &functions).request("order").unwrap().supply("pay", &[json!(17)]).unwrap();
        let (looks, sees) = (store, seen.clone());
        world.calls("client", move || *sees.get() = looks.effects().len());
        world.end_is(move || seen.get().to_string());
    });
    assert_eq!(ends(&report), ["0", "1"]);
}

#[test]
fn no_limit_of_a_closed_request_passes() {
    let report = orders(|world| {
        let store = world.store(Bounds::new());
        let request = store.process("shop", &Functions::new()).request("order").unwrap();
        request.promise("a sign").unwrap().or_timeout(Duration::from_secs(2)).unwrap();
        request.end().unwrap();
        world.end_is(move || store.outcomes().join(", "));
    });
    assert_eq!(ends(&report), ["order: a sign is open"]);
}
