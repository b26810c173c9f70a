//! What does `cf::testing` find, what does it tell, and what does it leave out?
mod layer;
mod made;
mod random;
mod services;

use cf::testing::{every_order, Orders, Report, World};
use cf::{Clock, Error, Request, Spawn, Stage};
use services::{charged_twice, overdrawn, GivesWay, Shared, SERVICES};
use std::panic::{catch_unwind, AssertUnwindSafe};
use std::sync::atomic::{AtomicUsize, Ordering::SeqCst};
use std::sync::Arc;
use std::time::Duration;

const SECOND: Duration = Duration::from_secs(1);
/// Longer than a machine at its limit takes. On one at rest each planted fault is found within milliseconds.
const LIMIT: Duration = Duration::from_secs(600);
/// By which order each planted fault has to be found.
const SOON: u64 = 20;

fn orders<A: cf::testing::Awaited>(test: impl Fn(&World) -> A + Send + Sync + 'static) -> Report {
    Orders::new().time(LIMIT).run(test)
}

fn is_sound(report: &Report) {
    assert!(report.whole && report.failed.is_empty(), "{report}");
}

/// What it panics with.
fn panics(act: impl FnOnce()) -> String {
    let payload = catch_unwind(AssertUnwindSafe(act)).expect_err("it panics");
    payload.downcast::<String>().map_or_else(|_| "no text".into(), |text| *text)
}

/// The ends that a test comes to, whose orders don't fail.
fn ends<A: cf::testing::Awaited>(test: impl Fn(&World) -> A + Send + Sync + 'static) -> Vec<String> {
    let report = orders(test);
    is_sound(&report);
    report.ends.into_keys().collect()
}

// Services.

#[test]
fn each_planted_fault_is_found() {
    assert_eq!(SERVICES.len(), 20);
    for service in SERVICES {
        let report = (service.run)(Orders::new().time(LIMIT), false);
        assert!(!report.failed.is_empty() && report.orders + report.cut <= SOON, "{} is missed: {report}", service.name);
        assert!(report.failed[0].why.contains(service.why), "{}: {report}", service.name);
    }
}

#[test]
fn each_failing_order_fails_again_alone() {
    for service in SERVICES {
        let failure = (service.run)(Orders::new().time(LIMIT), false).failed.remove(0);
        let again = (service.run)(Orders::new().row(&failure.row()), false);
        assert_eq!((again.orders, &again.failed[0].why, again.failed[0].row()), (1, &failure.why, failure.row()), "{}", service.name);
    }
}

#[test]
fn each_sound_service_is_sound_in_all_orders() {
    for service in SERVICES {
        let report = (service.run)(Orders::new().time(LIMIT), true);
        assert!(report.whole && report.failed.is_empty(), "{}: {report}", service.name);
    }
}

/// Who asks whether a payment is settled, and charges then, charges twice where the payment is under way. It is so behind a wait, and behind a
/// limit of a stage of its own.
#[test]
fn who_asks_before_he_charges_charges_twice() {
    let waits = |world: &World| {
        let (charges, request) = (Shared::new(0), world.request("order 17"));
        let (once, again) = (charges.clone(), charges.clone());
        let paid = request.supply(move || *once.get() += 1);
        world.check("charged at most once", move || *charges.get() <= 1);
        request.supply(move || {
            if paid.wait_timeout(SECOND).is_none() && !paid.is_settled() {
                *again.get() += 1;
            }
        })
    };
    let asks = |world: &World| {
        let (charges, request) = (Shared::new(0), world.request("order 17"));
        let (once, again) = (charges.clone(), charges.clone());
        let paid = request.supply(move || *once.get() += 1);
        world.check("charged at most once", move || *charges.get() <= 1);
        request.promise().or_timeout(SECOND).recover(move |_| {
            if !paid.is_settled() {
                *again.get() += 1;
            }
        })
    };
    for report in [orders(waits), orders(asks)] {
        assert_eq!(report.failed.iter().map(|failure| &*failure.why).collect::<Vec<_>>(), ["charged at most once"], "{report}");
    }
}

/// What is told of a stage, and what is behind it, come in either order, whoever is attached first.
#[test]
fn who_is_told_of_a_stage_comes_behind_what_is_behind_it_too() {
    let report = |is_told_first: bool| {
        orders(move |world: &World| {
            let seen = Shared::new(String::new());
            let (tells, does) = (seen.clone(), seen.clone());
            let gate = world.arrives(world.request("order 17").promise(), 1);
            let (told, behind) = (gate.clone(), gate);
            let tell = || drop(told.inspect(move |_| tells.get().push_str("told ")));
            if is_told_first {
                tell();
                drop(behind.then(move |_| does.get().push_str("done ")));
            } else {
                drop(behind.then(move |_| does.get().push_str("done ")));
                tell();
            }
            world.end_is(move || seen.get().clone());
        })
    };
    for report in [report(true), report(false)] {
        is_sound(&report);
        assert_eq!(report.ends.into_keys().collect::<Vec<_>>(), ["done told ", "told done "]);
    }
}

// Failures.

fn charged(world: &World) -> Stage<u32> {
    charged_twice(world, false)
}

#[test]
fn it_reads_like_a_story() {
    let story = "\
charged at most once: not so in this order of 6 moves
    1. price comes: 4900
    2. charge is claimed
    3. charge is called
    4. the limit of charge passes; charge ends: timed out after 2s
    5. charge again is claimed
    6. charge again is called
It is so if 4 (the limit of charge passes) comes before 2 (charge is claimed).
This order alone: .row(\"come.0.0 begin.0.1 call.0.1 limit.0.1.1 begin.0.2 call.0.2\")";
    assert_eq!(orders(charged).failed[0].to_string(), story);
}

#[test]
fn it_has_the_histories_with_the_times_of_the_world() {
    let failure = orders(charged).failed.remove(0);
    let told = failure.histories[0].to_string();
    assert!(told.contains(" 2000.000 ms  clock times out 1 charge"), "{told}");
    assert_eq!((failure.account(0), failure.script(0)), (failure.histories[0].account(), failure.histories[0].script()));
    assert!(failure.histories[0].is_reproducible());
}

#[test]
fn it_is_made_smaller() {
    let longer = |world: &World| {
        world.calls("somebody else", || ()).and_then(|| ()).and_then(|| ());
        charged(world)
    };
    let chance = Orders::new().chance(200, 3);
    let (found, smaller) = (chance.clone().as_found().run(longer), chance.run(longer));
    assert!(found.failed[0].told.len() >= 6 && found.failed[0].pairs.is_empty());
    assert_eq!((smaller.failed[0].told.len(), smaller.failed[0].switches()), (6, 3));
}

#[test]
fn several_are_told() {
    let report = Orders::new().failures(usize::MAX).run(charged);
    assert!(report.failed.len() > 1 && report.whole, "{report}");
}

/// One of the first orders fails, and the search goes on behind these.
#[test]
fn a_search_goes_on_as_long_as_more_may_fail() {
    let all = Orders::new().time(LIMIT).all().as_found();
    let one = all.clone().run(|world| overdrawn(world, false));
    let several = all.failures(usize::MAX).run(|world| overdrawn(world, false));
    assert!(one.failed.len() == 1 && !one.whole && one.orders < 100, "{one}");
    assert!(several.whole && several.orders > 100, "{} orders, {}", several.orders, several.whole);
}

// Bounds.

#[test]
fn orders_bound_a_search() {
    for most in [5, 101] {
        let report = Orders::new().time(LIMIT).all().most(most).run(|world| overdrawn(world, true));
        assert!(report.orders + report.cut <= most && !report.whole, "{report}");
    }
}

#[test]
fn time_bounds_a_search() {
    let report = Orders::new().time(Duration::ZERO).run(|world| overdrawn(world, true));
    assert_eq!((report.orders, report.whole), (0, false));
}

#[test]
fn a_seed_decides_what_comes_by_chance() {
    let rows = |seed| {
        let report = Orders::new().chance(50, seed).failures(50).as_found().run(charged);
        report.failed.iter().map(|failure| failure.row()).collect::<Vec<_>>()
    };
    assert_eq!(rows(1), rows(1));
    assert_ne!(rows(1), rows(2));
}

#[test]
fn a_part_of_the_orders_is_by_chance() {
    let seven = |world: &World| {
        let (came, request) = (Shared::new(0), world.request("seven"));
        for number in 0..7 {
            let came = came.clone();
            drop(world.arrives(request.promise(), number).then(move |number| *came.get() = *number));
        }
        world.at_end("the first doesn't come last", move || *came.get() != 0);
    };
    let report = Orders::new().time(LIMIT).most(3_000).run(seven);
    assert!(!report.failed.is_empty() && report.by_chance > 0, "{report}");
}

#[test]
fn a_row_that_is_none_is_told() {
    assert_eq!(panics(|| drop(Orders::new().row("come.0.0 begins.0.1").run(charged))), "a row has no move \"begins.0.1\"");
}

// Waiting.

#[test]
fn a_function_that_waits_lets_others_go_on() {
    is_sound(&orders(|world| {
        let request = world.request("order");
        let price = world.arrives(request.promise::<u32>().named("price"), 3);
        let twice = request.supply(move || price.wait().unwrap() * 2);
        let told = twice.clone();
        world.at_end("it is six", move || told.wait().unwrap() == 6);
        twice
    }));
}

#[test]
fn a_test_may_wait() {
    is_sound(&orders(|world| {
        assert_eq!(world.request("order").supply(|| 3).wait().unwrap(), 3);
        world.request("another").supply(|| 4)
    }));
}

#[test]
fn a_wait_may_end_before_what_it_waits_for() {
    let ends = ends(|world| {
        let price = world.arrives(world.request("order").promise::<u32>(), 3);
        let told = price.wait_timeout(2 * SECOND).map(Result::unwrap);
        world.end_is(move || format!("{told:?}"));
    });
    assert_eq!(ends, ["None", "Some(3)"]);
}

#[test]
fn each_way_of_a_choice_is_tried() {
    let ends = ends(|world| {
        let asks = world.clone();
        let asked = world.request("order").try_supply(move || if asks.choice([true, false]) { Err("away") } else { Ok(asks.choice(["yes", "no"])) });
        let told = asked.clone();
        world.end_is(move || told.wait().map_or("away", |it| it).into());
        asked
    });
    assert_eq!(ends, ["away", "no", "yes"]);
}

#[test]
fn a_deadlock_names_who_waits_for_what() {
    let report = orders(|world| {
        let request = world.request("order");
        let promise = request.promise::<()>().named("a promise");
        request.supply(move || promise.wait().unwrap()).named("a function")
    });
    assert_eq!(report.failed[0].why, "deadlock: a function waits for a promise");
}

#[test]
fn a_future_that_nobody_wakes_is_told() {
    let report = orders(|world| {
        let request = world.request("order");
        let promise = request.promise::<()>();
        drop(request.spawn(promise).named("a future"));
    });
    assert_eq!(report.failed[0].why, "deadlock: the future of a future is never woken");
}

#[test]
fn a_drop_that_waits_is_told() {
    struct Waits(Stage<()>);
    impl Drop for Waits {
        fn drop(&mut self) {
            drop(self.0.wait());
        }
    }
    let report = orders(|world| {
        let request = world.request("order");
        let (waits, never) = (Waits(request.promise().named("open")), request.promise::<()>());
        let _stage = never.clone().then(move |()| waits.0.is_settled());
        world.calls("somebody", move || never.cancel());
    });
    assert!(report.failed[0].why.contains("waits for open"), "{report}");
}

// Futures.

#[test]
fn a_poll_is_a_move() {
    let report = orders(|world| {
        let (count, request) = (Shared::new(0), world.request("count"));
        let adds = [(); 2].map(|()| {
            let count = count.clone();
            request.spawn(async move {
                let before = *count.get();
                GivesWay(false).await;
                *count.get() = before + 1;
                Ok::<(), Error>(())
            })
        });
        world.end_is(move || count.get().to_string());
        adds
    });
    is_sound(&report);
    assert_eq!(report.ends.into_keys().collect::<Vec<_>>(), ["1", "2"]);
}

#[test]
fn a_future_may_be_dropped_at_each_await() {
    let ends = ends(|world| {
        let (steps, request) = (Shared::new(0), world.request("steps"));
        let (counts, gate) = (steps.clone(), world.arrives(request.promise::<()>(), ()));
        let walks = request.spawn(async move {
            *counts.get() = 1;
            gate.await?;
            *counts.get() = 2;
            Ok::<(), Error>(())
        });
        world.calls("somebody", move || walks.cancel());
        world.end_is(move || steps.get().to_string());
    });
    assert_eq!(ends, ["0", "1", "2"]);
}

/// Between the last poll of a future and its finish, as between those of a function, a cancel may come.
#[test]
fn a_cancel_may_come_between_call_and_finish() {
    type Runs = fn(&Request, Shared<bool>) -> Stage<()>;
    let both: [Runs; 2] = [
        |request, ran| request.supply(move || *ran.get() = true),
        |request, ran| {
            request.spawn(async move {
                *ran.get() = true;
                Ok::<(), Error>(())
            })
        },
    ];
    for runs in both {
        let report = orders(move |world| {
            let ran = Shared::new(false);
            let stage = runs(&world.request("order"), ran.clone());
            let gone = stage.clone();
            world.calls("somebody", move || gone.cancel());
            world.at_end("what ran isn't cancelled", move || !(*ran.get() && stage.wait().is_err()));
        });
        assert!(!report.failed.is_empty());
    }
}

#[test]
fn a_future_that_waits_holds_nobody_up() {
    is_sound(&orders(|world| {
        let request = world.request("order");
        let price = world.arrives(request.promise::<u32>(), 3);
        request.spawn(async move { Ok::<_, Error>(price.wait()? + 1) })
    }));
}

// Faults.

#[test]
fn what_panics_is_told() {
    let report = orders::<()>(|_| panic!("at once"));
    assert_eq!(report.failed[0].why, "the test panicked: at once");
    let report = orders(|world| drop(world.calls::<()>("a caller", || panic!("called"))));
    assert_eq!(report.failed[0].why, "a caller panicked: called");
    let report = orders(|world| world.check("checked", || panic!("looked")));
    assert_eq!(report.failed[0].why, "checked: looked");
    let report = orders(|world| world.request("order").supply::<(), _>(|| panic!("function")).named("a function"));
    assert_eq!(report.failed[0].why, "a function panicked: function");
    let panics = |world: &World| world.request("order").supply::<(), _>(|| panic!("function")).recover(|_| ());
    is_sound(&Orders::new().panics().run(panics));
}

#[test]
fn what_is_never_settled_is_told() {
    assert_eq!(orders(|world| world.request("order").promise::<()>().named("a promise")).failed[0].why, "a promise is never settled");
}

#[test]
fn threads_of_ones_own_are_outside() {
    let report = orders(|world| {
        let promise = world.request("order").promise();
        std::thread::Builder::new().name("mine".into()).spawn(move || promise.complete(1)).unwrap().join().unwrap().unwrap();
    });
    assert_eq!(report.failed[0].why, "the thread mine changed a request: threads of your own are outside the world");
    let report = orders(|world| {
        let (executor, clock) = (world.executor(), world.clock());
        drop(std::thread::spawn(move || Request::with_clock("order", executor, clock).supply(|| 1)).join().unwrap());
    });
    assert!(report.failed[0].why.contains("by a thread of your own"), "{report}");
}

#[test]
fn a_test_that_does_otherwise_is_told() {
    for (at, told) in [(1, "begin.0.0"), (2, "begin.0.0 begin.0.1\nbefore, and now\n    begin.0.0 begin.0.1 begin.0.2")] {
        let numbers = Arc::new(AtomicUsize::new(0));
        let test = move |world: &World| {
            let request = world.request("order");
            let count = if numbers.fetch_add(1, SeqCst) == at { 3 } else { 2 };
            (0..count).map(|_| request.supply(|| ())).collect::<Vec<_>>()
        };
        let said = panics(|| drop(orders(test)));
        assert!(said.starts_with("the test isn't deterministic: ") && said.contains(told), "{said}");
    }
}

#[test]
fn an_order_that_fails_where_it_went_on_before_is_told() {
    let runs = AtomicUsize::new(0);
    let test = move |world: &World| {
        assert!(runs.fetch_add(1, SeqCst) != 4, "the run of the third order");
        let request = world.request("order");
        [(); 3].map(|()| request.supply(|| ()))
    };
    let said = panics(|| drop(orders(test)));
    assert!(said.ends_with("fails, and went on before: the test panicked: the run of the third order"), "{said}");
}

#[test]
fn what_outlives_a_run_is_told() {
    let numbers = Arc::new(AtomicUsize::new(0));
    let test = move |world: &World| {
        let (request, numbers) = (world.request("order"), Arc::clone(&numbers));
        let by = request.clone();
        request.supply(move || numbers.fetch_add(1, SeqCst)).then(move |number| drop((*number > 0).then(|| by.supply(|| ()))))
    };
    assert!(panics(|| drop(orders(test))).starts_with("the test isn't deterministic: "));
}

// What is left out, and that no end is lost by it.

/// How many orders are tried with and without what is left out.
fn counts<A: cf::testing::Awaited>(test: impl Fn(&World) -> A + Clone + Send + Sync + 'static) -> (u64, u64) {
    let (reduced, all) = (orders(test.clone()), Orders::new().time(LIMIT).all().run(test));
    is_sound(&reduced);
    is_sound(&all);
    (reduced.orders, all.orders)
}

#[test]
fn functions_of_which_nothing_is_known() {
    let two = |world: &World| {
        let request = world.request("order");
        [request.supply(|| ()), request.supply(|| ())]
    };
    assert_eq!(counts(two), (2, 20));
}

#[test]
fn functions_that_touch_different_things() {
    let two = |marks: [&'static [&'static str]; 2]| {
        move |world: &World| {
            let request = world.request("order");
            let both = [request.supply(|| ()), request.supply(|| ())];
            both.iter().zip(marks).for_each(|(stage, marks)| world.touches(stage, marks));
            both
        }
    };
    assert_eq!(counts(two([&[], &[]])), (1, 20));
    assert_eq!(counts(two([&["a"], &["b"]])), (1, 20));
    assert_eq!(counts(two([&["a"], &["a"]])), (2, 20));
}

#[test]
fn what_a_function_reads() {
    let reads: [fn(&Request, &Stage<()>); 3] = [
        |_, stage| assert!(stage.is_settled() || stage.peek().is_none()),
        |_, stage| assert!(stage.peek().map_or(true, |told| told.is_err())),
        |request, _| assert!(request.history().is_reproducible()),
    ];
    // A history shows both promises.
    for (read, wanted) in reads.into_iter().zip([2, 2, 4]) {
        let test = move |world: &World| {
            let request = world.request("order");
            let promises = [request.promise::<()>(), request.promise::<()>()];
            for promise in promises.clone() {
                world.calls("somebody", move || promise.cancel()).pure();
            }
            let (by, reads) = (request.clone(), promises[0].clone());
            let stage = request.supply(move || read(&by, &reads));
            world.touches(&stage, &["own"]);
            (promises, stage)
        };
        assert_eq!(counts(test).0, wanted);
    }
}

/// What orders come to, and why some fail: the same with and without what is left out, by any number of workers and by one.
fn both_ways<A: cf::testing::Awaited>(test: impl Fn(&World) -> A + Clone + Send + Sync + 'static) -> (Vec<String>, Vec<String>) {
    let told = |orders: Orders| {
        let report = orders.failures(usize::MAX).as_found().time(LIMIT).run(test.clone());
        assert!(report.whole, "{report}");
        let mut why: Vec<String> = report.failed.into_iter().map(|failure| failure.why).collect();
        why.sort();
        why.dedup();
        (report.ends.into_keys().collect(), why)
    };
    let all = told(Orders::new().all());
    for orders in [Orders::new(), Orders::new().workers(1)] {
        assert_eq!(told(orders), all);
    }
    all
}

/// The ends of three callers' calls, which fail once so many of them have come and the first was that of caller a.
fn ends_unless_a_is_first(calls: usize) -> Vec<String> {
    let (ends, why) = both_ways(move |world| {
        let called = Shared::new(Vec::new());
        for name in ["a", "b", "c"] {
            let called = called.clone();
            world.calls(name, move || called.get().push(name));
        }
        let sees = called.clone();
        world.check("a isn't the first", move || sees.get().len() < calls || sees.get()[0] != "a");
        world.end_is(move || called.get().concat());
    });
    assert_eq!(why, ["a isn't the first"]);
    ends
}

/// An order that fails has no more moves, and the others of its place lead elsewhere.
#[test]
fn what_an_order_that_fails_takes_away() {
    assert_eq!(ends_unless_a_is_first(1), ["bac", "bca", "cab", "cba"]);
}

/// All orders fail that begin as the first one does.
#[test]
fn what_an_order_that_fails_races_with() {
    assert_eq!(ends_unless_a_is_first(2), ["bac", "bca", "cab", "cba"]);
}

/// A function that panics, one that waits for good, a stage that stays open and what has to hold at the end.
#[test]
fn orders_that_fail_in_other_ways() {
    type Makes = fn(&World, Shared<bool>, &Request) -> Vec<Stage<()>>;
    let tests: [(Makes, &str); 4] = [
        (|_, is_set, request| vec![request.supply(move || assert!(*is_set.get(), "not yet"))], "panicked: not yet"),
        (
            |_, is_set, request| {
                let promise = request.promise::<()>().named("a promise");
                vec![request.supply(move || {
                    let was_set = *is_set.get();
                    if was_set {
                        promise.complete(()).unwrap()
                    } else {
                        promise.wait().unwrap()
                    }
                })]
            },
            "waits for a promise",
        ),
        (
            |_, is_set, request| {
                let promise = request.promise().named("a promise");
                let completes = promise.clone();
                vec![
                    promise,
                    request.supply(move || {
                        if *is_set.get() {
                            completes.complete(()).unwrap()
                        }
                    }),
                ]
            },
            "a promise is never settled",
        ),
        (
            |world, is_set, request| {
                let was_set = Shared::new(false);
                let sees = was_set.clone();
                world.at_end("it was set", move || *was_set.get());
                vec![request.supply(move || *sees.get() = *is_set.get())]
            },
            "it was set",
        ),
    ];
    for (make, wanted) in tests {
        let (ends, why) = both_ways(move |world| {
            let (request, is_set) = (world.request("order"), Shared::new(false));
            let made = make(world, is_set.clone(), &request);
            let sets = is_set.clone();
            world.calls("sets", move || *sets.get() = true);
            world.end_is(move || is_set.get().to_string());
            made
        });
        assert!(ends == ["true"] && why.len() == 1 && why[0].contains(wanted), "{ends:?} {why:?}");
    }
}

/// What arrives behind a change touches nothing of it, and would have come to something else before it.
#[test]
fn an_arrival_that_comes_too_late() {
    let ends = ends(|world| {
        let request = world.request("order");
        let price = world.arrives(request.promise(), 3);
        let completes = price.clone();
        world.end_is(move || price.wait().unwrap().to_string());
        request.supply(move || completes.complete(1).is_ok())
    });
    assert_eq!(ends, ["1", "3"]);
}

#[test]
fn a_relay_that_was_let_go() {
    let ends = ends(|world| {
        let (one, other) = (world.request("one"), world.request("other"));
        let price = world.arrives(one.promise(), 3);
        let relay = other.adopt(&price);
        let completes = relay.clone();
        world.end_is(move || relay.wait().unwrap().to_string());
        let stage = other.supply(move || completes.complete(1).is_ok());
        world.pure(&stage);
        stage
    });
    assert_eq!(ends, ["1", "3"]);
}

#[test]
fn what_a_check_reads() {
    // The first one reads both from the start, and the second one reads stage one only once stage two is settled.
    type Holds = fn(&Stage<()>, &Stage<()>) -> bool;
    let checks: [Holds; 2] = [|one, two| one.is_settled() || !two.is_settled(), |one, two| !two.is_settled() || one.is_settled()];
    for holds in checks {
        let report = orders(move |world| {
            let request = world.request("order");
            let [one, two] = [(); 2].map(|()| world.arrives(request.promise(), ()));
            world.check("one before two", move || holds(&one, &two));
        });
        assert!(!report.failed.is_empty());
    }
}

#[test]
fn limits_of_different_requests() {
    let three = |world: &World| [1, 2, 3].map(|seconds| world.request("order").promise().complete_on_timeout(1, seconds * SECOND));
    assert_eq!(counts(three), (1, 6));
}

#[test]
fn limits_of_one_request_come_in_due_order() {
    is_sound(&orders(|world| {
        let (came, request) = (Shared::new(Vec::new()), world.request("order"));
        let stages = [3, 1, 2].map(|seconds| request.promise().complete_on_timeout(seconds, seconds * SECOND));
        let looks = stages.clone();
        let comes = came.clone();
        world.check("noted", move || {
            let mut came = comes.get();
            let new: Vec<u32> = looks.iter().filter_map(|stage| stage.peek()).map(Result::unwrap).filter(|it| !came.contains(it)).collect();
            came.extend(new);
            true
        });
        world.at_end("in due order", move || *came.get() == [1, 2, 3]);
        stages
    }));
}

#[test]
fn what_need_not_come() {
    for has_limit in [true, false] {
        let ends = ends(move |world| {
            let news = world.may(world.request("news").promise(), 1);
            let news = if has_limit { news.complete_on_timeout(0, SECOND) } else { news };
            world.end_is(move || format!("{:?}", news.peek().map(Result::unwrap)));
        });
        assert_eq!(ends, if has_limit { ["Some(0)", "Some(1)"] } else { ["None", "Some(1)"] });
    }
}

#[test]
fn requests_that_functions_open() {
    let ends = ends(|world| {
        let request = world.request("order");
        for number in [1, 2] {
            let opens = world.clone();
            let stage = request.supply(move || drop(opens.request(&number.to_string())));
            world.pure(&stage);
        }
        let names = world.clone();
        world.end_is(move || names.outcomes().len().to_string());
    });
    assert_eq!(ends, ["2"]);
}

// Points.

#[test]
fn fine_lets_others_go_on_at_each_change() {
    let test = |world: &World| {
        let (seen, request) = (Shared::new(false), world.request("order"));
        let sees = seen.clone();
        drop(request.supply(move || *sees.get() = true));
        drop(request.promise::<()>());
        assert!(!*seen.get(), "the function was called before the test went on");
    };
    is_sound(&orders(test));
    assert!(!Orders::new().fine().run(test).failed.is_empty());
}

// Code that opens its requests itself.

struct Shop(Arc<dyn Spawn>, Arc<dyn Clock>);

impl Shop {
    fn order(&self) -> Stage<u32> {
        let request = Request::with_clock("order", Arc::clone(&self.0), Arc::clone(&self.1));
        let begun = self.1.now();
        let price = request.promise::<u32>().complete_on_timeout(49, SECOND);
        let clock = Arc::clone(&self.1);
        price.then(move |price| *price + (clock.now() - begun).as_secs() as u32)
    }
}

#[test]
fn a_shop_has_the_executor_and_the_clock() {
    let ends = ends(|world| {
        let paid = Shop(world.executor(), world.clock()).order();
        let told = paid.clone();
        world.end_is(move || told.wait().unwrap().to_string());
        paid
    });
    assert_eq!(ends, ["50"]);
}

// At home in a test.

#[test]
fn a_sound_service() {
    every_order(|world| charged_twice(world, true));
    Orders::new().whole().time(5 * SECOND).every_order(|world| charged_twice(world, true));
}

#[test]
fn it_panics_with_the_story() {
    assert!(panics(|| every_order(charged)).contains("charged at most once: not so in this order of 6 moves"));
    assert!(panics(|| Orders::new().most(0).every_order(|world| charged_twice(world, true))).starts_with("0 orders, which aren't all"));
    let bounded = Orders::new().whole().most(2);
    assert!(panics(|| bounded.every_order(|world| overdrawn(world, true))).contains("which aren't all"));
}

/// A run leaves nothing in memory, though functions that were never called have their own request.
#[test]
fn runs_leave_nothing() {
    let left = Arc::new(());
    let held = Arc::clone(&left);
    let report = orders(move |world| {
        let (request, held) = (world.request("order"), Arc::clone(&held));
        let by = request.clone();
        let never = request.promise::<()>().then(move |()| (by.name().len(), Arc::strong_count(&held)));
        let waits = never.clone();
        drop(request.supply(move || waits.wait().is_ok()));
    });
    assert!(report.failed[0].why.starts_with("deadlock"), "{report}");
    assert_eq!(Arc::strong_count(&left), 1);
}

#[test]
fn each_part_of_what_a_test_gives_back_has_to_be_settled() {
    for open in 0..3 {
        let parts = move |world: &World, part: usize| {
            let promise = world.request("order").promise::<()>().named(format!("part {part}"));
            assert!(part == open || promise.complete(()).is_ok());
            promise
        };
        let never = format!("part {open} is never settled");
        assert_eq!(orders(move |world| (parts(world, 0), parts(world, 1), parts(world, 2))).failed[0].why, never);
        if open < 2 {
            assert_eq!(orders(move |world| (parts(world, 0), parts(world, 1))).failed[0].why, never);
        }
    }
}

/// Two calls of one caller come one right behind the other, also where the first of them begins the order.
#[test]
fn each_failing_order_is_told_with_the_fewest_switches() {
    let report = Orders::new().time(LIMIT).all().failures(usize::MAX).run(|world| {
        let called = Shared::new(String::new());
        for (name, calls) in [("a", 2), ("c", 1), ("b", 1)] {
            let push = || {
                let called = called.clone();
                move || called.get().push_str(name)
            };
            let caller = world.calls(name, push());
            drop((1..calls).fold(caller, |caller, _| caller.and_then(push())));
        }
        world.at_end("not first a, and b before c", move || !["aabc", "abac", "abca"].contains(&&**called.get()));
    });
    assert_eq!(report.failed.iter().map(|failure| failure.switches()).collect::<Vec<_>>(), [2; 3]);
    assert_eq!(report.failed[0].told.iter().map(|it| &*it.text).collect::<Vec<_>>(), ["a, call 1", "a, call 2", "b", "c"]);
}

/// Who has waited too long goes on behind that. So it decides who goes on first, and the limit doesn't.
#[test]
fn who_has_waited_too_long_decides_and_the_limit_does_not() {
    let report = orders(|world| {
        let (gave_up, request) = (Shared::new(false), world.request("order"));
        let price = world.arrives(request.promise::<u32>().named("price"), 3);
        let (waits, gives_up) = (price.clone(), gave_up.clone());
        drop(request.supply(move || *gives_up.get() = waits.wait_timeout(SECOND).is_none()).named("asks"));
        world.check("no price comes too late", move || !(*gave_up.get() && price.is_settled()));
    });
    let failure = &report.failed[0];
    let told: Vec<&str> = failure.told.iter().map(|it| &*it.text).collect();
    let decide: Vec<[&str; 2]> = failure.pairs.iter().map(|pair| [told[pair.first], told[pair.second]]).collect();
    assert_eq!(decide, [["asks goes on", "price comes: 3"]], "{failure}");
}

/// The pairs of its moves that decide are told, too.
#[test]
fn an_order_alone_reads_like_the_same_story() {
    let failure = orders(charged).failed.remove(0);
    assert_eq!(Orders::new().row(&failure.row()).run(charged).failed[0].to_string(), failure.to_string());
}

/// Nobody looks at it any more.
#[test]
fn a_request_may_be_used_behind_its_run() {
    let kept = Shared::new(None);
    let keeps = kept.clone();
    is_sound(&orders(move |world| *keeps.get() = Some(world.request("order"))));
    let promise = kept.get().take().unwrap().promise::<i32>();
    assert_eq!((promise.complete(1), promise.wait().unwrap()), (Ok(()), 1));
}

#[test]
fn no_more_than_twenty_failures_are_made_smaller_and_told() {
    let report = Orders::new().time(LIMIT).all().failures(usize::MAX).run(|world| {
        ["a", "b", "c", "d"].iter().for_each(|name| drop(world.calls(name, || ())));
        world.at_end("never so", || false);
    });
    assert_eq!((report.orders, report.failed.len()), (24, 20));
}
