//! What the layer promises in every order of calls: who settles a stage, what is behind it, what becomes of its future, and what is told meanwhile.
use super::{ends, is_sound, SECOND};
use crate::services::{GivesWay, Shared};
use cf::testing::orders;
use cf::{Describe, Error, Retry};
use std::sync::Arc;

fn told<T: ToString>(outcome: Result<T, Error>) -> String {
    outcome.map_or_else(|error| error.to_string(), |value| value.to_string())
}

/// Of a function, a limit and four callers one settles a stage, and what is behind it ends as it does. A function is called once or never, and one
/// that ends too late changes nothing.
#[test]
fn one_settles_a_stage() {
    let ends = ends(|world| {
        let (ran, won) = (Shared::new(0), Shared::new(Vec::new()));
        let runs = ran.clone();
        let count = move || {
            *runs.get() += 1;
            1
        };
        let stage = world.request("raced").supply(count).or_timeout(SECOND);
        let behind = stage.clone().then(|number| *number);
        world.pure(&behind);
        for number in [2, 3] {
            let (stage, won) = (stage.clone(), won.clone());
            world.calls("completes", move || match stage.complete(number) {
                Ok(()) => won.get().push(number.to_string()),
                Err(back) => assert_eq!(back, number),
            });
        }
        let (fails, cancels, fail_wins, cancel_wins) = (stage.clone(), stage.clone(), won.clone(), won.clone());
        world.calls("fails", move || fails.fail("lost").then(|| fail_wins.get().push("lost".into())));
        world.calls("cancels", move || cancels.cancel().then(|| cancel_wins.get().push("cancelled".into())));
        let (outcome, ends) = (stage.clone(), behind.clone());
        world.at_end("what is behind ends as the stage", move || told(outcome.wait()) == told(ends.wait()));
        let outcome = stage.clone();
        world.at_end("who is told to have settled it did", move || {
            let by_a_caller = Some(told(outcome.wait())).filter(|outcome| outcome != "1" && !outcome.starts_with("timed out"));
            *won.get() == by_a_caller.into_iter().collect::<Vec<_>>()
        });
        world.end_is(move || format!("{}, ran {}", told(stage.wait()), ran.get()));
        behind
    });
    let mut wanted = vec!["1, ran 1".to_owned()];
    for outcome in ["2", "3", "cancelled", "lost", "timed out after 1s"] {
        wanted.extend([0, 1].map(|ran| format!("{outcome}, ran {ran}")));
    }
    assert_eq!(ends, wanted);
}

/// The first of three to come decides, one of which stands for a stage of another request, and one fails.
#[test]
fn the_first_to_come_decides() {
    let ends = ends(|world| {
        let (request, other) = (world.request("first"), world.request("other"));
        let near = world.arrives(request.promise(), 1);
        let sources = [near.clone(), world.arrives(other.promise(), 2), world.fails(request.promise(), "lost")];
        let (first, either) = (request.first_of(&sources), near.either(&sources[1], |number| number * 10));
        let (mut came, decides) = (None, first.clone());
        world.check("the first to come decides", move || {
            came = came.or_else(|| sources.iter().position(|source| source.is_settled()));
            decides.peek().map(told) == came.and_then(|at| sources[at].peek().map(told))
        });
        let by_function = either.clone();
        world.end_is(move || format!("{} {}", told(first.wait()), told(by_function.wait())));
        either
    });
    assert_eq!(ends, ["1 10", "2 20", "lost 10", "lost 20"]);
}

/// Whichever of two comes first is the first success, whenever a third one fails, and with two of these three all that are wanted are there.
#[test]
fn the_first_to_succeed_decides() {
    let ends = ends(|world| {
        let (request, other) = (world.request("first"), world.request("other"));
        let sources = [world.arrives(request.promise(), 1), world.arrives(other.promise(), 2), world.fails(request.promise(), "lost")];
        let (first, votes) = (request.first(&sources), request.quorum(2, &sources).then(|some| some.iter().sum::<i32>()));
        let both = votes.clone();
        world.end_is(move || format!("{} {}", told(first.wait()), told(both.wait())));
        votes
    });
    assert_eq!(ends, ["1 3", "2 3"]);
}

/// A future goes once its stage is settled, wherever it stands: it isn't polled any more, and is dropped.
#[test]
fn a_future_goes_with_its_stage() {
    struct Drops(Shared<bool>);
    impl Drop for Drops {
        fn drop(&mut self) {
            *self.0.get() = true;
        }
    }
    for by_limit in [false, true] {
        let ends = ends(move |world| {
            let (steps, is_gone) = (Shared::new(0), Shared::new(false));
            let (counts, drops) = (steps.clone(), Drops(is_gone.clone()));
            let stage = world.request("future").spawn(async move {
                let _drops = drops;
                for _ in 0..2 {
                    *counts.get() += 1;
                    GivesWay(false).await;
                }
                *counts.get() += 1;
                Ok::<i32, Error>(7)
            });
            if by_limit {
                drop(stage.clone().or_timeout(SECOND));
            } else {
                let gone = stage.clone();
                world.calls("cancels", move || drop(gone.cancel_on_drop()));
            }
            let (settled, walked, mut last) = (stage.clone(), steps.clone(), None);
            world.check("not polled once its stage is settled", move || {
                let steps = *walked.get();
                !settled.is_settled() || *last.get_or_insert(steps) == steps
            });
            world.at_end("dropped", move || *is_gone.get());
            let outcome = stage.clone();
            world.end_is(move || format!("{} {}", steps.get(), outcome.wait().is_ok()));
            stage
        });
        assert_eq!(ends, ["0 false", "1 false", "2 false", "3 false", "3 true"], "by a limit: {by_limit}");
    }
}

/// A scope that is left at any moment leaves nothing open: what isn't settled by then is cancelled.
#[test]
fn a_scope_leaves_nothing_open() {
    let ends = ends(|world| {
        let scope = world.request("scope").scope();
        let price = world.arrives(scope.promise(), 49);
        let doubled = price.clone().then(|price| price * 2);
        world.calls("leaves", move || drop(scope));
        let outcomes = (price.clone(), doubled.clone());
        world.end_is(move || format!("{} {}", told(outcomes.0.wait()), told(outcomes.1.wait())));
        (price, doubled)
    });
    assert_eq!(ends, ["49 98", "49 cancelled", "cancelled cancelled"]);
}

/// A handler asks two backends, takes the first success or else what it knows, and has a deadline; somebody may leave. Behind the end of its scope nothing
/// of it is open, and no function of it begins.
#[test]
fn nothing_outlives_a_scope() {
    const CLAIM: u64 = 4;
    let ends = ends(|world| {
        let request = world.request("handler");
        let scope = Arc::new(request.scope().deadline(SECOND));
        let quotes = [world.arrives_or_fails(scope.promise(), 49, "away"), scope.try_supply(|| Err("no stock"))];
        let inner = scope.scope();
        let within = inner.promise::<i32>();
        let best = scope.ends_with(scope.first(&quotes).recover(|_| 52));
        let leaves = Arc::clone(&scope);
        world.calls("leaves", move || leaves.end());
        let (ended, all) = (Arc::clone(&scope), [&quotes[0], &quotes[1], &best, &within].map(Clone::clone));
        world.check("nothing of the scope is open", move || {
            ended.ended().is_none() || (inner.ended().is_some() && all.iter().all(|it| it.is_settled()))
        });
        world.at_end("no function begins behind the end of the scope", move || {
            let words: Vec<(u64, u64)> = request.history().words().iter().map(|word| (word >> 56, word >> 36 & 4095)).collect();
            let end = words.iter().position(|(kind, stage)| *stage == 0 && matches!(kind, 3 | 8)).unwrap_or(words.len());
            words[end..].iter().all(|(kind, _)| *kind != CLAIM)
        });
        let outcome = best.clone();
        world.end_is(move || format!("{} {}", told(outcome.wait()), scope.ended().map_or_else(String::new, |error| error.to_string())));
        best
    });
    assert_eq!(ends, ["49 cancelled", "52 cancelled", "cancelled cancelled", "cancelled timed out after 1s"]);
}

/// Tries and their pauses, one of which is cut off by whoever cancels them.
#[test]
fn tries_end_with_their_stage() {
    let ends = ends(|world| {
        let (request, asked) = (world.request("tries"), Shared::new(0));
        let asks = asked.clone();
        let tried = request.retry(Retry::times(2).delay(SECOND), move || {
            *asks.get() += 1;
            Err::<i32, _>("away")
        });
        let stage = tried.clone();
        world.calls("cancels", move || stage.cancel());
        let (outcome, settled) = (tried.clone(), request.clone());
        world.at_end("nothing is open", move || settled.history().line().ends_with("; 0 open"));
        world.end_is(move || format!("{} {}", asked.get(), told(outcome.wait())));
        tried
    });
    assert_eq!(ends, ["0 cancelled", "1 cancelled", "2 away", "2 cancelled"]);
}

/// A history that is taken between any two moves comes again, and goes on where the one before ended.
#[test]
fn a_history_goes_on() {
    let report = orders(|world| {
        let (request, other) = (world.request("meanwhile").described(Describe::Types), world.request("other"));
        let price = world.arrives_or_fails(other.promise(), 49, "away");
        let doubled = request.adopt(&price).then(|price| price * 2).or_timeout(SECOND);
        let by = request.clone();
        let composed = doubled.clone().compose(move |price| {
            let price = *price;
            by.supply(move || price + 1)
        });
        world.calls("somebody", move || doubled.cancel());
        let mut last = Vec::new();
        world.check("it comes again and goes on", move || {
            let history = request.history();
            let goes_on = history.words().starts_with(&last);
            last = history.words().to_vec();
            goes_on && history.is_reproducible() && history.to_string().starts_with("meanwhile: ")
        });
        composed
    });
    is_sound(&report);
    assert!(report.orders > 3, "{report}");
}
