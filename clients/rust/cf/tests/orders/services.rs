//! Twenty services with a fault of order, and the same twenty without it. Each is a test of `cf::testing`: called with a world, and whether it is
//! the sound one.
use cf::testing::{Orders, Report, World};
use cf::{Error, Request, Stage};
use std::collections::{BTreeSet, VecDeque};
use std::future::Future;
use std::pin::Pin;
use std::sync::{Arc, Mutex, MutexGuard, PoisonError};
use std::task::{Context, Poll};
use std::time::Duration;

/// What functions share.
pub struct Shared<T>(Arc<Mutex<T>>);

impl<T> Clone for Shared<T> {
    fn clone(&self) -> Shared<T> {
        Shared(Arc::clone(&self.0))
    }
}

impl<T> Shared<T> {
    pub fn new(value: T) -> Shared<T> {
        Shared(Arc::new(Mutex::new(value)))
    }

    pub fn get(&self) -> MutexGuard<'_, T> {
        self.0.lock().unwrap_or_else(PoisonError::into_inner)
    }
}

/// Gives way once.
pub struct GivesWay(pub bool);

impl Future for GivesWay {
    type Output = ();

    fn poll(mut self: Pin<&mut Self>, cx: &mut Context<'_>) -> Poll<()> {
        if std::mem::replace(&mut self.0, true) {
            return Poll::Ready(());
        }
        cx.waker().wake_by_ref();
        Poll::Pending
    }
}

const SECOND: Duration = Duration::from_secs(1);

// A payment that takes too long is tried again.

pub fn charged_twice(world: &World, is_sound: bool) -> Stage<u32> {
    let charges = Shared::new(Vec::new());
    let (once, again) = (charges.clone(), charges.clone());
    let charge = move |charges: &Shared<Vec<u32>>, cents| {
        let mut charges = charges.get();
        if !is_sound || charges.is_empty() {
            charges.push(cents);
        }
        cents
    };
    let price = world.arrives(world.request("order 17").promise().named("price"), 4900);
    let paid = price.then(move |cents| charge(&once, *cents)).named("charge").or_timeout(2 * SECOND);
    world.check("charged at most once", move || charges.get().len() <= 1);
    paid.recover(move |_| charge(&again, 4900)).named("charge again")
}

// A second backend is asked where the first one is slow. Each answer holds a connection until it is given back.

fn loser_keeps_connection(world: &World, is_sound: bool) -> Vec<Stage<&'static str>> {
    let (held, request) = (Shared::new(Vec::new()), world.request("hedge"));
    let asks = |name: &'static str| {
        let held = held.clone();
        move || {
            held.get().push(name);
            name
        }
    };
    let gives_back = || {
        let held = held.clone();
        move |name: &&'static str| {
            held.get().retain(|it| it != name);
            *name
        }
    };
    let (ask_one, ask_two) = (asks("one"), asks("two"));
    let one = request.supply(ask_one).named("ask one");
    let two = request.promise::<()>().named("timer").complete_on_timeout((), SECOND / 10).then(move |()| ask_two()).named("ask two");
    let left = held.clone();
    world.at_end("no connection is left", move || left.get().is_empty());
    if is_sound {
        return vec![one.then(gives_back()), two.then(gives_back())];
    }
    vec![request.first_of([&one, &two]).then(gives_back())]
}

// A cache is filled by a load that began before what it holds was changed.

fn stale_cache(world: &World, is_sound: bool) -> Stage<()> {
    let (source, cache) = (Shared::new((1, 1)), Shared::new(None));
    let (loads, sees, changes, kept, clears) = (source.clone(), source.clone(), source.clone(), cache.clone(), cache.clone());
    let load = world.request("cache").supply(move || *loads.get()).named("load");
    let keep = load.then(move |loaded| {
        if !is_sound || loaded.1 == sees.get().1 {
            *kept.get() = Some(loaded.0);
        }
    });
    world.calls("an update", move || {
        *changes.get() = (2, 2);
        *clears.get() = None;
    });
    world.at_end("the cache isn't stale", move || cache.get().map_or(true, |value| value == source.get().0));
    keep
}

// An order is cancelled while its function runs.

fn cancelled_and_shipped(world: &World, is_sound: bool) {
    let (told, shipped) = (Shared::new(false), Shared::new(false));
    let (asks, tells, ships, looks) = (told.clone(), told.clone(), shipped.clone(), shipped.clone());
    let ship = world.request("order").supply(move || *ships.get() = !(is_sound && *asks.get())).named("ship");
    world.calls("the client", move || {
        if ship.cancel() {
            *tells.get() = !(is_sound && *looks.get());
        }
    });
    world.at_end("what is told to be cancelled isn't shipped", move || !(*told.get() && *shipped.get()));
}

// Two functions count in two steps.

fn lost_count(world: &World, is_sound: bool) -> [Stage<()>; 2] {
    let (count, request) = (Shared::new(0), world.request("count"));
    let adds = |name| {
        let (count, world) = (count.clone(), world.clone());
        let add = move || {
            let before = *count.get();
            if !is_sound {
                world.point();
            }
            *count.get() = before + 1;
        };
        request.supply(add).named(name)
    };
    let both = [adds("one"), adds("two")];
    world.at_end("both are counted", move || *count.get() == 2);
    both
}

// A reader that finds nothing leaves a promise to be woken by, and the writer has been there before.

fn lost_wake(world: &World, is_sound: bool) -> Stage<()> {
    let (items, waiting) = (Shared::new(VecDeque::new()), Shared::new(Vec::new()));
    let request = world.request("queue");
    let woken = request.promise::<&str>().named("woken");
    let (reads, leaves, points, wakes) = (items.clone(), waiting.clone(), world.clone(), woken.clone());
    let reader = request.supply(move || {
        if reads.get().pop_front().is_some() {
            return;
        }
        points.point();
        leaves.get().push(wakes.clone());
        let item = if is_sound { reads.get().pop_front() } else { None };
        item.into_iter().for_each(|item| wakes.complete(item).unwrap());
    });
    let wakes = waiting.clone();
    world.calls("a writer", move || {
        items.get().push_back("x");
        if let Some(waits) = wakes.get().pop() {
            items.get().pop_front().into_iter().for_each(|item| waits.complete(item).unwrap());
        }
    });
    world.at_end("a reader that waits is woken", move || woken.is_settled() || waiting.get().is_empty());
    reader.named("reader")
}

// The winner of two closes what the loser still uses.

fn closed_by_winner(world: &World, is_sound: bool) -> (Vec<Stage<()>>, Stage<()>) {
    let (is_open, request) = (Shared::new(true), world.request("file"));
    let reads = |name: &'static str| {
        let is_open = is_open.clone();
        request.supply(move || assert!(*is_open.get(), "the file is closed")).named(name)
    };
    let both = vec![reads("head"), reads("tail")];
    let done = if is_sound { request.all_of([&both[0] as &dyn cf::AnyStage, &both[1]]) } else { request.first_of(&both) };
    (both, done.then(move |()| *is_open.get() = false).named("close"))
}

// Two functions take two locks.

/// A lock whose owners wait by stages.
#[derive(Clone)]
struct Lock(Request, &'static str, Shared<Option<Stage<()>>>);

impl Lock {
    fn take(&self) {
        loop {
            let held = self.2.get().clone();
            match held {
                Some(holder) => holder.wait().unwrap(),
                None => break,
            }
        }
        *self.2.get() = Some(self.0.promise().named(self.1));
    }

    fn free(&self) {
        let holder = self.2.get().take();
        holder.unwrap().complete(()).unwrap();
    }
}

fn opposite_locks(world: &World, is_sound: bool) -> [Stage<()>; 2] {
    let request = world.request("transfer");
    let [one, two] = ["account 1", "account 2"].map(|name| Lock(request.clone(), name, Shared::new(None)));
    let transfers = |first: &Lock, second: &Lock, name| {
        let (first, second, world) = (first.clone(), second.clone(), world.clone());
        let transfer = move || {
            first.take();
            world.point();
            second.take();
            second.free();
            first.free();
        };
        request.supply(transfer).named(name)
    };
    [transfers(&one, &two, "there"), if is_sound { transfers(&one, &two, "back") } else { transfers(&two, &one, "back") }]
}

// A function of a service with one worker waits for another function of it.

fn waits_in_pool(world: &World, is_sound: bool) -> Vec<Stage<i32>> {
    let request = world.request("report");
    let part = request.promise::<()>().named("go");
    let whole = part.clone().then(|()| 1).named("part");
    world.calls("a click", move || part.complete(()));
    if is_sound {
        return vec![whole.then(|it| it + 1)];
    }
    let waits = whole.clone();
    vec![whole, request.supply(move || waits.wait().unwrap() + 1).named("sum")]
}

// A default is told after a while, and the late answer is written down all the same.

fn told_otherwise(world: &World, is_sound: bool) -> Stage<i32> {
    let written = Shared::new(None);
    let rate = world.arrives(world.request("rate").promise().named("rate"), 7);
    let writes = |written: &Shared<Option<i32>>| {
        let written = written.clone();
        move |rate: &i32| *written.get().get_or_insert(*rate)
    };
    let told = if is_sound {
        rate.complete_on_timeout(5, SECOND).then(writes(&written))
    } else {
        drop(rate.clone().then(writes(&written)));
        rate.then(|rate| *rate).complete_on_timeout(5, SECOND)
    };
    let tells = told.clone();
    world.at_end("what is told is what is written", move || tells.wait().ok() == *written.get());
    told.named("told")
}

// Of two replicas one fails.

fn failure_first(world: &World, is_sound: bool) -> Stage<bool> {
    let request = world.request("replicas");
    let one = world.arrives(request.promise().named("one"), 1);
    let two = world.fails(request.promise::<i32>().named("two"), "an outage");
    let answer = if is_sound { two.recover_compose(move |_| one) } else { request.first_of([&one, &two]) };
    let told = answer.handle(|answer| answer.is_ok());
    let tells = told.clone();
    world.at_end("one good answer is enough", move || tells.wait().unwrap());
    told
}

// Two parts are to be written together or not at all.

fn half_written(world: &World, is_sound: bool) -> Vec<Stage<()>> {
    let (written, request) = (Shared::new(Vec::new()), world.request("both"));
    let parts = ["flight", "hotel"].map(|name| world.arrives_or_fails(request.promise().named(name), name, "an outage"));
    let ends = if is_sound {
        let writes = written.clone();
        vec![request.gather(&parts).then(move |parts| writes.get().extend(parts.iter().copied())).handle(|_| ())]
    } else {
        let writes = |part: Stage<&'static str>| {
            let written = written.clone();
            part.then(move |part| written.get().push(*part)).handle(|_| ())
        };
        parts.into_iter().map(writes).collect()
    };
    world.at_end("both are written or none", move || [0, 2].contains(&written.get().len()));
    ends
}

// What is made on the first use is made twice.

fn made_twice(world: &World, is_sound: bool) -> Vec<Stage<()>> {
    let (made, kept, stage) = (Shared::new(0), Shared::new(None), Shared::new(None));
    let request = world.request("pool");
    let uses = || {
        let (made, kept, stage, world, request) = (made.clone(), kept.clone(), stage.clone(), world.clone(), request.clone());
        let connects = move || {
            *made.get() += 1;
            "a connection"
        };
        move || {
            if is_sound {
                stage.get().get_or_insert_with(|| request.supply(connects));
                return;
            }
            let is_there = kept.get().is_some();
            if !is_there {
                world.point();
                *kept.get() = Some(connects());
            }
        }
    };
    world.calls("one user", uses());
    world.calls("another user", uses());
    let first = if is_sound { Vec::new() } else { vec![request.supply(uses()).named("first use"), request.supply(uses()).named("second use")] };
    world.at_end("one is made", move || *made.get() == 1);
    first
}

// Two messages of one sender come, and the later one may come first.

fn older_overwrites(world: &World, is_sound: bool) -> [Stage<()>; 2] {
    let (version, request) = (Shared::new(0), world.request("profile"));
    let stores = [1, 2].map(|number| {
        let version = version.clone();
        world.arrives(request.promise().named(format!("message {number}")), number).then(move |number| {
            let mut version = version.get();
            if !is_sound || *number > *version {
                *version = *number;
            }
        })
    });
    world.at_end("the last message stands", move || *version.get() == 2);
    stores
}

// Two withdrawals look at the balance in one function, and take from it in the next.

pub fn overdrawn(world: &World, is_sound: bool) -> [Stage<()>; 2] {
    let (cents, request) = (Shared::new(100), world.request("account"));
    let takes = [1, 2].map(|number| {
        let (looks, takes) = (cents.clone(), cents.clone());
        let look = request.supply(move || *looks.get() >= 80).named(format!("look {number}"));
        let take = look.then(move |is_enough| {
            let mut cents = takes.get();
            if *is_enough && (!is_sound || *cents >= 80) {
                *cents -= 80;
            }
        });
        take.named(format!("take {number}"))
    });
    world.check("never overdrawn", move || *cents.get() >= 0);
    takes
}

// A listener that has unsubscribed is told.

fn told_after_end(world: &World, is_sound: bool) -> Stage<()> {
    let is_on = Shared::new(true);
    let leaves = is_on.clone();
    let told = world.arrives(world.request("news").promise().named("news"), "news").then(move |_| {
        let is_on = *is_on.get();
        assert!(is_on || is_sound, "told after its end");
    });
    world.calls("the listener leaves", move || *leaves.get() = false);
    told.named("tell")
}

// Futures that give way.

/// A lock that futures wait for.
#[derive(Clone)]
struct Turns(Request, Shared<(bool, VecDeque<Stage<()>>)>);

impl Turns {
    async fn take(&self) {
        loop {
            let turn = {
                let mut held = self.1.get();
                if !std::mem::replace(&mut held.0, true) {
                    return;
                }
                let turn = self.0.promise::<()>().named("a turn");
                held.1.push_back(turn.clone());
                turn
            };
            turn.await.unwrap();
        }
    }

    fn free(&self) {
        let next = {
            let mut held = self.1.get();
            held.0 = false;
            held.1.pop_front()
        };
        next.into_iter().for_each(|next| next.complete(()).unwrap());
    }
}

fn lost_update_in_futures(world: &World, is_sound: bool) -> [Stage<()>; 2] {
    let (total, request) = (Shared::new(0), world.request("total"));
    let lock = Turns(request.clone(), Shared::new((false, VecDeque::new())));
    let adds = [1, 2].map(|cents| {
        let (total, lock) = (total.clone(), lock.clone());
        let add = async move {
            if is_sound {
                lock.take().await;
            }
            let before = *total.get();
            GivesWay(false).await;
            *total.get() = before + cents;
            if is_sound {
                lock.free();
            }
            Ok::<(), Error>(())
        };
        request.spawn(add).named(format!("add {cents}"))
    });
    world.at_end("both are added", move || *total.get() == 3);
    adds
}

fn never_released(world: &World, is_sound: bool) {
    struct Releases(Shared<bool>, bool);
    impl Drop for Releases {
        fn drop(&mut self) {
            if self.1 {
                *self.0.get() = false;
            }
        }
    }
    let (held, request) = (Shared::new(false), world.request("use"));
    let holds = held.clone();
    let sleeps = request.promise::<()>().named("a second").complete_on_timeout((), SECOND);
    let uses = request.spawn(async move {
        *holds.get() = true;
        let _releases = Releases(holds.clone(), is_sound);
        sleeps.await?;
        *holds.get() = false;
        Ok::<(), Error>(())
    });
    world.calls("the client leaves", move || uses.cancel());
    world.at_end("it is released", move || !*held.get());
}

// A payment that took too long is refunded, though it may still be made.

fn refunded_before(world: &World, is_sound: bool) -> Stage<&'static str> {
    let (moved, request) = (Shared::new((0, 0)), world.request("refund"));
    let (charges, refunds) = (moved.clone(), moved.clone());
    let charge = request.supply(move || charges.get().0 += 1).named("charge");
    let limited = charge.clone().then(|()| "paid").named("paid").or_timeout(SECOND);
    let refund = move || {
        let mut moved = refunds.get();
        moved.1 = moved.0;
        "refunded"
    };
    let told = if is_sound { limited.recover_compose(move |_| charge.handle(move |_| refund())) } else { limited.recover(move |_| refund()) };
    let tells = told.clone();
    world.at_end("what isn't paid is refunded", move || {
        let (charged, refunded) = *moved.get();
        tells.wait().unwrap() == "paid" || charged == refunded
    });
    told.named("told")
}

// A message is delivered twice.

fn handled_twice(world: &World, is_sound: bool) -> [Stage<()>; 2] {
    let (seen, effects, request) = (Shared::new(BTreeSet::new()), Shared::new(0), world.request("messages"));
    let handles = ["delivery", "delivery again"].map(|name| {
        let (seen, effects, world) = (seen.clone(), effects.clone(), world.clone());
        let handle = move || {
            if seen.get().contains(&17) {
                return;
            }
            if is_sound {
                seen.get().insert(17);
            }
            world.point();
            *effects.get() += 1;
            seen.get().insert(17);
        };
        request.supply(handle).named(name)
    });
    world.check("handled once", move || *effects.get() <= 1);
    handles
}

/// A service, why it fails where it isn't sound, and how it is run.
pub struct Service {
    pub name: &'static str,
    pub why: &'static str,
    pub run: fn(Orders, bool) -> Report,
}

macro_rules! services {
    ($($service:ident: $why:literal $(, $workers:literal)?;)*) => {
        pub const SERVICES: &[Service] = &[$(Service {
            name: stringify!($service),
            why: $why,
            run: |orders, is_sound| orders$(.workers($workers))?.run(move |world| $service(world, is_sound)),
        }),*];
    };
}

services! {
    charged_twice: "charged at most once";
    loser_keeps_connection: "no connection is left";
    stale_cache: "the cache isn't stale";
    cancelled_and_shipped: "what is told to be cancelled isn't shipped";
    lost_count: "both are counted";
    lost_wake: "a reader that waits is woken";
    closed_by_winner: "the file is closed";
    opposite_locks: "deadlock";
    waits_in_pool: "deadlock", 1;
    told_otherwise: "what is told is what is written";
    failure_first: "one good answer is enough";
    half_written: "both are written or none";
    made_twice: "one is made";
    older_overwrites: "the last message stands";
    overdrawn: "never overdrawn";
    told_after_end: "told after its end";
    lost_update_in_futures: "both are added";
    never_released: "it is released";
    refunded_before: "what isn't paid is refunded";
    handled_twice: "handled once";
}
