//! Services over a store with a fault of order, and the same ones without it.
use cf::testing::World;
use cf_store::testing::{Bounds, Process, ProcessOptions, Stores, WorldStore};
use cf_store::{Failed, Functions, Stage, StoreError};
use serde_json::{json, Value};
use std::sync::{Arc, Mutex, MutexGuard};
use std::time::Duration;

/// A service: whether it is to be without its fault, and what is told where it fails.
pub struct Service {
    pub name: &'static str,
    pub why: &'static str,
    pub runs: fn(&World, bool),
}

pub const SERVICES: [Service; 12] = [
    Service { name: "charged again", why: "charged at most once", runs: charged_again },
    Service { name: "goes on without its claim", why: "booked at most once", runs: goes_on_without_claim },
    Service { name: "told unanswered", why: "what is told to be approved is", runs: told_unanswered },
    Service { name: "opened twice", why: "ordered at most once", runs: opened_twice },
    Service { name: "attached twice", why: "charged at most once", runs: attached_twice },
    Service { name: "freed too early", why: "sold once", runs: freed_too_early },
    Service { name: "charged behind a limit", why: "charged at most once", runs: charged_behind_limit },
    Service { name: "own word for another's", why: "nobody else has it", runs: own_word_for_anothers },
    Service { name: "asked by an old view", why: "ordered at one place", runs: asked_by_old_view },
    Service { name: "abandoned and done", why: "charged at most once", runs: abandoned_and_done },
    Service { name: "done elsewhere", why: "exactly one mail", runs: done_elsewhere },
    Service { name: "told before it came", why: "what is told not to be cancelled isn't", runs: told_before_it_came },
];

/// What functions, calls and checks have in common.
#[derive(Default)]
pub struct Shared<T>(Arc<Mutex<T>>);

impl<T> Clone for Shared<T> {
    fn clone(&self) -> Shared<T> {
        Shared(Arc::clone(&self.0))
    }
}

impl<T> Shared<T> {
    pub fn get(&self) -> MutexGuard<'_, T> {
        self.0.lock().unwrap()
    }
}

pub type Done = Result<(), Failed>;

/// Whether a stage is settled, as far as its process has read.
pub fn is_done(stage: &Stage) -> bool {
    !matches!(stage.peek::<Value>(), Ok(None))
}

/// What a call is answered that may be asked again, whatever became of it before.
fn told_in_the_end<T>(mut call: impl FnMut() -> Result<T, StoreError>) -> T {
    loop {
        match call() {
            Err(StoreError::Unknown(_)) => {}
            told => return told.unwrap(),
        }
    }
}

/// A process that runs no function, and some that do.
fn shop_and_workers(world: &World, functions: &Functions, workers: usize, bounds: Bounds) -> (WorldStore, Process) {
    let store = world.store(bounds);
    for number in 1..=workers {
        store.worker(&format!("worker {number}"), functions);
    }
    let shop = store.process_with("the shop", functions, ProcessOptions::new().workers(0));
    (store, shop)
}

/// A payment is made by a function that may be called again.
pub fn charged_again(world: &World, by_key: bool) {
    let charges = Shared::<Vec<u32>>::default();
    let charged = charges.clone();
    let charge = move |order: u32| {
        let mut charged = charged.get();
        if !(by_key && charged.contains(&order)) {
            charged.push(order);
        }
        Done::Ok(())
    };
    let functions = Functions::new().with("charge", 1, charge);
    let (_, shop) = shop_and_workers(world, &functions, 2, Bounds::new().killed(1));
    shop.request("order 17").unwrap().supply("charge", &[json!(17)]).unwrap().again(1).unwrap();
    world.check("charged at most once", move || charges.get().len() <= 1);
}

/// A function goes on, though its process was taken for gone, and another has its place.
fn goes_on_without_claim(world: &World, in_transaction: bool) {
    let written = Shared::<u32>::default();
    let (writes, its, there) = (written.clone(), world.clone(), world.clone());
    let book = move || {
        its.point();
        *writes.get() += 1;
        Done::Ok(())
    };
    let book_there = move |effects: &mut Vec<Value>| {
        there.point();
        effects.push(json!("booked"));
        Done::Ok(())
    };
    let functions = Functions::new().with("book", 1, book).transactional("book there", 1, book_there);
    let (store, shop) = shop_and_workers(world, &functions, 1, Bounds::new().slow(1));
    shop.request("trip").unwrap().supply(if in_transaction { "book there" } else { "book" }, &[]).unwrap().again(1).unwrap();
    world.check("booked at most once", move || store.effects().len() <= 1 && *written.get() <= 1);
}

/// A client tells an outcome whose put wasn't answered.
fn told_unanswered(world: &World, asks_again: bool) {
    let told = Shared::<bool>::default();
    let (store, shop) = shop_and_workers(world, &Functions::new(), 0, Bounds::new().silent(1));
    let approval = shop.request("order 17").unwrap().promise("approval").unwrap();
    let tells = told.clone();
    shop.calls("the clerk", move || {
        if asks_again {
            told_in_the_end(|| approval.complete("yes"));
        } else {
            drop(approval.complete("yes"));
        }
        *tells.get() = true;
    });
    let is_so = move || !*told.get() || store.outcome("order 17", "approval") == Some(Ok(json!("yes")));
    world.at_end("what is told to be approved is", is_so);
}

/// A client that got no answer begins the order anew.
fn opened_twice(world: &World, same_name: bool) {
    let charges = Shared::<u32>::default();
    let charged = charges.clone();
    let charge = move || {
        *charged.get() += 1;
        Done::Ok(())
    };
    let functions = Functions::new().with("charge", 1, charge);
    let shop = world.store(Bounds::new().silent(1)).process("the shop", &functions);
    let clients = shop.clone();
    shop.calls("a client", move || {
        for attempt in 1..=2 {
            let name = if same_name { "order 17".to_owned() } else { format!("order 17, attempt {attempt}") };
            let order = clients.request(&name).and_then(|order| match order.stage(0) {
                None => order.supply("charge", &[]).map(drop),
                Some(_) => Ok(()),
            });
            if order.is_ok() {
                break;
            }
        }
    });
    world.at_end("ordered at most once", move || *charges.get() <= 1);
}

/// A client that got no answer attaches the stage once more.
fn attached_twice(world: &World, looks: bool) {
    let charges = Shared::<u32>::default();
    let charged = charges.clone();
    let charge = move || {
        *charged.get() += 1;
        Done::Ok(())
    };
    let functions = Functions::new().with("charge", 1, charge);
    let (_, shop) = shop_and_workers(world, &functions, 1, Bounds::new().silent(1));
    let order = shop.request("order 17").unwrap();
    shop.calls("a client", move || {
        if order.supply("charge", &[]).is_err() && !(looks && told_in_the_end(|| order.named("charge")).is_some()) {
            told_in_the_end(|| order.supply("charge", &[]));
        }
    });
    world.at_end("charged at most once", move || *charges.get() <= 1);
}

/// A clock runs ahead, and what somebody holds is given to another too early.
fn freed_too_early(world: &World, by_row: bool) {
    let (sold, store) = (Shared::<u32>::default(), world.store(Bounds::new()));
    let shop = store.process("the shop", &Functions::new());
    let cleaner = store.process_with("the cleaner", &Functions::new(), ProcessOptions::new().ahead(Duration::from_secs(60)));
    let held = shop.request("seat 12").unwrap().promise("hold").unwrap();
    let until = shop.now() + Duration::from_secs(10);
    let its = cleaner.open("seat 12").unwrap().stage(0).unwrap();
    let (pays, frees, cleans) = (sold.clone(), sold.clone(), cleaner.clone());
    shop.calls("the holder", move || {
        if held.complete("paid").unwrap() || !by_row {
            *pays.get() += 1;
        }
    });
    cleaner.calls("the cleaner", move || {
        if cleans.now() > until && if by_row { its.cancel().unwrap() } else { !is_done(&its) } {
            *frees.get() += 1;
        }
    });
    world.check("sold once", move || *sold.get() <= 1);
}

/// A limit says that nobody waits any longer, and not that nothing was done.
fn charged_behind_limit(world: &World, before: bool) {
    let charges = Shared::<u32>::default();
    let (charged, other) = (charges.clone(), charges.clone());
    let charge = move |cents: u32| {
        *charged.get() += 1;
        Ok::<_, Failed>(cents)
    };
    let charge_other = move |_: Failed| {
        *other.get() += 1;
        Ok::<_, Failed>(4900)
    };
    let functions = Functions::new().with("charge", 1, charge).with("charge another card", 1, charge_other);
    let (_, shop) = shop_and_workers(world, &functions, 1, Bounds::new());
    let price = shop.request("order 17").unwrap().promise("price").unwrap();
    let paid = price.then("charge").unwrap();
    let limited = if before { &price } else { &paid };
    limited.or_timeout(Duration::from_secs(2)).unwrap();
    paid.recover("charge another card").unwrap();
    shop.calls("the price", move || price.complete(&4900));
    world.check("charged at most once", move || *charges.get() <= 1);
}

/// A client that got no answer asks again, and takes it for another's that his own word stands.
pub fn own_word_for_anothers(world: &World, reads: bool) {
    let (told, store) = (Shared::<&str>::default(), world.store(Bounds::new().silent(1)));
    let shop = store.process("the shop", &Functions::new());
    let lock = shop.request("lock").unwrap().promise("owner").unwrap();
    let tells = told.clone();
    shop.calls("a client", move || {
        let did = lock.complete("me").unwrap_or_else(|_| {
            let did = told_in_the_end(|| lock.complete("me"));
            if reads {
                lock.wait::<String>().unwrap() == "me"
            } else {
                did
            }
        });
        *tells.get() = if did { "mine" } else { "another's" };
    });
    world.at_end("nobody else has it", move || *told.get() != "another's");
}

/// A process decides by what it has read before.
fn asked_by_old_view(world: &World, by_cancel: bool) {
    let (orders, store) = (Shared::<u32>::default(), world.store(Bounds::new()));
    let (one, two) = (store.process("one", &Functions::new()), store.process("two", &Functions::new()));
    let mine = one.request("supplier").unwrap().promise("offer").unwrap();
    let its = two.open("supplier").unwrap().stage(0).unwrap();
    let (accepts, looks) = (orders.clone(), orders.clone());
    one.calls("the buyer", move || {
        if mine.complete("accepted").unwrap() {
            *accepts.get() += 1;
        }
    });
    two.calls("his colleague", move || {
        if if by_cancel { its.cancel().unwrap() } else { !is_done(&its) } {
            *looks.get() += 1;
        }
    });
    world.at_end("ordered at one place", move || *orders.get() <= 1);
}

/// What was abandoned may have been done.
fn abandoned_and_done(world: &World, by_hand: bool) {
    let charges = Shared::<u32>::default();
    let (charged, after) = (charges.clone(), charges.clone());
    let charge = move || {
        *charged.get() += 1;
        Ok::<_, Failed>("charged")
    };
    let charge_after_all = move |failed: Failed| {
        if by_hand && failed.kind == "Abandoned" {
            return Ok::<_, Failed>("to be looked into");
        }
        *after.get() += 1;
        Ok("charged")
    };
    let functions = Functions::new().with("charge", 1, charge).with("charge after all", 1, charge_after_all);
    let (_, shop) = shop_and_workers(world, &functions, 2, Bounds::new().killed(1));
    shop.request("order 17").unwrap().supply("charge", &[]).unwrap().recover("charge after all").unwrap();
    world.at_end("charged at most once", move || *charges.get() <= 1);
}

/// A transactional function is called again where its commit never came, and what it did elsewhere stands.
pub fn done_elsewhere(world: &World, by_connection: bool) {
    let mails = Shared::<usize>::default();
    let mailed = mails.clone();
    let write = move |effects: &mut Vec<Value>| {
        effects.push(json!("a mail"));
        *mailed.get() += 1;
        Done::Ok(())
    };
    let functions = Functions::new().transactional("write", 1, write);
    let (store, shop) = shop_and_workers(world, &functions, 1, Bounds::new().lost(1).unanswered(1));
    shop.request("order 17").unwrap().supply("write", &[]).unwrap();
    world.at_end("exactly one mail", move || 1 == if by_connection { store.effects().len() } else { *mails.get() });
}

/// A put that was given up comes later.
fn told_before_it_came(world: &World, asks_again: bool) {
    let (told, store) = (Shared::<&str>::default(), world.store(Bounds::new().silent(1).late(1)));
    let shop = store.process("the shop", &Functions::new());
    let order = shop.request("order 17").unwrap().promise("order").unwrap();
    let tells = told.clone();
    shop.calls("a client", move || {
        let did = order.cancel().unwrap_or_else(|_| asks_again && told_in_the_end(|| order.cancel()));
        *tells.get() = if did { "cancelled" } else { "not cancelled" };
    });
    let is_so = move || *told.get() != "not cancelled" || !store.is_settled("order 17", "order");
    world.at_end("what is told not to be cancelled isn't", is_so);
}
