//! A checkout that charges twice in some order: docs/TESTING.md leads through it.
use cf::testing::{orders, World};
use std::{sync::atomic::AtomicU32, sync::atomic::Ordering::SeqCst, sync::Arc, time::Duration};

fn checkout(world: &World) -> cf::Stage<u32> {
    let charges = Arc::new(AtomicU32::new(0));
    let (once, again) = (charges.clone(), charges.clone());
    let price = world.arrives(world.request("order 17").promise().named("price"), 4900);
    let paid = price.then(move |_| once.fetch_add(1, SeqCst)).named("charge").or_timeout(Duration::from_secs(2));
    world.check("charged at most once", move || charges.load(SeqCst) <= 1);
    paid.recover(move |_| again.fetch_add(1, SeqCst)).named("charge again")
}

fn main() {
    orders(checkout).failed.iter().for_each(|failure| println!("{failure}"));
}
