//! The checkout of killed.rs, by a bank that knows an order that it has charged.
use cf::testing::{Orders, World};
use cf_store::testing::{Bounds, Stores};
use cf_store::Functions;
use serde_json::json;
use std::collections::BTreeSet;
use std::sync::{Arc, Mutex};
use std::time::Duration;

fn checkout(world: &World) {
    let charges = Arc::new(Mutex::new((BTreeSet::new(), 0)));
    let charged = charges.clone();
    let charge = move |order: u32| {
        let (known, times) = &mut *charged.lock().unwrap();
        *times += u32::from(known.insert(order));
        Ok::<_, String>(())
    };
    let functions = Functions::new().with("charge", 1, charge);
    let store = world.store(Bounds::new().killed(1));
    let (one, _two) = (store.worker("one", &functions), store.worker("two", &functions));
    one.request("order 17").unwrap().supply("charge", &[json!(17)]).unwrap().again(1).unwrap();
    world.check("charged at most once", move || charges.lock().unwrap().1 <= 1);
}

fn main() {
    let report = Orders::new().time(Duration::from_secs(60)).run(checkout);
    println!("{} of {} orders fail, and the others come to the same: {}", report.failed.len(), report.orders, report.whole);
}
