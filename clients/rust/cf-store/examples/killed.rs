//! A checkout in a store that charges twice in some order: docs/TESTING.md leads through it.
use cf::testing::{orders, World};
use cf_store::testing::{Bounds, Stores};
use cf_store::Functions;
use serde_json::json;
use std::sync::{Arc, Mutex};

fn checkout(world: &World) {
    let charges = Arc::new(Mutex::new(Vec::new()));
    let charged = charges.clone();
    let charge = move |order: u32| {
        charged.lock().unwrap().push(order);
        Ok::<_, String>(())
    };
    let functions = Functions::new().with("charge", 1, charge);
    let store = world.store(Bounds::new().killed(1));
    let (one, _two) = (store.worker("one", &functions), store.worker("two", &functions));
    one.request("order 17").unwrap().supply("charge", &[json!(17)]).unwrap().again(1).unwrap();
    world.check("charged at most once", move || charges.lock().unwrap().len() <= 1);
}

fn main() {
    orders(checkout).failed.iter().for_each(|failure| println!("{failure}"));
}
