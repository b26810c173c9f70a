//! An order that outlives its process. With the word `die` the process is killed in the midst of the charge; the next one goes on.
use cf_store::{Flow, Functions, Options, SQLite, Service};
use serde_json::{json, Value};
use std::{env, process, time::Duration};

fn reserve(mut order: Value) -> Result<Value, String> {
    println!("reserve is called");
    order["reserved"] = json!(["lamp"]);
    Ok(order)
}

fn charge(mut order: Value) -> Result<Value, String> {
    println!("charge is called");
    if env::args().any(|word| word == "die") {
        process::abort();
    }
    order["cents"] = json!(4900);
    Ok(order)
}

fn main() -> Result<(), Box<dyn std::error::Error>> {
    let mut flow = Flow::new("order");
    let order = flow.promise("order");
    let reserved = flow.then(order, "reserve");
    let charged = flow.then(reserved, "charge");
    let paid = flow.again(charged, 1); // if its process dies

    let functions = Functions::new().with("reserve", 1, reserve).with("charge", 1, charge);
    let options = Options::default().lease(Duration::from_secs(2)); // a process silent for so long is dead
    let service = Service::with(SQLite::open(env::args().nth(1).unwrap())?, functions, options)?;
    let request = service.start(&flow, "order 17", &[json!({"number": 17})])?;
    println!("{}", request.step(paid).unwrap().wait::<Value>()?);
    Ok(())
}
