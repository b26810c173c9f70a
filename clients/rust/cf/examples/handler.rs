//! A handler of a web service: two backends at once, a limit for the answer, and a scope that leaves nothing behind.
use cf::{Error, Request, Tasks};
use std::time::Duration;
use tokio::{runtime::Handle, time::sleep};

async fn price(order: u32) -> Result<u32, Error> {
    sleep(Duration::from_millis(10 * u64::from(order))).await; // a backend
    Ok(4900)
}

async fn handle(order: u32) -> (u16, String) {
    let request = Request::new(&format!("order {order}"), Tasks::new(Handle::current(), 8)).scope();
    let price = request.spawn(price(order)).named("price");
    let stock = request.supply(|| 3).named("stock");
    let answer = price.combine(&stock, |cents, left| format!("{cents} cents, {left} left"));
    match answer.or_timeout(Duration::from_secs(1)).await {
        Ok(text) => (200, text),
        Err(error) if error.is_timeout() => (504, error.to_string()),
        Err(error) => (500, error.to_string()),
    }
}

#[tokio::main]
async fn main() {
    for order in [1, 1000] {
        println!("{:?}", handle(order).await);
    }
}
