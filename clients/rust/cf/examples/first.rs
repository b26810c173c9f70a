//! An order whose card is declined, and the ends of its stages as the history tells them.
use cf::{Pool, Request};
use std::time::Duration;

fn quote() -> u32 {
    4900
}

fn charge(cents: &u32) -> Result<u32, String> {
    Err(format!("card declined: {cents} cents"))
}

fn main() {
    let request = Request::new("order 17", Pool::new(4));
    let price = request.supply(quote).or_timeout(Duration::from_secs(5));
    let paid = price.and_then(charge).recover(|error| {
        println!("sorry, {error}");
        0
    });
    println!("paid {}", paid.named("paid").wait().unwrap());
    let history = request.history().to_string();
    history.lines().filter(|line| line.contains(" ends: ")).for_each(|line| println!("{}", line.trim()));
}
