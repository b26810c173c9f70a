//! An order whose bank is away twice: it is asked again, after longer and longer waits.
use cf::{Pool, Request, Retry};
use std::sync::atomic::{AtomicU32, Ordering};
use std::time::Duration;

static ASKED: AtomicU32 = AtomicU32::new(0);

fn charge(order: u32) -> Result<u32, &'static str> {
    if ASKED.fetch_add(1, Ordering::SeqCst) < 2 {
        println!("the bank is away");
        return Err("away");
    }
    Ok(order)
}

fn main() {
    let request = Request::new("order 17", Pool::new(2));
    let retry = Retry::times(5).delay(Duration::from_millis(50));
    let paid = request.retry(retry, || charge(17)).or_timeout(Duration::from_secs(60));
    println!("charged for order {}", paid.wait().unwrap());
}
