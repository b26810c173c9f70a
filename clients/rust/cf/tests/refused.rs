//! A system that starts no thread for a while. The limit is the process's, so this has a process of its own.
use cf::{Inline, Pool, Request};
use std::process::{id, Command, Stdio};
use std::thread;
use std::time::Duration;

/// Longer than a machine at its limit takes.
const LONG: Duration = Duration::from_secs(30);
const SHORT: Duration = Duration::from_millis(20);

/// Limits the memory that this process may map.
fn limit(bytes: &str) -> bool {
    let said = Command::new("prlimit").args(["--pid", &id().to_string(), &format!("--as={bytes}:")]).stderr(Stdio::null()).status();
    said.map_or(false, |status| status.success())
}

fn mapped() -> Option<u64> {
    std::fs::read_to_string("/proc/self/statm").ok()?.split(' ').next()?.parse().ok().map(|pages: u64| pages * 4096)
}

#[test]
fn what_starts_a_thread_tries_again() {
    let threadless = Request::new("refused", Inline);
    let is_limited = mapped().map_or(false, |bytes| limit(&(bytes + 1_000_000).to_string()));
    if !is_limited || thread::Builder::new().spawn(|| ()).is_ok() {
        println!("left out: no limit keeps this system from starting threads");
        assert!(!is_limited || limit("unlimited"));
        return;
    }
    let late = threadless.promise::<i32>().or_timeout(SHORT);
    let pool = Pool::new(2);
    let refused = Request::new("pool", pool.clone()).supply(|| 1);
    assert!(limit("unlimited"));
    assert!(matches!(refused.wait_timeout(LONG), Some(Err(_))), "no thread is there, and none is started");
    // The next call of each starts what was refused.
    assert!(threadless.promise::<i32>().or_timeout(SHORT).wait_timeout(LONG).expect("the clock stands").is_err());
    assert!(late.wait_timeout(LONG).expect("its alarm is kept").is_err());
    let threadless = Request::new("pool", pool);
    let meets = std::sync::Arc::new(std::sync::Barrier::new(2));
    let stages = [(); 2].map(|()| {
        let meets = meets.clone();
        threadless.supply(move || meets.wait().is_leader())
    });
    let told = stages.map(|stage| stage.wait_timeout(LONG).expect("the pool stands").unwrap());
    assert!(told[0] != told[1]);
}
