//! One round of the fan-out by the crate futures, for bench/library/peers.rs and bench/parts/service.rs.
use super::left::let_wait;
use super::one_more;
use futures::channel::oneshot;
use futures::executor::{block_on, ThreadPool};
use futures::future::{join_all, FutureExt};
use futures::task::SpawnExt;
use std::time::{Duration, Instant};

/// So many futures wait for the source, and `join_all` waits for them. How long it takes from when the source is completed.
pub fn by_futures(pool: &ThreadPool, parts: usize) -> Duration {
    let (source, came) = oneshot::channel::<i32>();
    let came = came.map(|value| value.expect("it is sent")).shared();
    let part = |_| pool.spawn_with_handle(came.clone().map(one_more)).expect("it is spawned");
    let parts: Vec<_> = (0..parts).map(part).collect();
    let_wait();
    let since = Instant::now();
    source.send(1).expect("it is received");
    let answers = block_on(join_all(parts));
    let took = since.elapsed();
    assert!(answers.iter().all(|it| *it == 2));
    took
}
