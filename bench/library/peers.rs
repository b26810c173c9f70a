//! The fan-out of bench/library/fan_out.rs by other crates, whose pools have as many threads: from when the source is completed to when all
//! functions have answered. bench/library/run builds those that cargo has without a network.
//!
//! - `fan-out futures`: futures that wait for the source are spawned before, and `join_all` waits for them.
//! - `fan-out tokio, watch`: tasks that wait for the source by a `watch` are spawned before.
//! - `fan-out tokio, spawn`: the tasks are spawned once the source is there.
//! - `fan-out rayon, scope`: each function is spawned in a scope.
//! - `fan-out rayon, par_iter`: the functions are the steps of one parallel iterator.
use super::{one_more, show, PARTS, THREADS};
#[cfg(any(feature = "tokio", feature = "rayon"))]
use std::time::{Duration, Instant};

#[cfg(any(feature = "futures", feature = "tokio"))]
#[path = "../parts/left.rs"]
#[cfg_attr(not(feature = "tokio"), allow(dead_code))]
mod left;

#[cfg(feature = "futures")]
#[path = "../parts/joined.rs"]
mod joined;

#[cfg(feature = "futures")]
pub fn by_futures() {
    let pool = futures::executor::ThreadPool::builder().pool_size(THREADS).create().expect("there are threads");
    show("fan-out futures", || joined::by_futures(&pool, PARTS));
}

#[cfg(feature = "tokio")]
pub use with_tokio::run as by_tokio;

#[cfg(feature = "tokio")]
mod with_tokio {
    use super::*;
    use super::left::{let_wait, Left};
    use tokio::runtime::{Builder, Runtime};
    use tokio::sync::watch;

    fn by_watch(runtime: &Runtime) -> Duration {
        let left = Left::new(PARTS);
        let (source, came) = watch::channel(0);
        for _ in 0..PARTS {
            let (mut came, left) = (came.clone(), left.clone());
            runtime.spawn(async move {
                came.changed().await.expect("it is sent");
                let value = *came.borrow();
                left.take(one_more(value));
            });
        }
        let_wait();
        let since = Instant::now();
        source.send(1).expect("it is received");
        left.wait();
        since.elapsed()
    }

    fn by_spawn(runtime: &Runtime) -> Duration {
        let left = Left::new(PARTS);
        let since = Instant::now();
        for _ in 0..PARTS {
            let left = left.clone();
            runtime.spawn(async move { left.take(one_more(1)) });
        }
        left.wait();
        since.elapsed()
    }

    pub fn run() {
        let runtime = Builder::new_multi_thread()
            .worker_threads(THREADS)
            .build()
            .expect("there are threads");
        show("fan-out tokio, watch", || by_watch(&runtime));
        show("fan-out tokio, spawn", || by_spawn(&runtime));
    }
}

#[cfg(feature = "rayon")]
pub fn by_rayon() {
    use rayon::prelude::*;

    let pool = rayon::ThreadPoolBuilder::new()
        .num_threads(THREADS)
        .build()
        .expect("there are threads");
    let mut answers = vec![0; PARTS];
    let mut timed = |work: fn(&rayon::ThreadPool, &mut Vec<i32>)| -> Duration {
        answers.fill(0);
        let since = Instant::now();
        work(&pool, &mut answers);
        let took = since.elapsed();
        assert!(answers.iter().all(|it| *it == 2));
        took
    };
    show("fan-out rayon, scope", || {
        timed(|pool, answers| pool.scope(|scope| answers.iter_mut().for_each(|it| scope.spawn(move |_| *it = one_more(1)))))
    });
    show("fan-out rayon, par_iter", || {
        timed(|pool, answers| pool.install(|| answers.par_iter_mut().for_each(|it| *it = one_more(1))))
    });
}
