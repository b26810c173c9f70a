//! Stages under tokio, and in the combinators of the crate `futures`.
use cf::{Blocking, Error, Pool, Refusal, Request, Stage, SystemClock, Tasks, TokioClock};
use futures::future::{join_all, select, try_join_all, Either};
use futures::stream::{FuturesUnordered, StreamExt};
use futures::FutureExt;
use std::sync::atomic::{AtomicBool, AtomicUsize, Ordering};
use std::sync::Arc;
use std::time::{Duration, Instant};
use tokio::runtime::Handle;
use tokio::time::{sleep, timeout};

const SHORT: Duration = Duration::from_millis(20);
/// Longer than a machine at its limit takes; what never comes is ended by who runs the tests.
const LONG: Duration = Duration::from_secs(200);

fn blocking() -> Request {
    Request::new("blocking", Blocking::new(Handle::current(), 8))
}

fn tasks() -> Request {
    Request::new("tasks", Tasks::new(Handle::current(), 8))
}

#[tokio::test(flavor = "multi_thread", worker_threads = 4)]
async fn stages_are_futures() {
    for on_runtime in [blocking(), tasks()] {
        let numbers: Vec<Stage<i32>> = (0..40).map(|k| on_runtime.supply(move || k)).collect();
        let told = join_all(numbers.iter().cloned()).await;
        assert_eq!(told.into_iter().map(Result::unwrap).sum::<i32>(), 780);
        assert_eq!(try_join_all(numbers.clone()).await.unwrap().len(), 40);
        let failed = on_runtime.try_supply(|| Err::<i32, _>("no"));
        assert_eq!(try_join_all(numbers.iter().chain([&failed]).cloned()).await.unwrap_err().to_string(), "no");
        assert!(on_runtime.history().is_reproducible());
    }
}

#[tokio::test(flavor = "multi_thread", worker_threads = 4)]
async fn they_come_in_the_order_in_which_they_settle() {
    let on_runtime = blocking();
    let promises: Vec<Stage<usize>> = (0..3).map(|_| on_runtime.promise()).collect();
    let mut stream: FuturesUnordered<_> = promises.iter().cloned().collect();
    assert!(stream.next().now_or_never().is_none());
    for k in [1, 0, 2] {
        promises[k].complete(k).unwrap();
        assert_eq!(stream.next().await.unwrap().unwrap(), k);
    }
    assert!(stream.next().await.is_none());
}

#[tokio::test(flavor = "multi_thread", worker_threads = 2)]
async fn select_takes_the_first() {
    let on_runtime = tasks();
    let (slow, quick) = (on_runtime.promise::<i32>(), on_runtime.promise::<i32>());
    let waits = tokio::spawn(select(slow.clone(), quick.clone()));
    quick.complete(2).unwrap();
    match waits.await.unwrap() {
        Either::Right((told, rest)) => {
            assert_eq!(told.unwrap(), 2);
            slow.complete(1).unwrap();
            assert_eq!(rest.await.unwrap(), 1);
        }
        Either::Left(_) => panic!("the slow one isn't settled"),
    }
    let (a, b) = (on_runtime.promise::<i32>(), on_runtime.promise::<i32>());
    a.complete(7).unwrap();
    tokio::select! {
        told = a => assert_eq!(told.unwrap(), 7),
        _ = b => panic!("it isn't settled"),
    }
    let (mut one, mut two) = (on_runtime.promise::<i32>().fuse(), on_runtime.supply(|| 4).fuse());
    futures::select! {
        _ = one => panic!("it isn't settled"),
        told = two => assert_eq!(told.unwrap(), 4),
    }
}

#[tokio::test(flavor = "multi_thread", worker_threads = 2)]
async fn a_runtimes_timeout_leaves_the_stage() {
    let on_runtime = tasks();
    let runtime_stage = on_runtime.promise::<i32>();
    assert!(timeout(SHORT, runtime_stage.clone()).await.is_err());
    runtime_stage.complete(1).unwrap();
    assert_eq!(timeout(LONG, runtime_stage).await.unwrap().unwrap(), 1);
}

#[tokio::test(start_paused = true)]
async fn timeouts_go_by_tokios_clock() {
    let (spawn, clock) = (Tasks::new(Handle::current(), 8), TokioClock::new(Handle::current()));
    let on_runtime = Request::with_clock("paused", Arc::new(spawn), Arc::new(clock));
    let begun = Instant::now();
    let runtime_stage = on_runtime.promise::<i32>().or_timeout(Duration::from_secs(3600));
    let given = on_runtime.promise().complete_on_timeout(5, Duration::from_secs(1800));
    assert_eq!(given.await.unwrap(), 5);
    assert!(runtime_stage.await.unwrap_err().is_timeout());
    assert!(begun.elapsed() < Duration::from_secs(60));
}

#[tokio::test(flavor = "multi_thread", worker_threads = 2)]
async fn futures_can_be_stages() {
    let on_runtime = tasks();
    let later = on_runtime.spawn(async {
        sleep(SHORT).await;
        Ok::<_, Error>(20)
    });
    let next = later.then_async(|n| async move {
        tokio::task::yield_now().await;
        if *n > 0 {
            Ok(*n + 1)
        } else {
            Err("not positive")
        }
    });
    assert_eq!(next.clone().await.unwrap(), 21);
    let failed = next.then_async(|_| async { Err::<i32, _>("no") });
    assert_eq!(failed.await.unwrap_err().to_string(), "no");
    let panics = on_runtime.spawn(async {
        if true {
            panic!("in a future")
        }
        Ok::<i32, Error>(1)
    });
    assert_eq!(panics.await.unwrap_err().to_string(), "a function panicked: in a future");
    assert!(on_runtime.history().is_reproducible());
}

struct Drops(Arc<AtomicBool>);

impl Drop for Drops {
    fn drop(&mut self) {
        self.0.store(true, Ordering::SeqCst);
    }
}

#[tokio::test(flavor = "multi_thread", worker_threads = 2)]
async fn a_cancelled_stage_drops_its_future() {
    let on_runtime = tasks();
    for how in 0..3 {
        let (dropped, begun) = (Arc::new(AtomicBool::new(false)), Arc::new(AtomicBool::new(false)));
        let (drops, begins) = (Drops(dropped.clone()), begun.clone());
        let runtime_stage = on_runtime.spawn(async move {
            let _drops = drops;
            begins.store(true, Ordering::SeqCst);
            std::future::pending::<()>().await;
            Ok::<i32, Error>(1)
        });
        while !begun.load(Ordering::SeqCst) {
            tokio::task::yield_now().await;
        }
        sleep(SHORT).await;
        match how {
            0 => assert!(runtime_stage.cancel()),
            1 => drop(runtime_stage.clone().cancel_on_drop()),
            _ => assert!(runtime_stage.clone().or_timeout(SHORT).await.is_err()),
        }
        assert!(runtime_stage.await.is_err());
        while !dropped.load(Ordering::SeqCst) {
            tokio::task::yield_now().await;
        }
    }
}

#[tokio::test(flavor = "multi_thread", worker_threads = 4)]
async fn many_tasks_wait_for_one_stage() {
    let on_runtime = blocking();
    let runtime_stage = on_runtime.promise::<i32>();
    let told = Arc::new(AtomicUsize::new(0));
    let waiting: Vec<_> = (0..500)
        .map(|_| {
            let (runtime_stage, told) = (runtime_stage.clone(), told.clone());
            tokio::spawn(async move {
                assert_eq!(runtime_stage.await.unwrap(), 3);
                told.fetch_add(1, Ordering::SeqCst);
            })
        })
        .collect();
    sleep(SHORT).await;
    waiting.iter().take(100).for_each(|it| it.abort());
    runtime_stage.complete(3).unwrap();
    for it in waiting {
        let _ = it.await;
    }
    assert!(told.load(Ordering::SeqCst) >= 400);
}

#[tokio::test(flavor = "multi_thread", worker_threads = 4)]
async fn threads_and_tasks_wait_together() {
    let on_runtime = blocking();
    let source = on_runtime.promise::<u64>();
    let mut last = source.clone();
    for _ in 0..200 {
        last = last.combine(&source, |a, b| a + b);
    }
    let waits = last.clone();
    let thread = std::thread::spawn(move || waits.wait().unwrap());
    source.complete(1).unwrap();
    assert_eq!(last.await.unwrap(), 201);
    assert_eq!(thread.join().unwrap(), 201);
}

#[test]
fn stages_on_rayon() {
    let pool = Arc::new(rayon::ThreadPoolBuilder::new().num_threads(4).build().unwrap());
    let runtime_request = Request::try_new("rayon", pool, Arc::new(SystemClock), 600).unwrap();
    let numbers: Vec<Stage<u64>> = (0..500).map(|k| runtime_request.supply(move || k)).collect();
    assert_eq!(runtime_request.gather(&numbers).then(|all| all.iter().sum::<u64>()).wait().unwrap(), 124_750);
}

/// As many functions as there are threads wait, each for a future that goes on by the runtime's timers.
#[test]
fn all_threads_of_a_runtime_wait_for_futures() {
    for threads in [1, 2] {
        let runtime = tokio::runtime::Builder::new_multi_thread().worker_threads(threads).enable_all().build().unwrap();
        let all = Arc::new(std::sync::Barrier::new(threads));
        let waits = |_| {
            let (runtime_request, all) = (Request::new("waits", Tasks::new(runtime.handle().clone(), 8)), all.clone());
            let by = runtime_request.clone();
            runtime_request.supply(move || {
                all.wait();
                let future = by.spawn(async {
                    tokio::task::yield_now().await;
                    sleep(SHORT).await;
                    Ok::<_, Error>(1)
                });
                future.wait().unwrap() + by.supply(|| 2).wait_timeout(LONG).unwrap().unwrap()
            })
        };
        let stages: Vec<Stage<i32>> = (0..threads).map(waits).collect();
        assert!(stages.iter().all(|runtime_stage| runtime_stage.wait_timeout(LONG).expect("it rests for good").unwrap() == 3));
    }
}

/// A runtime of one thread can't hand it over: what the stage needs is run by who waits.
#[test]
fn a_runtime_of_one_thread_waits_for_functions() {
    let runtime = tokio::runtime::Builder::new_current_thread().enable_all().build().unwrap();
    let runtime_request = Request::new("waits", Tasks::new(runtime.handle().clone(), 8));
    let by = runtime_request.clone();
    let told = runtime_request.supply(move || by.supply(|| 20).then_async(|n| async move { Ok::<_, Error>(*n + 1) }).wait().unwrap());
    assert_eq!(runtime.block_on(async { timeout(LONG, told).await }).unwrap().unwrap(), 21);
}

/// A function on a pool's thread waits for what has to run on threads of tokio.
#[test]
fn functions_and_futures_of_tokio_run_on_its_threads() {
    let runtime = tokio::runtime::Builder::new_multi_thread().worker_threads(1).enable_all().build().unwrap();
    let pool = Pool::new(2);
    for _ in 0..50 {
        let (blocking, tasks) = (Blocking::new(runtime.handle().clone(), 8), Tasks::new(runtime.handle().clone(), 8));
        let told = Request::new("outer", pool.clone()).supply(move || {
            let asked = Request::new("tasks", tasks).spawn(async {
                sleep(Duration::from_micros(10)).await;
                Ok::<_, Error>(Handle::try_current().is_ok())
            });
            asked.wait().unwrap() && Request::new("blocking", blocking).supply(|| Handle::try_current().is_ok()).wait().unwrap()
        });
        assert!(told.wait_timeout(LONG).expect("it rests for good").unwrap());
    }
}

#[test]
fn all_threads_of_rayon_wait() {
    let pool = Arc::new(rayon::ThreadPoolBuilder::new().num_threads(1).build().unwrap());
    let (runtime_request, other) = (Request::new("waits", pool.clone()), Request::new("other", pool));
    let by = runtime_request.clone();
    let told = runtime_request.supply(move || {
        let future = by.spawn(async {
            let mut is_first = true;
            std::future::poll_fn(|cx| {
                if std::mem::take(&mut is_first) {
                    cx.waker().wake_by_ref();
                    return std::task::Poll::Pending;
                }
                std::task::Poll::Ready(())
            })
            .await;
            Ok::<_, Error>(1)
        });
        future.wait().unwrap() + by.adopt(&other.supply(|| 4)).then(|n| n + 1).wait().unwrap()
    });
    assert_eq!(told.wait_timeout(LONG).expect("it rests for good").unwrap(), 6);
}

/// What runs on a runtime, and what waits for its clock, fails with it, at whatever moment that comes.
#[test]
fn nothing_waits_for_a_runtime_that_is_gone() {
    let runtime = tokio::runtime::Builder::new_multi_thread().worker_threads(2).enable_all().build().unwrap();
    let handle = runtime.handle().clone();
    let clock = Arc::new(TokioClock::new(handle.clone()));
    let runtime_request = Request::with_clock("gone", Arc::new(Tasks::new(handle.clone(), 8)), clock);
    let blocking = Request::new("blocking", Blocking::new(handle, 8));
    let sleeping = runtime_request.spawn(async {
        sleep(Duration::from_secs(3600)).await;
        Ok::<_, Error>(1)
    });
    let (gate, ran) = (runtime_request.promise::<i32>(), Arc::new(AtomicBool::new(false)));
    let (timed, given) = (runtime_request.promise::<i32>().or_timeout(LONG), runtime_request.promise().complete_on_timeout(4, LONG));
    let runs = ran.clone();
    let behind = gate.clone().then(move |_| runs.store(true, Ordering::SeqCst));
    drop(runtime);
    gate.complete(1).unwrap();
    assert!(sleeping.wait_timeout(LONG).expect("it rests for good").is_err());
    assert!(matches!(timed.wait_timeout(LONG), Some(Err(Error::Refused(Refusal::NoClock)))));
    assert!(matches!(given.wait_timeout(LONG), Some(Err(Error::Refused(Refusal::NoClock)))));
    assert!(matches!(behind.wait_timeout(LONG), Some(Err(Error::Refused(Refusal::Closed)))));
    assert!(matches!(blocking.supply(|| 1).wait_timeout(LONG), Some(Err(Error::Refused(Refusal::Closed)))));
    let late = runtime_request.promise::<i32>().or_timeout(SHORT);
    assert!(matches!(late.wait_timeout(LONG), Some(Err(Error::Refused(Refusal::NoClock)))));
    assert!(!ran.load(Ordering::SeqCst), "no function begins once its runtime is gone");
}

/// A wait in an async task would hold up a thread of its runtime, so it panics there, as tokio's own calls do that block.
#[tokio::test(flavor = "multi_thread", worker_threads = 1)]
async fn a_wait_in_an_async_task_panics() {
    let pool = Request::new("pool", Pool::new(1));
    let (open, ready) = (pool.promise::<i32>(), pool.supply(|| 3));
    let _ = ready.clone().await;
    let waits: [fn(&Stage<i32>) -> bool; 3] =
        [|stage| stage.wait().is_ok(), |stage| stage.wait_arc().is_ok(), |stage| stage.wait_timeout(LONG).is_some()];
    for (wait, stage) in waits.into_iter().flat_map(|wait| [(wait, open.clone()), (wait, ready.clone())]) {
        let of = stage.clone();
        let panicked = tokio::spawn(async move { wait(&of) }).await.unwrap_err().into_panic();
        let text = panicked.downcast_ref::<&str>().map_or_else(|| panicked.downcast_ref::<String>().cloned(), |text| Some(text.to_string()));
        assert!(text.unwrap().contains("Cannot start a runtime from within a runtime"));
    }
    assert!(open.wait_timeout(Duration::ZERO).is_none());
    // A thread that blocks by its runtime's leave waits, and so do functions, whoever runs them.
    let (of, other) = (open.clone(), open.clone());
    let blocks = tokio::task::spawn_blocking(move || of.wait().unwrap());
    let runs = tasks().supply(move || other.wait().unwrap());
    open.complete(4).unwrap();
    assert_eq!((blocks.await.unwrap(), runs.await.unwrap()), (4, 4));
    assert_eq!(tokio::task::block_in_place(|| ready.wait().unwrap()), 3);
}
