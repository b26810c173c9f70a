//! What README.md says in its table "Beside futures and tokio", and GUIDE.md of gathering and cancelling.
#![cfg(feature = "tokio")]
use cf::{Error, Pool, Request, Stage, Tasks};
use futures::channel::oneshot;
use futures::future::{join_all, select_ok, try_join_all};
use futures::{FutureExt, TryFutureExt};
use std::future::{pending, ready};
use std::sync::atomic::{AtomicUsize, Ordering};
use std::sync::Arc;
use std::time::Duration;
use tokio::runtime::Handle;
use tokio::time::timeout;

const SHORT: Duration = Duration::from_millis(20);
const LONG: Duration = Duration::from_secs(200);

fn request() -> Request {
    Request::new("table", Tasks::new(Handle::current(), 8))
}

fn failed(our_request: &Request, why: &'static str) -> Stage<i32> {
    let our_stage = our_request.promise();
    assert!(our_stage.fail(why));
    our_stage
}

fn why<T: std::fmt::Debug>(told: Result<T, Error>) -> String {
    told.unwrap_err().to_string()
}

/// Counts when it is dropped.
struct Drops(Arc<AtomicUsize>);

impl Drop for Drops {
    fn drop(&mut self) {
        self.0.fetch_add(1, Ordering::SeqCst);
    }
}

/// A future that never ends, and when its `Drops` were.
fn endless(drops: &Arc<AtomicUsize>) -> impl std::future::Future<Output = Result<i32, Error>> {
    let held = Drops(Arc::clone(drops));
    async move {
        let _held = held;
        pending().await
    }
}

async fn dropped(drops: &AtomicUsize, count: usize) {
    let all = async {
        while drops.load(Ordering::SeqCst) < count {
            tokio::time::sleep(Duration::from_millis(1)).await;
        }
    };
    timeout(LONG, all).await.expect("it is dropped");
}

/// `tokio::spawn` and `spawn_blocking`; `abort`, which drops the future.
#[tokio::test(flavor = "multi_thread", worker_threads = 2)]
async fn futures_and_functions_are_spawned() {
    let (our_request, drops) = (request(), Arc::new(AtomicUsize::new(0)));
    assert_eq!(tokio::spawn(async { 4 }).await.unwrap(), our_request.spawn(async { Ok::<_, Error>(4) }).await.unwrap());
    assert_eq!(tokio::task::spawn_blocking(|| 5).await.unwrap(), our_request.supply(|| 5).await.unwrap());
    let theirs = tokio::spawn(endless(&drops));
    theirs.abort();
    assert!(theirs.await.unwrap_err().is_cancelled());
    dropped(&drops, 1).await;
    let own = our_request.spawn(endless(&drops));
    own.cancel();
    assert!(own.await.unwrap_err().is_cancelled());
    dropped(&drops, 2).await;
}

/// A sender that is dropped ends its receiver. The other handles of a promise don't.
#[tokio::test(flavor = "multi_thread", worker_threads = 2)]
async fn a_promise_is_a_channel_for_one_value() {
    let (sender, receiver) = oneshot::channel();
    sender.send(4).unwrap();
    let promise = request().promise();
    promise.clone().complete(4).unwrap();
    assert_eq!(receiver.await.unwrap(), promise.await.unwrap());
    let (sender, receiver) = oneshot::channel::<i32>();
    drop(sender);
    assert!(receiver.await.is_err());
    let promise = request().promise::<i32>();
    drop(promise.clone());
    assert!(promise.now_or_never().is_none());
}

/// A shared future runs as far as it is polled, a stage by itself.
#[tokio::test(flavor = "multi_thread", worker_threads = 2)]
async fn a_stage_is_shared() {
    let runs = Arc::new(AtomicUsize::new(0));
    let count = |runs: &Arc<AtomicUsize>| {
        let runs = Arc::clone(runs);
        async move { Ok::<_, Error>(runs.fetch_add(1, Ordering::SeqCst)) }
    };
    let shared = count(&runs).boxed().shared();
    tokio::task::yield_now().await;
    assert_eq!(runs.load(Ordering::SeqCst), 0);
    assert_eq!((shared.clone().await.unwrap(), shared.await.unwrap()), (0, 0));
    let our_stage = request().spawn(count(&runs));
    dropped(&runs, 2).await;
    assert_eq!((our_stage.clone().await.unwrap(), our_stage.await.unwrap()), (1, 1));
}

#[tokio::test(flavor = "multi_thread", worker_threads = 2)]
async fn functions_are_attached() {
    let our_request = request();
    let (four, no) = (|| ready(Ok::<i32, &str>(4)), || ready(Err::<i32, &str>("no")));
    assert_eq!(four().map_ok(|n| n + 1).await, Ok(our_request.supply(|| 4).then(|n| n + 1).await.unwrap()));
    let theirs = four().and_then(|n| ready(Ok(n + 1))).await;
    let (our_stage, by) = (our_request.supply(|| 4), our_request.clone());
    assert_eq!(theirs, Ok(our_stage.clone().then_async(|n| ready(Ok::<_, Error>(*n + 1))).await.unwrap()));
    assert_eq!(theirs, Ok(our_stage.clone().compose(move |&n| by.supply(move || n + 1)).await.unwrap()));
    // As a `Result`'s own, this takes what gives a `Result`.
    let text = our_request.supply(|| "4");
    assert_eq!(Ok("4").and_then(str::parse::<i32>), Ok(text.and_then(|text| text.parse::<i32>()).await.unwrap()));
    let by = our_request.clone();
    assert_eq!(
        no().or_else(|_| ready(Ok::<_, &str>(7))).await,
        Ok(failed(&our_request, "no").recover_compose(move |_| by.supply(|| 7)).await.unwrap())
    );
    assert_eq!(no().unwrap_or_else(|_| 7).await, failed(&our_request, "no").recover(|_| 7).await.unwrap());
    assert_eq!(no().map(|told| told.is_err()).await, failed(&our_request, "no").handle(|told| told.is_err()).await.unwrap());
}

/// `try_join_all` ends with the first error that comes, `gather` with the first in its order, once all are settled. `join_all` gives each.
#[tokio::test(flavor = "multi_thread", worker_threads = 2)]
async fn all_are_joined() {
    let our_request = request();
    let stages = [our_request.supply(|| 1), our_request.supply(|| 2)];
    assert_eq!(try_join_all(stages.clone()).await.unwrap(), our_request.gather(&stages).await.unwrap());
    let both = futures::try_join!(stages[0].clone(), stages[1].clone()).unwrap();
    assert_eq!(both, stages[0].clone().combine(&stages[1], |a, b| (*a, *b)).await.unwrap());

    let (first, second, third) = (our_request.promise::<i32>(), failed(&our_request, "second"), failed(&our_request, "third"));
    let row = [first.clone(), third, second];
    assert_eq!(why(try_join_all(row.clone()).await), "third");
    let gathered = our_request.gather(&row);
    assert!(timeout(SHORT, gathered.clone()).await.is_err(), "not all are settled");
    let joined = tokio::spawn(join_all(row.clone()));
    assert!(first.fail("first"));
    assert_eq!(why(gathered.await), "first");
    let each: Vec<String> = joined.await.unwrap().into_iter().map(why).collect();
    assert_eq!(each, ["first", "third", "second"]);
}

/// `either` and `first_of` take the first that is settled, be it an error, as `select!` does; `select_ok` the first value, and does so over
/// stages, too.
#[tokio::test(flavor = "multi_thread", worker_threads = 2)]
async fn the_first_is_taken() {
    let our_request = request();
    let (late, bad) = (our_request.promise::<i32>(), failed(&our_request, "bad"));
    let row = [late.clone(), bad.clone()];
    assert_eq!(why(our_request.first_of(&row).await), "bad");
    assert_eq!(why(late.clone().either(&bad, |n| *n).await), "bad");
    tokio::select! {
        _ = late.clone() => panic!("it isn't settled"),
        told = bad.clone() => assert_eq!(why(told), "bad"),
    }
    let ok = tokio::spawn(select_ok(row));
    late.complete(4).unwrap();
    assert_eq!(ok.await.unwrap().unwrap().0, 4);
    let none = [bad, failed(&our_request, "worse")];
    assert_eq!(why(select_ok(none).await.map(|told| told.0)), "worse");
}

/// `select!` drops the futures that lose, and so ends them. Of a stage it drops a handle, and the stage goes on, unless that is a
/// `cancel_on_drop`.
#[tokio::test(flavor = "multi_thread", worker_threads = 2)]
async fn those_that_lose_go_on() {
    let (our_request, drops) = (request(), Arc::new(AtomicUsize::new(0)));
    tokio::select! {
        _ = endless(&drops) => panic!("it never ends"),
        n = ready(4) => assert_eq!(n, 4),
    }
    assert_eq!(drops.load(Ordering::SeqCst), 1);

    let our_stage = our_request.spawn(endless(&drops));
    let quick = our_request.supply(|| 4);
    tokio::select! {
        _ = our_stage.clone() => panic!("it never ends"),
        told = quick.clone() => assert_eq!(told.unwrap(), 4),
    }
    assert_eq!(our_request.first_of([&our_stage, &quick]).await.unwrap(), 4);
    assert!(!our_stage.is_settled());
    tokio::select! {
        _ = our_stage.clone().cancel_on_drop() => panic!("it never ends"),
        told = quick.clone().cancel_on_drop() => assert_eq!(told.unwrap(), 4),
    }
    assert!(our_stage.await.unwrap_err().is_cancelled());
    assert_eq!(quick.await.unwrap(), 4);
    dropped(&drops, 2).await;
}

/// The runtime's timeout ends the future that it has, which may be a stage's handle alone; `or_timeout` the stage, and what is behind it.
#[tokio::test(flavor = "multi_thread", worker_threads = 2)]
async fn timeouts_end_what_they_have() {
    let (our_request, drops) = (request(), Arc::new(AtomicUsize::new(0)));
    assert!(timeout(SHORT, endless(&drops)).await.is_err());
    assert_eq!(drops.load(Ordering::SeqCst), 1);
    let our_stage = our_request.spawn(endless(&drops));
    assert!(timeout(SHORT, our_stage.clone()).await.is_err());
    assert!(!our_stage.is_settled());
    let behind = our_stage.clone().then(|n| n + 1);
    assert!(our_stage.or_timeout(SHORT).await.unwrap_err().is_timeout());
    assert!(behind.await.unwrap_err().is_timeout());
    dropped(&drops, 2).await;
}

/// A future that is dropped ends what it awaits. `cancel_on_drop` cancels its stage for all who have a handle, and what is behind it; what that
/// stage hangs on goes on, and so does a function that runs.
#[tokio::test(flavor = "multi_thread", worker_threads = 2)]
async fn what_is_dropped_is_cancelled() {
    let (our_request, drops) = (request(), Arc::new(AtomicUsize::new(0)));
    let mut outer = endless(&drops).map_ok(|n| n + 1).boxed();
    assert!((&mut outer).now_or_never().is_none());
    drop(outer);
    assert_eq!(drops.load(Ordering::SeqCst), 1);

    let source = our_request.spawn(endless(&drops));
    let our_stage = source.clone().then(|n| n + 1);
    let (other, behind) = (our_stage.clone(), our_stage.clone().then(|n| n + 1));
    drop(our_stage);
    assert!(timeout(SHORT, other.clone()).await.is_err());
    drop(other.clone().cancel_on_drop());
    assert!(other.await.unwrap_err().is_cancelled() && behind.await.unwrap_err().is_cancelled());
    assert!(!source.is_settled());
    source.cancel();
    dropped(&drops, 2).await;

    let (begun, begins) = std::sync::mpsc::channel();
    let (ends, end) = std::sync::mpsc::channel();
    let (done, is_done) = oneshot::channel();
    let runs = Request::new("runs", Pool::new(1)).supply(move || {
        begun.send(()).unwrap();
        end.recv().unwrap();
        done.send(()).unwrap();
    });
    begins.recv().unwrap();
    drop(runs.clone().cancel_on_drop());
    ends.send(()).unwrap();
    is_done.await.unwrap();
    assert!(runs.await.unwrap_err().is_cancelled());
}
