//! What tokio's `JoinSet` does in its examples and tests, by scopes. GUIDE.md says what differs.
use cf::{Error, Request, Scope, Stage, Tasks};
use futures::stream::{FuturesUnordered, StreamExt};
use std::future::pending;
use std::sync::atomic::{AtomicUsize, Ordering};
use std::sync::Arc;
use std::time::Duration;
use tokio::runtime::Handle;
use tokio::sync::oneshot;
use tokio::time::sleep;

const SHORT: Duration = Duration::from_millis(5);

fn scope() -> Scope {
    Request::new("set", Tasks::new(Handle::current(), 16)).scope()
}

/// Drops count.
struct Counts(Arc<AtomicUsize>);

impl Drop for Counts {
    fn drop(&mut self) {
        self.0.fetch_add(1, Ordering::SeqCst);
    }
}

/// The first example of `JoinSet`: ten tasks, each of which is seen, in whatever order they end.
#[tokio::test(flavor = "multi_thread", worker_threads = 2)]
async fn spawns_and_joins_each() {
    let scope = scope();
    let mut set: FuturesUnordered<Stage<usize>> = (0..10).map(|k| scope.spawn(async move { Ok::<_, Error>(k) })).collect();
    let mut seen = [false; 10];
    while let Some(told) = set.next().await {
        seen[told.unwrap()] = true;
    }
    assert_eq!(seen, [true; 10]);
}

/// `with_sleep`: a set that was emptied is used again. Here so is the scope, until it is joined.
#[tokio::test]
async fn is_used_again_once_all_have_ended() {
    let scope = scope();
    for wait in [Duration::ZERO, SHORT] {
        let spawned = (0..10).map(|_| {
            scope.spawn(async move {
                sleep(wait).await;
                Ok::<_, Error>(())
            })
        });
        let mut set: FuturesUnordered<Stage<()>> = spawned.collect();
        let mut count = 0;
        while let Some(told) = set.next().await {
            told.unwrap();
            count += 1;
        }
        assert_eq!((count, set.next().await.is_none()), (10, true));
    }
    scope.join().await.unwrap();
}

/// `abort_on_drop`: who waits for a task's end is told, since its future was dropped. Here it was in the same call.
#[tokio::test]
async fn is_aborted_by_a_drop() {
    let (scope, dropped) = (scope(), Arc::new(AtomicUsize::new(0)));
    let (mut ends, mut begins) = (Vec::new(), Vec::new());
    for _ in 0..16 {
        let ((says, end), (begun, begin), counts) = (oneshot::channel::<()>(), oneshot::channel(), Counts(Arc::clone(&dropped)));
        drop(scope.spawn(async move {
            let _held = (says, counts);
            begun.send(()).unwrap();
            pending::<Result<(), Error>>().await
        }));
        ends.push(end);
        begins.push(begin);
    }
    for begin in begins {
        begin.await.unwrap();
    }
    drop(scope);
    for end in ends {
        assert!(end.await.is_err());
    }
    assert_eq!(dropped.load(Ordering::SeqCst), 16);
}

/// `alternating`: one is spawned, and one is joined.
#[tokio::test]
async fn spawns_one_and_joins_one() {
    let scope = scope();
    let spawns = || scope.spawn(async { Ok::<_, Error>(()) });
    let mut set: FuturesUnordered<Stage<()>> = (0..2).map(|_| spawns()).collect();
    for _ in 0..16 {
        set.next().await.unwrap().unwrap();
        set.push(spawns());
        assert_eq!(set.len(), 2);
    }
}

/// `abort_tasks`: some of them, by their handles. That doesn't fail the others, nor the join.
#[tokio::test]
async fn some_are_aborted() {
    let (scope, (opens, gate)) = (scope(), oneshot::channel::<()>());
    let gate = scope.spawn(async move { gate.await.map_err(|_| "closed") });
    let stages: Vec<Stage<u32>> = (0..16).map(|k| gate.clone().then(move |()| k)).collect();
    stages.iter().step_by(2).for_each(|stage| assert!(stage.cancel()));
    opens.send(()).unwrap();
    scope.join().await.unwrap();
    for (k, stage) in (0_u32..).zip(&stages) {
        match stage.peek().unwrap() {
            Ok(value) => assert!(k % 2 == 1 && value == k),
            Err(error) => assert!(k % 2 == 0 && error.is_cancelled()),
        }
    }
}

/// `abort_all`, `shutdown`: those that have ended keep their results. Here a scope that has ended takes no more.
#[tokio::test]
async fn all_are_aborted() {
    let scope = scope();
    let quick: Vec<Stage<usize>> = (0..5).map(|k| scope.spawn(async move { Ok::<_, Error>(k) })).collect();
    let slow: Vec<Stage<usize>> = (0..5).map(|_| scope.spawn(pending::<Result<usize, Error>>())).collect();
    for (k, stage) in quick.iter().enumerate() {
        assert_eq!(stage.clone().await.unwrap(), k);
    }
    scope.end();
    assert!(slow.iter().all(|stage| stage.peek().unwrap().unwrap_err().is_cancelled()));
    assert!(quick.iter().all(|stage| stage.peek().unwrap().is_ok()));
    assert!(scope.promise::<u32>().is_settled());
}

/// `join_all`: the values by order. A task that panics is an error, for who asks and for who joins.
#[tokio::test]
async fn all_are_joined() {
    let scope = scope();
    let stages: Vec<Stage<u64>> = (0..3)
        .map(|k| {
            scope.spawn(async move {
                sleep((3 - k as u32) * SHORT).await;
                Ok::<_, Error>(k)
            })
        })
        .collect();
    assert_eq!(scope.all(&stages).await.unwrap(), [0, 1, 2]);
    let panics = scope.spawn(async { panic!("in a task") as Result<u64, Error> });
    assert!(matches!(panics.await, Err(Error::Panicked(panic)) if panic.message() == "in a task"));
    drop(scope.spawn(async { panic!("unseen") as Result<u64, Error> }));
    let slow = scope.spawn(pending::<Result<u64, Error>>());
    assert!(matches!(scope.join().await, Err(Error::Panicked(panic)) if panic.message() == "unseen"));
    assert!(slow.is_settled());
}

/// A join that is given up, as by `select!`: `join_next` loses nothing then; a scope ends.
#[tokio::test]
async fn a_join_that_is_given_up() {
    let scope = scope();
    let slow = scope.spawn(pending::<Result<u64, Error>>());
    tokio::select! {
        _ = scope.join() => panic!("it never ends"),
        () = sleep(SHORT) => {}
    }
    assert!(slow.peek().unwrap().unwrap_err().is_cancelled());
}
