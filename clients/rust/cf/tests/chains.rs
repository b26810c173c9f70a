//! Chains of stages and of requests that are longer than a stack: settled, refused, dropped.
mod common;

use cf::{Error, HandClock, Inline, Job, Refusal, Request, Spawn, Stage};
use common::comes_back;
use std::future::pending;
use std::sync::Arc;

/// Requests that each take over a stage of the one before.
fn row(length: usize) -> (Stage<i32>, Stage<i32>) {
    let first_link = Request::new("row", Inline).promise::<i32>();
    let mut last_link = first_link.clone();
    for _ in 0..length {
        last_link = Request::try_new("row", Arc::new(Inline), Arc::new(HandClock::new()), 1).unwrap().adopt(&last_link);
    }
    (first_link, last_link)
}

#[test]
fn a_long_row_of_requests_is_settled_and_dropped() {
    comes_back(|| {
        let (first_link, last_link) = row(3_000);
        first_link.complete(5).unwrap();
        assert_eq!(last_link.wait().unwrap(), 5);
        let (first_link, last_link) = row(3_000);
        drop(last_link);
        drop(first_link);
    });
}

/// Requests each of which has the one before by a value, by a function that waits, or by a future.
#[test]
fn a_long_row_of_requests_that_hold_one_another_is_dropped() {
    for how in 0..3 {
        comes_back(move || {
            let request = || Request::try_new("row", Arc::new(Inline), Arc::new(HandClock::new()), 2).unwrap();
            let mut last_link = request().promise::<i32>();
            for _ in 0..5_000 {
                let (next, before) = (request(), last_link);
                last_link = next.promise();
                match how {
                    0 => assert!(next.promise().complete(Some(before)).is_ok()),
                    1 => drop(last_link.clone().then(move |_| before.is_settled())),
                    // One that waited for the one before would be kept by the waker that this one has of it.
                    _ => drop(next.spawn(async move {
                        pending::<()>().await;
                        before.await
                    })),
                }
            }
            drop(last_link);
        });
    }
}

/// Each function is refused, and makes the next one ready by that: by an executor that gives jobs back, and by one that drops them.
#[test]
fn a_long_row_behind_a_closed_executor_is_refused() {
    struct Closed(bool);
    impl Spawn for Closed {
        fn spawn(&self, job: Job) -> Result<(), Job> {
            if self.0 {
                return Err(job);
            }
            Ok(())
        }
    }
    for gives_back in [true, false] {
        comes_back(move || {
            let first_link = Request::new("closed", Closed(gives_back)).promise::<i32>();
            let last_link = (1..4096).fold(first_link.clone(), |last_link, _| last_link.recover(|_| 1));
            first_link.cancel();
            assert!(matches!(last_link.wait(), Err(Error::Refused(cf::Refusal::Closed))));
        });
    }
}

#[test]
fn a_full_request_refuses_and_goes_on() {
    let full = Request::new("full", Inline);
    let first_link = full.promise::<i32>();
    let mut last_link = first_link.clone();
    for _ in 1..4096 {
        last_link = last_link.then(|n| n + 1);
    }
    let over = last_link.clone().then(|n| n + 1);
    assert!(matches!(over.wait(), Err(Error::Refused(Refusal::Full))));
    assert!(matches!(over.clone().recover(|_| 1).wait(), Err(Error::Refused(Refusal::Full))));
    assert!(matches!(full.gather([&first_link, &over]).wait(), Err(Error::Refused(Refusal::Full))));
    assert_eq!(over.number(), None);
    first_link.complete(0).unwrap();
    assert_eq!(last_link.wait().unwrap(), 4095, "the stack stays flat");
    assert!(full.history().is_reproducible());
}
