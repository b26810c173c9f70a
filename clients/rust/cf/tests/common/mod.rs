//! What several tests use: a limit of time, wakers that panic or count, drops that panic or look, futures that wake themselves, executors that
//! keep jobs.
#![allow(dead_code)] // (each test takes a part)
use cf::{Error, Job, Spawn, Stage};
use std::future::Future;
use std::panic::{catch_unwind, panic_any, resume_unwind, AssertUnwindSafe};
use std::pin::Pin;
use std::sync::atomic::{AtomicUsize, Ordering};
use std::sync::mpsc::channel;
use std::sync::{Arc, Mutex};
use std::task::{Context, Poll, Wake, Waker};
use std::thread;
use std::time::Duration;

/// Longer than a machine at its limit takes.
pub const LONG: Duration = Duration::from_secs(60);
pub const SHORT: Duration = Duration::from_millis(20);

/// Does it on a thread of its own. It has to come back.
pub fn comes_back<T: Send + 'static>(act: impl FnOnce() -> T + Send + 'static) -> T {
    let (ends, end) = channel();
    let thread = thread::spawn(move || {
        let ended = catch_unwind(AssertUnwindSafe(act));
        ends.send(()).unwrap();
        ended
    });
    end.recv_timeout(LONG).expect("it rests for good");
    thread.join().unwrap().unwrap_or_else(|payload| resume_unwind(payload))
}

pub struct Panics;

impl Wake for Panics {
    fn wake(self: Arc<Self>) {
        panic!("in a waker");
    }
}

/// Panics as it is dropped.
pub struct Drops;

impl Drop for Drops {
    fn drop(&mut self) {
        panic!("in a drop");
    }
}

/// A waker that panics with what panics as it is dropped.
pub struct Throws;

impl Wake for Throws {
    fn wake(self: Arc<Self>) {
        panic_any(Drops);
    }
}

/// Looks at a stage as it is dropped.
pub struct Looks(pub Stage<i32>);

impl Drop for Looks {
    fn drop(&mut self) {
        assert!(self.0.is_settled());
    }
}

#[derive(Default)]
pub struct Counts(pub AtomicUsize);

impl Wake for Counts {
    fn wake(self: Arc<Self>) {
        self.0.fetch_add(1, Ordering::SeqCst);
    }
}

impl Counts {
    pub fn polls<T: Clone + Send + Sync + 'static>(self: &Arc<Counts>, stage: &mut Stage<T>) -> bool {
        poll(stage, &Waker::from(Arc::clone(self)))
    }

    pub fn count(&self) -> usize {
        self.0.load(Ordering::SeqCst)
    }
}

pub fn poll<T: Clone + Send + Sync + 'static>(stage: &mut Stage<T>, waker: &Waker) -> bool {
    Pin::new(stage).poll(&mut Context::from_waker(waker)).is_ready()
}

/// Pending so often, each time with a call of its own waker.
pub struct Yields(pub usize);

impl Future for Yields {
    type Output = Result<i32, Error>;

    fn poll(mut self: Pin<&mut Yields>, cx: &mut Context<'_>) -> Poll<Result<i32, Error>> {
        if self.0 == 0 {
            return Poll::Ready(Ok(5));
        }
        self.0 -= 1;
        cx.waker().wake_by_ref();
        Poll::Pending
    }
}

/// Runs each job at once, and keeps none.
pub struct Directly;

impl Spawn for Directly {
    fn spawn(&self, job: Job) -> Result<(), Job> {
        job.run();
        Ok(())
    }
}

/// Keeps each job until it is asked to let them go.
#[derive(Clone, Default)]
pub struct Keeps(pub Arc<Mutex<Vec<Job>>>);

impl Spawn for Keeps {
    fn spawn(&self, job: Job) -> Result<(), Job> {
        self.0.lock().unwrap().push(job);
        Ok(())
    }
}
