//! Futures that stages' functions gave, and their wakers.
use crate::core::Core;
use crate::error::{Error, Panic, Refusal};
use crate::spawn::{mark_running, set_called, swallow_panic, Job, JobKind, CLOCK};
use crate::value::{Returned, StageResultFuture};
use std::panic::{catch_unwind, resume_unwind, AssertUnwindSafe};
use std::sync::atomic::{AtomicBool, AtomicU8, Ordering};
use std::sync::{Arc, Mutex, PoisonError, TryLockError};
use std::task::{Context, Poll, Wake, Waker};

/// A future that a stage's function gave. A stage that is settled otherwise drops it. It doesn't keep its request alive: its wakers do.
pub(crate) struct StageFuture {
    stage: u16,
    who: u8,
    /// Where it stands: [`RESTS`], [`QUEUED`], [`POLLED`] or [`WOKEN`].
    at: AtomicU8,
    is_stopped: AtomicBool,
    future: Mutex<Option<StageResultFuture>>,
}

/// Nobody has it, until a waker is called.
const RESTS: u8 = 0;
/// A job is to poll it, whatever wakes it by then.
const QUEUED: u8 = 1;
/// It is polled: no other job comes for it, so that a waker may be called in the midst of the poll, on any thread and by any executor.
const POLLED: u8 = 2;
/// It is polled, and is to be polled again.
const WOKEN: u8 = 3;

/// What a task's wakers are, and what is polled.
pub(crate) struct Polling {
    core: Arc<Core>,
    task: Arc<StageFuture>,
}

impl Polling {
    /// Polls a future for the first time, unless its stage is settled meanwhile.
    pub(crate) fn poll_first(core: &Arc<Core>, who: u8, stage: u16, future: StageResultFuture) {
        let (at, is_stopped) = (AtomicU8::new(QUEUED), AtomicBool::new(false));
        let task = Arc::new(StageFuture { stage, who, at, is_stopped, future: Mutex::new(Some(future)) });
        let mut inner = core.lock();
        let is_late = inner.slot(stage).is_settled();
        if !is_late {
            inner.extra(stage).task = Some(Arc::clone(&task));
        }
        drop(inner);
        if is_late {
            task.stop(core);
        } else {
            Arc::new(Polling { core: Arc::clone(core), task }).poll();
        }
    }

    pub(crate) fn poll(self: Arc<Polling>) {
        let (core, task) = (&self.core, &self.task);
        #[cfg(test)]
        crate::search::turn();
        // A worker that waits may have come before the job that was to do it.
        if task.at.compare_exchange(QUEUED, POLLED, Ordering::SeqCst, Ordering::SeqCst).is_err() {
            return;
        }
        let _running = mark_running(core, false);
        set_called(Some(task.stage));
        let waker = Waker::from(Arc::clone(&self));
        let mut held = task.future.lock().unwrap_or_else(PoisonError::into_inner);
        let polled = match held.as_mut() {
            None => return,
            Some(future) => catch_unwind(AssertUnwindSafe(|| future.as_mut().poll(&mut Context::from_waker(&waker)))),
        };
        let gave = match polled {
            Ok(Poll::Pending) => {
                drop(held);
                #[cfg(test)]
                crate::search::turn();
                // Who stopped it meanwhile found it held.
                if task.is_stopped.load(Ordering::SeqCst) {
                    return task.drop_future(core);
                }
                #[cfg(test)]
                crate::search::turn();
                if task.at.compare_exchange(POLLED, RESTS, Ordering::SeqCst, Ordering::SeqCst).is_err() {
                    task.at.store(QUEUED, Ordering::SeqCst);
                    self.ask_for_poll();
                }
                return;
            }
            Ok(Poll::Ready(gave)) => gave,
            Err(payload) => Returned::Error(Error::Panicked(Panic::new(payload))),
        };
        let ended = held.take();
        drop(held);
        swallow_panic(|| drop(ended));
        #[cfg(feature = "testing")]
        if let Some(watch) = &core.watch {
            return watch.take_returned(task.stage, gave);
        }
        core.finish(task.who, task.stage, gave);
    }

    /// Polls a future for which a job is to come yet.
    pub(crate) fn poll_again(core: &Arc<Core>, task: Arc<StageFuture>) {
        Arc::new(Polling { core: Arc::clone(core), task }).poll();
    }

    /// Lets a job poll it, or a worker that waits.
    fn ask_for_poll(self: Arc<Polling>) {
        let core = Arc::clone(&self.core);
        core.spawn(Job::new(JobKind::Poll(self)));
        core.wake_helpers();
    }

    /// Whose future it is.
    #[cfg(feature = "testing")]
    pub(crate) fn core_and_stage(&self) -> (&Arc<Core>, u16) {
        (&self.core, self.task.stage)
    }

    /// Lets its stage fail, since nobody polls it any more.
    pub(crate) fn refuse_stage(&self) {
        let _ = self.core.settle(CLOCK, self.task.stage, Err(Refusal::Closed.into()));
    }
}

impl StageFuture {
    pub(crate) fn is_queued(&self) -> bool {
        self.at.load(Ordering::SeqCst) == QUEUED
    }

    /// Drops the future, and gives its claim back. While it is polled, by this thread too, the poll's end does.
    pub(crate) fn stop(&self, core: &Arc<Core>) {
        #[cfg(test)]
        crate::search::turn();
        self.is_stopped.store(true, Ordering::SeqCst);
        #[cfg(test)]
        crate::search::turn();
        self.drop_future(core);
    }

    fn drop_future(&self, core: &Arc<Core>) {
        let future = match self.future.try_lock() {
            Ok(mut held) => held.take(),
            Err(TryLockError::Poisoned(held)) => held.into_inner().take(),
            Err(TryLockError::WouldBlock) => None,
        };
        if future.is_some() {
            let dropped = catch_unwind(AssertUnwindSafe(|| drop(future)));
            core.finish(self.who, self.stage, Returned::Error(Error::Cancelled));
            dropped.unwrap_or_else(|payload| resume_unwind(payload));
        }
    }
}

impl Wake for Polling {
    fn wake(self: Arc<Polling>) {
        #[cfg(test)]
        crate::search::turn();
        let woken = |at| match at {
            RESTS => Some(QUEUED),
            POLLED => Some(WOKEN),
            _ => None,
        };
        if self.task.at.fetch_update(Ordering::SeqCst, Ordering::SeqCst, woken) == Ok(RESTS) {
            self.ask_for_poll();
        }
    }
}

#[cfg(test)]
mod tests {
    use crate::{Error, Inline, Request};
    use std::panic::{catch_unwind, AssertUnwindSafe};
    use std::sync::Arc;

    #[test]
    fn a_future_whose_lock_a_panic_has_left_is_dropped() {
        let (alive, request) = (Arc::new(()), Request::new("left", Inline));
        let held = Arc::clone(&alive);
        let stage = request.spawn(async move {
            let _held = held;
            std::future::pending::<Result<i32, Error>>().await
        });
        let task = request.0.lock().extra(0).task.clone().expect("it is pending");
        let panics = || {
            let _future = task.future.lock();
            panic!("under the lock");
        };
        assert!(catch_unwind(AssertUnwindSafe(panics)).is_err());
        assert!(stage.cancel() && Arc::strong_count(&alive) == 1);
        let history = request.history().to_string();
        assert_eq!(history.matches("claims").count(), history.matches("finishes").count(), "{history}");
    }
}
