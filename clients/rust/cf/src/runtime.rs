//! tokio's threads and its clock.
use crate::clock::{Alarm, Clock};
use crate::spawn::{Job, Spawn, StandIn};
use std::time::Duration;
use tokio::runtime::{Handle, RuntimeFlavor};
use tokio::task::JoinHandle;
use tokio::time::Instant;

/// Functions on tokio's threads for blocking work.
///
/// ```
/// # let runtime = tokio::runtime::Runtime::new().unwrap();
/// # runtime.block_on(async {
/// let download = cf::Request::new("download 6", cf::Blocking::new(tokio::runtime::Handle::current(), 8));
/// assert_eq!(download.supply(|| 20).then(|n| n + 1).await.unwrap(), 21);
/// # });
/// ```
#[derive(Clone, Debug)]
pub struct Blocking {
    runtime: Handle,
    most: usize,
}

impl Blocking {
    /// On this runtime, with at most so many functions of a request at a time. [`Blocking`] has an example.
    pub fn new(runtime: Handle, most: usize) -> Blocking {
        Blocking { runtime, most: most.max(1) }
    }
}

impl Spawn for Blocking {
    fn spawn(&self, job: Job) -> Result<(), Job> {
        self.runtime.spawn_blocking(move || job.run());
        Ok(())
    }

    fn parallelism(&self) -> usize {
        self.most
    }
}

/// Functions that don't block, and futures, as tasks of tokio. One that waits for a stage hands its thread's place over, as
/// [`tokio::task::block_in_place`] does; a runtime of one thread has none, and goes on with what the stage needs alone.
///
/// ```
/// # let runtime = tokio::runtime::Runtime::new().unwrap();
/// # runtime.block_on(async {
/// let download = cf::Request::new("download 6", cf::Tasks::new(tokio::runtime::Handle::current(), 8));
/// let stage = download.spawn(async { Ok::<_, cf::Error>(20) }).then(|n| n + 1);
/// assert_eq!(stage.await.unwrap(), 21);
/// # });
/// ```
#[derive(Clone, Debug)]
pub struct Tasks {
    runtime: Handle,
    most: usize,
}

impl Tasks {
    /// On this runtime, with at most so many tasks of a request at a time. [`Tasks`] has an example.
    pub fn new(runtime: Handle, most: usize) -> Tasks {
        Tasks { runtime, most: most.max(1) }
    }
}

impl Spawn for Tasks {
    fn spawn(&self, job: Job) -> Result<(), Job> {
        let stands_in = match self.runtime.runtime_flavor() {
            RuntimeFlavor::MultiThread => StandIn::Tokio,
            _ => StandIn::Nobody,
        };
        self.runtime.spawn(async move { stands_in.stand_in_during(|| job.run()) });
        Ok(())
    }

    fn parallelism(&self) -> usize {
        self.most
    }
}

/// Panics where this thread is driving tasks of a runtime, as tokio's own calls do that block.
pub(crate) fn may_block() {
    if let Ok(runtime) = Handle::try_current() {
        runtime.block_on(async {});
    }
}

/// tokio's clock, which its tests can pause.
///
/// ```
/// # let runtime = tokio::runtime::Builder::new_current_thread().enable_time().build().unwrap();
/// # runtime.block_on(async {
/// use std::{sync::Arc, time::Duration};
/// let handle = tokio::runtime::Handle::current();
/// let download = cf::Request::with_clock("download 6", Arc::new(cf::Tasks::new(handle.clone(), 8)), Arc::new(cf::TokioClock::new(handle)));
/// assert!(download.promise::<u32>().or_timeout(Duration::from_millis(5)).await.unwrap_err().is_timeout());
/// # });
/// ```
#[derive(Clone, Debug)]
pub struct TokioClock {
    runtime: Handle,
    begun: Instant,
}

impl TokioClock {
    /// The clock of this runtime, whose timers have to be enabled. [`TokioClock`] has an example.
    pub fn new(runtime: Handle) -> TokioClock {
        TokioClock { runtime, begun: Instant::now() }
    }
}

impl Clock for TokioClock {
    fn now(&self) -> Duration {
        self.begun.elapsed()
    }

    fn ring_after(&self, wait: Duration, alarm: Alarm) {
        let (core, number) = (alarm.core.clone(), alarm.number);
        let task = self.runtime.spawn(async move {
            tokio::time::sleep(wait).await;
            alarm.ring();
        });
        if let Some(core) = core.upgrade() {
            core.keep_timer(number, Box::new(Stops(task)));
        }
    }
}

/// Stops a timer that nobody wants any more.
struct Stops(JoinHandle<()>);

impl Drop for Stops {
    fn drop(&mut self) {
        self.0.abort();
    }
}

#[cfg(test)]
mod tests {
    use super::*;
    use crate::{HandClock, Inline, Request, Stage};
    use std::sync::Arc;
    use std::task::{Context, Poll};

    const LONG: Duration = Duration::from_secs(3600);

    /// A future of the runtime's end of all timers of a request: an alarm that is there has it weakly.
    async fn no_timer_is_left(request: &Request) {
        for _ in 0..1000 {
            if Arc::weak_count(&request.0) == 0 {
                return;
            }
            tokio::task::yield_now().await;
        }
        panic!("{} timers are left", Arc::weak_count(&request.0));
    }

    #[test]
    fn the_timer_of_a_settled_stage_is_stopped() {
        let runtime = tokio::runtime::Builder::new_current_thread().enable_time().build().unwrap();
        runtime.block_on(async {
            let clock = Arc::new(TokioClock::new(Handle::current()));
            let request = Request::with_clock("timers", Arc::new(Inline), clock);
            let stages: Vec<Stage<i32>> = (0..4).map(|_| request.promise().or_timeout(LONG).complete_on_timeout(1, LONG)).collect();
            tokio::task::yield_now().await;
            assert_eq!(Arc::weak_count(&request.0), 1, "one timer serves all");
            stages[0].complete(1).unwrap();
            assert!(stages[1].fail("no") && stages[2].cancel());
            tokio::task::yield_now().await;
            assert_eq!(Arc::weak_count(&request.0), 1);
            drop(stages[3].clone().or_timeout(Duration::from_millis(1)).await);
            no_timer_is_left(&request).await;
            drop(stages[3].clone().or_timeout(LONG));
            no_timer_is_left(&request).await;
        });
    }

    /// An earlier timeout has a timer in the place of the one before, and a later one gets its own once that is over.
    #[test]
    fn a_request_has_one_timer_at_a_time() {
        let runtime = tokio::runtime::Builder::new_current_thread().enable_time().build().unwrap();
        runtime.block_on(async {
            let request = Request::with_clock("timers", Arc::new(Inline), Arc::new(TokioClock::new(Handle::current())));
            let [late, early, next]: [Stage<i32>; 3] =
                [LONG, Duration::from_millis(1), Duration::from_millis(20)].map(|wait| request.promise().or_timeout(wait));
            tokio::task::yield_now().await;
            assert_eq!(Arc::weak_count(&request.0), 1);
            assert!(early.await.unwrap_err().is_timeout() && !next.is_settled());
            assert!(next.await.unwrap_err().is_timeout());
            tokio::task::yield_now().await;
            assert_eq!(Arc::weak_count(&request.0), 1);
            assert!(late.cancel());
            no_timer_is_left(&request).await;
        });
    }

    /// The request goes while its stage is pending, and the timers go with it, whose memory they keep.
    #[test]
    fn the_timers_of_a_request_that_is_gone_are_stopped() {
        let runtime = tokio::runtime::Builder::new_current_thread().enable_time().build().unwrap();
        runtime.block_on(async {
            let alive = Arc::new(());
            let request = Request::with_clock("gone", Arc::new(Inline), Arc::new(HandClock::new()));
            let held = Arc::clone(&alive);
            let task = tokio::spawn(async move {
                let _held = held;
                std::future::poll_fn(|_: &mut Context<'_>| Poll::<()>::Pending).await;
            });
            let stage = request.promise::<i32>().or_timeout(LONG);
            request.0.keep_timer(1, Box::new(Stops(task)));
            tokio::task::yield_now().await;
            assert_eq!(Arc::strong_count(&alive), 2);
            drop((stage, request));
            for _ in 0..1000 {
                tokio::task::yield_now().await;
            }
            assert_eq!(Arc::strong_count(&alive), 1);
        });
    }

    #[test]
    fn as_many_tasks_as_asked_for_and_at_least_one() {
        let runtime = tokio::runtime::Builder::new_current_thread().build().unwrap();
        assert_eq!([0, 1, 2].map(|most| Tasks::new(runtime.handle().clone(), most).parallelism()), [1, 1, 2]);
    }
}
