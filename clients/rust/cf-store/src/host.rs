//! What a service takes from its surroundings: time, threads, chance, and the calls of functions. A search of all orders has its own.
use crate::error::{Failed, StoreError};
use crate::functions::failed_by_panic;
use crate::request::Returned;
use crate::service::ServiceJob;
use crate::view::RowView;
use std::panic::{catch_unwind, AssertUnwindSafe};
use std::sync::{Arc, Mutex};
use std::thread;
use std::time::{Duration, Instant};

/// The real clock, threads and chance.
#[derive(Debug)]
pub(crate) struct RealHost;

impl Host for RealHost {}

pub(crate) trait Host: Send + Sync {
    /// The time now, which never goes back.
    fn now(&self) -> Instant {
        Instant::now()
    }

    /// Sleeps.
    fn sleep(&self, wait: Duration) {
        thread::sleep(wait);
    }

    /// A random number of this many bits.
    fn random_bits(&self, bits: u32) -> u64 {
        let mut bytes = [0; 8];
        getrandom::getrandom(&mut bytes).expect("the system has random numbers");
        u64::from_ne_bytes(bytes) >> (64 - bits)
    }

    /// Whether a service starts threads of its own.
    fn has_threads(&self) -> bool {
        true
    }

    /// Takes a job, or gives it back to the service's own threads.
    fn take_job(&self, job: ServiceJob) -> Option<ServiceJob> {
        Some(job)
    }

    /// Lets other threads of a search go on until a view is free.
    fn wait_until_free(&self, _view: &Arc<Mutex<RowView>>) {}

    /// Lets other threads of a search go on until `is_so`, for `wait` at most.
    fn wait_until(&self, _name: &str, _is_so: Arc<dyn Fn() -> bool + Send + Sync>, _wait: Option<Duration>) {}

    /// Calls a registered function. A panic is a failure.
    fn call_function(&self, _name: &str, call: &mut dyn FnMut() -> Result<Returned, Failed>) -> Result<Returned, Failed> {
        catch_unwind(AssertUnwindSafe(call)).unwrap_or_else(|panic| Err(failed_by_panic(&*panic)))
    }

    /// Notes that a word of this process stands at a place of a request. `granted` is the stage that it claims, if it does.
    fn note_standing(&self, _request: &str, _place: usize, _word: u64, _granted: Option<u16>) {}

    /// Warns that something can't be done now in a request.
    fn warn(&self, tells: fn(&str), _request: &str, text: &str) {
        tells(text);
    }

    /// Notes that a request is broken or gone.
    fn note_broken(&self, _error: &StoreError) {}
}
