//! Functions that are called again once they have failed.
use crate::context::carry_context;
use crate::core::Core;
use crate::error::{BoxError, Error};
use crate::name::Made;
use crate::request::{await_future, Request, Within};
use crate::spawn::caller_number;
use crate::stage::Stage;
use crate::value::{CallArgs, Returned, StageFn};
use crate::word::WordForm;
use std::collections::hash_map::RandomState;
use std::fmt;
use std::future::Future;
use std::hash::{BuildHasher, Hasher};
use std::sync::{Arc, Weak};
use std::time::Duration;

/// How often a function is called, and with which pauses: what [`Request::retry`] takes. The pause before the second try is 100 ms, and each one
/// twice the one before; of each a random part is waited, half of it at least. A function is called again if it returned an error, unless that is a
/// cancellation or a refusal.
///
/// ```
/// use cf::Retry;
/// use std::time::Duration;
/// let retry = Retry::times(5).delay(Duration::from_millis(1)).factor(1.5).jitter(false).on(|error| error.is::<std::num::ParseIntError>());
/// let read = cf::Request::new("import 5", cf::Inline).retry(retry, || "49".parse::<u32>());
/// assert_eq!(read.wait().unwrap(), 49);
/// ```
#[derive(Clone)]
pub struct Retry {
    times: u32,
    delay: Duration,
    factor: f64,
    jitter: bool,
    on: Arc<dyn Fn(&Error) -> bool + Send + Sync>,
}

impl Retry {
    /// So many tries, the first one included.
    ///
    /// # Panics
    ///
    /// Where it is 0.
    ///
    /// ```
    /// let once = cf::Request::new("import 5", cf::Inline).retry(cf::Retry::times(1), || Err::<u32, _>("away"));
    /// assert_eq!(once.wait().unwrap_err().to_string(), "away");
    /// ```
    #[must_use]
    pub fn times(times: u32) -> Retry {
        assert!(times > 0, "0 tries can't be made");
        let on = |error: &Error| matches!(error, Error::Failed(_) | Error::TimedOut(_));
        Retry { times, delay: Duration::from_millis(100), factor: 2.0, jitter: true, on: Arc::new(on) }
    }

    /// The pause before the second try.
    ///
    /// ```
    /// let _ = cf::Retry::times(3).delay(std::time::Duration::from_millis(10));
    /// ```
    #[must_use]
    pub fn delay(self, delay: Duration) -> Retry {
        Retry { delay, ..self }
    }

    /// How many times as long as the one before each further pause is.
    ///
    /// # Panics
    ///
    /// Where it is below 0, infinite or not a number.
    ///
    /// ```
    /// let _ = cf::Retry::times(3).factor(1.0);
    /// ```
    #[must_use]
    pub fn factor(self, factor: f64) -> Retry {
        assert!(factor.is_finite() && factor >= 0.0, "{factor} can't be a factor");
        Retry { factor, ..self }
    }

    /// Whether a random part of each pause is waited, half of it at least, so that those who failed together don't come again together.
    ///
    /// ```
    /// let _ = cf::Retry::times(3).jitter(false);
    /// ```
    #[must_use]
    pub fn jitter(self, jitter: bool) -> Retry {
        Retry { jitter, ..self }
    }

    /// Behind which errors the function is called again. Others end the tries at once.
    ///
    /// ```
    /// let _ = cf::Retry::times(3).on(|error| error.is::<std::io::Error>());
    /// ```
    #[must_use]
    pub fn on(self, on: impl Fn(&Error) -> bool + Send + Sync + 'static) -> Retry {
        Retry { on: Arc::new(on), ..self }
    }

    /// The pause behind so many tries, of which this part is random.
    fn pause_behind(&self, tries: u32, random: f64) -> Duration {
        let part = if self.jitter { 0.5 + 0.5 * random } else { 1.0 };
        let seconds = self.delay.as_secs_f64() * self.factor.powf(f64::from(tries - 1)) * part;
        Duration::from_secs_f64(seconds.min(LONGEST))
    }
}

/// The longest pause, in seconds.
const LONGEST: f64 = u32::MAX as f64;

impl fmt::Debug for Retry {
    fn fmt(&self, f: &mut fmt::Formatter<'_>) -> fmt::Result {
        let Retry { times, delay, factor, jitter, .. } = self;
        f.debug_struct("Retry").field("times", times).field("delay", delay).field("factor", factor).field("jitter", jitter).finish_non_exhaustive()
    }
}

/// The tries of one function, in a scope of their own.
struct Tries {
    retry: Retry,
    made: Made,
    call: Box<dyn Fn() -> StageFn + Send + Sync>,
    request: Weak<Core>,
    scope: Within,
}

impl Request {
    /// Attaches a stage that calls the function until that gives a value, with pauses between its tries: the value, or the error of the last try.
    /// Earlier errors stand in the history, where each try is a stage. A stage that is cancelled or times out ends its tries and pauses. No thread
    /// waits in a pause. It takes 4 stages, and for each further try 4 more.
    ///
    /// ```
    /// use std::{sync::atomic::{AtomicU32, Ordering}, time::Duration};
    /// let (basket, asked) = (cf::Request::new("basket 3", cf::Inline), AtomicU32::new(0));
    /// let price = basket.retry(cf::Retry::times(3).delay(Duration::from_millis(1)), move || match asked.fetch_add(1, Ordering::SeqCst) {
    ///     0 => Err("away"),
    ///     _ => Ok(49),
    /// });
    /// assert_eq!(price.wait().unwrap(), 49);
    /// ```
    #[track_caller]
    pub fn retry<U, E, F>(&self, retry: Retry, f: F) -> Stage<U>
    where
        F: Fn() -> Result<U, E> + Send + Sync + 'static,
        U: Send + Sync + 'static,
        E: Into<BoxError>,
    {
        let f = Arc::new(f);
        let call = move || -> StageFn {
            let f = Arc::clone(&f);
            Box::new(move |_| Returned::from_result(f().map_err(|error| Error::from_boxed(error.into()))))
        };
        self.attach_tries(retry, Box::new(call), Made::of_function::<F>())
    }

    /// The same for a function that gives a future, which is polled as that of [`spawn`](Request::spawn) is.
    ///
    /// ```
    /// let basket = cf::Request::new("basket 3", cf::Inline);
    /// let price = basket.retry_async(cf::Retry::times(3), || async { Ok::<_, cf::Error>(49) });
    /// assert_eq!(price.wait().unwrap(), 49);
    /// ```
    #[track_caller]
    pub fn retry_async<U, E, Fut, F>(&self, retry: Retry, f: F) -> Stage<U>
    where
        F: Fn() -> Fut + Send + Sync + 'static,
        Fut: Future<Output = Result<U, E>> + Send + 'static,
        U: Send + Sync + 'static,
        E: Into<BoxError>,
    {
        let f = Arc::new(f);
        let call = move || -> StageFn {
            let f = Arc::clone(&f);
            Box::new(move |_| await_future(f()))
        };
        self.attach_tries(retry, Box::new(call), Made::of_function::<F>())
    }

    fn attach_tries<U: Send + Sync + 'static>(&self, retry: Retry, call: Box<dyn Fn() -> StageFn + Send + Sync>, made: Made) -> Stage<U> {
        let scope = self.open_scope(|| "tries");
        let tries = Arc::new(Tries { retry, made, call, request: Arc::downgrade(&self.0), scope: scope.map(Some) });
        let within = Request(Arc::clone(&self.0), scope.map(Some));
        let first = within.attach::<U>(WordForm::Supply, Some((tries.call)()), made);
        let all = self.attach_tried(&tries, first, 1);
        if let Ok(scope) = scope {
            match all.at {
                Ok(number) => {
                    self.0.cancel_relays_with(Ok(number), vec![number - 1]);
                    self.0.end_scope_with(scope, number);
                }
                Err(_) => drop(self.0.settle(caller_number(), scope, Err(Error::Cancelled))),
            }
        }
        all
    }

    /// A stage that ends as this try does, or as the next one.
    fn attach_tried<U: Send + Sync + 'static>(&self, tries: &Arc<Tries>, tried: Stage<U>, count: u32) -> Stage<U> {
        let its = Arc::clone(tries);
        let call = carry_context(Box::new(move |given| its.go_on::<U>(given, count)));
        let at = tried.at.and_then(|number| {
            let by = (caller_number(), self.1?);
            let made = Made::without_function(|| "retry");
            self.0.change(|inner, after| inner.attach_composing(by, WordForm::ExceptionallyCompose, number, call, made, after))
        });
        Stage::new(&self.0, at)
    }
}

impl Tries {
    /// What comes behind so many tries: the value, the error, or the next try.
    fn go_on<U: Send + Sync + 'static>(self: &Arc<Tries>, given: &CallArgs, count: u32) -> Returned {
        let error = match given.outcome() {
            Ok(value) => return Returned::Value(value.clone()),
            Err(error) => error,
        };
        let core = match self.request.upgrade() {
            Some(core) if count < self.retry.times && (self.retry.on)(error) => core,
            _ => return Returned::Error(error.clone()),
        };
        let wait = self.retry.pause_behind(count, random_part(&core));
        let within = Request(core, self.scope);
        let paused = within.promise().named("pause").complete_on_timeout((), wait);
        let next = paused.attach_behind::<U>(WordForm::Apply, (self.call)(), self.made);
        if count + 1 < self.retry.times {
            within.attach_tried(self, next, count + 1).into_returned()
        } else {
            next.into_returned()
        }
    }
}

/// A number from 0 to 1. It is 1 in a test's run, which has to go again as it went.
fn random_part(_core: &Core) -> f64 {
    #[cfg(feature = "testing")]
    if _core.watch.is_some() {
        return 1.0;
    }
    RandomState::new().build_hasher().finish() as f64 / u64::MAX as f64
}

#[cfg(test)]
mod tests {
    use super::*;

    #[test]
    fn pauses_grow_and_a_random_part_is_waited() {
        let retry = Retry::times(9).delay(Duration::from_millis(100)).factor(3.0);
        let milliseconds = |retry: &Retry, tries, random| retry.pause_behind(tries, random).as_secs_f64() * 1e3;
        for (tries, random, wanted) in [(1, 0.0, 50.0), (1, 1.0, 100.0), (2, 0.5, 225.0), (3, 1.0, 900.0)] {
            assert!((milliseconds(&retry, tries, random) - wanted).abs() < 0.01, "{tries} {random}");
        }
        let whole = retry.jitter(false);
        assert!((milliseconds(&whole, 2, 0.0) - 300.0).abs() < 0.01);
        assert_eq!(whole.pause_behind(u32::MAX, 0.0), Duration::from_secs_f64(LONGEST));
        assert_eq!(whole.delay(Duration::ZERO).pause_behind(4, 0.0), Duration::ZERO);
    }
}
