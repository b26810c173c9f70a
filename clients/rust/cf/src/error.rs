//! How a stage ends without a value.
use std::any::Any;
use std::error::Error as StdError;
use std::fmt;
use std::panic::resume_unwind;
use std::sync::{Arc, Mutex, PoisonError};
use std::time::Duration;

/// Any error that can go to another thread: what functions and [`Stage::fail`](crate::Stage::fail) take, `&str` and `String` too.
///
/// ```
/// use cf::{BoxError, Inline, Request};
/// let payment = Request::new("payment 4", Inline);
/// let paid = payment.try_supply(|| -> Result<u32, BoxError> { Ok("49".parse::<u32>()?) });
/// assert_eq!(paid.wait().unwrap(), 49);
/// ```
pub type BoxError = Box<dyn StdError + Send + Sync>;

/// How a stage ended without a value. A clone is one atomic count: all stages behind a failed one share its error.
///
/// ```
/// use cf::{Error, Inline, Request};
/// let payment = Request::new("payment 4", Inline);
/// match payment.try_supply(|| Err::<u32, _>("no stock")).wait() {
///     Err(Error::Failed(error)) => assert_eq!(error.to_string(), "no stock"),
///     other => panic!("{other:?}"),
/// }
/// ```
#[derive(Clone, Debug)]
#[non_exhaustive]
pub enum Error {
    /// A function returned this, or somebody failed the stage with it.
    Failed(Arc<dyn StdError + Send + Sync>),
    /// A function panicked.
    Panicked(Panic),
    /// The stage, or one that it hangs on, was cancelled.
    Cancelled,
    /// The stage, or one that it hangs on, wasn't settled so long after that was asked for.
    TimedOut(Duration),
    /// The stage, or one that it hangs on, was failed with this. No call of this crate does so by itself: a composing stage waits for any stage that
    /// its function gives, for good where that is itself.
    BadAnswer,
    /// The stage isn't part of its request, or no longer.
    Refused(Refusal),
}

/// Why a stage was never made, or never settles by itself.
///
/// ```
/// use cf::{Inline, Refusal, Request};
/// let payment = Request::new("payment 4", Inline);
/// let full = (0..4096).map(|_| payment.promise::<u32>()).count();
/// assert_eq!(full, 4096);
/// assert!(matches!(payment.promise::<u32>().wait(), Err(cf::Error::Refused(Refusal::Full))));
/// ```
#[derive(Clone, Copy, Debug, PartialEq, Eq, Hash)]
#[non_exhaustive]
pub enum Refusal {
    /// A request has at most 4,096 stages.
    Full,
    /// The scope in which it was to be attached has ended.
    ScopeEnded,
    /// Whoever runs the functions takes no more of them.
    Closed,
    /// The library refused memory, or isn't the one that this crate was written for.
    NoLedger,
    /// The clock dropped the timeout that would have settled it, as one does whose runtime is shut down.
    NoClock,
}

/// What a function panicked with. Clones share the payload, which one of them can take.
///
/// ```
/// use cf::{Error, Inline, Request};
/// let payment = Request::new("payment 4", Inline);
/// let paid = payment.supply(|| -> u32 { std::panic::panic_any(404_u16) });
/// let panic = match paid.wait() {
///     Err(Error::Panicked(panic)) => panic,
///     other => panic!("{other:?}"),
/// };
/// assert_eq!(*panic.take_payload().unwrap().downcast::<u16>().unwrap(), 404);
/// assert!(panic.take_payload().is_none());
/// ```
#[derive(Clone)]
pub struct Panic(Arc<Panicked>);

struct Panicked {
    message: Box<str>,
    payload: Mutex<Option<Box<dyn Any + Send>>>,
}

impl Panic {
    pub(crate) fn new(payload: Box<dyn Any + Send>) -> Panic {
        let message = payload.downcast_ref::<&str>().copied().or_else(|| payload.downcast_ref::<String>().map(String::as_str));
        let message = message.unwrap_or("something that isn't text").into();
        Panic(Arc::new(Panicked { message, payload: Mutex::new(Some(payload)) }))
    }

    /// Its message, where the payload is a text.
    ///
    /// ```
    /// # use cf::{Error, Inline, Request};
    /// let paid = Request::new("payment 4", Inline).supply(|| -> u32 { panic!("at {}", 5) });
    /// assert!(matches!(paid.wait(), Err(Error::Panicked(panic)) if panic.message() == "at 5"));
    /// ```
    pub fn message(&self) -> &str {
        &self.0.message
    }

    /// Its payload, for the first who asks.
    pub fn take_payload(&self) -> Option<Box<dyn Any + Send>> {
        self.0.payload.lock().unwrap_or_else(PoisonError::into_inner).take()
    }

    /// Lets this thread panic with the payload, or with the message where that was taken.
    ///
    /// ```should_panic
    /// # use cf::{Error, Inline, Request};
    /// let paid = Request::new("payment 4", Inline).supply(|| -> u32 { panic!("at {}", 5) });
    /// if let Err(Error::Panicked(panic)) = paid.wait() {
    ///     panic.resume();
    /// }
    /// ```
    pub fn resume(&self) -> ! {
        let payload = self.take_payload();
        resume_unwind(payload.unwrap_or_else(|| Box::new(self.message().to_owned())))
    }
}

impl fmt::Debug for Panic {
    fn fmt(&self, f: &mut fmt::Formatter<'_>) -> fmt::Result {
        write!(f, "Panic({:?})", self.message())
    }
}

impl Error {
    /// The error of this type that a function returned, if it was one.
    ///
    /// ```
    /// # use std::num::ParseIntError;
    /// let payment = cf::Request::new("payment 4", cf::Inline);
    /// let error = payment.try_supply(|| "x".parse::<i32>()).wait().unwrap_err();
    /// assert_eq!(error.downcast_ref::<ParseIntError>().unwrap().to_string(), "invalid digit found in string");
    /// ```
    pub fn downcast_ref<E: StdError + 'static>(&self) -> Option<&E> {
        match self {
            Error::Failed(error) => error.downcast_ref(),
            _ => None,
        }
    }

    /// Whether it is an error of this type that a function returned.
    ///
    /// ```
    /// let payment = cf::Request::new("payment 4", cf::Inline);
    /// assert!(payment.try_supply(|| "x".parse::<i32>()).wait().unwrap_err().is::<std::num::ParseIntError>());
    /// ```
    pub fn is<E: StdError + 'static>(&self) -> bool {
        self.downcast_ref::<E>().is_some()
    }

    /// Whether it is a cancellation.
    ///
    /// ```
    /// let paid = cf::Request::new("payment 4", cf::Inline).promise::<u32>();
    /// paid.cancel();
    /// assert!(paid.wait().unwrap_err().is_cancelled());
    /// ```
    pub fn is_cancelled(&self) -> bool {
        matches!(self, Error::Cancelled)
    }

    /// Whether it is a timeout.
    ///
    /// ```
    /// let paid = cf::Request::new("payment 4", cf::Inline).promise::<u32>().or_timeout(std::time::Duration::from_millis(1));
    /// assert!(paid.wait().unwrap_err().is_timeout());
    /// ```
    pub fn is_timeout(&self) -> bool {
        matches!(self, Error::TimedOut(_))
    }

    /// Of what a function returned. An `Error` that it passes on by `?` stays what it is.
    pub(crate) fn from_boxed(error: BoxError) -> Error {
        match error.downcast::<Error>() {
            Ok(own) => *own,
            Err(error) => Error::Failed(error.into()),
        }
    }
}

impl fmt::Display for Error {
    fn fmt(&self, f: &mut fmt::Formatter<'_>) -> fmt::Result {
        match self {
            Error::Failed(error) => error.fmt(f),
            Error::Panicked(panic) => write!(f, "a function panicked: {}", panic.message()),
            Error::Cancelled => f.write_str("cancelled"),
            Error::TimedOut(after) => write!(f, "timed out after {after:?}"),
            Error::BadAnswer => f.write_str("a stage can't wait for that stage"),
            Error::Refused(why) => why.fmt(f),
        }
    }
}

impl StdError for Error {
    fn source(&self) -> Option<&(dyn StdError + 'static)> {
        match self {
            Error::Failed(error) => error.source(),
            _ => None,
        }
    }
}

impl fmt::Display for Refusal {
    fn fmt(&self, f: &mut fmt::Formatter<'_>) -> fmt::Result {
        f.write_str(match self {
            Refusal::Full => "a request has at most 4,096 stages",
            Refusal::ScopeEnded => "the scope has ended",
            Refusal::Closed => "no more functions are run",
            Refusal::NoLedger => "the library gave no ledger",
            Refusal::NoClock => "its clock dropped the timeout",
        })
    }
}

impl StdError for Refusal {}

impl From<Refusal> for Error {
    fn from(why: Refusal) -> Error {
        Error::Refused(why)
    }
}
