//! How a stage ends without a value, and what a store refuses.
use cf_graph::Refused;
use serde::{Deserialize, Serialize};
use serde_json::Value;
use std::fmt;

/// What a store, or a row in it, refuses.
#[derive(Clone, Debug, PartialEq, Eq)]
#[non_exhaustive]
pub enum StoreError {
    /// The store didn't answer for a minute, or can't write now. What was asked may have been done or not. The same may be asked again.
    Unknown(String),
    /// The row of a request can't be gone on with.
    Broken {
        /// The request's name.
        request: String,
        /// The word that is at fault, counted from 1, or 0 for its plan.
        place: usize,
        /// What is wrong.
        why: String,
    },
    /// The store has no request of this name, or not any more.
    Gone(String),
    /// A request has at most 4,096 stages. Nothing was put.
    Full,
    /// No function is registered by this name.
    NotRegistered(String),
    /// All else, such as a value that JSON hasn't, or a file that is no database.
    Refused(String),
}

/// An error as a row has it: what a function returned, or what somebody failed a stage with, in any language.
#[derive(Clone, Debug, PartialEq, Serialize, Deserialize)]
#[non_exhaustive]
pub struct Failed {
    /// Its kind: in Python the name of the exception's class.
    #[serde(rename = "error")]
    pub kind: String,
    /// What it says.
    pub text: String,
    /// What else it has.
    #[serde(default, skip_serializing_if = "Option::is_none")]
    pub args: Option<Vec<Value>>,
}

/// How a stage ended without a value, or why nobody can tell.
#[derive(Clone, Debug, PartialEq)]
#[non_exhaustive]
pub enum Error {
    /// A function returned this, or panicked with it, or somebody failed the stage with it.
    Failed(Failed),
    /// The process that ran the function is gone, and the function may have run.
    Abandoned(String),
    /// The stage, or one that it hangs on, wasn't settled in time.
    TimedOut(Option<Failed>),
    /// The stage, or one that it hangs on, was cancelled.
    Cancelled,
    /// A composing stage waits for a stage for which it can't.
    BadAnswer,
    /// The value isn't of the type that was asked for.
    Unreadable(String),
    /// The request can't be read.
    Store(StoreError),
}

/// The kind of an error that says that the process of a function is gone.
pub(crate) const ABANDONED: &str = "Abandoned";
/// That of an error of Rust's, whose type has no name that others know.
const ERROR: &str = "Error";

impl Failed {
    /// An error of a kind. Python gives it as the exception of this class, if it knows one, and else as a `RemoteError`.
    pub fn new(kind: impl Into<String>, text: impl Into<String>) -> Failed {
        let (kind, text) = (kind.into(), text.into());
        Failed { kind, args: Some(vec![Value::from(text.as_str())]), text }
    }

    /// What any error comes to: the text that it shows.
    pub(crate) fn from_error(error: &dyn fmt::Display) -> Failed {
        Failed { kind: ERROR.into(), text: error.to_string(), args: None }
    }

    pub(crate) fn into_error(self) -> Error {
        if self.kind == ABANDONED {
            Error::Abandoned(self.text)
        } else {
            Error::Failed(self)
        }
    }
}

impl StoreError {
    pub(crate) fn broken(request: &str, place: usize, why: impl fmt::Display) -> StoreError {
        StoreError::Broken { request: request.into(), place, why: why.to_string() }
    }
}

impl fmt::Display for StoreError {
    fn fmt(&self, f: &mut fmt::Formatter<'_>) -> fmt::Result {
        match self {
            StoreError::Unknown(why) => write!(f, "the store doesn't answer: {why}"),
            StoreError::Broken { request, place, why } => write!(f, "request {request:?}, place {place}: {why}"),
            StoreError::Gone(request) => write!(f, "the store has no request {request:?}"),
            StoreError::Full => f.write_str("a request has at most 4,096 stages"),
            StoreError::NotRegistered(name) => write!(f, "no function {name:?} is registered: other processes know functions by name"),
            StoreError::Refused(why) => f.write_str(why),
        }
    }
}

impl std::error::Error for StoreError {}

impl From<Refused> for StoreError {
    fn from(refused: Refused) -> StoreError {
        StoreError::Refused(refused.to_string())
    }
}

impl fmt::Display for Failed {
    fn fmt(&self, f: &mut fmt::Formatter<'_>) -> fmt::Result {
        match self.kind.as_str() {
            ERROR => f.write_str(&self.text),
            kind => write!(f, "{kind}: {}", self.text),
        }
    }
}

impl std::error::Error for Failed {}

impl fmt::Display for Error {
    fn fmt(&self, f: &mut fmt::Formatter<'_>) -> fmt::Result {
        match self {
            Error::Failed(failed) => failed.fmt(f),
            Error::Abandoned(text) => f.write_str(text),
            Error::TimedOut(None) => f.write_str("timed out"),
            Error::TimedOut(Some(failed)) => f.write_str(&failed.text),
            Error::Cancelled => f.write_str("cancelled"),
            Error::BadAnswer => f.write_str("a stage waits for one for which it can't"),
            Error::Unreadable(why) => f.write_str(why),
            Error::Store(error) => error.fmt(f),
        }
    }
}

impl std::error::Error for Error {}

impl From<StoreError> for Error {
    fn from(error: StoreError) -> Error {
        Error::Store(error)
    }
}
