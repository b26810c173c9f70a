//! What a stage's number stands for.
use crate::core::Core;
use crate::error::Error;
use crate::value::{StageFn, Val};
use cf_graph::{Cause, Outcome, Value};
use std::mem::forget;
use std::sync::Arc;

pub(crate) struct Slot {
    pub(crate) held: Held,
    /// The index of its name in histories, if the user gave none.
    pub(crate) made: u16,
    /// The stage from which its value came, or the code of its error.
    number: u16,
    told: SlotState,
    /// Whether it may have an [`Extra`](crate::inner::Extra), or ends by others of its request.
    pub(crate) has_extra: bool,
}

/// A stage's function, and then what it returned.
pub(crate) enum Held {
    Nothing,
    Call(StageFn),
    Value(Val),
    Error(Box<Error>),
    /// A request, which must not be dropped under the lock.
    Core(#[allow(dead_code)] Arc<Core>),
    /// Stops a timer when dropped.
    #[cfg(feature = "tokio")]
    Timer(#[allow(dead_code)] Box<dyn std::any::Any + Send>),
}

impl Default for Held {
    #[inline]
    fn default() -> Held {
        Held::Nothing
    }
}

#[derive(Clone, Copy, PartialEq, Eq)]
enum SlotState {
    Waits,
    Nil,
    Value,
    Fault(Fault),
    Wrapped(Fault),
}

#[derive(Clone, Copy, PartialEq, Eq)]
enum Fault {
    Thrown,
    Cancelled,
    TimedOut,
    BadAnswer,
}

/// The code of the error that a stage holds.
#[inline]
pub(crate) fn code_of_error(stage: u16) -> u32 {
    u32::from(stage) + 1
}

/// The stage that holds the error of a cause. A cancellation has none.
pub(crate) fn stage_of_error(cause: Cause) -> Option<u16> {
    match cause {
        Cause::Thrown(code) | Cause::TimedOut(code) | Cause::BadAnswer(code) => code.checked_sub(1).map(|stage| stage as u16),
        _ => None,
    }
}

impl Slot {
    #[inline]
    pub(crate) fn new(made: u16, call: Option<StageFn>) -> Slot {
        let held = match call {
            Some(call) => Held::Call(call),
            None => Held::Nothing,
        };
        Slot { held, made, number: 0, told: SlotState::Waits, has_extra: false }
    }

    /// Drops what it holds.
    #[inline]
    pub(crate) fn drop_content(self) {
        match self.held {
            // To drop it would take a call.
            Held::Nothing | Held::Value(Val::Nil | Val::Small(_)) => forget(self.held),
            held => drop(held),
        }
    }

    /// Whether settling it takes more than keeping the outcome: it still has its function, or more.
    #[inline]
    pub(crate) fn needs_more_than_outcome(&self) -> bool {
        self.has_extra || matches!(self.held, Held::Call(_))
    }

    #[inline]
    pub(crate) fn is_settled(&self) -> bool {
        self.told != SlotState::Waits
    }

    /// Keeps its outcome.
    #[inline]
    pub(crate) fn settle(&mut self, outcome: Outcome) {
        (self.told, self.number) = match outcome {
            Outcome::Value(Value::Nil) => (SlotState::Nil, 0),
            Outcome::Value(Value::Int(number)) => (SlotState::Value, number as u16),
            Outcome::Fault { cause, wrapped } => {
                let (fault, code) = match cause {
                    Cause::Thrown(code) => (Fault::Thrown, code),
                    Cause::Cancelled => (Fault::Cancelled, 0),
                    Cause::TimedOut(code) => (Fault::TimedOut, code),
                    Cause::BadAnswer(code) => (Fault::BadAnswer, code),
                    cause => unreachable!("{cause:?} is a cause of another library"),
                };
                (if wrapped { SlotState::Wrapped(fault) } else { SlotState::Fault(fault) }, code as u16)
            }
        };
    }

    /// Its outcome, if it is settled.
    #[inline]
    pub(crate) fn outcome(&self) -> Option<Outcome> {
        let (fault, wrapped) = match self.told {
            SlotState::Waits => return None,
            SlotState::Nil => return Some(Outcome::Value(Value::Nil)),
            SlotState::Value => return Some(Outcome::Value(Value::Int(i32::from(self.number)))),
            SlotState::Fault(fault) => (fault, false),
            SlotState::Wrapped(fault) => (fault, true),
        };
        let code = u32::from(self.number);
        let cause = match fault {
            Fault::Thrown => Cause::Thrown(code),
            Fault::Cancelled => Cause::Cancelled,
            Fault::TimedOut => Cause::TimedOut(code),
            Fault::BadAnswer => Cause::BadAnswer(code),
        };
        Some(Outcome::Fault { cause, wrapped })
    }

    /// The stage from which its error came. None without an error, and if it was cancelled.
    #[inline]
    pub(crate) fn blamed(&self) -> Option<u16> {
        match self.outcome()? {
            Outcome::Fault { cause, .. } => stage_of_error(cause),
            Outcome::Value(_) => None,
        }
    }

    /// The error, if it came from this stage.
    pub(crate) fn error(&self) -> Option<&Error> {
        match &self.held {
            Held::Error(error) => Some(error),
            _ => None,
        }
    }

    /// The value, if its function returned one.
    #[inline]
    pub(crate) fn value(&self) -> Option<&Val> {
        match &self.held {
            Held::Value(value) => Some(value),
            _ => None,
        }
    }
}

#[cfg(test)]
mod tests {
    use super::*;

    #[test]
    fn a_slot_is_small() {
        assert_eq!(std::mem::size_of::<Slot>(), 32);
    }

    #[test]
    fn what_is_settled_is_told() {
        let mut slot = Slot::new(0, None);
        assert!(!slot.is_settled() && slot.outcome().is_none());
        let mut outcomes = vec![Outcome::Value(Value::Nil), Outcome::Value(Value::Int(0)), Outcome::Value(Value::Int(4095))];
        for wrapped in [false, true] {
            for code in [1, 17, 4096] {
                for cause in [Cause::Thrown(code), Cause::Cancelled, Cause::TimedOut(code), Cause::BadAnswer(code)] {
                    outcomes.push(Outcome::Fault { cause, wrapped });
                }
            }
        }
        for outcome in outcomes {
            slot.settle(outcome);
            assert!(slot.is_settled());
            assert_eq!(slot.outcome(), Some(outcome));
            let from = match outcome {
                Outcome::Value(_) | Outcome::Fault { cause: Cause::Cancelled, .. } => None,
                Outcome::Fault { cause: Cause::Thrown(code) | Cause::TimedOut(code) | Cause::BadAnswer(code), .. } => Some(code as u16 - 1),
                Outcome::Fault { cause, .. } => panic!("{cause:?}"),
            };
            assert_eq!(slot.blamed(), from);
        }
    }
}
