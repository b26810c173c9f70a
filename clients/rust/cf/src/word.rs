//! The words of events: docs/FORMATS.md, "Words of events".

pub(crate) const COMPLETE: u64 = 1 << 56;
pub(crate) const FAIL: u64 = 2 << 56;
pub(crate) const CANCEL: u64 = 3 << 56;
pub(crate) const CLAIM: u64 = 4 << 56;
pub(crate) const FINISH: u64 = 5 << 56;
pub(crate) const ATTACH: u64 = 7 << 56;
pub(crate) const FAIL_AS: u64 = 8 << 56;

/// The tags of what a complete or a finish gives.
pub(crate) const SOME: u64 = 1 << 32;
pub(crate) const THROWS: u64 = 2 << 32;
pub(crate) const LINKS: u64 = 3 << 32;

/// The tags of what a stage is failed as.
pub(crate) const TIMED_OUT: u64 = 0;
pub(crate) const BAD_ANSWER: u64 = 1 << 32;

/// Forms of stages, by their numbers in cf.h.
#[derive(Clone, Copy, Debug, PartialEq, Eq)]
pub(crate) enum WordForm {
    Source = 0,
    Supply = 1,
    Apply = 3,
    Combine = 6,
    ApplyEither = 9,
    Compose = 12,
    Handle = 13,
    WhenComplete = 14,
    Exceptionally = 15,
    ExceptionallyCompose = 18,
}

pub(crate) const FORM_NAMES: [&str; 19] = [
    "source",
    "supply",
    "runAsync",
    "apply",
    "accept",
    "thenRun",
    "combine",
    "acceptBoth",
    "runBoth",
    "applyEither",
    "acceptEither",
    "runEither",
    "compose",
    "handle",
    "whenComplete",
    "exceptionally",
    "allOf",
    "anyOf",
    "exceptionallyCompose",
];

pub(crate) fn encode(kind: u64, who: u8, stage: u16, tail: u64) -> u64 {
    kind | u64::from(who) << 48 | u64::from(stage) << 36 | tail
}

/// The word with another caller.
pub(crate) fn with_caller(who: u8, word: u64) -> u64 {
    word & !(63 << 48) | u64::from(who) << 48
}

pub(crate) fn encode_attach(who: u8, form: WordForm, of: &[u16], function: u16) -> u64 {
    let source = |k: usize| u64::from(of.get(k).copied().unwrap_or(0));
    ATTACH | u64::from(who) << 48 | source(0) << 36 | (of.len() as u64) << 32 | (form as u64) << 24 | source(1) << 12 | u64::from(function)
}

/// A word, taken apart.
#[derive(Clone, Copy, Debug)]
pub(crate) struct Parts {
    pub(crate) kind: u64,
    pub(crate) who: u8,
    pub(crate) stage: u16,
    pub(crate) tag: u64,
    pub(crate) low: u32,
}

pub(crate) fn decode(word: u64) -> Parts {
    Parts { kind: word >> 56 << 56, who: (word >> 48 & 63) as u8, stage: (word >> 36 & 4095) as u16, tag: word & 15 << 32, low: word as u32 }
}

impl Parts {
    /// Of an attach: the form's number, the sources, the function.
    pub(crate) fn attach_parts(self) -> (usize, Vec<u16>, u16) {
        let of = [self.stage, (self.low >> 12 & 4095) as u16];
        ((self.low >> 24) as usize, of[..(self.tag >> 32) as usize].to_vec(), (self.low & 4095) as u16)
    }
}
