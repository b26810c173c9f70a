//! Scripts and texts.
use crate::refused::{check_library_once, ok_or_refused, Refused};
use crate::values::{outcome_in, Outcome};
use cf_sys as sys;
use std::error::Error;
use std::fmt;

/// Why a script has no report.
#[derive(Clone, PartialEq, Eq, Debug)]
#[non_exhaustive]
pub enum ScriptFault {
    /// It has a fault, which `cf run` tells by this line.
    Line(String),
    /// Memory was refused.
    Refused(Refused),
}

impl fmt::Display for ScriptFault {
    fn fmt(&self, f: &mut fmt::Formatter<'_>) -> fmt::Result {
        match self {
            ScriptFault::Line(line) => f.write_str(line),
            ScriptFault::Refused(refused) => refused.fmt(f),
        }
    }
}

impl Error for ScriptFault {}

/// Runs a script, as `cf run` does, and gives its report.
pub fn run_script(script: &[u8]) -> Result<String, ScriptFault> {
    check_library_once().map_err(ScriptFault::Refused)?;
    // SAFETY: this library, pointers: both texts are of as many bytes as said, and `length` is a local of `told`.
    let (code, text) = told(|report, room, length| unsafe { sys::cf_run_script(script.as_ptr(), script.len(), report, room, length) });
    match ok_or_refused(code) {
        Ok(()) => Ok(text),
        Err(Refused::BAD_SCRIPT) => Err(ScriptFault::Line(text.trim_end().to_string())),
        Err(refused) => Err(ScriptFault::Refused(refused)),
    }
}

/// The text of an outcome, as reports have it. Of another library than this crate was written for it is that refusal's.
pub fn outcome_text(outcome: Option<Outcome>) -> String {
    if let Err(refused) = check_library_once() {
        return refused.to_string();
    }
    // SAFETY: this library, pointers: `text` has `room` bytes, and `length` is a local of `told`.
    told(|text, room, length| unsafe { sys::cf_text_of_outcome(&outcome_in(outcome), text, room, length) }).1
}

/// The code of a call, and the text that it tells. It is made again where that needs more room.
pub(crate) fn told(mut call: impl FnMut(*mut u8, usize, *mut usize) -> u32) -> (u32, String) {
    let mut text = vec![0; 4096];
    loop {
        let mut length = 0;
        let code = call(text.as_mut_ptr(), text.len(), &mut length);
        if length <= text.len() {
            text.truncate(length);
            return (code, String::from_utf8_lossy(&text).into_owned());
        }
        text.resize(length, 0);
    }
}
