//! Why a call is refused.
use crate::text::told;
use cf_sys as sys;
use std::error::Error;
use std::fmt;
use std::sync::atomic::{AtomicBool, Ordering};

/// The code of cf.h that a call answered. A refused call changed nothing.
#[derive(Clone, Copy, PartialEq, Eq, Debug)]
pub struct Refused(u32);

const WORDS: [&str; 40] = [
    "the plan has 4,096 stages already",
    "a source isn't below the new stage's number",
    "the number of sources isn't the form's",
    "the form has a function and none is given",
    "the form has no function and one is given",
    "there would be too many mentions of sources",
    "a limit names a stage that isn't in the plan yet",
    "memory was refused",
    "the plan has 4,096 limits already",
    "nothing stands behind the handle",
    "the handle isn't empty",
    "something of another kind stands behind the handle",
    "no form, no call of an event and no code has this number",
    "a stage that the call names isn't there",
    "an attached stage doesn't fit its form",
    "there would be too many stages or edges with the room",
    "there is none",
    "a desk is to have no caller, or more than 64",
    "a desk's log is to hold nothing",
    "a desk's callers are to hold no record",
    "a function of the plan isn't below the number of functions",
    "the caller holds as many records as it may",
    "the desk's log is full",
    "the two callers aren't of one desk",
    "callers of the desk weren't given back",
    "the word is no event's, or the event has no word",
    "the script has a fault",
    "the desk is held all the same",
    "the caller hasn't claimed the stage",
    "there is no room for the stage",
    "another caller claimed or settled the stage first",
    "the sweep hasn't all stages behind it",
    "a request has 1 to 16 lanes, and one for each stage of its plan",
    "there is no such lane",
    "the moment is before the last one",
    "a text ends before it begins or behind its bytes, or isn't UTF-8",
    "there are more texts or times than there can be",
    "a put is under way",
    "a session has no such number, or too few tokens left",
    "a join wants none of its stages, or more than there are",
];

impl Refused {
    /// The plan has 4,096 stages already.
    pub const TOO_MANY_STAGES: Refused = Refused(1);
    /// A source isn't below the new stage's number.
    pub const SOURCE_NOT_LOWER: Refused = Refused(2);
    /// The number of sources isn't the form's.
    pub const WRONG_SOURCE_COUNT: Refused = Refused(3);
    /// The form has a function and none is given.
    pub const FUNCTION_MISSING: Refused = Refused(4);
    /// The form has no function and one is given.
    pub const FUNCTION_UNWANTED: Refused = Refused(5);
    /// There would be too many mentions of sources.
    pub const TOO_MANY_EDGES: Refused = Refused(6);
    /// A limit names a stage that isn't in the plan yet.
    pub const NO_SUCH_STAGE: Refused = Refused(7);
    /// Memory was refused.
    pub const NO_MEMORY: Refused = Refused(8);
    /// The plan has 4,096 limits already.
    pub const TOO_MANY_LIMITS: Refused = Refused(9);
    /// No form, no call of an event and no code has this number.
    pub const NO_SUCH_NUMBER: Refused = Refused(13);
    /// A stage that the call names isn't there.
    pub const NO_STAGE: Refused = Refused(14);
    /// An attached stage doesn't fit its form.
    pub const BAD_ATTACH: Refused = Refused(15);
    /// There would be too many stages or edges with the room.
    pub const ROOM: Refused = Refused(16);
    pub(crate) const NOTHING: Refused = Refused(17);
    /// A desk is to have no caller, or more than 64.
    pub const CALLERS: Refused = Refused(18);
    /// A desk's log is to hold nothing.
    pub const LOG: Refused = Refused(19);
    /// A desk's callers are to hold no record.
    pub const CALLS: Refused = Refused(20);
    /// A function of the plan isn't below the number of functions.
    pub const FUNCTIONS: Refused = Refused(21);
    /// The caller holds as many records as it may.
    pub const PASS_FULL: Refused = Refused(22);
    /// The desk's log is full.
    pub const LOG_FULL: Refused = Refused(23);
    /// The two callers aren't of one desk.
    pub const OTHER_DESK: Refused = Refused(24);
    /// Callers of the desk weren't given back.
    pub const NOT_ALL: Refused = Refused(25);
    /// The word is no event's, or the event has no word.
    pub const NO_WORD: Refused = Refused(26);
    /// The script has a fault.
    pub const BAD_SCRIPT: Refused = Refused(27);
    /// The desk is held all the same.
    pub const STILL_SHARED: Refused = Refused(28);
    /// The caller hasn't claimed the stage.
    pub const NOT_HELD: Refused = Refused(29);
    /// There is no room for the stage.
    pub const NO_ROOM: Refused = Refused(30);
    /// Another caller claimed or settled the stage first.
    pub const LOST: Refused = Refused(31);
    /// The sweep hasn't all stages behind it.
    pub const NOT_OVER: Refused = Refused(32);
    /// A request has 1 to 16 lanes, and one for each stage of its plan.
    pub const LANES: Refused = Refused(33);
    /// There is no such lane.
    pub const NO_LANE: Refused = Refused(34);
    /// The moment is before the last one.
    pub const PAST_MOMENT: Refused = Refused(35);
    /// A text ends before it begins or behind its bytes, or isn't UTF-8.
    pub const BAD_TEXT: Refused = Refused(36);
    /// There are more texts or times than there can be.
    pub const TOO_MANY: Refused = Refused(37);
    /// A put is under way.
    pub const UNDER_WAY: Refused = Refused(38);
    /// A session has no such number, or too few tokens left.
    pub const NO_TOKENS: Refused = Refused(39);
    /// A join wants none of its stages, or more than there are.
    pub const NO_QUORUM: Refused = Refused(40);
    /// No such ticket of a host is open.
    pub const NO_TICKET: Refused = Refused(41);
    /// An answer isn't one to its ticket's question.
    pub const UNFIT: Refused = Refused(42);
    /// Two numbers stand for no note.
    pub const NO_NOTE: Refused = Refused(43);
    /// A host doesn't work on the request, or hasn't opened it.
    pub const NOT_OPEN: Refused = Refused(44);
    /// No code of the library: what is linked isn't the library that this crate was written for.
    pub const OTHER_LIBRARY: Refused = Refused(256);

    pub(crate) fn code_of(made: Result<(), Refused>) -> u32 {
        made.err().map_or(0, Refused::code)
    }

    /// The number of the code in cf.h.
    pub fn code(self) -> u32 {
        self.0
    }

    /// Its name, as the library has it: `NoStage`. Another library than this crate was written for isn't asked, and no code of the library has
    /// none.
    pub fn name(self) -> String {
        if check_library_once().is_err() {
            return String::new();
        }
        // SAFETY: this library, pointers: `text` has `room` bytes, and `length` is a local of `told`.
        told(|text, room, length| unsafe { sys::cf_code_text(self.0, text, room, length) }).1
    }
}

impl fmt::Display for Refused {
    fn fmt(&self, f: &mut fmt::Formatter<'_>) -> fmt::Result {
        match WORDS.get((self.0 as usize).wrapping_sub(1)) {
            Some(words) => f.write_str(words),
            None if *self == Refused::OTHER_LIBRARY => f.write_str("the library isn't the one that this crate was written for"),
            None => write!(f, "code {}", self.0),
        }
    }
}

impl Error for Refused {}

/// Compares the library with the declarations, at the first call. `OTHER_LIBRARY`.
#[inline]
pub(crate) fn check_library_once() -> Result<(), Refused> {
    if IS_CHECKED.load(Ordering::Relaxed) {
        return Ok(());
    }
    check_library()
}

static IS_CHECKED: AtomicBool = AtomicBool::new(false);

#[cold]
fn check_library() -> Result<(), Refused> {
    if cf_sys::mismatch().is_some() {
        return Err(Refused::OTHER_LIBRARY);
    }
    IS_CHECKED.store(true, Ordering::Relaxed);
    Ok(())
}

#[inline]
pub(crate) fn ok_or_refused(code: u32) -> Result<(), Refused> {
    if code == 0 {
        Ok(())
    } else {
        Err(Refused(code))
    }
}

/// None where there is nothing to tell.
pub(crate) fn if_there<T>(told: Result<T, Refused>) -> Result<Option<T>, Refused> {
    match told {
        Ok(told) => Ok(Some(told)),
        Err(Refused::NOTHING) => Ok(None),
        Err(refused) => Err(refused),
    }
}
