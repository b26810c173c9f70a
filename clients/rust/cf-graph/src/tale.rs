//! What words did, told as texts.
use crate::handle::Handle;
use crate::plan::Plan;
use crate::refused::{ok_or_refused, Refused};
use crate::text::told;
use cf_sys as sys;

/// What texts are said of.
#[derive(Clone, Copy, PartialEq, Eq, Debug)]
#[repr(u32)]
#[non_exhaustive]
pub enum Label {
    /// The name of the whole, which is one text.
    Name = sys::CF_SAY_NAME,
    /// The names of stages, by their numbers. An empty one leaves the stage that of its form.
    Stages = sys::CF_SAY_STAGES,
    /// The names of callers, by their numbers. An empty one leaves the caller its number.
    Callers = sys::CF_SAY_CALLERS,
    /// What values stand for, by their numbers.
    Values = sys::CF_SAY_VALUES,
    /// What codes of exceptions stand for.
    Errors = sys::CF_SAY_ERRORS,
}

/// As what a tale is told.
#[derive(Clone, Copy, PartialEq, Eq, Debug)]
#[repr(u32)]
#[non_exhaustive]
pub enum TaleFormat {
    /// For people: a line for each event, and one for each stage that it settled.
    Lines = sys::CF_LINES,
    /// For a log: one line without its end.
    Line = sys::CF_LINE,
    /// What `cf_look check` judges, a line of JSON.
    Account = sys::CF_ACCOUNT,
    /// What `cf run` does again, a line of JSON.
    Script = sys::CF_SCRIPT,
    /// What `cf run` prints of the script.
    Report = sys::CF_REPORT,
}

/// What words did to a plan, to be told as texts: docs/FORMATS.md, "Histories in words". What they were answered is worked out anew.
///
/// ```
/// use cf_graph::{Call, Event, Form, PlanBuilder, Label, Tale, TaleFormat, Value};
/// # fn main() -> Result<(), cf_graph::Refused> {
/// let mut builder = PlanBuilder::new()?;
/// builder.stage(Form::Source, &[], None)?;
/// let completes = Event { who: 0, call: Call::Complete(0, Value::Int(0)) }.word()?;
/// let mut tale = Tale::new(&mut builder.build()?, 0, &[completes])?;
/// tale.say(Label::Stages, ["price"])?;
/// tale.say(Label::Values, ["49 euros"])?;
/// let told = tale.text(TaleFormat::Lines)?;
/// assert_eq!(told.lines().nth(1), Some("caller 0 completes 0 price with 49 euros"));
/// # Ok(())
/// # }
/// ```
#[derive(Debug)]
pub struct Tale(Handle);

impl Tale {
    /// A tale of these words, of which nothing is said yet, with room for so many stages that they attach. `ROOM`, `NO_MEMORY`, and of a word that
    /// can't be done `NO_WORD`, `NO_STAGE`. An attach for which there is no room is told.
    pub fn new(plan: &mut Plan, room: u16, words: &[u64]) -> Result<Tale, Refused> {
        let mut handle = Handle::empty();
        let (first, n) = (words.as_ptr(), words.len());
        // SAFETY: alone, apart, pointers: two handles, and both are this call's; `first` points to n words.
        plan.0.call(|plan| Refused::code_of(handle.call(|h| unsafe { sys::cf_history_new(plan, room, first, n, h) })))?;
        Ok(Tale(handle))
    }

    /// Says when each event was done, in nanoseconds from any moment on. With fewer times than words none is told. `TOO_MANY`, `NO_MEMORY`.
    pub fn set_times(&mut self, times: &[u64]) -> Result<(), Refused> {
        // SAFETY: alone, pointers: `h` is this call's, and `times` points to as many numbers as said.
        self.0.call(|h| unsafe { sys::cf_history_times(h, times.as_ptr(), times.len()) })
    }

    /// Says what things are called, or stand for, in place of what was said of them before. `TOO_MANY`, `NO_MEMORY`.
    pub fn say<T: AsRef<str>>(&mut self, what: Label, texts: impl IntoIterator<Item = T>) -> Result<(), Refused> {
        let (mut all, mut ends) = (String::new(), Vec::new());
        for text in texts {
            all.push_str(text.as_ref());
            ends.push(all.len());
        }
        let (text, n, first, count) = (all.as_ptr(), all.len(), ends.as_ptr(), ends.len());
        // SAFETY: alone, pointers: `h` is this call's, `text` points to n bytes, and `first` to as many numbers as said.
        self.0.call(|h| unsafe { sys::cf_history_say(h, what as u32, text, n, first, count) })
    }

    /// All of it as a text. `NO_MEMORY`.
    pub fn text(&mut self, as_what: TaleFormat) -> Result<String, Refused> {
        let handle = &mut self.0;
        let (code, text) = told(|text, room, length| {
            // SAFETY: alone, pointers: `h` is this call's, `text` has `room` bytes, and `length` is a local of `told`.
            Refused::code_of(handle.call(|h| unsafe { sys::cf_history_text(h, as_what as u32, text, room, length) }))
        });
        ok_or_refused(code).map(|()| text)
    }
}
