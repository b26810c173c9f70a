//! What histories tell of values and errors, and how texts of others are written so that they look like nothing else.
use crate::error::Error;
use crate::value::Val;
use std::any::Any;
use std::fmt::{self, Write};
use std::panic::{catch_unwind, AssertUnwindSafe};
use std::sync::Arc;
use std::time::Duration;

/// What is told of the values and errors of a request: what [`Request::described`](crate::Request::described) takes. It goes for histories in
/// words and in one line, for accounts and pages, and for `Debug` of a stage. Names are told as they are.
///
/// A function that panics, of yours or a `Display` of an error, is told as `?`.
///
/// ```
/// use cf::{Describe, Inline, Request};
/// let login = Request::new("login", Inline).described(Describe::Types);
/// let token = login.supply(|| String::from("Bearer eyJhbGciOi")).named("token");
/// assert!(login.history().to_string().contains("token ends: String of 17"));
/// ```
#[derive(Clone, Default)]
#[non_exhaustive]
pub enum Describe {
    /// Values of common types as they are, cut to 60 characters, others as "a value"; errors by their texts.
    #[default]
    All,
    /// Of a value the name of its type, and how long a text or a list is: `String of 12`. Of an error only which [`Error`] it is: `Failed`.
    Types,
    /// `-`.
    Nothing,
    /// What this function gives: see [`Describe::from_fn`].
    By(Arc<Describes>),
}

/// A function that says what is told of a value or an error.
pub type Describes = dyn Fn(Result<&dyn Any, &Error>) -> String + Send + Sync;

impl Describe {
    /// What this function gives of a value or an error. It is called when a history is taken, under no lock.
    ///
    /// ```
    /// use cf::{Describe, Inline, Request};
    /// struct Order(u32);
    /// let describe = Describe::from_fn(|ended| match ended {
    ///     Ok(value) => value.downcast_ref().map_or("something else".into(), |Order(number)| format!("order {number}")),
    ///     Err(_) => "an error".into(),
    /// });
    /// let request = Request::new("order 17", Inline).described(describe);
    /// let order = request.supply(|| Order(17)).named("order");
    /// assert!(request.history().to_string().contains("order ends: order 17"));
    /// ```
    pub fn from_fn(describes: impl Fn(Result<&dyn Any, &Error>) -> String + Send + Sync + 'static) -> Describe {
        Describe::By(Arc::new(describes))
    }

    /// What is told of a value or an error.
    pub(crate) fn tell(&self, ended: Result<&Val, &Error>) -> String {
        let told = catch_unwind(AssertUnwindSafe(|| match (self, ended) {
            (Describe::All, Ok(value)) => common_value_text(value),
            (Describe::All, Err(error)) => {
                let mut text = String::new();
                write!(text, "{error}").map_or_else(|_| UNTOLD.into(), |()| text)
            }
            (Describe::Types, Ok(value)) => type_text(value),
            (Describe::Types, Err(error)) => error_kind(error).into(),
            (Describe::Nothing, _) => "-".into(),
            (Describe::By(describes), ended) => describes(ended.map(Val::as_any)),
        }));
        told.unwrap_or_else(|payload| {
            // Its own drop may panic.
            std::mem::forget(payload);
            UNTOLD.into()
        })
    }
}

const UNTOLD: &str = "?";

impl fmt::Debug for Describe {
    fn fmt(&self, f: &mut fmt::Formatter<'_>) -> fmt::Result {
        f.write_str(match self {
            Describe::All => "All",
            Describe::Types => "Types",
            Describe::Nothing => "Nothing",
            Describe::By(_) => "By(..)",
        })
    }
}

/// A value of a common type as it is, cut to 60 letters; of another that it is one.
fn common_value_text(value: &Val) -> String {
    macro_rules! common {
        ($($of:ty),*) => { $(if let Some(value) = value.as_any().downcast_ref::<$of>() { return shorten(format!("{value:?}")); })* };
    }
    common!(i32, i64, u32, u64, usize, u16, u8, f64, bool, char, String, &'static str, ());
    common!(Vec<i32>, Vec<i64>, Vec<u32>, Vec<u64>, Vec<f64>, Vec<String>, Option<i32>, Option<i64>, Option<u64>, Option<String>, Duration);
    "a value".into()
}

/// The name of a value's type, and how long it is where that is known.
fn type_text(value: &Val) -> String {
    let name = short_name(value.type_name());
    macro_rules! long {
        ($($of:ty),*) => { $(if let Some(value) = value.as_any().downcast_ref::<$of>() { return format!("{name} of {}", value.len()); })* };
    }
    long!(String, &'static str, Vec<u8>, Vec<i32>, Vec<i64>, Vec<u32>, Vec<u64>, Vec<f64>, Vec<String>);
    name
}

/// The name of a type without the modules in which it and those in it stand.
fn short_name(path: &str) -> String {
    let (mut name, mut begins) = (String::new(), 0);
    for letter in path.chars() {
        match letter {
            ':' => name.truncate(begins),
            _ if letter.is_alphanumeric() || letter == '_' => name.push(letter),
            _ => {
                name.push(letter);
                begins = name.len();
            }
        }
    }
    name
}

fn error_kind(error: &Error) -> &'static str {
    match error {
        Error::Failed(_) => "Failed",
        Error::Panicked(_) => "Panicked",
        Error::Cancelled => "Cancelled",
        Error::TimedOut(_) => "TimedOut",
        Error::BadAnswer => "BadAnswer",
        Error::Refused(_) => "Refused",
    }
}

/// The text, or what stands at its begin and that it goes on.
pub(crate) fn shorten(text: String) -> String {
    if text.chars().count() <= 60 {
        return text;
    }
    text.chars().take(57).chain("...".chars()).collect()
}

/// The text in one line that is read as it stands: what breaks a line, moves a cursor, turns the direction or isn't seen is written `\n`,
/// `\u202e`.
pub(crate) fn escape_text(text: &str) -> String {
    let mut escaped = String::with_capacity(text.len());
    for letter in text.chars() {
        if is_unseen(letter) {
            push_escaped(&mut escaped, letter);
        } else {
            escaped.push(letter);
        }
    }
    escaped
}

/// Writes a letter as JSON may: `\n`, `\u202e`, and one beyond 16 bits as two.
pub(crate) fn push_escaped(text: &mut String, letter: char) {
    match letter {
        '\n' => text.push_str("\\n"),
        '\r' => text.push_str("\\r"),
        '\t' => text.push_str("\\t"),
        _ => {
            for unit in letter.encode_utf16(&mut [0; 2]) {
                let _ = write!(text, "\\u{unit:04x}");
            }
        }
    }
}

/// Whether a letter is of Unicode's categories Cc, Cf, Zl or Zp: controls, formats, and what parts lines and paragraphs.
pub(crate) fn is_unseen(letter: char) -> bool {
    letter < ' '
        || letter > '~'
            && (letter.is_control()
                || matches!(letter,
                    '\u{ad}' | '\u{600}'..='\u{605}' | '\u{61c}' | '\u{6dd}' | '\u{70f}' | '\u{890}' | '\u{891}' | '\u{8e2}' | '\u{180e}'
                    | '\u{200b}'..='\u{200f}' | '\u{2028}'..='\u{202e}' | '\u{2060}'..='\u{2064}' | '\u{2066}'..='\u{206f}' | '\u{feff}'
                    | '\u{fff9}'..='\u{fffb}' | '\u{110bd}' | '\u{110cd}' | '\u{13430}'..='\u{1343f}' | '\u{1bca0}'..='\u{1bca3}'
                    | '\u{1d173}'..='\u{1d17a}' | '\u{e0001}' | '\u{e0020}'..='\u{e007f}'))
}

#[cfg(test)]
mod tests {
    use super::*;

    #[test]
    fn texts_are_written_in_one_line() {
        for (text, line) in [
            ("", ""),
            ("a \\ b;  c\u{a0}é€😀", "a \\ b;  c\u{a0}é€😀"),
            ("\n\r\t\0\u{1b}[31m\u{7f}", "\\n\\r\\t\\u0000\\u001b[31m\\u007f"),
            ("\u{85}\u{9f}\u{ad}\u{61c}", "\\u0085\\u009f\\u00ad\\u061c"),
            ("\u{200b}\u{200f}\u{2028}\u{2029}\u{202a}\u{202e}", "\\u200b\\u200f\\u2028\\u2029\\u202a\\u202e"),
            ("\u{2066}\u{2069}\u{feff}\u{fffb}", "\\u2066\\u2069\\ufeff\\ufffb"),
            ("\u{110bd}\u{e0041}", "\\ud804\\udcbd\\udb40\\udc41"),
            ("\u{2065}\u{2010}\u{fffd}\u{e0100}", "\u{2065}\u{2010}\u{fffd}\u{e0100}"),
        ] {
            assert_eq!(escape_text(text), line);
        }
    }

    #[test]
    fn types_are_named_without_modules() {
        for (path, name) in [
            ("i32", "i32"),
            ("()", "()"),
            ("&str", "&str"),
            ("alloc::string::String", "String"),
            ("alloc::vec::Vec<core::option::Option<alloc::string::String>>", "Vec<Option<String>>"),
            ("(shop::Order, [u8; 4])", "(Order, [u8; 4])"),
            ("dyn core::any::Any + core::marker::Send", "dyn Any + Send"),
        ] {
            assert_eq!(short_name(path), name);
        }
    }
}
