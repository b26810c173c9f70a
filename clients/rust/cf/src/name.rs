//! What histories call a stage that was given no name.
use std::any::type_name;
use std::fmt;
use std::panic::Location;

/// The function of a stage, and the place where it was handed in.
#[derive(Clone, Copy)]
pub(crate) struct Made(fn() -> &'static str, &'static Location<'static>);

impl Made {
    /// A stage that has this function and is attached here.
    #[track_caller]
    pub(crate) fn of_function<F>() -> Made {
        Made(type_name::<F>, Location::caller())
    }

    /// A stage that has no function, and is called so.
    #[track_caller]
    pub(crate) fn without_function(name: fn() -> &'static str) -> Made {
        Made(name, Location::caller())
    }
}

impl Made {
    /// Whether it is the same function, handed in at the same place.
    pub(crate) fn is_same(self, other: Made) -> bool {
        self.0 as usize == other.0 as usize && std::ptr::eq(self.1, other.1)
    }
}

impl fmt::Display for Made {
    /// A function's own name, or where a closure stands: `order.rs:31`.
    fn fmt(&self, f: &mut fmt::Formatter<'_>) -> fmt::Result {
        let path = (self.0)();
        let name = path.rsplit("::").next().unwrap_or(path);
        if name.chars().all(|it| it.is_alphanumeric() || it == '_' || it == ' ') {
            return f.write_str(name);
        }
        let file = self.1.file().rsplit(['/', '\\']).next().unwrap_or("");
        write!(f, "{file}:{}", self.1.line())
    }
}
