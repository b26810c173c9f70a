//! Who is told of requests that are over: a function, on a thread of its own.
use crate::aside::Aside;
use crate::context::Context;
use crate::describe::Describe;
use crate::history::History;
use std::time::Duration;

/// A function that is told of each request that is over: what [`Request::on_end`](crate::Request::on_end) takes. It is a handle: clones are the
/// same.
///
/// The function is called on a thread of its own, which is there while histories are left, with one after another. So it delays no request, and
/// if it panics, that ends neither the thread nor a request. While 2,048 histories wait for it, further ones aren't told; a line on standard
/// error says so.
///
/// ```
/// use std::{sync::mpsc::channel, time::Duration};
/// let (tells, told) = channel();
/// let tells = std::sync::Mutex::new(tells);
/// let ends = cf::Ends::new(move |history| tells.lock().unwrap().send(history.line()).unwrap());
/// let request = cf::Request::new("parcel 5", cf::Inline).on_end(&ends);
/// request.supply(|| 49).wait().unwrap();
/// drop(request);
/// assert!(ends.flush(Duration::from_secs(60)));
/// assert!(told.recv().unwrap().starts_with("parcel 5: 3 events, 1 stage in "));
/// ```
#[derive(Clone, Debug)]
pub struct Ends(Aside<Over>);

/// A request that is over, whose values are told so, within what was where it began.
struct Over {
    history: History,
    describe: Describe,
    within: Context,
}

impl Ends {
    /// One that calls this function.
    ///
    /// ```
    /// let ends = cf::Ends::new(|history| println!("{}", history.line()));
    /// cf::Request::new("parcel 5", cf::Inline).on_end(&ends);
    /// ```
    pub fn new(hook: impl Fn(&History) + Send + Sync + 'static) -> Ends {
        Ends(Aside::new(move |Over { history, describe, within }| within.run_within(|| hook(&history.keep_described(&describe)))))
    }

    /// Waits until the function was told of all requests that were over before, or so long. Whether it was.
    ///
    /// ```
    /// assert!(cf::Ends::new(|_| ()).flush(std::time::Duration::from_secs(1)));
    /// ```
    pub fn flush(&self, wait: Duration) -> bool {
        self.0.flush(wait)
    }

    /// Has the function told of a request that is over.
    pub(crate) fn tell_end(&self, history: History, describe: Describe, within: Context) {
        self.0.tell(Over { history, describe, within });
    }
}

/// Whom a request tells that it is over.
pub(crate) struct Ending {
    pub(crate) ends: Ends,
    pub(crate) within: Context,
}
