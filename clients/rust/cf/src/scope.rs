//! Stages of a request that end together.
use crate::error::Error;
use crate::request::Request;
use crate::scopes::Left;
use crate::spawn::{caller_number, run_in_drop};
use crate::stage::{sealed::Sealed, Stage};
use std::borrow::Cow;
use std::fmt;
use std::future::Future;
use std::ops::Deref;
use std::pin::Pin;
use std::task::{Context, Poll};
use std::time::Duration;

/// Stages that end together: what [`Request::scope`] gives. It is used as the request is. What it attaches is of the scope, also by `scope.clone()`,
/// which is a handle that ends nothing; and what a method of a stage attaches is of the scope of that stage.
///
/// The scope ends when this is dropped, also with a future that is dropped, by `?` or by a panic; by [`end`](Scope::end); with
/// [a stage](Scope::ends_with); by its [deadline](Scope::deadline); or with the scope that it was opened in. Then all of its stages that are open
/// are cancelled in the same call: no function of it begins any more, futures are dropped, and a function that runs may ask
/// [`is_stopping`](crate::is_stopping). What is attached in it later has failed with [`Refusal::ScopeEnded`](crate::Refusal::ScopeEnded), and
/// changes nothing.
///
/// ```
/// let request = cf::Request::new("quote 8", cf::Inline);
/// let scope = request.scope();
/// let quotes = [scope.promise(), scope.try_supply(|| Err("away"))];
/// let best = scope.ends_with(scope.first(&quotes).recover(|_| 52));
/// quotes[0].complete(49).unwrap();
/// assert_eq!(best.wait().unwrap(), 49);
/// assert!(scope.promise::<u32>().is_settled());
/// ```
#[must_use = "it ends at once where nobody keeps it"]
pub struct Scope(Request);

impl Scope {
    pub(crate) fn new(request: Request) -> Scope {
        Scope(request)
    }

    fn number(&self) -> Option<u16> {
        self.0 .1.ok().flatten()
    }

    fn stage(&self) -> Stage<()> {
        Stage::new(&self.0 .0, self.0 .1.map(|number| number.expect("a scope has a stage")))
    }

    /// Names the scope's stage in histories, and gives the scope back.
    ///
    /// ```
    /// let request = cf::Request::new("quote 8", cf::Inline);
    /// let _scope = request.scope().named("backends");
    /// assert_eq!(request.history().names(), ["backends"]);
    /// ```
    pub fn named(self, name: impl Into<Cow<'static, str>>) -> Scope {
        if let Some(number) = self.number() {
            self.0 .0.name_stage(number, name.into());
        }
        self
    }

    /// Ends the scope after `wait` by the request's clock, and gives it back. Of several deadlines the first that comes ends it.
    ///
    /// ```
    /// use std::time::Duration;
    /// let scope = cf::Request::new("quote 8", cf::Inline).scope().deadline(Duration::from_millis(1));
    /// assert!(scope.promise::<u32>().wait().unwrap_err().is_cancelled());
    /// assert!(scope.ended().unwrap().is_timeout());
    /// ```
    pub fn deadline(self, wait: Duration) -> Scope {
        if let Some(number) = self.number() {
            self.0 .0.set_limit(number, wait, None);
        }
        self
    }

    /// Ends the scope as soon as this stage is settled, in whatever way, and gives the stage back.
    ///
    /// ```
    /// let scope = cf::Request::new("quote 8", cf::Inline).scope();
    /// let quotes = [scope.promise::<u32>(), scope.promise()];
    /// let first = scope.ends_with(scope.first(&quotes));
    /// quotes[1].complete(49).unwrap();
    /// assert!(first.wait().unwrap() == 49 && quotes[0].is_settled());
    /// ```
    pub fn ends_with<T: Send + Sync + 'static>(&self, stage: Stage<T>) -> Stage<T> {
        match (self.number(), stage.adopt_into(&self.0).at) {
            (Some(number), Ok(here)) => self.0 .0.end_scope_with(number, here),
            _ => self.end(),
        }
        stage
    }

    /// Ends the scope, unless it has ended.
    ///
    /// ```
    /// let scope = cf::Request::new("quote 8", cf::Inline).scope();
    /// let price = scope.promise::<u32>();
    /// scope.end();
    /// scope.end();
    /// assert!(price.is_settled());
    /// ```
    pub fn end(&self) {
        if let Some(number) = self.number() {
            let _ = self.0 .0.settle(caller_number(), number, Err(Error::Cancelled));
        }
    }

    /// How it ended, if it has: it timed out by its deadline, or was cancelled.
    ///
    /// ```
    /// let scope = cf::Request::new("quote 8", cf::Inline).scope();
    /// assert!(scope.ended().is_none());
    /// scope.end();
    /// assert!(scope.ended().unwrap().is_cancelled());
    /// ```
    pub fn ended(&self) -> Option<Error> {
        self.stage().end_if_settled()?.err()
    }

    /// Waits until all of the scope is settled, also what is attached meanwhile, and then ends it: a future, or [`Join::wait`] for a thread. Don't
    /// wait so in a function of the scope. Each look takes a stage of the request, and there are few looks: when the first stage fails, and when all
    /// are settled.
    ///
    /// # Errors
    ///
    /// The error of a stage that failed and that nobody takes over: no stage stands behind it, and nobody has asked for its result. That ends the
    /// scope at once. Cancelled stages don't count. Or how the scope [ended](Scope::ended), unless it ended with a stage.
    ///
    /// ```
    /// let request = cf::Request::new("quote 8", cf::Pool::new(2));
    /// let scope = request.scope();
    /// (0..8).for_each(|k| drop(scope.supply(move || k)));
    /// scope.join().wait().unwrap();
    /// let scope = request.scope();
    /// let (slow, _failed) = (scope.promise::<u32>(), scope.try_supply(|| Err::<u32, _>("away")));
    /// assert_eq!(scope.join().wait().unwrap_err().to_string(), "away");
    /// assert!(slow.is_settled());
    /// ```
    pub fn join(self) -> Join {
        Join { scope: self, left: None }
    }
}

impl Deref for Scope {
    type Target = Request;

    fn deref(&self) -> &Request {
        &self.0
    }
}

impl Drop for Scope {
    fn drop(&mut self) {
        run_in_drop(|| self.end());
    }
}

impl fmt::Debug for Scope {
    fn fmt(&self, f: &mut fmt::Formatter<'_>) -> fmt::Result {
        f.debug_tuple("Scope").field(&self.stage()).finish()
    }
}

/// A future of the end of a scope, made by [`Scope::join`]. Dropped, it ends the scope.
///
/// ```
/// async fn all(request: cf::Request) -> Result<(), cf::Error> {
///     let scope = request.scope();
///     (0..8).for_each(|k| drop(scope.supply(move || k)));
///     scope.join().await
/// }
/// ```
#[derive(Debug)]
#[must_use = "dropped at once, it ends the scope at once"]
pub struct Join {
    scope: Scope,
    /// What it waits for.
    left: Option<Stage<()>>,
}

impl Join {
    /// Blocks the thread until all of the scope is settled, as [`Stage::wait`] does.
    ///
    /// # Errors
    ///
    /// Those of [`Scope::join`].
    ///
    /// # Panics
    ///
    /// As [`Stage::wait`] does.
    ///
    /// ```
    /// let scope = cf::Request::new("quote 8", cf::Pool::new(2)).scope();
    /// let price = scope.supply(|| 49);
    /// scope.join().wait().unwrap();
    /// assert!(price.is_settled());
    /// ```
    pub fn wait(self) -> Result<(), Error> {
        loop {
            let left = match self.look() {
                Ok(left) => left,
                Err(ended) => return ended,
            };
            let _ = left.wait_value(None);
        }
    }

    /// What is to be waited for, or how all ended. Then the scope has ended.
    fn look(&self) -> Result<Stage<()>, Result<(), Error>> {
        let Stage { core, at, .. } = &self.scope.stage();
        match core.left_of_scope(caller_number(), (*at).map_err(|why| Err(why.into()))?) {
            Left::Open(stage) => Ok(Stage::new(core, Ok(stage))),
            Left::Nothing(ended) => {
                self.scope.end();
                Err(ended)
            }
        }
    }
}

impl Future for Join {
    type Output = Result<(), Error>;

    fn poll(mut self: Pin<&mut Self>, cx: &mut Context<'_>) -> Poll<Self::Output> {
        loop {
            let mut left = match self.left.take() {
                Some(left) => left,
                None => match self.look() {
                    Ok(left) => left,
                    Err(ended) => return Poll::Ready(ended),
                },
            };
            if left.poll_value(cx).is_pending() {
                self.left = Some(left);
                return Poll::Pending;
            }
        }
    }
}
