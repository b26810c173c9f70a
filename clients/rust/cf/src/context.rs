//! What goes along with functions: with the feature `tracing` the span that is current where a function is attached, and nothing else.
use crate::value::StageFn;
#[cfg(feature = "tracing")]
use {crate::value::Returned, tracing::Instrument};

/// What was there at some place.
pub(crate) struct Context {
    #[cfg(feature = "tracing")]
    span: tracing::Span,
}

impl Context {
    pub(crate) fn captured() -> Context {
        Context {
            #[cfg(feature = "tracing")]
            span: tracing::Span::current(),
        }
    }

    /// Does something within it.
    #[cfg(feature = "tracing")]
    pub(crate) fn run_within<T>(&self, act: impl FnOnce() -> T) -> T {
        self.span.in_scope(act)
    }

    #[cfg(not(feature = "tracing"))]
    pub(crate) fn run_within<T>(&self, act: impl FnOnce() -> T) -> T {
        act()
    }
}

/// A function that is called within what is here, and whose future is polled within that.
#[cfg(feature = "tracing")]
pub(crate) fn carry_context(call: StageFn) -> StageFn {
    let span = tracing::Span::current();
    if span.is_none() {
        return call;
    }
    Box::new(move |given| match span.in_scope(|| call(given)) {
        Returned::Later(future) => Returned::Later(Box::pin(future.instrument(span))),
        gave => gave,
    })
}

#[cfg(not(feature = "tracing"))]
#[inline]
pub(crate) fn carry_context(call: StageFn) -> StageFn {
    call
}
