//! Does a function, and its future, have the span of tracing in which it was attached? A subscriber of the test's own keeps which span is current.
mod common;

use cf::{Ends, Error, Inline, Pool, Request};
use common::LONG;
use std::cell::RefCell;
use std::sync::atomic::{AtomicU64, Ordering};
use std::sync::mpsc::channel;
use std::sync::Mutex;
use tracing::span::{Attributes, Id, Record};
use tracing::{Event, Metadata, Span, Subscriber};
use tracing_core::span::Current;

thread_local! {
    static ENTERED: RefCell<Vec<(Id, &'static Metadata<'static>)>> = const { RefCell::new(Vec::new()) };
}

#[derive(Default)]
struct Spans {
    last: AtomicU64,
    made: Mutex<Vec<&'static Metadata<'static>>>,
}

impl Subscriber for Spans {
    fn enabled(&self, _: &Metadata<'_>) -> bool {
        true
    }

    fn new_span(&self, span: &Attributes<'_>) -> Id {
        self.made.lock().unwrap().push(span.metadata());
        Id::from_u64(1 + self.last.fetch_add(1, Ordering::SeqCst))
    }

    fn record(&self, _: &Id, _: &Record<'_>) {}

    fn record_follows_from(&self, _: &Id, _: &Id) {}

    fn event(&self, _: &Event<'_>) {}

    fn enter(&self, span: &Id) {
        let metadata = self.made.lock().unwrap()[span.into_u64() as usize - 1];
        ENTERED.with(|entered| entered.borrow_mut().push((span.clone(), metadata)));
    }

    fn exit(&self, span: &Id) {
        let last = ENTERED.with(|entered| entered.borrow_mut().pop());
        assert_eq!(last.map(|(id, _)| id).as_ref(), Some(span));
    }

    fn current_span(&self) -> Current {
        ENTERED.with(|entered| entered.borrow().last().map_or_else(Current::none, |(id, metadata)| Current::new(id.clone(), metadata)))
    }
}

/// The name of the current span.
fn here() -> &'static str {
    Span::current().metadata().map_or("none", Metadata::name)
}

/// The span of each of these, attached in one, is that; and whose who attach is as it was.
#[test]
fn functions_have_the_span_in_which_they_were_attached() {
    tracing::subscriber::set_global_default(Spans::default()).unwrap();
    for request in [Request::new("r", Inline), Request::new("r", Pool::new(2))] {
        let promise = request.promise::<u32>();
        let (one, two) = (tracing::info_span!("one"), tracing::info_span!("two"));
        let own = request.clone();
        let attached = one.in_scope(|| {
            vec![
                promise.clone().then(|_| here()),
                promise.clone().then_async(|_| async { Ok::<_, Error>(here()) }),
                promise.clone().compose(move |_| own.supply(here)),
                promise.clone().combine(&promise, |_, _| here()),
                promise.clone().and_then(|_| Err::<&str, _>("x")).recover(|_| here()),
                request.supply(here),
                request.spawn(async { Ok::<_, Error>(here()) }),
            ]
        });
        let other = two.in_scope(|| promise.clone().then(|_| here()));
        let none = promise.clone().then(|_| here());
        tracing::info_span!("completes").in_scope(|| promise.complete(1)).unwrap();
        assert!(attached.iter().all(|stage| stage.wait_timeout(LONG).unwrap().unwrap() == "one"));
        assert_eq!((other.wait().unwrap(), here()), ("two", "none"));
        // With `Inline` it has that of who completes the promise.
        assert!(["none", "completes"].contains(&none.wait().unwrap()));
    }
    let (sends, told) = channel();
    let sends = Mutex::new(sends);
    let ends = Ends::new(move |_| sends.lock().unwrap().send(here()).unwrap());
    drop(tracing::info_span!("opens").in_scope(|| Request::new("r", Inline).on_end(&ends)));
    assert_eq!(told.recv_timeout(LONG).unwrap(), "opens");
}
