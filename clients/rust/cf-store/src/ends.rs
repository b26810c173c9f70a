//! Who is told of requests that were closed: a function, on a thread of its own.
use crate::context::within;
use crate::history::{History, HistoryItem};
use crate::service::ServiceCore;
use crate::store::Opened;
use cf::Aside;
use serde_json::{Map, Value as Json};
use std::sync::Arc;
use std::time::Duration;

/// A function that is told of each request that a service closes: what [`Options::on_end`](crate::Options::on_end) has. It is a handle: clones are
/// the same.
///
/// A request is closed by the process that sees first that its flow has ended, or that calls [`end`](crate::Request::end); that one tells it, once.
/// One that is opened again is told again with its next end, whole. If the process dies at this moment, or the store's answer is lost, nobody tells
/// it.
///
/// The function is called on a thread of its own, which is there while requests are left, with one after another, and with the
/// [`context`](crate::context()) in which a flow's request was begun. That thread reads the history from the store. So the function delays no
/// request, and if it panics, that ends neither the thread nor a request. While 2,048 requests wait for it, further ones aren't told; a line on
/// standard error says so.
///
/// ```
/// # #[cfg(feature = "sqlite")]
/// # fn main() -> Result<(), Box<dyn std::error::Error>> {
/// # let folder = std::env::temp_dir().join(format!("cf-store-ends-{}", std::process::id()));
/// # std::fs::create_dir_all(&folder)?;
/// # let path = folder.join("orders.db");
/// use cf_store::{Ends, Functions, Options, SQLite, Service};
/// use std::time::Duration;
///
/// let ends = Ends::new(|history| println!("{}", history.line().unwrap_or_else(|error| error.to_string())));
/// let options = Options::default().on_end(ends.clone());
/// let service = Service::with(SQLite::open(path)?, Functions::new(), options)?;
/// let request = service.request("order 17")?;
/// request.promise("price")?.complete(&4900)?;
/// request.end()?;
/// assert!(ends.flush(Duration::from_secs(60)));
/// # drop(service);
/// # std::fs::remove_dir_all(folder)?;
/// # Ok(())
/// # }
/// # #[cfg(not(feature = "sqlite"))]
/// # fn main() {}
/// ```
#[derive(Clone, Debug)]
pub struct Ends(Aside<ClosedRequest>);

/// A request that was closed.
pub(crate) struct ClosedRequest {
    pub(crate) service: Arc<ServiceCore>,
    pub(crate) opened: Opened,
    /// What goes along with its functions.
    pub(crate) context: Map<String, Json>,
}

impl Ends {
    /// One that calls this function.
    pub fn new(hook: impl Fn(&History) + Send + Sync + 'static) -> Ends {
        Ends::telling(|what| what.full_text(), hook)
    }

    /// The same, where `tells` says what histories tell of a value or an error, as for
    /// [`history_described_by`](crate::Request::history_described_by).
    pub fn telling(tells: impl Fn(HistoryItem<'_>) -> String + Send + Sync + 'static, hook: impl Fn(&History) + Send + Sync + 'static) -> Ends {
        Ends(Aside::new(move |ClosedRequest { service, opened, context }| {
            let name = opened.name.clone();
            match History::new(&*service.store, &*service.host, opened, &tells) {
                Ok(history) => within(context, || hook(&history)),
                Err(error) => service.warn(&name, &format!("its end isn't told: {error}")),
            }
        }))
    }

    /// Waits until the function was told of all requests that were closed before, or so long. Whether it was.
    pub fn flush(&self, wait: Duration) -> bool {
        self.0.flush(wait)
    }

    pub(crate) fn tell_end(&self, closed: ClosedRequest) {
        self.0.tell(closed);
    }
}
