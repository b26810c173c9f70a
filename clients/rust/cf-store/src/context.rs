//! What goes along with functions, wherever they are called: who asked, say, or a trace.
use serde_json::{Map, Value};
use std::cell::RefCell;

thread_local! {
    static CURRENT: RefCell<Map<String, Value>> = RefCell::default();
}

/// What goes along here: with each stage with a function that this thread attaches, and with each flow that it starts. A function that is called has
/// what went along with its stage, from any process and any language: in Python it is what the carriers of `cf.store` give, by their names.
pub fn context() -> Map<String, Value> {
    CURRENT.with(|it| it.borrow().clone())
}

/// Has this go along, and nothing else, while `act` runs on this thread.
///
/// ```
/// # #[cfg(feature = "sqlite")]
/// # fn main() -> Result<(), Box<dyn std::error::Error>> {
/// # let folder = std::env::temp_dir().join(format!("cf-store-within-{}", std::process::id()));
/// # std::fs::create_dir_all(&folder)?;
/// # let path = folder.join("orders.db");
/// use cf_store::{context, within, Functions, SQLite, Service};
/// use serde_json::{json, Value};
///
/// let who = || Ok::<Value, String>(context()["tenant"].clone());
/// let service = Service::new(SQLite::open(path)?, Functions::new().with("who", 1, who))?;
/// let request = service.request("order 17")?;
/// let tenant = json!({"tenant": "ada"}).as_object().cloned().unwrap();
/// let stage = within(tenant, || request.supply("who", &[]))?;
/// assert_eq!(stage.wait::<String>()?, "ada");
/// # drop(service);
/// # std::fs::remove_dir_all(folder)?;
/// # Ok(())
/// # }
/// # #[cfg(not(feature = "sqlite"))]
/// # fn main() {}
/// ```
pub fn within<T>(context: Map<String, Value>, act: impl FnOnce() -> T) -> T {
    struct Before(Map<String, Value>);
    impl Drop for Before {
        fn drop(&mut self) {
            CURRENT.with(|it| drop(it.replace(std::mem::take(&mut self.0))));
        }
    }
    let _before = Before(CURRENT.with(|it| it.replace(context)));
    act()
}

/// What is said of it in a row, where there is something.
pub(crate) fn capture() -> Option<Map<String, Value>> {
    Some(context()).filter(|it| !it.is_empty())
}
