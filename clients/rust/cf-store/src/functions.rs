//! Functions by name and version, so that a request which one process began goes on in another.
use crate::error::Failed;
use crate::request::{Request, Stage};
use serde::de::DeserializeOwned;
use serde::Serialize;
use serde_json::{Map, Value};
use std::any::Any;
use std::collections::BTreeMap;
use std::fmt;
use std::sync::Arc;

type PlainFn = dyn Fn(Vec<Value>) -> Result<Value, Failed> + Send + Sync;
type ComposingFn = dyn Fn(&Request, Vec<Value>) -> Result<Stage, Failed> + Send + Sync;
type TransactionalFn = dyn Fn(&mut dyn Any, Vec<Value>) -> Result<Value, Failed> + Send + Sync;

/// How a function is called.
#[derive(Clone)]
pub(crate) enum FunctionKind {
    Plain(Arc<PlainFn>),
    /// With the request, of which it gives a stage.
    Composes(Arc<ComposingFn>),
    /// With the engine's connection, in a transaction.
    Transacts(Arc<TransactionalFn>),
}

/// A function, with the names of its arguments where it takes these by name, too.
#[derive(Clone)]
pub(crate) struct RegisteredFunction {
    pub(crate) kind: FunctionKind,
    pub(crate) names: Vec<String>,
}

/// The functions that a process knows. One that it doesn't know waits for a process that does.
///
/// ```
/// # #[cfg(feature = "sqlite")]
/// # fn main() -> Result<(), Box<dyn std::error::Error>> {
/// # let folder = std::env::temp_dir().join(format!("cf-store-functions-{}", std::process::id()));
/// # std::fs::create_dir_all(&folder)?;
/// # let path = folder.join("orders.db");
/// use cf_store::{Failed, Functions, Request, SQLite, Service};
/// use serde_json::{json, Map};
///
/// let charge = |cents: u32, currency: String| match cents {
///     0 => Err("nothing to charge"),
///     _ => Ok(format!("{cents} {currency}")),
/// };
/// let write = |db: &mut rusqlite::Connection, name: String| db.execute("insert into paid values (?)", [&name]);
/// let split = |request: &Request, cents: u32| request.supply("charge", &[json!(cents / 2), json!("EUR")]);
/// let functions = Functions::new()
///     .with("charge", 1, charge)
///     .parameters("charge", 1, &["cents", "currency"])
///     .transactional("write", 1, write)
///     .composing("split", 1, split);
///
/// rusqlite::Connection::open(&path)?.execute("create table paid (name text)", [])?;
/// let service = Service::new(SQLite::open(path)?, functions)?;
/// let request = service.request("order 17")?;
/// let named = json!({"currency": "EUR"}).as_object().cloned().unwrap();
/// assert_eq!(request.supply_named("charge", &[json!(4900)], &named)?.wait::<String>()?, "4900 EUR");
/// assert_eq!(request.supply("write", &[json!("Ada")])?.wait::<u32>()?, 1);
/// let cents = request.promise("cents")?;
/// let half = cents.compose("split")?;
/// cents.complete(&4900)?;
/// assert_eq!(half.wait::<String>()?, "2450 EUR");
/// # drop(service);
/// # std::fs::remove_dir_all(folder)?;
/// # Ok(())
/// # }
/// # #[cfg(not(feature = "sqlite"))]
/// # fn main() {}
/// ```
#[derive(Clone, Default)]
pub struct Functions(BTreeMap<(String, u32), RegisteredFunction>);

/// What can be registered: a function of up to two arguments that are read from JSON, and whose result is written as JSON, or whose error is shown.
/// `Args` is the tuple of its arguments.
pub trait Function<Args>: Send + Sync + 'static {
    /// Calls it with these arguments.
    fn call(&self, args: Vec<Value>) -> Result<Value, Failed>;
}

/// What can be registered to compose: a function of a request and up to two arguments, which attaches stages to the request and gives one of them.
pub trait Composing<Args>: Send + Sync + 'static {
    /// Calls it with these arguments.
    fn call(&self, request: &Request, args: Vec<Value>) -> Result<Stage, Failed>;
}

/// What can be registered to act in the store's own transaction: a function of a connection and up to two arguments.
pub trait Transactional<Args>: Send + Sync + 'static {
    /// What it is called with first: `rusqlite::Connection` or `PostgresTransaction`.
    type Connection: 'static;

    /// Calls it with these arguments.
    fn call(&self, connection: &mut Self::Connection, args: Vec<Value>) -> Result<Value, Failed>;
}

impl Functions {
    /// No functions, but for the two that gather a list.
    pub fn new() -> Functions {
        let alone = |value: Value| Ok::<_, Failed>(vec![value]);
        let add = |mut first: Vec<Value>, second: Vec<Value>| {
            first.extend(second);
            Ok::<_, Failed>(first)
        };
        Functions(BTreeMap::new()).with("cf.gather", 1, alone).with("cf.add", 1, add)
    }

    /// The same with one more function, in the place of one of this name and version. A changed meaning is a new version: keep the old one as long
    /// as requests have it.
    #[must_use]
    pub fn with<Args, F: Function<Args>>(self, name: &str, version: u32, function: F) -> Functions {
        self.with_kind(name, version, FunctionKind::Plain(Arc::new(move |args| function.call(args))))
    }

    /// The same with one more function that [composes](Stage::compose).
    #[must_use]
    pub fn composing<Args, F: Composing<Args>>(self, name: &str, version: u32, function: F) -> Functions {
        self.with_kind(name, version, FunctionKind::Composes(Arc::new(move |request, args| function.call(request, args))))
    }

    /// The same with one more function that is called in a transaction of the store's, with its connection. What it does with that stands exactly
    /// where the finish of its stage does. It is called again where the transaction comes to nothing, as by a cut connection. It neither ends
    /// the transaction nor puts to a request. [`Service::with`](crate::Service::with) refuses it over a store that has no transactions.
    #[must_use]
    pub fn transactional<Args, F: Transactional<Args>>(self, name: &str, version: u32, function: F) -> Functions {
        let call = move |connection: &mut dyn Any, args| match connection.downcast_mut() {
            Some(connection) => function.call(connection, args),
            None => Err(Failed::new("TypeError", "it takes the connection of another engine")),
        };
        self.with_kind(name, version, FunctionKind::Transacts(Arc::new(call)))
    }

    /// Says by which names a function takes its arguments, in their order: then it is also called for stages that [give these by
    /// name](Request::supply_named), in any language. One that is left out is read from null.
    ///
    /// # Panics
    ///
    /// Where no function of this name and version is registered.
    #[must_use]
    pub fn parameters(mut self, name: &str, version: u32, names: &[&str]) -> Functions {
        let known = self.0.get_mut(&(name.to_owned(), version));
        known.expect("the function is registered first").names = names.iter().map(|it| (*it).to_owned()).collect();
        self
    }

    fn with_kind(mut self, name: &str, version: u32, kind: FunctionKind) -> Functions {
        self.0.insert((name.to_owned(), version), RegisteredFunction { kind, names: Vec::new() });
        self
    }

    pub(crate) fn find(&self, name: &str, version: u32) -> Option<&RegisteredFunction> {
        self.0.get(&(name.to_owned(), version))
    }

    /// The highest version of a function.
    pub(crate) fn latest(&self, name: &str) -> Option<u32> {
        self.0.keys().rev().find_map(|(known, version)| (known == name).then_some(*version))
    }

    /// Whether one of them is called in a transaction.
    pub(crate) fn has_transactional(&self) -> bool {
        self.0.values().any(|known| matches!(known.kind, FunctionKind::Transacts(_)))
    }
}

impl RegisteredFunction {
    /// The arguments in their order, where some are given by name.
    pub(crate) fn order_args(&self, mut args: Vec<Value>, mut named: Map<String, Value>) -> Result<Vec<Value>, Failed> {
        if named.is_empty() {
            return Ok(args);
        }
        for name in self.names.iter().skip(args.len()) {
            args.push(named.remove(name).unwrap_or_default());
        }
        match named.keys().next() {
            None => Ok(args),
            Some(name) => Err(Failed::new("TypeError", format!("it takes no argument {name:?}, or has it already"))),
        }
    }
}

/// What a function comes to that panics.
pub(crate) fn failed_by_panic(panic: &(dyn Any + Send)) -> Failed {
    let text = panic.downcast_ref::<&str>().map(|it| (*it).to_owned());
    Failed::new("Panic", text.or_else(|| panic.downcast_ref::<String>().cloned()).unwrap_or_else(|| "it panicked".into()))
}

fn read_arg<T: DeserializeOwned>(args: &mut std::vec::IntoIter<Value>) -> Result<T, Failed> {
    let given = args.next().ok_or_else(|| Failed::new("TypeError", "it takes more arguments than it was given"))?;
    serde_json::from_value(given).map_err(|error| Failed::new("TypeError", format!("its argument can't be read: {error}")))
}

fn check_no_more_args(args: &mut std::vec::IntoIter<Value>) -> Result<(), Failed> {
    match args.next() {
        None => Ok(()),
        Some(_) => Err(Failed::new("TypeError", "it takes fewer arguments than it was given")),
    }
}

fn failed_of_error<E: fmt::Display + 'static>(error: E) -> Failed {
    let known: Option<&Failed> = (&error as &dyn Any).downcast_ref();
    known.cloned().unwrap_or_else(|| Failed::from_error(&error))
}

fn write_result<R: Serialize, E: fmt::Display + 'static>(result: Result<R, E>) -> Result<Value, Failed> {
    serde_json::to_value(result.map_err(failed_of_error)?).map_err(|error| Failed::new("TypeError", format!("its result can't be written: {error}")))
}

macro_rules! functions {
    ($(($($arg:ident),*))*) => {$(
        impl<Fun, $($arg,)* Res, Err> Function<($($arg,)* Res, Err)> for Fun
        where
            Fun: Fn($($arg),*) -> Result<Res, Err> + Send + Sync + 'static,
            $($arg: DeserializeOwned,)*
            Res: Serialize,
            Err: fmt::Display + 'static,
        {
            #[allow(non_snake_case, unused_mut)]
            fn call(&self, args: Vec<Value>) -> Result<Value, Failed> {
                let mut args = args.into_iter();
                $(let $arg = read_arg(&mut args)?;)*
                check_no_more_args(&mut args)?;
                write_result(self($($arg),*))
            }
        }

        impl<Fun, $($arg,)* Err> Composing<($($arg,)* Err,)> for Fun
        where
            Fun: Fn(&Request, $($arg),*) -> Result<Stage, Err> + Send + Sync + 'static,
            $($arg: DeserializeOwned,)*
            Err: fmt::Display + 'static,
        {
            #[allow(non_snake_case, unused_mut)]
            fn call(&self, request: &Request, args: Vec<Value>) -> Result<Stage, Failed> {
                let mut args = args.into_iter();
                $(let $arg = read_arg(&mut args)?;)*
                check_no_more_args(&mut args)?;
                self(request, $($arg),*).map_err(failed_of_error)
            }
        }

        impl<Fun, Con, $($arg,)* Res, Err> Transactional<(Con, $($arg,)* Res, Err)> for Fun
        where
            Fun: Fn(&mut Con, $($arg),*) -> Result<Res, Err> + Send + Sync + 'static,
            Con: 'static,
            $($arg: DeserializeOwned,)*
            Res: Serialize,
            Err: fmt::Display + 'static,
        {
            type Connection = Con;

            #[allow(non_snake_case, unused_mut)]
            fn call(&self, connection: &mut Con, args: Vec<Value>) -> Result<Value, Failed> {
                let mut args = args.into_iter();
                $(let $arg = read_arg(&mut args)?;)*
                check_no_more_args(&mut args)?;
                write_result(self(connection, $($arg),*))
            }
        }
    )*};
}

functions! { () (A) (A, B) }

impl fmt::Debug for Functions {
    fn fmt(&self, f: &mut fmt::Formatter<'_>) -> fmt::Result {
        f.debug_set().entries(self.0.keys()).finish()
    }
}
