//! A worker of `conformance/stores/engines jobs`: it works on all requests of a store until it is killed. Its functions are those of
//! `jobs_functions.py`. With the feature `etcd` the store may be a cluster, which has no transactional ones.
//!
//!     jobs ADDRESS EFFECTS
use cf_store::{Functions, Options, Postgres, PostgresTransaction, SQLite, Service, StoreError};
use std::time::{Duration, SystemTime, UNIX_EPOCH};

type Fault = Box<dyn std::error::Error>;

/// The path of an address of SQLite's.
fn file_of(address: &str) -> Option<&str> {
    address.strip_prefix("sqlite:///")
}

/// Writes a row to a table of the store's engine, by a connection of its own.
fn effect(effects: &str, name: &str) -> Result<(), Fault> {
    let Some(file) = file_of(effects) else {
        let runtime = tokio::runtime::Builder::new_current_thread().enable_all().build()?;
        return runtime.block_on(async {
            let (client, connection) = tokio_postgres::connect(effects, tokio_postgres::NoTls).await?;
            let driver = tokio::spawn(connection);
            client.execute("insert into effect values ($1)", &[&name]).await?;
            drop(client);
            Ok(driver.await??)
        });
    };
    let db = rusqlite::Connection::open(file)?;
    db.busy_timeout(Duration::from_secs(60))?;
    db.execute("insert into effect values (?)", [name])?;
    Ok(())
}

/// Up to so many milliseconds, by chance.
fn pause(most: u32) {
    let now = SystemTime::now().duration_since(UNIX_EPOCH).map_or(0, |it| it.subsec_nanos());
    std::thread::sleep(Duration::from_micros(u64::from(now % (most * 1000))));
}

/// The database, once it answers.
fn database(address: &str) -> Result<Postgres, StoreError> {
    loop {
        match Postgres::connect(address) {
            Err(StoreError::Unknown(_)) => std::thread::sleep(Duration::from_millis(100)),
            connected => return connected,
        }
    }
}

fn main() -> Result<(), Fault> {
    let mut words = std::env::args().skip(1);
    let (address, effects) = (words.next().ok_or("ADDRESS is missing")?, words.next().ok_or("EFFECTS is missing")?);
    let outside = move |name: String| -> Result<String, Fault> {
        pause(10);
        effect(&effects, &name)?;
        pause(10);
        Ok(name)
    };
    let both = |name: String, _other: String| Ok::<_, String>(name);
    let functions = Functions::new().with("outside", 1, outside).with("same", 1, |name: String| Ok::<_, String>(name)).with("both", 1, both);
    let mut options = Options::default();
    options.threads = 2;
    options.lease = Duration::from_millis(700);
    options.takes_all = true;
    let _service = match file_of(&address) {
        Some(file) => {
            let inside = |db: &mut rusqlite::Connection, name: String| -> Result<String, Fault> {
                db.execute("insert into effect values (?)", [&name])?;
                pause(10);
                Ok(name)
            };
            Service::with(SQLite::open(file)?, functions.transactional("inside", 1, inside), options)?
        }
        #[cfg(feature = "etcd")]
        None if address.starts_with("etcd://") => Service::with(cf_store::Etcd::connect(&address)?, functions, options)?,
        None => {
            let inside = |db: &mut PostgresTransaction, name: String| -> Result<String, Fault> {
                db.execute("insert into effect values ($1)", &[&name])?;
                pause(10);
                Ok(name)
            };
            Service::with(database(&address)?, functions.transactional("inside", 1, inside), options)?
        }
    };
    loop {
        std::thread::park();
    }
}
