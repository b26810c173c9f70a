//! Rows in tables of a PostgreSQL database, which machines share, Python's processes too.
use crate::engines::postgres as sql;
use crate::error::StoreError;
use crate::store::{check_row, Mark, Opened, Put, Store, Timer, Transaction, WordCounts};
use cf_graph::Entry;
use std::any::Any;
use std::collections::{BTreeMap, HashMap};
use std::fmt;
use std::future::{poll_fn, Future};
use std::sync::atomic::{AtomicBool, AtomicI32, Ordering};
use std::sync::{mpsc, Arc, Mutex, MutexGuard, PoisonError, Weak};
use std::thread;
use std::time::Duration;
use tokio::runtime::{Builder, Runtime};
use tokio::sync::mpsc as messages;
use tokio_postgres::error::SqlState;
use tokio_postgres::types::ToSql;
use tokio_postgres::{AsyncMessage, Client, Config, NoTls, Row, Statement};

/// After so long without a sign a connection is given up.
const SILENCE: Duration = Duration::from_secs(20);
/// Between two notices: the first goes at once.
const BETWEEN_NOTICES: Duration = Duration::from_millis(10);

/// A database. Each connection sets `synchronous_commit` to on, where the server hasn't more; a server without `fsync` or `full_page_writes`, or one
/// that can only be read, is refused; one that can only be read later, as in a switch-over, is waited for. It needs PostgreSQL 13 or later. Connections
/// have no TLS.
///
/// Those who wait are woken by `NOTIFY` of a connection of its own, behind the commit: within the put it takes a lock of the whole database.
#[derive(Debug)]
pub struct Postgres {
    config: Config,
    /// Connections that nobody uses now.
    idle: Mutex<Vec<PostgresConnection>>,
    /// One that is told of notices.
    listens: Mutex<Option<PostgresConnection>>,
    notices: Arc<Notices>,
}

/// A connection, which does its work while it is asked.
struct PostgresConnection {
    runtime: Runtime,
    client: Client,
    /// The backends that have sent notices.
    told: messages::UnboundedReceiver<i32>,
    /// Statements that the server has read, so that it is asked once for each answer.
    prepared: HashMap<&'static str, Statement>,
}

/// A thread that sends notices, once there is one to send.
#[derive(Debug, Default)]
struct Notices {
    wanted: AtomicBool,
    gives: Mutex<Option<mpsc::Sender<()>>>,
    /// The backend that sends them, or 0.
    backend: AtomicI32,
}

type Failed = tokio_postgres::Error;
type Values<'a> = &'a [&'a (dyn ToSql + Sync)];

impl PostgresConnection {
    /// One to a server that was safe before, or wasn't looked at yet. Nothing was asked yet where it can't be had.
    fn new(config: &Config, is_first: bool) -> Result<PostgresConnection, StoreError> {
        let runtime = Builder::new_current_thread().enable_all().build().map_err(|error| StoreError::Unknown(error.to_string()))?;
        let (client, mut connection) = runtime.block_on(config.connect(NoTls)).map_err(|error| StoreError::Unknown(error.to_string()))?;
        let (gives, gets) = messages::unbounded_channel();
        runtime.spawn(async move {
            while let Some(Ok(message)) = poll_fn(|context| connection.poll_message(context)).await {
                if let AsyncMessage::Notification(notice) = message {
                    let _nobody_listens = gives.send(notice.process_id());
                }
            }
        });
        let mut made = PostgresConnection { runtime, client, told: gets, prepared: HashMap::new() };
        made.rows(sql::ANSWER_FROM_DISK, &[])?;
        if let Some(row) = made.rows(sql::UNSAFE_SETTINGS, &[])?.first() {
            let (name, found): (String, String) = (row.get(0), row.get(1));
            let why = format!("{name} is {found}, with which words are lost or can't be put");
            let is_away = !is_first && name == "transaction_read_only";
            return Err(if is_away { StoreError::Unknown(why) } else { StoreError::Refused(why) });
        }
        Ok(made)
    }

    /// Statements without values.
    fn all(&self, statements: &str) -> Result<(), StoreError> {
        self.within(self.client.batch_execute(statements))
    }

    fn rows(&mut self, statement: &'static str, values: Values<'_>) -> Result<Vec<Row>, StoreError> {
        let statement = self.prepared(statement)?;
        self.within(self.client.query(&statement, values))
    }

    /// How many rows a statement changes.
    fn change(&mut self, statement: &'static str, values: Values<'_>) -> Result<u64, StoreError> {
        let statement = self.prepared(statement)?;
        self.within(self.client.execute(&statement, values))
    }

    /// A statement as the server has read it.
    fn prepared(&mut self, statement: &'static str) -> Result<Statement, StoreError> {
        if let Some(known) = self.prepared.get(statement) {
            return Ok(known.clone());
        }
        let made = self.within(self.client.prepare(statement))?;
        self.prepared.insert(statement, made.clone());
        Ok(made)
    }

    /// Puts, and gives how many words stand, or what the database refuses.
    fn put(&mut self, put: &Put<'_>) -> Result<Result<u64, Failed>, StoreError> {
        if put.opens {
            return self.put_and_open(put);
        }
        if let [entry] = put.entries {
            let statement = self.prepared(sql::PUT)?;
            let (at, word, token, payload) = (put.at as i32, entry.word as i64, entry.token as i64, put.payloads.get(&(put.at + 1)));
            return self.in_time(self.client.execute(&statement, &[&put.number, &at, &word, &token, &payload]));
        }
        let (statement, columns) = (self.prepared(sql::PUT_GROUP)?, Columns::new(put));
        self.in_time(self.client.execute(&statement, &columns.values()))
    }

    /// The same, with which the request is open. (Who closes the request waits meanwhile.)
    fn put_and_open(&mut self, put: &Put<'_>) -> Result<Result<u64, Failed>, StoreError> {
        let (lock, group, open) = (self.prepared(sql::LOCK_CLOSING)?, self.prepared(sql::PUT_GROUP)?, self.prepared(sql::OPEN_AGAIN)?);
        let columns = Columns::new(put);
        let asked = async {
            let (values, its): (_, Values<'_>) = (columns.values(), &[&put.number]);
            let (landed, opened) = tokio::join!(self.client.execute(&group, &values), self.client.query(&open, its));
            landed.and_then(|many| opened.map(|_| many))
        };
        self.in_time(self.closing(&lock, put.number, asked))
    }

    /// What comes of a question under the lock of what is closed. All is sent at once, in this order, and is one transaction.
    async fn closing<T>(&self, lock: &Statement, number: i64, asked: impl Future<Output = Result<T, Failed>>) -> Result<T, Failed> {
        let (client, its): (_, Values<'_>) = (&self.client, &[&number]);
        let (begun, locked, told, ended) =
            tokio::join!(client.batch_execute("begin"), client.query(lock, its), asked, client.batch_execute("commit"));
        begun?;
        locked?;
        let told = told?;
        ended.map(|()| told)
    }

    /// What comes of a question, where it comes in time.
    fn within<T>(&self, asked: impl Future<Output = Result<T, Failed>>) -> Result<T, StoreError> {
        self.in_time(asked)?.map_err(|error| store_error(&error))
    }

    fn in_time<T>(&self, asked: impl Future<Output = T>) -> Result<T, StoreError> {
        let answered = self.runtime.block_on(async { tokio::time::timeout(SILENCE, asked).await });
        answered.map_err(|_| StoreError::Unknown(format!("no answer for {SILENCE:?}")))
    }
}

/// What an error of the database's is here. A place that is taken is told by who puts.
fn store_error(error: &Failed) -> StoreError {
    let why = error.as_db_error().map_or_else(|| error.to_string(), |it| it.message().to_owned());
    if error.code().map_or(true, |code| is_away(code.code())) {
        StoreError::Unknown(why)
    } else {
        StoreError::Refused(why)
    }
}

/// Whether it isn't known what became of a statement, or the server can't do it now.
fn is_away(code: &str) -> bool {
    sql::AWAY.iter().any(|it| code.starts_with(it))
}

/// Whether something stands in a put's place, or so the database says.
fn is_taken(error: &Failed) -> bool {
    error.code().map_or(false, |code| sql::TAKEN.contains(&code.code()))
}

impl Postgres {
    /// A database by its address, as `postgresql://user@host/database`.
    pub fn connect(address: &str) -> Result<Postgres, StoreError> {
        let mut config: Config = address.parse().map_err(|error: Failed| StoreError::Refused(error.to_string()))?;
        config.connect_timeout(Duration::from_secs(5)).keepalives_idle(Duration::from_secs(10));
        let mut first = PostgresConnection::new(&config, true)?;
        if !first.rows(sql::IS_MADE, &[])?[0].get::<_, bool>(0) {
            first.all(sql::SCHEMA)?;
        }
        Ok(Postgres { config, idle: Mutex::new(vec![first]), listens: Mutex::default(), notices: Arc::default() })
    }

    /// Uses a connection. One that failed isn't used again, unless it was the question's fault.
    fn using<T>(&self, act: impl FnOnce(&mut PostgresConnection) -> Result<T, StoreError>) -> Result<T, StoreError> {
        let idle = lock(&self.idle).pop();
        let mut connection = idle.filter(|it| !it.client.is_closed()).map_or_else(|| PostgresConnection::new(&self.config, false), Ok)?;
        let told = act(&mut connection);
        if !matches!(told, Err(StoreError::Unknown(_))) {
            lock(&self.idle).push(connection);
        }
        told
    }

    fn ask(&self, statement: &'static str, values: Values<'_>) -> Result<Vec<Row>, StoreError> {
        self.using(|connection| connection.rows(statement, values))
    }

    fn change(&self, statement: &'static str, values: Values<'_>) -> Result<u64, StoreError> {
        self.using(|connection| connection.change(statement, values))
    }

    /// Does a statement for a request of this number, which gives a row if it is there.
    fn ask_of(&self, name: &str, statement: &'static str, values: Values<'_>) -> Result<Vec<Row>, StoreError> {
        let rows = self.ask(statement, values)?;
        if rows.is_empty() {
            return Err(StoreError::Gone(name.into()));
        }
        Ok(rows)
    }

    /// Wakes who waits. What was put stands, so nothing is refused here: who gets no notice looks by himself.
    fn notify(&self) {
        self.notices.wanted.store(true, Ordering::SeqCst);
        let mut gives = lock(&self.notices.gives);
        if gives.as_ref().map_or(true, |it| it.send(()).is_err()) {
            let (first, gets) = mpsc::channel();
            let (config, notices) = (self.config.clone(), Arc::downgrade(&self.notices));
            let started = thread::Builder::new().name("cf-notify".into()).spawn(move || send_notices(&config, &notices, &gets));
            if started.is_ok() && first.send(()).is_ok() {
                *gives = Some(first);
            }
        }
    }
}

/// What a put of several words takes.
struct Columns<'a> {
    number: i64,
    places: Vec<i32>,
    words: Vec<i64>,
    tokens: Vec<i64>,
    payloads: Vec<Option<&'a [u8]>>,
}

impl<'a> Columns<'a> {
    fn new(put: &Put<'a>) -> Columns<'a> {
        Columns {
            number: put.number,
            places: (put.at as i32..).take(put.entries.len()).collect(),
            words: put.entries.iter().map(|entry| entry.word as i64).collect(),
            tokens: put.entries.iter().map(|entry| entry.token as i64).collect(),
            payloads: (put.at + 1..).take(put.entries.len()).map(|place| put.payloads.get(&place).map(Vec::as_slice)).collect(),
        }
    }

    fn values(&self) -> [&(dyn ToSql + Sync); 5] {
        [&self.number, &self.places, &self.words, &self.tokens, &self.payloads]
    }
}

/// Sends a notice each time one is wanted, until nobody can want one any more.
fn send_notices(config: &Config, notices: &Weak<Notices>, gets: &mpsc::Receiver<()>) {
    let mut connection = None;
    while gets.recv().is_ok() {
        let Some(notices) = notices.upgrade().filter(|it| it.wanted.swap(false, Ordering::SeqCst)) else { continue };
        if connection.is_none() {
            connection = PostgresConnection::new(config, false).and_then(|made| notices.sent_by(made)).ok();
        }
        if !matches!(connection.as_ref().map(|it| it.all(sql::NOTIFY)), Some(Ok(()))) {
            connection = None;
        }
        drop(notices);
        thread::sleep(BETWEEN_NOTICES);
    }
}

impl Notices {
    /// Has a connection send them. What it does needn't be on disk.
    fn sent_by(&self, mut connection: PostgresConnection) -> Result<PostgresConnection, StoreError> {
        connection.all(sql::ANSWER_AT_ONCE)?;
        let backend = connection.rows("select pg_backend_pid()", &[])?[0].get(0);
        self.backend.store(backend, Ordering::SeqCst);
        Ok(connection)
    }
}

impl Store for Postgres {
    fn open(&self, name: &str, plan: &str) -> Result<Opened, StoreError> {
        loop {
            if let Some(found) = self.find(name)? {
                return Ok(found);
            }
            self.change(sql::OPEN, &[&name, &plan])?;
        }
    }

    fn find(&self, name: &str) -> Result<Option<Opened>, StoreError> {
        let rows = self.ask(sql::FIND, &[&name])?;
        Ok(rows.first().map(|row| Opened { name: name.into(), number: row.get(0), plan: row.get(1), opened: row.get(2) }))
    }

    fn append(&self, put: Put<'_>) -> Result<Option<Vec<Entry>>, StoreError> {
        let (landed, refused) = self.using(|connection| match connection.put(&put)? {
            Ok(many) => Ok((many == put.entries.len() as u64, None)),
            Err(error) if is_taken(&error) => Ok((false, Some(error))),
            Err(error) => Err(store_error(&error)),
        })?;
        if landed {
            self.notify();
            return Ok(None);
        }
        let stands = self.read(put.request, put.number, put.at)?;
        if stands.is_empty() {
            // (by what somebody else has put into the database)
            return Err(refused.map_or_else(|| StoreError::Gone(put.request.into()), |error| store_error(&error)));
        }
        Ok(Some(stands))
    }

    fn read(&self, name: &str, number: i64, at: usize) -> Result<Vec<Entry>, StoreError> {
        let rows = self.ask_of(name, sql::READ, &[&number, &(at as i32)])?;
        let stands = |row: &Row| Some((i64::from(row.get::<_, Option<i32>>(0)?), row.get(1), row.get(2)));
        check_row(name, at, rows.iter().filter_map(stands))
    }

    fn payload(&self, name: &str, number: i64, place: usize) -> Result<Option<Vec<u8>>, StoreError> {
        Ok(self.payloads(name, number, &[place])?.pop().flatten())
    }

    fn payloads(&self, name: &str, number: i64, places: &[usize]) -> Result<Vec<Option<Vec<u8>>>, StoreError> {
        let at: Vec<i32> = places.iter().map(|place| *place as i32 - 1).collect();
        let rows = self.ask_of(name, sql::PAYLOADS, &[&number, &at])?;
        let mut read: HashMap<Option<i32>, Option<Vec<u8>>> = rows.iter().map(|row| (row.get(0), row.get(1))).collect();
        Ok(at.iter().map(|at| read.remove(&Some(*at)).flatten()).collect())
    }

    fn news(&self, since: Option<Mark>) -> Result<(WordCounts, Mark), StoreError> {
        let Some((mut mark, _)) = since else {
            let mark = self.ask(sql::MARK, &[])?[0].get(0); // (first: what comes between is told once more)
            let ends = self.ask(sql::ENDS, &[])?;
            return Ok((ends.iter().map(|row| (row.get(0), Some(row.get::<_, i32>(1) as usize))).collect(), (mark, 0)));
        };
        let mut told = WordCounts::new();
        for row in self.ask(sql::NEWS, &[&mark.to_string()])? {
            let many: i64 = row.get(1);
            if let Some(name) = row.get(0) {
                let known = told.entry(name).or_default();
                *known = usize::try_from(many).ok().max(*known);
            } else {
                mark = many;
            }
        }
        Ok((told, (mark, 0)))
    }

    fn wait_for_change(&self, wait: Duration) -> Result<(), StoreError> {
        let mut listens = lock(&self.listens);
        let Some(connection) = listens.as_mut().filter(|it| !it.client.is_closed()) else {
            let made = PostgresConnection::new(&self.config, false)?;
            made.all(sql::LISTEN)?;
            *listens = Some(made);
            return Ok(());
        };
        let PostgresConnection { runtime, told, .. } = connection;
        let own = self.notices.backend.load(Ordering::SeqCst);
        let by_others = async { while told.recv().await == Some(own) {} };
        let _nothing_new = runtime.block_on(async { tokio::time::timeout(wait, by_others).await });
        while told.try_recv().is_ok() {}
        Ok(())
    }

    fn end(&self, name: &str, number: i64, at: usize) -> Result<bool, StoreError> {
        let told = self.using(|connection| {
            let (lock, end) = (connection.prepared(sql::LOCK_CLOSING)?, connection.prepared(sql::END)?);
            let (connection, at) = (&*connection, at as i32);
            connection.within(connection.closing(&lock, number, connection.client.query(&end, &[&number, &at])))
        })?;
        told.first().map(|row| row.get(0)).ok_or_else(|| StoreError::Gone(name.into()))
    }

    fn beat(&self, session: u64) -> Result<(), StoreError> {
        self.change(sql::BEAT, &[&(session as i64)]).map(|_| ())
    }

    fn beats(&self) -> Result<BTreeMap<u64, i64>, StoreError> {
        Ok(self.ask(sql::BEATS, &[])?.iter().map(|row| (row.get::<_, i64>(0) as u64, row.get(1))).collect())
    }

    fn drop_beat(&self, session: u64) -> Result<(), StoreError> {
        self.change(sql::DROP_BEAT, &[&(session as i64)]).map(|_| ())
    }

    fn name_session(&self, session: u64, name: &str) -> Result<(), StoreError> {
        self.change(sql::NAME_SESSION, &[&(session as i64), &name]).map(|_| ())
    }

    fn now(&self) -> Result<f64, StoreError> {
        Ok(self.ask(sql::NOW, &[])?[0].get(0))
    }

    fn set_timer(&self, timer: &Timer) -> Result<(), StoreError> {
        let values: Values<'_> = &[&timer.number, &i32::from(timer.stage), &timer.due, &timer.payload];
        if self.change(sql::SET_TIMER, values)? == 0 {
            return Err(StoreError::Gone(timer.request.clone()));
        }
        Ok(())
    }

    fn due_timers(&self, now: f64) -> Result<Vec<Timer>, StoreError> {
        let read =
            |row: Row| Timer { request: row.get(0), number: row.get(1), stage: row.get::<_, i32>(2) as u16, due: row.get(3), payload: row.get(4) };
        Ok(self.ask(sql::DUE_TIMERS, &[&now])?.into_iter().map(read).collect())
    }

    fn drop_timer(&self, timer: &Timer) -> Result<(), StoreError> {
        self.change(sql::DROP_TIMER, &[&timer.number, &i32::from(timer.stage)]).map(|_| ())
    }

    fn transacts(&self) -> bool {
        true
    }

    fn transaction(&self) -> Result<Box<dyn Transaction + '_>, StoreError> {
        let connection = PostgresConnection::new(&self.config, false)?;
        connection.all("begin; savepoint cf_function")?;
        Ok(Box::new(OpenTransaction { store: self, inside: PostgresTransaction(connection) }))
    }
}

/// What a transactional function is called with: the connection of its transaction.
#[derive(Debug)]
pub struct PostgresTransaction(PostgresConnection);

impl PostgresTransaction {
    /// Does a statement, and says how many rows it changed.
    pub fn execute(&mut self, statement: &str, values: &[&(dyn ToSql + Sync)]) -> Result<u64, tokio_postgres::Error> {
        self.0.runtime.block_on(self.0.client.execute(statement, values))
    }

    /// Does a statement, and gives its rows.
    pub fn query(&mut self, statement: &str, values: &[&(dyn ToSql + Sync)]) -> Result<Vec<Row>, tokio_postgres::Error> {
        self.0.runtime.block_on(self.0.client.query(statement, values))
    }
}

/// A function's own transaction. What wasn't committed is undone as the connection is dropped.
struct OpenTransaction<'a> {
    store: &'a Postgres,
    inside: PostgresTransaction,
}

impl Transaction for OpenTransaction<'_> {
    fn connection(&mut self) -> &mut dyn Any {
        &mut self.inside
    }

    fn is_away(&mut self) -> bool {
        let connection = &mut self.inside.0;
        connection.all("rollback").and_then(|()| connection.rows(sql::IS_READ_ONLY, &[])).map_or(true, |rows| rows[0].get(0))
    }

    fn append(&mut self, put: Put<'_>) -> Result<bool, StoreError> {
        let released = self.inside.0.within(async {
            match self.inside.0.client.batch_execute("release savepoint cf_function").await {
                Err(error) if [Some(&SqlState::S_E_INVALID_SPECIFICATION), Some(&SqlState::NO_ACTIVE_SQL_TRANSACTION)].contains(&error.code()) => {
                    Ok(false)
                }
                told => told.map(|()| true),
            }
        })?;
        if !released {
            return Err(StoreError::Refused("the function has ended its transaction".into()));
        }
        for (k, entry) in put.entries.iter().enumerate() {
            let (at, word, token) = ((put.at + k) as i32, entry.word as i64, entry.token as i64);
            let values: Values<'_> = &[&put.number, &at, &word, &token, &put.payloads.get(&(put.at + k + 1))];
            if self.inside.0.change(sql::PUT, values)? == 0 {
                return Ok(false);
            }
        }
        Ok(true)
    }

    fn commit(&mut self) -> Result<(), StoreError> {
        self.inside.0.all("commit")?;
        self.store.notify();
        Ok(())
    }
}

impl fmt::Debug for PostgresConnection {
    fn fmt(&self, f: &mut fmt::Formatter<'_>) -> fmt::Result {
        f.debug_struct("Connection").field("client", &self.client).finish_non_exhaustive()
    }
}

fn lock<T>(mutex: &Mutex<T>) -> MutexGuard<'_, T> {
    mutex.lock().unwrap_or_else(PoisonError::into_inner)
}

#[cfg(test)]
mod tests {
    use super::is_away;

    #[test]
    fn which_errors_say_that_the_server_is_away() {
        for code in ["08006", "25006", "26000", "40001", "40P01", "53100", "53300", "55P03", "57014", "57P01", "57P03", "58030"] {
            assert!(is_away(code), "{code}");
        }
        for code in ["22001", "23505", "23514", "25P02", "42501", "42P01", "54000", "54001", "P0001", "XX001"] {
            assert!(!is_away(code), "{code}");
        }
    }
}
