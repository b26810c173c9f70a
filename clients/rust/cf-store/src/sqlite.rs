//! Rows in a file of SQLite's, which processes of one machine share, Python's too.
use crate::engines::sqlite as sql;
use crate::error::StoreError;
use crate::store::{check_row, Mark, Opened, Put, Store, Timer, Transaction, WordCounts};
use cf_graph::Entry;
use rusqlite::types::ValueRef;
use rusqlite::{params, Connection, Params, Row, ToSql};
use rustix::fs::{flock, FlockOperation};
use std::any::Any;
use std::cell::RefCell;
use std::collections::BTreeMap;
use std::fs::{File, OpenOptions};
use std::path::{Path, PathBuf};
use std::sync::{mpsc, Arc, Mutex, PoisonError};
use std::thread;
use std::time::{Duration, Instant, SystemTime, UNIX_EPOCH};

/// In bytes: a larger payload would make the words' own pages large.
const SMALL: usize = 512;
/// Between two looks at the file's version.
const BETWEEN_LOOKS: Duration = Duration::from_millis(1);
/// How long a writer waits for the file: who has it may have been stopped.
const LONGEST_WAIT: Duration = Duration::from_secs(20);

thread_local! {
    /// In which files this thread has a transaction open.
    static WITHIN: RefCell<Vec<PathBuf>> = RefCell::default();
}

/// A file. What it has answered is on disk: `synchronous` is FULL, and the journal is a write-ahead log; a file that can't have that is refused.
/// Writers queue at a lock on the file of this name with `-line` behind it, as Python's do, which a killed process leaves.
///
/// It needs SQLite 3.24 or later. Keep it off NFS.
#[derive(Debug)]
pub struct SQLite {
    path: PathBuf,
    /// Connections that nobody uses now.
    idle: Mutex<Vec<Connection>>,
    /// Files of the line that nobody uses now. Each stands in it for itself.
    lines: Arc<Mutex<Vec<File>>>,
    /// One by whose version it is seen what the others, and other processes, have committed; and that version.
    watch: Mutex<Option<(Connection, i64)>>,
}

impl SQLite {
    /// Opens a file, and makes it where it isn't there.
    pub fn open(path: impl AsRef<Path>) -> Result<SQLite, StoreError> {
        let store = SQLite { path: path.as_ref().to_owned(), idle: Mutex::default(), lines: Arc::default(), watch: Mutex::default() };
        store.writing(|db| db.execute_batch(sql::SCHEMA))?;
        Ok(store)
    }

    fn connect(&self) -> rusqlite::Result<Connection> {
        let db = Connection::open(&self.path)?;
        db.busy_timeout(LONGEST_WAIT)?;
        let mode: String = db.query_row(sql::SET_JOURNAL, [], |row| row.get(0))?;
        db.execute_batch(sql::ANSWER_FROM_DISK)?;
        if !["wal", "delete", "truncate", "persist"].contains(&mode.as_str()) {
            let why = format!("journal_mode is {mode}, with which a crash loses words");
            return Err(rusqlite::Error::SqliteFailure(rusqlite::ffi::Error::new(rusqlite::ffi::SQLITE_NOTADB), Some(why)));
        }
        Ok(db)
    }

    /// Uses a connection. One whose transaction couldn't be undone isn't used again.
    fn using<T>(&self, act: impl FnOnce(&mut Connection) -> rusqlite::Result<T>) -> Result<T, StoreError> {
        let idle = self.idle.lock().unwrap_or_else(PoisonError::into_inner).pop();
        let used = idle.map_or_else(|| self.connect(), Ok).and_then(|mut db| {
            let told = act(&mut db);
            if db.is_autocommit() {
                self.idle.lock().unwrap_or_else(PoisonError::into_inner).push(db);
            }
            told
        });
        used.map_err(|error| self.store_error(&error))
    }

    /// Acts in a transaction, in the line of writers. (Its statements are prepared once a connection.)
    fn writing<T>(&self, act: impl FnOnce(&Connection) -> rusqlite::Result<T>) -> Result<T, StoreError> {
        let _turn = self.turn()?;
        self.using(|db| {
            let does = |statement: &str| db.prepare_cached(statement)?.execute([]).map(|_| ());
            does("begin immediate")?;
            let told = act(db).and_then(|told| does("commit").map(|()| told));
            if told.is_err() {
                let _closed_where_it_fails = does("rollback");
            }
            told
        })
    }

    /// This one's turn to write. A wait for the system's lock can't be given up, and who has it may have been stopped: where it isn't free a thread
    /// waits in this one's place.
    fn turn(&self) -> Result<Turn, StoreError> {
        if WITHIN.with(|it| it.borrow().contains(&self.path)) {
            return Err(StoreError::Refused(format!("{}: a transactional function can't put, since nobody can meanwhile", self.path.display())));
        }
        let mut name = self.path.clone().into_os_string();
        name.push("-line");
        let away = |why: &dyn std::fmt::Display| StoreError::Unknown(format!("{}: {why}", self.path.display()));
        let idle = self.lines.lock().unwrap_or_else(PoisonError::into_inner).pop();
        let opened = || OpenOptions::new().read(true).write(true).create(true).truncate(false).open(name);
        let file = idle.map_or_else(opened, Ok).map_err(|error| away(&error))?;
        let turn = |file, lines| Turn { file: Some(file), lines };
        if flock(&file, FlockOperation::NonBlockingLockExclusive).is_ok() {
            return Ok(turn(file, Arc::clone(&self.lines)));
        }
        let ((gives, gets), lines) = (mpsc::channel(), Arc::clone(&self.lines));
        let wait = move || {
            if flock(&file, FlockOperation::LockExclusive).is_ok() {
                let _given_up = gives.send(turn(file, lines));
            }
        };
        thread::Builder::new().name("cf-line".into()).spawn(wait).map_err(|error| away(&error))?;
        gets.recv_timeout(LONGEST_WAIT).map_err(|_| away(&format!("another process has the file for {LONGEST_WAIT:?}")))
    }

    fn store_error(&self, error: &rusqlite::Error) -> StoreError {
        let text = format!("{}: {error}", self.path.display());
        match error {
            rusqlite::Error::SqliteFailure(code, _) if is_away(code.extended_code) => StoreError::Unknown(text),
            _ => StoreError::Refused(text),
        }
    }

    /// How many rows a statement changes, in a transaction of its own.
    fn change(&self, statement: &str, values: impl Params) -> Result<usize, StoreError> {
        let _turn = self.turn()?;
        self.using(|db| change_in(db, statement, values))
    }

    fn ask<T>(&self, statement: &str, values: &[&dyn ToSql], read: impl FnMut(&Row<'_>) -> rusqlite::Result<T>) -> Result<Vec<T>, StoreError> {
        self.using(|db| db.prepare_cached(statement)?.query_map(values, read)?.collect())
    }

    /// `Gone` where a request of this number isn't there.
    fn is_there(&self, name: &str, number: i64) -> Result<(), StoreError> {
        let there = self.ask(sql::IS_THERE, &[&number], |_| Ok(()))?;
        if there.is_empty() {
            return Err(StoreError::Gone(name.into()));
        }
        Ok(())
    }
}

impl Store for SQLite {
    fn open(&self, name: &str, plan: &str) -> Result<Opened, StoreError> {
        loop {
            if let Some(found) = self.find(name)? {
                return Ok(found);
            }
            self.change(sql::OPEN, params![name, plan])?;
        }
    }

    fn find(&self, name: &str) -> Result<Option<Opened>, StoreError> {
        let read = |row: &Row<'_>| Ok(Opened { name: name.into(), number: row.get(0)?, plan: row.get(1)?, opened: row.get(2)? });
        Ok(self.ask(sql::FIND, &[&name], read)?.pop())
    }

    fn append(&self, put: Put<'_>) -> Result<Option<Vec<Entry>>, StoreError> {
        // (one statement is a transaction of its own)
        let is_alone = put.entries.len() <= 2 && !put.opens && put.payloads.values().all(|it| it.len() <= SMALL);
        let landed = match put.entries {
            [first, second] if is_alone => {
                let payload = |place| put.payloads.get(&place);
                let (word, token, payload, next_payload) = (first.word as i64, first.token as i64, payload(put.at + 1), payload(put.at + 2));
                let (next_word, next_token) = (second.word as i64, second.token as i64);
                self.change(sql::PUT_TWO, params![put.number, put.at, word, token, payload, next_word, next_token, next_payload])? == 2
            }
            _ if is_alone => {
                let _turn = self.turn()?;
                self.using(|db| put_in(db, put))?
            }
            _ => self.writing(|db| put_in(db, put))?,
        };
        if landed {
            return Ok(None);
        }
        let stands = self.read(put.request, put.number, put.at)?;
        if stands.is_empty() {
            return Err(StoreError::Gone(put.request.into()));
        }
        Ok(Some(stands))
    }

    fn read(&self, name: &str, number: i64, at: usize) -> Result<Vec<Entry>, StoreError> {
        let read = |row: &Row<'_>| Ok((row.get::<_, Option<i64>>(0)?, row.get::<_, Option<i64>>(1)?, row.get::<_, Option<i64>>(2)?));
        let rows = self.ask(sql::READ, &[&number, &at], read)?;
        if rows.is_empty() {
            return Err(StoreError::Gone(name.into()));
        }
        check_row(name, at, rows.into_iter().filter_map(|(place, word, token)| Some((place?, word?, token?))))
    }

    fn payload(&self, name: &str, number: i64, place: usize) -> Result<Option<Vec<u8>>, StoreError> {
        let payload = self.ask(sql::PAYLOAD, &[&number, &place], |row| bytes(row.get_ref(0)?))?.pop().flatten();
        if payload.is_none() {
            self.is_there(name, number)?;
        }
        Ok(payload)
    }

    fn news(&self, since: Option<Mark>) -> Result<(WordCounts, Mark), StoreError> {
        let (mut told, mut mark) = (WordCounts::new(), Mark::default());
        if let Some((words, requests)) = since {
            let read = |row: &Row<'_>| Ok((row.get::<_, Option<String>>(0)?, row.get::<_, i64>(1)?, row.get::<_, Option<i64>>(2)?));
            for (name, many, opened) in self.ask(sql::NEWS, &[&words, &requests], read)? {
                if let Some(name) = name {
                    let known = told.entry(name).or_default();
                    *known = usize::try_from(many).ok().max(*known);
                } else {
                    mark = (many, opened.unwrap_or_default());
                }
            }
        }
        match since {
            Some((words, _)) if mark.0 >= words => Ok((told, mark)),
            _ => {
                let mark = self.ask(sql::MARK, &[], |row| Ok((row.get(0)?, row.get(1)?)))?.pop().unwrap_or_default(); // (before them)
                let ends = self.ask(sql::ENDS, &[], |row| Ok((row.get(0)?, Some(row.get(1)?))))?;
                Ok((ends.into_iter().collect(), mark))
            }
        }
    }

    fn wait_for_change(&self, wait: Duration) -> Result<(), StoreError> {
        let until = Instant::now() + wait;
        let mut watch = self.watch.lock().unwrap_or_else(PoisonError::into_inner);
        loop {
            let (db, last) = match watch.take() {
                Some(known) => known,
                None => (self.connect().map_err(|error| self.store_error(&error))?, -1),
            };
            let read = db.prepare_cached(sql::VERSION).and_then(|mut it| it.query_row([], |row| row.get(0)));
            let now = read.map_err(|error| self.store_error(&error))?;
            *watch = Some((db, now));
            let left = until.saturating_duration_since(Instant::now());
            if now != last || left.is_zero() {
                return Ok(());
            }
            thread::sleep(left.min(BETWEEN_LOOKS));
        }
    }

    fn end(&self, name: &str, number: i64, at: usize) -> Result<bool, StoreError> {
        let closes = self.writing(|db| {
            let closes = change_in(db, sql::END, params![number, at])? == 1;
            for statement in [sql::DROP_TIMERS, sql::DROP_GLANCE].into_iter().filter(|_| closes) {
                change_in(db, statement, [number])?;
            }
            Ok(closes)
        })?;
        if !closes {
            self.is_there(name, number)?;
        }
        Ok(closes)
    }

    fn beat(&self, session: u64) -> Result<(), StoreError> {
        self.change(sql::BEAT, [session as i64]).map(|_| ())
    }

    fn beats(&self) -> Result<BTreeMap<u64, i64>, StoreError> {
        let read = |row: &Row<'_>| Ok((row.get::<_, i64>(0)? as u64, row.get(1)?));
        Ok(self.ask(sql::BEATS, &[], read)?.into_iter().collect())
    }

    fn drop_beat(&self, session: u64) -> Result<(), StoreError> {
        self.writing(|db| {
            change_in(db, sql::DROP_BEAT, [session as i64])?;
            change_in(db, sql::DROP_SESSION_NAME, [session as i64]).map(|_| ())
        })
    }

    fn name_session(&self, session: u64, name: &str) -> Result<(), StoreError> {
        self.change(sql::NAME_SESSION, params![session as i64, name]).map(|_| ())
    }

    fn now(&self) -> Result<f64, StoreError> {
        Ok(SystemTime::now().duration_since(UNIX_EPOCH).unwrap_or_default().as_secs_f64())
    }

    fn set_timer(&self, timer: &Timer) -> Result<(), StoreError> {
        if self.change(sql::SET_TIMER, params![timer.number, timer.stage, timer.due, timer.payload])? == 0 {
            return Err(StoreError::Gone(timer.request.clone()));
        }
        Ok(())
    }

    fn due_timers(&self, now: f64) -> Result<Vec<Timer>, StoreError> {
        self.ask(sql::DUE_TIMERS, &[&now], |row| {
            let payload = bytes(row.get_ref(4)?)?.unwrap_or_default();
            Ok(Timer { request: row.get(0)?, number: row.get(1)?, stage: row.get(2)?, due: row.get(3)?, payload })
        })
    }

    fn drop_timer(&self, timer: &Timer) -> Result<(), StoreError> {
        self.change(sql::DROP_TIMER, params![timer.number, timer.stage]).map(|_| ())
    }

    fn transacts(&self) -> bool {
        true
    }

    fn locks_out_others(&self) -> bool {
        true
    }

    fn transaction(&self) -> Result<Box<dyn Transaction + '_>, StoreError> {
        let turn = self.turn()?;
        let begun = self.connect().and_then(|db| db.execute_batch("begin immediate; savepoint cf_function").map(|()| db));
        let db = begun.map_err(|error| self.store_error(&error))?;
        Ok(Box::new(OpenTransaction { store: self, db, _within: Within::new(&self.path), _turn: turn }))
    }
}

/// Whether SQLite can't do it now.
fn is_away(code: i32) -> bool {
    sql::AWAY.contains(&(code & 0xff))
}

/// How many rows a statement changes.
fn change_in(db: &Connection, statement: &str, values: impl Params) -> rusqlite::Result<usize> {
    db.prepare_cached(statement)?.execute(values)
}

/// Puts a group in a transaction that holds the file: whether it landed.
fn put_in(db: &Connection, put: Put<'_>) -> rusqlite::Result<bool> {
    for (k, entry) in put.entries.iter().enumerate() {
        let payload = put.payloads.get(&(put.at + 1 + k));
        let small = payload.filter(|it| it.len() <= SMALL);
        if change_in(db, sql::PUT, params![put.number, put.at + k, entry.word as i64, entry.token as i64, small])? == 0 {
            return Ok(false); // (the first: nothing stands behind a place that is free, so none of the group was put)
        }
        if let Some(large) = payload.filter(|it| it.len() > SMALL) {
            change_in(db, sql::PUT_LARGE, params![put.number, put.at + 1 + k, large])?;
        }
    }
    if put.opens {
        change_in(db, sql::OPEN_AGAIN, [put.number])?;
    }
    Ok(true)
}

/// A function's own transaction. A connection that is dropped undoes what wasn't committed; then the next writer has its turn.
struct OpenTransaction<'a> {
    store: &'a SQLite,
    db: Connection,
    _within: Within,
    _turn: Turn,
}

/// A turn to write, which ends with the value.
struct Turn {
    file: Option<File>,
    lines: Arc<Mutex<Vec<File>>>,
}

impl Drop for Turn {
    fn drop(&mut self) {
        // (a file that is closed stands in no line)
        let ended = self.file.take().filter(|it| flock(it, FlockOperation::Unlock).is_ok());
        self.lines.lock().unwrap_or_else(PoisonError::into_inner).extend(ended);
    }
}

/// The time in which a thread has a transaction open in a file.
struct Within;

impl Within {
    fn new(path: &Path) -> Within {
        WITHIN.with(|it| it.borrow_mut().push(path.to_owned()));
        Within
    }
}

impl Drop for Within {
    fn drop(&mut self) {
        WITHIN.with(|it| it.borrow_mut().pop());
    }
}

impl Transaction for OpenTransaction<'_> {
    fn connection(&mut self) -> &mut dyn Any {
        &mut self.db
    }

    fn append(&mut self, put: Put<'_>) -> Result<bool, StoreError> {
        if self.db.execute_batch("release cf_function").is_err() {
            return Err(StoreError::Refused("the function has ended its transaction".into()));
        }
        put_in(&self.db, put).map_err(|error| self.store.store_error(&error))
    }

    fn commit(&mut self) -> Result<(), StoreError> {
        self.db.execute_batch("commit").map_err(|error| self.store.store_error(&error))
    }
}

/// A payload, which may be a text where somebody wrote it by hand.
fn bytes(found: ValueRef<'_>) -> rusqlite::Result<Option<Vec<u8>>> {
    Ok(match found {
        ValueRef::Blob(bytes) | ValueRef::Text(bytes) => Some(bytes.to_vec()),
        _ => None,
    })
}

#[cfg(test)]
mod tests {
    use super::is_away;

    #[test]
    fn which_errors_say_that_the_file_is_away() {
        for code in [1, 3, 4, 5, 6, 7, 8, 9, 10, 13, 14, 15, 17, 10 | 3 << 8] {
            assert!(is_away(code), "{code}");
        }
        for code in [11, 12, 18, 19, 20, 21, 26, 19 | 8 << 8] {
            assert!(!is_away(code), "{code}");
        }
    }
}
