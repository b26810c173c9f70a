//! Rows in keys of an etcd cluster, by its JSON gateway: for few and important requests that outlive machines. Python's processes share them.
use crate::engines::etcd::is_refused;
use crate::error::StoreError;
use crate::http::HttpConnection;
use crate::store::{check_row, Mark, Opened, Put, Store, Timer, WordCounts};
use cf_graph::Entry;
use serde_json::{json, Value as Json};
use std::collections::BTreeMap;
use std::sync::atomic::{AtomicUsize, Ordering};
use std::sync::{Mutex, MutexGuard, PoisonError};
use std::thread;
use std::time::{Duration, Instant, SystemTime, UNIX_EPOCH};

/// In a put: a transaction of etcd has 128 operations at most by default.
const MOST_ENTRIES: usize = 40;
/// In a question: as many operations.
const MOST_RANGES: usize = 64;
/// That one answer has, so that it comes in time.
const MOST_KEYS: usize = 1000;
/// For each step of an answer.
const SILENCE: Duration = Duration::from_secs(3);
/// Between two answers that something was put.
const BETWEEN_NEWS: Duration = Duration::from_millis(10);
/// Before a member is asked for a watch where another's was cut off.
const BETWEEN_WATCHES: Duration = Duration::from_millis(50);

/// A cluster. It answers what a majority of its members has on disk, unless these were started with `--unsafe-no-fsync`, which can't be seen here.
/// It has no clock: timers go by each process's own. A put takes 40 words at most. It needs etcd 3.4 or later. Connections have no TLS.
///
/// If a member doesn't answer within 3 s, the next one is asked.
#[derive(Debug)]
pub struct Etcd {
    addresses: Vec<String>,
    /// Which member is asked, counted on at each failure.
    turn: AtomicUsize,
    /// Connections that nobody uses now, each with the turn in which it was made.
    idle: Mutex<Vec<(usize, HttpConnection)>>,
    /// A stream of what is put, which stays open.
    watch: Mutex<Option<ChangeStream>>,
}

/// A stream of what is put, with the turn in which it was opened, and when it has last told something.
#[derive(Debug)]
struct ChangeStream {
    turn: usize,
    stream: HttpConnection,
    told: Instant,
}

/// A key and its value, as etcd gives them.
struct Pair {
    key: Vec<u8>,
    value: Vec<u8>,
    /// The revision in which the key was made.
    created: i64,
    /// How often it was written since.
    version: i64,
}

impl Etcd {
    /// A cluster by the addresses of its members, as `etcd://host:2379,host:2379`. [`StoreError::Unknown`] where none of them answers.
    pub fn connect(address: &str) -> Result<Etcd, StoreError> {
        let addresses: Vec<String> = address.strip_prefix("etcd://").unwrap_or(address).split(',').map(str::to_owned).collect();
        let has_port = |it: &String| it.rsplit_once(':').map_or(false, |(host, port)| !host.is_empty() && port.parse::<u16>().is_ok());
        if !addresses.iter().all(has_port) {
            return Err(StoreError::Refused(format!("{address:?} is no address of a cluster: etcd://HOST:PORT,..")));
        }
        let store = Etcd { addresses, turn: AtomicUsize::new(0), idle: Mutex::default(), watch: Mutex::default() };
        let mut answered = store.range(json!({"key": base64(b"cf/r/"), "keys_only": true}));
        for _ in 1..store.addresses.len() {
            answered = answered.or_else(|_| store.range(json!({"key": base64(b"cf/r/"), "keys_only": true})));
        }
        answered.map(|_| store)
    }

    // Calls.

    fn connect_member(&self) -> (usize, Result<HttpConnection, StoreError>) {
        let turn = self.turn.load(Ordering::SeqCst);
        let address = &self.addresses[turn % self.addresses.len()];
        (turn, HttpConnection::new(address, SILENCE).map_err(|error| unknown_error(&error)))
    }

    /// Has the next member asked, unless another thread has done so since this turn.
    fn ask_next_member(&self, turn: usize) {
        let _done_by_another = self.turn.compare_exchange(turn, turn + 1, Ordering::SeqCst, Ordering::SeqCst);
    }

    fn post(&self, path: &str, body: &Json) -> Result<Json, StoreError> {
        let now = self.turn.load(Ordering::SeqCst);
        let idle = {
            let mut idle = lock(&self.idle);
            idle.retain(|(turn, _)| *turn == now);
            idle.pop()
        };
        let (turn, connection) = idle.map_or_else(|| self.connect_member(), |(turn, it)| (turn, Ok(it)));
        let told = connection.and_then(|mut connection| {
            let (status, told) = connection.post(path, body.to_string().as_bytes()).map_err(|error| unknown_error(&error))?;
            let read: Result<Json, _> = serde_json::from_slice(&told);
            let shown = || format!("{status} {}", String::from_utf8_lossy(&told[..told.len().min(200)]));
            let answer = match (status, read) {
                (200, Ok(read)) => Ok(read),
                (_, Ok(read)) if is_refused(read["code"].as_i64().unwrap_or_default(), read["message"].as_str().unwrap_or_default()) => {
                    Err(StoreError::Refused(format!("etcd refuses it: {}", shown())))
                }
                _ => return Err(unknown_error(&shown())),
            };
            lock(&self.idle).push((turn, connection));
            answer
        });
        if let Err(StoreError::Unknown(_)) = told {
            self.ask_next_member(turn);
        }
        told
    }

    /// What stands in a range, without looking for more behind it, and the revision of that.
    fn range(&self, asked: Json) -> Result<(Vec<Pair>, Json), StoreError> {
        let told = self.post("/v3/kv/range", &asked)?;
        Ok((read_pairs(&told)?, told))
    }

    /// What stands in a range at one revision, and that one. It is read some keys at a time.
    fn keys(&self, key: &[u8], end: &[u8], more: &[(&str, Json)]) -> Result<(Vec<Pair>, i64), StoreError> {
        let mut asked = json!({"key": base64(key), "range_end": base64(end), "limit": MOST_KEYS});
        for (name, it) in more {
            asked[name] = it.clone();
        }
        let (mut found, mut revision) = (Vec::new(), None);
        loop {
            let (some, told) = self.range(asked.clone())?;
            found.extend(some);
            let now = match revision {
                Some(known) => known,
                None => *revision.insert(read_number(&told["header"]["revision"])?),
            };
            if told["more"] != true {
                return Ok((found, now));
            }
            // (of a revision any member that knows it has the same answer)
            asked["revision"] = json!(now);
            asked["serializable"] = json!(true);
            let last = found.last().ok_or_else(|| unfit_answer(&told))?;
            asked["key"] = json!(base64(&[&last.key[..], &[0]].concat()));
        }
    }

    /// Does `success` where all of `compares` are so, else `failure`: whether they were, and what was found.
    fn txn(&self, compares: Json, success: Json, failure: Json) -> Result<(bool, Vec<Pair>), StoreError> {
        let told = self.post("/v3/kv/txn", &json!({"compare": compares, "success": success, "failure": failure}))?;
        let found = &told["responses"][0]["response_range"];
        Ok((told["succeeded"] == true, if found.is_null() { Vec::new() } else { read_pairs(found)? }))
    }

    /// Whether a request is there no more, by a majority: a member that lags behind may not know it yet.
    fn check_there(&self, name: &str, number: i64) -> Result<(), StoreError> {
        match self.find(name)? {
            Some(found) if found.number == number => Ok(()),
            _ => Err(StoreError::Gone(name.into())),
        }
    }
}

impl Store for Etcd {
    fn open(&self, name: &str, plan: &str) -> Result<Opened, StoreError> {
        let (key, said) = (key_of("r", name), json!({"plan": plan, "opened": self.now()?}).to_string());
        loop {
            // (where it is there nothing is put; and it may be dropped meanwhile)
            self.txn(json!([compare_absent(&key)]), json!([put_json(&key, said.as_bytes()), put_json(&self::key_of("o", name), b"0")]), json!([]))?;
            if let Some(found) = self.find(name)? {
                return Ok(found);
            }
        }
    }

    fn find(&self, name: &str) -> Result<Option<Opened>, StoreError> {
        let (found, _) = self.range(json!({"key": base64(&key_of("r", name))}))?;
        let Some(pair) = found.first() else { return Ok(None) };
        let said: Json = serde_json::from_slice(&pair.value).unwrap_or_default();
        match (said["plan"].as_str(), said["opened"].as_f64()) {
            (Some(plan), Some(opened)) => Ok(Some(Opened { name: name.into(), plan: plan.into(), opened, number: pair.created })),
            _ => Err(StoreError::broken(name, 0, "what says that it was opened can't be read")),
        }
    }

    fn append(&self, it: Put<'_>) -> Result<Option<Vec<Entry>>, StoreError> {
        if it.entries.len() > MOST_ENTRIES {
            return Err(StoreError::Refused(format!("etcd takes {MOST_ENTRIES} words in a put, not {}", it.entries.len())));
        }
        let (row, payloads) = (row_key("w", it.request, it.number), row_key("p", it.request, it.number));
        let mut puts: Vec<Json> = Vec::with_capacity(it.entries.len() + it.payloads.len() + 1);
        for (place, entry) in (it.at..).zip(it.entries) {
            puts.push(put_json(&place_key(&row, place), format!("{:x} {:x}", entry.word, entry.token).as_bytes()));
        }
        puts.extend(it.payloads.iter().map(|(place, payload)| put_json(&place_key(&payloads, *place), payload)));
        // (with that it is open, whether it was before or not)
        puts.push(put_json(&key_of("o", it.request), (it.at + it.entries.len()).to_string().as_bytes()));
        let first = place_key(&row, it.at);
        let free = json!([compare_absent(&first), compare_number(it.request, it.number)]);
        let (landed, stands) = self.txn(free, json!(puts), json!([{"request_range": range_json(&first, &range_end(&row))}]))?;
        if landed {
            return Ok(None);
        }
        if stands.is_empty() {
            return Err(StoreError::Gone(it.request.into()));
        }
        read_entries(it.request, it.at, &stands).map(Some)
    }

    fn read(&self, name: &str, number: i64, at: usize) -> Result<Vec<Entry>, StoreError> {
        // Any member's answer will do: a stale one is a shorter beginning of the row.
        let row = row_key("w", name, number);
        let mut asked = range_json(&self::place_key(&row, at), &range_end(&row));
        asked["serializable"] = json!(true);
        let (is_there, stands) = self.txn(json!([compare_number(name, number)]), json!([{ "request_range": asked }]), json!([]))?;
        if !is_there {
            self.check_there(name, number)?;
        }
        read_entries(name, at, &stands)
    }

    fn payload(&self, name: &str, number: i64, place: usize) -> Result<Option<Vec<u8>>, StoreError> {
        let (found, _) = self.range(json!({"key": base64(&place_key(&row_key("p", name, number), place))}))?;
        match found.into_iter().next() {
            Some(pair) => Ok(Some(pair.value)),
            None => self.check_there(name, number).map(|()| None),
        }
    }

    fn payloads(&self, name: &str, number: i64, places: &[usize]) -> Result<Vec<Option<Vec<u8>>>, StoreError> {
        let row = row_key("p", name, number);
        let mut told = Vec::with_capacity(places.len());
        for some in places.chunks(MOST_RANGES) {
            let asked: Vec<Json> = some.iter().map(|place| json!({"request_range": {"key": base64(&place_key(&row, *place))}})).collect();
            let read = self.post("/v3/kv/txn", &json!({ "success": asked }))?;
            for number in 0..some.len() {
                told.push(read_pairs(&read["responses"][number]["response_range"])?.pop().map(|pair| pair.value));
            }
        }
        if told.iter().any(Option::is_none) {
            self.check_there(name, number)?;
        }
        Ok(told)
    }

    fn news(&self, since: Option<Mark>) -> Result<(WordCounts, Mark), StoreError> {
        // Since a mark any member's answer will do. Of all, a request that a member that lags behind doesn't know yet would seem closed.
        let known = since.map_or(0, |(revision, _)| revision);
        let later = [("min_mod_revision", json!(known + 1)), ("serializable", json!(true))];
        let (found, revision) = self.keys(b"cf/o/", b"cf/o0", if since.is_none() { &[] } else { &later })?;
        let mut ends = WordCounts::new();
        for pair in found {
            let words: Option<usize> = text_of(&pair.value).and_then(|it| it.parse().ok());
            let words = words.ok_or_else(|| StoreError::Refused("an end of a row in etcd is no number".into()))?;
            ends.insert(name_in(&pair.key)?, Some(words));
        }
        Ok((ends, (revision.max(known), 0))) // (a member that lags behind has a lower one)
    }

    fn wait_for_change(&self, wait: Duration) -> Result<(), StoreError> {
        let mut kept = lock(&self.watch);
        let (turn, told) = match kept.take() {
            Some(mut watch) => {
                thread::sleep(BETWEEN_NEWS.saturating_sub(watch.told.elapsed())); // (what is put then is asked for in one question)
                let comes = watch.stream.more(wait);
                if let Ok(true) = comes {
                    watch.told = Instant::now();
                }
                (watch.turn, comes.map(|_| watch).map_err(|error| unknown_error(&error)))
            }
            None => {
                let (turn, connection) = self.connect_member();
                let asked = json!({"create_request": range_json(b"cf/w/", b"cf/w0")}).to_string();
                let opened =
                    connection.and_then(|mut it| it.stream("/v3/watch", asked.as_bytes()).map(|()| it).map_err(|error| unknown_error(&error)));
                (turn, opened.map(|stream| ChangeStream { turn, stream, told: Instant::now() }))
            }
        };
        match told {
            Ok(watch) => *kept = Some(watch),
            // what is new is asked for all the same, and who asks is told if nobody answers
            Err(_) => {
                self.ask_next_member(turn);
                thread::sleep(wait.min(BETWEEN_WATCHES));
            }
        }
        Ok(())
    }

    fn end(&self, name: &str, number: i64, at: usize) -> Result<bool, StoreError> {
        let (open, timers) = (key_of("o", name), [key_of("t", name), b"/".to_vec()].concat());
        let is_so = json!([compare_number(name, number), {"key": base64(&open), "target": "VALUE", "value": base64(at.to_string().as_bytes())}]);
        let closed = json!([self.now()?, at]).to_string();
        let (closes, _) = self.txn(
            is_so,
            json!([delete_json(&open), {"request_delete_range": range_json(&timers, &range_end(&timers))}, delete_json(&key_of("g", name)),
                put_json(&key_of("c", name), closed.as_bytes())]),
            json!([]),
        )?;
        if !closes {
            self.check_there(name, number)?;
        }
        Ok(closes)
    }

    fn beat(&self, session: u64) -> Result<(), StoreError> {
        self.post("/v3/kv/put", &json!({"key": base64(&session_key("b", session)), "value": ""})).map(|_| ())
    }

    fn beats(&self) -> Result<BTreeMap<u64, i64>, StoreError> {
        let (found, _) = self.keys(b"cf/b/", b"cf/b0", &[("keys_only", json!(true))])?;
        let session = |pair: &Pair| text_of(&pair.key).and_then(|it| u64::from_str_radix(it.get(5..)?, 16).ok());
        Ok(found.iter().filter_map(|pair| Some((session(pair)?, pair.version))).collect())
    }

    fn drop_beat(&self, session: u64) -> Result<(), StoreError> {
        self.txn(json!([]), json!([delete_json(&session_key("b", session)), delete_json(&session_key("s", session))]), json!([])).map(|_| ())
    }

    fn name_session(&self, session: u64, name: &str) -> Result<(), StoreError> {
        self.post("/v3/kv/put", &json!({"key": base64(&session_key("s", session)), "value": base64(name.as_bytes())})).map(|_| ())
    }

    fn now(&self) -> Result<f64, StoreError> {
        Ok(SystemTime::now().duration_since(UNIX_EPOCH).unwrap_or_default().as_secs_f64())
    }

    fn set_timer(&self, timer: &Timer) -> Result<(), StoreError> {
        let key = place_key(&row_key("t", &timer.request, timer.number), timer.stage.into());
        let value = json!([timer.due, base64(&timer.payload)]).to_string();
        let (is_there, _) = self.txn(json!([compare_number(&timer.request, timer.number)]), json!([put_json(&key, value.as_bytes())]), json!([]))?;
        if is_there {
            Ok(())
        } else {
            Err(StoreError::Gone(timer.request.clone()))
        }
    }

    fn due_timers(&self, now: f64) -> Result<Vec<Timer>, StoreError> {
        let (found, _) = self.keys(b"cf/t/", b"cf/t0", &[("serializable", json!(true))])?;
        let mut told = Vec::new();
        for pair in found {
            let timer = read_timer(&pair).ok_or_else(|| StoreError::Refused("a timer in etcd can't be read".into()))?;
            if timer.due <= now {
                told.push(timer);
            }
        }
        told.sort_by(|a, b| a.due.total_cmp(&b.due));
        Ok(told)
    }

    fn drop_timer(&self, timer: &Timer) -> Result<(), StoreError> {
        let (key, stage) = ([key_of("t", &timer.request), b"/".to_vec()].concat(), timer.stage.into());
        let own = row_key("t", &timer.request, timer.number);
        self.txn(json!([]), json!([delete_json(&place_key(&own, stage)), delete_json(&place_key(&key, stage))]), json!([])).map(|_| ())
    }
}

fn lock<T>(mutex: &Mutex<T>) -> MutexGuard<'_, T> {
    mutex.lock().unwrap_or_else(PoisonError::into_inner)
}

fn unknown_error(why: &dyn std::fmt::Display) -> StoreError {
    StoreError::Unknown(format!("etcd: {why}"))
}

/// What no etcd answers.
fn unfit_answer(told: &Json) -> StoreError {
    StoreError::Refused(format!("etcd gives what can't be read: {}", told.to_string().chars().take(200).collect::<String>()))
}

// Keys.

/// A key, in which a name stands as in an address: others than letters, digits and `_.-~` as `%` and their bytes.
fn key_of(kind: &str, name: &str) -> Vec<u8> {
    let mut key = format!("cf/{kind}/").into_bytes();
    for byte in name.bytes() {
        if byte.is_ascii_alphanumeric() || b"_.-~".contains(&byte) {
            key.push(byte);
        } else {
            key.extend(format!("%{byte:02X}").bytes());
        }
    }
    key
}

/// The name in a key without more behind it.
fn name_in(key: &[u8]) -> Result<String, StoreError> {
    text_of(key).and_then(|it| unquoted(it.get(5..)?)).ok_or_else(|| unfit_answer(&json!(String::from_utf8_lossy(key))))
}

fn unquoted(quoted: &str) -> Option<String> {
    let mut parts = quoted.split('%');
    let mut name = parts.next()?.as_bytes().to_vec();
    for part in parts {
        name.push(u8::from_str_radix(part.get(..2)?, 16).ok()?);
        name.extend(part.get(2..)?.bytes());
    }
    String::from_utf8(name).ok()
}

fn text_of(bytes: &[u8]) -> Option<&str> {
    std::str::from_utf8(bytes).ok()
}

/// What the keys of a request's words or payloads begin with: another request of the same name has others.
fn row_key(kind: &str, name: &str, number: i64) -> Vec<u8> {
    [key_of(kind, name), format!("/{number}/").into_bytes()].concat()
}

/// A key in fixed width, so that a range is in order.
fn place_key(row: &[u8], place: usize) -> Vec<u8> {
    [row, format!("{place:06}").as_bytes()].concat()
}

fn session_key(kind: &str, session: u64) -> Vec<u8> {
    format!("cf/{kind}/{session:010x}").into_bytes()
}

/// The end of the range of all keys that begin so, where they end with `/`.
fn range_end(prefix: &[u8]) -> Vec<u8> {
    let mut end = prefix.to_vec();
    end.pop();
    end.push(b'/' + 1);
    end
}

// What etcd is asked, and what it answers.

fn base64(bytes: &[u8]) -> String {
    base64::encode(bytes)
}

fn range_json(key: &[u8], end: &[u8]) -> Json {
    json!({"key": base64(key), "range_end": base64(end)})
}

fn put_json(key: &[u8], value: &[u8]) -> Json {
    json!({"request_put": {"key": base64(key), "value": base64(value)}})
}

fn delete_json(key: &[u8]) -> Json {
    json!({"request_delete_range": {"key": base64(key)}})
}

fn compare_absent(key: &[u8]) -> Json {
    json!({"key": base64(key), "target": "VERSION", "version": 0})
}

/// Compares whether a request is the one that was opened.
fn compare_number(name: &str, number: i64) -> Json {
    json!({"key": base64(&key_of("r", name)), "target": "CREATE", "create_revision": number})
}

/// A number, which JSON has as a text, or not at all where it is 0.
fn read_number(told: &Json) -> Result<i64, StoreError> {
    match told {
        Json::Null => Ok(0),
        Json::String(digits) => digits.parse().map_err(|_| unfit_answer(told)),
        _ => told.as_i64().ok_or_else(|| unfit_answer(told)),
    }
}

/// The keys and values of a range.
fn read_pairs(range: &Json) -> Result<Vec<Pair>, StoreError> {
    let bytes = |told: &Json| match told {
        Json::Null => Ok(Vec::new()),
        _ => told.as_str().and_then(|it| base64::decode(it).ok()).ok_or_else(|| unfit_answer(told)),
    };
    let pair = |it: &Json| {
        let (key, value) = (bytes(&it["key"])?, bytes(&it["value"])?);
        Ok(Pair { key, value, created: read_number(&it["create_revision"])?, version: read_number(&it["version"])? })
    };
    range["kvs"].as_array().map_or(Ok(Vec::new()), |kvs| kvs.iter().map(pair).collect())
}

/// The entries of these keys, which stand behind `at` of them.
fn read_entries(name: &str, at: usize, pairs: &[Pair]) -> Result<Vec<Entry>, StoreError> {
    let row = pairs.iter().map(|pair| {
        let place = text_of(&pair.key).and_then(|key| key.get(key.len().checked_sub(6)?..)?.parse().ok()).unwrap_or(-1);
        let (word, token) = text_of(&pair.value).and_then(read_entry).unwrap_or((-1, -1));
        (place, word, token)
    });
    check_row(name, at, row)
}

fn read_entry(value: &str) -> Option<(i64, i64)> {
    let (word, token) = value.split_once(' ')?;
    Some((i64::from_str_radix(word, 16).ok()?, i64::from_str_radix(token, 16).ok()?))
}

/// A timer, which has no number of its request where an earlier version has set it.
fn read_timer(pair: &Pair) -> Option<Timer> {
    let mut parts = text_of(&pair.key)?.get(5..)?.split('/');
    let (name, middle, last) = (parts.next()?, parts.next()?, parts.next());
    let (number, stage) = match last {
        Some(stage) => (middle.parse().ok()?, stage),
        None => (0, middle),
    };
    let (due, payload): (f64, String) = serde_json::from_slice(&pair.value).ok()?;
    Some(Timer { request: unquoted(name)?, number, stage: stage.parse().ok()?, due, payload: base64::decode(payload).ok()? })
}
