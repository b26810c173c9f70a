//! Words a second that a service puts, beside a bare loop of the same insert, on one thread. Each way has its turn for a while, again and again, so
//! that whatever else the machine does falls on all of them.
//!
//!     speed ADDRESS [SECONDS]
use cf_store::{Etcd, Functions, Options, Postgres, Request, SQLite, Service};
use serde_json::json;
use std::io::{BufRead, BufReader, Read, Write};
use std::net::TcpStream;
use std::sync::atomic::{AtomicUsize, Ordering};
use std::sync::Arc;
use std::time::{Duration, Instant};

type Fault = Box<dyn std::error::Error>;

const SLICE: Duration = Duration::from_millis(200);
const PAYLOAD: &[u8] = br#"{"name":"s","fn":"s","version":1}"#;
/// Stages of a request, of which each takes a word to attach, and two to be claimed and finished.
const STAGES: usize = 200;

/// Puts a row with this number.
type Insert = Box<dyn FnMut(i64) -> Result<(), Fault>>;

/// The engine's own put by its client alone, in a table of its own that is alike.
fn bare(address: &str) -> Result<Insert, Fault> {
    if let Some(file) = address.strip_prefix("sqlite:///") {
        return bare_sqlite(file);
    }
    match address.strip_prefix("etcd://") {
        Some(members) => bare_etcd(members.split(',').next().unwrap_or_default()),
        None => bare_postgres(address),
    }
}

fn bare_sqlite(file: &str) -> Result<Insert, Fault> {
    let db = rusqlite::Connection::open(file)?;
    db.execute_batch(
        "pragma journal_mode=wal; pragma synchronous=full; create table if not exists cf_bare (n integer primary key, request integer,
         at integer, word integer not null, token integer not null, payload blob, unique (request, at))",
    )?;
    Ok(Box::new(move |at| {
        let mut put = db.prepare_cached("insert or ignore into cf_bare (request, at, word, token, payload) values (?, ?, ?, ?, ?)")?;
        put.execute(rusqlite::params![at / 200, at % 200, 1, at, PAYLOAD])?;
        Ok(())
    }))
}

fn bare_postgres(address: &str) -> Result<Insert, Fault> {
    let runtime = tokio::runtime::Builder::new_current_thread().enable_all().build()?;
    let (client, connection) = runtime.block_on(tokio_postgres::connect(address, tokio_postgres::NoTls))?;
    runtime.spawn(connection);
    runtime.block_on(client.batch_execute("create table if not exists cf_bare (like cf_word including all)"))?;
    let put = runtime.block_on(client.prepare("insert into cf_bare values ($1, $2, $3, $4, $5) on conflict do nothing"))?;
    Ok(Box::new(move |at| {
        runtime.block_on(client.execute(&put, &[&(at / 200), &((at % 200) as i32), &1_i64, &at, &PAYLOAD]))?;
        Ok(())
    }))
}

fn bare_etcd(member: &str) -> Result<Insert, Fault> {
    let stream = TcpStream::connect(member)?;
    stream.set_nodelay(true)?;
    let (mut stream, member) = (BufReader::new(stream), member.to_owned());
    let put = |key: &str, value: &[u8]| json!({"request_put": {"key": base64::encode(key), "value": base64::encode(value)}});
    Ok(Box::new(move |at| {
        let (word, payload) = (format!("bare/{:012}/{:06}", at / 200, at % 200), format!("barep/{:012}/{:06}", at / 200, at % 200));
        let free = json!([{"key": base64::encode(&word), "target": "VERSION", "version": 0}]);
        let puts = json!([put(&word, format!("1 {at:x}").as_bytes()), put(&payload, PAYLOAD)]);
        let body = json!({ "compare": free, "success": puts }).to_string();
        let head = format!("POST /v3/kv/txn HTTP/1.1\r\nHost: {member}\r\nContent-Length: {}\r\n\r\n", body.len());
        stream.get_mut().write_all((head + &body).as_bytes())?;
        let (mut size, mut line) = (0, String::new());
        while stream.read_line(&mut line)? > 2 {
            size = line.strip_prefix("Content-Length: ").map_or(Ok(size), |it| it.trim_end().parse())?;
            line.clear();
        }
        let mut told = vec![0; size];
        stream.read_exact(&mut told)?;
        serde_json::from_slice::<serde_json::Value>(&told)?;
        Ok(())
    }))
}

fn service(address: &str, threads: usize, functions: Functions) -> Result<Service, Fault> {
    let mut options = Options::default();
    options.threads = threads;
    if let Some(file) = address.strip_prefix("sqlite:///") {
        return Ok(Service::with(SQLite::open(file)?, functions, options)?);
    }
    if address.starts_with("etcd://") {
        return Ok(Service::with(Etcd::connect(address)?, functions, options)?);
    }
    Ok(Service::with(Postgres::connect(address)?, functions, options)?)
}

/// Attaches stages for a while, a word a put, and says how many. A request has so many, and no thread of its service runs them.
fn attaches(service: &Service, until: Instant, number: &mut usize, requests: &mut Vec<String>) -> Result<usize, Fault> {
    let (mut words, mut request): (usize, Option<Request>) = (0, None);
    while Instant::now() < until {
        if words % STAGES == 0 || request.is_none() {
            *number += 1;
            let name = format!("speed {} {number}", std::process::id());
            request = Some(service.request(&name)?);
            requests.push(name);
        }
        if let Some(request) = &request {
            request.supply("s", &[])?;
            words += 1;
        }
    }
    Ok(words)
}

fn main() -> Result<(), Fault> {
    let mut words = std::env::args().skip(1);
    let address = words.next().ok_or("ADDRESS is missing")?;
    let seconds: u64 = words.next().map_or(Ok(6), |it| it.parse())?;
    let planner = service(&address, 0, Functions::new().with("s", 1, || Ok::<_, String>(1)))?;
    let mut put = bare(&address)?;
    let (mut number, mut at) = (0, i64::from(std::process::id()) << 24);
    // words and seconds of: the bare loop; one word a put; finishes with the next claim
    let mut told = [(0_usize, 0.0_f64); 3];
    let until = Instant::now() + Duration::from_secs(seconds);
    while Instant::now() < until {
        let began = Instant::now();
        while began.elapsed() < SLICE {
            put(at)?;
            at += 1;
            told[0].0 += 1;
        }
        told[0].1 += began.elapsed().as_secs_f64();
        let (began, mut requests) = (Instant::now(), Vec::new());
        let attached = attaches(&planner, began + SLICE, &mut number, &mut requests)?;
        told[1] = (told[1].0 + attached, told[1].1 + began.elapsed().as_secs_f64());
        let calls = Arc::new(AtomicUsize::new(0));
        let counted = Arc::clone(&calls);
        let worker = service(&address, 1, Functions::new().with("s", 1, move || Ok::<_, String>(counted.fetch_add(1, Ordering::SeqCst))))?;
        let began = Instant::now();
        for name in &requests {
            worker.open(name)?;
        }
        while calls.load(Ordering::SeqCst) < attached {
            std::thread::sleep(Duration::from_millis(1));
        }
        told[2] = (told[2].0 + 2 * attached, told[2].1 + began.elapsed().as_secs_f64());
        for name in &requests {
            planner.open(name)?.end()?;
        }
    }
    let rate = |(words, seconds): (usize, f64)| words as f64 / seconds;
    println!("bare: {:.0} words/s", rate(told[0]));
    for (way, it) in ["one word a put", "finish and next claim"].iter().zip(&told[1..]) {
        println!("{way}: {:.0} words/s, {:.2} of bare", rate(*it), rate(*it) / rate(told[0]));
    }
    Ok(())
}
