//! Stages of clients/rust's crate `cf` beside futures, tokio and rayon: bench/clients/rust-service builds and runs it. A line for each way: the best
//! and the median of many rounds, in picoseconds a stage, and at last bytes a stage.
//!
//! - fan-out: a source is completed, 510 functions take its value on eight threads, and all have answered. What is built before isn't counted.
//! - chain: 16 functions, each of the value before it, on one thread, making included.
//! - bytes: what a request of 512 stages takes beside one of none, once all are settled, or before.
//!
//! With the words `count NAME ROUNDS` it does one way so often and prints nothing: valgrind counts the instructions.
#[path = "joined.rs"]
mod joined;
#[path = "left.rs"]
mod left;

use cf::{Inline, Pool, Request, Spawn, Stage, SystemClock};
use joined::by_futures;
use left::{let_wait, Left};
use std::hint::black_box;
use std::sync::{Arc, Mutex};
use std::time::{Duration, Instant};

const THREADS: usize = 8;
const STAGES: usize = 512;
/// The functions, between the source and what waits for all.
const PARTS: usize = STAGES - 2;
const CHAIN: usize = 16;
/// Chains in one round.
const CHAINS: usize = 32;
/// Promises with a limit in one request.
const LIMITED: usize = 8;

fn one_more(value: i32) -> i32 {
    value.wrapping_add(1)
}

/// Ways that are measured in turns, so that a minute in which others work strikes all alike.
struct Ways<'a> {
    rows: Vec<(String, Box<dyn FnMut() -> Duration + 'a>, Vec<u128>)>,
    words: Vec<String>,
}

impl<'a> Ways<'a> {
    fn add(&mut self, name: impl Into<String>, round: impl FnMut() -> Duration + 'a) {
        let name = name.into();
        if self.words.is_empty() || self.words.iter().any(|word| name.contains(word.as_str())) {
            self.rows.push((name, Box::new(round), Vec::new()));
        }
    }

    fn run(&mut self, rounds: usize) {
        for _ in 0..rounds {
            for (_, round, nanos) in &mut self.rows {
                nanos.push(round().as_nanos());
            }
        }
        for (name, _, nanos) in &mut self.rows {
            nanos.sort_unstable();
            let a_stage = |nanos: u128| nanos * 1000 / STAGES as u128;
            println!("{name}: best {} ps, median {} ps, {rounds} rounds", a_stage(nanos[0]), a_stage(nanos[rounds / 2]));
        }
    }
}

// ---- Others ----

fn by_tokio(runtime: &tokio::runtime::Runtime) -> Duration {
    use futures::future::FutureExt;
    let left = Left::new(PARTS);
    let (source, came) = tokio::sync::oneshot::channel::<i32>();
    let came = came.map(|value| value.expect("it is sent")).shared();
    for _ in 0..PARTS {
        let (came, left) = (came.clone(), left.clone());
        runtime.spawn(async move { left.take(one_more(came.await)) });
    }
    let_wait();
    let since = Instant::now();
    source.send(1).expect("it is received");
    left.wait();
    since.elapsed()
}

fn by_rayon(pool: &rayon::ThreadPool) -> Duration {
    let answers: Vec<Mutex<i32>> = (0..PARTS).map(|_| Mutex::new(0)).collect();
    let since = Instant::now();
    pool.scope(|scope| {
        for answer in &answers {
            scope.spawn(move |_| *answer.lock().expect("no thread panicked") = one_more(1));
        }
    });
    let took = since.elapsed();
    assert!(answers.iter().all(|it| *it.lock().expect("no thread panicked") == 2));
    took
}

fn chain_of_boxes() -> Duration {
    use futures::future::{ready, FutureExt};
    let since = Instant::now();
    for _ in 0..CHAINS {
        let mut last = ready(1).boxed();
        for _ in 0..CHAIN {
            last = last.map(one_more).boxed();
        }
        assert_eq!(black_box(futures::executor::block_on(last)), 17);
    }
    since.elapsed()
}

/// Each of them can be awaited by others, as a stage can.
fn chain_of_shared_boxes() {
    use futures::future::{ready, FutureExt};
    for _ in 0..CHAINS {
        let mut last = ready(1).boxed().shared();
        for _ in 0..CHAIN {
            last = last.map(one_more).boxed().shared();
        }
        assert_eq!(black_box(futures::executor::block_on(last)), 17);
    }
}

/// The same from a oneshot channel that is sent to last, so that each future waits first.
fn chain_of_waiting_boxes() -> Duration {
    use futures::future::FutureExt;
    let mut context = std::task::Context::from_waker(futures::task::noop_waker_ref());
    let since = Instant::now();
    for _ in 0..CHAINS {
        let (source, came) = futures::channel::oneshot::channel::<i32>();
        let mut last = came.map(|value| value.expect("it is sent")).boxed();
        for _ in 0..CHAIN {
            last = last.map(one_more).boxed();
        }
        assert!(last.poll_unpin(&mut context).is_pending());
        source.send(1).expect("it is received");
        assert_eq!(black_box(futures::executor::block_on(last)), 17);
    }
    since.elapsed()
}

// ---- Requests ----

fn request(spawn: &Arc<dyn Spawn>, room: u16) -> Request {
    Request::try_new("measured", spawn.clone(), Arc::new(SystemClock), room).expect("a ledger")
}

fn fan_out(spawn: &Arc<dyn Spawn>, left: &Arc<Left>) -> (Request, Stage<i32>, Vec<Stage<()>>) {
    let request = request(spawn, STAGES as u16);
    let source = request.promise::<i32>();
    let one = |_| {
        let left = left.clone();
        source.clone().then(move |value| left.take(one_more(*value)))
    };
    let parts = (0..PARTS).map(one).collect();
    (request, source, parts)
}

/// The functions give numbers, so that each answer is kept.
fn values(spawn: &Arc<dyn Spawn>, left: &Arc<Left>) -> (Request, Stage<i32>, Vec<Stage<i32>>) {
    let request = request(spawn, STAGES as u16);
    let source = request.promise::<i32>();
    let one = |_| {
        let left = left.clone();
        source.clone().then(move |value| {
            let answer = one_more(*value);
            left.take(answer);
            answer
        })
    };
    let parts = (0..PARTS).map(one).collect();
    (request, source, parts)
}

fn by_request(spawn: &Arc<dyn Spawn>) -> Duration {
    let left = Left::new(PARTS);
    let (_request, source, _parts) = values(spawn, &left);
    let since = Instant::now();
    source.complete(1).expect("it is pending");
    left.wait();
    since.elapsed()
}

fn by_request_of_nothing(spawn: &Arc<dyn Spawn>) -> Duration {
    let left = Left::new(PARTS);
    let (_request, source, _parts) = fan_out(spawn, &left);
    let since = Instant::now();
    source.complete(1).expect("it is pending");
    left.wait();
    since.elapsed()
}

fn by_request_joined(spawn: &Arc<dyn Spawn>) -> Duration {
    let left = Left::new(PARTS);
    let (_request, source, parts) = values(spawn, &left);
    let since = Instant::now();
    source.complete(1).expect("it is pending");
    let answers = futures::executor::block_on(futures::future::join_all(parts));
    let took = since.elapsed();
    assert!(answers.iter().all(|it| matches!(it, Ok(2))));
    took
}

fn by_request_whole(spawn: &Arc<dyn Spawn>) -> Duration {
    let left = Left::new(PARTS);
    let since = Instant::now();
    let (_request, source, _parts) = values(spawn, &left);
    source.complete(1).expect("it is pending");
    left.wait();
    since.elapsed()
}

fn chain_of_stages(spawn: &Arc<dyn Spawn>, room: u16) -> Duration {
    let since = Instant::now();
    for _ in 0..CHAINS {
        let request = request(spawn, room);
        let source = request.promise::<i32>();
        let mut last = source.clone();
        for _ in 0..CHAIN {
            last = last.then(|value| one_more(*value));
        }
        source.complete(1).expect("it is pending");
        assert_eq!(black_box(last.wait()).expect("a value"), 17);
    }
    since.elapsed()
}

/// Each function is run when it is attached.
fn chain_of_settled_stages(spawn: &Arc<dyn Spawn>, room: u16) -> Duration {
    let since = Instant::now();
    for _ in 0..CHAINS {
        let request = request(spawn, room);
        let mut last = request.supply(|| 1);
        for _ in 0..CHAIN {
            last = last.then(|value| one_more(*value));
        }
        assert_eq!(black_box(last.wait()).expect("a value"), 17);
    }
    since.elapsed()
}

/// Its functions give numbers on this thread, making included.
fn fan_out_alone(spawn: &Arc<dyn Spawn>) {
    let request = request(spawn, STAGES as u16);
    let source = request.promise::<i32>();
    let parts: Vec<Stage<i32>> = (1..STAGES).map(|_| source.clone().then(|value| one_more(*value))).collect();
    source.complete(1).expect("it is pending");
    assert_eq!(black_box(&parts[0]).wait().expect("a value"), 2);
}

/// Promises with a limit each, which are completed before that comes.
fn limits(spawn: &Arc<dyn Spawn>) {
    for _ in 0..STAGES / LIMITED {
        let request = request(spawn, LIMITED as u16);
        let parts: Vec<Stage<i32>> = (0..LIMITED).map(|_| request.promise().or_timeout(Duration::from_secs(5))).collect();
        parts.iter().for_each(|part| part.complete(1).expect("it is pending"));
        black_box(parts);
    }
}

/// What a handler does that asks eight others: parts that each have a limit and a function behind it, and that are gathered.
fn parts(spawn: &Arc<dyn Spawn>) {
    for _ in 0..STAGES / LIMITED {
        let request = request(spawn, 3 * LIMITED as u16);
        let asked: Vec<Stage<i32>> = (0..LIMITED).map(|_| request.promise().or_timeout(Duration::from_secs(5))).collect();
        let parts: Vec<Stage<i32>> = asked.iter().map(|part| part.clone().then(|value| one_more(*value))).collect();
        let all = request.gather(&parts);
        asked.iter().for_each(|part| part.complete(1).expect("it is pending"));
        assert_eq!(black_box(all.wait()).expect("values"), [2; LIMITED]);
    }
}

/// The same by tasks of tokio on one thread.
fn parts_by_tokio(runtime: &tokio::runtime::Runtime) {
    let part = |came: tokio::sync::oneshot::Receiver<i32>| async move {
        let told = tokio::time::timeout(Duration::from_secs(5), came).await;
        one_more(told.expect("it is in time").expect("it is sent"))
    };
    for _ in 0..STAGES / LIMITED {
        runtime.block_on(async {
            let (asked, came): (Vec<_>, Vec<_>) = (0..LIMITED).map(|_| tokio::sync::oneshot::channel()).unzip();
            let parts: Vec<_> = came.into_iter().map(|came| tokio::spawn(part(came))).collect();
            tokio::task::yield_now().await;
            asked.into_iter().for_each(|asked| asked.send(1).expect("it is received"));
            let told = futures::future::join_all(parts).await;
            assert!(black_box(told).into_iter().all(|told| told.expect("it doesn't panic") == 2));
        });
    }
}

/// The library's part of the same chain: its ledger and its words.
fn chain_of_words(plan: &mut cf_graph::Plan) -> Duration {
    let since = Instant::now();
    for _ in 0..CHAINS {
        let mut ledger = cf_graph::Ledger::new(plan, 17).expect("a ledger");
        let mut act = |word: u64| assert!(ledger.apply(black_box(word)).is_ok());
        act(7 << 56);
        (1..=CHAIN as u64).for_each(|k| act(7 << 56 | (k - 1) << 36 | 1 << 32 | 3 << 24 | k));
        act(1 << 56 | 1 << 32 | 1);
        for k in 1..=CHAIN as u64 {
            act(4 << 56 | k << 36);
            act(5 << 56 | k << 36 | 1 << 32 | k);
        }
    }
    since.elapsed()
}

fn ledgers_alone(plan: &mut cf_graph::Plan, room: u16) -> Duration {
    let since = Instant::now();
    for _ in 0..STAGES {
        black_box(cf_graph::Ledger::new(plan, room).expect("a ledger"));
    }
    since.elapsed()
}

/// The library's part of a fan-out on one thread: claims and finishes, with their news.
fn fan_out_of_words(plan: &mut cf_graph::Plan) -> Duration {
    let mut ledger = cf_graph::Ledger::new(plan, STAGES as u16).expect("a ledger");
    let mut act = |word: u64| assert!(ledger.apply(black_box(word)).is_ok());
    act(7 << 56);
    (1..=PARTS as u64).for_each(|k| act(7 << 56 | 1 << 32 | 3 << 24 | k));
    let since = Instant::now();
    act(1 << 56 | 1 << 32);
    for k in 1..=PARTS as u64 {
        act(4 << 56 | k << 36);
        act(5 << 56 | k << 36 | 1 << 32 | k);
    }
    since.elapsed()
}

// ---- Memory ----

#[repr(C)]
#[derive(Default)]
struct Mallinfo([usize; 10]);

extern "C" {
    fn mallinfo2() -> Mallinfo;
}

/// What the C library says is in use, the Rust part's too.
fn in_use() -> usize {
    // SAFETY: the call takes nothing and fills a struct of ten sizes.
    let told = unsafe { mallinfo2() };
    told.0[7] + told.0[4]
}

fn bytes() {
    let spawn: Arc<dyn Spawn> = Arc::new(Inline);
    for (name, settled) in [("bytes a stage, pending", false), ("bytes a stage, settled", true)] {
        let empty = request(&spawn, 1);
        let before = in_use();
        let request = request(&spawn, STAGES as u16);
        let source = request.promise::<i32>();
        for _ in 1..STAGES {
            drop(source.clone().then(|value| one_more(*value)));
        }
        if settled {
            source.complete(1).expect("it is pending");
        }
        println!("{name}: {}", (in_use() - before) / STAGES);
        drop((empty, request));
    }
}

/// The library's part of it: a ledger with the same words.
fn bytes_of_ledger(plan: &mut cf_graph::Plan) {
    let before = in_use();
    let mut ledger = cf_graph::Ledger::new(plan, STAGES as u16).expect("a ledger");
    let mut act = |word: u64| assert!(ledger.apply(word).is_ok());
    act(7 << 56);
    (1..STAGES as u64).for_each(|k| act(7 << 56 | 1 << 32 | 3 << 24 | k));
    act(1 << 56 | 1 << 32);
    for k in 1..STAGES as u64 {
        act(4 << 56 | k << 36);
        act(5 << 56 | k << 36 | 1 << 32 | k);
    }
    println!("bytes a stage, of the library's ledger alone: {}", (in_use() - before) / STAGES);
}

/// Does one way so often. Each round is of 512 stages.
fn count(name: &str, rounds: usize) {
    let inline: Arc<dyn Spawn> = Arc::new(Inline);
    let runtime = tokio::runtime::Builder::new_current_thread().enable_time().build().expect("there is a thread");
    let once: Box<dyn Fn()> = match name {
        "chain" => Box::new(|| _ = chain_of_stages(&inline, 17)),
        "chain, run when attached" => Box::new(|| _ = chain_of_settled_stages(&inline, 17)),
        "fan-out" => Box::new(|| fan_out_alone(&inline)),
        "promises with a limit" => Box::new(|| limits(&inline)),
        "parts with a limit, gathered" => Box::new(|| parts(&inline)),
        "tokio tasks with a limit" => Box::new(|| parts_by_tokio(&runtime)),
        "boxed futures" => Box::new(|| _ = chain_of_boxes()),
        "boxed().shared()" => Box::new(chain_of_shared_boxes),
        _ => panic!("no way has this name: {name}"),
    };
    (0..rounds).for_each(|_| once());
}

fn main() {
    let mut args = std::env::args().skip(1).peekable();
    if args.next_if_eq("count").is_some() {
        let name = args.next().expect("the name of a way");
        return count(&name, args.next().and_then(|it| it.parse().ok()).expect("how often"));
    }
    let rounds = args.next().and_then(|it| it.parse().ok()).unwrap_or(300);
    let mut plans: Vec<_> = (0..4).map(|_| cf_graph::PlanBuilder::new().and_then(|it| it.build()).expect("a plan")).collect();
    bytes();
    bytes_of_ledger(&mut plans[3]);
    let pool = futures::executor::ThreadPool::builder().pool_size(THREADS).create().expect("there are threads");
    let runtime = tokio::runtime::Builder::new_multi_thread().worker_threads(THREADS).enable_all().build().expect("there are threads");
    let threads = || rayon::ThreadPoolBuilder::new().num_threads(THREADS).build().expect("there are threads");
    let rayon = threads();
    let spawns: [(&str, Arc<dyn Spawn>); 4] = [
        ("cf::Pool", Arc::new(Pool::new(THREADS))),
        ("rayon", Arc::new(threads())),
        ("tokio blocking", Arc::new(cf::Blocking::new(runtime.handle().clone(), THREADS))),
        ("tokio tasks", Arc::new(cf::Tasks::new(runtime.handle().clone(), THREADS))),
    ];
    let inline: Arc<dyn Spawn> = Arc::new(Inline);
    let mut ways = Ways { rows: Vec::new(), words: args.collect() };
    ways.add("fan-out futures", || by_futures(&pool, PARTS));
    ways.add("fan-out tokio", || by_tokio(&runtime));
    ways.add("fan-out rayon", || by_rayon(&rayon));
    for (name, spawn) in &spawns {
        ways.add(format!("fan-out request on {name}"), || by_request(spawn));
    }
    ways.add("fan-out request on cf::Pool, of ()", || by_request_of_nothing(&spawns[0].1));
    ways.add("fan-out request on cf::Pool, and join_all", || by_request_joined(&spawns[0].1));
    ways.add("fan-out request on cf::Pool, made too", || by_request_whole(&spawns[0].1));
    ways.add("fan-out request inline", || by_request(&inline));
    ways.add("chain boxed futures", chain_of_boxes);
    ways.add("chain boxed futures that wait", chain_of_waiting_boxes);
    ways.add("chain request", || chain_of_stages(&inline, 17));
    ways.add("chain request, run when attached", || chain_of_settled_stages(&inline, 17));
    let mut plans = plans.iter_mut();
    let mut plan = || plans.next().expect("a plan");
    let (one, two, three) = (plan(), plan(), plan());
    ways.add("chain words of the library", move || chain_of_words(one));
    ways.add("fan-out words of the library", move || fan_out_of_words(two));
    ways.add("ledger of room 17, made and freed", move || ledgers_alone(three, 17));
    ways.run(rounds);
}
