//! A server of hyper's that asks eight backends for a quote: each has a limit, the first success decides, and the last known quote is the fallback.
//! What isn't needed any more is cancelled, also if the client hangs up.
use cf::{Error, Request, Stage, Tasks};
use hyper::service::{make_service_fn, service_fn};
use hyper::{Body, Response, Server};
use std::convert::Infallible;
use std::io::{Read, Write};
use std::net::{SocketAddr, TcpStream};
use std::sync::atomic::{AtomicUsize, Ordering};
use std::time::Duration;
use tokio::{runtime::Handle, task::spawn_blocking, time::sleep};

/// How many calls of backends are under way.
static ASKED: AtomicUsize = AtomicUsize::new(0);

struct Call;

impl Call {
    fn begin() -> Call {
        ASKED.fetch_add(1, Ordering::SeqCst);
        Call
    }
}

impl Drop for Call {
    fn drop(&mut self) {
        ASKED.fetch_sub(1, Ordering::SeqCst);
    }
}

async fn quote(lamp: String, backend: u32) -> Result<u32, String> {
    let _call = Call::begin();
    match (lamp.as_str(), backend) {
        ("/old", _) => return Err("not known".into()),
        ("/new", 5) => sleep(Duration::from_millis(20)).await,
        _ => sleep(Duration::from_secs(600)).await,
    }
    Ok(4900 + backend)
}

async fn best_quote(request: Request, lamp: String) -> Result<u32, Error> {
    let scope = request.scope().deadline(Duration::from_secs(60));
    let ask = |backend| scope.spawn(quote(lamp.clone(), backend)).or_timeout(Duration::from_secs(30));
    let quotes: Vec<Stage<u32>> = (0..8).map(ask).collect();
    scope.ends_with(scope.first(&quotes).recover(|_| 5200)).await
}

async fn answer(lamp: String) -> Result<Response<Body>, Infallible> {
    let request = Request::new(&lamp, Tasks::new(Handle::current(), 8));
    let answer = best_quote(request, lamp).await.map_or_else(|error| error.to_string(), |cents| format!("{cents} cents"));
    Ok(Response::new(Body::from(answer)))
}

/// Asks, and reads the answer, or hangs up once all backends are asked.
fn ask(address: SocketAddr, lamp: &str, hangs_up: bool) -> String {
    let (mut stream, mut answer) = (TcpStream::connect(address).expect("a server"), String::new());
    write!(stream, "GET {lamp} HTTP/1.1\r\nHost: localhost\r\nConnection: close\r\n\r\n").expect("a server that reads");
    if hangs_up {
        while ASKED.load(Ordering::SeqCst) < 8 {}
        return "hung up".into();
    }
    stream.read_to_string(&mut answer).expect("an answer");
    answer.split("\r\n\r\n").nth(1).unwrap_or_default().into()
}

#[tokio::main]
async fn main() {
    let serves = |asked: hyper::Request<Body>| answer(asked.uri().path().into());
    let server = Server::bind(&([127, 0, 0, 1], 0).into()).serve(make_service_fn(move |_| async move { Ok::<_, Infallible>(service_fn(serves)) }));
    let address = server.local_addr();
    tokio::spawn(server);
    for (lamp, hangs_up) in [("/new", false), ("/old", false), ("/none", true)] {
        let told = spawn_blocking(move || ask(address, lamp, hangs_up)).await.expect("no panic");
        while ASKED.load(Ordering::SeqCst) > 0 {
            sleep(Duration::from_millis(1)).await;
        }
        println!("{lamp}: {told}, {} open", ASKED.load(Ordering::SeqCst));
    }
}
