//! A server of hyper's, whose last client hangs up: hyper drops the handler's future, and its scope cancels what is open. `/open` says which
//! requests are open, and why each waits; `/metrics` is for Prometheus.
use cf::{Ends, Error, Meter, Request, Span, Status, Tasks};
use hyper::service::{make_service_fn, service_fn};
use hyper::{Body, Response, Server};
use std::convert::Infallible;
use std::io::{Read, Write};
use std::net::{SocketAddr, TcpStream};
use std::time::Duration;
use tokio::{runtime::Handle, task::spawn_blocking, time::sleep};

async fn price(order: u64) -> Result<u32, Error> {
    sleep(Duration::from_millis(10 * order)).await; // a backend
    Ok(4900)
}

async fn handle(path: String, meter: Meter, ends: Ends) -> Result<Response<Body>, Infallible> {
    let (status, text) = match path.rsplit('/').next().map(str::parse) {
        Some(Ok(order)) => {
            let request = Request::new(&format!("order {order}"), Tasks::new(Handle::current(), 8)).metered(&meter).on_end(&ends);
            let scope = request.scope();
            match scope.spawn(price(order)).named("price").or_timeout(Duration::from_secs(60)).await {
                Ok(cents) => (200, format!("{cents} cents")),
                Err(error) => (504, error.to_string()),
            }
        }
        _ if path == "/metrics" => (200, meter.text()),
        _ => (200, meter.open_requests().iter().map(|open| format!("{open}\n")).collect()),
    };
    Ok(Response::builder().status(status).body(Body::from(text)).expect("a response"))
}

/// Asks, and reads the answer to its end, or hangs up.
fn ask(address: SocketAddr, path: &str, hangs_up: bool) -> String {
    let (mut stream, mut answer) = (TcpStream::connect(address).unwrap(), String::new());
    write!(stream, "GET {path} HTTP/1.1\r\nHost: localhost\r\nConnection: close\r\n\r\n").unwrap();
    if hangs_up {
        while !ask(address, "/open", false).contains(" price has run for ") {}
        return answer;
    }
    stream.read_to_string(&mut answer).unwrap();
    answer.split("\r\n\r\n").nth(1).unwrap_or_default().into()
}

fn log_failure(span: &Span) {
    if let Status::Error(why) = &span.status {
        println!("{}: {why}", span.name);
    }
}

#[tokio::main]
async fn main() {
    let (meter, ends) = (Meter::new(), Ends::new(|history| history.spans().iter().for_each(log_failure)));
    let (its, told) = (meter.clone(), ends.clone());
    let server = Server::bind(&([127, 0, 0, 1], 0).into()).serve(make_service_fn(move |_| {
        let (its, told) = (its.clone(), told.clone());
        let answer = move |asked: hyper::Request<Body>| handle(asked.uri().path().into(), its.clone(), told.clone());
        async { Ok::<_, Infallible>(service_fn(answer)) }
    }));
    let address = server.local_addr();
    tokio::spawn(server);
    println!("{}", spawn_blocking(move || ask(address, "/order/1", false)).await.unwrap());
    spawn_blocking(move || ask(address, "/order/10000", true)).await.unwrap();
    while !meter.text().contains("cf_memory_request_seconds_count 2\n") {
        sleep(Duration::from_millis(10)).await;
    }
    ends.flush(Duration::from_secs(5));
}
