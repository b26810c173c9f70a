//! A server of hyper's, whose client hangs up: hyper drops the handler's future, and what is open of its request in the store is cancelled.
use cf_store::{Error, Flow, Functions, Request, SQLite, Service, StoreError};
use hyper::service::{make_service_fn, service_fn};
use hyper::{Body, Response, Server};
use serde_json::{json, Value};
use std::{convert::Infallible, env, fs, future::ready, io::Write, net::SocketAddr, net::TcpStream, process, sync::Arc, thread, time::Duration};
use tokio::task::spawn_blocking;

/// Cancels what is open of a request, once it is dropped. A thread does so, as each call waits for the store.
struct CancelsOnDrop(Request);

impl Drop for CancelsOnDrop {
    fn drop(&mut self) {
        let request = self.0.clone();
        thread::spawn(move || request.cancel_all().unwrap_or_else(|error| eprintln!("{} isn't cancelled: {error}", request.name())));
    }
}

fn begin(service: &Service, order: u64) -> Result<Request, StoreError> {
    let name = format!("order {order}");
    match service.start(&flow(), &name, &[json!(order)]) {
        Err(StoreError::Broken { .. }) => service.open(&name), // it was begun by an older plan
        begun => begun,
    }
}

async fn handle(service: Arc<Service>, order: u64) -> Result<Value, Error> {
    let scope = spawn_blocking(move || begin(&service, order).map(CancelsOnDrop)).await.expect("no panic")?;
    let request = scope.0.clone();
    spawn_blocking(move || request.named("ship")?.expect("a stage of each plan").wait()).await.expect("no panic")
}

fn flow() -> Flow {
    let mut flow = Flow::new("order");
    let (order, approval) = (flow.promise("order"), flow.promise("approval"));
    let paid = flow.then(order, "charge");
    flow.combine(paid, approval, "ship");
    flow
}

/// The plan before the program's last change.
fn older() -> Flow {
    let mut flow = Flow::new("order");
    let (cents, approval) = (flow.promise("cents"), flow.promise("approval"));
    flow.combine(cents, approval, "ship");
    flow
}

/// A request, once it has begun.
fn begun(service: &Service, name: &str) -> Result<Request, Error> {
    loop {
        match service.open(name) {
            Err(StoreError::Gone(_)) => thread::sleep(Duration::from_millis(10)),
            found => return Ok(found?),
        }
    }
}

fn is_cancelled(request: &Request) -> Result<bool, Error> {
    let approval = request.named("approval")?.expect("a stage of the flow"); // the last one that is cancelled
    Ok(approval.wait_timeout::<String>(Duration::from_secs(60)) == Err(Error::Cancelled))
}

/// Asks for an order, hangs up once it is charged, and tells how each stage ends.
fn hang_up(address: SocketAddr, service: &Service) -> Result<(), Error> {
    let mut stream = TcpStream::connect(address).expect("a server");
    write!(stream, "GET /17 HTTP/1.1\r\nHost: localhost\r\n\r\n").expect("a server that reads");
    let request = begun(service, "order 17")?;
    request.named("charge")?.expect("a stage of the flow").wait::<u64>()?;
    drop(stream);
    assert!(is_cancelled(&request)?);
    request.history()?.lines()?.lines().filter(|line| line.contains(" ends: ")).for_each(|line| println!("{}", line.trim()));
    assert!(is_cancelled(&begun(service, "order 16")?)?);
    Ok(())
}

/// The answer of the server to a call of `/17`.
async fn answer(service: Arc<Service>, path: String) -> Result<Response<Body>, Infallible> {
    let order = path[1..].parse().unwrap_or_default();
    Ok(Response::new(Body::from(handle(service, order).await.map_or_else(|error| error.to_string(), |value| value.to_string()))))
}

#[tokio::main]
async fn main() -> Result<(), Box<dyn std::error::Error>> {
    let functions = Functions::new().with("charge", 1, |order: u64| Ok::<_, String>(100 * order));
    let functions = functions.with("ship", 1, |cents: u64, by: String| Ok::<_, String>(format!("{cents} cents, approved by {by}")));
    let folder = env::temp_dir().join(format!("hangs-up-{}", process::id()));
    fs::create_dir_all(&folder)?;
    let service = Arc::new(Service::new(SQLite::open(folder.join("orders.db"))?, functions)?);
    let its = service.clone();
    let server = Server::bind(&([127, 0, 0, 1], 0).into()).serve(make_service_fn(move |_| {
        let its = its.clone();
        async { Ok::<_, Infallible>(service_fn(move |asked: hyper::Request<Body>| answer(its.clone(), asked.uri().path().into()))) }
    }));
    let address = server.local_addr();
    tokio::spawn(server);
    let began = service.clone();
    spawn_blocking(move || began.start(&older(), "order 15", &[json!(1500), json!("Bob")])).await??;
    println!("{}", handle(service.clone(), 15).await?);
    tokio::select! { biased; _ = handle(service.clone(), 16) => {}, () = ready(()) => {} } // a client that hangs up while its request begins
    spawn_blocking(move || hang_up(address, &service)).await??;
    Ok(fs::remove_dir_all(folder)?)
}
