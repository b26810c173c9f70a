//! Adds the spans of each request that is over to a file, and prints them.
use cf::{Ends, Inline, Request, SpanFile};
use std::time::Duration;

fn charge(cents: &u32) -> Result<u32, String> {
    Err(format!("card declined: {cents} cents"))
}

fn main() {
    let path = std::env::temp_dir().join(format!("spans-{}.jsonl", std::process::id()));
    let file = SpanFile::new(&path, "shop");
    let ends = Ends::new(move |history| {
        history.spans().iter().for_each(|span| println!("{}: {:?}", span.name, span.status));
        file.add(history).unwrap();
    });
    let request = Request::new("order 17", Inline).on_end(&ends);
    let _ = request.supply(|| 4900).named("load").and_then(charge).wait();
    drop(request);
    ends.flush(Duration::from_secs(5));
    std::fs::remove_file(path).unwrap();
}
