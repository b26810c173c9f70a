//! What the address sanitizer's report of leaks is tried on: a payload that the crate forgets on purpose, since its drop panics, and, with a
//! word, memory that is lost elsewhere.
#[path = "../../../clients/rust/cf/tests/common/mod.rs"]
mod common;

use cf::{Inline, Request};
use common::{poll, Throws};
use std::panic::{catch_unwind, AssertUnwindSafe};
use std::sync::Arc;
use std::task::Waker;

/// The caller is told the first panic. The crate drops what the second one panicked with.
fn forgets() {
    let source = Request::new("panics", Inline).promise::<i32>();
    let mut handles = [source.clone(), source.clone()];
    for handle in &mut handles {
        assert!(!poll(handle, &Waker::from(Arc::new(Throws))));
    }
    std::mem::forget(catch_unwind(AssertUnwindSafe(|| source.complete(1))));
}

#[inline(never)]
fn loses(many: usize) {
    for size in 1..=many {
        std::mem::forget(vec![1_u8; size]);
    }
}

fn main() {
    forgets();
    loses(100 * (std::env::args().count() - 1));
}
