//! What the fan-outs of bench/library/peers.rs and bench/parts/service.rs have in common.
use std::sync::atomic::{AtomicUsize, Ordering};
use std::sync::Arc;
use std::thread::{self, Thread};
use std::time::Duration;

/// Counts answers down, and wakes the thread that waits for the last.
pub struct Left(AtomicUsize, Thread);

impl Left {
    /// So many answers are awaited, by this thread.
    pub fn new(parts: usize) -> Arc<Left> {
        Arc::new(Left(AtomicUsize::new(parts), thread::current()))
    }

    /// One of them came. Each is 2.
    pub fn take(&self, answer: i32) {
        assert_eq!(answer, 2);
        if self.0.fetch_sub(1, Ordering::AcqRel) == 1 {
            self.1.unpark();
        }
    }

    /// Waits for all.
    pub fn wait(&self) {
        while self.0.load(Ordering::Acquire) > 0 {
            thread::park();
        }
    }
}

/// Lets what was spawned come to where it waits.
pub fn let_wait() {
    thread::sleep(Duration::from_micros(300));
}
