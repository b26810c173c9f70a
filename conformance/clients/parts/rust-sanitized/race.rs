//! What the sanitizer of threads is tried on: threads that share by what std has, and, with a word, a number that nothing orders.
use std::cell::UnsafeCell;
use std::sync::{mpsc, Arc, Barrier, Condvar, Mutex};
use std::thread;

struct Unordered(UnsafeCell<u64>);

// SAFETY: none, since two threads write it at once. That is to be found.
unsafe impl Sync for Unordered {}

struct Shared {
    row: Mutex<Vec<u64>>,
    grown: Condvar,
    begun: Barrier,
    unordered: Unordered,
}

fn main() {
    let races = std::env::args().count() > 1;
    let shared = Shared { row: Mutex::default(), grown: Condvar::new(), begun: Barrier::new(2), unordered: Unordered(UnsafeCell::new(0)) };
    let shared = Arc::new(shared);
    let (tells, told) = mpsc::channel();
    for number in 0..2 {
        let (shared, tells) = (Arc::clone(&shared), tells.clone());
        thread::spawn(move || {
            shared.begun.wait();
            if races {
                // SAFETY: none, as said above.
                unsafe { *shared.unordered.0.get() += 1 };
            }
            (0..100).for_each(|_| shared.row.lock().unwrap().push(number));
            shared.grown.notify_one();
            drop(shared);
            tells.send(Box::new(number)).unwrap();
        });
    }
    drop(tells);
    let mut row = shared.row.lock().unwrap();
    while row.len() < 200 {
        row = shared.grown.wait(row).unwrap();
    }
    drop(row);
    assert_eq!(told.iter().map(|number| *number).sum::<u64>(), 1);
}
