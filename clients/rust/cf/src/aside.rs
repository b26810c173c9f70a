//! What is told aside of all else, one thing after another: on a thread that is there while something is left to tell.
use crate::spawn::swallow_panic;
use std::collections::VecDeque;
use std::fmt;
use std::io::{stderr, Write};
use std::mem::replace;
use std::sync::{Arc, Condvar, Mutex, MutexGuard, PoisonError};
use std::thread;
use std::time::Duration;

/// How many wait at most.
const MOST: usize = 2048;

/// Tells what it is given, on a thread of its own. It is a handle: clones are the same. It is public for the crate `cf-store` alone.
pub struct Aside<T>(Arc<AsideState<T>>);

struct AsideState<T> {
    tells: Box<dyn Fn(T) + Send + Sync>,
    queue: Mutex<Queue<T>>,
    /// Is rung as the thread ends, or where none could be started.
    rests: Condvar,
}

struct Queue<T> {
    left: VecDeque<T>,
    has_thread: bool,
    is_losing: bool,
}

impl<T: Send + 'static> Aside<T> {
    /// One that tells by this function. If that panics, it is called for the next one all the same.
    pub fn new(tells: impl Fn(T) + Send + Sync + 'static) -> Aside<T> {
        let queue = Mutex::new(Queue { left: VecDeque::new(), has_thread: false, is_losing: false });
        Aside(Arc::new(AsideState { tells: Box::new(tells), queue, rests: Condvar::new() }))
    }

    /// Waits until all was told that was given before, or so long. Whether it was.
    pub fn flush(&self, wait: Duration) -> bool {
        let queue = self.0.lock();
        let ended = self.0.rests.wait_timeout_while(queue, wait, |queue| queue.has_thread);
        let (mut queue, _) = ended.unwrap_or_else(PoisonError::into_inner);
        if queue.has_thread {
            return false;
        }
        // No thread could be started for these.
        queue.has_thread = !queue.left.is_empty();
        if queue.has_thread {
            drop(queue);
            self.0.run();
        }
        true
    }

    /// Tells this, or drops it where too many wait.
    pub fn tell(&self, it: T) {
        let mut queue = self.0.lock();
        let is_full = queue.left.len() >= MOST;
        let was_losing = replace(&mut queue.is_losing, is_full);
        if is_full {
            drop(queue);
            if !was_losing {
                // This may be in a `Drop`, and standard error may be closed.
                let _ = writeln!(stderr(), "cf: {MOST} histories of ended requests wait for their function, and further ones aren't told");
            }
            return;
        }
        queue.left.push_back(it);
        if replace(&mut queue.has_thread, true) {
            return;
        }
        drop(queue);
        let shared = Arc::clone(&self.0);
        if thread::Builder::new().name("cf ends".into()).spawn(move || shared.run()).is_err() {
            self.0.note_no_thread();
        }
    }
}

impl<T> AsideState<T> {
    fn lock(&self) -> MutexGuard<'_, Queue<T>> {
        self.queue.lock().unwrap_or_else(PoisonError::into_inner)
    }

    /// No thread could be started. The next one that is told tries again, and whoever waits tells what is left.
    fn note_no_thread(&self) {
        self.lock().has_thread = false;
        self.rests.notify_all();
    }

    fn run(&self) {
        loop {
            let mut queue = self.lock();
            let next = queue.left.pop_front();
            queue.has_thread = next.is_some();
            drop(queue);
            let next = match next {
                Some(next) => next,
                None => return self.rests.notify_all(),
            };
            // A value's drop may panic, too, and so may that of a payload.
            swallow_panic(|| (self.tells)(next));
        }
    }
}

impl<T> Clone for Aside<T> {
    fn clone(&self) -> Aside<T> {
        Aside(Arc::clone(&self.0))
    }
}

impl<T> fmt::Debug for Aside<T> {
    fn fmt(&self, f: &mut fmt::Formatter<'_>) -> fmt::Result {
        f.debug_struct("Aside").field("waiting", &self.0.lock().left.len()).finish_non_exhaustive()
    }
}

#[cfg(test)]
mod tests {
    use super::*;
    use std::sync::atomic::{AtomicU32, Ordering};
    use std::sync::mpsc::channel;

    /// Where the system starts no thread, whoever waits for the function calls it.
    #[test]
    fn what_no_thread_could_tell_is_told_by_a_flush() {
        let told = Arc::new(AtomicU32::new(0));
        let tells = Arc::clone(&told);
        let aside = Aside::new(move |it| tells.store(it, Ordering::SeqCst));
        aside.0.lock().left.push_back(7);
        assert!(aside.flush(Duration::from_secs(60)));
        assert_eq!(told.load(Ordering::SeqCst), 7);
    }

    #[test]
    fn what_the_function_panics_with_is_dropped() {
        let alive = Arc::new(());
        let held = Arc::clone(&alive);
        let aside = Aside::new(move |()| std::panic::panic_any(Arc::clone(&held)));
        aside.tell(());
        assert!(aside.flush(Duration::from_secs(60)));
        assert_eq!(Arc::strong_count(&alive), 2);
    }

    /// Nor does it wait for a thread that the system has refused meanwhile.
    #[test]
    fn a_flush_waits_for_no_thread_that_was_refused() {
        let told = Arc::new(AtomicU32::new(0));
        let tells = Arc::clone(&told);
        let aside = Aside::new(move |it| tells.store(it, Ordering::SeqCst));
        {
            let mut queue = aside.0.lock();
            queue.left.push_back(7);
            queue.has_thread = true;
        }
        let (waits, (ends, end)) = (aside.clone(), channel());
        thread::spawn(move || ends.send(waits.flush(Duration::from_secs(600))).unwrap());
        // It waits by then, or finds no thread.
        thread::sleep(Duration::from_millis(20));
        aside.0.note_no_thread();
        assert_eq!((end.recv_timeout(Duration::from_secs(30)), told.load(Ordering::SeqCst)), (Ok(true), 7));
    }

    /// Also where somebody waits for it at once.
    #[test]
    fn what_a_thread_can_tell_is_told_by_no_flush() {
        let here = thread::current().id();
        let aside = Aside::new(move |by: Arc<AtomicU32>| by.store(1 + u32::from(thread::current().id() == here), Ordering::SeqCst));
        for _ in 0..20 {
            let by = Arc::new(AtomicU32::new(0));
            aside.tell(Arc::clone(&by));
            assert!(aside.flush(Duration::from_secs(60)));
            assert_eq!(by.load(Ordering::SeqCst), 1);
        }
    }
}
