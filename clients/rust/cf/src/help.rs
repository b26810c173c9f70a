//! Workers that wait, and run meanwhile what that needs.
//!
//! What a worker runs while it waits lies on its stack, takes its locks and its executor's place. So it runs what the stage needs alone, which
//! has to be run before the wait can end, and what its own executor is to run. Where anybody may have to settle something, such as a promise, a
//! thread that stands in for it runs other functions ([`StandIn`](crate::spawn::StandIn)); only where there is none the worker runs any of its
//! executor's.
use crate::core::{Core, Help};
use crate::inner::StageOf;
use crate::spawn::{caller_number, requests_run_here, CALLER};
use std::collections::VecDeque;
use std::sync::{Arc, Weak};
use std::task::Waker;

/// A thread that waits for a stage. Its waker is kept by the requests that it has asked for functions, until it waits no more.
pub(crate) struct Helper<'a> {
    waker: &'a Waker,
    asked: Vec<Weak<Core>>,
}

impl Helper<'_> {
    pub(crate) fn new(waker: &Waker) -> Helper<'_> {
        Helper { waker, asked: Vec::new() }
    }

    /// Whether a worker has run something that the stage needs. Where nobody stands in for it, it is woken once there may be something.
    pub(crate) fn help_stage(&mut self, core: &Arc<Core>, stage: u16, is_stood_in: bool) -> bool {
        if caller_number() == CALLER {
            return false;
        }
        self.forget_wakers();
        let waker = (!is_stood_in).then_some(self.waker);
        let own = requests_run_here();
        let is_own = |core: &Core| own.iter().any(|own| own.place == core.place);
        let (mut row, mut seen, mut may_need_any) = (vec![StageOf { core: Arc::clone(core), stage }], Vec::new(), false);
        while let Some(StageOf { core, stage }) = row.pop() {
            let it = (Arc::as_ptr(&core), stage);
            if seen.contains(&it) {
                continue;
            }
            seen.push(it);
            self.ask_request(&core, waker.is_some());
            match core.help_stage(stage, is_own(&core), waker) {
                Help::Did => return true,
                Help::Waits { elsewhere, is_open } => {
                    row.extend(elsewhere);
                    may_need_any |= is_open;
                }
            }
        }
        may_need_any && !is_stood_in && self.help_any(core, &own, is_own)
    }

    /// Any function of the stage's request, of those whose functions the thread is running, or of those for whose stages a relay of these waits.
    fn help_any(&mut self, core: &Arc<Core>, own: &[Arc<Core>], is_own: impl Fn(&Core) -> bool) -> bool {
        let mut row: VecDeque<Arc<Core>> = own.iter().map(Arc::clone).collect();
        row.push_back(Arc::clone(core));
        let mut seen = Vec::new();
        while let Some(core) = row.pop_back() {
            if seen.contains(&Arc::as_ptr(&core)) {
                continue;
            }
            seen.push(Arc::as_ptr(&core));
            self.ask_request(&core, true);
            match core.help_any(is_own(&core), self.waker) {
                Help::Did => return true,
                Help::Waits { elsewhere, .. } => elsewhere.into_iter().for_each(|it| row.push_front(it.core)),
            }
        }
        false
    }

    fn ask_request(&mut self, core: &Arc<Core>, is_kept: bool) {
        if is_kept && !self.asked.iter().any(|asked| asked.as_ptr() == Arc::as_ptr(core)) {
            self.asked.push(Arc::downgrade(core));
        }
    }

    fn forget_wakers(&mut self) {
        for core in self.asked.drain(..).filter_map(|asked| asked.upgrade()) {
            core.forget_helper(self.waker);
        }
    }
}

impl Drop for Helper<'_> {
    fn drop(&mut self) {
        self.forget_wakers();
    }
}

#[cfg(test)]
mod tests {
    use crate::core::Core;
    use crate::{Alarm, Clock, Job, Request, Spawn};
    use std::sync::atomic::{AtomicUsize, Ordering};
    use std::sync::mpsc::{channel, sync_channel, SyncSender};
    use std::sync::Arc;
    use std::thread;
    use std::time::Duration;

    const LONG: Duration = Duration::from_secs(20);

    /// A thread for each job, for which nobody stands in.
    struct Threads;

    impl Spawn for Threads {
        fn spawn(&self, job: Job) -> Result<(), Job> {
            thread::spawn(move || job.run());
            Ok(())
        }
    }

    /// Jobs, two at a time, that the test itself has run.
    struct Sends(SyncSender<Job>);

    impl Spawn for Sends {
        fn spawn(&self, job: Job) -> Result<(), Job> {
            self.0.send(job).map_err(|refused| refused.0)
        }

        fn parallelism(&self) -> usize {
            2
        }
    }

    /// A clock that counts how often it is asked.
    #[derive(Default)]
    struct Asked(AtomicUsize);

    impl Clock for Asked {
        fn now(&self) -> Duration {
            self.0.fetch_add(1, Ordering::SeqCst);
            Duration::ZERO
        }

        fn ring_after(&self, _wait: Duration, _alarm: Alarm) {}
    }

    /// Comes back once a worker waits for a stage of this request, or of one that a stage of it follows.
    fn is_awaited(request: &Request) {
        while request.0.lock().helpers.is_empty() {
            thread::yield_now();
        }
    }

    /// A worker waits again and again, while nothing becomes ready that would have its wakers forgotten.
    #[test]
    fn who_waits_no_more_is_forgotten() {
        let request = Request::new("helps", Threads);
        let (other, by) = (Request::new("other", Threads), request.clone());
        let kept = request.supply(move || {
            for _ in 0..20 {
                let (gate, behind) = (other.promise::<i32>(), by.promise::<i32>());
                let opens = gate.clone();
                let thread = thread::spawn(move || opens.complete(1));
                assert_eq!(by.first_of([&gate, &behind]).wait().unwrap(), 1);
                thread.join().unwrap().unwrap();
            }
            let kept = [&by, &other].map(|request| request.0.lock().helpers.len());
            kept.to_vec()
        });
        assert_eq!(kept.wait().unwrap(), [0, 0]);
    }

    /// One worker waits for a composing stage. The other one calls its function, and goes when its turn is over: what the stage is linked to is
    /// left to the one that waits.
    #[test]
    fn who_waits_is_woken_by_a_link() {
        let (sends, jobs) = sync_channel(8);
        let (request, (begins, begun)) = (Request::new("links", Sends(sends)), channel());
        let by = request.clone();
        let mut last = request.supply(move || {
            begins.send(()).unwrap();
            is_awaited(&by);
        });
        for _ in 2..Core::TURN {
            last = last.then(|()| ());
        }
        let by = request.clone();
        let linked = last.compose(move |()| {
            let target = by.supply(|| 3);
            is_awaited(&by); // (it has looked what is ready now, and waits again)
            target
        });
        let goes = jobs.recv().unwrap();
        let goes = thread::spawn(move || goes.run());
        begun.recv().unwrap();
        let waited = request.supply(move || linked.wait().unwrap());
        let waits = jobs.recv().unwrap();
        thread::spawn(move || waits.run());
        assert_eq!(waited.wait_timeout(LONG).expect("it is woken").unwrap(), 3);
        goes.join().unwrap();
    }

    /// Two requests follow a stage of each other. Who waits in one of them asks both, and rests.
    #[test]
    fn requests_that_follow_one_another_are_asked_once() {
        let clock = Arc::new(Asked::default());
        let [one, two] = ["one", "two"].map(|name| Request::with_clock(name, Arc::new(Threads), Arc::clone(&clock) as Arc<dyn Clock>));
        let (gate, other) = (one.promise::<i32>(), two.promise::<i32>());
        let relays = [one.adopt(&other), two.adopt(&gate)];
        let of = gate.clone();
        let waited = one.supply(move || of.wait().unwrap());
        is_awaited(&one);
        is_awaited(&two);
        let asked = clock.0.load(Ordering::SeqCst);
        thread::sleep(Duration::from_millis(50));
        assert!(clock.0.load(Ordering::SeqCst) < asked + 10);
        gate.complete(4).unwrap();
        assert_eq!(waited.wait_timeout(LONG).expect("it is woken").unwrap(), 4);
        assert!(relays[0].cancel());
    }

    /// A worker waits for a promise of another request, and asks its own for functions meanwhile.
    #[test]
    fn who_waits_no_more_is_forgotten_by_its_own_request() {
        let [own, other] = ["own", "other"].map(|name| Request::new(name, Threads));
        let (gate, asked) = (other.promise::<i32>(), [own.clone(), other.clone()]);
        let waits = gate.clone();
        let kept = own.supply(move || {
            waits.wait().unwrap();
            asked.iter().map(|request| request.0.lock().helpers.len()).collect::<Vec<_>>()
        });
        is_awaited(&own);
        gate.complete(1).unwrap();
        assert_eq!(kept.wait().unwrap(), [0, 0]);
    }

    /// One of two workers waits no more.
    #[test]
    fn who_still_waits_is_kept() {
        let request = Request::new("shared", Threads);
        let gates = [(); 2].map(|()| request.promise::<i32>());
        let [one, other] = gates.clone().map(|gate| Request::new("waits", Threads).supply(move || gate.wait().unwrap()));
        let kept = || request.0.lock().helpers.len();
        while kept() < 2 {
            thread::yield_now();
        }
        gates[0].complete(1).unwrap();
        assert_eq!((one.wait().unwrap(), kept()), (1, 1));
        gates[1].complete(2).unwrap();
        assert_eq!((other.wait().unwrap(), kept()), (2, 0));
    }
}
