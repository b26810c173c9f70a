//! A search of the waiting: threads do calls to one request, and are led through all orders in which they can take its lock.
//!
//! What threads share stands under the lock, but for a task's flags. So each asks for its turn before it takes the lock or looks at a flag
//! ([`turn`]), one thread at a time goes on, and all choices are gone through. A thread that rests goes on to its next turn as soon as what it
//! waits for is there, which is no choice, since nobody sees it; where all that are left rest, a wake-up is lost.
use std::cell::RefCell;
use std::panic::{catch_unwind, resume_unwind, AssertUnwindSafe};
use std::sync::{Arc, Condvar, Mutex, MutexGuard, PoisonError};
use std::thread;

thread_local! {
    static PLAYER: RefCell<Option<(Arc<Board>, usize)>> = const { RefCell::new(None) };
}

type Until = Box<dyn Fn() -> bool + Send>;

enum Player {
    /// It runs, or hasn't come to its first turn.
    Runs,
    /// It asks for its turn, once this holds.
    Asks(Option<Until>),
    Done,
}

struct Board {
    players: Mutex<(Vec<Player>, bool)>,
    changed: Condvar,
}

impl Board {
    fn lock(&self) -> MutexGuard<'_, (Vec<Player>, bool)> {
        self.players.lock().unwrap_or_else(PoisonError::into_inner)
    }

    fn set(&self, number: usize, player: Player) {
        self.lock().0[number] = player;
        self.changed.notify_all();
    }

    /// Waits until this player may go on.
    fn ask(&self, number: usize, until: Option<Until>) {
        let mut held = self.lock();
        held.0[number] = Player::Asks(until);
        self.changed.notify_all();
        while matches!(held.0[number], Player::Asks(_)) {
            if held.1 {
                drop(held);
                // What is dropped meanwhile goes on.
                assert!(thread::panicking(), "the search is given up");
                return;
            }
            held = self.changed.wait(held).unwrap_or_else(PoisonError::into_inner);
        }
    }
}

fn ask(until: Option<Until>) -> bool {
    let player = PLAYER.try_with(|player| player.borrow().clone()).ok().flatten();
    player.map(|(board, number)| board.ask(number, until)).is_some()
}

/// Lets other threads go on first, if this is searched.
pub(crate) fn turn() {
    ask(None);
}

/// Rests until this holds. Whether this is searched.
pub(crate) fn rest(until: impl Fn() -> bool + Send + 'static) -> bool {
    ask(Some(Box::new(until)))
}

/// The choices of one order: which of how many went on.
struct Order {
    choices: Vec<(usize, usize)>,
    at: usize,
}

impl Order {
    fn choose(&mut self, of: usize) -> usize {
        if self.at == self.choices.len() {
            self.choices.push((0, of));
        }
        let (chosen, were) = self.choices[self.at];
        assert_eq!(were, of, "what threads do hangs on their order alone");
        self.at += 1;
        chosen
    }

    /// The next order, if there is one.
    fn next(&mut self) -> bool {
        self.at = 0;
        while let Some((chosen, of)) = self.choices.pop() {
            if chosen + 1 < of {
                self.choices.push((chosen + 1, of));
                return true;
            }
        }
        false
    }
}

type Play = Box<dyn FnOnce() + Send>;

/// Leads these threads through one order, up to their ends. Who rests for good is told.
fn play(plays: Vec<Play>, order: &mut Order) -> Result<(), Vec<usize>> {
    let players = plays.iter().map(|_| Player::Runs).collect();
    let board = Arc::new(Board { players: Mutex::new((players, false)), changed: Condvar::new() });
    let start = |(number, play): (usize, Play)| {
        let board = Arc::clone(&board);
        thread::spawn(move || {
            PLAYER.with(|player| *player.borrow_mut() = Some((Arc::clone(&board), number)));
            let ended = catch_unwind(AssertUnwindSafe(play));
            PLAYER.with(|player| *player.borrow_mut() = None);
            board.set(number, Player::Done);
            ended
        })
    };
    let threads: Vec<_> = plays.into_iter().enumerate().map(start).collect();
    let mut rests = Vec::new();
    let mut held = board.lock();
    loop {
        while held.0.iter().any(|player| matches!(player, Player::Runs)) {
            held = board.changed.wait(held).unwrap_or_else(PoisonError::into_inner);
        }
        let all = 0..held.0.len();
        let woken = all.clone().find(|number| matches!(&held.0[*number], Player::Asks(Some(until)) if until()));
        let may: Vec<usize> = all.clone().filter(|number| matches!(held.0[*number], Player::Asks(None))).collect();
        let next = match woken {
            None if may.is_empty() => {
                rests.extend(all.filter(|number| !matches!(held.0[*number], Player::Done)));
                held.1 = true;
                board.changed.notify_all();
                break;
            }
            None => may[order.choose(may.len())],
            Some(woken) => woken,
        };
        held.0[next] = Player::Runs;
        board.changed.notify_all();
    }
    drop(held);
    let ended: Vec<_> = threads.into_iter().map(|thread| thread.join().unwrap()).collect();
    if !rests.is_empty() {
        return Err(rests);
    }
    match ended.into_iter().find_map(Result::err) {
        Some(payload) => resume_unwind(payload),
        None => Ok(()),
    }
}

/// Goes through all orders of the threads that `world` makes, each time anew, with what is to hold at the end. How many there are.
pub(crate) fn search(world: impl Fn() -> (Vec<Play>, Box<dyn FnOnce()>)) -> usize {
    let (mut order, mut searched) = (Order { choices: Vec::new(), at: 0 }, 0);
    loop {
        let (plays, at_end) = world();
        if let Err(rests) = play(plays, &mut order) {
            panic!("threads {rests:?} rest for good: {:?}", order.choices);
        }
        if let Err(payload) = catch_unwind(AssertUnwindSafe(at_end)) {
            eprintln!("after {:?}", order.choices);
            resume_unwind(payload);
        }
        searched += 1;
        if !order.next() {
            return searched;
        }
    }
}

mod tests {
    use super::*;
    use crate::{Error, HandClock, Inline, Job, Request, Spawn, Stage};
    use std::collections::VecDeque;
    use std::future::Future;
    use std::pin::Pin;
    use std::sync::atomic::{AtomicBool, Ordering};
    use std::task::{Context, Poll, Wake, Waker};
    use std::time::Duration;

    #[derive(Default)]
    struct Bell(AtomicBool);

    impl Wake for Bell {
        fn wake(self: Arc<Bell>) {
            self.0.store(true, Ordering::SeqCst);
        }
    }

    /// A handle that a thread polls as a task would: each time with a bell of its own, and again once that has rung, up to the stage's end.
    fn awaits(mut handle: Stage<i32>, bells: usize) -> Play {
        Box::new(move || {
            let mut poll = || {
                let bell = Arc::new(Bell::default());
                let polled = Pin::new(&mut handle).poll(&mut Context::from_waker(&Waker::from(Arc::clone(&bell))));
                (bell, polled.is_ready())
            };
            // So often it is polled by somebody who didn't wait for the bell before.
            for _ in 1..bells {
                if poll().1 {
                    return;
                }
            }
            loop {
                let (bell, is_ready) = poll();
                if is_ready {
                    return;
                }
                rest(move || bell.0.load(Ordering::SeqCst));
            }
        })
    }

    /// A handle that is polled so often and dropped, whereupon its waker is kept by nobody.
    fn goes(mut handle: Stage<i32>, polls: usize) -> Play {
        Box::new(move || {
            let bells: Vec<_> = (0..polls).map(|_| Arc::new(Bell::default())).collect();
            for bell in &bells {
                let _ = Pin::new(&mut handle).poll(&mut Context::from_waker(&Waker::from(Arc::clone(bell))));
            }
            // A clone has no waker, so it takes none away.
            drop(handle.clone());
            drop(handle);
            for bell in bells {
                rest(move || Arc::strong_count(&bell) == 1);
            }
        })
    }

    fn waits(stage: &Stage<i32>) -> Play {
        let stage = stage.clone();
        Box::new(move || drop(stage.wait()))
    }

    fn completes(stage: &Stage<i32>) -> Play {
        let stage = stage.clone();
        Box::new(move || assert!(stage.complete(3).is_ok() || stage.is_settled()))
    }

    fn cancels(stage: &Stage<i32>) -> Play {
        let stage = stage.clone();
        Box::new(move || assert!(stage.cancel() || stage.is_settled()))
    }

    fn is_settled(stage: &Stage<i32>) -> Box<dyn FnOnce()> {
        let stage = stage.clone();
        Box::new(move || assert!(stage.is_settled()))
    }

    fn promise() -> Stage<i32> {
        Request::new("searched", Inline).promise()
    }

    #[test]
    fn a_waker_that_changes() {
        let searched = search(|| {
            let stage = promise();
            (vec![awaits(stage.clone(), 3), completes(&stage)], is_settled(&stage))
        });
        assert!(searched > 2, "{searched}");
    }

    #[test]
    fn two_wait_and_one_goes() {
        let searched = search(|| {
            let stage = promise();
            (vec![awaits(stage.clone(), 1), awaits(stage.clone(), 1), goes(stage.clone(), 1), completes(&stage)], is_settled(&stage))
        });
        assert!(searched > 2, "{searched}");
    }

    /// Nobody settles the stage, so a waker that is still kept is kept for good.
    #[test]
    fn a_handle_that_goes_takes_its_waker_along() {
        let searched = search(|| {
            let stage = promise();
            (vec![goes(stage.clone(), 1), goes(stage.clone(), 2)], Box::new(move || assert!(!stage.is_settled())))
        });
        assert!(searched > 2, "{searched}");
    }

    #[test]
    fn a_thread_waits_while_two_settle() {
        let searched = search(|| {
            let stage = promise();
            (vec![waits(&stage), completes(&stage), cancels(&stage)], is_settled(&stage))
        });
        assert!(searched > 2, "{searched}");
    }

    /// Stages that are settled as another's consequence: of a form without a function, and by a relay from one request to another.
    #[test]
    fn a_consequence_wakes() {
        let searched = search(|| {
            let stage = promise();
            let behind = stage.request().first_of([&stage, &stage.request().promise()]);
            (vec![awaits(behind.clone(), 2), waits(&behind), completes(&stage)], is_settled(&behind))
        });
        assert!(searched > 2, "{searched}");
        let searched = search(|| {
            let (stage, other) = (promise(), promise());
            let behind = other.request().adopt(&stage);
            (vec![awaits(behind.clone(), 1), cancels(&stage)], is_settled(&behind))
        });
        assert!(searched > 2, "{searched}");
    }

    /// Limits come while the clock is turned and rings for another one, earlier and later than that one.
    #[test]
    fn no_limit_is_lost() {
        for waits in [[3, 2], [2, 9], [1, 1]] {
            let searched = search(|| {
                let (clock, seconds) = (HandClock::new(), Duration::from_secs);
                let request = Request::with_clock("limits", Arc::new(Inline), Arc::new(clock.clone()));
                let mut stages = vec![request.promise::<i32>().or_timeout(seconds(2))];
                let by = clock.clone();
                let mut plays: Vec<Play> = vec![Box::new(move || by.turn(seconds(2)))];
                for wait in waits {
                    let stage = request.promise::<i32>();
                    stages.push(stage.clone());
                    plays.push(Box::new(move || drop(stage.or_timeout(seconds(wait)))));
                }
                let at_end = move || {
                    clock.turn(seconds(20));
                    assert!(stages.iter().all(Stage::is_settled) && request.history().is_reproducible());
                };
                (plays, Box::new(at_end))
            });
            assert!(searched > 2, "{searched}");
        }
    }

    /// Stages that are attached, with their functions, while the one before them is settled: here, and in another request.
    #[test]
    fn what_is_attached_meanwhile_is_run() {
        let searched = search(|| {
            let stage = promise();
            let behind = stage.clone();
            let attaches: Play = Box::new(move || assert_eq!(behind.then(|n| n + 1).wait().unwrap(), 4));
            (vec![attaches, completes(&stage)], is_settled(&stage))
        });
        assert!(searched > 2, "{searched}");
        let searched = search(|| {
            let (stage, other) = (promise(), promise().request());
            let relayed = stage.clone();
            let adopts: Play = Box::new(move || assert_eq!(other.adopt(&relayed).wait().unwrap(), 3));
            (vec![adopts, completes(&stage)], is_settled(&stage))
        });
        assert!(searched > 2, "{searched}");
    }

    /// Jobs, two at a time, wait until a worker of the search takes them.
    #[derive(Clone, Default)]
    struct Later(Arc<Mutex<(VecDeque<Job>, bool)>>);

    impl Spawn for Later {
        fn spawn(&self, job: Job) -> Result<(), Job> {
            self.0.lock().unwrap().0.push_back(job);
            Ok(())
        }

        fn parallelism(&self) -> usize {
            2
        }

        fn id(&self) -> usize {
            Arc::as_ptr(&self.0) as usize
        }
    }

    impl Later {
        fn work(&self) -> Play {
            let Later(jobs) = self.clone();
            Box::new(move || loop {
                let come = Arc::clone(&jobs);
                rest(move || {
                    let held = come.lock().unwrap();
                    !held.0.is_empty() || held.1
                });
                let job = jobs.lock().unwrap().0.pop_front();
                match job {
                    Some(job) => job.run(),
                    None => return,
                }
            })
        }

        /// Lets the workers end once this stage is settled.
        fn ends_with(&self, stage: &Stage<i32>) -> Play {
            let (Later(jobs), stage) = (self.clone(), stage.clone());
            Box::new(move || {
                rest(move || stage.is_settled());
                jobs.lock().unwrap().1 = true;
            })
        }
    }

    /// A future of one stage is another's function: it is polled again, whoever wakes it while it is polled, and dropped where its stage is
    /// cancelled.
    #[test]
    fn a_task_is_polled_again() {
        let searched = search(|| {
            let later = Later::default();
            let inner = promise();
            let of = inner.clone();
            let outer = Request::new("tasks", later.clone()).spawn(async move { of.await.map(|n| n + 1) });
            (vec![later.work(), later.work(), later.ends_with(&outer), completes(&inner)], is_settled(&outer))
        });
        assert!(searched > 2, "{searched}");
    }

    /// A future of two stages that goes on after it has looked at both.
    struct Slow(Stage<i32>, Stage<i32>);

    impl Future for Slow {
        type Output = Result<i32, Error>;

        fn poll(mut self: Pin<&mut Slow>, cx: &mut Context<'_>) -> Poll<Result<i32, Error>> {
            let (first, second) = (Pin::new(&mut self.0).poll(cx), Pin::new(&mut self.1).poll(cx));
            turn();
            if first.is_ready() {
                second
            } else {
                Poll::Pending
            }
        }
    }

    /// The second stage ends while the task, which the first one has woken, is polled again.
    #[test]
    fn a_task_is_woken_while_it_is_polled() {
        let searched = search(|| {
            let later = Later::default();
            let (first, second) = (promise(), promise());
            let outer = Request::new("tasks", later.clone()).spawn(Slow(first.clone(), second.clone()));
            let complete: Play = Box::new(move || assert!(first.complete(1).is_ok() && second.complete(2).is_ok()));
            (vec![later.work(), later.ends_with(&outer), complete], is_settled(&outer))
        });
        assert!(searched > 2, "{searched}");
    }

    #[test]
    fn a_task_that_is_cancelled_ends() {
        let searched = search(|| {
            let later = Later::default();
            let never = promise();
            let outer = Request::new("tasks", later.clone()).spawn(async move { never.await.map(|n| n + 1) });
            let at_end = outer.clone();
            let end: Box<dyn FnOnce()> = Box::new(move || {
                assert!(at_end.is_settled());
                let history = at_end.request().history().to_string();
                assert_eq!(history.matches("claims").count(), history.matches("finishes").count(), "{history}");
            });
            (vec![later.work(), later.ends_with(&outer), cancels(&outer)], end)
        });
        assert!(searched > 2, "{searched}");
    }

    /// A worker that waits is woken by what becomes ready, also where no job comes for it any more.
    #[test]
    fn a_worker_that_waits_is_woken() {
        let searched = search(|| {
            let later = Later::default();
            let request = Request::new("helps", later.clone());
            let (gate, by) = (request.promise(), request.clone());
            let behind = gate.clone().then(|n| n + 1);
            let outer = request.supply(move || drop((behind.wait(), by)));
            let outer = outer.then(|()| 0);
            (vec![later.work(), later.ends_with(&outer), completes(&gate)], is_settled(&outer))
        });
        assert!(searched > 2, "{searched}");
    }

    /// A worker that waits is woken by a relay that comes later, since it may have to run what that stands for.
    #[test]
    fn a_worker_that_waits_follows_a_relay() {
        let searched = search(|| {
            let later = Later::default();
            let (request, other) = (Request::new("waits", later.clone()), Request::new("followed", later.clone()));
            let gate = request.promise::<i32>();
            let of = gate.clone();
            let (outer, source) = (request.supply(move || of.wait().unwrap()), other.supply(|| 3));
            let adopts: Play = Box::new(move || {
                let relay = request.adopt(&source);
                rest(move || relay.is_settled());
                gate.complete(4).unwrap();
            });
            (vec![later.work(), later.ends_with(&outer), adopts], is_settled(&outer))
        });
        assert!(searched > 2, "{searched}");
    }

    /// The one function ends once the other has begun, so a job has to come for each.
    #[test]
    fn two_functions_run_at_once() {
        let searched = search(|| {
            let (later, begun) = (Later::default(), Arc::new(AtomicBool::new(false)));
            let request = Request::new("both", later.clone());
            let gate = request.promise::<i32>();
            let (waits, begins) = (Arc::clone(&begun), begun);
            let one = gate.clone().then(move |n| {
                rest(move || waits.load(Ordering::SeqCst));
                *n
            });
            drop(gate.clone().inspect(move |_| begins.store(true, Ordering::SeqCst)));
            (vec![later.work(), later.work(), later.ends_with(&one), completes(&gate)], is_settled(&one))
        });
        assert!(searched > 1, "{searched}");
    }

    #[test]
    fn a_timeout_wakes() {
        let searched = search(|| {
            let clock = HandClock::new();
            let request = Request::with_clock("late", Arc::new(Inline), Arc::new(clock.clone()));
            let stage = request.promise::<i32>().or_timeout(Duration::from_secs(1));
            let turns: Play = Box::new(move || clock.turn(Duration::from_secs(1)));
            (vec![awaits(stage.clone(), 2), turns, completes(&stage)], is_settled(&stage))
        });
        assert!(searched > 2, "{searched}");
    }

    #[test]
    #[should_panic(expected = "rest for good")]
    fn a_lost_waker_is_found() {
        search(|| {
            let bell = Arc::new(Bell::default());
            let sleeps: Play = Box::new(move || assert!(rest(move || bell.0.load(Ordering::SeqCst))));
            (vec![sleeps], Box::new(|| ()))
        });
    }

    /// Two threads with two turns each take six orders.
    #[test]
    fn all_orders_are_searched() {
        let seen = Arc::new(Mutex::new(Vec::new()));
        let searched = search(|| {
            let row = Arc::new(Mutex::new(Vec::new()));
            let turns = |number: usize| {
                let row = Arc::clone(&row);
                let play: Play = Box::new(move || {
                    turn();
                    row.lock().unwrap().push(number);
                    turn();
                    row.lock().unwrap().push(number);
                });
                play
            };
            let seen = Arc::clone(&seen);
            let end = Arc::clone(&row);
            (vec![turns(0), turns(1)], Box::new(move || seen.lock().unwrap().push(end.lock().unwrap().clone())))
        });
        let mut seen = seen.lock().unwrap().clone();
        seen.sort();
        seen.dedup();
        assert_eq!((searched, seen.len()), (6, 6));
    }
}
