//! A search for lost wake-ups: all orders of what handles and a caller do to one stage are gone through.
//!
//! Whatever is done to a stage is one hold of its request's lock, and wakers are called behind it. So all that threads can see are the orders
//! of their calls, and calls that come between a hold and its wakers: the latter are made by the wakers themselves here.
mod common;

use cf::{Inline, Request, Stage};
use common::Counts;
use std::future::Future;
use std::pin::Pin;
use std::sync::atomic::{AtomicBool, AtomicUsize, Ordering};
use std::sync::{Arc, Mutex, Weak};
use std::task::{Context, Poll, Wake, Waker};

#[derive(Clone, Copy, Debug)]
enum Step {
    /// A handle is polled with the waker of this number.
    Poll(usize, usize),
    Drop(usize),
    /// A handle becomes a clone of another one, which has no waker yet.
    Clone(usize),
    Complete,
    Fail,
    Cancel,
    /// A function is attached, which runs where the stage becomes settled.
    Attach,
}

const HANDLES: usize = 3;
const BELLS: usize = 6;

struct World {
    steps: Vec<Step>,
    next: AtomicUsize,
    /// How many steps each waker makes when it is woken.
    at_wake: usize,
    stage: Stage<i32>,
    handles: [Mutex<Option<Stage<i32>>>; HANDLES],
    /// The waker with which each handle was told to wait.
    waits: [Mutex<Option<usize>>; HANDLES],
    bells: Mutex<Vec<Arc<Bell>>>,
}

struct Bell {
    rung: AtomicBool,
    world: Mutex<Weak<World>>,
}

impl Wake for Bell {
    fn wake(self: Arc<Self>) {
        self.rung.store(true, Ordering::SeqCst);
        let world = self.world.lock().unwrap().upgrade();
        if let Some(world) = world {
            (0..world.at_wake).for_each(|_| world.step());
        }
    }
}

impl World {
    fn new(steps: Vec<Step>, at_wake: usize) -> Arc<World> {
        let stage = Request::new("searched", Inline).promise();
        let handles = [(); HANDLES].map(|()| Mutex::new(Some(stage.clone())));
        let bells = (0..BELLS).map(|_| Arc::new(Bell { rung: AtomicBool::new(false), world: Mutex::default() })).collect();
        let next = AtomicUsize::new(0);
        let world = Arc::new(World { steps, next, at_wake, stage, handles, waits: Default::default(), bells: Mutex::new(bells) });
        world.bells.lock().unwrap().iter().for_each(|bell| *bell.world.lock().unwrap() = Arc::downgrade(&world));
        world
    }

    fn step(&self) {
        match self.steps.get(self.next.fetch_add(1, Ordering::SeqCst)) {
            None => {}
            Some(Step::Poll(handle, bell)) => self.poll(*handle, *bell),
            Some(Step::Drop(handle)) => {
                *self.waits[*handle].lock().unwrap() = None;
                drop(self.handles[*handle].lock().unwrap().take());
            }
            Some(Step::Clone(handle)) => {
                *self.waits[*handle].lock().unwrap() = None;
                *self.handles[*handle].lock().unwrap() = Some(self.stage.clone());
            }
            Some(Step::Complete) => drop(self.stage.complete(3).is_ok()),
            Some(Step::Fail) => drop(self.stage.fail("no")),
            Some(Step::Cancel) => drop(self.stage.cancel()),
            Some(Step::Attach) => drop(self.stage.clone().then(|n| n + 1)),
        }
    }

    fn poll(&self, handle: usize, bell: usize) {
        let bells = Arc::clone(&self.bells.lock().unwrap()[bell]);
        bells.rung.store(false, Ordering::SeqCst);
        let waker = Waker::from(bells);
        let mut held = self.handles[handle].lock().unwrap();
        let mut waits = self.waits[handle].lock().unwrap();
        if let Some(stage) = held.as_mut() {
            *waits = match Pin::new(stage).poll(&mut Context::from_waker(&waker)) {
                Poll::Ready(_) => None,
                Poll::Pending => Some(bell),
            };
        }
    }

    /// At the end the stage is settled: who was told to wait was woken, and no waker is kept.
    fn check(&self) {
        while self.next.load(Ordering::SeqCst) < self.steps.len() {
            self.step();
        }
        assert!(self.stage.is_settled());
        let bells = self.bells.lock().unwrap();
        for (handle, waits) in self.waits.iter().enumerate() {
            if let Some(bell) = *waits.lock().unwrap() {
                assert!(bells[bell].rung.load(Ordering::SeqCst), "handle {handle} wasn't woken: {:?}, {} at a wake", self.steps, self.at_wake);
            }
        }
        for bell in bells.iter() {
            assert_eq!(Arc::strong_count(bell), 1, "a waker is kept: {:?}", self.steps);
        }
    }
}

/// Calls with all orders of these rows, each of which keeps its own.
fn orders(rows: &mut Vec<&[Step]>, order: &mut Vec<Step>, call: &mut dyn FnMut(&[Step])) {
    if rows.iter().all(|row| row.is_empty()) {
        return call(order);
    }
    for k in 0..rows.len() {
        if let [first, rest @ ..] = rows[k] {
            let row = rows[k];
            rows[k] = rest;
            order.push(*first);
            orders(rows, order, call);
            order.pop();
            rows[k] = row;
        }
    }
}

fn search(rows: &[&[Step]]) -> usize {
    let mut searched = 0;
    orders(&mut rows.to_vec(), &mut Vec::new(), &mut |order| {
        for at_wake in 0..=2 {
            World::new(order.to_vec(), at_wake).check();
            searched += 1;
        }
    });
    searched
}

use Step::{Attach, Cancel, Clone as CloneOf, Complete, Drop as DropOf, Fail, Poll as PollOf};

#[test]
fn no_order_loses_a_waker() {
    let changes: &[Step] = &[PollOf(0, 0), PollOf(0, 1), PollOf(0, 1)];
    let comes_and_goes: &[Step] = &[PollOf(1, 2), DropOf(1), CloneOf(1), PollOf(1, 3)];
    let stays: &[Step] = &[PollOf(2, 4), PollOf(2, 5)];
    // 9!/(3! 4! 2!) orders without the caller, each with the caller at ten places.
    assert_eq!(search(&[changes, comes_and_goes, stays, &[Complete]]), 3 * 12_600);
}

#[test]
fn no_order_of_two_ends_loses_a_waker() {
    for end in [Complete, Fail, Cancel] {
        let one: &[Step] = &[PollOf(0, 0), DropOf(0), CloneOf(0), PollOf(0, 1)];
        let two: &[Step] = &[PollOf(1, 2), PollOf(1, 3)];
        assert_eq!(search(&[one, two, &[end], &[Attach, Cancel]]), 3 * 3780);
    }
}

#[test]
fn one_waker_serves_several_handles() {
    let one: &[Step] = &[PollOf(0, 0), PollOf(0, 0), DropOf(0)];
    let two: &[Step] = &[PollOf(1, 0), PollOf(1, 1)];
    let three: &[Step] = &[PollOf(2, 2), DropOf(2)];
    assert!(search(&[one, two, three, &[Fail]]) > 1000);
}

/// Threads that poll and go, while another completes: who waits to the end is woken each time.
#[test]
fn threads_are_woken() {
    for round in 0..300 {
        let stage = Request::new("raced", Inline).promise::<i32>();
        std::thread::scope(|scope| {
            let waits: Vec<_> = (0..3).map(|_| scope.spawn(|| stage.clone().wait().unwrap())).collect();
            scope.spawn(|| {
                let bell = Arc::new(Bell { rung: AtomicBool::new(false), world: Mutex::default() });
                for _ in 0..20 {
                    let mut handle = stage.clone();
                    let _ = Pin::new(&mut handle).poll(&mut Context::from_waker(&Waker::from(Arc::clone(&bell))));
                }
                // Who completes it may still be about to wake.
                while Arc::strong_count(&bell) > 1 {
                    std::thread::yield_now();
                }
            });
            scope.spawn(|| stage.complete(round).unwrap());
            for wait in waits {
                assert_eq!(wait.join().unwrap(), round);
            }
        });
    }
}

/// A stage is polled, dropped and polled again after its end, by clones at once.
#[test]
fn a_stage_is_polled_after_its_end() {
    let polled = Request::new("again", Inline);
    let (counts, mut first_polled) = (Arc::new(Counts::default()), polled.promise::<i32>());
    assert!(!counts.polls(&mut first_polled));
    let mut half = first_polled.clone();
    assert!(!counts.polls(&mut half));
    drop(half);
    first_polled.complete(1).unwrap();
    assert_eq!(counts.count(), 1);
    let mut other = polled.promise::<i32>();
    assert!(!counts.polls(&mut other));
    // The place of the first one's waker is the other's now.
    assert!(counts.polls(&mut first_polled) && counts.polls(&mut first_polled));
    drop(first_polled);
    other.complete(2).unwrap();
    assert_eq!(counts.count(), 2);
}

/// Nor with what its thread tells later, by the same memory.
#[test]
fn a_waker_is_called_once_and_kept_by_nobody() {
    let request = Request::new("once", Inline);
    let bells = [(); 2].map(|()| Arc::new(Counts::default()));
    for (k, bell) in bells.iter().enumerate() {
        let mut waits = request.promise::<i32>();
        assert!(!bell.polls(&mut waits));
        waits.complete(1).unwrap();
        assert_eq!((bells[0].count(), bells[1].count(), Arc::strong_count(bell)), (1, k, 1));
    }
}
