//! Jobs that an executor drops, refuses or gives back, and what is left of the functions and futures that they were to run.
mod common;

use cf::{Error, Job, Pool, Refusal, Request, Spawn, Stage};
use common::{Keeps, LONG};
use std::sync::atomic::{AtomicBool, AtomicUsize, Ordering};
use std::sync::{Arc, Mutex};
use std::thread;
use std::time::{Duration, Instant};

#[test]
fn a_job_that_is_dropped_lets_what_is_ready_fail() {
    let keeps = Keeps::default();
    let of_jobs = Request::new("dropped", keeps.clone());
    let behind_job = of_jobs.supply(|| 1);
    assert!(!behind_job.is_settled());
    let jobs = std::mem::take(&mut *keeps.0.lock().unwrap());
    drop(jobs);
    assert!(behind_job.is_settled());
    assert!(matches!(behind_job.wait(), Err(Error::Refused(Refusal::Closed))));
    let again = of_jobs.supply(|| 2);
    let jobs = std::mem::take(&mut *keeps.0.lock().unwrap());
    jobs.into_iter().for_each(Job::run);
    assert_eq!(again.wait().unwrap(), 2);
}

/// Keeps each job, and takes two of a request at a time.
#[derive(Clone, Default)]
struct Two(Arc<Mutex<Vec<Job>>>);

impl Spawn for Two {
    fn spawn(&self, job: Job) -> Result<(), Job> {
        self.0.lock().unwrap().push(job);
        Ok(())
    }

    fn parallelism(&self) -> usize {
        2
    }
}

/// The other job is there yet, and runs what both were to run.
#[test]
fn a_job_that_is_dropped_leaves_the_rest_to_the_other() {
    let two = Two::default();
    let of_jobs = Request::new("dropped", two.clone());
    let behind_jobs = [1, 2, 3].map(|n| of_jobs.supply(move || n));
    let mut jobs = std::mem::take(&mut *two.0.lock().unwrap());
    assert_eq!(jobs.len(), 2);
    drop(jobs.pop());
    assert!(behind_jobs.iter().all(|behind_job| !behind_job.is_settled()));
    jobs.pop().unwrap().run();
    assert_eq!(behind_jobs.map(|behind_job| behind_job.wait().unwrap()), [1, 2, 3]);
    // What is kept there keeps its request, and that its executor.
    drop(std::mem::take(&mut *two.0.lock().unwrap()));
}

/// The job that was to poll a future is dropped, and so is one that was to poll it again.
#[test]
fn a_job_of_a_future_that_is_dropped_lets_it_fail() {
    let two = Two::default();
    let of_jobs = Request::new("dropped", two.clone());
    let take = || two.0.lock().unwrap().pop().expect("a job was asked for");
    let (alive, before_job) = (Arc::new(()), of_jobs.promise::<i32>());
    let (held, awaits) = (alive.clone(), before_job.clone());
    let future = of_jobs.spawn(async move {
        let _held = held;
        awaits.await
    });
    take().run();
    assert!(!future.is_settled());
    before_job.complete(1).unwrap();
    drop(take());
    assert!(future.is_settled());
    assert!(matches!(future.wait(), Err(Error::Refused(Refusal::Closed))));
    assert_eq!(Arc::strong_count(&alive), 1, "the future is dropped");
    assert!(of_jobs.history().is_reproducible());
}

/// More functions than a job runs, behind one stage, and no more than one job at a time.
#[test]
fn a_job_that_ends_leaves_no_function() {
    let one = Pool::new(1);
    let before_job = Request::new("many", one).promise::<usize>();
    let behind_jobs: Vec<Stage<usize>> = (0..200).map(|k| before_job.clone().then(move |n| n + k)).collect();
    before_job.complete(1).unwrap();
    for (k, behind_job) in behind_jobs.iter().enumerate() {
        assert_eq!(behind_job.wait_timeout(LONG).expect("its job has ended").unwrap(), k + 1);
    }
}

/// Nor if the functions that it ran were too late, so that they settled nothing.
#[test]
fn a_job_that_ends_late_leaves_no_function() {
    let before_job = Request::new("many", Pool::new(1)).promise::<usize>();
    let (behind_jobs, ran) = (Arc::new(Mutex::new(Vec::<Stage<()>>::new())), Arc::new(AtomicUsize::new(0)));
    for k in 0..200 {
        let (behind, ran) = (Arc::clone(&behind_jobs), Arc::clone(&ran));
        let behind_job = before_job.clone().then(move |_| {
            let own = behind.lock().unwrap()[k].clone();
            assert!(own.cancel());
            ran.fetch_add(1, Ordering::SeqCst);
        });
        behind_jobs.lock().unwrap().push(behind_job);
    }
    before_job.complete(1).unwrap();
    let since = Instant::now();
    while ran.load(Ordering::SeqCst) < 200 {
        assert!(since.elapsed() < LONG, "{} were run", ran.load(Ordering::SeqCst));
        thread::sleep(Duration::from_millis(1));
    }
}

#[test]
fn what_takes_no_jobs_fails_what_is_ready() {
    struct Closed;
    impl Spawn for Closed {
        fn spawn(&self, job: Job) -> Result<(), Job> {
            Err(job)
        }
    }
    let of_jobs = Request::new("closed", Closed);
    assert!(matches!(of_jobs.supply(|| 1).wait(), Err(Error::Refused(Refusal::Closed))));
    let source = of_jobs.promise::<i32>();
    let behind = source.clone().then(|n| n + 1);
    source.complete(1).unwrap();
    assert!(behind.wait().is_err());
}

/// The only job that is left rests in its function, and runs no other one meanwhile: what is ready fails.
#[test]
fn a_job_that_rests_is_none_for_what_is_ready() {
    struct First(AtomicBool);
    impl Spawn for First {
        fn spawn(&self, job: Job) -> Result<(), Job> {
            if self.0.swap(true, Ordering::SeqCst) {
                return Err(job);
            }
            std::thread::spawn(move || job.run());
            Ok(())
        }
    }
    let request = Request::new("first", First(AtomicBool::new(false)));
    let by = request.clone();
    let told = request.supply(move || by.supply(|| 1).wait_timeout(Duration::from_secs(20)).map(|told| told.is_err())).wait().unwrap();
    assert_eq!(told, Some(true));
}
