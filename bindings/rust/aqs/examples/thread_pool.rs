//! A thread pool over one mutex with a condition, a semaphore that bounds its queue, and a latch at its end.
//!
//! `cargo run --example thread_pool [FILE]` writes the history of the pool's lock to FILE, for `aqs audit`
//! and `aqs draw`.

use aqs::{Condvar, Error, Latch, Mutex, Options, Semaphore};
use std::collections::VecDeque;
use std::sync::atomic::{AtomicU64, Ordering};
use std::sync::Arc;
use std::{env, fs, io, thread};

type Job = Box<dyn FnOnce() + Send>;

struct Queue {
    jobs: VecDeque<Job>,
    is_closed: bool,
}

struct Shared {
    queue: Mutex<Queue>,
    not_empty: Condvar,
    places: Semaphore,
    ended: Latch,
}

/// Threads that take jobs from a bounded queue.
pub struct ThreadPool {
    shared: Arc<Shared>,
}

impl ThreadPool {
    pub fn new(threads: u32, places: i32) -> Result<ThreadPool, Error> {
        let queue = Queue { jobs: VecDeque::new(), is_closed: false };
        let shared = Arc::new(Shared {
            queue: Mutex::with(queue, Options::new().fair().keep_history().threads(32))?,
            not_empty: Condvar::new(),
            places: Semaphore::new(places),
            ended: Latch::new(threads),
        });
        for _ in 0..threads {
            let shared = Arc::clone(&shared);
            thread::spawn(move || work(&shared));
        }
        Ok(ThreadPool { shared })
    }

    /// Adds a job, and waits while the queue is full.
    pub fn run(&self, job: impl FnOnce() + Send + 'static) {
        self.shared.places.acquire(1);
        self.shared.queue.lock().jobs.push_back(Box::new(job));
        self.shared.not_empty.notify_one();
    }

    /// Waits until all jobs are done and all threads have ended. Returns the history of the queue's lock.
    pub fn close(self) -> Result<String, Error> {
        self.shared.queue.lock().is_closed = true;
        self.shared.not_empty.notify_all();
        self.shared.ended.wait();
        self.shared.queue.history()
    }
}

fn work(shared: &Shared) {
    while let Some(job) = next(shared) {
        shared.places.release(1);
        job();
    }
    shared.ended.count_down();
}

fn next(shared: &Shared) -> Option<Job> {
    let mut queue = shared.queue.lock();
    shared.not_empty.wait_while(&mut queue, |queue| queue.jobs.is_empty() && !queue.is_closed);
    queue.jobs.pop_front()
}

fn main() -> io::Result<()> {
    let sum = Arc::new(AtomicU64::new(0));
    let pool = ThreadPool::new(3, 4).map_err(io::Error::other)?;
    for number in 1..=12u64 {
        let sum = Arc::clone(&sum);
        pool.run(move || {
            sum.fetch_add((1..=number).product(), Ordering::Relaxed);
        });
    }
    let history = pool.close().map_err(io::Error::other)?;
    println!("sum of factorials: {}", sum.load(Ordering::Relaxed));
    match env::args().nth(1) {
        Some(file) => fs::write(file, history),
        None => Ok(()),
    }
}
