//! The synchronisers of java.util.concurrent for Rust: a mutex, conditions, a read-write lock, a semaphore
//! and a latch, with the names and calls of parking_lot.
//!
//! Who gets what, in which order, and what each call returns is decided by proved code. Parking (`aqs.c`)
//! and this crate are not proved. Each object records its calls, and [`history`](Mutex::history) returns
//! them as the text that `aqs audit` checks and `aqs draw` draws.
//!
//! ```
//! use aqs::{Condvar, Mutex};
//! use std::collections::VecDeque;
//!
//! static QUEUE: Mutex<VecDeque<u32>> = Mutex::new(VecDeque::new());
//! static NOT_EMPTY: Condvar = Condvar::new();
//!
//! std::thread::scope(|scope| {
//!     scope.spawn(|| {
//!         let mut items = QUEUE.lock();
//!         NOT_EMPTY.wait_while(&mut items, |items| items.is_empty());
//!         assert_eq!(items.pop_front(), Some(7));
//!     });
//!     QUEUE.lock().push_back(7);
//!     NOT_EMPTY.notify_one();
//! });
//! ```
//!
//! The crate links `libaqs.a`, which `make -C bindings/c` builds.

#![warn(missing_docs)]
#![deny(unsafe_op_in_unsafe_fn)]

mod arc;
mod barrier;
mod condvar;
mod error;
mod latch;
mod mutex;
mod object;
mod once;
mod options;
mod raw_mutex;
mod reentrant_mutex;
mod rwlock;
mod semaphore;
mod sys;
mod thread;

pub use arc::{ArcMutexGuard, ArcReadGuard, ArcWriteGuard};
pub use barrier::{Barrier, BarrierWaitResult};
pub use condvar::{Condvar, WaitTimeoutResult};
pub use error::{last_error, Error};
pub use latch::Latch;
pub use mutex::{Entry, MappedMutexGuard, Mutex, MutexGuard};
pub use once::{Once, OnceState};
pub use options::{Options, Policy};
pub use reentrant_mutex::{ReentrantMutex, ReentrantMutexGuard};
pub use rwlock::{MappedReadGuard, MappedWriteGuard, ReadGuard, RwLock, UpgradableReadGuard, WriteGuard};
pub use semaphore::{Permits, Semaphore};
pub use thread::{interrupted, Thread};

/// [`ReadGuard`], by the name that it has in parking_lot.
pub type RwLockReadGuard<'l, T> = ReadGuard<'l, T>;
/// [`WriteGuard`], by the name that it has in parking_lot.
pub type RwLockWriteGuard<'l, T> = WriteGuard<'l, T>;
/// [`UpgradableReadGuard`], by the name that it has in parking_lot.
pub type RwLockUpgradableReadGuard<'l, T> = UpgradableReadGuard<'l, T>;
/// [`MappedReadGuard`], by the name that it has in parking_lot.
pub type MappedRwLockReadGuard<'l, T> = MappedReadGuard<'l, T>;
/// [`MappedWriteGuard`], by the name that it has in parking_lot.
pub type MappedRwLockWriteGuard<'l, T> = MappedWriteGuard<'l, T>;

// The page's example runs with the tests.
#[cfg(doctest)]
#[doc = include_str!("../README.md")]
struct Readme;
