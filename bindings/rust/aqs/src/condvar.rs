//! Conditions of a mutex.

use crate::error::{check, refused, Error};
use crate::mutex::MutexGuard;
use crate::object::{after, is_up, Pending};
use crate::raw_mutex::{RawMutex, ALL};
use std::collections::VecDeque;
use std::sync::atomic::{AtomicU64, Ordering};
use std::sync::{self, Mutex, PoisonError};
use std::time::{Duration, Instant};
use std::{fmt, ptr};

/// Whether a wait with a time ended because the time was up.
#[derive(Clone, Copy, Debug, PartialEq, Eq)]
pub struct WaitTimeoutResult(bool);

impl WaitTimeoutResult {
    /// Whether the time was up before the thread was notified.
    pub fn timed_out(self) -> bool {
        self.0
    }
}

/// A condition that threads with a [`Mutex`](crate::Mutex) wait for.
///
/// Any number of them may belong to a mutex, and any thread may notify, with the mutex or without it. A
/// notify never waits for the mutex. A wait never ends without a notify, but what the thread waits for may
/// have changed again by then: use [`wait_while`](Condvar::wait_while), or a loop.
///
/// ```
/// use aqs::{Condvar, Mutex};
///
/// static READY: Mutex<bool> = Mutex::new(false);
/// static CHANGED: Condvar = Condvar::new();
///
/// std::thread::scope(|scope| {
///     scope.spawn(|| {
///         *READY.lock() = true;
///         CHANGED.notify_one();
///     });
///     let mut ready = READY.lock();
///     CHANGED.wait_while(&mut ready, |ready| !*ready);
/// });
/// ```
///
/// A mutex has up to 16 condition numbers ([`Options::conditions`](crate::Options::conditions)). A condvar
/// has one of them while anybody waits on it. If more than that many are waited on at once, some share a
/// number: a notify of one of those wakes all who wait by that number, and those who were not meant wait
/// again.
///
/// # Panics
///
/// A wait panics if others wait on the condvar with another mutex, and if the mutex keeps its history and
/// that is full.
pub struct Condvar {
    queue: Mutex<Queue>,
    /// The last ticket that was notified, and with it all tickets before.
    notified: AtomicU64,
}

/// Who waits. The tickets are in the order of the library's queue, so its signals wake the threads whose
/// tickets were notified.
struct Queue {
    mutex: *const RawMutex,
    number: u8,
    /// Threads in a wait, notified or not. While there are any the condvar has the number.
    inside: usize,
    /// In ascending order.
    tickets: VecDeque<u64>,
    next: u64,
}

// SAFETY: the mutex is used only while a thread is inside, and that thread borrows it until it has left the
// queue.
unsafe impl Send for Queue {}

impl Queue {
    fn enter(&mut self, mutex: &RawMutex) -> u64 {
        assert!(
            self.inside == 0 || ptr::eq(self.mutex, mutex),
            "aqs: others wait on this condvar with another mutex"
        );
        if self.inside == 0 {
            self.mutex = mutex;
            self.number = mutex.take_number();
        }
        self.inside += 1;
        self.append()
    }

    fn append(&mut self) -> u64 {
        self.next += 1;
        self.tickets.push_back(self.next);
        self.next
    }

    fn remove(&mut self, ticket: u64) {
        if let Ok(place) = self.tickets.binary_search(&ticket) {
            self.tickets.remove(place);
        }
    }

    fn leave(&mut self, mutex: &RawMutex) {
        self.inside -= 1;
        if self.inside == 0 {
            mutex.give_number_back(self.number);
            self.mutex = ptr::null();
        }
    }
}

impl Condvar {
    /// A condvar that no mutex has yet.
    pub const fn new() -> Condvar {
        let tickets = VecDeque::new();
        let queue = Queue { mutex: ptr::null(), number: 0, inside: 0, tickets, next: 0 };
        Condvar { queue: Mutex::new(queue), notified: AtomicU64::new(0) }
    }

    // No panic leaves it half done.
    fn queue(&self) -> sync::MutexGuard<'_, Queue> {
        self.queue.lock().unwrap_or_else(PoisonError::into_inner)
    }

    /// Gives the mutex up, waits until notified, and has the mutex again.
    #[track_caller]
    pub fn wait<T: ?Sized>(&self, guard: &mut MutexGuard<'_, T>) {
        if let Err(error) = self.sleep(guard.raw(), None, false) {
            refused(error);
        }
    }

    /// The same, unless the thread is interrupted. It has the mutex again in each case.
    pub fn wait_interruptibly<T: ?Sized>(&self, guard: &mut MutexGuard<'_, T>) -> Result<(), Error> {
        self.sleep(guard.raw(), None, true)
    }

    /// The same, for at most this time: [`Error::TimedOut`] or [`Error::Interrupted`].
    pub fn wait_interruptibly_for<T: ?Sized>(
        &self,
        guard: &mut MutexGuard<'_, T>,
        time: Duration,
    ) -> Result<(), Error> {
        self.sleep(guard.raw(), after(time), true)
    }

    /// Waits for at most this time.
    #[track_caller]
    pub fn wait_for<T: ?Sized>(&self, guard: &mut MutexGuard<'_, T>, time: Duration) -> WaitTimeoutResult {
        self.wait_to(guard, after(time))
    }

    /// Waits until a moment at the latest.
    #[track_caller]
    pub fn wait_until<T: ?Sized>(&self, guard: &mut MutexGuard<'_, T>, moment: Instant) -> WaitTimeoutResult {
        self.wait_to(guard, Some(moment))
    }

    #[track_caller]
    fn wait_to<T: ?Sized>(&self, guard: &mut MutexGuard<'_, T>, until: Option<Instant>) -> WaitTimeoutResult {
        match self.sleep(guard.raw(), until, false) {
            Ok(()) => WaitTimeoutResult(false),
            Err(Error::TimedOut) => WaitTimeoutResult(true),
            Err(error) => refused(error),
        }
    }

    /// Waits while the value is so.
    #[track_caller]
    pub fn wait_while<T: ?Sized>(&self, guard: &mut MutexGuard<'_, T>, is_so: impl FnMut(&mut T) -> bool) {
        self.wait_while_until_internal(guard, is_so, None);
    }

    /// Waits while the value is so, for at most this time. If the time was up, the value wasn't looked at
    /// again.
    #[track_caller]
    pub fn wait_while_for<T: ?Sized>(
        &self,
        guard: &mut MutexGuard<'_, T>,
        is_so: impl FnMut(&mut T) -> bool,
        time: Duration,
    ) -> WaitTimeoutResult {
        self.wait_while_until_internal(guard, is_so, after(time))
    }

    /// Waits while the value is so, until a moment at the latest. If the time was up, the value wasn't looked
    /// at again.
    #[track_caller]
    pub fn wait_while_until<T: ?Sized>(
        &self,
        guard: &mut MutexGuard<'_, T>,
        is_so: impl FnMut(&mut T) -> bool,
        moment: Instant,
    ) -> WaitTimeoutResult {
        self.wait_while_until_internal(guard, is_so, Some(moment))
    }

    /// The same, with a moment or none. It has this name in parking_lot, whose tests call it.
    #[doc(hidden)]
    #[track_caller]
    pub fn wait_while_until_internal<T: ?Sized>(
        &self,
        guard: &mut MutexGuard<'_, T>,
        mut is_so: impl FnMut(&mut T) -> bool,
        until: Option<Instant>,
    ) -> WaitTimeoutResult {
        let mut ended = WaitTimeoutResult(false);
        while !ended.timed_out() && is_so(&mut **guard) {
            ended = self.wait_to(guard, until);
        }
        ended
    }

    /// Lets the thread that has waited longest go on, once it can have the mutex. Whether there was one.
    #[track_caller]
    pub fn notify_one(&self) -> bool {
        self.notify(1) > 0
    }

    /// Lets all who wait go on, one after another. Returns how many there were.
    #[track_caller]
    pub fn notify_all(&self) -> usize {
        self.notify(usize::MAX)
    }

    #[track_caller]
    fn notify(&self, most: usize) -> usize {
        let mut queue = self.queue();
        let count = most.min(queue.tickets.len());
        if count == 0 {
            return 0;
        }
        // SAFETY: a thread is inside, and it borrows the mutex until it has had this queue.
        let mutex = unsafe { &*queue.mutex };
        let wakes_all = count == queue.tickets.len() || mutex.is_shared(queue.number);
        let signals = if wakes_all { ALL } else { count as u32 };
        if mutex.is_mine() {
            mutex.signal(queue.number, signals);
            self.mark(&mut queue, count);
        } else {
            // The owner looks for its mark after it has made the signals that are due.
            self.mark(&mut queue, count);
            mutex.signal_from_outside(queue.number, signals);
        }
        count
    }

    fn mark(&self, queue: &mut Queue, count: usize) {
        if let Some(last) = queue.tickets.drain(..count).last() {
            self.notified.store(last, Ordering::SeqCst);
        }
    }

    /// Waits until this thread's ticket is notified. A thread that is woken in place of another waits again,
    /// after all others.
    fn sleep(&self, mutex: &RawMutex, until: Option<Instant>, interruptible: bool) -> Result<(), Error> {
        let mut pending = Pending::default();
        let (mut ticket, number) = {
            let mut queue = self.queue();
            (queue.enter(mutex), queue.number)
        };
        let ended = loop {
            let is_notified = || ticket <= self.notified.load(Ordering::SeqCst);
            let status = check(mutex.wait(number, until, interruptible, is_notified));
            let mut queue = self.queue();
            let was_notified = is_notified();
            queue.remove(ticket);
            if status == Err(Error::Interrupted) && (was_notified || !interruptible) {
                pending.note();
            }
            break match status {
                _ if was_notified => Ok(()),
                Err(Error::Interrupted) if interruptible => status,
                Ok(()) | Err(Error::TimedOut | Error::Interrupted) if is_up(until) => Err(Error::TimedOut),
                Ok(()) | Err(Error::TimedOut | Error::Interrupted) => {
                    ticket = queue.append();
                    continue;
                }
                _ => status,
            };
        };
        self.queue().leave(mutex);
        ended
    }
}

impl Default for Condvar {
    fn default() -> Condvar {
        Condvar::new()
    }
}

impl fmt::Debug for Condvar {
    fn fmt(&self, f: &mut fmt::Formatter<'_>) -> fmt::Result {
        f.debug_struct("Condvar").finish_non_exhaustive()
    }
}
