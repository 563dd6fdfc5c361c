//! Threads and their interrupts.

use crate::error::{check, refused, Error};
use crate::object::me;
use crate::sys;

/// A thread that has called an object, by its number. A number is used again after its thread has ended.
///
/// ```
/// use aqs::{Error, Semaphore, Thread};
///
/// let permits = Semaphore::new(0);
/// Thread::current().interrupt().unwrap();
/// assert!(!permits.try_acquire(1));
/// assert_eq!(permits.acquire_interruptibly(1), Err(Error::Interrupted));
/// ```
#[derive(Clone, Copy, Debug, PartialEq, Eq, Hash)]
pub struct Thread(u32);

impl Thread {
    /// The calling thread.
    ///
    /// # Panics
    ///
    /// The library got no memory.
    #[track_caller]
    pub fn current() -> Thread {
        match me() {
            u32::MAX => refused(Error::OutOfMemory),
            number => Thread(number),
        }
    }

    /// Interrupts it: its next interruptible call, or the one in which it waits, returns
    /// [`Error::Interrupted`]. Other calls leave the interrupt pending.
    pub fn interrupt(self) -> Result<(), Error> {
        // SAFETY: any number has an answer.
        check(unsafe { sys::aqs_thread_interrupt(self.0) })
    }
}

/// Whether the calling thread has a pending interrupt. It is cleared.
pub fn interrupted() -> bool {
    // SAFETY: it takes nothing.
    unsafe { sys::aqs_thread_interrupted() }
}
