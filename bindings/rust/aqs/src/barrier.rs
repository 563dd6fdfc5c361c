//! Where threads meet.

use crate::condvar::Condvar;
use crate::error::Error;
use crate::mutex::Mutex;
use crate::object::calls_of_each_object;
use crate::options::Options;
use std::fmt;

/// Whether the thread was the last of those that met.
#[derive(Clone, Copy, Debug, PartialEq, Eq)]
pub struct BarrierWaitResult(bool);

impl BarrierWaitResult {
    /// Whether it was the last one. One thread of each meeting is.
    pub fn is_leader(&self) -> bool {
        self.0
    }
}

struct Meeting {
    came: usize,
    /// How many meetings there were before.
    number: u64,
}

/// Threads that meet, as often as they like: `std::sync::Barrier`.
///
/// ```
/// use aqs::Barrier;
///
/// let barrier = Barrier::new(2);
/// std::thread::scope(|scope| {
///     scope.spawn(|| barrier.wait());
///     barrier.wait();
/// });
/// ```
///
/// # Panics
///
/// What panics at a [`Mutex`](crate::Mutex). A thread for which that is so has not come.
pub struct Barrier {
    parties: usize,
    meeting: Mutex<Meeting>,
    all_came: Condvar,
}

const NOBODY_CAME: Meeting = Meeting { came: 0, number: 0 };

impl Barrier {
    /// A barrier for so many threads. Its first call opens it.
    pub const fn new(parties: usize) -> Barrier {
        Barrier { parties, meeting: Mutex::new(NOBODY_CAME), all_came: Condvar::new() }
    }

    /// A barrier with these options, which is open: [`Error::OutOfRange`] or [`Error::OutOfMemory`].
    pub fn with(parties: usize, options: Options) -> Result<Barrier, Error> {
        Ok(Barrier { parties, meeting: Mutex::with(NOBODY_CAME, options)?, all_came: Condvar::new() })
    }

    /// Waits until as many threads have come as it is for.
    #[track_caller]
    pub fn wait(&self) -> BarrierWaitResult {
        let mut meeting = self.meeting.lock();
        let number = meeting.number;
        if meeting.came + 1 >= self.parties {
            self.all_came.notify_all();
            *meeting = Meeting { came: 0, number: number + 1 };
            return BarrierWaitResult(true);
        }
        meeting.came += 1;
        self.all_came.wait_while(&mut meeting, |meeting| meeting.number == number);
        BarrierWaitResult(false)
    }

    calls_of_each_object! { meeting }
}

impl fmt::Debug for Barrier {
    fn fmt(&self, f: &mut fmt::Formatter<'_>) -> fmt::Result {
        f.debug_struct("Barrier").field("parties", &self.parties).finish_non_exhaustive()
    }
}
