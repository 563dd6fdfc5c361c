//! The lock below a mutex: who owns it, and its conditions.

use crate::error::{check, must, taken, Error};
use crate::object::{back_off, me, Kind, Lazy, Waits, NOBODY};
use crate::options::{Options, CONDITIONS};
use crate::sys::{self, Status};
use std::cell::Cell;
use std::sync::atomic::{AtomicBool, AtomicU32, Ordering};
use std::sync::{Mutex, PoisonError};
use std::time::Instant;

/// All who wait on a condition, in the place of a number of them.
pub(crate) const ALL: u32 = u32::MAX;

pub(crate) enum LockKind {}

// SAFETY: they are the functions of a lock.
unsafe impl Kind for LockKind {
    type Raw = sys::Lock;
    type Start = ();

    unsafe fn open(place: *mut *mut sys::Lock, _start: (), options: &sys::Options) -> Status {
        // SAFETY: the caller sees to it.
        unsafe { sys::aqs_lock_open(place, options) }
    }

    unsafe fn close(raw: *mut sys::Lock) {
        // SAFETY: the caller sees to it.
        unsafe { sys::aqs_lock_close(raw) }
    }

    unsafe fn object(raw: *mut sys::Lock) -> *mut sys::Object {
        // SAFETY: the caller sees to it.
        unsafe { sys::aqs_lock_object(raw) }
    }
}

/// The condition numbers of a lock: how many condvars use each, and how many signals are due.
#[derive(Default)]
struct Numbers {
    users: [usize; CONDITIONS as usize],
    due: [u32; CONDITIONS as usize],
}

pub(crate) struct RawMutex {
    pub(crate) lock: Lazy<LockKind>,
    /// Who owns it. Only that thread writes its own number, so a thread knows of itself.
    owner: AtomicU32,
    /// How often the owner has entered, or 0 if it has locked. Only the owner uses it.
    entered: Cell<u32>,
    conditions: u8,
    /// None until a condvar waits.
    numbers: Mutex<Option<Box<Numbers>>>,
    /// Whether a signal is due: the owner makes it when it gives the lock up.
    is_due: AtomicBool,
}

// SAFETY: what the owner alone uses is reached after it has the lock.
unsafe impl Sync for RawMutex {}

impl RawMutex {
    const fn new(lock: Lazy<LockKind>, conditions: u8) -> RawMutex {
        RawMutex {
            lock,
            owner: AtomicU32::new(NOBODY),
            entered: Cell::new(0),
            conditions,
            numbers: Mutex::new(None),
            is_due: AtomicBool::new(false),
        }
    }

    /// One that its first call opens.
    pub(crate) const fn unopened(options: Options) -> RawMutex {
        let options = options.with_conditions();
        RawMutex::new(Lazy::new((), options), options.0.conditions)
    }

    pub(crate) fn open(options: Options) -> Result<RawMutex, Error> {
        let options = options.with_conditions();
        Ok(RawMutex::new(Lazy::open((), options)?, options.0.conditions))
    }

    pub(crate) fn is_mine(&self) -> bool {
        self.owner.load(Ordering::Relaxed) == me()
    }

    pub(crate) fn holds(&self) -> u32 {
        // SAFETY: the lock is open.
        self.lock.opened().map_or(0, |lock| unsafe { sys::aqs_lock_holds(lock) })
    }

    #[track_caller]
    pub(crate) fn is_locked(&self) -> bool {
        let mut is_locked = false;
        // SAFETY: the lock is open, and the answer lives.
        must(unsafe { sys::aqs_lock_is_locked(self.lock.get(), &mut is_locked) });
        is_locked
    }

    pub(crate) fn entered(&self) -> &Cell<u32> {
        &self.entered
    }

    fn took(&self) {
        self.owner.store(me(), Ordering::Relaxed);
    }

    #[track_caller]
    pub(crate) fn lock(&self) {
        // SAFETY: the lock is open.
        must(unsafe { sys::aqs_lock_lock(self.lock.get()) });
        self.took();
    }

    #[track_caller]
    pub(crate) fn try_lock(&self) -> Status {
        // SAFETY: the lock is open.
        let status = unsafe { sys::aqs_lock_trylock(self.lock.get()) };
        if status == 0 {
            self.took();
        }
        status
    }

    #[track_caller]
    pub(crate) fn lock_until(&self, until: Option<Instant>, interruptible: bool) -> Status {
        let lock = self.lock.get();
        // SAFETY: the lock is open.
        let status = unsafe {
            let plain = || sys::aqs_lock_lock(lock);
            let interruptibly = || sys::aqs_lock_lock_interruptibly(lock);
            let timed = |time| sys::aqs_lock_timedlock(lock, time);
            Waits { plain, interruptibly, timed }.all(until, interruptible)
        };
        if status == 0 {
            self.took();
        }
        status
    }

    /// Gives one hold back. It never lacks memory or room.
    pub(crate) fn leave(&self) {
        // SAFETY: the lock is open, and the thread holds it.
        let _given = unsafe { sys::aqs_lock_unlock(self.lock.get()) };
    }

    /// Gives the last hold back, after the signals that are due.
    pub(crate) fn unlock(&self) {
        self.give_up();
        self.leave();
    }

    /// What the owner does before it gives the lock up. A thread that has a signal to make sees that there is
    /// no owner, or the owner sees the signal.
    fn give_up(&self) {
        self.owner.store(NOBODY, Ordering::SeqCst);
        if self.is_due.load(Ordering::SeqCst) {
            self.make_due();
        }
    }

    /// One wait on a condition. The thread owns the lock again. If a signal for it was due, it doesn't wait:
    /// nobody would make that again.
    pub(crate) fn wait(
        &self,
        number: u8,
        until: Option<Instant>,
        interruptible: bool,
        was_notified: impl Fn() -> bool,
    ) -> Status {
        let lock = self.lock.get();
        self.give_up();
        if was_notified() {
            self.took();
            return 0;
        }
        // SAFETY: the lock is open, and the thread owns it.
        let status = unsafe {
            let plain = || sys::aqs_lock_wait(lock, number);
            let interruptibly = || sys::aqs_lock_wait_interruptibly(lock, number);
            let timed = |time| sys::aqs_lock_timedwait(lock, number, time);
            Waits { plain, interruptibly, timed }.once(until, interruptible)
        };
        self.took();
        status
    }

    // No panic leaves it half done.
    fn with_numbers<R>(&self, call: impl FnOnce(&mut Numbers) -> R) -> R {
        call(self.numbers.lock().unwrap_or_else(PoisonError::into_inner).get_or_insert_default())
    }

    /// A number for a condvar, which shares it with others if all are taken.
    pub(crate) fn take_number(&self) -> u8 {
        self.with_numbers(|numbers| {
            let users = &mut numbers.users[..usize::from(self.conditions)];
            let least = (0..users.len()).min_by_key(|&it| users[it]).unwrap_or(0);
            users[least] += 1;
            least as u8
        })
    }

    pub(crate) fn give_number_back(&self, number: u8) {
        self.with_numbers(|numbers| numbers.users[usize::from(number)] -= 1);
    }

    pub(crate) fn is_shared(&self, number: u8) -> bool {
        self.with_numbers(|numbers| numbers.users[usize::from(number)] > 1)
    }

    /// Wakes the `count` that have waited longest on a condition, or all. The thread owns the lock.
    #[track_caller]
    pub(crate) fn signal(&self, number: u8, count: u32) {
        must(self.signals(number, count));
    }

    /// The same for a thread that doesn't own the lock: at once if it can have it, and else the owner does it
    /// when it gives the lock up. It doesn't wait for the owner.
    #[track_caller]
    pub(crate) fn signal_from_outside(&self, number: u8, count: u32) {
        self.note_due(number, count);
        let mut looks = 0;
        // Without an owner the lock is free, or on its way from one thread to the next.
        while self.owner.load(Ordering::SeqCst) == NOBODY {
            if taken(self.try_lock()) {
                self.unlock();
                return;
            }
            back_off(&mut looks);
        }
    }

    fn note_due(&self, number: u8, count: u32) {
        self.with_numbers(|numbers| {
            let due = &mut numbers.due[usize::from(number)];
            *due = due.saturating_add(count);
            self.is_due.store(true, Ordering::SeqCst);
        });
    }

    /// Makes the signals that are due. The thread owns the lock. What the library refuses stays due.
    #[cold]
    fn make_due(&self) {
        self.with_numbers(|numbers| {
            let mut is_due = false;
            for (number, due) in numbers.due.iter_mut().enumerate() {
                if *due > 0 && check(self.signals(number as u8, *due)).is_ok() {
                    *due = 0;
                }
                is_due |= *due > 0;
            }
            self.is_due.store(is_due, Ordering::SeqCst);
        });
    }

    fn signals(&self, number: u8, count: u32) -> Status {
        let lock = self.lock.get();
        if count == ALL {
            // SAFETY: the lock is open.
            return unsafe { sys::aqs_lock_signal_all(lock, number) };
        }
        for _ in 0..count {
            // SAFETY: the same.
            let status = unsafe { sys::aqs_lock_signal(lock, number) };
            if status != 0 {
                return status;
            }
        }
        0
    }
}
