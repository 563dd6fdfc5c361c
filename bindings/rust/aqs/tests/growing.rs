//! A history that three threads lengthen while it is read. The allocator of this process waits until they have
//! lengthened it by half, so that happens between two tries. They make no more pairs, or it might be long. At
//! last they lengthen it to more than three times what it was.

use aqs::{Mutex, Options};
use std::alloc::{GlobalAlloc, Layout, System};
use std::cell::Cell;
use std::sync::atomic::{AtomicBool, AtomicU32, Ordering::SeqCst};
use std::thread;
use std::time::{Duration, Instant};

const READS: usize = 20;
const LEAST: Duration = Duration::from_millis(500);
const MOST_TRIES: u32 = 6;
/// Less than a history with a base has, and more than what else is allocated by a thread that reads.
const ROOM: usize = 4096;
/// The lines of so many pairs are longer than half a base.
const OF_A_BASE: u32 = 300;

static PAIRS: AtomicU32 = AtomicU32::new(0);
static TRIMMED: AtomicU32 = AtomicU32::new(0);
static MOST_PAIRS: AtomicU32 = AtomicU32::new(OF_A_BASE);
static QUARTERS: AtomicU32 = AtomicU32::new(2);
static IS_OVER: AtomicBool = AtomicBool::new(false);

thread_local! {
    static READS_NOW: Cell<bool> = const { Cell::new(false) };
    static TRIES: Cell<u32> = const { Cell::new(0) };
}

/// Waits until the history has grown by so many quarters, unless there were enough tries.
fn grow() {
    TRIES.set(TRIES.get() + 1);
    if TRIES.get() == MOST_TRIES {
        IS_OVER.store(true, SeqCst);
    }
    let found = PAIRS.load(SeqCst);
    let awaited = found + (found - TRIMMED.load(SeqCst)) / 4 * QUARTERS.load(SeqCst) + OF_A_BASE;
    MOST_PAIRS.store(awaited, SeqCst);
    while PAIRS.load(SeqCst) < awaited && !IS_OVER.load(SeqCst) {
        thread::yield_now();
    }
}

struct Growing;

// SAFETY: the system's allocator does it.
unsafe impl GlobalAlloc for Growing {
    unsafe fn alloc(&self, layout: Layout) -> *mut u8 {
        if READS_NOW.get() && layout.size() > ROOM {
            grow();
        }
        System.alloc(layout)
    }

    unsafe fn dealloc(&self, at: *mut u8, layout: Layout) {
        System.dealloc(at, layout)
    }
}

#[global_allocator]
static ALLOCATOR: Growing = Growing;

/// How many entries it has. None: its last line says something else.
fn entries_of(text: &str) -> Option<usize> {
    let number_after = |word| {
        let line = text.lines().find(|line| line.starts_with(word))?;
        line.split(' ').nth(1)?.parse::<usize>().ok()
    };
    let entries = text.lines().filter(|line| line.starts_with(|it: char| it.is_ascii_digit())).count();
    let is_at_end = text.lines().last()?.starts_with("end ") && text.ends_with('\n');
    let is_whole = text.starts_with("aqs-history ") && is_at_end;
    let end = number_after("base ").unwrap_or(0) + entries;
    (is_whole && number_after("end ") == Some(end)).then_some(entries)
}

/// Ends the threads that lock, also if the test fails.
struct Over;

impl Drop for Over {
    fn drop(&mut self) {
        IS_OVER.store(true, SeqCst);
    }
}

#[test]
fn a_history_that_grows_is_read() {
    let mutex = Mutex::with((), Options::new().keep_history()).unwrap();
    let lock_often = || {
        while !IS_OVER.load(SeqCst) {
            if PAIRS.load(SeqCst) < MOST_PAIRS.load(SeqCst) {
                drop(mutex.lock());
                PAIRS.fetch_add(1, SeqCst);
            } else {
                thread::yield_now();
            }
        }
    };
    let read = || {
        TRIMMED.store(PAIRS.load(SeqCst), SeqCst);
        mutex.trim().unwrap();
        TRIES.set(0);
        READS_NOW.set(true);
        let text = mutex.history();
        READS_NOW.set(false);
        text.ok().and_then(|it| entries_of(&it))
    };
    let (mut found, mut most) = (Vec::new(), 0);
    thread::scope(|scope| {
        let _over = Over;
        for _ in 0..3 {
            scope.spawn(lock_often);
        }
        let begin = Instant::now();
        while (found.len() < READS || begin.elapsed() < LEAST) && !IS_OVER.load(SeqCst) {
            found.push(read());
            most = most.max(TRIES.get());
        }
        if most < MOST_TRIES {
            // Twice the room is too little then, until it grows no more.
            QUARTERS.store(10, SeqCst);
            found.push(read());
        }
    });
    assert!(most < MOST_TRIES, "a history is read in {most} tries");
    assert!(found.iter().all(Option::is_some) && most > 1);
    assert!(found.iter().flatten().sum::<usize>() > 0);
    assert_eq!(TRIES.get(), MOST_TRIES);
}
