//! What is dropped gives its memory back. A process of its own measures that.

use aqs::{Latch, Mutex, RwLock, Semaphore};
use std::fs;

/// The pages of memory that this process has.
fn pages() -> u64 {
    let text = fs::read_to_string("/proc/self/statm").unwrap();
    text.split(' ').nth(1).unwrap().parse().unwrap()
}

#[test]
fn each_object_gives_its_memory_back() {
    let uses: [fn(); 4] = [
        || *Mutex::new(0).lock() += 1,
        || *RwLock::new(0).write() += 1,
        || Semaphore::new(0).release(1),
        || Latch::new(1).count_down(),
    ];
    for once in uses {
        once();
        let before = pages();
        for _ in 0..200 {
            once();
        }
        // An open object has more than ten pages.
        assert!(pages() < before + 500);
    }
}
