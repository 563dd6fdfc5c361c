//! Nanoseconds of a pair, lock and unlock, of one thread, beside those of std in the same run:
//! cargo run --release --example pairs

use std::hint::black_box;
use std::time::Instant;

const PAIRS: u32 = 10_000;
const ROUNDS: u32 = 300;

/// The best of the rounds.
fn pair(mut call: impl FnMut()) -> f64 {
    let round = |_| {
        let begin = Instant::now();
        (0..PAIRS).for_each(|_| call());
        begin.elapsed().as_nanos() as f64 / f64::from(PAIRS)
    };
    (0..ROUNDS).map(round).fold(f64::INFINITY, f64::min)
}

fn main() {
    let (ours, theirs) = (aqs::Mutex::new(0), std::sync::Mutex::new(0));
    println!("Mutex::lock    aqs {:.0} ns, std {:.0} ns", pair(|| *black_box(ours.lock()) += 1), {
        pair(|| *black_box(theirs.lock().unwrap()) += 1)
    });
    let (ours, theirs) = (aqs::RwLock::new(0), std::sync::RwLock::new(0));
    println!("RwLock::read   aqs {:.0} ns, std {:.0} ns", pair(|| _ = *black_box(ours.read())), {
        pair(|| _ = *black_box(theirs.read().unwrap()))
    });
    println!("RwLock::write  aqs {:.0} ns, std {:.0} ns", pair(|| *black_box(ours.write()) += 1), {
        pair(|| *black_box(theirs.write().unwrap()) += 1)
    });
}
