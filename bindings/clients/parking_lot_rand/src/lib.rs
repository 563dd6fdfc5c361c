//! Stands in for the crate `rand`, of which parking_lot's tests use these names.

use std::cell::Cell;
use std::collections::hash_map::RandomState;
use std::hash::BuildHasher;

/// What makes random numbers.
pub trait Rng {
    /// A random number.
    fn number(&mut self) -> u64;

    /// True with this probability.
    fn gen_bool(&mut self, probability: f64) -> bool {
        ((self.number() >> 11) as f64) < probability * (1u64 << 53) as f64
    }
}

/// The source of a thread: xorshift.
pub struct ThreadRng(Cell<u64>);

impl Rng for ThreadRng {
    fn number(&mut self) -> u64 {
        let mut state = self.0.get();
        state ^= state << 13;
        state ^= state >> 7;
        state ^= state << 17;
        self.0.set(state);
        state
    }
}

/// A source with another seed each time.
pub fn thread_rng() -> ThreadRng {
    ThreadRng(Cell::new(RandomState::new().hash_one(0) | 1))
}
