//! The same loops through the C exports: each call is made on the words of the Rust's state.

use crate::c_words::memory;
use crate::exports::Memory;
use crate::{Took, state, timed, told};
use oracle::ble::central::Central;
use std::hint::black_box;

/// Times a loop of calls on each of so many states, what it sums being as the Rust's loop has it.
pub fn states(states: u32, state: impl Fn() -> Central, mut f: impl FnMut(&mut Memory) -> u64) -> Took {
    let mut all: Vec<Memory> = (0..states).map(|_| black_box(memory(&state()))).collect();
    let mut sums = Vec::new();
    let (_, ns) = timed(|| {
        sums.extend(all.iter_mut().map(&mut f));
        0
    });
    let left = |m| state::central(m).expect("a state that can be read");
    let told = all.iter().zip(sums).fold(0u64, |sum, (m, n)| told(n, &left(m)).wrapping_add(sum));
    (told, ns)
}
