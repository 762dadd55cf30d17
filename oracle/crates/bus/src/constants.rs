//! The published constants, but AUTO_JOYPAD_BIT_CYCLES is the number given at fresh.
//! io.rs only ever takes 1 from it, so a value that knows this one subtraction takes its place.

pub use crate::published_constants::*;
use std::cell::Cell;
use std::ops::Sub;

pub const AUTO_JOYPAD_BIT_CYCLES: BitCycles = BitCycles;

thread_local! {
    static OF_THE_RUN: Cell<u32> = const { Cell::new(1) };
}

pub struct BitCycles;

impl BitCycles {
    pub fn set(cycles: u32) {
        OF_THE_RUN.set(cycles);
    }
}

impl Sub<u32> for BitCycles {
    type Output = u32;

    fn sub(self, less: u32) -> u32 {
        OF_THE_RUN.get() - less
    }
}
