//! What is lent to a subject, and what must have become of it.

use crate::generate::Chance;
use crate::refusal::Cause;
use std::fmt::Debug;

/// A dirty buffer with guards on both sides.
pub struct Lent<T> {
    cells: Vec<T>,
    dirt: T,
}

impl<T: Copy + PartialEq + Debug> Lent<T> {
    const GUARD: usize = 4;

    pub fn dirty(length: usize, dirt: T) -> Lent<T> {
        Lent {
            cells: vec![dirt; length + 2 * Self::GUARD],
            dirt,
        }
    }

    pub fn cells(&mut self) -> &mut [T] {
        let end = self.cells.len() - Self::GUARD;
        &mut self.cells[Self::GUARD..end]
    }

    /// Whether it holds the same as `expected` and the guards still hold
    /// the dirt.
    pub fn check(&mut self, name: &str, expected: &mut Lent<T>) -> Result<(), String> {
        let (expected, dirt) = (expected.cells(), self.dirt);
        if let Some(at) = (0..expected.len()).find(|&at| self.cells()[at] != expected[at]) {
            let (got, want) = (self.cells()[at], expected[at]);
            return Err(format!("{name}[{at}] is {got:?}, expected {want:?}"));
        }
        let end = self.cells.len() - Self::GUARD;
        let (before, after) = (&self.cells[..Self::GUARD], &self.cells[end..]);
        if before.iter().chain(after).any(|&cell| cell != dirt) {
            return Err(format!("written outside of {name}"));
        }
        Ok(())
    }
}

pub const DIRTY_BYTE: u8 = 0xA5;
pub const DIRTY_WORD: u32 = 0xDEAD_BEE5;
pub const DIRTY_COEFFICIENT: i32 = -0x1234_5678;
pub const DIRTY_NUMBER: u64 = 0xFEED_FACE_CAFE_F00D;

/// The answer slice as an exported call should leave it, and what the call
/// should return.
pub fn expected_answer(length: usize, numbers: &[u64]) -> (u64, Lent<u64>) {
    let mut answer = Lent::dirty(length, DIRTY_NUMBER);
    answer.cells().fill(0);
    if length < numbers.len() {
        return (Cause::Room as u64, answer);
    }
    answer.cells()[..numbers.len()].copy_from_slice(numbers);
    (numbers[0], answer)
}

pub fn check_returned(got: u64, expected: u64) -> Result<(), String> {
    if got == expected {
        Ok(())
    } else {
        Err(format!("returned {got}, expected {expected}"))
    }
}

pub fn check_input<T: PartialEq>(name: &str, now: &[T], before: &[T]) -> Result<(), String> {
    if now == before {
        Ok(())
    } else {
        Err(format!("{name} was written to"))
    }
}

/// An answer slice that is just long enough, longer, or at times too short.
pub fn answer_length(chance: &mut Chance, least: usize) -> usize {
    match chance.below(40) {
        0 => chance.below(least),
        1..=9 => least + chance.below(5),
        _ => least,
    }
}
