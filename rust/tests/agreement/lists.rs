//! Lists that are lent, with a fence on either side that no call may touch, and what they hold before a call.

use std::fmt::Debug;

const FENCE: usize = 16;

/// A list that is lent, between two fences.
pub struct Lent<T> {
    entries: Vec<T>,
    before: Vec<T>,
}

impl<T: Clone + PartialEq + Debug> Lent<T> {
    /// A list of so many numbers, at each index what `before` makes of it; the fences go on with that at either end.
    pub fn new(length: usize, before: impl Fn(usize) -> T) -> Self {
        let entries: Vec<T> = (0..length + 2 * FENCE).map(|place| before(place.wrapping_sub(FENCE))).collect();
        Self { before: entries.clone(), entries }
    }

    /// What a call is lent.
    pub fn lend(&mut self) -> &mut [T] {
        let end = self.entries.len() - FENCE;
        &mut self.entries[FENCE..end]
    }

    /// What a call left.
    pub fn list(&self) -> &[T] {
        &self.entries[FENCE..self.entries.len() - FENCE]
    }

    /// The fences are as they were, and the list too from an index on.
    pub fn untouched_from(&self, index: usize) -> bool {
        self.entries[..FENCE] == self.before[..FENCE] && self.entries[FENCE + index..] == self.before[FENCE + index..]
    }
}

/// An output as the reference has it before a call.
pub fn output(length: usize) -> Lent<u32> {
    Lent::new(length, |index| u32::MAX.wrapping_sub(index as u32))
}

/// An output of whole numbers with a sign, likewise.
pub fn wide_output(length: usize) -> Lent<i64> {
    Lent::new(length, |index| i64::MAX.wrapping_sub(index as i64))
}

/// A working list, likewise.
pub fn work(length: usize) -> Lent<u32> {
    Lent::new(length, |index| 4_000_000_000 + (index % 1000) as u32)
}

/// An output for a text.
pub fn bytes(length: usize) -> Lent<u8> {
    Lent::new(length, |index| 255 - (index % 251) as u8)
}

/// What the reference says of a working list: how many of its numbers are zero, and their sum modulo 4294967291.
pub fn tally(work: &[u32]) -> [u64; 2] {
    let zeros = work.iter().filter(|&&number| number == 0).count();
    let sum: u64 = work.iter().map(|&number| u64::from(number)).sum();
    [zeros as u64, sum % 4_294_967_291]
}
