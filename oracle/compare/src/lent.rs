//! A buffer that is lent to the library: marked all over, with cells behind it that are not lent.

use sizes::{BUFFER_SIZE, RECORD_NUMBERS};

/// The cells behind the lent ones.
const BEHIND: usize = 8;

/// A value that no result holds: bytes are ASCII or 0 and 1, numbers are below the text's limit.
pub trait Mark: Copy + PartialEq + 'static {
    const MARK: Self;
    /// As many zeros as there are cells that a call fills.
    const ZEROS: &'static [Self];
}

impl Mark for u8 {
    const MARK: u8 = 0xa5;
    const ZEROS: &'static [u8] = &[0; BUFFER_SIZE];
}

impl Mark for u32 {
    const MARK: u32 = 0xa5a5_a5a5;
    const ZEROS: &'static [u32] = &[0; RECORD_NUMBERS];
}

pub struct Lent<T> {
    cells: Vec<T>,
    length: usize,
}

impl<T: Mark> Lent<T> {
    pub fn new(length: usize) -> Self {
        Self { cells: vec![T::MARK; length + BEHIND], length }
    }

    pub fn lend(&mut self) -> &mut [T] {
        &mut self.cells[..self.length]
    }

    /// Whether it holds the result at its front, and behind that what it held before.
    pub fn holds(&self, result: &[T]) -> bool {
        self.holds_parts([result, &[]])
    }

    /// The same with zeros behind the result, up to the cells that a call fills.
    pub fn holds_filled(&self, result: &[T]) -> bool {
        self.holds_parts([result, &T::ZEROS[result.len()..]])
    }

    pub fn is_untouched(&self) -> bool {
        self.holds(&[])
    }

    fn holds_parts(&self, [front, back]: [&[T]; 2]) -> bool {
        let behind = self.cells.strip_prefix(front).and_then(|cells| cells.strip_prefix(back));
        behind.is_some_and(|cells| cells.iter().all(|cell| *cell == T::MARK))
    }
}
