//! Long texts in a short form, by run lengths.

use std::fmt;

use crate::hex;

/// The most bytes of a run's text.
pub const LONGEST: usize = 4_096;

/// Some bytes, with how often they stand.
pub type Run<'a> = (usize, &'a [u8]);

#[derive(Clone)]
pub struct Runs(Vec<(usize, Vec<u8>)>);

impl Runs {
    pub fn new(runs: &[Run]) -> Self {
        Self(runs.iter().map(|(count, bytes)| (*count, bytes.to_vec())).collect())
    }

    /// A text that stands once, in as many runs as it takes.
    pub fn one(text: &[u8]) -> Self {
        match text {
            b"" => Self::new(&[(1, text)]),
            _ => Self(text.chunks(LONGEST).map(|chunk| (1, chunk.to_vec())).collect()),
        }
    }

    /// Letters `a`.
    pub fn letters(length: usize) -> Self {
        Self::new(&[(length, b"a")])
    }

    /// Letters `a` with another byte at a place.
    pub fn with_byte(length: usize, place: usize, byte: u8) -> Self {
        Self::new(&[(place, b"a"), (1, &[byte]), (length - place - 1, b"a")])
    }

    /// The same behind other runs.
    pub fn after(self, front: &[Run]) -> Self {
        Self(Self::new(front).0.into_iter().chain(self.0).collect())
    }

    pub fn len(&self) -> usize {
        self.0.iter().map(|(count, bytes)| count * bytes.len()).sum()
    }

    /// The whole text.
    pub fn bytes(&self) -> Vec<u8> {
        self.0.iter().flat_map(|(count, bytes)| bytes.repeat(*count)).collect()
    }
}

/// Each number and its bytes in hex, separated by spaces.
impl fmt::Display for Runs {
    fn fmt(&self, out: &mut fmt::Formatter<'_>) -> fmt::Result {
        for (index, (count, bytes)) in self.0.iter().enumerate() {
            let space = if index == 0 { "" } else { " " };
            write!(out, "{space}{count} {}", hex::encode(bytes))?;
        }
        Ok(())
    }
}
