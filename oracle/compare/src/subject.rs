//! A text under comparison, with the map that the reference gives it.

use std::fmt::Arguments;

use library::Answer;
use reference::scanner::{Region, Scanner};
use texts::random::Random;

use crate::lent::{Lent, Mark};
use crate::report::Row;

pub struct Subject<'a> {
    pub text: &'a str,
    pub map: Vec<u8>,
    pub random: &'a mut Random,
}

impl<'a> Subject<'a> {
    pub fn new(text: &'a str, random: &'a mut Random) -> Self {
        let map = Scanner::new(text).regions();
        let map = map.iter().map(|region| u8::from(*region == Region::Quoted)).collect();
        Self { text, map, random }
    }

    pub fn bytes(&self) -> &'a [u8] {
        self.text.as_bytes()
    }

    /// A buffer of the least length that is enough, or a little longer.
    pub fn lend<T: Mark>(&mut self, enough: usize) -> Lent<T> {
        Lent::new(enough + self.random.below(4))
    }

    pub fn lend_map(&mut self) -> Lent<u8> {
        self.lend(self.text.len())
    }

    /// Counts one answer: the numbers must be the expected ones, and the buffers right.
    pub fn judge(&self, row: &mut Row, asked: Arguments, outcome: Outcome) {
        let agrees = outcome.agrees();
        let Outcome { expected, got, buffers } = outcome;
        row.note(agrees, || {
            let held = if buffers { "right" } else { "wrong" };
            format!("{:?} {asked}: {expected:?} expected, {got:?} got, buffers {held}", self.text)
        });
    }
}

/// What a call should answer, what it answered, and whether all its buffers hold what they should.
pub struct Outcome {
    pub expected: Answer,
    pub got: Answer,
    pub buffers: bool,
}

impl Outcome {
    pub fn agrees(&self) -> bool {
        self.expected == self.got && self.buffers
    }
}
