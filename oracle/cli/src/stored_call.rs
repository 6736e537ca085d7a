//! The two rewriting calls in the list of the program `replay_calls`: a text, its answer, and what
//! is lent, without a table of levels or under one.

use std::io::{self, Write};

use reference::constants::Variable;
use reference::records::Records;
use sizes::{BUFFER_SIZE, RECORD_NUMBERS};

use crate::runs::Runs;

/// The most bytes of a call's text.
pub const LIMIT: usize = 16_384;

/// What a body call is lent at least: output and the two work buffers.
pub const BODY_LEAST: [usize; 3] = [BUFFER_SIZE; 3];

/// What a function call is lent at least: the declaration text's bytes and the record numbers too.
pub const FUNCTION_LEAST: [usize; 5] =
    [BUFFER_SIZE, BUFFER_SIZE, BUFFER_SIZE, BUFFER_SIZE, RECORD_NUMBERS];

/// Longer than the buffers must be.
pub const BODY_LONGER: [usize; 3] = [70_000; 3];
pub const FUNCTION_LONGER: [usize; 5] = [70_000, 70_000, 70_000, 70_000, 6_000];

pub struct Body {
    pub text: Runs,
    pub answer: Answer,
}

/// The number and the place, and what stands in front of the output.
pub struct Answer {
    pub number: usize,
    pub place: usize,
    pub output: Runs,
}

impl Answer {
    pub fn accepted(output: &str) -> Self {
        Self { number: 0, place: 0, output: Runs::one(output.as_bytes()) }
    }

    pub fn qualified(qualifier: &str, name: &str) -> Self {
        let output = Runs::one(format!("{qualifier}.{name}").as_bytes());
        Self { number: 4, place: qualifier.len(), output }
    }

    pub fn clause(clause: &str) -> Self {
        Self { number: 5, place: 0, output: Runs::one(clause.as_bytes()) }
    }

    /// A refusal that leaves nothing in the output.
    pub fn refused(number: usize, place: usize) -> Self {
        Self { number, place, output: Runs::one(b"") }
    }

    /// The lines of a call with this answer: what is lent, and the four numbers.
    fn write(
        &self,
        kind: char,
        lent: &[usize],
        count: usize,
        out: &mut impl Write,
    ) -> io::Result<()> {
        let Self { number, place, output } = self;
        writeln!(out, "l {}", spaced(lent))?;
        writeln!(out, "{kind} {number} {place} {} {count}", output.len())
    }
}

/// A text with what a call on it must give, to be written to the list.
pub trait Stored {
    /// A length for each lent buffer.
    type Lent: Copy;

    /// The kind of a line that makes the call.
    const KIND: char;

    /// The lines of the text and of what it must give.
    fn write_text(&self, out: &mut impl Write) -> io::Result<()>;

    /// The lines of a call of this kind on the text written last.
    fn write_kind(&self, kind: char, lent: Self::Lent, out: &mut impl Write) -> io::Result<()>;

    /// The lines of a call on the text written last.
    fn write_call(&self, lent: Self::Lent, out: &mut impl Write) -> io::Result<()> {
        self.write_kind(Self::KIND, lent, out)
    }

    /// The text, and a call with each of the lent lengths.
    fn write_calls(&self, lents: &[Self::Lent], out: &mut impl Write) -> io::Result<()> {
        self.write_text(out)?;
        lents.iter().try_for_each(|lent| self.write_call(*lent, out))
    }
}

/// A call of each text with each of the lent lengths.
pub fn write_all<S: Stored>(
    all: impl IntoIterator<Item = S>,
    lents: &[S::Lent],
    out: &mut impl Write,
) -> io::Result<()> {
    all.into_iter().try_for_each(|one| one.write_calls(lents, out))
}

impl Body {
    pub fn new(text: &str, answer: Answer) -> Self {
        Self { text: Runs::one(text.as_bytes()), answer }
    }
}

impl Stored for Body {
    type Lent = [usize; 3];

    const KIND: char = 'b';

    fn write_text(&self, out: &mut impl Write) -> io::Result<()> {
        writeln!(out, "t {}", self.text)?;
        writeln!(out, "e {}", self.answer.output)
    }

    fn write_kind(&self, kind: char, lent: [usize; 3], out: &mut impl Write) -> io::Result<()> {
        self.answer.write(kind, &lent, 0, out)
    }
}

/// A function, with the records that it must give; after a refusal there are none.
pub struct Function {
    pub text: Runs,
    pub answer: Answer,
    pub records: Records,
}

impl Function {
    /// A function that declares these, in order of first declaration, or is refused.
    pub fn new(text: Runs, answer: Answer, declared: &[Variable]) -> Self {
        let order: Vec<String> = declared.iter().map(|one| one.name.clone()).collect();
        let records = match answer.number {
            0 => Records::new(&order, declared),
            _ => Records::default(),
        };
        Self { text, answer, records }
    }
}

impl Stored for Function {
    type Lent = [usize; 5];

    const KIND: char = 'f';

    /// Without records there are zeros alone.
    fn write_text(&self, out: &mut impl Write) -> io::Result<()> {
        writeln!(out, "t {}", self.text)?;
        writeln!(out, "e {}", self.answer.output)?;
        if self.records.count() > 0 {
            writeln!(out, "d {}", Runs::one(&self.records.text))?;
            writeln!(out, "n {}", spaced(&self.records.numbers))?;
        }
        Ok(())
    }

    fn write_kind(&self, kind: char, lent: [usize; 5], out: &mut impl Write) -> io::Result<()> {
        self.answer.write(kind, &lent, self.records.count(), out)
    }
}

/// A body is a function that declares nothing, if it holds no BEGIN with text before it.
impl From<Body> for Function {
    fn from(Body { text, answer }: Body) -> Self {
        Self::new(text, answer, &[])
    }
}

/// A text under a table of levels. Its calls have the same kind as without one, in capitals.
pub struct ByLevels<S> {
    pub table: Runs,
    pub stored: S,
}

impl<S: Stored> Stored for ByLevels<S> {
    type Lent = S::Lent;

    const KIND: char = S::KIND.to_ascii_uppercase();

    fn write_text(&self, out: &mut impl Write) -> io::Result<()> {
        writeln!(out, "g {}", self.table)?;
        self.stored.write_text(out)
    }

    fn write_kind(&self, kind: char, lent: S::Lent, out: &mut impl Write) -> io::Result<()> {
        self.stored.write_kind(kind, lent, out)
    }
}

impl From<ByLevels<Body>> for ByLevels<Function> {
    fn from(ByLevels { table, stored }: ByLevels<Body>) -> Self {
        Self { table, stored: Function::from(stored) }
    }
}

/// Numbers with single spaces between them.
pub fn spaced(numbers: &[impl ToString]) -> String {
    numbers.iter().map(ToString::to_string).collect::<Vec<_>>().join(" ")
}
