//! The body call, without a table and with one: the four numbers, and every byte of its three buffers.

use library::Answer;
use reference::context::PlPgSqlContext;
use reference::preprocessor::PlPgSqlPreprocessor;
use reference::Error;
use sizes::BUFFER_SIZE;

use crate::lent::Lent;
use crate::levels;
use crate::report::Row;
use crate::subject::{Outcome, Subject};

/// The call without a table, and with a table that equals none.
pub const ROWS: [&str; 2] = ["transform_body", "by levels, as without a table"];

pub fn transform_body(subject: &mut Subject, rows: &mut [Row]) {
    let [without, with] = rows else { unreachable!("a row for each name") };
    let expected = expected(subject.text);
    let lengths = lengths(subject);
    let outcome = made(subject.bytes(), None, &lengths, &expected);
    subject.judge(without, format_args!(""), outcome);
    let table = texts::levels::default_table(subject.random);
    let outcome = made(subject.bytes(), Some(&table), &lengths, &expected);
    subject.judge(with, format_args!("{}", levels::shown(&table)), outcome);
}

/// Lengths that are enough.
pub fn lengths(subject: &mut Subject) -> [usize; 3] {
    [0; 3].map(|_| BUFFER_SIZE + subject.random.below(4))
}

/// What the call must answer, and what stands in front of its output.
pub type Expected = (Answer, Vec<u8>);

/// The outcomes of a text that gives this number under this table, with new buffers of each of these
/// lengths. The reference is not asked where a pass gives 6.
pub fn limited(
    text: &str,
    table: Option<&[u8]>,
    lengths: &[Vec<usize>],
    number: u32,
) -> Vec<Outcome> {
    let expected = match number {
        6 => ([6, 0, 0, 0], Vec::new()),
        _ => table.map_or_else(|| expected(text), |table| levels::expected(text, table)),
    };
    lengths.iter().map(|lengths| made(text.as_bytes(), table, lengths, &expected)).collect()
}

/// What the call makes of a text that its checks let pass, with new buffers of these lengths.
pub fn made(text: &[u8], table: Option<&[u8]>, lengths: &[usize], expected: &Expected) -> Outcome {
    let [mut output, mut work, mut spare] = [0, 1, 2].map(|index| Lent::new(lengths[index]));
    let (o, w, s) = (output.lend(), work.lend(), spare.lend());
    let got = match table {
        Some(table) => library::transform_body_by_levels(text, table, o, w, s),
        None => library::transform_body(text, o, w, s),
    };
    let buffers =
        output.holds_filled(&expected.1) && work.holds_filled(&[]) && spare.holds_filled(&[]);
    Outcome { expected: expected.0, got, buffers }
}

/// The numbers of the reference's answer, and what stands in front of the output.
pub fn expected(text: &str) -> Expected {
    numbered(PlPgSqlPreprocessor::transform_body(text, &PlPgSqlContext::new()))
}

/// The same for what the reference gave. A result that is too long for one buffer is refused.
pub fn numbered(given: Result<String, Error>) -> Expected {
    let (number, place, front) = match given {
        Ok(output) if output.len() > BUFFER_SIZE => (6, 0, String::new()),
        Ok(output) => (0, 0, output),
        Err(Error::QualifiedAssignment { qualifier, name }) => {
            (4, qualifier.len(), format!("{qualifier}.{name}"))
        }
        Err(Error::UnsupportedRaiseUsing { clause }) => (5, 0, clause),
        Err(other) => panic!("an error that no rewriting gives: {other:?}"),
    };
    ([number, place as u32, front.len() as u32, 0], front.into_bytes())
}
