//! The rewriting calls under a table of levels: any table, and tables that are refused.
//!
//! What a table says, and which ones are refused, is Note 10's, as the reference's module reads it. What
//! a body becomes under it is made by the published passes.

use library::Answer;
use reference::levels::{Refusal, Table};
use reference::raises::{self, Counts, Raised};
use reference::reading::body_of;

use crate::bodies::{self, numbered};
use crate::functions::{self, Made};
use crate::report::Row;
use crate::subject::Subject;

/// Any table, with how many RAISE statements of EXCEPTION and of the other levels are rewritten, and how
/// many bodies do not become what they become without a table; tables that are refused, with how many of
/// each number.
pub const ROWS: [&str; 8] = [
    "by levels, any table", "  EXCEPTION rewritten", "  other levels rewritten",
    "  unlike without a table", "by levels, a refused table", "  11, a malformed line",
    "  12, a level given twice", "  13, a level missing",
];

pub fn bodies(subject: &mut Subject, rows: &mut [Row]) {
    let [any, counts @ .., refused, _, _, _] = rows else { unreachable!("a row for each name") };
    let (text, lengths) = (subject.bytes(), bodies::lengths(subject));
    let given = any_table(subject.text, subject, counts);
    let outcome = bodies::made(text, Some(&given), &lengths, &expected(subject.text, &given));
    subject.judge(any, format_args!("{}", shown(&given)), outcome);
    let (given, refusal) = refused_table(subject);
    let outcome = bodies::made(text, Some(&given), &lengths, &(answer(refusal), Vec::new()));
    subject.judge(refused, format_args!("{}", shown(&given)), outcome);
    count_number(refusal, &mut rows[5..]);
}

pub fn functions(subject: &mut Subject, rows: &mut [Row]) {
    let [any, counts @ .., refused, _, _, _] = rows else { unreachable!("a row for each name") };
    let (text, lengths) = (subject.bytes(), functions::lengths(subject));
    let given = any_table(body_of(subject.text), subject, counts);
    // A function that cannot be respelled is left out.
    if let Some(expected) = functions::Expected::under(subject.text, &given) {
        let outcome = Made::new(text, Some(&given), &lengths).outcome(&expected);
        subject.judge(any, format_args!("{}", shown(&given)), outcome);
    }
    let (given, refusal) = refused_table(subject);
    let expected = functions::Expected::refused(answer(refusal), Vec::new());
    let outcome = Made::new(text, Some(&given), &lengths).outcome(&expected);
    subject.judge(refused, format_args!("{}", shown(&given)), outcome);
    count_number(refusal, &mut rows[5..]);
}

/// A random table; counts what it makes of this body.
fn any_table(body: &str, subject: &mut Subject, rows: &mut [Row]) -> Vec<u8> {
    let [exceptions, others, unlike] = rows else { unreachable!("a row for each name") };
    let given = texts::levels::table(subject.random);
    let table = Table::read(&given).expect("a line for each level");
    let raised = raises::transform_body(body, &table);
    let counts = raised.as_ref().map_or(Counts::default(), |raised| raised.counts);
    exceptions.count_all(counts.exceptions);
    others.count_all(counts.others);
    let given_text = |raised: Result<Raised, _>| numbered(raised.map(|Raised { text, .. }| text));
    let without = raises::transform_body(body, &reference::levels::NO_TABLE);
    unlike.count(given_text(raised) != given_text(without));
    given
}

/// A table that equals none.
pub const NO_TABLE: &[u8] =
    b"DEBUG drop\nLOG drop\nINFO drop\nNOTICE drop\nWARNING drop\nEXCEPTION abort\n";

/// A random table that is refused.
fn refused_table(subject: &mut Subject) -> (Vec<u8>, Refusal) {
    loop {
        let table = texts::levels::bad_table(subject.random);
        if let Err(refusal) = Table::read(&table) {
            return (table, refusal);
        }
    }
}

fn count_number(refusal: Refusal, rows: &mut [Row]) {
    for (row, number) in rows.iter_mut().zip([11, 12, 13]) {
        row.count(refusal.number == number);
    }
}

/// What the body call must answer under a table, and what stands in front of its output.
pub fn expected(text: &str, table: &[u8]) -> bodies::Expected {
    match Table::read(table) {
        Ok(table) => numbered(raises::transform_body(text, &table).map(|Raised { text, .. }| text)),
        Err(refusal) => (answer(refusal), Vec::new()),
    }
}

/// The four numbers of a refused table.
pub fn answer(Refusal { number, place }: Refusal) -> Answer {
    [number, place as u32, 0, 0]
}

/// A table in a report.
pub fn shown(table: &[u8]) -> String {
    format!("under {:?}", String::from_utf8_lossy(table))
}
