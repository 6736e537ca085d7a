//! Right answers to rewriting calls, for the program `replay_calls`, with one place of a lent buffer
//! changed behind the call. All of them must differ, so they show that the program looks at all that
//! is lent.

use std::io::{self, Write};

use crate::runs::Runs;
use crate::stored_call::{Answer, Body, ByLevels, Function, Stored, BODY_LONGER, FUNCTION_LEAST};
use crate::wrong_calls::declaring;

/// More than the least, and another length for each buffer.
const LENT: [usize; 5] = [70_000, 70_001, 70_002, 70_003, 6_000];

/// A buffer, by its number in a line `z`, and a place in it.
type Place = (usize, usize);

pub fn write(out: &mut impl Write) -> io::Result<()> {
    let accepted = declaring();
    write_faults(&accepted, LENT, &behind_results(&accepted), out)?;
    let answer = Answer::refused(2, 1);
    let refused = Function::from(Body { text: Runs::with_byte(2, 1, 200), answer });
    write_faults(&refused, LENT, &ends(), out)?;
    let body = Body::new("v := 1;", Answer::accepted("SET v = 1;"));
    write_faults(&body, BODY_LONGER, &[(1, 0), (2, 0)], out)?;
    write_refused_tables(out)
}

/// A refused table leaves zeros.
fn write_refused_tables(out: &mut impl Write) -> io::Result<()> {
    let body = Body::new("v := 1;", Answer::refused(11, 0));
    let refused = ByLevels { table: Runs::one(b"x"), stored: body };
    write_faults(&refused, BODY_LONGER, &[(0, 0), (1, 0), (2, 0)], out)?;
    let function = ByLevels::<Function>::from(refused);
    write_faults(&function, LENT, &behind_results(&function.stored), out)
}

/// In each buffer the first zero behind the result, the last one, the first place behind the
/// zeros, and the last place.
fn behind_results(function: &Function) -> Vec<Place> {
    let Function { answer, records, .. } = function;
    let results = [answer.output.len(), 0, 0, records.text.len(), records.numbers.len()];
    let places = |buffer: usize| {
        let zeros_end = FUNCTION_LEAST[buffer];
        [results[buffer], zeros_end - 1, zeros_end, LENT[buffer] - 1].map(|place| (buffer, place))
    };
    (0..LENT.len()).flat_map(places).collect()
}

/// The first and the last place of each buffer, for a refusal that writes nothing.
fn ends() -> Vec<Place> {
    (0..LENT.len()).flat_map(|buffer| [(buffer, 0), (buffer, LENT[buffer] - 1)]).collect()
}

/// The text, and a call for each place.
fn write_faults<S: Stored>(
    right: &S,
    lent: S::Lent,
    places: &[Place],
    out: &mut impl Write,
) -> io::Result<()> {
    right.write_text(out)?;
    for (buffer, place) in places {
        writeln!(out, "z {buffer} {place}")?;
        right.write_call(lent, out)?;
    }
    Ok(())
}

#[cfg(test)]
mod tests {
    use super::*;

    /// Each buffer is changed behind its result, on both sides of the end of its zeros.
    #[test]
    fn the_places_are_those_that_must_hold_zeros_and_marks() {
        let places: Vec<usize> =
            behind_results(&declaring()).into_iter().map(|(_, place)| place).collect();
        let expected = [
            [7, 65_535, 65_536, 69_999],
            [0, 65_535, 65_536, 70_000],
            [0, 65_535, 65_536, 70_001],
            [6, 65_535, 65_536, 70_002],
            [30, 5_129, 5_130, 5_999],
        ];
        assert_eq!(places, expected.concat());
        assert_eq!(ends().len(), 10);
    }

    /// A line `z` is valid for one call.
    #[test]
    fn each_call_has_its_place() {
        let mut out = Vec::new();
        assert!(write(&mut out).is_ok());
        let list = String::from_utf8(out).unwrap();
        let kinds: String = list.lines().filter_map(|line| line.chars().next()).collect();
        let calls = |count: usize, kind: &str| format!("zl{kind}").repeat(count);
        let (accepted, refused, body) = (calls(20, "f"), calls(10, "f"), calls(2, "b"));
        let (table_body, table) = (calls(3, "B"), calls(20, "F"));
        assert_eq!(kinds, format!("tedn{accepted}te{refused}te{body}gte{table_body}gte{table}"));
    }
}
