//! The limits and refusals of the body call. The reference has none, so the scope paper says what
//! must come: 1 text too long, 3 a buffer too short, 2 a byte over 127, in this order; then pass by
//! pass, in one pass 4 or 5 before 6.

use std::io::{self, Write};

use sizes::BUFFER_SIZE;

use crate::lent::{enough, short};
use crate::runs::{Run, Runs};
use crate::stored_call::{write_all, Answer, Body, BODY_LEAST, BODY_LONGER, LIMIT};

/// Two runs.
type Two = [Run<'static>; 2];

pub fn write(out: &mut impl Write) -> io::Result<()> {
    let (enough, short) = (enough(BODY_LEAST, BODY_LONGER), short(BODY_LEAST, BODY_LONGER));
    write_all(checked(), &enough, out)?;
    write_all(too_long(), &[&enough[..], &short].concat(), out)?;
    write_all(too_short(), &short, out)?;
    write_all(not_ascii(), &[BODY_LEAST, BODY_LONGER], out)
}

/// Bodies that pass the checks.
pub fn checked() -> impl Iterator<Item = Body> {
    plain_bodies().chain(whole_bodies()).chain(results()).chain(orders())
}

fn accepted(text: Runs, output: Runs) -> Body {
    Body { text, answer: Answer { number: 0, place: 0, output } }
}

fn refused(text: Runs, number: usize, place: usize) -> Body {
    Body { text, answer: Answer::refused(number, place) }
}

/// Texts up to the limit pass.
fn plain_bodies() -> impl Iterator<Item = Body> {
    [0, 1, 2, LIMIT - 1, LIMIT]
        .into_iter()
        .map(|length| accepted(Runs::letters(length), Runs::letters(length)))
}

/// Texts of the greatest length for each pass, and for refusals 4 and 5.
fn whole_bodies() -> impl Iterator<Item = Body> {
    let passes = whole_passes().into_iter();
    let accepted = passes.map(|(text, output)| accepted(Runs::new(&text), Runs::new(&output)));
    accepted.chain([last_target(), last_clause(), long_target(), long_clause()])
}

/// For each pass a text of the greatest length and what it becomes.
fn whole_passes() -> [(Two, Two); 7] {
    [
        ([(1, b"$$"), (LIMIT - 2, b"'")], [(1, b"'"), (2 * LIMIT - 3, b"'")]),
        ([(3276, b"$$'$$"), (4, b"a")], [(3276, b"''''"), (4, b"a")]),
        ([(2730, b"ELSIF "), (4, b"a")], [(2730, b"ELSEIF "), (4, b"a")]),
        ([(3276, b"v:=1;"), (1, b"v:=1")], [(3276, b"SET v = 1;"), (1, b"SET v = 1")]),
        (
            [(1023, b"SELECT a INTO v;"), (16, b";")],
            [(1023, b"SET v = (SELECT a LIMIT 1);"), (16, b";")],
        ),
        (
            [(1023, b"RAISE EXCEPTION;"), (16, b";")],
            [(1023, b"SELECT RAISE(ABORT, );"), (16, b";")],
        ),
        ([(963, b"RAISE NOTICE 'a';"), (13, b"a")], [(0, b""), (13, b"a")]),
    ]
}

/// Refusals 4 and 5 in the last statement.
fn last_target() -> Body {
    let text = Runs::new(&[(LIMIT - 11, b";"), (1, b"NEW.v := 1;")]);
    Body { text, answer: Answer::qualified("NEW", "v") }
}

fn last_clause() -> Body {
    let text = Runs::new(&[(LIMIT - 24, b";"), (1, b"RAISE EXCEPTION USING x;")]);
    Body { text, answer: Answer::clause("USING x") }
}

/// Refusals 4 and 5 with the longest outputs.
fn long_target() -> Body {
    let target = [(10_000, &b"q"[..]), (1, b"."), (LIMIT - 10_004, b"n")];
    let text = Runs::new(&[&target[..], &[(1, b":=1")]].concat());
    Body { text, answer: Answer { number: 4, place: 10_000, output: Runs::new(&target) } }
}

fn long_clause() -> Body {
    let clause = [(1, &b"USING "[..]), (LIMIT - 21, b"x")];
    let text = Runs::new(&[&[(1, &b"RAISE EXCEPTION"[..])], &clause[..]].concat());
    Body { text, answer: Answer { number: 5, place: 0, output: Runs::new(&clause) } }
}

/// A SELECT INTO of 4 bytes for each of its pairs, and more bytes behind it. Pass 4 makes a line of
/// 35 bytes of each pair, the newline included, which the last one lacks.
pub fn select_into(pairs: usize, behind: &[Run]) -> Runs {
    let columns = (pairs - 1, &b"c,"[..]);
    let variables = (pairs - 1, &b"v,"[..]);
    let front = [(1, &b"SELECT "[..]), columns, (1, b"c INTO "), variables, (1, b"v FROM t;")];
    Runs::new(&[&front, behind].concat())
}

/// What pass 4 makes of it, and more bytes behind.
pub fn set_lines(pairs: usize, behind: &[Run]) -> Runs {
    let line = &b"SET v = (SELECT c FROM t LIMIT 1);\n"[..];
    let front = [(pairs - 1, line), (1, &line[..line.len() - 1])];
    Runs::new(&[&front, behind].concat())
}

/// Results of 65,536 bytes pass, those of 65,537 do not. 1,872 lines have 65,519 bytes.
fn results() -> impl Iterator<Item = Body> {
    let exception = (1, &b"RAISE EXCEPTION;"[..]);
    let raised = (1, &b"SELECT RAISE(ABORT, );"[..]);
    let in_pass_4 = [
        accepted(select_into(1872, &[(17, b"a")]), set_lines(1872, &[(17, b"a")])),
        refused(select_into(1872, &[(18, b"a")]), 6, 0),
        refused(select_into(1873, &[]), 6, 0),
        refused(select_into(4090, &[]), 6, 0),
    ];
    // It makes 22 bytes of 16.
    let in_pass_5 = [
        accepted(
            select_into(1871, &[exception, (30, b"a")]),
            set_lines(1871, &[raised, (30, b"a")]),
        ),
        refused(select_into(1871, &[exception, (31, b"a")]), 6, 0),
    ];
    // It drops a statement, but pass 4 has to hold it.
    let dropped = [
        accepted(select_into(1872, &[(1, b"RAISE NOTICE 'a';")]), set_lines(1872, &[])),
        refused(select_into(1872, &[(1, b"RAISE NOTICE 'aa';")]), 6, 0),
    ];
    in_pass_4.into_iter().chain(in_pass_5).chain(dropped)
}

/// Which refusal comes first.
fn orders() -> impl Iterator<Item = Body> {
    let target = (1, &b"NEW.v := 1;"[..]);
    let clause = (1, &b"RAISE EXCEPTION USING x;"[..]);
    let exceptions = (10, &b"RAISE EXCEPTION;"[..]);
    let qualified = |text| Body { text, answer: Answer::qualified("NEW", "v") };
    let using = |text| Body { text, answer: Answer::clause("USING x") };
    [
        // 4 in pass 3, before 6 in pass 4 and 5 in pass 5. No result is too long up to pass 3.
        qualified(select_into(1873, &[target])),
        qualified(Runs::new(&[clause, target])),
        // 6 in pass 4, before 5 in pass 5.
        refused(select_into(1872, &[clause]), 6, 0),
        // 5 before 6 in pass 5: 65,344 bytes of lines and 220 of exceptions stand before the clause.
        using(select_into(1867, &[exceptions, clause])),
        using(select_into(1867, &[clause, exceptions])),
        refused(select_into(1867, &[exceptions, (24, b"a")]), 6, 0),
    ]
    .into_iter()
}

/// Refusal 1 comes before 3 and 2.
pub fn too_long() -> impl Iterator<Item = Body> {
    let lengths = [LIMIT + 1, LIMIT + 2, BUFFER_SIZE, BUFFER_SIZE + 1, 2 * BUFFER_SIZE];
    lengths.into_iter().flat_map(|length| {
        let texts = [
            Runs::letters(length),
            Runs::with_byte(length, 0, 200),
            Runs::with_byte(length, length - 1, 200),
        ];
        texts.map(|text| refused(text, 1, 0))
    })
}

/// Refusal 3 comes before 2, and before any pass.
pub fn too_short() -> impl Iterator<Item = Body> {
    let letters = [0, 1, LIMIT].map(Runs::letters);
    let high = [Runs::with_byte(1, 0, 200), Runs::with_byte(LIMIT, LIMIT - 1, 200)];
    let passes = [Runs::one(b"NEW.v := 1;"), select_into(1873, &[])];
    letters.into_iter().chain(high).chain(passes).map(|text| refused(text, 3, 0))
}

/// Refusal 2 names the first byte over 127, wherever it stands.
pub fn not_ascii() -> impl Iterator<Item = Body> {
    let alone = (128..=255).map(|high| (Runs::with_byte(1, 0, high), 0));
    let places = [(2, 0), (2, 1), (LIMIT, 0), (LIMIT, LIMIT / 2), (LIMIT, LIMIT - 1)];
    let among =
        places.into_iter().map(|(length, place)| (Runs::with_byte(length, place, 128), place));
    let others: [(&[u8], usize); 4] =
        [(b"a\xffb\x80", 1), (b"-- \xc3\xa9", 3), (b"v := '\xe9';", 6), (b"NEW.v := 1;\xff", 11)];
    let others = others.into_iter().map(|(text, place)| (Runs::one(text), place));
    alone.chain(among).chain(others).map(|(text, place)| refused(text, 2, place))
}

#[cfg(test)]
mod tests {
    use super::*;
    use crate::answer::rewritten;

    fn reference(body: &Body) -> Answer {
        let text = String::from_utf8(body.text.bytes()).unwrap();
        assert!(text.len() <= LIMIT, "{}", text.len());
        rewritten(&text).unwrap()
    }

    /// The reference has no limits, so it gives the same where none is met.
    #[test]
    fn the_reference_agrees_up_to_the_limits() {
        for body in checked() {
            let (got, expected) = (reference(&body), body.answer);
            if expected.number != 6 {
                assert_eq!((got.number, got.place), (expected.number, expected.place));
                assert!(got.output.bytes() == expected.output.bytes(), "{}", body.text);
                assert!(got.output.len() <= BUFFER_SIZE, "{}", body.text);
            }
        }
    }

    #[test]
    fn whole_bodies_have_the_greatest_length() {
        for body in whole_bodies() {
            assert_eq!(body.text.len(), LIMIT, "{}", body.text);
        }
    }

    #[test]
    fn results_stand_on_both_sides_of_the_limit() {
        let lengths: Vec<usize> = results().map(|body| reference(&body).output.len()).collect();
        assert_eq!(lengths, [65_536, 65_537, 65_554, 143_149, 65_536, 65_537, 65_519, 65_519]);
    }
}
