//! Wrong answers to rewriting calls under a table of levels, for the program `replay_calls`: a right answer
//! with one change. All of them must differ.

use std::io::{self, Write};

use crate::level_rows::table;
use crate::runs::Runs;
use crate::stored_call::{
    Answer, Body, ByLevels, Function, Stored, BODY_LEAST, FUNCTION_LEAST, FUNCTION_LONGER,
};
use crate::wrong_calls::write_wrong;

pub fn write(out: &mut impl Write) -> io::Result<()> {
    for ByLevels { table, stored } in rows() {
        let function = Function::from(stored);
        for (kind, lent) in [('B', FUNCTION_LEAST), ('F', FUNCTION_LONGER)] {
            writeln!(out, "g {table}")?;
            write_wrong(kind, &function, lent, out)?;
        }
    }
    write_other_words(out)
}

/// An accepted body, one that gives 5, and a table for each refusal.
fn rows() -> Vec<ByLevels<Body>> {
    let fails = || table(["drop", "fail", "drop", "drop", "drop", "drop"]);
    let refused = |table: &[u8], number, place| {
        let stored = Body::new("NEW.v := 1;", Answer::refused(number, place));
        ByLevels { table: Runs::one(table), stored }
    };
    let raised = Answer::accepted("SELECT RAISE(FAIL, 'a');");
    vec![
        ByLevels { table: fails(), stored: Body::new("RAISE LOG 'a';", raised) },
        ByLevels {
            table: fails(),
            stored: Body::new("RAISE LOG USING x;", Answer::clause("USING x")),
        },
        refused(b"LOG drop\nx", 11, 9),
        refused(b"LOG drop\nLOG drop\n", 12, 9),
        refused(b"LOG drop\n", 13, 9),
    ]
}

/// The words of two levels exchanged.
fn write_other_words(out: &mut impl Write) -> io::Result<()> {
    let text =
        Runs::one(b"RAISE DEBUG a;RAISE LOG b;RAISE INFO c;RAISE WARNING d;RAISE EXCEPTION e;");
    let right = ["ABORT", "FAIL", "ROLLBACK", "ABORT", "FAIL"];
    for place in 1..right.len() {
        let mut words = right;
        words.swap(place - 1, place);
        let raised = words.iter().zip(["a", "b", "c", "d", "e"]);
        let output: String =
            raised.map(|(word, message)| format!("SELECT RAISE({word}, {message});")).collect();
        let stored = Body { text: text.clone(), answer: Answer::accepted(&output) };
        let table = table(["abort", "fail", "rollback", "drop", "abort", "fail"]);
        ByLevels { table, stored }.write_calls(&[BODY_LEAST], out)?;
    }
    Ok(())
}
