//! Bodies under tables of levels, for the sentences of Note 10. The answers are written down by hand; a test
//! holds them to what the published passes make of them.

use crate::body_rows;
use crate::runs::Runs;
use crate::stored_call::{Answer, Body, ByLevels};

const LEVELS: [&str; 6] = ["DEBUG", "LOG", "INFO", "NOTICE", "WARNING", "EXCEPTION"];

const ACTIONS: [&str; 4] = ["drop", "abort", "fail", "rollback"];

/// A table with these actions for the levels in their order above.
pub fn table(actions: [&str; 6]) -> Runs {
    Runs::one(lines(actions).concat().as_bytes())
}

fn lines(actions: [&str; 6]) -> Vec<String> {
    LEVELS.iter().zip(actions).map(|(level, action)| format!("{level} {action}\n")).collect()
}

/// Actions that equal no table.
const NO_TABLE: [&str; 6] = ["drop", "drop", "drop", "drop", "drop", "abort"];

/// Each word for two levels.
const MIXED: [&str; 6] = ["fail", "abort", "rollback", "rollback", "abort", "fail"];

pub fn all() -> Vec<ByLevels<Body>> {
    let mixed = |body| ByLevels { table: table(MIXED), stored: body };
    let accepted = ACCEPTED.iter().map(|(text, output)| Body::new(text, Answer::accepted(output)));
    let clauses = CLAUSES.iter().map(|(text, clause)| Body::new(text, Answer::clause(clause)));
    let mut rows = each_action();
    rows.extend(accepted.chain(clauses).map(mixed));
    rows.extend(DROPPED.iter().map(|(text, output)| {
        let stored = Body::new(text, Answer::accepted(output));
        ByLevels { table: table(["drop"; 6]), stored }
    }));
    rows.extend(as_without());
    rows
}

/// Each level with each action, while the others have another one.
fn each_action() -> Vec<ByLevels<Body>> {
    let mut rows = Vec::new();
    for (place, level) in LEVELS.iter().enumerate() {
        for (index, action) in ACTIONS.iter().enumerate() {
            let mut actions = [ACTIONS[(index + 1) % ACTIONS.len()]; 6];
            actions[place] = action;
            let raised = match *action {
                "drop" => String::new(),
                _ => format!("SELECT RAISE({}, 'm');", action.to_uppercase()),
            };
            for level in [level.to_string(), level.to_lowercase()] {
                let text = format!("v := 1; RAISE {level} 'm', v; w");
                let answer = Answer::accepted(&format!("SET v = 1; {raised} w"));
                let stored = Body::new(&text, answer);
                rows.push(ByLevels { table: table(actions), stored });
            }
        }
    }
    rows
}

/// The rows of the scope paper under a table that equals none, whose lines stand in several orders.
fn as_without() -> impl Iterator<Item = ByLevels<Body>> {
    body_rows::all().into_iter().enumerate().map(|(index, stored)| {
        let mut lines = lines(NO_TABLE);
        lines.rotate_left(index % 6);
        lines.swap(index % 5, 5);
        ByLevels { table: Runs::one(lines.concat().as_bytes()), stored }
    })
}

/// Under `MIXED`: texts, and what they become.
const ACCEPTED: &[(&str, &str)] = &[
    (
        "RAISE DEBUG a;RAISE LOG b;RAISE INFO c;RAISE NOTICE d;RAISE WARNING e;RAISE EXCEPTION f;",
        "SELECT RAISE(FAIL, a);SELECT RAISE(ABORT, b);SELECT RAISE(ROLLBACK, c);\
         SELECT RAISE(ROLLBACK, d);SELECT RAISE(ABORT, e);SELECT RAISE(FAIL, f);",
    ),
    // Where a level ends.
    ("RAISE LOG'';", "SELECT RAISE(ABORT, );"),
    ("RAISE LOGS 'a';", "SELECT RAISE(ABORT, 'a');"),
    ("RAISE LOG", "SELECT RAISE(ABORT, );"),
    ("RAISE LOG;", "SELECT RAISE(ABORT, );"),
    ("RAISE LOG'a;b';x", "SELECT RAISE(ABORT, );b';x"),
    ("RAISE LOG'a;RAISE NOTICE b';x;", "SELECT RAISE(ABORT, );RAISE NOTICE b';x;"),
    ("RAISE NOTICES\x0b'a' ;x", "SELECT RAISE(ROLLBACK, 'a');x"),
    ("RAISE WARNING,a b, c;", "SELECT RAISE(ABORT, b);"),
    ("RAISE EXCEPTIONS 'a';", "SELECT RAISE(FAIL, S 'a');"),
    ("RAISE EXCEPTION'a';", "SELECT RAISE(FAIL, 'a');"),
    ("RAISE INFO;x", "SELECT RAISE(ROLLBACK, );x"),
    ("RAISE INFO\n'a';", "SELECT RAISE(ROLLBACK, 'a');"),
    // What is no level.
    ("RAISE INFO'a';", "RAISE INFO'a';"),
    ("RAISE INFO", "RAISE INFO"),
    ("RAISE INFORMATION;", "RAISE INFORMATION;"),
    ("RAISE  LOG 'a';", "RAISE  LOG 'a';"),
    ("RAISE 'a';", "RAISE 'a';"),
    ("'RAISE LOG';-- RAISE LOG\n", "'RAISE LOG';-- RAISE LOG\n"),
    // The separator may be any byte, and the search goes on behind a statement.
    ("RAISE;LOG 'a';x", "SELECT RAISE(ABORT, 'a');x"),
    ("RAISE RAISE DEBUG 'a';", "RAISE SELECT RAISE(FAIL, 'a');"),
    ("RAISE DEBUG RAISE LOG 'a';", "SELECT RAISE(FAIL, RAISE LOG 'a');"),
    // Messages and USING are read as for EXCEPTION.
    ("RAISE NOTICE 'a''b', c;", "SELECT RAISE(ROLLBACK, 'a''b');"),
    ("RAISE NOTICE 'a;b' || c;", "SELECT RAISE(ROLLBACK, 'a;b');"),
    ("RAISE NOTICE a , b;", "SELECT RAISE(ROLLBACK, a);"),
    ("RAISE NOTICE 'a", "SELECT RAISE(ROLLBACK, 'a);"),
    ("RAISE NOTICE $$a'b$$, c;", "SELECT RAISE(ROLLBACK, 'a''b');"),
    ("RAISE WARNING USING MESSAGE = 'a';", "SELECT RAISE(ABORT, 'a');"),
    ("RAISE WARNING usingmessage='a' ;", "SELECT RAISE(ABORT, 'a');"),
    ("RAISE WARNING 'a' USING ERRCODE = '1';", "SELECT RAISE(ABORT, 'a');"),
    ("IF a THEN RAISE INFO 'a'; ELSIF b", "IF a THEN SELECT RAISE(ROLLBACK, 'a'); ELSEIF b"),
];

/// Under `MIXED`, refusal 5: the text, and the clause.
const CLAUSES: &[(&str, &str)] = &[
    ("RAISE DEBUG USING ERRCODE = '1';", "USING ERRCODE = '1'"),
    ("RAISE LOG USING MESSAGE = 'a', HINT = 'b';", "USING MESSAGE = 'a', HINT = 'b'"),
    ("RAISE INFO using message = a ;", "using message = a"),
    ("RAISE NOTICES USINGS;RAISE LOG USING x;", "USINGS"),
    ("RAISE LOG 'a';RAISE WARNING USING", "USING"),
    ("RAISE EXCEPTION USING x;", "USING x"),
];

/// Where every level is dropped: no content is read.
const DROPPED: &[(&str, &str)] = &[
    ("RAISE EXCEPTION USING x;y", "y"),
    ("RAISE EXCEPTION'a';y", "y"),
    ("RAISE EXCEPTIONS 'a;b';y", "y"),
    ("RAISE EXCEPTION", ""),
    ("v := 1;RAISE EXCEPTION 'a;RAISE LOG b';RAISE DEBUG c;w", "SET v = 1;w"),
];

#[cfg(test)]
mod tests {
    use super::*;
    use crate::answer::rewritten_under;

    #[test]
    fn the_published_passes_agree() {
        for ByLevels { table, stored: Body { text, answer } } in all() {
            let text = String::from_utf8(text.bytes()).unwrap();
            let got = rewritten_under(&text, &table.bytes()).unwrap();
            assert_eq!((got.number, got.place), (answer.number, answer.place), "{text}");
            assert_eq!(got.output.bytes(), answer.output.bytes(), "{text}");
        }
    }

    #[test]
    fn every_level_has_every_action() {
        assert_eq!(each_action().len(), 2 * 24);
    }
}
