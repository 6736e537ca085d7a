//! Functions whose answers Note 5 gives: CONSTANT and NOT NULL leave the type and mark the record, and
//! where no type is left there is no record.

use reference::constants::Variable;

use crate::runs::Runs;
use crate::stored_call::{Answer, Function};

/// Which marks a record has.
#[derive(Clone, Copy)]
enum Marks {
    Neither,
    Constant,
    NotNull,
    Both,
}

use Marks::{Both, Constant, Neither, NotNull};

/// Name, type, default and marks.
type Declared = (&'static str, &'static str, Option<&'static str>, Marks);

/// All rows as functions with their answers.
pub fn all() -> Vec<Function> {
    let one = ONE.iter().map(|(part, data_type, default, marks)| {
        function(&format!("a {part};"), &[("a", data_type, *default, *marks)])
    });
    let none = NONE.iter().map(|block| function(block, &[]));
    let several = SEVERAL.iter().map(|(block, declared)| function(block, declared));
    one.chain(none).chain(several).collect()
}

fn function(block: &str, declared: &[Declared]) -> Function {
    let declared: Vec<Variable> = declared.iter().map(variable).collect();
    let text = format!("DECLARE {block}\nBEGIN x");
    Function::new(Runs::one(text.as_bytes()), Answer::accepted("BEGIN x"), &declared)
}

fn variable((name, data_type, default, marks): &Declared) -> Variable {
    Variable {
        is_constant: matches!(marks, Constant | Both),
        is_not_null: matches!(marks, NotNull | Both),
        ..Variable::unmarked(name, data_type, *default)
    }
}

/// What stands behind the name `a`, its type, its default and its marks.
const ONE: &[(&str, &str, Option<&str>, Marks)] = &[
    ("int", "int", None, Neither),
    ("CONSTANT int", "int", None, Constant),
    ("int NOT NULL", "int", None, NotNull),
    ("CONSTANT int NOT NULL", "int", None, Both),
    ("CONSTANT numeric(10, 2) NOT NULL = 1", "numeric(10, 2)", Some("1"), Both),
    ("int NOT NULL:=", "int", Some(""), NotNull),
    // Any letter case.
    ("constant int not null := 1", "int", Some("1"), Both),
    ("cOnStAnT Int nOT NulL DEFAULT 1", "Int", Some("1"), Both),
    // CONSTANT is the first word behind the name, once.
    ("CONSTANT CONSTANT", "CONSTANT", None, Constant),
    ("CONSTANT constant int", "constant int", None, Constant),
    ("int CONSTANT", "int CONSTANT", None, Neither),
    ("NOT CONSTANT", "NOT CONSTANT", None, Neither),
    // NOT NULL are the last two words of what is left.
    ("CONSTANT NOT", "NOT", None, Constant),
    ("CONSTANT NULL", "NULL", None, Constant),
    ("int NOT NULL NOT NULL", "int NOT NULL", None, NotNull),
    ("NOT NULL NOT NULL", "NOT NULL", None, NotNull),
    ("CONSTANT NOT NULL NOT NULL", "NOT NULL", None, Both),
    ("NULL NOT NULL", "NULL", None, NotNull),
    ("NOT NULL CONSTANT", "NOT NULL CONSTANT", None, Neither),
    ("NOT NULL int", "NOT NULL int", None, Neither),
    ("int NULL NOT", "int NULL NOT", None, Neither),
    ("int NOT", "int NOT", None, Neither),
    ("int NULL", "int NULL", None, Neither),
    ("NULL", "NULL", None, Neither),
    ("int NOT b NULL", "int NOT b NULL", None, Neither),
    // Words are split on white space, quoted or not.
    ("CONSTANT\tint\x0bNOT\x0c\rNULL\n", "int", None, Both),
    ("int NOT  NULL", "int", None, NotNull),
    ("int not\nnull", "int", None, NotNull),
    ("b -- NOT NULL\n", "b --", None, NotNull),
    ("b -- NOT\nNULL", "b --", None, NotNull),
    ("CONSTANT -- c\nint", "-- c int", None, Constant),
    ("' ' NOT NULL", "' '", None, NotNull),
    ("'a NOT NULL' NOT NULL", "'a NOT NULL'", None, NotNull),
    ("/* CONSTANT */ int", "/* CONSTANT */ int", None, Neither),
    ("int /* NOT NULL */", "int /* NOT NULL */", None, Neither),
    ("int NOT /**/ NULL", "int NOT /**/ NULL", None, Neither),
    ("\"NOT NULL\"", "\"NOT NULL\"", None, Neither),
    ("\"CONSTANT\" int", "\"CONSTANT\" int", None, Neither),
    ("CONSTANT\x1cint", "CONSTANT\x1cint", None, Neither),
    ("int NOT\x1fNULL", "int NOT\x1fNULL", None, Neither),
    // What only looks like the words.
    ("CONSTANTS int", "CONSTANTS int", None, Neither),
    ("CONSTAN int", "CONSTAN int", None, Neither),
    ("CONSTANT, int", "CONSTANT, int", None, Neither),
    ("int NOTNULL", "int NOTNULL", None, Neither),
    ("intNOT NULL", "intNOT NULL", None, Neither),
    ("int NOT NULLS", "int NOT NULLS", None, Neither),
    ("int NOT NULL,", "int NOT NULL,", None, Neither),
    // Behind a default key they are the default's.
    ("int := 1 NOT NULL", "int", Some("1 NOT NULL"), Neither),
    ("int DEFAULT CONSTANT", "int", Some("CONSTANT"), Neither),
    ("int = NOT NULL", "int", Some("NOT NULL"), Neither),
    ("int NOT := NULL", "int NOT", Some("NULL"), Neither),
    ("CONSTANT int NOT NULL = $$a$$", "int", Some("'a'"), Both),
];

/// Blocks that declare nothing.
const NONE: &[&str] = &[
    "a CONSTANT;",
    "a NOT NULL;",
    "a CONSTANT NOT NULL;",
    "a constant not null",
    "a CONSTANT := 1;",
    "a NOT NULL DEFAULT 1;",
    "a CONSTANT NOT NULL = 1;",
    "a\x0bCONSTANT\n;",
    "CONSTANT CONSTANT;",
    "NULL NOT NULL;",
    "-- NOT NULL\n;",
    "CONSTANT;",
    "a CONSTANT; b NOT NULL; c CONSTANT NOT NULL;",
];

/// Blocks of several declarations, or with one of the words as a name.
const SEVERAL: &[(&str, &[Declared])] = &[
    // An earlier record of the name stays as it is, and a later one comes where it stands.
    ("a int; a CONSTANT;", &[("a", "int", None, Neither)]),
    ("a CONSTANT int := 1; a NOT NULL := 2;", &[("a", "int", Some("1"), Constant)]),
    ("a CONSTANT; a int;", &[("a", "int", None, Neither)]),
    ("a CONSTANT; b t; a u;", &[("b", "t", None, Neither), ("a", "u", None, Neither)]),
    ("a t; b NOT NULL; c u;", &[("a", "t", None, Neither), ("c", "u", None, Neither)]),
    // A repeated name replaces the marks too.
    ("a CONSTANT t NOT NULL; a u;", &[("a", "u", None, Neither)]),
    ("a CONSTANT t; a u NOT NULL;", &[("a", "u", None, NotNull)]),
    ("b t; a u; b CONSTANT v;", &[("b", "v", None, Constant), ("a", "u", None, Neither)]),
    // Each record has its own marks.
    (
        "c CONSTANT t; a u NOT NULL := 1; b v; d CONSTANT w NOT NULL;",
        &[
            ("c", "t", None, Constant),
            ("a", "u", Some("1"), NotNull),
            ("b", "v", None, Neither),
            ("d", "w", None, Both),
        ],
    ),
    // A word ahead of the name is the name.
    ("CONSTANT a int;", &[("CONSTANT", "a int", None, Neither)]),
    ("CONSTANT CONSTANT int;", &[("CONSTANT", "int", None, Constant)]),
    ("NOT NULL;", &[("NOT", "NULL", None, Neither)]),
    ("NOT NULL int NOT NULL;", &[("NOT", "NULL int", None, NotNull)]),
    ("NOT NULL NOT NULL;", &[("NOT", "NULL", None, NotNull)]),
    ("\"a CONSTANT b\" int;", &[("\"a", "b\" int", None, Constant)]),
];

#[cfg(test)]
mod tests {
    use super::*;
    use crate::answer::preprocessed;
    use reference::reasons::Reasons;

    /// On the text itself while it is still compared, else on the respelled one. Both occur.
    #[test]
    fn the_reference_agrees() {
        let (mut compared, mut respelled) = (0, 0);
        for expected in all() {
            let text = String::from_utf8(expected.text.bytes()).unwrap();
            let got = preprocessed(&text).unwrap().unwrap();
            match Reasons::of(&text).is_none() {
                true => compared += 1,
                false => respelled += 1,
            }
            assert_eq!(got.answer.number, expected.answer.number, "{text:?}");
            assert_eq!(got.answer.output.bytes(), expected.answer.output.bytes(), "{text:?}");
            assert_eq!(got.records, expected.records, "{text:?}");
        }
        assert!(compared > 0 && respelled > 0, "{compared} {respelled}");
    }

    /// The records of one function, by hand.
    #[test]
    fn records_end_with_their_marks() {
        let declared =
            [("b", "int", None, Constant), ("c", "t", Some("1"), NotNull), ("a", "u", None, Both)];
        let records = function("", &declared).records;
        assert_eq!(records.text, b"bintct1au");
        let head = [3, 0, 0, 0, 0, 0, 0, 0, 0, 0];
        let b = [2, 0, 1, 1, 3, 0, 0, 0, 1, 0];
        let c = [0, 4, 1, 5, 1, 1, 6, 1, 0, 1];
        let a = [1, 7, 1, 8, 1, 0, 0, 0, 1, 1];
        assert_eq!(records.numbers, [head, b, c, a].concat());
    }
}
