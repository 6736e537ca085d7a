//! Functions whose answers the scope paper gives, by its sentences about declarations as Note 2 left
//! them. None of their records is marked; `constant_rows` has those of Note 5.

use reference::constants::Variable;

use crate::runs::Runs;
use crate::stored_call::{Answer, Function};

/// Name, type and default.
type Declared = (&'static str, &'static str, Option<&'static str>);

/// All rows as functions with their answers.
pub fn all() -> Vec<Function> {
    let accepted = ACCEPTED
        .iter()
        .map(|(text, output, declared)| function(text, Answer::accepted(output), declared));
    let defaults = DEFAULTS.iter().map(|(part, data_type, default)| {
        let text = format!("DECLARE a {part};\nBEGIN x");
        function(&text, Answer::accepted("BEGIN x"), &[("a", data_type, Some(default))])
    });
    let qualified =
        function("DECLARE a int; BEGIN NEW.v := 1;", Answer::qualified("NEW", "v"), &[]);
    let clause = "DECLARE a int; BEGIN RAISE EXCEPTION USING x;";
    let clause = function(clause, Answer::clause("USING x"), &[]);
    accepted.chain(defaults).chain([qualified, clause]).collect()
}

fn function(text: &str, answer: Answer, declared: &[Declared]) -> Function {
    let unmarked =
        |(name, data_type, default): &Declared| Variable::unmarked(name, data_type, *default);
    let declared: Vec<Variable> = declared.iter().map(unmarked).collect();
    Function::new(Runs::one(text.as_bytes()), answer, &declared)
}

/// Texts, the outputs, and the declarations in order of first declaration.
const ACCEPTED: &[(&str, &str, &[Declared])] = &[
    // A live DECLARE before the first live BEGIN.
    ("DECLARE a int; BEGIN x", "BEGIN x", &[("a", "int", None)]),
    ("declare a int; begin x", "begin x", &[("a", "int", None)]),
    ("x; DECLARE a int; BEGIN y", "BEGIN y", &[("a", "int", None)]),
    ("DECLARE a int BEGIN x BEGIN y", "BEGIN x BEGIN y", &[("a", "int", None)]),
    ("DECLARE a int; BEGIN v := 1; END;", "BEGIN SET v = 1; END;", &[("a", "int", None)]),
    ("DECLARE a int; 'BEGIN' b; BEGIN", "BEGIN", &[("a", "int", None), ("'BEGIN'", "b", None)]),
    ("DECLARE a int; DECLARE b c; BEGIN", "BEGIN", &[("a", "int", None), ("DECLARE", "b c", None)]),
    ("DECLARE BEGIN x", "BEGIN x", &[]),
    ("DECLARE ; ; BEGIN x", "BEGIN x", &[]),
    ("x; BEGIN y", "BEGIN y", &[]),
    ("BEGIN DECLARE a int; x", "BEGIN DECLARE a int; x", &[]),
    ("BEGIN DECLARE a int; BEGIN x", "BEGIN DECLARE a int; BEGIN x", &[]),
    ("DECLARE a int; x", "DECLARE a int; x", &[]),
    ("DECLARE a int; BEGINS x", "DECLARE a int; BEGINS x", &[]),
    ("'DECLARE' a int; BEGIN x", "BEGIN x", &[]),
    ("-- DECLARE\na int; BEGIN x", "BEGIN x", &[]),
    ("$DECLARE a int; BEGIN x", "BEGIN x", &[]),
    // Cut at live semicolons.
    ("DECLARE a b ';' c; d e; BEGIN", "BEGIN", &[("a", "b ';' c", None), ("d", "e", None)]),
    ("DECLARE a b -- ;\n; c d; BEGIN", "BEGIN", &[("a", "b -- ;", None), ("c", "d", None)]),
    ("DECLARE a.b := 1; c d; BEGIN", "BEGIN", &[("c", "d", None)]),
    // Name and type; fewer than two words give no record.
    (
        "DECLARE a\t double\n\x0bprecision  NULL; BEGIN",
        "BEGIN",
        &[("a", "double precision NULL", None)],
    ),
    ("DECLARE a int = 1; BEGIN", "BEGIN", &[("a", "int", Some("1"))]),
    ("DECLARE tag text DEFAULT ':='; BEGIN", "BEGIN", &[("tag", "text", Some("':='"))]),
    ("DECLARE \":=\" t = 1; BEGIN", "BEGIN", &[("\":=\"", "t", Some("1"))]),
    ("DECLARE a b; c d = 1; BEGIN", "BEGIN", &[("a", "b", None), ("c", "d", Some("1"))]),
    ("DECLARE a; b c; BEGIN", "BEGIN", &[("b", "c", None)]),
    ("DECLARE a := 1; BEGIN", "BEGIN", &[]),
    ("DECLARE a = 1; BEGIN", "BEGIN", &[]),
    ("DECLARE a DEFAULT 1; BEGIN", "BEGIN", &[]),
    ("DECLARE a DEFAULT b := 1; BEGIN", "BEGIN", &[]),
    ("DECLARE a>=1 := 2; BEGIN", "BEGIN", &[]),
    ("DECLARE := 1; BEGIN", "BEGIN", &[]),
    ("DECLARE = a b; BEGIN", "BEGIN", &[]),
    ("DECLARE =; BEGIN", "BEGIN", &[]),
    ("DECLARE a\x1cb; BEGIN", "BEGIN", &[]),
    // No default without a live key: a lone `=` has no `=` on either side and no `>` behind.
    ("DECLARE a b=>1; BEGIN", "BEGIN", &[("a", "b=>1", None)]),
    ("DECLARE a b==1; BEGIN", "BEGIN", &[("a", "b==1", None)]),
    ("DECLARE a b === 1 ==> 2; BEGIN", "BEGIN", &[("a", "b === 1 ==> 2", None)]),
    ("DECLARE a int DEFAULTS 1; BEGIN", "BEGIN", &[("a", "int DEFAULTS 1", None)]),
    ("DECLARE a b $DEFAULT _DEFAULT; BEGIN", "BEGIN", &[("a", "b $DEFAULT _DEFAULT", None)]),
    ("DECLARE a b 'DEFAULT'; BEGIN", "BEGIN", &[("a", "b 'DEFAULT'", None)]),
    ("DECLARE a b '='; BEGIN", "BEGIN", &[("a", "b '='", None)]),
    ("DECLARE a b ':='; BEGIN", "BEGIN", &[("a", "b ':='", None)]),
    ("DECLARE a b /* = */; BEGIN", "BEGIN", &[("a", "b /* = */", None)]),
    ("DECLARE a b -- := 1\n; BEGIN", "BEGIN", &[("a", "b -- := 1", None)]),
    ("DECLARE a b $a$ := $1$a$1$; BEGIN", "BEGIN", &[("a", "b $a$ := $1$a$1$", None)]),
    // The order of the records, and of the chain.
    (
        "DECLARE c t; a u := 1; b v; BEGIN",
        "BEGIN",
        &[("c", "t", None), ("a", "u", Some("1")), ("b", "v", None)],
    ),
    (
        "DECLARE ab t; abc t; a t; _ t; B t; \"b\" t; BEGIN",
        "BEGIN",
        &[
            ("ab", "t", None),
            ("abc", "t", None),
            ("a", "t", None),
            ("_", "t", None),
            ("B", "t", None),
            ("\"b\"", "t", None),
        ],
    ),
    // A repeated name replaces the contents.
    ("DECLARE b t; a u; b v w := 1; BEGIN", "BEGIN", &[("b", "v w", Some("1")), ("a", "u", None)]),
    ("DECLARE a t := 1; a u; BEGIN", "BEGIN", &[("a", "u", None)]),
    ("DECLARE a t := 1; a = 2; BEGIN", "BEGIN", &[("a", "t", Some("1"))]),
    ("DECLARE a t; a u = 2; BEGIN", "BEGIN", &[("a", "u", Some("2"))]),
    ("DECLARE a t; A u; BEGIN", "BEGIN", &[("a", "t", None), ("A", "u", None)]),
];

/// What stands behind the name `a`, its type, and its default.
const DEFAULTS: &[(&str, &str, &str)] = &[
    // The leftmost live key counts. Behind the first live `:=`.
    ("int := 1", "int", "1"),
    ("int:=1", "int", "1"),
    ("int := \x0b 1\t\n+ 2 \x0c", "int", "1\t\n+ 2"),
    ("int := 1 := 2", "int", "1 := 2"),
    ("int /* := */ := 2", "int /* := */", "2"),
    ("int -- :=\n:= 2", "int -- :=", "2"),
    ("\":=\" := 2", "\":=\"", "2"),
    ("int '=' := 2", "int '='", "2"),
    ("int := ';' || 'a'", "int", "';' || 'a'"),
    ("int := DEFAULT 1", "int", "DEFAULT 1"),
    ("int := 1 = 2", "int", "1 = 2"),
    ("int := 1 DEFAULT 2 := 3", "int", "1 DEFAULT 2 := 3"),
    ("b==1:=2", "b==1", "2"),
    ("b => 1 := 2", "b => 1", "2"),
    ("b:==1", "b", "=1"),
    ("b:=>1", "b", ">1"),
    ("b::=1", "b:", "1"),
    // Behind the first live lone `=`.
    ("int = 1", "int", "1"),
    ("int=1", "int", "1"),
    ("int\n=\x0b1 ", "int", "1"),
    ("b>=1", "b>", "1"),
    ("b<=1", "b<", "1"),
    ("b!=1", "b!", "1"),
    ("b=:=1", "b", ":=1"),
    ("b= =1", "b", "=1"),
    ("b : = 1", "b :", "1"),
    ("b=-1", "b", "-1"),
    ("b==1=2", "b==1", "2"),
    ("b=>1=2", "b=>1", "2"),
    ("b=>=1", "b=>", "1"),
    ("b'='=1", "b'='", "1"),
    ("int = 1 := 2", "int", "1 := 2"),
    ("int = 1 DEFAULT 2", "int", "1 DEFAULT 2"),
    ("int =DEFAULT 1", "int", "DEFAULT 1"),
    ("int = ':='", "int", "':='"),
    ("int ':=' = 1", "int ':='", "1"),
    ("int /* = */ = 1", "int /* = */", "1"),
    ("int 'DEFAULT' = 1", "int 'DEFAULT'", "1"),
    // Behind the first live DEFAULT.
    ("int DEFAULT 1", "int", "1"),
    ("int default\n1", "int", "1"),
    ("int DEFAULT 1 DEFAULT 2", "int", "1 DEFAULT 2"),
    ("int DEFAULT 1 := 2", "int", "1 := 2"),
    ("int DEFAULT 1 = 2", "int", "1 = 2"),
    ("int default:=1", "int", ":=1"),
    ("int DEFAULT=1", "int", "=1"),
    ("int DEFAULT ':='", "int", "':='"),
    ("int DEFAULT /* := */ 1", "int", "/* := */ 1"),
    ("int $$:=$$ DEFAULT 1", "int $$:=$$", "1"),
    ("int == DEFAULT 1", "int ==", "1"),
    ("int DEFAULTS DEFAULT 1", "int DEFAULTS", "1"),
    ("int 'DEFAULT' DEFAULT 2", "int 'DEFAULT'", "2"),
    ("int(1)DEFAULT(2)", "int(1)", "(2)"),
    // Present even if empty.
    ("int :=", "int", ""),
    ("int := ", "int", ""),
    ("int =", "int", ""),
    ("int = ", "int", ""),
    ("int DEFAULT", "int", ""),
    ("int DEFAULT \x0b", "int", ""),
    // Requoted if it is one dollar literal from end to end.
    ("b := $1$2$1$", "b", "'2'"),
    ("b DEFAULT $1$2$1$", "b", "'2'"),
    ("b = $1$2$1$", "b", "'2'"),
    ("b =$$:=$$", "b", "':='"),
    ("b := $1$2$1$3$1$", "b", "'2$1$3'"),
    ("b := $1$''$1$", "b", "''''''"),
    ("b := $12$3$12$", "b", "'3'"),
    ("b := $$a$$", "b", "'a'"),
    ("b := $$$$", "b", "''"),
    ("b := $t$a'b;c$t$", "b", "'a''b;c'"),
    ("b := $$a$$ || $$b$$", "b", "'a$$ || $$b'"),
    // Else not.
    ("b := $$a$$ x", "b", "$$a$$ x"),
    ("b := x $$a$$", "b", "x $$a$$"),
    ("b := $1$", "b", "$1$"),
    ("b := $1$2$3$", "b", "$1$2$3$"),
    ("b := $1", "b", "$1"),
    ("b := 'a'", "b", "'a'"),
];

#[cfg(test)]
mod tests {
    use super::*;
    use crate::answer::preprocessed;
    use reference::reasons::Reasons;

    /// On the text itself while it is still compared, else on the respelled one. Both occur.
    #[test]
    fn the_reference_agrees() {
        let (mut compared, mut respelled) = (0, 0);
        for expected in all() {
            let text = String::from_utf8(expected.text.bytes()).unwrap();
            let got = preprocessed(&text).unwrap().unwrap();
            match Reasons::of(&text).is_none() {
                true => compared += 1,
                false => respelled += 1,
            }
            assert_eq!(got.answer.number, expected.answer.number, "{text:?}");
            assert_eq!(got.answer.place, expected.answer.place, "{text:?}");
            assert_eq!(got.answer.output.bytes(), expected.answer.output.bytes(), "{text:?}");
            assert_eq!(got.records, expected.records, "{text:?}");
        }
        assert!(compared > 0 && respelled > 0, "{compared} {respelled}");
    }

    /// The records of one function, by hand.
    #[test]
    fn records_are_packed() {
        let declared = [("b", "int", None), ("c", "t u", Some("")), ("a", "text", Some("12"))];
        let records = function("", Answer::accepted(""), &declared).records;
        assert_eq!(records.text, b"bintct uatext12");
        let head = [3, 0, 0, 0, 0, 0, 0, 0, 0, 0];
        let b = [2, 0, 1, 1, 3, 0, 0, 0, 0, 0];
        let c = [0, 4, 1, 5, 3, 1, 8, 0, 0, 0];
        let a = [1, 8, 1, 9, 4, 1, 13, 2, 0, 0];
        assert_eq!(records.numbers, [head, b, c, a].concat());
    }
}
