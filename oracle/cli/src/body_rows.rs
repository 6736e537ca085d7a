//! Bodies whose answers the scope paper gives: its table of rows, and texts for its sentences about
//! the passes.

use crate::stored_call::{Answer, Body};

/// All rows as bodies with their answers.
pub fn all() -> Vec<Body> {
    let accepted = ACCEPTED.iter().map(|(text, output)| Body::new(text, Answer::accepted(output)));
    let passed = PASSED.iter().map(|text| Body::new(text, Answer::accepted(text)));
    let qualified = QUALIFIED
        .iter()
        .map(|(text, qualifier, name)| Body::new(text, Answer::qualified(qualifier, name)));
    let clauses = CLAUSES.iter().map(|(text, clause)| Body::new(text, Answer::clause(clause)));
    accepted.chain(passed).chain(qualified).chain(clauses).collect()
}

/// Texts, and what they become.
const ACCEPTED: &[(&str, &str)] = &[
    // The table of rows.
    ("$1$a$1$", "$1'1$'"),
    ("a$$b$$", "a'b'"),
    ("elsif", "ELSEIF"),
    ("SELECT a INTO v;", "SET v = (SELECT a LIMIT 1);"),
    ("RAISE EXCEPTION;", "SELECT RAISE(ABORT, );"),
    ("v := raise ;", "SET v = raise;"),
    ("v := raise ;EXCEPTION 'a';", "SET v = SELECT RAISE(ABORT, 'a');"),
    ("v := 1 ;", "SET v = 1;"),
    // Pass 1.
    ("$$a$$", "'a'"),
    ("$t$a'b$t$", "'a''b'"),
    ("$$a", "'a'"),
    ("$t$$$", "'$$'"),
    ("$_1$a$_1$b", "'a'b"),
    // Pass 2.
    ("IF a THEN b; Elsif c", "IF a THEN b; ELSEIF c"),
    ("(elsif)", "(ELSEIF)"),
    // Pass 3.
    ("v:=1", "SET v = 1"),
    ("_a := 2;", "SET _a = 2;"),
    ("IF c THEN v := 1;", "IF c THEN SET v = 1;"),
    ("':=' v := 1;", "':=' SET v = 1;"),
    ("v\x0b:=\x0b1\x0b;", "SET v = 1;"),
    ("v := 1;;w := 2;", "SET v = 1;;SET w = 2;"),
    ("v := a := b;", "SET v = a := b;"),
    (".b := 1;", ".SET b = 1;"),
    ("a .b := 1;", "a .SET b = 1;"),
    ("v := 'a;b';", "SET v = 'a;b';"),
    ("v := \";;", "SET v = \""),
    ("--a\n:=1", "--SET a = 1"),
    // Pass 4.
    ("select a into v;", "SET v = (SELECT a LIMIT 1);"),
    (
        "SELECT a, b INTO v, w FROM t;",
        "SET v = (SELECT a FROM t LIMIT 1);\nSET w = (SELECT b FROM t LIMIT 1);",
    ),
    ("SELECT a INTO v FROM t ; x", "SET v = (SELECT a FROM t LIMIT 1); x"),
    ("SELECT a INTO v FROM t LIMIT 1;", "SET v = (SELECT a FROM t LIMIT 1);"),
    ("SELECT a INTO v FROM t limit 3 ;", "SET v = (SELECT a FROM t limit 3);"),
    ("SELECT a INTO v FROM LIMIT ;", "SET v = (SELECT a FROM LIMIT);"),
    ("SELECT a INTO v FROM LIMIT;", "SET v = (SELECT a FROM LIMIT LIMIT 1);"),
    (
        "WITH x AS (SELECT 1) SELECT a INTO v FROM x;",
        "SET v = (WITH x AS (SELECT 1) SELECT a FROM x LIMIT 1);",
    ),
    (
        "WITH x AS (y) SELECT a, b INTO v, w FROM x;",
        "SET v = (WITH x AS (y) SELECT a FROM x LIMIT 1);\n\
         SET w = (WITH x AS (y) SELECT b FROM x LIMIT 1);",
    ),
    (
        "b; WITH x AS (SELECT 1 LIMIT 2) SELECT a INTO v;",
        "b; SET v = (WITH x AS (SELECT 1 LIMIT 2) SELECT a);",
    ),
    (
        "IF c THEN WITH x AS (y) SELECT a INTO v FROM x;",
        "IF c THEN SET v = (WITH x AS (y) SELECT a FROM x LIMIT 1);",
    ),
    ("SELECT a INTO v FROM t WITH u;", "SET v = (SELECT a FROM t WITH u LIMIT 1);"),
    (
        "IF c THEN\n  SELECT a, b INTO v, w;",
        "IF c THEN\n  SET v = (SELECT a LIMIT 1);\n  SET w = (SELECT b LIMIT 1);",
    ),
    (
        "IF c THEN SELECT a, b INTO v, w;",
        "IF c THEN SET v = (SELECT a LIMIT 1);\nIF c THEN SET w = (SELECT b LIMIT 1);",
    ),
    (
        "SELECT (a, b), ',' INTO v, w;",
        "SET v = (SELECT (a, b) LIMIT 1);\nSET w = (SELECT ',' LIMIT 1);",
    ),
    ("SELECT '(' INTO v;", "SET v = (SELECT '(' LIMIT 1);"),
    ("SELECT a,, INTO ,v;", "SET v = (SELECT a LIMIT 1);"),
    (") SELECT a INTO v;", ") SET v = (SELECT a LIMIT 1);"),
    ("(; SELECT a INTO v;", "(; SET v = (SELECT a LIMIT 1);"),
    ("-- ; SELECT a INTO v;", "-- ; SET v = (SELECT a LIMIT 1);"),
    ("'\\'; SELECT a INTO v;'", "'\\'; SET v = (SELECT a LIMIT 1);'"),
    ("$SELECT a INTO v;", "$SET v = (SELECT a LIMIT 1);"),
    // Pass 5.
    ("RAISE EXCEPTION 'a';", "SELECT RAISE(ABORT, 'a');"),
    ("raise exception 'a'", "SELECT RAISE(ABORT, 'a');"),
    ("RAISE EXCEPTIONS 'a';", "SELECT RAISE(ABORT, S 'a');"),
    ("RAISE EXCEPTION 'a''b', c;", "SELECT RAISE(ABORT, 'a''b');"),
    ("RAISE EXCEPTION a , b;", "SELECT RAISE(ABORT, a);"),
    ("RAISE EXCEPTION 'a\\';", "SELECT RAISE(ABORT, 'a\\');"),
    ("RAISE EXCEPTION 'a' || b;", "SELECT RAISE(ABORT, 'a');"),
    ("RAISE EXCEPTION -- c;\n'a';", "SELECT RAISE(ABORT, -- c;\n'a');"),
    ("RAISE EXCEPTION 'a' ;x", "SELECT RAISE(ABORT, 'a');x"),
    ("RAISE\nEXCEPTION 'a';", "SELECT RAISE(ABORT, 'a');"),
    (
        "RAISE EXCEPTION 'a'; RAISE EXCEPTION b;",
        "SELECT RAISE(ABORT, 'a'); SELECT RAISE(ABORT, b);",
    ),
    ("RAISE EXCEPTION USING MESSAGE = 'a';", "SELECT RAISE(ABORT, 'a');"),
    ("RAISE EXCEPTION usingmessage='a' ;", "SELECT RAISE(ABORT, 'a');"),
    ("RAISE EXCEPTION USING MESSAGE = 'a", "SELECT RAISE(ABORT, 'a);"),
    ("RAISE NOTICE 'a';", ""),
    ("x RAISE WARNING 'a;b'; y", "x  y"),
    ("RAISE DEBUG 'a';", ""),
    ("RAISE LOG 'a';", ""),
    ("RAISE INFO 'a';", ""),
    ("RAISE INFO\n'a';", ""),
    ("RAISE INFO;x", "x"),
    ("RAISE NOTICES 'a';x", "x"),
    ("RAISE;NOTICE 'a';x", "x"),
    ("RAISE RAISE NOTICE 'a';", "RAISE "),
    ("RAISE LOG'a;b';x", "b';x"),
    ("RAISE LOG'a;RAISE NOTICE b';x;", "RAISE NOTICE b';x;"),
    ("RAISE NOTICE USING ERRCODE = '1';", ""),
];

/// Texts that pass as they are.
const PASSED: &[&str] = &[
    // The table of rows.
    "", "--", "--\na", "preelsif", "CASE WHEN c THEN t.n = 1 ELSE 0 END", "RAISE  EXCEPTION 'a';",
    // Pass 1.
    "$1", "$1a$", // Pass 2.
    "'elsif'", "-- elsif", "elsif_", "$elsif", "elsif$", // Pass 3.
    "v := ;", "1a := 2;", ":= 1;", "-- v := 1;", "\x0ba.b = 1;", "a.b\x0b= 1;", "a.b == 1;",
    "a.b => 1;", "x a.b = 1;", ".b = 1;", "CASE x WHEN 1 THEN a.b = 1;", "'BEGIN' a.b = 1;",
    "BEGINS a.b = 1;", // Pass 4.
    "SELECT a INTO v", "SELECT a, b INTO v;", "SELECT INTO v;", "SELECT a INTO v w;",
    "(SELECT a INTO v);", "INTO v SELECT a;", "'SELECT a INTO v;'", // Pass 5.
    "RAISE", "RAISE;", "RAISE 'a';", "RAISE INFO'a';", "RAISE INFORMATION;", "'RAISE NOTICE';",
    "RAISES NOTICE;",
];

/// Refusal 4: the text, q and n.
const QUALIFIED: &[(&str, &str, &str)] = &[
    // The table of rows.
    ("NEW.v := 1;", "NEW", "v"),
    // Pass 3.
    ("NEW.v\x0b:= 1;", "NEW", "v"),
    ("a.b.c := 1;", "b", "c"),
    ("a.b = 1;", "a", "b"),
    (" a.b\n= 1;", "a", "b"),
    ("BEGIN a.b = 1;", "a", "b"),
    ("IF c THEN a.b = 1;", "a", "b"),
    ("ELSE a.b = 1;", "a", "b"),
    ("LOOP a.b = 1;", "a", "b"),
    ("CASE END THEN a.b = 1;", "a", "b"),
    ("END CASE END BEGIN a.b = 1;", "a", "b"),
    ("CASE; THEN a.b = 1;", "a", "b"),
    ("v := 1; a.b := 2;", "a", "b"),
    ("c.d = 1 a.b := 2;", "a", "b"),
    ("a.b := 1; c.d := 2;", "a", "b"),
];

/// Refusal 5: the text, and the clause.
const CLAUSES: &[(&str, &str)] = &[
    // The table of rows.
    ("RAISE EXCEPTION USING ERRCODE = '1';", "USING ERRCODE = '1'"),
    // Pass 5.
    ("RAISE EXCEPTION USING MESSAGE = 'a', HINT = 'b';", "USING MESSAGE = 'a', HINT = 'b'"),
    ("RAISE EXCEPTION using message = a ;", "using message = a"),
    ("RAISE EXCEPTION USINGS;", "USINGS"),
    ("x; RAISE EXCEPTION USING", "USING"),
];
