//! The rewriting calls at their limits: results of the greatest length and one byte more, the order of
//! the refusals, and every buffer one short, just long enough and longer.
//!
//! The reference has no limits, so each text stands here with the number that the scope paper's table
//! gives it. Accepted results and what refusals 4 and 5 hand back are the reference's.

use reference::context::PlPgSqlContext;
use reference::preprocessor::PlPgSqlPreprocessor;
use sizes::{BUFFER_SIZE, RECORD_NUMBERS};

use crate::bodies;
use crate::calls::{self, Call, Made, TEXT_LIMIT};
use crate::functions;
use crate::levels;
use crate::report::{Report, Row};
use crate::subject::Outcome;

/// One of the two calls, without a table of levels or with one.
struct Rewriting {
    name: &'static str,
    call: &'static Call,
    table: Option<&'static [u8]>,
    /// For each buffer a length that is too short, the least one, and longer ones.
    lengths: &'static [&'static [usize]],
    cases: fn() -> Vec<Case>,
    /// The outcomes of a text that gives this number, with buffers of each of these lengths.
    outcomes: Outcomes,
}

type Outcomes = fn(&str, Option<&[u8]>, &[Vec<usize>], u32) -> Vec<Outcome>;

/// A text that passes the checks, and the number that it gives.
struct Case {
    number: u32,
    title: &'static str,
    text: String,
}

const BYTES: &[usize] = &[BUFFER_SIZE - 1, BUFFER_SIZE, 70_000];

const NUMBERS: &[usize] = &[RECORD_NUMBERS - 1, RECORD_NUMBERS, RECORD_NUMBERS + 1, 6_000];

const BODY: Rewriting = Rewriting {
    name: "transform_body",
    call: &calls::TRANSFORM_BODY,
    table: None,
    lengths: &[BYTES; 3],
    cases: body_cases,
    outcomes: bodies::limited,
};

const FUNCTION: Rewriting = Rewriting {
    name: "preprocess",
    call: &calls::PREPROCESS,
    table: None,
    lengths: &[BYTES, BYTES, BYTES, BYTES, NUMBERS],
    cases: function_cases,
    outcomes: functions::limited,
};

/// Under a table that equals none the cases are the same.
const REWRITINGS: [Rewriting; 6] = [
    BODY,
    FUNCTION,
    Rewriting {
        name: "transform_body_by_levels",
        call: &calls::TRANSFORM_BODY_BY_LEVELS,
        table: Some(levels::NO_TABLE),
        ..BODY
    },
    Rewriting {
        name: "preprocess_by_levels",
        call: &calls::PREPROCESS_BY_LEVELS,
        table: Some(levels::NO_TABLE),
        ..FUNCTION
    },
    Rewriting {
        name: "the body, all rolling back",
        call: &calls::TRANSFORM_BODY_BY_LEVELS,
        table: Some(ROLLBACK),
        cases: rollback_cases,
        ..BODY
    },
    Rewriting {
        name: "the function, all rolling back",
        call: &calls::PREPROCESS_BY_LEVELS,
        table: Some(ROLLBACK),
        cases: rollback_function_cases,
        ..FUNCTION
    },
];

/// The longest word for every level: `RAISE LOG;` grows from 10 bytes to 25.
const ROLLBACK: &[u8] =
    b"DEBUG rollback\nLOG rollback\nINFO rollback\nNOTICE rollback\nWARNING rollback\n\
    EXCEPTION rollback\n";

pub fn compare() -> Report {
    let mut report = Report::new(&REWRITINGS.map(|one| one.name));
    for (rewriting, row) in REWRITINGS.iter().zip(&mut report.rows) {
        for case in (rewriting.cases)() {
            rewriting.with_all_lengths(&case, row);
            rewriting.refused_ahead(&case, row);
        }
    }
    report
}

impl Rewriting {
    fn with_all_lengths(&self, case: &Case, row: &mut Row) {
        let (short, enough): (Vec<_>, Vec<_>) =
            choices(self.lengths).into_iter().partition(|lengths| self.is_short(lengths));
        for lengths in short {
            self.untouched(case.text.as_bytes(), &lengths, [3, 0, 0, 0], case, row);
        }
        let outcomes = (self.outcomes)(&case.text, self.table, &enough, case.number);
        for (Outcome { expected, got, buffers }, lengths) in outcomes.iter().zip(&enough) {
            let right = expected == got && expected[0] == case.number;
            row.note(right && *buffers, || {
                let held = if *buffers { "right" } else { "wrong" };
                format!(
                    "{}, {} bytes, buffers of {lengths:?}: number {}, {expected:?} expected, \
                     {got:?} got, buffers {held}",
                    case.title,
                    case.text.len(),
                    case.number,
                )
            });
        }
    }

    /// The same text too long, or with bytes over 127 at its front, at its end or alone.
    fn refused_ahead(&self, case: &Case, row: &mut Row) {
        let bytes = case.text.as_bytes();
        let enough: Vec<usize> = self.lengths.iter().map(|lengths| lengths[1]).collect();
        let too_long = [bytes, &vec![b';'; TEXT_LIMIT + 1 - bytes.len()]].concat();
        self.untouched(&too_long, &enough, [1, 0, 0, 0], case, row);
        let (mut first, mut last) = (bytes.to_vec(), bytes.to_vec());
        first[0] = 0x80;
        *last.last_mut().expect("no case is empty") = 0xff;
        self.untouched(&first, &enough, [2, 0, 0, 0], case, row);
        self.untouched(&last, &enough, [2, bytes.len() as u32 - 1, 0, 0], case, row);
        self.untouched(&[0xc3], &enough, [2, 0, 0, 0], case, row);
    }

    /// A call that is refused by its checks writes nothing.
    fn untouched(
        &self,
        text: &[u8],
        lengths: &[usize],
        answer: [u32; 4],
        case: &Case,
        row: &mut Row,
    ) {
        let made = self.call.make(text, lengths, self.table.unwrap_or_default());
        row.note(made == Made { answer, is_untouched: true }, || {
            let held = if made.is_untouched { "untouched" } else { "written" };
            format!(
                "{}, {} bytes, buffers of {lengths:?}: {answer:?} expected, {:?} got, buffers {held}",
                case.title,
                text.len(),
                made.answer,
            )
        });
    }

    fn is_short(&self, lengths: &[usize]) -> bool {
        lengths.iter().zip(self.lengths).any(|(length, lengths)| *length < lengths[1])
    }
}

/// Every choice of one length for each buffer.
fn choices(lengths: &[&[usize]]) -> Vec<Vec<usize>> {
    let Some((first, rest)) = lengths.split_first() else {
        return vec![vec![]];
    };
    let behind = choices(rest);
    let with =
        |length: &usize| behind.iter().map(|rest| [&[*length], &rest[..]].concat()).collect();
    first.iter().flat_map(|length| -> Vec<Vec<usize>> { with(length) }).collect()
}

/// Passes 1 to 3 cannot give 6: their results have at most three times the text's bytes. So 4 is
/// before 6 only as an earlier pass, and 5 before 6 also in the same pass.
fn body_cases() -> Vec<Case> {
    let case = |number, title, text| Case { number, title, text };
    let growing = "RAISE EXCEPTION;".repeat(20);
    let using = "RAISE EXCEPTION USING ERRCODE = '1';";
    let long = "n".repeat(8_000);
    vec![
        case(0, "the longest text", "x".repeat(TEXT_LIMIT)),
        case(0, "assignments of the longest text", "a:=1;".repeat(TEXT_LIMIT / 5)),
        case(0, "result of 65,535", blown(BUFFER_SIZE - 1, "")),
        case(0, "result of 65,536", blown(BUFFER_SIZE, "")),
        case(6, "result of 65,537", blown(BUFFER_SIZE + 1, "")),
        case(6, "result of 70,000", blown(70_000, "")),
        case(6, "result of 16 million", "SELECT ".to_string() + &pairs(1_900, 8_000)),
        case(0, "pass 5 grows to 65,536", blown(BUFFER_SIZE - 6, "RAISE EXCEPTION;")),
        case(6, "pass 5 grows to 65,537", blown(BUFFER_SIZE - 5, "RAISE EXCEPTION;")),
        case(6, "pass 5 grows from 65,536", blown(BUFFER_SIZE, "RAISE EXCEPTION;")),
        case(0, "pass 5 shrinks from 65,536", blown(BUFFER_SIZE, "RAISE LOG;")),
        case(6, "pass 5 would shrink from 65,537", blown(BUFFER_SIZE + 1, "RAISE LOG;")),
        case(6, "pass 5 would shrink to 65,536", blown(BUFFER_SIZE + 10, "RAISE LOG;")),
        case(5, "5 in pass 5 after its output passed 65,536", {
            blown(BUFFER_SIZE, &format!("{growing}{using}"))
        }),
        case(5, "5 in pass 5 before its output passes 65,536", {
            blown(BUFFER_SIZE, &format!("{using}{growing}"))
        }),
        case(5, "5 with a result of 65,536 so far", blown(BUFFER_SIZE, using)),
        case(6, "6 in pass 4 before 5 in pass 5", blown(BUFFER_SIZE + 1, using)),
        case(4, "4 in pass 3 before 6 in pass 4", blown(70_000, "") + "NEW.v := 1;"),
        case(4, "4 in pass 3 before 5 in pass 5", format!("{using}NEW.v := 1;")),
        case(4, "4 with a target of 16,001 bytes", format!("{long}.{long}:=1;")),
        case(5, "5 with a clause of 8,007 bytes", format!("RAISE EXCEPTION USING x{long}")),
    ]
}

/// Results on both sides of the limit where every RAISE becomes a ROLLBACK, also of the longest texts, and
/// the order of the refusals for a level that is dropped without a table.
fn rollback_cases() -> Vec<Case> {
    let case = |number, title, text| Case { number, title, text };
    let (log, using) = ("RAISE LOG;", "RAISE LOG USING x;");
    let many = log.repeat(30);
    let before = BUFFER_SIZE - 30 * ROLLBACK_GROWTH;
    vec![
        case(0, "many RAISE LOG", log.repeat(TEXT_LIMIT / log.len())),
        case(0, "one RAISE LOG grows to 65,536", blown(BUFFER_SIZE - ROLLBACK_GROWTH, log)),
        case(6, "one RAISE LOG grows to 65,537", blown(BUFFER_SIZE - ROLLBACK_GROWTH + 1, log)),
        case(6, "one RAISE LOG grows from 65,536", blown(BUFFER_SIZE, log)),
        case(0, "30 RAISE LOG grow to 65,536", blown(before, &many)),
        case(6, "30 RAISE LOG grow to 65,537", blown(before + 1, &many)),
        case(0, "the longest text, result of 65,536", longest(BUFFER_SIZE)),
        case(6, "the longest text, result of 65,537", longest(BUFFER_SIZE + 1)),
        case(5, "5 for LOG", using.to_string()),
        case(5, "5 for LOG after its output passed 65,536", {
            blown(BUFFER_SIZE, &format!("{log}{using}"))
        }),
        case(5, "5 for LOG before its output passes 65,536", {
            blown(BUFFER_SIZE, &format!("{using}{log}"))
        }),
        case(6, "6 in pass 4 before 5 for LOG", blown(BUFFER_SIZE + 1, using)),
        case(4, "4 in pass 3 before 5 for LOG", format!("{using}NEW.v := 1;")),
    ]
}

/// How much longer a RAISE LOG becomes.
const ROLLBACK_GROWTH: usize = "SELECT RAISE(ROLLBACK, );".len() - "RAISE LOG;".len();

/// A text of the greatest length with many RAISE LOG, and a result of this length where they roll back.
fn longest(result: usize) -> String {
    let sizes = (90..=100).flat_map(|count| (300..500).map(move |table| (count, table)));
    let of_size = |(count, table): (usize, usize)| {
        let front = format!("SELECT {}", pairs(count, table));
        let growth = rewritten(&front).len() - front.len();
        let left = result - TEXT_LIMIT - growth;
        let raises = "RAISE LOG;".repeat(left / ROLLBACK_GROWTH);
        let filling = TEXT_LIMIT - front.len() - 1 - raises.len();
        let text = format!("{front}{};{raises}", "x".repeat(filling));
        left.is_multiple_of(ROLLBACK_GROWTH).then_some(text)
    };
    sizes.into_iter().find_map(of_size).expect("a growth that many RAISE LOG fill up")
}

fn rollback_function_cases() -> Vec<Case> {
    let case = |number, title, text| Case { number, title, text };
    let using = "RAISE LOG USING x;";
    let (most, over) = (declared(512), declared(513));
    let mut cases = rollback_cases();
    cases.extend([
        case(7, "7 before 5 for LOG", format!("{over} {using}")),
        case(5, "5 for LOG behind 512 names", format!("{most} {using}")),
        case(0, "names and a result of 65,536", {
            declared(300) + ";" + &blown(BUFFER_SIZE - 6 - ROLLBACK_GROWTH, "RAISE LOG;")
        }),
        case(6, "names and a result of 65,537", {
            declared(300) + ";" + &blown(BUFFER_SIZE - 5 - ROLLBACK_GROWTH, "RAISE LOG;")
        }),
    ]);
    cases
}

/// The same texts, which hold no DECLARE and no BEGIN, and functions with declarations.
fn function_cases() -> Vec<Case> {
    let mut cases = body_cases();
    cases.extend(name_cases());
    cases.extend(no_type_cases());
    cases.extend(order_cases());
    cases
}

/// Up to 512 names and over, and long texts of names.
fn name_cases() -> [Case; 8] {
    let case = |number, title, text| Case { number, title, text };
    let most = declared(512);
    let quotes = "'".repeat(16_000);
    [
        case(0, "511 names", declared(511)),
        case(0, "512 names", most.clone()),
        case(0, "512 names with both marks", most.replace(" t;", " CONSTANT t NOT NULL;")),
        case(0, "512 names, all declared again", most.replace("BEGIN", &names(512)) + "BEGIN"),
        case(
            0,
            "names up to the longest text",
            format!("{most}{}", " ".repeat(TEXT_LIMIT - most.len())),
        ),
        case(7, "513 names", declared(513)),
        case(7, "1,500 names", declared(1_500)),
        case(0, "a default of 32,002 bytes", format!("DECLARE a b := $1${quotes}$1$;\nBEGIN")),
    ]
}

/// A declaration that has no type left does not count as a name.
fn no_type_cases() -> [Case; 5] {
    let case = |number, title, text| Case { number, title, text };
    let (most, over) = (declared(512), declared(513));
    let behind = |text: &str, parts: &str| text.replace("BEGIN", &format!("{parts}BEGIN"));
    let three = "x NOT NULL;v0 CONSTANT NOT NULL;y constant := 1;";
    [
        case(0, "512 names and one with no type left", behind(&most, "x CONSTANT;")),
        case(0, "512 names and three with no type left", behind(&most, three)),
        case(0, "513 names, one with no type left", over.replace("v300 t;", "v300 CONSTANT;")),
        case(7, "513 names, the last first with no type left", behind(&most, "x CONSTANT;x t;")),
        case(7, "513 names and one with no type left", behind(&over, "x NOT NULL;")),
    ]
}

/// Which refusal comes first, and results at the limit behind declarations.
fn order_cases() -> [Case; 7] {
    let case = |number, title, text| Case { number, title, text };
    let using = "RAISE EXCEPTION USING x;";
    let (most, over) = (declared(512), declared(513));
    [
        case(7, "7 before 4", format!("{over} NEW.v := 1;")),
        case(7, "7 before 5", format!("{over} {using}")),
        case(7, "7 before 6", over + ";SELECT " + &pairs(1_000, 5_000)),
        case(4, "4 behind 512 names", format!("{most} NEW.v := 1;")),
        case(5, "5 behind 512 names", format!("{most} {using}")),
        case(6, "6 behind 300 names", declared(300) + ";" + &blown(BUFFER_SIZE - 5, "")),
        case(0, "names and a result of 65,536", declared(300) + ";" + &blown(BUFFER_SIZE - 6, "")),
    ]
}

/// A function that declares so many names, not in the order of their bytes.
pub fn declared(count: usize) -> String {
    format!("DECLARE {}BEGIN", names(count))
}

fn names(count: usize) -> String {
    (0..count).map(|index| format!("v{} t;", (index * 7_919) % count)).collect()
}

/// A text whose result after pass 4 has exactly `size` bytes, with `rest` at its end. The rest may
/// hold RAISE statements and nothing else that is rewritten.
pub fn blown(size: usize, rest: &str) -> String {
    let inert = rest.replace("RAISE", "RAISX");
    let front = format!("SELECT {}", pairs(100, 600));
    let length = rewritten(&format!("{front};{inert}")).len();
    let filling = "x".repeat(size - length);
    assert_eq!(rewritten(&format!("{front}{filling};{inert}")).len(), size, "{rest}");
    format!("{front}{filling};{rest}")
}

/// So many columns into as many variables, from a table with a name of this length.
fn pairs(count: usize, table: usize) -> String {
    let (columns, variables) = (vec!["a"; count].join(","), vec!["v"; count].join(","));
    format!("{columns} INTO {variables} FROM {};", "t".repeat(table))
}

fn rewritten(text: &str) -> String {
    PlPgSqlPreprocessor::transform_body(text, &PlPgSqlContext::new()).expect("nothing to refuse")
}
