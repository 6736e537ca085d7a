//! The limits and refusals of the function call: those of the body call, 7 for over 512 different
//! names behind the checks, and the five lent lengths. The scope paper says what must come.

use std::io::{self, Write};

use reference::constants::Variable;
use sizes::NAMES;

use crate::body_limits::{self, select_into, set_lines};
use crate::lent::{enough, short};
use crate::runs::{Run, Runs, LONGEST};
use crate::stored_call::{write_all, Answer, Function, FUNCTION_LEAST, FUNCTION_LONGER, LIMIT};

pub fn write(out: &mut impl Write) -> io::Result<()> {
    let enough = enough(FUNCTION_LEAST, FUNCTION_LONGER);
    let short = short(FUNCTION_LEAST, FUNCTION_LONGER);
    write_all(checked(), &enough, out)?;
    write_all(too_long(), &[&enough[..], &short].concat(), out)?;
    write_all(too_short(), &short, out)?;
    write_all(not_ascii(), &[FUNCTION_LEAST, FUNCTION_LONGER], out)
}

/// Functions that pass the checks.
fn checked() -> impl Iterator<Item = Function> {
    let bodies = body_limits::checked().map(Function::from);
    let names = names_pass().chain(marked_names()).chain(uncounted_names());
    bodies.chain(names).chain([longest_default()]).chain(long_results()).chain(orders())
}

/// So many names, not in the order of their bytes.
fn names(count: usize) -> Vec<Variable> {
    let name = |index: usize| format!("v{}", index * 7_919 % count);
    (0..count).map(|index| Variable::unmarked(&name(index), "t", None)).collect()
}

/// The declarations as a text, each with a semicolon behind it.
fn block(declared: &[Variable]) -> String {
    declared.iter().map(part).collect()
}

fn part(Variable { name, data_type, default, is_constant, is_not_null }: &Variable) -> String {
    let constant = if *is_constant { "CONSTANT " } else { "" };
    let not_null = if *is_not_null { " NOT NULL" } else { "" };
    let default = default.as_ref().map_or(String::new(), |default| format!(":={default}"));
    format!("{name} {constant}{data_type}{not_null}{default};")
}

/// A block of declarations, and a body behind it that begins with BEGIN.
fn text(block: &str, body: &[Run]) -> Runs {
    let front = [(1, &b"DECLARE "[..])];
    let block = block.as_bytes().chunks(LONGEST).map(|chunk| (1, chunk));
    let all: Vec<Run> = front.into_iter().chain(block).chain(body.iter().copied()).collect();
    Runs::new(&all)
}

/// A function that declares so many names, with this body behind them.
pub fn declaring(count: usize, body: &[Run]) -> Runs {
    text(&block(&names(count)), body)
}

/// An accepted function whose body passes as it is.
fn accepted(block: &str, body: &[Run], declared: &[Variable]) -> Function {
    let answer = Answer { number: 0, place: 0, output: Runs::new(body) };
    Function::new(text(block, body), answer, declared)
}

const BEGIN: Run = (1, b"BEGIN");

/// Up to 512 different names pass.
fn names_pass() -> impl Iterator<Item = Function> {
    let most = names(NAMES);
    let most_block = block(&most);
    // All declared again, with a default.
    let again: Vec<_> =
        most.iter().map(|one| Variable::unmarked(&one.name, "u", Some("1"))).collect();
    // One of them declared again as the declaration of number 513.
    let mut repeated = names(NAMES);
    repeated[NAMES / 2].data_type = "w".to_string();
    let last = part(&repeated[NAMES / 2]);
    let long_name = |index: usize| format!("v{index:0>22}");
    let long: Vec<_> =
        (0..NAMES).map(|index| Variable::unmarked(&long_name(index), "int", Some("1"))).collect();
    let spaces = (LIMIT - "DECLARE BEGIN".len() - most_block.len(), &b" "[..]);
    [
        accepted(&block(&names(NAMES - 1)), &[BEGIN], &names(NAMES - 1)),
        accepted(&most_block, &[BEGIN], &most),
        accepted(&most_block, &[BEGIN, spaces], &most),
        accepted(&format!("{most_block}{}", block(&again)), &[BEGIN], &again),
        accepted(&format!("{most_block}{last}"), &[BEGIN], &repeated),
        // No further name: fewer than two words.
        accepted(&format!("{most_block}x;x:=1;"), &[BEGIN], &most),
        accepted(&block(&long), &[BEGIN], &long),
    ]
    .into_iter()
}

/// As many names with both marks, and with one each.
fn marked_names() -> [Function; 2] {
    let both = names(NAMES).into_iter().map(|one| Variable {
        is_constant: true,
        is_not_null: true,
        ..one
    });
    let one_each = names(NAMES).into_iter().enumerate().map(|(index, one)| Variable {
        is_constant: index % 2 == 0,
        is_not_null: index % 2 == 1,
        ..one
    });
    [both.collect(), one_each.collect()]
        .map(|marked: Vec<_>| accepted(&block(&marked), &[BEGIN], &marked))
}

/// A declaration that has no type left does not count, and leaves an earlier one of its name.
fn uncounted_names() -> [Function; 6] {
    let most = names(NAMES);
    let most_block = block(&most);
    let [first, last] = [&most[0].name, &most[NAMES - 1].name];
    // One of 513 names does not count.
    let over = names(NAMES + 1);
    let (front, behind) = over.split_at(NAMES / 2);
    let [uncounted, behind @ ..] = behind else { unreachable!("there are over 512 names") };
    let one_less = [front, behind].concat();
    let among = format!("{}{} CONSTANT;{}", block(front), uncounted.name, block(behind));
    let alone: String = (0..600).map(|index| format!("x{index} NOT NULL;")).collect();
    [
        accepted(&format!("{most_block}x CONSTANT;"), &[BEGIN], &most),
        accepted(&format!("{most_block}x NOT NULL:=1;y CONSTANT NOT NULL;"), &[BEGIN], &most),
        accepted(&format!("x constant;{most_block}"), &[BEGIN], &most),
        accepted(&format!("{most_block}{first} CONSTANT;{last} NOT NULL;"), &[BEGIN], &most),
        accepted(&among, &[BEGIN], &one_less),
        accepted(&alone, &[BEGIN], &[]),
    ]
}

/// The longest default, whose quotes are doubled.
fn longest_default() -> Function {
    let count = LIMIT - "DECLARE a b := $1$$1$;BEGIN ".len();
    let default = "'".repeat(2 * count + 2);
    let block = format!("a b := $1${}$1$;", "'".repeat(count));
    accepted(&block, &[(1, b"BEGIN ")], &[Variable::unmarked("a", "b", Some(&default))])
}

/// Results of 65,536 bytes and of one more behind declarations: 6 for BEGIN and its semicolon, 65,519
/// for the lines, and some letters.
fn long_results() -> [Function; 2] {
    let declared = names(300);
    let front = format!("DECLARE {}BEGIN;", block(&declared));
    let text = |letters| select_into(1_872, &[(letters, b"a")]).after(&[(1, front.as_bytes())]);
    let output = set_lines(1_872, &[(11, b"a")]).after(&[(1, b"BEGIN;")]);
    [
        Function::new(text(11), Answer { number: 0, place: 0, output }, &declared),
        Function::new(text(12), Answer::refused(6, 0), &[]),
    ]
}

/// 7 comes before 4, 5 and 6, and these leave no records.
fn orders() -> impl Iterator<Item = Function> {
    let (most, over) = (block(&names(NAMES)), block(&names(NAMES + 1)));
    let refused = |text, answer| Function::new(text, answer, &[]);
    let too_many = |text| refused(text, Answer::refused(7, 0));
    let target = (1, &b" NEW.v := 1;"[..]);
    let clause = (1, &b" RAISE EXCEPTION USING x;"[..]);
    let front = format!("DECLARE {over}BEGIN;");
    [
        too_many(text(&over, &[BEGIN])),
        too_many(text(&block(&names(1_500)), &[BEGIN])),
        too_many(text(&format!("{most}x y "), &[BEGIN])),
        // The last name counts though it was declared with no type left before.
        too_many(text(&format!("{most}x CONSTANT;x y "), &[BEGIN])),
        too_many(text(&format!("{over}x CONSTANT;"), &[BEGIN])),
        too_many(text(&over, &[BEGIN, target])),
        too_many(text(&over, &[BEGIN, clause])),
        too_many(select_into(1_873, &[]).after(&[(1, front.as_bytes())])),
        refused(text(&most, &[BEGIN, target]), Answer::qualified("NEW", "v")),
        refused(text(&most, &[BEGIN, clause]), Answer::clause("USING x")),
    ]
    .into_iter()
}

/// Refusal 1 comes before 3, 2 and 7.
fn too_long() -> impl Iterator<Item = Function> {
    let one_longer = [NAMES, NAMES + 1].map(|count| {
        let block = block(&names(count));
        let spaces = (LIMIT + 1 - "DECLARE BEGIN".len() - block.len(), &b" "[..]);
        Function::new(text(&block, &[BEGIN, spaces]), Answer::refused(1, 0), &[])
    });
    body_limits::too_long().map(Function::from).chain(one_longer)
}

/// Refusal 3 comes before 2, 7 and any pass.
fn too_short() -> impl Iterator<Item = Function> {
    let names = [NAMES, NAMES + 1].map(|count| text(&block(&names(count)), &[BEGIN]));
    let names = names.into_iter().map(|text| Function::new(text, Answer::refused(3, 0), &[]));
    body_limits::too_short().map(Function::from).chain(names)
}

/// Refusal 2 comes before 7, also for a byte in a declaration.
fn not_ascii() -> impl Iterator<Item = Function> {
    let over = block(&names(NAMES + 1));
    let texts = [
        (text(&over, &[BEGIN, (1, b"\x80")]), "DECLARE BEGIN".len() + over.len()),
        (text("a\u{e9} int;", &[BEGIN]), "DECLARE a".len()),
        (text("a int := '", &[(1, b"\xe9';BEGIN")]), "DECLARE a int := '".len()),
    ];
    let named = texts.map(|(text, place)| Function::new(text, Answer::refused(2, place), &[]));
    body_limits::not_ascii().map(Function::from).chain(named)
}

#[cfg(test)]
mod tests {
    use super::*;
    use crate::answer::preprocessed;
    use reference::reading::Reading;
    use reference::reasons::Reasons;
    use sizes::BUFFER_SIZE;

    fn text_of(function: &Function) -> String {
        let text = String::from_utf8(function.text.bytes()).unwrap();
        assert!(text.len() <= LIMIT, "{}", text.len());
        text
    }

    /// The reference has no limits, so it gives the same where none is met. Of these texts only those
    /// with a declaration that has no type left are respelled for it.
    #[test]
    fn the_reference_agrees_up_to_the_limits() {
        for expected in checked() {
            let text = text_of(&expected);
            let reasons = Reasons { no_type_left: false, ..Reasons::of(&text) };
            assert!(reasons.is_none(), "{text}");
            let got = preprocessed(&text).unwrap().unwrap();
            if ![6, 7].contains(&expected.answer.number) {
                assert_eq!(got.answer.number, expected.answer.number, "{text}");
                assert_eq!(got.answer.place, expected.answer.place, "{text}");
                assert!(got.answer.output.bytes() == expected.answer.output.bytes(), "{text}");
                assert!(got.records == expected.records, "{text}");
                assert!(got.answer.output.len() <= BUFFER_SIZE, "{text}");
            }
        }
    }

    #[test]
    fn over_512_names_are_declared_exactly_at_7() {
        for function in checked() {
            let read = Reading::wanted(&text_of(&function)).unwrap().unwrap();
            let is_over = read.order.len() > NAMES;
            assert_eq!(is_over, function.answer.number == 7, "{}", function.text);
        }
    }

    #[test]
    fn the_longest_texts_and_results_are_reached() {
        let lengths: Vec<_> = names_pass().map(|function| text_of(&function).len()).collect();
        assert!(lengths.contains(&LIMIT));
        assert_eq!(text_of(&longest_default()).len(), LIMIT);
        let output = |function| preprocessed(&text_of(&function)).unwrap().unwrap().answer.output;
        assert_eq!(long_results().map(|one| output(one).len()), [BUFFER_SIZE, BUFFER_SIZE + 1]);
    }
}
