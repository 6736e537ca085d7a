//! Wrong answers to searches, for the program `replay`: a right answer with one change. All of them
//! must differ, so they show that the program compares.

use std::io::Write;
use std::ops::Range;

use crate::hex;
use crate::question::Question;
use crate::runs::Runs;
use crate::stored::line;
use crate::stored_call::spaced;
use crate::stored_limits::KINDS;
use crate::wrong::{beside, changed, changed_bytes};
use crate::Stop;

/// A text where each search finds something but the unterminated quote, one with that, and the
/// empty text.
const TEXTS: [&str; 3] = ["a; b := $t$c'd$t$; EXCEPTION WHEN e THEN", "$$a", ""];

/// The fields of the four numbers of an answer, and the first one of its result.
const NUMBERS: Range<usize> = 3..7;
const RESULT: usize = 7;

pub fn write(out: &mut impl Write) -> Result<(), Stop> {
    for text in TEXTS {
        let lines: Result<Vec<String>, String> = questions(text).iter().map(line).collect();
        write_wrong(&Runs::one(text.as_bytes()), &lines.map_err(Stop::Question)?, out)?;
    }
    // Refusal 2 at place 1.
    let refused: Vec<String> = KINDS.chars().map(|kind| format!("{kind} - 0 2 0 1 0")).collect();
    write_wrong(&Runs::with_byte(2, 1, 200), &refused, out)
}

/// The text, and the lines with wrong answers that are made of these.
fn write_wrong(text: &Runs, lines: &[String], out: &mut impl Write) -> Result<(), Stop> {
    writeln!(out, "t {text}\nx")?;
    for line in lines {
        for wrong in wrong_lines(line).map_err(Stop::Question)? {
            writeln!(out, "{wrong}")?;
        }
    }
    Ok(())
}

fn questions(text: &str) -> [Question; 10] {
    let own = || text.to_string();
    [
        Question::Regions(own()),
        Question::FindKeyword(own(), "B".to_string(), 1),
        Question::FindInCode(own(), b';'),
        Question::FindStrInCode(own(), ":=".to_string()),
        Question::NextWordInCode(own(), 2),
        Question::SplitInCode(own(), b';'),
        Question::Requote(own()),
        Question::RequotedLength(own()),
        Question::Unterminated(own()),
        Question::Handler(own()),
    ]
}

/// All lines with one change in the answer.
fn wrong_lines(line: &str) -> Result<Vec<String>, String> {
    let fields: Vec<String> = line.split(' ').map(str::to_string).collect();
    let mut lines = Vec::new();
    for index in NUMBERS {
        for number in beside(decimal(&fields[index])?) {
            let mut wrong = fields.clone();
            wrong[index] = number.to_string();
            lines.push(wrong.join(" "));
        }
    }
    let (front, result) = fields.split_at(RESULT);
    let results = if result.is_empty() { Vec::new() } else { wrong_results(&fields[0], result)? };
    lines.extend(results.iter().map(|wrong| format!("{} {wrong}", front.join(" "))));
    Ok(lines)
}

/// All results with one change: a map, starts of pieces, or a requoted text.
fn wrong_results(kind: &str, result: &[String]) -> Result<Vec<String>, String> {
    match kind {
        "m" => Ok(wrong_maps(&result[0])),
        "p" => wrong_starts(result),
        "q" => {
            let texts = changed_bytes(&hex::decode(&result[0])?);
            Ok(texts.iter().map(|text| hex::encode(text)).collect())
        }
        _ => Err(format!("the search `{kind}` has no result")),
    }
}

fn wrong_starts(result: &[String]) -> Result<Vec<String>, String> {
    let starts: Result<Vec<usize>, String> = result.iter().map(|start| decimal(start)).collect();
    let lists = changed(&starts?, |start| start + 1, 0);
    Ok(lists.iter().map(|list| spaced(list)).collect())
}

fn wrong_maps(map: &str) -> Vec<String> {
    let digits: Vec<char> = map.chars().filter(char::is_ascii_digit).collect();
    let other = |digit: &char| if *digit == '0' { '1' } else { '0' };
    changed(&digits, other, '0').iter().map(String::from_iter).collect()
}

fn decimal(field: &str) -> Result<usize, String> {
    field.parse().map_err(|_| format!("`{field}` is no number"))
}

#[cfg(test)]
mod tests {
    use super::*;

    #[test]
    fn each_change_makes_one_difference() {
        let wrong = |line| wrong_lines(line).unwrap();
        assert_eq!(
            wrong("k 42 1 0 1 3 0"),
            [
                "k 42 1 1 1 3 0", "k 42 1 0 0 3 0", "k 42 1 0 2 3 0", "k 42 1 0 1 2 0",
                "k 42 1 0 1 4 0", "k 42 1 0 1 3 1",
            ]
        );
        let results = |line| wrong(line).split_off(4);
        let maps = ["m - 0 0 0 0 0 11", "m - 0 0 0 0 0 00", "m - 0 0 0 0 0 0", "m - 0 0 0 0 0 010"];
        assert_eq!(results("m - 0 0 0 0 0 01"), maps);
        assert_eq!(results("m - 0 0 0 0 0 -"), ["m - 0 0 0 0 0 0"]);
        assert_eq!(results("q - 0 0 0 0 0 -"), ["q - 0 0 0 0 0 61"]);
        let lengths = ["n - 0 0 0 0 6", "n - 0 0 0 0 8"];
        assert_eq!(wrong("n - 0 0 0 0 7").split_off(3), lengths);
    }

    /// The flags of the searches that find a place or a fact, in the order of their letters.
    #[test]
    fn the_searches_find_something() {
        let found = |text| -> String {
            let lines = questions(text).map(|question| line(&question).unwrap());
            let seeking = lines.iter().filter(|line| !line.starts_with(['m', 'p', 'q', 'n']));
            seeking.map(|line| line.split(' ').nth(4).unwrap()).collect()
        };
        assert_eq!(TEXTS.map(found), ["111101", "000010", "000000"]);
    }
}
