//! Wrong answers to rewriting calls, for the program `replay_calls`: a right answer with one change.
//! All of them must differ, so they show that the program compares.

use std::io::{self, Write};

use reference::constants::Variable;
use sizes::{BUFFER_SIZE, RECORD};

use crate::body_limits::{select_into, set_lines};
use crate::runs::Runs;
use crate::stored_call::{spaced, Answer, Body, Function, FUNCTION_LEAST, FUNCTION_LONGER, LIMIT};
use crate::wrong::{beside, changed_bytes};

/// How many pairs and letters behind them give the longest result.
const PAIRS: usize = 1_872;
const BEHIND: usize = 17;

/// The marks at the end of a record.
const MARKS: usize = 2;

pub fn write(out: &mut impl Write) -> io::Result<()> {
    for (body, lent) in bodies() {
        let function = Function::from(body);
        write_wrong('b', &function, lent, out)?;
        write_wrong('f', &function, lent, out)?;
    }
    write_wrong('f', &declaring(), FUNCTION_LONGER, out)?;
    write_wrong('f', &too_many_names(), FUNCTION_LEAST, out)
}

/// Accepted bodies, and one for each refusal of the body call, with what is lent. The body call
/// takes the first three lengths.
fn bodies() -> [(Body, [usize; 5]); 8] {
    let mut short = FUNCTION_LEAST;
    short[0] = BUFFER_SIZE - 1;
    let refused = |text, number, place| Body { text, answer: Answer::refused(number, place) };
    let output = set_lines(PAIRS, &[(BEHIND, b"a")]);
    let answer = Answer { number: 0, place: 0, output };
    let longest = Body { text: select_into(PAIRS, &[(BEHIND, b"a")]), answer };
    [
        (Body::new("v := 1;", Answer::accepted("SET v = 1;")), FUNCTION_LONGER),
        (longest, FUNCTION_LONGER),
        (refused(Runs::letters(LIMIT + 1), 1, 0), FUNCTION_LEAST),
        (refused(Runs::with_byte(2, 1, 200), 2, 1), FUNCTION_LEAST),
        (refused(Runs::letters(1), 3, 0), short),
        (Body::new("NEW.v := 1;", Answer::qualified("NEW", "v")), FUNCTION_LEAST),
        (Body::new("RAISE EXCEPTION USING x;", Answer::clause("USING x")), FUNCTION_LEAST),
        (refused(select_into(PAIRS + 1, &[]), 6, 0), FUNCTION_LEAST),
    ]
}

/// A function with two records, each with one of the marks, so that the last number is not 0.
pub fn declaring() -> Function {
    let declared = [
        Variable { is_constant: true, ..Variable::unmarked("b", "t", None) },
        Variable { is_not_null: true, ..Variable::unmarked("a", "t", Some("12")) },
    ];
    let text = Runs::one(b"DECLARE b CONSTANT t; a t NOT NULL := 12; BEGIN x");
    Function::new(text, Answer::accepted("BEGIN x"), &declared)
}

/// Refusal 7.
fn too_many_names() -> Function {
    let parts: String = (0..513).map(|index| format!("v{index} t;")).collect();
    let text = Runs::one(format!("DECLARE {parts}BEGIN").as_bytes());
    Function::new(text, Answer::refused(7, 0), &[])
}

/// What the list says of a call.
#[derive(Clone)]
struct Said {
    numbers: [usize; 4],
    output: String,
    declared: Vec<u8>,
    records: Vec<u32>,
}

impl Said {
    fn new(Function { answer, records, .. }: &Function) -> Self {
        Self {
            numbers: [answer.number, answer.place, answer.output.len(), records.count()],
            output: answer.output.to_string(),
            declared: records.text.clone(),
            records: records.numbers.clone(),
        }
    }

    /// Each of the four numbers wrong.
    fn wrong_numbers(&self) -> Vec<Self> {
        let wrong = |index: usize| {
            beside(self.numbers[index]).into_iter().map(move |number| {
                let mut said = self.clone();
                said.numbers[index] = number;
                said
            })
        };
        (0..self.numbers.len()).flat_map(wrong).collect()
    }

    fn with_output(&self, output: &Runs) -> Self {
        Self { output: output.to_string(), ..self.clone() }
    }

    /// A wrong declaration text.
    fn wrong_declared(&self) -> Vec<Self> {
        let texts = changed_bytes(&self.declared).into_iter();
        texts.map(|declared| Self { declared, ..self.clone() }).collect()
    }

    /// Each record number wrong, each mark that is set as one that is not, one number more, the last one
    /// missing, and the last record missing.
    fn wrong_records(&self) -> Vec<Self> {
        let numbers = &self.records;
        let with = |index: usize, number: u32| {
            let mut list = numbers.clone();
            list[index] = number;
            list
        };
        let mut lists = vec![[&numbers[..], &[1]].concat()];
        lists.extend((0..numbers.len()).map(|index| with(index, numbers[index] + 1)));
        let is_mark = |index: &usize| index % RECORD >= RECORD - MARKS && numbers[*index] == 1;
        lists.extend((0..numbers.len()).filter(is_mark).map(|index| with(index, 0)));
        // Without records there are zeros alone, and fewer of them say the same.
        if numbers.iter().any(|number| *number > 0) {
            lists.extend([1, RECORD].map(|missing| numbers[..numbers.len() - missing].to_vec()));
        }
        lists.into_iter().map(|records| Self { records, ..self.clone() }).collect()
    }

    fn write(&self, kind: char, lent: [usize; 5], out: &mut impl Write) -> io::Result<()> {
        writeln!(out, "e {}", self.output)?;
        if !self.declared.is_empty() {
            writeln!(out, "d {}", Runs::one(&self.declared))?;
        }
        if !self.records.is_empty() {
            writeln!(out, "n {}", spaced(&self.records))?;
        }
        writeln!(out, "l {}", spaced(&lent))?;
        writeln!(out, "{kind} {}", spaced(&self.numbers))
    }
}

/// Outputs with one change.
fn wrong_outputs(output: &Runs) -> Vec<Runs> {
    if output.len() < BUFFER_SIZE {
        return changed_bytes(&output.bytes()).iter().map(|bytes| Runs::one(bytes)).collect();
    }
    // The longest result: its last byte is another, is missing, or has one more behind it.
    let last = [(BEHIND - 1, &b"a"[..]), (1, b"b")];
    vec![
        set_lines(PAIRS, &last),
        set_lines(PAIRS, &last[..1]),
        set_lines(PAIRS, &[(BEHIND + 1, b"a")]),
    ]
}

/// All that can be said of a call with one change. After refusals 1, 2 and 3 the list says nothing
/// about the buffers, and of a body call nothing about declarations.
fn wrong(kind: char, function: &Function) -> Vec<Said> {
    let right = Said::new(function);
    let mut list = right.wrong_numbers();
    if (1..=3).contains(&function.answer.number) {
        return list;
    }
    let outputs = wrong_outputs(&function.answer.output);
    list.extend(outputs.iter().map(|output| right.with_output(output)));
    if kind.eq_ignore_ascii_case(&'f') {
        list.extend(right.wrong_declared());
        list.extend(right.wrong_records());
    }
    list
}

/// A call of this kind with all that can be said wrong of it.
pub fn write_wrong(
    kind: char,
    function: &Function,
    lent: [usize; 5],
    out: &mut impl Write,
) -> io::Result<()> {
    for said in wrong(kind, function) {
        writeln!(out, "t {}", function.text)?;
        said.write(kind, lent, out)?;
    }
    Ok(())
}

#[cfg(test)]
mod tests {
    use super::*;
    use crate::answer::preprocessed;
    use reference::reasons::Reasons;

    /// The answers are right before they are changed, and no text has left the comparison.
    #[test]
    fn the_reference_agrees() {
        let bodies = bodies().into_iter().map(|(body, _)| Function::from(body));
        for expected in bodies.chain([declaring()]) {
            if matches!(expected.answer.number, 0 | 4 | 5) {
                let text = String::from_utf8(expected.text.bytes()).unwrap();
                assert!(Reasons::of(&text).is_none(), "{text}");
                let got = preprocessed(&text).unwrap().unwrap();
                assert_eq!(got.answer.number, expected.answer.number, "{}", expected.text);
                assert_eq!(got.answer.place, expected.answer.place, "{}", expected.text);
                assert!(got.answer.output.bytes() == expected.answer.output.bytes());
                assert_eq!(Said::new(&got).records, Said::new(&expected).records);
                assert_eq!(got.records.text, expected.records.text);
            }
        }
    }
}
