//! The ten searches: each is asked several questions about a text, and so is the reference.

use library::Answer;
use reference::preprocessor::PlPgSqlPreprocessor;
use reference::scanner::Scanner;

use crate::lent::Lent;
use crate::questions;
use crate::report::Row;
use crate::subject::{Outcome, Subject};

pub fn regions(subject: &mut Subject, row: &mut Row) {
    let mut map = subject.lend_map();
    let got = library::regions(subject.bytes(), map.lend());
    let outcome = Outcome { expected: [0; 4], got, buffers: map.holds(&subject.map) };
    subject.judge(row, format_args!(""), outcome);
}

pub fn find_keyword(subject: &mut Subject, row: &mut Row) {
    for keyword in questions::keywords(subject.text, subject.random) {
        for from in questions::starts(subject.text, subject.random) {
            let found = Scanner::new(subject.text).find_keyword(&keyword, from);
            let mut map = subject.lend_map();
            let got = library::find_keyword(subject.bytes(), map.lend(), keyword.as_bytes(), from);
            let buffers = map.holds(&subject.map);
            let outcome = Outcome { expected: place(found), got, buffers };
            subject.judge(row, format_args!("keyword {keyword:?} from {from}"), outcome);
        }
    }
}

pub fn find_in_code(subject: &mut Subject, row: &mut Row) {
    for byte in questions::bytes(subject.text, subject.random) {
        let found = Scanner::new(subject.text).find_in_code(byte);
        let mut map = subject.lend_map();
        let got = library::find_in_code(subject.bytes(), map.lend(), byte);
        let outcome = Outcome { expected: place(found), got, buffers: map.holds(&subject.map) };
        subject.judge(row, format_args!("byte {byte}"), outcome);
    }
}

pub fn find_str_in_code(subject: &mut Subject, row: &mut Row) {
    for needle in questions::needles(subject.text, subject.random) {
        let found = Scanner::new(subject.text).find_str_in_code(&needle);
        let mut map = subject.lend_map();
        let got = library::find_str_in_code(subject.bytes(), map.lend(), needle.as_bytes());
        let outcome = Outcome { expected: place(found), got, buffers: map.holds(&subject.map) };
        subject.judge(row, format_args!("needle {needle:?}"), outcome);
    }
}

pub fn next_word_in_code(subject: &mut Subject, row: &mut Row) {
    for from in questions::starts(subject.text, subject.random) {
        let word = Scanner::new(subject.text).next_word_in_code(from);
        let part = |word: &str| [0, 1, offset(subject.text, word), word.len() as u32];
        let expected = word.map_or([0; 4], part);
        let mut map = subject.lend_map();
        let got = library::next_word_in_code(subject.bytes(), map.lend(), from);
        let outcome = Outcome { expected, got, buffers: map.holds(&subject.map) };
        subject.judge(row, format_args!("from {from}"), outcome);
    }
}

pub fn split_in_code(subject: &mut Subject, row: &mut Row) {
    for byte in questions::bytes(subject.text, subject.random) {
        let pieces = Scanner::new(subject.text).split_in_code(byte);
        let places: Vec<u32> = pieces.iter().map(|one| offset(subject.text, one)).collect();
        let mut map = subject.lend_map();
        let mut starts = subject.lend(subject.text.len() + 1);
        let got = library::split_in_code(subject.bytes(), map.lend(), starts.lend(), byte);
        let buffers = map.holds(&subject.map) && starts.holds(&places);
        let outcome = Outcome { expected: [0, 0, 0, places.len() as u32], got, buffers };
        subject.judge(row, format_args!("separator {byte}"), outcome);
    }
}

/// The output is lent to the byte, a little longer, and one byte too short.
pub fn requote(subject: &mut Subject, row: &mut Row) {
    let text = Scanner::new(subject.text).requote_dollar_literals();
    let length = text.len();
    let accepted = ([0, 0, 0, length as u32], text.as_bytes());
    let refused = ([3, 0, 0, 0], &b""[..]);
    let longer = length + 1 + subject.random.below(4);
    let short = length.checked_sub(1).map(|short| (short, refused));
    for (lent, (expected, result)) in
        [(length, accepted), (longer, accepted)].into_iter().chain(short)
    {
        let mut output = Lent::new(lent);
        let got = library::requote_dollar_literals(subject.bytes(), output.lend());
        let outcome = Outcome { expected, got, buffers: output.holds(result) };
        subject.judge(row, format_args!("lent {lent} bytes"), outcome);
    }
}

pub fn requoted_length(subject: &mut Subject, row: &mut Row) {
    let text = Scanner::new(subject.text).requote_dollar_literals();
    let got = library::requoted_length(subject.bytes());
    let outcome = Outcome { expected: [0, 0, 0, text.len() as u32], got, buffers: true };
    subject.judge(row, format_args!(""), outcome);
}

pub fn unterminated(subject: &mut Subject, row: &mut Row) {
    let is_open = Scanner::new(subject.text).has_unterminated_dollar_quote();
    let got = library::has_unterminated_dollar_quote(subject.bytes());
    let outcome = Outcome { expected: flag(is_open), got, buffers: true };
    subject.judge(row, format_args!(""), outcome);
}

pub fn handler(subject: &mut Subject, row: &mut Row) {
    let is_there = PlPgSqlPreprocessor::has_exception_handler(subject.text);
    let mut map = subject.lend_map();
    let got = library::has_exception_handler(subject.bytes(), map.lend());
    let outcome = Outcome { expected: flag(is_there), got, buffers: map.holds(&subject.map) };
    subject.judge(row, format_args!(""), outcome);
}

fn place(found: Option<usize>) -> Answer {
    found.map_or([0; 4], |place| [0, 1, place as u32, 0])
}

fn flag(holds: bool) -> Answer {
    [0, u32::from(holds), 0, 0]
}

/// Where a part stands in its text: a slice of the text keeps its address.
fn offset(text: &str, part: &str) -> u32 {
    (part.as_ptr() as usize - text.as_ptr() as usize) as u32
}
