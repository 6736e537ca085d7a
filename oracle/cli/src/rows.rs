//! Known rows, and checks of the generator against the reference.

use crate::answers;
use crate::body_rows;
use crate::generate;
use crate::hex;
use crate::runs;
use crate::stored;
use crate::stored_call::{Answer, Body};
use crate::stored_calls;

/// A question about one text, with the answer it must get.
fn check(kind: &str, text: &str, more: &str, expected: &str) {
    let question = format!("{kind} {}{more}\n", hex::encode(text.as_bytes()));
    assert_eq!(ask(&question).as_deref(), Ok(expected), "{kind} {text:?}");
}

fn ask(questions: &str) -> Result<String, String> {
    let mut out = Vec::new();
    match answers::run(questions.as_bytes(), &mut out) {
        Ok(()) => Ok(String::from_utf8(out).unwrap().trim_end().to_string()),
        Err(crate::Stop::Question(message)) => Err(message),
        Err(_) => Err("another stop".to_string()),
    }
}

/// None of them declares anything, or has text before a BEGIN that matters.
#[test]
fn rows_of_both_calls() {
    for Body { text, answer } in body_rows::all() {
        let text = String::from_utf8(text.bytes()).unwrap();
        let Answer { number, place, output } = answer;
        let coded = hex::encode(&output.bytes());
        let expected = format!("{number} {place} {} 0 {coded}", output.len());
        check("body", &text, "", &expected);
        check("function", &text, "", &expected);
    }
}

#[test]
fn declarations_of_a_function() {
    let text = "DECLARE b int; a\ttext\nx := $1$2$1$; c \"q\"\\\x1c\0'; '; \
                b int DEFAULT; d; e f $a$ := $1$a$1$; BEGIN v";
    let coded = |text: &str| hex::encode(text.as_bytes());
    let expected = [
        format!("0 0 7 4 {}", coded("BEGIN v")),
        format!("{} {} {}", coded("a"), coded("text x"), coded("'2'")),
        format!("{} {} -", coded("b"), coded("int")),
        format!("{} {} .", coded("c"), coded("\"q\"\\\x1c\0'; '")),
        format!("{} {} {}", coded("e"), coded("f $a$"), coded("'a'")),
    ];
    check("function", text, "", &expected.join(" "));
}

#[test]
fn maps_and_requoting() {
    check("regions", "", "", "-");
    check("regions", "--", "", "0101");
    check("regions", "--\na", "", "01010100");
    check("regions", "$1$a$1$", "", "00000101010101");
    check("requote", "$1$a$1$", "", &hex::encode(b"$1'1$'"));
    check("requoted_length", "$1$a$1$", "", "6");
    check("requoted_length", "$$'", "", "4");
    check("requoted_length", "", "", "0");
    check("unterminated", "$$a", "", "1");
    check("unterminated", "$$a$$", "", "0");
    check("handler", "EXCEPTION /* c */ when others", "", "1");
    check("handler", "RAISE EXCEPTION 'WHEN'", "", "0");
}

#[test]
fn whether_a_function_is_compared() {
    check("compared", "", "", "1");
    check("compared", "DECLARE a b := 1; BEGIN v = 1;", "", "1");
    check("compared", "DECLARE a b = 1; BEGIN", "", "0");
    check("compared", "DECLARE a b; tag text DEFAULT ':='; BEGIN", "", "0");
    check("compared", "DECLARE a b DEFAULT 1 := 2 BEGIN", "", "0");
    check("compared", "DECLARE a b; c CONSTANT := 1; BEGIN", "", "0");
    check("compared", "DECLARE a CONSTANT b NOT NULL := 1; BEGIN", "", "1");
}

#[test]
fn searches() {
    check("find_keyword", "a 'b' B", " 62 0", "1 6");
    check("find_keyword", "a", " - 0", "0 0");
    check("find_keyword", "a", " 61 3", "0 0");
    check("find_in_code", "';';", " 3b", "1 3");
    check("find_in_code", "a", " ff", "0 0");
    check("find_str_in_code", "':=':=", " 3a3d", "1 4");
    check("next_word_in_code", "'a' bc;", " 0", "1 4 2");
    check("next_word_in_code", ";", " 0", "0 0 0");
    check("split_in_code", "a;';';", " 3b", "0,2,6");
    check("split_in_code", "", " 3b", "0");
}

#[test]
fn wrong_questions_name_their_line() {
    assert_eq!(ask("body -\nbody 61ff\n"), Err("line 2: the text is not ASCII at offset 1".into()));
    for wrong in ["", "body", "body 6", "body 6A", "body  ", "find_in_code - 3b3b", "x -"] {
        assert!(ask(&format!("{wrong}\n")).is_err(), "{wrong:?}");
    }
}

fn generated(kind: &str, seed: &str) -> String {
    let mut out = Vec::new();
    assert!(generate::run(kind, "2000", seed, &mut out).is_ok(), "{kind}");
    String::from_utf8(out).unwrap()
}

#[test]
fn every_generated_question_is_answered() {
    for kind in generate::kinds() {
        let questions = generated(kind, "7");
        assert_eq!(questions, generated(kind, "7"), "{kind}");
        assert_ne!(questions, generated(kind, "8"), "{kind}");
        let replies = ask(&questions).unwrap();
        assert_eq!(replies.lines().count(), 2000, "{kind}");
        assert!(!replies.contains("panic"), "{kind}");
    }
}

#[test]
fn a_stored_text_has_a_line_of_every_search() {
    let mut out = Vec::new();
    assert!(stored::run("200", "7", &mut out).is_ok());
    let list = String::from_utf8(out).unwrap();
    let kinds: String = list.lines().filter_map(|line| line.chars().next()).collect();
    assert!(kinds.starts_with(&"tmkbswpqnuh".repeat(200)), "{kinds}");
    assert!(!list.contains("panic"));
}

#[test]
fn a_stored_call_has_a_text_a_result_and_an_answer() {
    let mut out = Vec::new();
    assert!(stored_calls::run("200", "100", "7", &mut out).is_ok());
    let list = String::from_utf8(out).unwrap();
    let kinds: String = list.lines().filter_map(|line| line.chars().next()).collect();
    assert!(kinds.starts_with(&format!("s{}s", "telb".repeat(200))), "{kinds}");
    let functions = kinds.split('s').nth(4).unwrap();
    assert_eq!(functions.replace("dn", ""), "telf".repeat(100));
    assert!(list.lines().all(|line| line.len() < 65_536));
    assert!(list.split_whitespace().all(|field| field.len() <= 2 * runs::LONGEST));
}
