//! What is sought in a text: a start, a byte, a short part or a word of it.

use crate::random::Random;
use crate::tokens;

/// A keyword: mostly a word of the text in some letter case, at times empty.
pub fn keyword_for(text: &str, random: &mut Random) -> String {
    match random.weighted(&[40, 25, 18, 12, 5]) {
        0 => tokens::letter_case(&word_of(text, random), random),
        1 => tokens::keyword(random),
        2 => part_of(text, random),
        3 => random.pick(&["a", "b", ":=", "1", "$", "_", ";", "a.b"]).to_string(),
        _ => String::new(),
    }
}

/// A needle: mostly a part of the text, at times empty or longer than the text.
pub fn needle_for(text: &str, random: &mut Random) -> String {
    match random.weighted(&[45, 25, 15, 10, 5]) {
        0 => part_of(text, random),
        1 => ":=".to_string(),
        2 => tokens::token(random),
        3 => format!("{text}{}", tokens::token(random)),
        _ => String::new(),
    }
}

/// A start up to two past the end, often at the front.
pub fn start(text: &str, random: &mut Random) -> usize {
    match random.percent(45) {
        true => 0,
        false => random.between(0, text.len() + 2),
    }
}

/// A byte that is sought: a separator, one of the text, or any byte at all.
pub fn byte_for(text: &str, random: &mut Random) -> u8 {
    match random.weighted(&[40, 52, 8]) {
        0 => b";;,.:="[random.below(6)],
        1 if !text.is_empty() => text.as_bytes()[random.below(text.len())],
        _ => random.below(256) as u8,
    }
}

/// A short part of the text, which may be empty.
pub fn part_of(text: &str, random: &mut Random) -> String {
    let from = random.below(text.len() + 1);
    let length = random.between(0, 6).min(text.len() - from);
    text[from..from + length].to_string()
}

/// One of the text's runs of letters, digits and `_`, if there is any.
pub fn word_of(text: &str, random: &mut Random) -> String {
    let is_edge = |letter: char| !letter.is_ascii_alphanumeric() && letter != '_';
    let words: Vec<&str> = text.split(is_edge).filter(|word| !word.is_empty()).collect();
    match words.is_empty() {
        true => String::new(),
        false => random.pick(&words).to_string(),
    }
}
