//! The block of declarations in a function's text.

use crate::scanner::Scanner;

const DECLARE: &str = "DECLARE";

/// A text cut around its block, which stands between a live DECLARE and the first live BEGIN.
pub struct Block<'a> {
    /// The text up to the block, DECLARE included.
    pub front: &'a str,
    /// The pieces of the block between its live semicolons.
    pub parts: Vec<&'a str>,
    /// The text from BEGIN on.
    pub back: &'a str,
}

impl<'a> Block<'a> {
    /// `None` if the text has no such block.
    pub fn of(text: &'a str) -> Option<Self> {
        let scanner = Scanner::new(text);
        let start = scanner.find_keyword(DECLARE, 0)? + DECLARE.len();
        let end = scanner.find_keyword("BEGIN", 0)?;
        let parts = Scanner::new(text.get(start..end)?).split_in_code(b';');
        Some(Self { front: &text[..start], parts, back: &text[end..] })
    }
}

/// The parts of a text's block, none without a block.
pub fn parts(text: &str) -> Vec<&str> {
    Block::of(text).map(|block| block.parts).unwrap_or_default()
}
