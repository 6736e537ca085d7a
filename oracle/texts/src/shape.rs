//! A text in the making: a row of pieces, put down one after the other.
//!
//! The pieces are kept apart so that mutations can hit single tokens.

use crate::random::Random;
use crate::tokens;

pub struct Shape<'a> {
    pub random: &'a mut Random,
    pub pieces: Vec<String>,
}

impl<'a> Shape<'a> {
    pub fn new(random: &'a mut Random) -> Self {
        Self { random, pieces: Vec::new() }
    }

    pub fn put(&mut self, piece: &str) {
        self.pieces.push(piece.to_string());
    }

    pub fn pick(&mut self, words: &[&str]) {
        let word = self.random.pick(words);
        self.put(word);
    }

    /// One keyword in some letter case.
    pub fn word(&mut self, keyword: &str) {
        let word = tokens::letter_case(keyword, self.random);
        self.pieces.push(word);
    }

    /// Keywords with a gap behind each.
    pub fn words(&mut self, keywords: &[&str]) {
        for keyword in keywords {
            self.word(keyword);
            self.gap();
        }
    }

    /// What stands between two words: mostly a space, at times a trap.
    pub fn gap(&mut self) {
        match self.random.weighted(&[76, 15, 5, 2, 2]) {
            0 => self.put(" "),
            1 => self.pick(tokens::SPACES),
            2 => self.pick(tokens::COMMENTS),
            3 => self.put(""),
            _ => self.pick(&["\n", "\n    ", "\n\t"]),
        }
    }

    /// A gap where none is needed.
    pub fn loose(&mut self) {
        if self.random.percent(40) {
            self.gap();
        }
    }

    pub fn name(&mut self) {
        self.pick(&["a", "b", "v", "x1", "_t", "v_id", "total"]);
    }

    /// A name that is at times no plain one.
    pub fn odd_name(&mut self) {
        match self.random.weighted(&[80, 10, 5, 5]) {
            0 => self.name(),
            1 => self.pick(tokens::IDENTIFIERS),
            2 => self.pick(&["\"b\"", "'a'", "a b", "$1"]),
            _ => self.put(""),
        }
    }

    pub fn literal(&mut self) {
        match self.random.weighted(&[74, 24, 2]) {
            0 => self.pick(tokens::LITERALS),
            1 => self.pick(tokens::DOLLARS),
            _ => self.pick(tokens::OPEN_LITERALS),
        }
    }

    /// An expression; `depth` bounds how far it nests.
    pub fn expression(&mut self, depth: usize) {
        let kinds = if depth == 0 { 4 } else { 9 };
        match self.random.weighted(&[24, 16, 16, 5, 12, 8, 6, 8, 2][..kinds]) {
            0 => self.name(),
            1 => self.pick(&["0", "1", "42", "NULL", "TRUE"]),
            2 => self.literal(),
            3 => self.pick(&["NEW.v", "t.n", "OLD.a"]),
            4 => self.binary(depth - 1),
            5 => self.call(depth - 1),
            6 => self.subquery(depth - 1),
            7 => self.case_expression(depth - 1),
            _ => self.put(""),
        }
    }

    fn binary(&mut self, depth: usize) {
        self.expression(depth);
        self.loose();
        self.pick(&["+", "-", "*", "/", "||", "=", "<>", ">=", "==", "=>", ":=", "- -"]);
        self.loose();
        self.expression(depth);
    }

    fn call(&mut self, depth: usize) {
        self.pick(&["f", "now", "coalesce", "max"]);
        self.put("(");
        for index in 0..self.random.below(3) {
            if index > 0 {
                self.pick(&[",", ", "]);
            }
            self.expression(depth);
        }
        self.put(")");
    }

    fn subquery(&mut self, depth: usize) {
        self.put("(");
        self.words(&["SELECT"]);
        self.expression(depth);
        self.gap();
        self.words(&["FROM"]);
        self.name();
        if self.random.percent(30) {
            self.put(" LIMIT 1");
        }
        self.put(")");
    }

    /// A CASE whose arms compare what would be assigned outside of it.
    pub fn case_expression(&mut self, depth: usize) {
        self.words(&["CASE", "WHEN"]);
        self.expression(depth);
        self.gap();
        self.words(&["THEN"]);
        self.pick(&["t.n = 1", "1", "NEW.v=a", "t.n == 1", "a.b => 2"]);
        self.gap();
        if self.random.percent(60) {
            self.words(&["ELSE"]);
            self.expression(depth);
            self.gap();
        }
        self.word("END");
    }
}
