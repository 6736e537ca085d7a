//! The words CONSTANT, NOT and NULL in declarations: around a type, in any other place, what looks like
//! them, and where they may hide.

use crate::shape::Shape;

const WORDS: &[&str] = &["CONSTANT", "NOT", "NULL"];

/// What is none of the words, since it has a letter more or less, or since other bytes touch it.
const NEAR_WORDS: &[&str] = &[
    "CONSTANTS", "CONSTAN", "_CONSTANT", "CONSTANT1", "$CONSTANT", "CONSTANT$", "CONSTANT,",
    "(CONSTANT)", "CONSTANT\x1c", "\0CONSTANT", "CONSTANT-", "NOTNULL", "notnull", "NOT_NULL",
    "NOT-NULL", "NOT.NULL", "NOT\x1cNULL", "NOT\x08NULL", "NOTS", "KNOT", "NO", "NULLS", "NUL",
    "NULL[]", "NULL)", "(NOT", "intNOT NULL", "NOT NULLint", "CONSTANTint", "CONSTANTNOT NULL",
];

/// Quoted words. White space splits them out of a literal or a comment all the same.
const QUOTED_WORDS: &[&str] = &[
    "\"CONSTANT\"", "'CONSTANT'", "$$CONSTANT$$", "/*CONSTANT*/", "--CONSTANT\n", "\" CONSTANT \"",
    "' CONSTANT '", "$$ CONSTANT $$", "/* CONSTANT */", "-- CONSTANT\n", "'\nconstant\n'",
    "\"NOT NULL\"", "'NOT NULL'", "$$NOT NULL$$", "/*NOT NULL*/", "--NOT NULL\n", "' NOT NULL '",
    "$t$ NOT NULL $t$", "/* NOT NULL */", "-- NOT NULL\n", "-- not\x0bnull\n", "'NOT\nNULL '",
    "-- NOT\n", "-- NULL\n", "/* NOT */", "' NULL '", "-- ; CONSTANT\n", "'; NOT NULL'",
];

/// Names with a word behind them in one literal or comment, or ahead of them.
const QUOTED_NAMES: &[&str] = &[
    "\"a CONSTANT b\"", "\"a constant\"", "'a CONSTANT\n'", "\"a NOT NULL\"", "\"a NULL\"",
    "$$a CONSTANT $$", "a/* CONSTANT */", "a --CONSTANT\n", "-- CONSTANT\n", "/* CONSTANT */ a",
    "a\x1cCONSTANT", "a-- CONSTANT\n",
];

impl Shape<'_> {
    /// A declaration's name, at times one of the words, or with one of them around it.
    pub fn declared_name(&mut self) {
        match self.random.weighted(&[88, 4, 4, 4]) {
            0 => self.odd_name(),
            1 => self.constant_word(),
            2 => {
                self.constant_word();
                self.gap();
                self.odd_name();
            }
            _ => self.pick(QUOTED_NAMES),
        }
    }

    /// What stands behind a name, often with the words around the type. Only a free one may have the
    /// words and no type on purpose.
    pub fn declared_type(&mut self, is_free: bool) {
        let kinds = if is_free { 5 } else { 4 };
        match self.random.weighted(&[38, 42, 6, 8, 8][..kinds]) {
            0 => self.data_type(),
            1 => {
                self.ahead_of_type();
                self.data_type();
                self.gap();
                self.behind_type();
            }
            2 => self.put(""),
            3 => {
                let count = self.random.between(2, 6);
                self.constant_words(count);
            }
            _ => self.type_missing(),
        }
    }

    /// At times some of the words, or what looks like them, where a default may stand ahead of them.
    pub fn trailing_words(&mut self) {
        if self.random.percent(7) {
            self.gap();
            match self.random.weighted(&[40, 30, 15, 15]) {
                0 => self.words(&["NOT", "NULL"]),
                1 => self.constant_word(),
                2 => self.pick(NEAR_WORDS),
                _ => self.pick(QUOTED_WORDS),
            }
        }
    }

    /// Declarations as a row of words and signs in any order.
    pub fn declaring_words(&mut self) {
        for _ in 0..self.random.between(2, 9) {
            match self.random.weighted(&[44, 28, 10, 4, 4, 4, 3, 3]) {
                0 => self.constant_word(),
                1 => self.pick(&["a", "b", "int", "t"]),
                2 => self.put(";"),
                3 => self.pick(NEAR_WORDS),
                4 => self.pick(QUOTED_WORDS),
                5 => self.put(":="),
                6 => self.word("DEFAULT"),
                _ => self.put("="),
            }
            self.gap();
        }
        if self.random.percent(70) {
            self.put(";");
        }
    }

    fn ahead_of_type(&mut self) {
        match self.random.weighted(&[22, 50, 8, 8, 6, 6]) {
            0 => {}
            1 => self.words(&["CONSTANT"]),
            2 => self.words(&["CONSTANT", "CONSTANT"]),
            3 => self.constant_words(1),
            4 => self.pick(NEAR_WORDS),
            _ => self.pick(QUOTED_WORDS),
        }
        self.loose();
    }

    fn behind_type(&mut self) {
        match self.random.weighted(&[20, 46, 7, 7, 4, 4, 6, 6]) {
            0 => {}
            1 => self.words(&["NOT", "NULL"]),
            2 => self.words(&["NOT", "NULL", "NOT", "NULL"]),
            3 => self.constant_words(1),
            4 => self.words(&["NULL", "NOT"]),
            5 => self.constant_words(3),
            6 => self.pick(NEAR_WORDS),
            _ => self.pick(QUOTED_WORDS),
        }
    }

    fn type_missing(&mut self) {
        match self.random.below(3) {
            0 => self.words(&["CONSTANT"]),
            1 => self.words(&["NOT", "NULL"]),
            _ => self.words(&["CONSTANT", "NOT", "NULL"]),
        }
    }

    /// One of the words, in some letter case.
    fn constant_word(&mut self) {
        let word = self.random.pick(WORDS);
        self.word(word);
    }

    fn constant_words(&mut self, count: usize) {
        for _ in 0..count {
            self.constant_word();
            self.gap();
        }
    }
}
