//! Whole functions: a block of declarations and a body behind it.

use crate::shape::Shape;

impl Shape<'_> {
    pub fn function(&mut self) {
        self.lead();
        if self.random.percent(8) {
            self.words(&["BEGIN"]);
        }
        match self.random.percent(93) {
            true => self.word("DECLARE"),
            false => self.pick(&["", "DECLARED", "x.DECLARE", "$DECLARE", "'DECLARE'", "DECLARE;"]),
        }
        self.gap();
        self.declarations();
        if self.random.percent(92) {
            self.words(&["BEGIN"]);
        }
        if self.random.percent(70) {
            self.statements(2, 1);
            self.gap();
        }
        self.pick(&["END;", "END", "end;", ""]);
    }

    /// Some declarations. One that Note 2 or 5 takes out of the comparison takes its function with it, so
    /// not all functions are free to have any default key, or no type left.
    pub fn declarations(&mut self) {
        if self.random.percent(10) {
            return self.declaring_words();
        }
        let is_free = self.random.percent(70);
        for _ in 0..self.random.between(0, 6) {
            self.declaration(is_free);
            self.pick(&["\n", " ", "", "\n  ", "\n", " -- c\n", " /* c */ ", "\x0b"]);
        }
    }

    fn lead(&mut self) {
        match self.random.weighted(&[70, 15, 15]) {
            0 => {}
            1 => self.pick(&["\n", "<<l>> ", "-- DECLARE\n", "/* BEGIN */", "x ", "'BEGIN' "]),
            _ => self.gap(),
        }
    }

    fn declaration(&mut self, is_free: bool) {
        if is_free && self.random.percent(3) {
            self.any_key();
        }
        self.declared_name();
        self.gap();
        self.quoted_key(is_free);
        self.declared_type(is_free);
        self.quoted_key(is_free);
        self.loose();
        self.default_part(is_free);
        self.trailing_words();
        self.quoted_key(is_free);
        self.loose();
        if is_free && self.random.percent(3) {
            self.any_key();
        }
        match self.random.percent(94) {
            true => self.put(";"),
            false => self.pick(&["", ";;", "; ;", "x;", "\\;"]),
        }
    }

    pub fn data_type(&mut self) {
        match self.random.percent(85) {
            true => self.pick(&["int", "text", "UUID", "t.a%TYPE"]),
            false => {
                self.pick(&["varchar (10)", "int[]", "numeric(1, 2)", "\"b c\"", "\x1c", "a\0b"])
            }
        }
    }
}
