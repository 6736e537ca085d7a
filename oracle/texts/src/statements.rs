//! Whole statements of the shapes that the passes rewrite or refuse.

use crate::shape::Shape;
use crate::tokens;

impl Shape<'_> {
    /// One to `most` statements, with line breaks and indentation between them.
    pub fn statements(&mut self, most: usize, depth: usize) {
        for index in 0..self.random.between(1, most) {
            if index > 0 {
                self.pick(&["\n", " ", "", "\n    ", "\n\t", "\n", "-- c\n", "/* c */ "]);
            }
            self.statement(depth);
        }
    }

    pub fn statement(&mut self, depth: usize) {
        let kinds = if depth == 0 { 5 } else { 8 };
        match self.random.weighted(&[24, 28, 26, 5, 8, 10, 4, 4][..kinds]) {
            0 => self.assignment(),
            1 => self.select_into(),
            2 => self.raise(),
            3 => self.qualified_equals(),
            4 => self.plain(),
            5 => self.if_block(depth - 1),
            6 => self.loop_block(depth - 1),
            _ => self.handler(),
        }
    }

    /// The end of a statement, which is at times missing, doubled or hidden.
    fn finish(&mut self) {
        match self.random.weighted(&[88, 4, 3, 3, 2]) {
            0 => self.put(";"),
            1 => self.put(" ;"),
            2 => self.put(";;"),
            3 => self.put(" ; ;"),
            _ => self.put(""),
        }
    }

    /// What may stand ahead of a statement in the same cut.
    fn opener(&mut self) {
        match self.random.weighted(&[70, 22, 8]) {
            0 => {}
            1 => {
                let word = self.random.pick(&["BEGIN", "THEN", "ELSE", "LOOP", "END"]);
                self.words(&[word]);
            }
            _ => self.pick(&["/* c */ ", "-- c\n", "END IF ", "<<l>> ", "x "]),
        }
    }

    fn assignment(&mut self) {
        self.opener();
        match self.random.weighted(&[90, 5, 5]) {
            0 => self.odd_name(),
            1 => self.pick(tokens::QUALIFIED),
            _ => self.pick(&["a[1]", "r.\"b\"", "a b", "1", "f(x)", "a."]),
        }
        self.loose();
        self.pick(&[":=", ":=", ":=", ":=", ":=", ":=", ":=", ":=", "=", ": =", ":==", ":=:="]);
        self.loose();
        if !self.random.percent(4) {
            self.expression(2);
        }
        self.loose();
        self.finish();
    }

    /// `q.n = ..` where a statement may start, or just not there.
    fn qualified_equals(&mut self) {
        self.opener();
        if self.random.percent(30) {
            self.case_expression(1);
            self.gap();
            self.opener();
        }
        self.pick(&["t.n", "NEW.v", "a.b", "a.b.c", "a.", ".b", "a .b", "\"a\".b", "1.2"]);
        self.loose();
        self.pick(&["=", "=", "=", "==", "=>", "<=", "= ="]);
        self.loose();
        self.expression(1);
        self.finish();
    }

    fn plain(&mut self) {
        match self.random.weighted(&[30, 20, 20, 15, 15]) {
            0 => self.put("RETURN NEW"),
            1 => self.put("UPDATE t SET a = 1 WHERE b = t.n"),
            2 => self.put("PERFORM f(a := 1)"),
            3 => self.case_expression(1),
            _ => self.put("INSERT INTO t SELECT a FROM b"),
        }
        self.finish();
    }

    fn select_into(&mut self) {
        self.opener();
        self.pick(&["", "", "", "\n  ", "    ", "\n\t", "x\n ", " \x0b", "(a) ", "'\n' "]);
        if self.random.percent(25) {
            self.with_part();
        }
        self.words(&["SELECT"]);
        let columns = self.random.between(1, 3);
        self.list(columns, true);
        self.gap();
        self.words(&["INTO"]);
        let same = self.random.percent(88);
        let variables = if same { columns } else { self.random.below(4) };
        self.list(variables, false);
        if self.random.percent(65) {
            self.gap();
            self.source_part();
        }
        self.loose();
        self.finish();
    }

    fn with_part(&mut self) {
        self.words(&["WITH"]);
        self.name();
        self.gap();
        self.words(&["AS"]);
        match self.random.weighted(&[50, 20, 15, 15]) {
            0 => self.put("(SELECT 1 FROM t)"),
            1 => self.put("(SELECT 1 FROM t LIMIT 2)"),
            2 => self.put("(SELECT ')' FROM \"(\")"),
            _ => self.pick(&["(SELECT 1 INTO x FROM t", "x", "(a)), b AS (c)", "(a) LIMIT 1"]),
        }
        self.gap();
    }

    /// Columns or variables; an entry is at times empty or more than a name.
    fn list(&mut self, count: usize, columns: bool) {
        for index in 0..count {
            if index > 0 {
                self.pick(&[",", ", ", " , ", ",\n    ", ",,", ",\x0b"]);
            }
            match self.random.percent(4) {
                true => {
                    self.pick(&["", "STRICT v", "r.a", "(a, b)", "max(a,b)", "a /* , */", "a)"])
                }
                false if columns => self.expression(1),
                false => self.odd_name(),
            }
        }
    }

    fn source_part(&mut self) {
        self.words(&["FROM"]);
        self.pick(&["t", "b", "t a", "t, b", "(SELECT 1 FROM x) y", "\"t;\"", "t$", "t -- c\n"]);
        if self.random.percent(50) {
            self.gap();
            self.words(&["WHERE"]);
            self.expression(2);
        }
        if self.random.percent(30) {
            self.pick(&[" ", " ", " ", "\n", "\t", "  "]);
            self.word("LIMIT");
            self.pick(&[" 1", " 1", " 2", "\n1", "1", " ", "\t1", " 1;"]);
        }
    }

    fn raise(&mut self) {
        self.opener();
        self.word("RAISE");
        self.pick(&[
            " ", " ", " ", " ", " ", " ", " ", " ", "\n", "\t", "\x0b", "  ", "(", "-", ";", "",
        ]);
        match self.random.weighted(&[62, 28, 10]) {
            0 => self.word("EXCEPTION"),
            1 => {
                let level = self.random.pick(&["NOTICE", "WARNING", "INFO", "DEBUG", "LOG"]);
                self.word(level);
            }
            _ => self.pick(&[
                "EXCEPTIONS", "LOGX", "INFO\t", "INFO;", "INFO\n", "infox", "NOTICE'", "x",
            ]),
        }
        self.loose();
        self.content();
        self.loose();
        self.finish();
    }

    /// What stands behind the level of a RAISE.
    pub(crate) fn content(&mut self) {
        match self.random.weighted(&[40, 18, 28, 6, 8]) {
            0 => self.literal(),
            1 => self.expression(1),
            2 => self.using(),
            3 => self.put(""),
            _ => self.pick(&["'a", "'a''", "'a\\'; b'", "a 'b', c", ", a", "\"a,b\", c", "'a'b,c"]),
        }
        if self.random.percent(30) {
            self.pick(&[", a", ",b", " , 'x'", " USING MESSAGE = 'm'", ", NEW.v"]);
        }
    }

    fn using(&mut self) {
        self.word("USING");
        self.loose();
        match self.random.percent(80) {
            true => self.word("MESSAGE"),
            false => self.pick(&["ERRCODE", "DETAIL", "MESSAG", "MESSAGES", ""]),
        }
        self.loose();
        self.pick(&["=", "=", "=", "=", "=", ":=", "==", ""]);
        self.loose();
        match self.random.percent(85) {
            true => self.literal(),
            false => self.expression(1),
        }
        if self.random.percent(15) {
            self.pick(&[", ERRCODE = '1'", " x", "\x0b", " /* c */", "''", " 'b'"]);
        }
    }

    fn if_block(&mut self, depth: usize) {
        self.words(&["IF"]);
        self.arm(depth);
        for _ in 0..self.random.below(3) {
            let word = self.random.pick(&["ELSIF", "ELSIF", "ELSEIF"]);
            self.words(&[word]);
            self.arm(depth);
        }
        if self.random.percent(40) {
            self.words(&["ELSE"]);
            self.statements(2, depth);
            self.gap();
        }
        self.words(&["END"]);
        self.word("IF");
        self.finish();
    }

    fn arm(&mut self, depth: usize) {
        self.expression(1);
        self.gap();
        self.words(&["THEN"]);
        self.statements(2, depth);
        self.gap();
    }

    fn loop_block(&mut self, depth: usize) {
        self.words(&["LOOP"]);
        self.statements(2, depth);
        self.gap();
        self.words(&["END"]);
        self.word("LOOP");
        self.finish();
    }

    /// The front of an exception handler, or something that only looks like one.
    pub fn handler(&mut self) {
        self.words(&["EXCEPTION"]);
        match self.random.weighted(&[60, 15, 15, 10]) {
            0 => self.word("WHEN"),
            1 => self.pick(&["'a'", "$$a$$", "/* c */", "-- c\n", "\x0b"]),
            2 => self.pick(&["WHENEVER", "when$", ".WHEN", "(WHEN", "'x'WHEN", "WHEN'x'"]),
            _ => self.put(""),
        }
        self.gap();
        self.words(&["WHEN"]);
        self.put("others THEN NULL");
        self.finish();
    }
}
