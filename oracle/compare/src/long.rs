//! Texts of the greatest length that a search or a call takes, and of one byte less.

use reference::block::Block;
use reference::reasons::Reasons;
use texts::random::Random;

use crate::bodies;
use crate::calls::{SEARCH_LIMIT, TEXT_LIMIT};
use crate::joined;
use crate::report::grouped;

/// Long texts for one kind of call.
pub struct Long {
    limit: usize,
    /// What each text starts with, and what it ends with.
    front: &'static str,
    back: &'static str,
    /// Each is repeated, so that one kind of span, one search or one pass takes the whole text.
    patterns: &'static [&'static str],
    /// How many long texts are made of random pieces, and how a piece is made.
    mixed: usize,
    piece: fn(&mut Random) -> String,
}

pub const SEARCH_TEXTS: Long = Long {
    limit: SEARCH_LIMIT,
    front: "",
    back: "",
    patterns: &[
        "a", " ", ";", "$", "'", "\"", "/*", "*/", "--", "\\", "''", "$$'", "$a$ ", "$1",
        "v := 1;\n", "EXCEPTION x WHEN ", "-- c\n", "$t$'$t$", "$tag$a$tag$",
    ],
    mixed: 12,
    piece: texts::any,
};

/// One open dollar literal; of quotes, its requoted form has nearly twice as many bytes.
pub const OPEN_TEXTS: Long = Long {
    limit: SEARCH_LIMIT,
    front: "$$",
    back: "",
    patterns: &["'", "a", "a'"],
    mixed: 0,
    piece: texts::any,
};

pub const BODY_TEXTS: Long = Long {
    limit: TEXT_LIMIT,
    front: "",
    back: "",
    patterns: &[
        "a", " ", ";", "$", "'", "/*", "--", "\\", "$$'", "$a$ ", "-- c\n", "$t$'$t$", "ELSIF ",
        "a:=1;", ":=", "CASE ", "END ", "THEN a.b ", "SELECT a INTO v;", "SELECT ", "(", ",",
        "RAISE ", "RAISE LOG;", "RAISE EXCEPTION;", "RAISE EXCEPTION 'a', b;",
    ],
    mixed: 12,
    piece: texts::any,
};

/// Accepted as a whole, so that every pass is compared on a long text.
pub const ACCEPTED_TEXTS: Long =
    Long { limit: TEXT_LIMIT, front: "", back: "", patterns: &[], mixed: 150, piece: accepted };

/// RAISE statements of every level, and what touches a level.
pub const RAISING_TEXTS: Long = Long {
    limit: TEXT_LIMIT,
    front: "",
    back: "",
    patterns: &[
        "RAISE DEBUG 'a';", "RAISE LOG'';", "RAISE INFO;", "RAISE NOTICE USING MESSAGE = 'm';",
        "RAISE WARNING a, b;", "RAISE LOG; RAISE EXCEPTION 'a';", "RAISE LOGS ",
        "RAISE EXCEPTIONS;",
    ],
    mixed: 50,
    piece: texts::levels::raises,
};

/// A closed text that is accepted. Such texts joined are accepted too.
fn accepted(random: &mut Random) -> String {
    loop {
        let text = joined::closed(random);
        if bodies::expected(&text).0[0] == 0 {
            return text;
        }
    }
}

pub const FUNCTION_TEXTS: Long = Long {
    limit: TEXT_LIMIT,
    front: "DECLARE ",
    back: "\nBEGIN v := 1; END;",
    patterns: &[
        "a", ";", "a b;", "a b:=1;", "a b DEFAULT 1;", "a b;b c;", "DECLARE ", "-- c\n", "a ",
        "a b := $1$'$1$;", "a b := $t$;$t$;", ":=", "DEFAULT ", "a b := ''''''''''';", "a b=1;",
        "a b DEFAULT 1:=2;", "a b DEFAULT ':=';", "a b==1;", "a b=>1;", "=", "= ", "':='",
        "':' = ", "a CONSTANT b NOT NULL;", "a CONSTANT;", "a b;a NOT NULL;", "CONSTANT ",
        "NOT NULL ", "null not\n", "a CONSTANT b NOT NULL:=1;c d;",
    ],
    mixed: 12,
    piece: texts::any,
};

/// Many declarations that are still compared.
pub const DECLARING_TEXTS: Long = Long {
    limit: TEXT_LIMIT,
    front: "DECLARE ",
    back: "\nBEGIN v := 1; END;",
    patterns: &[],
    mixed: 50,
    piece: declarations,
};

/// Declarations up to a live semicolon. Such texts one behind the other stay compared too.
fn declarations(random: &mut Random) -> String {
    loop {
        let text = texts::declarations(random);
        let function = format!("DECLARE {text}BEGIN");
        let is_closed = Block::of(&function)
            .is_some_and(|block| block.back == "BEGIN" && block.parts.last() == Some(&""));
        if is_closed && Reasons::of(&function).is_none() {
            return text;
        }
    }
}

impl Long {
    pub fn title(&self) -> String {
        format!("{} texts of {} bytes and one less", self.count(), grouped(self.limit as u64))
    }

    pub fn count(&self) -> u64 {
        2 * (self.patterns.len() + self.mixed) as u64
    }

    /// The text of this number: patterns first, each in both lengths.
    pub fn text(&self, number: u64, random: &mut Random) -> String {
        let (index, less) = ((number / 2) as usize, (number % 2) as usize);
        let length = self.limit - less - self.back.len();
        let mut text = self.front.to_string();
        loop {
            let piece = match self.patterns.get(index) {
                Some(pattern) => pattern.to_string(),
                None => (self.piece)(random),
            };
            if text.len() + piece.len() > length {
                break;
            }
            text.push_str(&piece);
        }
        // Not a part of a piece, which could open a literal that takes in what stands behind.
        text.push_str(&" ".repeat(length - text.len()));
        text + self.back
    }
}
