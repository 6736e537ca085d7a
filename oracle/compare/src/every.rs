//! Every text up to a length over a few pieces.

/// How many pieces the texts of a list are made of.
const PIECES: usize = 12;

/// The pieces that texts are made of, and what stands between two of them.
pub struct Every {
    pieces: [&'static str; PIECES],
    between: &'static str,
}

/// Bytes that open, close or hide quoted text.
pub const QUOTING: Every =
    Every { pieces: ["'", "\"", "$", "-", "/", "*", "\\", ";", "a", "1", " ", "\n"], between: "" };

/// Bytes that begin a default, look like it, or hide it.
pub const DEFAULTS: Every =
    Every { pieces: [":", "=", ">", "'", "$", " ", "a", ";", "-", "\n", "/", "*"], between: "" };

/// The words of Note 5 in two letter cases, and what else a declaration is made of.
const WORDS: [&str; 8] = ["a", "int", "CONSTANT", "constant", "NOT", "nOt", "NULL", "null"];

/// Words with a space between them.
pub const SPACED_WORDS: Every = Every { pieces: with_words([":=", ";", "--", "'"]), between: " " };

/// Words that may touch.
pub const TOUCHING_WORDS: Every = Every { pieces: with_words([":=", ";", " ", "\n"]), between: "" };

const fn with_words([a, b, c, d]: [&'static str; 4]) -> [&'static str; PIECES] {
    let [e, f, g, h, i, j, k, l] = WORDS;
    [e, f, g, h, i, j, k, l, a, b, c, d]
}

/// How many texts there are of up to `longest` pieces, in any list.
pub fn count(longest: u32) -> u64 {
    (0..=longest).map(of_length).sum()
}

impl Every {
    /// The text of this number, shorter texts first.
    pub fn text(&self, mut number: u64) -> String {
        let mut length = 0;
        while number >= of_length(length) {
            number -= of_length(length);
            length += 1;
        }
        let mut pieces = Vec::new();
        for _ in 0..length {
            pieces.push(self.pieces[number as usize % PIECES]);
            number /= PIECES as u64;
        }
        pieces.join(self.between)
    }
}

fn of_length(length: u32) -> u64 {
    (PIECES as u64).pow(length)
}
