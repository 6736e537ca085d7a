//! The tokens that texts are made of.

use crate::random::Random;

pub const KEYWORDS: &[&str] = &[
    "BEGIN", "END", "CASE", "THEN", "ELSE", "LOOP", "IF", "ELSIF", "ELSEIF", "DECLARE", "DEFAULT",
    "RAISE", "EXCEPTION", "NOTICE", "WARNING", "INFO", "DEBUG", "LOG", "USING", "MESSAGE",
    "ERRCODE", "SELECT", "INTO", "FROM", "WITH", "LIMIT", "WHEN", "WHERE", "NEW", "OLD", "SET",
    "AS",
];

pub const IDENTIFIERS: &[&str] =
    &["a", "b", "v", "x1", "_t", "1a", "a$b", "t", "n", "_", "preelsif", "intox", "A", "Z9"];

pub const QUALIFIED: &[&str] =
    &["NEW.v", "a.b", "t.n", "OLD.x1", "q.n", "a.b.c", "1.2", "a.1", ".n", "q.", "a .b", "a$b.n"];

const OPERATORS: &[&str] = &[
    ":=", "=", "==", "=>", ",", ";", ".", "(", ")", "+", "-", "/", "*", "--", "/*", "*/", ":",
    ":=", ";", "||", "<", ">", "!=", "%", ";;", "..",
];

pub const LITERALS: &[&str] = &[
    "'a'", "\"b\"", "'it''s'", "'a\\'b'", "E'x\\n'", "''", "\"\"", "'a;b'", "'a:=b'", "'a,b'",
    "'('", "')'", "\"a\"\"b\"", "\"a;b\"", "\"'\"", "'\"'", "''''", "'\\\\'", "' '", "' LIMIT '",
    "'FROM'", "'--'", "'/*'", "'$$'", "'a\nb'", "\",\"",
];

pub const DOLLARS: &[&str] = &[
    "$$a$$", "$t$x'y$t$", "$$$$", "$$'$$", "$$\\$$", "$$;$$", "$$a:=1;$$", "$t$$$t$", "$_1$b$_1$",
    "$$ELSIF$$", "$$--$$", "$$it''s$$", "$t$a;$T$b$t$", "$$\na\n$$", "$t$t$t$", "$t1$'$t1$",
    "$$\"$$", "$$/*$$", "$1$2$1$",
];

/// Literals that run on, or end where another reader would go on.
pub const OPEN_LITERALS: &[&str] =
    &["'\\'", "'a", "\"a", "$t$ELSIF", "$$$", "$a$$b$", "$1$a$1$", "$$a", "'''", "$t$a$T$"];

const QUOTES: &[&str] =
    &["'", "\"", "''", "\"\"", "$$", "$t$", "$1$", "$_1$", "$", "$T$", "$a-$", "'''", "$t", "t$"];

pub const COMMENTS: &[&str] = &[
    "-- c\n", "--\n", "/* c */", "/* a /* b */ c */", "-- ;\n", "/* ; */", "-- '\n", "/*'*/",
    "/*:=*/", "/**/", "/***/", "-- ELSIF\n", "/* INTO */", "-- \\\n", "/*\"*/",
];

const OPEN_COMMENTS: &[&str] = &["--c", "/*/", "/*", "--", "/* /* */", "/*a"];

pub const SPACES: &[&str] =
    &[" ", " ", " ", "\n", "\t", "\x0b", "\x0c", "\r", "  ", "\n  ", " \n\t", "\r\n", " \x0b "];

const DIGITS: &[&str] = &["0", "1", "42", "1.5", "07"];

/// Bytes that no set of white space takes in, next to those that one does.
const STRANGE: &[&str] = &["\0", "\x08", "\x0e", "\x1c", "\x1f", "\x7f", "@", "[", "`", "{", "^"];

/// The bytes of noise, where every row of a few bytes is worth a try.
pub const NOISE: &[u8] = b"'\"$-/*\\;:=.,()aA1_ \t\n\x0b";

/// One token of any kind.
pub fn token(random: &mut Random) -> String {
    let word = match random.weighted(&[26, 14, 6, 18, 8, 6, 8, 5, 12, 3, 2, 1, 2, 1]) {
        0 => return keyword(random),
        1 => random.pick(IDENTIFIERS),
        2 => random.pick(QUALIFIED),
        3 => random.pick(OPERATORS),
        4 => random.pick(LITERALS),
        5 => random.pick(DOLLARS),
        6 => random.pick(QUOTES),
        7 => random.pick(COMMENTS),
        8 => random.pick(SPACES),
        9 => random.pick(DIGITS),
        10 => "\\",
        11 => random.pick(STRANGE),
        12 => random.pick(OPEN_LITERALS),
        _ => random.pick(OPEN_COMMENTS),
    };
    word.to_string()
}

/// One token of the kinds that open, close or hide quoted text.
pub fn quoting_token(random: &mut Random) -> String {
    let word = match random.weighted(&[10, 12, 24, 12, 6, 6, 6, 3, 8]) {
        0 => random.pick(LITERALS),
        1 => random.pick(DOLLARS),
        2 => random.pick(QUOTES),
        3 => random.pick(COMMENTS),
        4 => "\\",
        5 => random.pick(&["--", "/*", "*/", "\n"]),
        6 => random.pick(SPACES),
        7 => random.pick(OPEN_LITERALS),
        _ => return token(random),
    };
    word.to_string()
}

/// One token of the kinds that declarations are read by.
pub fn declaring_token(random: &mut Random) -> String {
    let word = match random.weighted(&[26, 18, 20, 6, 12, 6, 14]) {
        0 => random.pick(&[":=", "=", "==", "=>", ":", ">", "="]),
        1 => {
            let word = random.pick(&["DEFAULT", "DEFAULT", "CONSTANT", "NOT", "NULL"]);
            return letter_case(word, random);
        }
        2 => random.pick(IDENTIFIERS),
        3 => ";",
        4 => random.pick(SPACES),
        5 => random.pick(LITERALS),
        _ => return quoting_token(random),
    };
    word.to_string()
}

pub fn keyword(random: &mut Random) -> String {
    let word = random.pick(KEYWORDS);
    letter_case(word, random)
}

/// The word in capitals, in small letters, or in a mixture.
pub fn letter_case(word: &str, random: &mut Random) -> String {
    match random.weighted(&[60, 25, 15]) {
        0 => word.to_string(),
        1 => word.to_lowercase(),
        _ => word.chars().map(|letter| one_letter(letter, random)).collect(),
    }
}

fn one_letter(letter: char, random: &mut Random) -> char {
    match random.percent(50) {
        true => letter.to_ascii_lowercase(),
        false => letter.to_ascii_uppercase(),
    }
}
