//! Defaults, and the keys that they stand behind: `:=`, `=` and DEFAULT, what looks like them, and
//! where they may hide.

use crate::shape::Shape;
use crate::tokens;

/// Keys, and what looks like one, without a lone `=` and without DEFAULT, or with these behind a `:=`.
const NEAR_KEYS: &[&str] = &[
    "==", "=>", "===", "==>", ":==", ":=>", ":=:=", ":= =", ":", ">", "DEFAULTS", "$DEFAULT",
    "_DEFAULT", "DEFAULT$", "'DEFAULT'", "==:=", "::=",
];

/// What has a lone `=` ahead of the others.
const EQUALS_KEYS: &[&str] = &[
    ">=", "<=", "!=", "<>=", "=<", "=:=", "= =", "= >", ": =", "=-", "=/", "=:", "=>=", "=/**/=",
    "=DEFAULT", "=''",
];

/// A quoted `=`, colon or DEFAULT.
const QUOTED_KEYS: &[&str] = &[
    "'='", "'DEFAULT'", "\"=\"", "\"DEFAULT\"", "$$=$$", "$t$ DEFAULT $t$", "-- =\n",
    "-- DEFAULT 1\n", "/*=*/", "/* DEFAULT */", "': ='", "/*:*/",
];

/// A quoted `:=`.
const QUOTED_ASSIGNS: &[&str] = &[
    "':='", "'a := b'", "\":=\"", "$$:=$$", "$t$ := $t$", "-- :=\n", "-- a := 1\n", "/*:=*/",
    "/* a := /* b */ */", "'\\':='", "$$a$t$:=$$",
];

/// Defaults that are, or only look like, one dollar literal from end to end.
const DOLLAR_DEFAULTS: &[&str] = &[
    "$t$a'b$t$", "$$a$$ || $$b$$", "$$a$$", "$$$$", "$t$a;b$t$", "$$a$$ x", "$_$'$_$", "$$''$$",
    "$1$1$", "$1$2$1$", "$1$2'3'$1$", "$1$ 1 $1$", "$2$1$2$ 1 $2$", "$1$", "$1$$1$ $$", "$1$1$1$",
    "$12$3$12$", "$t$a$t$b$t$ $t$", "$1$(';')$1$", "$1", "$",
];

/// The same where the scanner reads on behind the end.
const OPEN_DEFAULTS: &[&str] =
    &["$1$a$1$", "$$", "$$$", "$t$t$", "$t$", "$a", "$1$a;b$1$", "$a-$b$a-$", "$t$a$T$", "$$a"];

/// Defaults in which a keyword or an equals sign may hide.
const HIDING_DEFAULTS: &[&str] = &[
    "'x' DEFAULT 'y'", "DEFAULT", "'DEFAULT'", "1 -- c\n", "=", "'b'DEFAULT", "= 1",
    "\"DEFAULT\" DEFAULT 1", "'='", "a = b", "a == b", "f(a => 1)", "a >= 1", "$$ = $$",
];

/// The same with `:=`, live or quoted.
const ASSIGN_DEFAULTS: &[&str] = &[
    ":= 1", "/* := */ 1", "$a$ := $1$a$1$", "f(a := 1)", "1 := 2", "DEFAULT 1 := 2", "= 1 := 2",
    "$$:=$$", "$t$a := 'b'$t$", "':='", "1 -- := 2\n",
];

impl Shape<'_> {
    /// At times what is behind a declaration's type. Only a free one may begin with a lone `=`,
    /// or have a DEFAULT ahead of a `:=` on purpose.
    pub fn default_part(&mut self, is_free: bool) {
        let kinds = if is_free { 6 } else { 4 };
        match self.random.weighted(&[32, 28, 24, 8, 20, 8][..kinds]) {
            0 => return,
            1 => self.put(":="),
            2 => self.words(&["DEFAULT"]),
            3 => return self.near_key(is_free),
            4 => self.put("="),
            _ => self.pick(EQUALS_KEYS),
        }
        self.default_value(is_free);
        if self.random.percent(30) {
            self.loose();
            match is_free {
                true => self.any_key(),
                false => self.pick(&["=", "==", "DEFAULT ", "=>", ">=", "!="]),
            }
            self.default_value(is_free);
        }
    }

    /// One of the three keys, or what looks like one.
    pub fn any_key(&mut self) {
        match self.random.weighted(&[36, 18, 20, 10, 16]) {
            0 => self.put(":="),
            1 => self.put("="),
            2 => self.words(&["DEFAULT"]),
            3 => self.pick(NEAR_KEYS),
            _ => self.pick(EQUALS_KEYS),
        }
    }

    /// At times quoted text that looks like a key.
    pub fn quoted_key(&mut self, is_free: bool) {
        if self.random.percent(6) {
            match is_free && self.random.percent(40) {
                true => self.pick(QUOTED_ASSIGNS),
                false => self.pick(QUOTED_KEYS),
            }
            self.loose();
        }
    }

    fn near_key(&mut self, is_free: bool) {
        self.pick(NEAR_KEYS);
        self.loose();
        match is_free {
            true => self.default_value(true),
            false => self.pick(&["1", "'a'", "a", "$$b$$", ""]),
        }
    }

    fn default_value(&mut self, is_free: bool) {
        self.loose();
        match self.random.weighted(&[32, 12, 30, 13, 10, 3]) {
            0 => self.expression(1),
            1 => self.put(""),
            2 => self.pick(DOLLAR_DEFAULTS),
            3 if is_free && self.random.percent(50) => self.pick(ASSIGN_DEFAULTS),
            3 => self.pick(HIDING_DEFAULTS),
            4 => self.pick(tokens::LITERALS),
            _ => self.pick(OPEN_DEFAULTS),
        }
    }
}
