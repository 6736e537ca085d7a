//! Which functions leave the comparison with the published source, and why.

use crate::block;
use crate::constants::has_no_type_left;
use crate::defaults::DefaultKeys;

/// Why a function leaves the comparison: each holds if it holds for a part of its block. Without
/// any of them the published source's declarations, with the words of Note 5 taken out, are the records.
#[derive(Clone, Copy, Debug, Default, PartialEq, Eq)]
pub struct Reasons {
    /// Note 2: a `:=` whose colon is quoted, wherever it stands in the part.
    pub quoted_assign: bool,
    /// Note 2: a live lone `=` ahead of every live `:=` and every live DEFAULT, if there are any.
    pub equals_first: bool,
    /// Note 2: a live DEFAULT ahead of a live `:=`, even if the default begins ahead of both.
    pub keyword_first: bool,
    /// Note 5: behind the name nothing but CONSTANT and NOT NULL ahead of the default, which begins
    /// where Note 2 has it.
    pub no_type_left: bool,
}

impl Reasons {
    /// The reasons of a function's text.
    pub fn of(text: &str) -> Self {
        block::parts(text).into_iter().map(Self::of_part).fold(Self::default(), Self::or)
    }

    fn of_part(part: &str) -> Self {
        let keys = DefaultKeys::of(part);
        Self {
            quoted_assign: keys.has_quoted_assign(),
            equals_first: keys.is_equals_first(),
            keyword_first: keys.is_keyword_first(),
            no_type_left: has_no_type_left(keys.ahead(part)),
        }
    }

    fn or(self, other: Self) -> Self {
        Self {
            quoted_assign: self.quoted_assign || other.quoted_assign,
            equals_first: self.equals_first || other.equals_first,
            keyword_first: self.keyword_first || other.keyword_first,
            no_type_left: self.no_type_left || other.no_type_left,
        }
    }

    /// Whether there is none, so that the function is still compared.
    pub fn is_none(&self) -> bool {
        *self == Self::default()
    }
}

#[cfg(test)]
mod tests {
    use super::*;

    const NONE: Reasons = Reasons {
        quoted_assign: false,
        equals_first: false,
        keyword_first: false,
        no_type_left: false,
    };
    const QUOTED: Reasons = Reasons { quoted_assign: true, ..NONE };
    const EQUALS: Reasons = Reasons { equals_first: true, ..NONE };
    const KEYWORD_FIRST: Reasons = Reasons { keyword_first: true, ..NONE };
    const NO_TYPE: Reasons = Reasons { no_type_left: true, ..NONE };

    fn check(expected: Reasons, parts: &[&str]) {
        for part in parts {
            let text = format!("DECLARE x y; {part}; z t := 1;\nBEGIN v := 1;");
            assert_eq!(Reasons::of(&text), expected, "{part:?}");
        }
    }

    #[test]
    fn each_reason_takes_a_function_out() {
        check(
            QUOTED,
            &[
                "tag text DEFAULT ':='", "a b := ':='", "a b /* := */", "a b -- :=\n := 1",
                "a \":=\" := 1", "a b := $$:=$$", "\":=\"",
            ],
        );
        check(
            EQUALS,
            &[
                "a b = 1", "a b=1", "a b>=1", "a b!=1", "a b=:=1", "a b = 1 := 2", "a = 1", "=",
                "a b = 1 DEFAULT 2", "a b==1=2", "a b = '='", "a b : = 1",
            ],
        );
        check(
            KEYWORD_FIRST,
            &[
                "a b DEFAULT 1 := 2", "a b default:=2", "a DEFAULT := 1", "DEFAULT :=",
                "a b := 1 DEFAULT 2 := 3", "a b DEFAULT 1 = 2 := 3",
            ],
        );
        check(
            NO_TYPE,
            &[
                "a CONSTANT", "a NOT NULL", "a CONSTANT NOT NULL", "a constant:=1",
                "-- NOT NULL\n", "a\x0bCONSTANT\nnot\tNULL DEFAULT 1", "CONSTANT CONSTANT",
                "x CONSTANT",
            ],
        );
    }

    #[test]
    fn near_misses_stay() {
        check(
            NONE,
            &[
                "a b := 1", "a b:==1", "a b==1", "a b=>1", "a b := 1 = 2", "a b := 1 DEFAULT 2",
                "a b DEFAULT 1", "a b DEFAULT 1 = 2", "a b DEFAULTS 1 := 2", "a b '='", "a b ''",
                "a b 'DEFAULT' := 1", "a b $DEFAULT := 1", "a b DEFAULT ': ='", "a b : := 1", ":",
                "a b /* DEFAULT */ := 1", "a b -- =\n := 1", "a b := 1 := 2", "a CONSTANT b", "a",
                "a b NOT NULL", "a CONSTANT CONSTANT", "a CONSTANT NOT", "a NOT NULL NOT NULL",
                "CONSTANT", "NOT NULL", "a NOT", "a /* CONSTANT */", "a := NOT NULL", "a NOTNULL",
            ],
        );
    }

    #[test]
    fn a_function_has_the_reasons_of_all_its_parts() {
        let all = Reasons {
            quoted_assign: true,
            equals_first: true,
            keyword_first: true,
            no_type_left: true,
        };
        assert_eq!(Reasons::of("DECLARE a b=':='; c d DEFAULT 1:=2; a NOT NULL; BEGIN"), all);
        assert_eq!(
            Reasons::of("DECLARE a CONSTANT DEFAULT ':=' := 1 BEGIN"),
            Reasons { equals_first: false, ..all }
        );
    }

    /// Only the block matters, and its parts one by one.
    #[test]
    fn text_outside_the_block_does_not_count() {
        let texts = [
            "", "a = 1", "DECLARE a = 1;", "BEGIN DECLARE a b = 1; BEGIN",
            "a = ':=' DECLARE BEGIN", "DECLARE a b; BEGIN v = ':=';",
            "DECLARE a b DEFAULT 1; c d := 2; BEGIN", "'DECLARE' a b = 1; BEGIN",
            "DECLARE a; CONSTANT; BEGIN", "a CONSTANT; DECLARE BEGIN b NOT NULL;",
        ];
        for text in texts {
            assert!(Reasons::of(text).is_none(), "{text:?}");
        }
    }
}
