//! What Note 5 makes of a declaration: CONSTANT ahead of the type and NOT NULL behind it leave the type,
//! and its record is marked for them.

use crate::block;
use crate::declarations::Declaration;
use crate::defaults::DefaultKeys;

const CONSTANT: &str = "CONSTANT";
const NOT: &str = "NOT";
const NULL: &str = "NULL";

/// A declared variable as its record gives it.
#[derive(Clone, Debug, PartialEq, Eq)]
pub struct Variable {
    pub name: String,
    pub data_type: String,
    pub default: Option<String>,
    pub is_constant: bool,
    pub is_not_null: bool,
}

impl Variable {
    /// A variable without marks.
    pub fn unmarked(name: &str, data_type: &str, default: Option<&str>) -> Self {
        Self {
            name: name.to_string(),
            data_type: data_type.to_string(),
            default: default.map(str::to_string),
            is_constant: false,
            is_not_null: false,
        }
    }

    /// What the record of a declaration holds. `None` if no type is left.
    pub fn of(Declaration { name, data_type, default }: &Declaration) -> Option<Self> {
        // The published source joins the words by single spaces.
        let words: Vec<&str> = data_type.split(' ').collect();
        let TypeWords { left, is_constant, is_not_null } = TypeWords::of(&words);
        let unmarked = Self::unmarked(name, &left.join(" "), default.as_deref());
        (!left.is_empty()).then_some(Self { is_constant, is_not_null, ..unmarked })
    }

    /// The variables of all these declarations. `None` if one of them has no type left.
    pub fn all(list: &[Declaration]) -> Option<Vec<Self>> {
        list.iter().map(Self::of).collect()
    }
}

/// The words behind a name: those that are left for the type, and whether the others were there.
struct TypeWords<'a> {
    left: &'a [&'a str],
    is_constant: bool,
    is_not_null: bool,
}

impl<'a> TypeWords<'a> {
    /// CONSTANT is the first word, NOT NULL are the last two of what is then left.
    fn of(words: &'a [&'a str]) -> Self {
        let (is_constant, behind) = match words {
            [first, behind @ ..] if is_word(first, CONSTANT) => (true, behind),
            _ => (false, words),
        };
        let (is_not_null, left) = match behind {
            [left @ .., not, null] if is_word(not, NOT) && is_word(null, NULL) => (true, left),
            _ => (false, behind),
        };
        Self { left, is_constant, is_not_null }
    }
}

fn is_word(word: &str, keyword: &str) -> bool {
    word.eq_ignore_ascii_case(keyword)
}

/// Whether a part would declare a variable, but has no type left. The words are those ahead of its
/// default.
pub(crate) fn has_no_type_left(ahead: &str) -> bool {
    let words: Vec<&str> = ahead.split_whitespace().collect();
    match words.as_slice() {
        [] | [_] => false,
        [_, behind @ ..] => TypeWords::of(behind).left.is_empty(),
    }
}

/// Whether CONSTANT, NOT or NULL is a word of one of the function's declarations, ahead of its default.
pub fn occur_in(text: &str) -> bool {
    let is_one = |word: &&str| [CONSTANT, NOT, NULL].iter().any(|one| is_word(word, one));
    block::parts(text).into_iter().any(|part| {
        let words: Vec<&str> = DefaultKeys::of(part).ahead(part).split_whitespace().collect();
        words.len() > 1 && words.iter().any(is_one)
    })
}

/// Whether the published source's type is this one with the words put back, their letter case
/// disregarded.
pub fn is_put_back(
    published: &str,
    data_type: &[u8],
    is_constant: bool,
    is_not_null: bool,
) -> bool {
    let front = if is_constant { "CONSTANT " } else { "" };
    let back = if is_not_null { " NOT NULL" } else { "" };
    let whole = [front.as_bytes(), data_type, back.as_bytes()].concat();
    let between = front.len()..front.len() + data_type.len();
    let published = published.as_bytes();
    published.eq_ignore_ascii_case(&whole) && published[between] == *data_type
}

#[cfg(test)]
mod tests {
    use super::*;
    use crate::reading::Reading;
    use crate::reasons::Reasons;
    use std::collections::HashSet;
    use texts::random::Random;

    /// The variable that a part declares, read by the published source and then by Note 5.
    fn variable(part: &str) -> Option<Variable> {
        let text = format!("DECLARE {part};BEGIN");
        let list = Reading::published(&text).unwrap().list;
        list.iter().find_map(Variable::of)
    }

    /// Parts that declare `a`, with the type that is left and the marks for CONSTANT and NOT NULL.
    fn check(parts: &[(&str, &str, [bool; 2])]) {
        for (part, data_type, marks) in parts {
            let Variable { name, data_type: got, is_constant, is_not_null, .. } =
                variable(part).unwrap_or_else(|| panic!("{part:?} declares nothing"));
            assert_eq!((&name[..], &got[..]), ("a", *data_type), "{part:?}");
            assert_eq!([is_constant, is_not_null], *marks, "{part:?}");
        }
    }

    const NEITHER: [bool; 2] = [false, false];
    const CONSTANT_ALONE: [bool; 2] = [true, false];
    const NOT_NULL_ALONE: [bool; 2] = [false, true];
    const BOTH: [bool; 2] = [true, true];

    #[test]
    fn the_words_leave_the_type() {
        check(&[
            ("a int", "int", NEITHER),
            ("a CONSTANT int", "int", CONSTANT_ALONE),
            ("a int NOT NULL", "int", NOT_NULL_ALONE),
            ("a CONSTANT int NOT NULL := 1", "int", BOTH),
            ("a constant int not null DEFAULT 1", "int", BOTH),
            ("a cOnStAnT t.b%TYPE nOt NuLl", "t.b%TYPE", BOTH),
            ("a int NOT  NULL", "int", NOT_NULL_ALONE),
            ("a int not\nnull", "int", NOT_NULL_ALONE),
            ("a CONSTANT\x0bnumeric(1, 2)\x0cNOT\rNULL", "numeric(1, 2)", BOTH),
        ]);
    }

    #[test]
    fn constant_is_the_first_word_and_not_null_the_last_two_of_the_rest() {
        check(&[
            ("a CONSTANT CONSTANT", "CONSTANT", CONSTANT_ALONE),
            ("a CONSTANT CONSTANT int", "CONSTANT int", CONSTANT_ALONE),
            ("a CONSTANT NOT", "NOT", CONSTANT_ALONE),
            ("a CONSTANT NULL", "NULL", CONSTANT_ALONE),
            ("a int NOT NULL NOT NULL", "int NOT NULL", NOT_NULL_ALONE),
            ("a NOT NULL NOT NULL", "NOT NULL", NOT_NULL_ALONE),
            ("a CONSTANT NOT NULL NOT NULL", "NOT NULL", BOTH),
            ("a NOT NULL CONSTANT", "NOT NULL CONSTANT", NEITHER),
            ("a int CONSTANT", "int CONSTANT", NEITHER),
            ("a NOT CONSTANT NULL", "NOT CONSTANT NULL", NEITHER),
            ("a NULL NOT", "NULL NOT", NEITHER),
            ("a NOT", "NOT", NEITHER),
            ("a b -- NOT NULL\n", "b --", NOT_NULL_ALONE),
            ("a /* NOT NULL */", "/* NOT NULL */", NEITHER),
        ]);
    }

    #[test]
    fn near_misses_stay_in_the_type() {
        check(&[
            ("a CONSTANTS int", "CONSTANTS int", NEITHER),
            ("a \"CONSTANT\" int", "\"CONSTANT\" int", NEITHER),
            ("a int NOTNULL", "int NOTNULL", NEITHER),
            ("a intNOT NULL", "intNOT NULL", NEITHER),
            ("a int NOT NULLS", "int NOT NULLS", NEITHER),
            ("a int NOT\x1cNULL", "int NOT\x1cNULL", NEITHER),
            ("a int NULL", "int NULL", NEITHER),
            ("a \"NOT NULL\"", "\"NOT NULL\"", NEITHER),
            ("a int NOT /**/ NULL", "int NOT /**/ NULL", NEITHER),
            ("a int := 1 NOT NULL", "int", NEITHER),
        ]);
    }

    #[test]
    fn no_type_may_be_left() {
        let parts =
            ["a CONSTANT", "a NOT NULL", "a CONSTANT NOT NULL", "a constant := 1", "-- Not nulL\n"];
        for part in parts {
            assert_eq!(variable(part), None, "{part:?}");
            assert!(has_no_type_left(DefaultKeys::of(part).ahead(part)), "{part:?}");
        }
        for part in [
            "", "a", "CONSTANT", "a NOT", "a NULL", "a CONSTANT CONSTANT", "NOT NULL",
            "a := NOT NULL",
        ] {
            assert!(!has_no_type_left(DefaultKeys::of(part).ahead(part)), "{part:?}");
        }
    }

    #[test]
    fn the_words_stand_ahead_of_a_default() {
        for block in
            ["a CONSTANT int", "a b; null c;", "a b not := 1", "\"a CONSTANT b\" int", "a NOT"]
        {
            assert!(occur_in(&format!("DECLARE {block} BEGIN")), "{block:?}");
        }
        for block in ["a int := NULL", "a CONSTANTS", "CONSTANT;a b", "a \"NOT\"", "NULL := 1"] {
            assert!(!occur_in(&format!("DECLARE {block} BEGIN NOT NULL")), "{block:?}");
        }
    }

    #[test]
    fn put_back_disregards_the_letter_case_of_the_words_alone() {
        assert!(is_put_back("constant Int not Null", b"Int", true, true));
        assert!(is_put_back("CONSTANT int", b"CONSTANT int", false, false));
        assert!(is_put_back("int NOT NULL", b"int", false, true));
        assert!(!is_put_back("CONSTANT int", b"INT", true, false));
        assert!(!is_put_back("CONSTANT int", b"int", false, false));
        assert!(!is_put_back("CONSTANT int", b"int", true, true));
        assert!(!is_put_back("int", b"int", true, false));
        assert!(!is_put_back("int  NOT NULL", b"int", false, true));
    }

    const PLACES: [&str; 6] = ["name", "alone", "first", "middle", "last", "default"];
    const CASES: [&str; 3] = ["capitals", "small", "mixed"];

    /// Where each of the words stands in a part, and in which letter case.
    fn places(part: &str) -> Vec<(&'static str, &'static str, &'static str)> {
        let ahead = DefaultKeys::of(part).ahead(part);
        let words: Vec<&str> = ahead.split_whitespace().collect();
        let place = |index: usize| match index {
            0 => "name",
            1 if words.len() == 2 => "alone",
            1 => "first",
            _ if index + 1 == words.len() => "last",
            _ => "middle",
        };
        let placed = words.iter().enumerate().map(|(index, word)| (*word, place(index)));
        let default = part[ahead.len()..].split_whitespace().map(|word| (word, "default"));
        let noted = placed.chain(default).filter_map(|(word, place)| {
            let one = [CONSTANT, NOT, NULL].into_iter().find(|one| is_word(word, one))?;
            Some((one, place, letter_case(word)))
        });
        noted.collect()
    }

    fn letter_case(word: &str) -> &'static str {
        match word {
            _ if word == word.to_uppercase() => "capitals",
            _ if word == word.to_lowercase() => "small",
            _ => "mixed",
        }
    }

    /// CONSTANT alone would take the function out of the comparison.
    #[test]
    fn random_functions_that_are_compared_have_the_words_everywhere() {
        let mut random = Random::new(1);
        let functions = (0..20_000).map(|_| texts::function(&mut random));
        let compared: Vec<String> = functions.filter(|text| Reasons::of(text).is_none()).collect();
        let parts = compared.iter().flat_map(|text| block::parts(text));
        let seen: HashSet<_> = parts.flat_map(places).collect();
        for word in [CONSTANT, NOT, NULL] {
            for place in PLACES.into_iter().filter(|place| (word, *place) != (CONSTANT, "alone")) {
                for case in CASES {
                    assert!(seen.contains(&(word, place, case)), "{word}, {place}, {case}");
                }
            }
        }
    }
}
