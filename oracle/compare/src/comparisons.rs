//! The lists of comparisons on one text. A new search adds one line here and one in `calls`.

use texts::random::Random;

use crate::bodies;
use crate::functions;
use crate::levels;
use crate::report::{Report, Row};
use crate::searches;
use crate::subject::Subject;
use Comparison::{One, Several};

/// What is asked about one text, and the names of the rows that it counts in.
pub enum Comparison {
    One(&'static str, fn(&mut Subject, &mut Row)),
    Several(&'static [&'static str], fn(&mut Subject, &mut [Row])),
}

pub const SEARCHES: &[Comparison] = &[
    One("regions", searches::regions),
    One("find_keyword", searches::find_keyword),
    One("find_in_code", searches::find_in_code),
    One("find_str_in_code", searches::find_str_in_code),
    One("next_word_in_code", searches::next_word_in_code),
    One("split_in_code", searches::split_in_code),
    One("requote_dollar_literals", searches::requote),
    One("requoted_length", searches::requoted_length),
    One("has_unterminated_dollar_quote", searches::unterminated),
    One("has_exception_handler", searches::handler),
];

pub const BODIES: &[Comparison] = &[Several(&bodies::ROWS, bodies::transform_body)];

pub const FUNCTIONS: &[Comparison] = &[Several(&functions::ROWS, functions::preprocess)];

pub const BODIES_BY_LEVELS: &[Comparison] = &[Several(&levels::ROWS, levels::bodies)];

pub const FUNCTIONS_BY_LEVELS: &[Comparison] = &[Several(&levels::ROWS, levels::functions)];

impl Comparison {
    fn names(&self) -> &[&'static str] {
        match self {
            One(name, _) => std::slice::from_ref(name),
            Several(names, _) => names,
        }
    }
}

/// The names of a list, as a report's rows.
pub fn names(list: &[Comparison]) -> Vec<&'static str> {
    list.iter().flat_map(Comparison::names).copied().collect()
}

/// Every comparison of a list on one text.
pub fn compare(list: &[Comparison], text: &str, random: &mut Random, report: &mut Report) {
    let mut subject = Subject::new(text, random);
    let mut rest = &mut report.rows[..];
    for comparison in list {
        let (rows, behind) = rest.split_at_mut(comparison.names().len());
        match comparison {
            One(_, ask) => ask(&mut subject, &mut rows[0]),
            Several(_, ask) => ask(&mut subject, rows),
        }
        rest = behind;
    }
}
