//! What is read in a function: by the published source, as Notes 2 and 5 want it, and under a table of
//! levels.

use crate::declarations::{self, Declaration};
use crate::levels::Table;
use crate::preprocessor::PlPgSqlPreprocessor;
use crate::raises::{self, Raised};
use crate::reasons::Reasons;
use crate::records::first_declared;
use crate::respelling::{put_back, respelled};
use crate::scanner::Scanner;
use crate::Error;

const BEGIN: &str = "BEGIN";

#[derive(Debug)]
pub struct Reading {
    /// The rewritten body, or why it is refused.
    pub output: Result<String, Error>,
    /// The declarations in byte order of names, none after a refusal.
    pub list: Vec<Declaration>,
    /// The names in order of first declaration.
    pub order: Vec<String>,
}

impl Reading {
    /// As the published source reads the text.
    pub fn published(text: &str) -> Result<Self, String> {
        let (output, list) = match PlPgSqlPreprocessor::preprocess(text) {
            Ok((output, context)) => (Ok(output), declarations::list(&context)?),
            Err(error) => (Err(error), Vec::new()),
        };
        Ok(Self { output, list, order: first_declared(text) })
    }

    /// As the published source reads the respelled text. `None` if the text cannot be respelled.
    pub fn respelled(text: &str) -> Result<Option<Self>, String> {
        let Some(text) = respelled(text) else { return Ok(None) };
        let Self { output, mut list, order } = Self::published(&text)?;
        for Declaration { name, data_type, .. } in &mut list {
            *name = put_back(name);
            *data_type = put_back(data_type);
        }
        list.sort_by(|one, other| one.name.cmp(&other.name));
        let order = order.iter().map(|name| put_back(name)).collect();
        Ok(Some(Self { output, list, order }))
    }

    /// As the notes want it: of the text itself while it is still compared, else of the respelled one.
    /// Each declaration has a type left.
    pub fn wanted(text: &str) -> Result<Option<Self>, String> {
        match Reasons::of(text).is_none() {
            true => Self::published(text).map(Some),
            false => Self::respelled(text),
        }
    }

    /// The same under a table of levels. The declarations are read ahead of an empty body, since a body
    /// that the published source refuses may be accepted.
    pub fn under(text: &str, table: &Table) -> Result<Option<Self>, String> {
        let body = body_of(text);
        let front = text[..text.len() - body.len()].to_string() + BEGIN;
        let Some(declared) = Self::wanted(&front)? else { return Ok(None) };
        let output = raises::transform_body(body, table).map(|Raised { text, .. }| text);
        let list = if output.is_ok() { declared.list } else { Vec::new() };
        Ok(Some(Self { output, list, order: declared.order }))
    }
}

/// The body of a function: from the first live BEGIN on, and the whole text if there is none.
pub fn body_of(text: &str) -> &str {
    Scanner::new(text).find_keyword(BEGIN, 0).map_or(text, |start| &text[start..])
}

#[cfg(test)]
mod tests {
    use super::*;
    use crate::levels::NO_TABLE;
    use texts::random::Random;

    #[test]
    fn without_a_table_a_function_is_read_as_wanted() {
        let mut random = Random::new(1);
        let mut declaring = 0;
        for _ in 0..20_000 {
            let text = texts::function(&mut random);
            let under = Reading::under(&text, &NO_TABLE).unwrap();
            let wanted = Reading::wanted(&text).unwrap();
            assert_eq!(format!("{under:?}"), format!("{wanted:?}"), "{text:?}");
            declaring += usize::from(wanted.is_some_and(|wanted| !wanted.list.is_empty()));
        }
        assert!(declaring > 5_000, "{declaring}");
    }
}
