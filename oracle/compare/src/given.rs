//! The texts of a file of questions: each line is a kind, a text in hex and what else is asked. A question by
//! levels has its table ahead of the text.

use std::fs;

use texts::hex;

/// The texts in a file, one for each line.
pub fn texts_in(path: &str) -> Result<Vec<String>, String> {
    let file = fs::read_to_string(path).map_err(|error| format!("`{path}`: {error}"))?;
    if file.is_empty() {
        return Err(format!("`{path}` has no question"));
    }
    file.lines().map(text_of).collect()
}

fn text_of(line: &str) -> Result<String, String> {
    let kind = line.split(' ').next().unwrap_or_default();
    match line.split(' ').nth(if kind.ends_with("_by_levels") { 2 } else { 1 }) {
        Some(field) => hex::decode_ascii(field),
        None => Err(format!("`{line}` has no text")),
    }
}
