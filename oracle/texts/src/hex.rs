//! Texts as hex coded bytes: two lower case digits a byte, `-` for the empty text.

use std::fmt::Write;

pub const EMPTY: &str = "-";

pub fn encode(bytes: &[u8]) -> String {
    if bytes.is_empty() {
        return EMPTY.to_string();
    }
    let mut out = String::with_capacity(2 * bytes.len());
    for byte in bytes {
        let _ = write!(out, "{byte:02x}");
    }
    out
}

pub fn decode(field: &str) -> Result<Vec<u8>, String> {
    if field == EMPTY {
        return Ok(Vec::new());
    }
    if field.is_empty() || !field.len().is_multiple_of(2) {
        return Err(format!("`{field}` is no hex coded text"));
    }
    let pairs = field.as_bytes().chunks_exact(2);
    pairs.map(decode_pair).collect()
}

/// A text whose bytes are all below 128.
pub fn decode_ascii(field: &str) -> Result<String, String> {
    let bytes = decode(field)?;
    match bytes.iter().position(|byte| !byte.is_ascii()) {
        Some(place) => Err(format!("the text is not ASCII at offset {place}")),
        None => Ok(bytes.into_iter().map(char::from).collect()),
    }
}

fn decode_pair(pair: &[u8]) -> Result<u8, String> {
    Ok(16 * decode_digit(pair[0])? + decode_digit(pair[1])?)
}

fn decode_digit(digit: u8) -> Result<u8, String> {
    match digit {
        b'0'..=b'9' => Ok(digit - b'0'),
        b'a'..=b'f' => Ok(digit - b'a' + 10),
        _ => Err("a hex digit must be one of 0 to 9 and a to f".to_string()),
    }
}
