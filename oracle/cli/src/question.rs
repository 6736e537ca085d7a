//! One question, as read from a line and as written to one.

use std::fmt;

use crate::hex;

/// The fields hold decoded texts.
pub enum Question {
    Body(String),
    Function(String),
    /// A table of levels, which may hold any byte, and the text.
    BodyByLevels(Vec<u8>, String),
    FunctionByLevels(Vec<u8>, String),
    Regions(String),
    FindKeyword(String, String, usize),
    FindInCode(String, u8),
    FindStrInCode(String, String),
    NextWordInCode(String, usize),
    SplitInCode(String, u8),
    Requote(String),
    RequotedLength(String),
    Unterminated(String),
    Handler(String),
    Compared(String),
}

impl Question {
    pub fn parse(line: &str) -> Result<Self, String> {
        let fields: Vec<&str> = line.split(' ').collect();
        let text = hex::decode_ascii;
        Ok(match fields.as_slice() {
            ["body", t] => Self::Body(text(t)?),
            ["function", t] => Self::Function(text(t)?),
            ["body_by_levels", table, t] => Self::BodyByLevels(hex::decode(table)?, text(t)?),
            ["function_by_levels", table, t] => {
                Self::FunctionByLevels(hex::decode(table)?, text(t)?)
            }
            ["regions", t] => Self::Regions(text(t)?),
            ["find_keyword", t, keyword, from] => {
                Self::FindKeyword(text(t)?, text(keyword)?, number(from)?)
            }
            ["find_in_code", t, byte] => Self::FindInCode(text(t)?, one_byte(byte)?),
            ["find_str_in_code", t, needle] => Self::FindStrInCode(text(t)?, text(needle)?),
            ["next_word_in_code", t, from] => Self::NextWordInCode(text(t)?, number(from)?),
            ["split_in_code", t, byte] => Self::SplitInCode(text(t)?, one_byte(byte)?),
            ["requote", t] => Self::Requote(text(t)?),
            ["requoted_length", t] => Self::RequotedLength(text(t)?),
            ["unterminated", t] => Self::Unterminated(text(t)?),
            ["handler", t] => Self::Handler(text(t)?),
            ["compared", t] => Self::Compared(text(t)?),
            _ => return Err("no known question with this number of fields".to_string()),
        })
    }
}

fn number(field: &str) -> Result<usize, String> {
    let parsed = field.bytes().all(|byte| byte.is_ascii_digit()).then(|| field.parse().ok());
    parsed.flatten().ok_or_else(|| format!("`{field}` is no number"))
}

fn one_byte(field: &str) -> Result<u8, String> {
    match hex::decode(field)?.as_slice() {
        [byte] => Ok(*byte),
        _ => Err(format!("`{field}` is not one byte in two hex digits")),
    }
}

impl fmt::Display for Question {
    fn fmt(&self, out: &mut fmt::Formatter<'_>) -> fmt::Result {
        let coded = |text: &str| hex::encode(text.as_bytes());
        match self {
            Self::Body(t) => write!(out, "body {}", coded(t)),
            Self::Function(t) => write!(out, "function {}", coded(t)),
            Self::BodyByLevels(table, t) => {
                write!(out, "body_by_levels {} {}", hex::encode(table), coded(t))
            }
            Self::FunctionByLevels(table, t) => {
                write!(out, "function_by_levels {} {}", hex::encode(table), coded(t))
            }
            Self::Regions(t) => write!(out, "regions {}", coded(t)),
            Self::FindKeyword(t, keyword, from) => {
                write!(out, "find_keyword {} {} {from}", coded(t), coded(keyword))
            }
            Self::FindInCode(t, byte) => write!(out, "find_in_code {} {byte:02x}", coded(t)),
            Self::FindStrInCode(t, needle) => {
                write!(out, "find_str_in_code {} {}", coded(t), coded(needle))
            }
            Self::NextWordInCode(t, from) => write!(out, "next_word_in_code {} {from}", coded(t)),
            Self::SplitInCode(t, byte) => write!(out, "split_in_code {} {byte:02x}", coded(t)),
            Self::Requote(t) => write!(out, "requote {}", coded(t)),
            Self::RequotedLength(t) => write!(out, "requoted_length {}", coded(t)),
            Self::Unterminated(t) => write!(out, "unterminated {}", coded(t)),
            Self::Handler(t) => write!(out, "handler {}", coded(t)),
            Self::Compared(t) => write!(out, "compared {}", coded(t)),
        }
    }
}
