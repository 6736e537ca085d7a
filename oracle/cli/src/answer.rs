//! The answer of the reference to one question, in the line format.

use reference::constants::Variable;
use reference::context::PlPgSqlContext;
use reference::declarations::Declaration;
use reference::levels::{Refusal, Table};
use reference::preprocessor::PlPgSqlPreprocessor;
use reference::raises::{self, Raised};
use reference::reading::Reading;
use reference::reasons::Reasons;
use reference::records::Records;
use reference::scanner::{Region, Scanner};
use reference::Error;

use crate::hex;
use crate::question::Question;
use crate::runs::Runs;
use crate::stored_call::{Answer, Function};

/// The field of a default that is not present.
const ABSENT: &str = ".";

const NOT_RESPELLED: &str = "a function that cannot be respelled";

pub fn answer(question: &Question) -> Result<String, String> {
    Ok(match question {
        Question::Body(text) => return body(text),
        Question::Function(text) => return function(Reading::published(text)?),
        Question::BodyByLevels(table, text) => numbers(&rewritten_under(text, table)?, 0),
        Question::FunctionByLevels(table, text) => return function_under(text, table),
        Question::Regions(text) => regions(text),
        Question::FindKeyword(text, keyword, from) => {
            place(Scanner::new(text).find_keyword(keyword, *from))
        }
        Question::FindInCode(text, byte) => place(Scanner::new(text).find_in_code(*byte)),
        Question::FindStrInCode(text, needle) => place(Scanner::new(text).find_str_in_code(needle)),
        Question::NextWordInCode(text, from) => next_word(text, *from),
        Question::SplitInCode(text, byte) => split(text, *byte),
        Question::Requote(text) => {
            hex::encode(Scanner::new(text).requote_dollar_literals().as_bytes())
        }
        Question::RequotedLength(text) => {
            Scanner::new(text).requote_dollar_literals().len().to_string()
        }
        Question::Unterminated(text) => flag(Scanner::new(text).has_unterminated_dollar_quote()),
        Question::Handler(text) => flag(PlPgSqlPreprocessor::has_exception_handler(text)),
        Question::Compared(text) => flag(Reasons::of(text).is_none()),
    })
}

fn body(text: &str) -> Result<String, String> {
    Ok(numbers(&rewritten(text)?, 0))
}

/// The answer to a body, before it is put into a line.
pub fn rewritten(text: &str) -> Result<Answer, String> {
    match PlPgSqlPreprocessor::transform_body(text, &PlPgSqlContext::new()) {
        Ok(output) => Ok(Answer::accepted(&output)),
        Err(error) => refused(&error),
    }
}

/// The same under a table of levels.
pub fn rewritten_under(text: &str, table: &[u8]) -> Result<Answer, String> {
    let table = match Table::read(table) {
        Ok(table) => table,
        Err(refusal) => return Ok(refused_table(refusal)),
    };
    match raises::transform_body(text, &table) {
        Ok(Raised { text, .. }) => Ok(Answer::accepted(&text)),
        Err(error) => refused(&error),
    }
}

fn refused_table(Refusal { number, place }: Refusal) -> Answer {
    Answer::refused(number as usize, place)
}

fn function_under(text: &str, table: &[u8]) -> Result<String, String> {
    match Table::read(table) {
        Ok(table) => function(Reading::under(text, &table)?.ok_or(NOT_RESPELLED)?),
        Err(refusal) => Ok(numbers(&refused_table(refusal), 0)),
    }
}

/// The line of a function that is read so.
fn function(Reading { output, list, .. }: Reading) -> Result<String, String> {
    match output {
        Ok(output) => {
            let fields: String = list.iter().map(|one| format!(" {}", fields(one))).collect();
            Ok(numbers(&Answer::accepted(&output), list.len()) + &fields)
        }
        Err(error) => Ok(numbers(&refused(&error)?, 0)),
    }
}

/// A function under a table of levels, with the answer and the records that the notes want. `None` if the
/// reference cannot tell them.
pub fn preprocessed_under(text: &str, table: &[u8]) -> Result<Option<Function>, String> {
    match Table::read(table) {
        Ok(table) => Reading::under(text, &table)?.map(|reading| stored(text, reading)).transpose(),
        Err(refusal) => {
            let text = Runs::one(text.as_bytes());
            Ok(Some(Function::new(text, refused_table(refusal), &[])))
        }
    }
}

/// A function with the answer and the records that Notes 2 and 5 want. `None` if the reference cannot tell
/// them: the text is no longer compared, and it cannot be respelled.
pub fn preprocessed(text: &str) -> Result<Option<Function>, String> {
    Reading::wanted(text)?.map(|reading| stored(text, reading)).transpose()
}

fn stored(text: &str, Reading { output, list, order }: Reading) -> Result<Function, String> {
    let (answer, records) = match output {
        Ok(output) => {
            let variables = Variable::all(&list).ok_or("a declaration has no type left")?;
            (Answer::accepted(&output), Records::new(&order, &variables))
        }
        Err(error) => (refused(&error)?, Records::default()),
    };
    Ok(Function { text: Runs::one(text.as_bytes()), answer, records })
}

fn fields(declaration: &Declaration) -> String {
    let coded = |text: &str| hex::encode(text.as_bytes());
    let default = declaration.default.as_deref().map_or(ABSENT.to_string(), coded);
    format!("{} {} {default}", coded(&declaration.name), coded(&declaration.data_type))
}

/// The four numbers and the output.
fn numbers(answer: &Answer, count: usize) -> String {
    let Answer { number, place, output } = answer;
    format!("{number} {place} {} {count} {}", output.len(), hex::encode(&output.bytes()))
}

/// The two refusals that a rewriting call can give.
fn refused(error: &Error) -> Result<Answer, String> {
    match error {
        Error::QualifiedAssignment { qualifier, name } => Ok(Answer::qualified(qualifier, name)),
        Error::UnsupportedRaiseUsing { clause } => Ok(Answer::clause(clause)),
        other => Err(format!("an error that no rewriting gives: {other:?}")),
    }
}

fn regions(text: &str) -> String {
    let map = Scanner::new(text).regions();
    let bytes: Vec<u8> = map.iter().map(|region| u8::from(*region == Region::Quoted)).collect();
    hex::encode(&bytes)
}

fn next_word(text: &str, from: usize) -> String {
    match Scanner::new(text).next_word_in_code(from) {
        Some(word) => format!("1 {} {}", offset(text, word), word.len()),
        None => "0 0 0".to_string(),
    }
}

fn split(text: &str, byte: u8) -> String {
    let pieces = Scanner::new(text).split_in_code(byte);
    let starts: Vec<String> = pieces.iter().map(|piece| offset(text, piece).to_string()).collect();
    starts.join(",")
}

/// Where a part stands in its text: a slice of the text keeps its address.
fn offset(text: &str, part: &str) -> usize {
    part.as_ptr() as usize - text.as_ptr() as usize
}

fn place(found: Option<usize>) -> String {
    match found {
        Some(place) => format!("1 {place}"),
        None => "0 0".to_string(),
    }
}

fn flag(holds: bool) -> String {
    u8::from(holds).to_string()
}
