//! The command `generate`: random questions of one kind.

use std::io::Write;

use texts::levels;
use texts::parts;
use texts::random::Random;

use crate::question::Question;
use crate::Stop;

type Maker = fn(&mut Random) -> Question;

/// The rewriting calls.
const CALLS: [(&str, Maker); 4] = [
    ("body", |random| Question::Body(texts::body(random))),
    ("function", |random| Question::Function(texts::function(random))),
    ("body_by_levels", |random| {
        let table = levels::mixed_table(random);
        Question::BodyByLevels(table, levels::body(random))
    }),
    ("function_by_levels", |random| {
        let table = levels::mixed_table(random);
        Question::FunctionByLevels(table, levels::function(random))
    }),
];

/// The searches, which the kind `searches` mixes.
const SEARCHES: [(&str, Maker); 10] = [
    ("regions", |random| Question::Regions(texts::quoted(random))),
    ("find_keyword", find_keyword),
    ("find_in_code", find_in_code),
    ("find_str_in_code", find_str_in_code),
    ("next_word_in_code", next_word_in_code),
    ("split_in_code", split_in_code),
    ("requote", |random| Question::Requote(texts::quoted(random))),
    ("requoted_length", |random| Question::RequotedLength(texts::quoted(random))),
    ("unterminated", |random| Question::Unterminated(texts::quoted(random))),
    ("handler", |random| Question::Handler(texts::handler(random))),
];

pub fn run(kind: &str, count: &str, seed: &str, out: &mut impl Write) -> Result<(), Stop> {
    let maker = maker(kind).ok_or_else(|| Stop::Usage(unknown_kind(kind)))?;
    let count: u64 = number(count, "COUNT")?;
    let mut random = Random::new(number(seed, "SEED")?);
    for _ in 0..count {
        writeln!(out, "{}", maker(&mut random))?;
    }
    Ok(())
}

fn maker(kind: &str) -> Option<Maker> {
    if kind == "searches" {
        return Some(any_search);
    }
    let found = CALLS.iter().chain(&SEARCHES).find(|(name, _)| *name == kind);
    found.map(|(_, maker)| *maker)
}

/// The names of all kinds.
pub fn kinds() -> Vec<&'static str> {
    let single = CALLS.iter().chain(&SEARCHES).map(|(name, _)| *name);
    single.chain(["searches"]).collect()
}

fn unknown_kind(kind: &str) -> String {
    format!("unknown kind `{kind}`, the kinds are: {}", kinds().join(" "))
}

pub fn number(word: &str, what: &str) -> Result<u64, Stop> {
    word.parse().map_err(|_| Stop::Usage(format!("{what} must be a number, not `{word}`")))
}

fn any_search(random: &mut Random) -> Question {
    let maker = SEARCHES[random.below(SEARCHES.len())].1;
    maker(random)
}

fn find_keyword(random: &mut Random) -> Question {
    let text = texts::any(random);
    let keyword = parts::keyword_for(&text, random);
    let from = parts::start(&text, random);
    Question::FindKeyword(text, keyword, from)
}

fn find_in_code(random: &mut Random) -> Question {
    let text = texts::any(random);
    let byte = parts::byte_for(&text, random);
    Question::FindInCode(text, byte)
}

fn find_str_in_code(random: &mut Random) -> Question {
    let text = texts::any(random);
    let needle = parts::needle_for(&text, random);
    Question::FindStrInCode(text, needle)
}

fn next_word_in_code(random: &mut Random) -> Question {
    let text = texts::any(random);
    let from = parts::start(&text, random);
    Question::NextWordInCode(text, from)
}

fn split_in_code(random: &mut Random) -> Question {
    let text = texts::any(random);
    let byte = parts::byte_for(&text, random);
    Question::SplitInCode(text, byte)
}
