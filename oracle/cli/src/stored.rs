//! The command `stored`: the list that the program `replay` runs. Random texts, each with the
//! reference's answers to one question of every kind, then the limits, and wrong answers.

use std::io::Write;

use texts::parts;
use texts::random::Random;

use crate::answer::answer;
use crate::generate::number;
use crate::hex;
use crate::question::Question;
use crate::runs::Runs;
use crate::search_faults;
use crate::stored_limits;
use crate::wrong_searches;
use crate::Stop;

pub fn run(count: &str, seed: &str, out: &mut impl Write) -> Result<(), Stop> {
    let count: u64 = number(count, "COUNT")?;
    let mut random = Random::new(number(seed, "SEED")?);
    for _ in 0..count {
        let text = texts::any(&mut random);
        writeln!(out, "t {}", Runs::one(text.as_bytes()))?;
        for question in questions(&text, &mut random) {
            writeln!(out, "{}", line(&question).map_err(Stop::Question)?)?;
        }
    }
    stored_limits::write(out)?;
    wrong_searches::write(out)?;
    search_faults::write(out)
}

fn questions(text: &str, random: &mut Random) -> Vec<Question> {
    let own = || text.to_string();
    vec![
        Question::Regions(own()),
        Question::FindKeyword(own(), parts::keyword_for(text, random), parts::start(text, random)),
        Question::FindInCode(own(), parts::byte_for(text, random)),
        Question::FindStrInCode(own(), parts::needle_for(text, random)),
        Question::NextWordInCode(own(), parts::start(text, random)),
        Question::SplitInCode(own(), parts::byte_for(text, random)),
        Question::Requote(own()),
        Question::RequotedLength(own()),
        Question::Unterminated(own()),
        Question::Handler(own()),
    ]
}

/// The letter of the kind, a needle, a start, the four numbers of the answer, and the result.
pub fn line(question: &Question) -> Result<String, String> {
    let reply = answer(question)?;
    let coded = |text: &str| hex::encode(text.as_bytes());
    Ok(match question {
        Question::Regions(_) => format!("m - 0 0 0 0 0 {}", digits(&reply)),
        Question::FindKeyword(_, keyword, from) => {
            format!("k {} {from} 0 {reply} 0", coded(keyword))
        }
        Question::FindInCode(_, byte) => format!("b {byte:02x} 0 0 {reply} 0"),
        Question::FindStrInCode(_, needle) => format!("s {} 0 0 {reply} 0", coded(needle)),
        Question::NextWordInCode(_, from) => format!("w - {from} 0 {reply}"),
        Question::SplitInCode(_, byte) => {
            let starts: Vec<&str> = reply.split(',').collect();
            format!("p {byte:02x} 0 0 0 0 {} {}", starts.len(), starts.join(" "))
        }
        Question::Requote(_) => {
            let length = hex::decode(&reply)?.len();
            format!("q - 0 0 0 0 {length} {reply}")
        }
        Question::RequotedLength(_) => format!("n - 0 0 0 0 {reply}"),
        Question::Unterminated(_) => format!("u - 0 0 {reply} 0 0"),
        Question::Handler(_) => format!("h - 0 0 {reply} 0 0"),
        _ => return Err("the rewriting calls are not stored yet".to_string()),
    })
}

/// A map with one digit a byte; `-` is the empty one.
fn digits(map: &str) -> String {
    match map {
        hex::EMPTY => map.to_string(),
        _ => map.chars().skip(1).step_by(2).collect(),
    }
}
