//! The command line.

use crate::given;
use crate::parts::PARTS;

const USAGE: &str = "options: `--parts NAME,NAME..`, `--seed N`, `--random COUNT`, \
                     `--longest BYTES`, `--threads N`, `--questions FILE`";

pub struct Options {
    /// The names of the parts to run.
    pub parts: Vec<String>,
    pub seed: u64,
    /// How many random texts or pairs a part takes, if not its own number.
    pub random: Option<u64>,
    /// The most bytes of the texts that are taken all.
    pub longest: u32,
    pub threads: usize,
    /// The texts of a file of questions, to be taken in place of the parts.
    pub given: Option<Vec<String>>,
}

impl Options {
    pub fn read(mut words: impl Iterator<Item = String>) -> Result<Self, String> {
        let parts = PARTS.iter().map(|part| part.name.to_string()).collect();
        let mut options =
            Self { parts, seed: 1, random: None, longest: 6, threads: 2, given: None };
        while let Some(word) = words.next() {
            let value = words.next().ok_or_else(|| format!("`{word}` needs a value; {USAGE}"))?;
            options.set(&word, &value).map_err(|message| format!("{message}; {USAGE}"))?;
        }
        Ok(options)
    }

    fn set(&mut self, word: &str, value: &str) -> Result<(), String> {
        match word {
            "--parts" => self.parts = named(value)?,
            "--seed" => self.seed = number(value)?.into(),
            "--random" => self.random = Some(number(value)?.into()),
            "--longest" => self.longest = within(word, number(value)?, 1, 8)?,
            "--threads" => self.threads = within(word, number(value)?, 1, 64)? as usize,
            "--questions" => self.given = Some(given::texts_in(value)?),
            _ => return Err(format!("unknown option `{word}`")),
        }
        Ok(())
    }
}

fn named(list: &str) -> Result<Vec<String>, String> {
    let is_part = |name: &str| PARTS.iter().any(|part| part.name == name);
    match list.split(',').find(|name| !is_part(name)) {
        Some(name) => {
            Err(format!("`{name}` is no part: {}", PARTS.map(|part| part.name).join(", ")))
        }
        None => Ok(list.split(',').map(str::to_string).collect()),
    }
}

fn number(value: &str) -> Result<u32, String> {
    value.parse().map_err(|_| format!("`{value}` is no number up to 2^32"))
}

fn within(word: &str, number: u32, least: u32, most: u32) -> Result<u32, String> {
    match (least..=most).contains(&number) {
        true => Ok(number),
        false => Err(format!("`{word}` goes from {least} to {most}")),
    }
}
