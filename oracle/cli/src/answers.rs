//! The command `answers`: one line in, one line out.

use std::io::{BufRead, Write};
use std::panic;

use crate::answer::answer;
use crate::question::Question;
use crate::Stop;

/// The answer where the reference panics.
const PANIC: &str = "panic";

/// A caught panic is an answer, so it must not be reported besides.
pub fn silence_panics() {
    panic::set_hook(Box::new(|_| {}));
}

pub fn run(input: impl BufRead, out: &mut impl Write) -> Result<(), Stop> {
    for (index, line) in input.split(b'\n').enumerate() {
        let reply = reply(&line?);
        let reply = reply.map_err(|why| Stop::Question(format!("line {}: {why}", index + 1)))?;
        writeln!(out, "{reply}")?;
    }
    Ok(())
}

fn reply(line: &[u8]) -> Result<String, String> {
    let line = std::str::from_utf8(line).map_err(|_| "the line is not ASCII".to_string())?;
    let question = Question::parse(line)?;
    let guarded = panic::catch_unwind(panic::AssertUnwindSafe(|| answer(&question)));
    guarded.unwrap_or_else(|_| Ok(PANIC.to_string()))
}
