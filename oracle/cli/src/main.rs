//! Asks the reference implementation, and makes up questions for it.

mod answer;
mod answers;
mod body_limits;
mod body_rows;
mod call_faults;
mod constant_rows;
mod function_limits;
mod function_rows;
mod generate;
mod lent;
mod level_limits;
mod level_rows;
mod question;
mod refused_levels;
#[cfg(test)]
mod rows;
mod runs;
mod search_faults;
mod stored;
mod stored_call;
mod stored_calls;
mod stored_limits;
mod wrong;
mod wrong_calls;
mod wrong_levels;
mod wrong_searches;

use std::io::{self, BufWriter, ErrorKind, Write};
use std::process::ExitCode;

use texts::hex;

const USAGE: &str = "commands: `answers` (questions on standard input), \
                     `generate KIND COUNT SEED`, `stored COUNT SEED`, \
                     `stored-calls BODIES FUNCTIONS SEED`";

/// Why a command stopped: each kind has its own exit status.
pub enum Stop {
    /// The command line is wrong.
    Usage(String),
    /// A question is wrong, or an answer could not be made.
    Question(String),
    /// Reading or writing failed.
    Stream(io::Error),
}

impl From<io::Error> for Stop {
    fn from(error: io::Error) -> Self {
        Stop::Stream(error)
    }
}

fn main() -> ExitCode {
    let words: Vec<String> = std::env::args().skip(1).collect();
    let mut out = BufWriter::new(io::stdout().lock());
    let result = run(&words, &mut out);
    // The answers before an error are still handed out.
    let result = result.and(out.flush().map_err(Stop::from));
    match result {
        Ok(()) => ExitCode::SUCCESS,
        Err(Stop::Usage(message)) => fail(2, &format!("{message}; {USAGE}")),
        Err(Stop::Question(message)) => fail(1, &message),
        // A reader that leaves early, as `head` does, is no error.
        Err(Stop::Stream(error)) if error.kind() == ErrorKind::BrokenPipe => ExitCode::SUCCESS,
        Err(Stop::Stream(error)) => fail(1, &error.to_string()),
    }
}

fn fail(status: u8, message: &str) -> ExitCode {
    eprintln!("oracle: {message}");
    ExitCode::from(status)
}

fn run(words: &[String], out: &mut impl Write) -> Result<(), Stop> {
    let words: Vec<&str> = words.iter().map(String::as_str).collect();
    match words.as_slice() {
        ["answers"] => {
            answers::silence_panics();
            answers::run(io::stdin().lock(), out)
        }
        ["generate", kind, count, seed] => generate::run(kind, count, seed, out),
        ["stored", count, seed] => stored::run(count, seed, out),
        ["stored-calls", bodies, functions, seed] => {
            stored_calls::run(bodies, functions, seed, out)
        }
        ["answers", ..] => Err(Stop::Usage("`answers` takes no words behind it".into())),
        ["stored", ..] => Err(Stop::Usage("`stored` takes two words behind it".into())),
        [name @ ("generate" | "stored-calls"), ..] => {
            Err(Stop::Usage(format!("`{name}` takes three words behind it")))
        }
        [other, ..] => Err(Stop::Usage(format!("unknown command `{other}`"))),
        [] => Err(Stop::Usage("no command given".into())),
    }
}
