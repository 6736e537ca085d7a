//! Compares the proved library with the reference implementation, text by text.

mod bodies;
mod calls;
mod comparisons;
mod every;
mod functions;
mod given;
mod joined;
mod lent;
mod levels;
mod limits;
mod long;
mod options;
mod parts;
mod questions;
mod report;
mod results;
mod searches;
mod subject;
mod tables;
mod work;

use std::process::ExitCode;
use std::time::Instant;

use crate::options::Options;
use crate::parts::PARTS;
use crate::report::grouped;

fn main() -> ExitCode {
    let options = match Options::read(std::env::args().skip(1)) {
        Ok(options) => options,
        Err(message) => {
            eprintln!("oracle: {message}");
            return ExitCode::from(2);
        }
    };
    match run(&options) {
        0 => ExitCode::SUCCESS,
        _ => ExitCode::FAILURE,
    }
}

/// Runs the chosen parts; the answer is how many answers differ.
fn run(options: &Options) -> u64 {
    let started = Instant::now();
    if let Some(texts) = &options.given {
        return parts::run_given(options, texts);
    }
    let is_chosen = |name: &str| options.parts.iter().any(|part| part == name);
    let chosen = PARTS.iter().filter(|part| is_chosen(part.name));
    let differing = chosen.map(|part| part.run(options)).sum();
    println!("{} differ, {} s", grouped(differing), started.elapsed().as_secs());
    differing
}
