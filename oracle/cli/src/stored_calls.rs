//! The command `stored-calls`: the list that the program `replay_calls` runs. For each rewriting
//! call random texts with the reference's answers, which are those to the respelled text where Note 2 or
//! 5 took a function out of the comparison, texts for the sentences of the scope paper and of these notes,
//! the limits, the same under tables of levels, tables that are refused, and wrong answers.

use std::io::Write;

use sizes::{BUFFER_SIZE, RECORD_NUMBERS};
use texts::random::Random;

use crate::answer::{preprocessed, preprocessed_under, rewritten, rewritten_under};
use crate::body_limits;
use crate::body_rows;
use crate::call_faults;
use crate::constant_rows;
use crate::function_limits;
use crate::function_rows;
use crate::generate::number;
use crate::level_limits;
use crate::level_rows;
use crate::refused_levels;
use crate::runs::Runs;
use crate::stored_call::{
    write_all, Body, ByLevels, Function, Stored, BODY_LEAST, BODY_LONGER, FUNCTION_LEAST,
    FUNCTION_LONGER,
};
use crate::wrong_calls;
use crate::wrong_levels;
use crate::Stop;

/// The rows of the report: three for the body call, three for the function call, three for tables of levels,
/// and behind the row of the unknown lines the one whose answers are wrong.
const RANDOM_BODIES: usize = 0;
const BODY_ROWS: usize = 1;
const BODY_LIMITS: usize = 2;
const RANDOM_FUNCTIONS: usize = 3;
const FUNCTION_ROWS: usize = 4;
const FUNCTION_LIMITS: usize = 5;
const BODIES_BY_LEVELS: usize = 6;
const FUNCTIONS_BY_LEVELS: usize = 7;
const REFUSED_TABLES: usize = 8;
const WRONG_ANSWERS: usize = 10;

pub fn run(bodies: &str, functions: &str, seed: &str, out: &mut impl Write) -> Result<(), Stop> {
    let bodies = number(bodies, "BODIES")?;
    let functions = number(functions, "FUNCTIONS")?;
    let seed = number(seed, "SEED")?;
    write_bodies(bodies, seed, out)?;
    write_functions(functions, seed, out)?;
    write_bodies_by_levels(bodies / 2, seed, out)?;
    write_functions_by_levels(functions / 2, seed, out)?;
    writeln!(out, "s {REFUSED_TABLES}")?;
    refused_levels::write(out)?;
    writeln!(out, "s {WRONG_ANSWERS}")?;
    wrong_calls::write(out)?;
    wrong_levels::write(out)?;
    Ok(call_faults::write(out)?)
}

fn write_bodies(count: u64, seed: u64, out: &mut impl Write) -> Result<(), Stop> {
    let (mut random, mut lengths) = (Random::new(seed), Random::new(seed));
    writeln!(out, "s {RANDOM_BODIES}")?;
    for _ in 0..count {
        let text = texts::body(&mut random);
        let body = Body::new(&text, rewritten(&text).map_err(Stop::Question)?);
        body.write_calls(&[any_lent(BODY_LEAST, &mut lengths)], out)?;
    }
    writeln!(out, "s {BODY_ROWS}")?;
    write_all(body_rows::all(), &[BODY_LEAST, [BUFFER_SIZE + 1, 70_000, BUFFER_SIZE + 9]], out)?;
    writeln!(out, "s {BODY_LIMITS}")?;
    Ok(body_limits::write(out)?)
}

fn write_functions(count: u64, seed: u64, out: &mut impl Write) -> Result<(), Stop> {
    let (mut random, mut lengths) = (Random::new(seed), Random::new(seed));
    writeln!(out, "s {RANDOM_FUNCTIONS}")?;
    for _ in 0..count {
        let function = any_function(&mut random)?;
        function.write_calls(&[any_lent(FUNCTION_LEAST, &mut lengths)], out)?;
    }
    writeln!(out, "s {FUNCTION_ROWS}")?;
    let bodies = body_rows::all().into_iter().map(Function::from);
    let rows = bodies.chain(function_rows::all()).chain(constant_rows::all());
    let longer = [BUFFER_SIZE + 1, 70_000, BUFFER_SIZE + 9, BUFFER_SIZE + 3, RECORD_NUMBERS + 1];
    write_all(rows, &[FUNCTION_LEAST, longer], out)?;
    writeln!(out, "s {FUNCTION_LIMITS}")?;
    Ok(function_limits::write(out)?)
}

fn write_bodies_by_levels(count: u64, seed: u64, out: &mut impl Write) -> Result<(), Stop> {
    let (mut random, mut lengths) = (Random::new(seed), Random::new(seed));
    writeln!(out, "s {BODIES_BY_LEVELS}")?;
    for _ in 0..count {
        let (table, text) = (any_table(&mut random), texts::levels::body(&mut random));
        let answer = rewritten_under(&text, &table).map_err(Stop::Question)?;
        let body = ByLevels { table: Runs::one(&table), stored: Body::new(&text, answer) };
        body.write_calls(&[any_lent(BODY_LEAST, &mut lengths)], out)?;
    }
    let rows = level_rows::all().into_iter().chain(level_limits::all());
    Ok(write_all(rows, &[BODY_LEAST, BODY_LONGER], out)?)
}

fn write_functions_by_levels(count: u64, seed: u64, out: &mut impl Write) -> Result<(), Stop> {
    let (mut random, mut lengths) = (Random::new(seed), Random::new(seed));
    writeln!(out, "s {FUNCTIONS_BY_LEVELS}")?;
    for _ in 0..count {
        let function = any_function_by_levels(&mut random)?;
        function.write_calls(&[any_lent(FUNCTION_LEAST, &mut lengths)], out)?;
    }
    let bodies = level_rows::all().into_iter().chain(level_limits::all());
    let rows = bodies.map(ByLevels::<Function>::from).chain(level_limits::functions());
    Ok(write_all(rows, &[FUNCTION_LEAST, FUNCTION_LONGER], out)?)
}

fn any_function_by_levels(random: &mut Random) -> Result<ByLevels<Function>, Stop> {
    loop {
        let (table, text) = (any_table(random), texts::levels::function(random));
        if let Some(stored) = preprocessed_under(&text, &table).map_err(Stop::Question)? {
            return Ok(ByLevels { table: Runs::one(&table), stored });
        }
    }
}

/// Any table, at times one that equals none.
fn any_table(random: &mut Random) -> Vec<u8> {
    match random.percent(85) {
        true => texts::levels::table(random),
        false => texts::levels::default_table(random),
    }
}

/// A random function with the answer that the notes want; one that the reference cannot tell is passed
/// over.
fn any_function(random: &mut Random) -> Result<Function, Stop> {
    loop {
        let text = texts::function(random);
        if let Some(function) = preprocessed(&text).map_err(Stop::Question)? {
            return Ok(function);
        }
    }
}

/// Lengths that are enough: exact ones, or a few more.
fn any_lent<const N: usize>(least: [usize; N], random: &mut Random) -> [usize; N] {
    least.map(|length| length + random.below(4))
}
