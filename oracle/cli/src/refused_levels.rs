//! Tables of levels that are refused, with texts for all other refusals: 1, 3 and 2 come first and write
//! nothing, then 11, 12 or 13, before 7 and before every pass. Numbers and places are Note 10's.

use std::io::{self, Write};

use texts::refused_tables::{self, Refused};

use crate::body_limits::select_into;
use crate::function_limits;
use crate::lent::short;
use crate::runs::Runs;
use crate::stored_call::{
    write_all, Answer, Body, ByLevels, Function, BODY_LEAST, BODY_LONGER, FUNCTION_LEAST,
    FUNCTION_LONGER, LIMIT,
};

pub fn write(out: &mut impl Write) -> io::Result<()> {
    let bodies = || refused_tables::all().into_iter().flat_map(|refused| passing(&refused));
    write_all(bodies(), &[BODY_LEAST, BODY_LONGER], out)?;
    let functions = bodies().map(ByLevels::<Function>::from).chain(declaring());
    write_all(functions, &[FUNCTION_LEAST, FUNCTION_LONGER], out)?;
    for refused in few() {
        let short = short(BODY_LEAST, BODY_LONGER);
        write_all(too_long(&refused), &[&[BODY_LEAST][..], &short].concat(), out)?;
        write_all(too_short(&refused), &short, out)?;
        write_all(not_ascii(&refused), &[BODY_LEAST, BODY_LONGER], out)?;
        write_functions_ahead(&refused, out)?;
    }
    Ok(())
}

fn write_functions_ahead(refused: &Refused, out: &mut impl Write) -> io::Result<()> {
    let of_bodies =
        |bodies: Vec<ByLevels<Body>>| bodies.into_iter().map(ByLevels::<Function>::from);
    let short = short(FUNCTION_LEAST, FUNCTION_LONGER);
    write_all(of_bodies(too_long(refused)), &[FUNCTION_LEAST], out)?;
    write_all(of_bodies(too_short(refused)), &short, out)?;
    write_all(of_bodies(not_ascii(refused)), &[FUNCTION_LEAST, FUNCTION_LONGER], out)
}

/// A table of each number, and the empty one.
fn few() -> impl Iterator<Item = Refused> {
    let tables: [(&[u8], u32, usize); 4] =
        [(b"x", 11, 0), (b"LOG drop\nLOG drop\n", 12, 9), (b"LOG drop\n", 13, 9), (b"", 13, 0)];
    tables.into_iter().map(|(table, number, place)| Refused {
        table: table.to_vec(),
        number,
        place,
    })
}

fn with(refused: &Refused, text: Runs, number: usize, place: usize) -> ByLevels<Body> {
    let stored = Body { text, answer: Answer::refused(number, place) };
    ByLevels { table: short_runs(&refused.table), stored }
}

/// A table of one long line, or of one line again and again, in few runs.
fn short_runs(table: &[u8]) -> Runs {
    let line = b"DEBUG fail\n";
    let rest = table.strip_prefix(line).unwrap_or(table);
    if rest.len() > 1_000 && rest.iter().all(|byte| *byte == b'A') {
        let front = &table[..table.len() - rest.len()];
        return Runs::new(&[(1, front), (rest.len(), b"A")]);
    }
    match table.len() > 1_000 {
        true => Runs::new(&[(table.len() / line.len(), line)]),
        false => Runs::one(table),
    }
}

/// Texts that pass the checks; most would be refused by a pass.
fn passing(refused: &Refused) -> Vec<ByLevels<Body>> {
    let texts = [
        Runs::one(b""),
        Runs::one(b"NEW.v := 1;RAISE EXCEPTION USING x;"),
        select_into(1_873, &[]),
    ];
    let (number, place) = (refused.number as usize, refused.place);
    texts.into_iter().map(|text| with(refused, text, number, place)).collect()
}

/// 11, 12 and 13 come before 7, and leave no records.
fn declaring() -> impl Iterator<Item = ByLevels<Function>> {
    few().flat_map(|refused| {
        [512, 513].map(|count| {
            let text = function_limits::declaring(count, &[(1, b"BEGIN x")]);
            let answer = Answer::refused(refused.number as usize, refused.place);
            let stored = Function::new(text, answer, &[]);
            ByLevels { table: Runs::one(&refused.table), stored }
        })
    })
}

/// 1 comes before 3 and 2.
fn too_long(refused: &Refused) -> Vec<ByLevels<Body>> {
    let texts = [Runs::letters(LIMIT + 1), Runs::with_byte(LIMIT + 1, LIMIT, 200)];
    texts.into_iter().map(|text| with(refused, text, 1, 0)).collect()
}

/// 3 comes before 2.
fn too_short(refused: &Refused) -> Vec<ByLevels<Body>> {
    let texts = [Runs::one(b"NEW.v := 1;"), Runs::with_byte(2, 1, 200)];
    texts.into_iter().map(|text| with(refused, text, 3, 0)).collect()
}

fn not_ascii(refused: &Refused) -> Vec<ByLevels<Body>> {
    [(2, 1), (LIMIT, LIMIT - 1)]
        .map(|(length, place)| with(refused, Runs::with_byte(length, place, 200), 2, place))
        .into_iter()
        .collect()
}

#[cfg(test)]
mod tests {
    use super::*;

    #[test]
    fn long_tables_take_few_runs() {
        for refused in refused_tables::all() {
            let runs = short_runs(&refused.table);
            assert!(runs.bytes() == refused.table && runs.to_string().len() < 400);
        }
    }
}
