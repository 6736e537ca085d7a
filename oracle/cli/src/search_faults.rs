//! Right answers to searches, for the program `replay`, with one place of a lent buffer changed
//! behind the search. All of them must differ, so they show that the program looks at what lies
//! behind a result.

use std::io::{self, Write};

use crate::question::Question;
use crate::runs::Runs;
use crate::stored::line;
use crate::Stop;

/// A text with several pieces, whose requoted form is not as long as it is.
const TEXT: &str = "a; b := $t$c'd$t$; e";

/// The buffers, by their numbers in a line `z`.
const BYTES: usize = 0;
const STARTS: usize = 1;

/// The search, the buffer and the place of each change.
type Change = (String, usize, usize);

pub fn write(out: &mut impl Write) -> Result<(), Stop> {
    write_faults(&Runs::one(TEXT.as_bytes()), &accepted().map_err(Stop::Question)?, out)?;
    Ok(write_faults(&Runs::with_byte(2, 1, 200), &refused(), out)?)
}

/// More bytes and numbers than a search of a text of this length needs.
fn lent(length: usize) -> (usize, usize) {
    (2 * length + 5, length + 7)
}

/// The first place behind the map, the starts or the requoted text, and the last lent place. The
/// requoted length writes nothing, so the first byte lies behind its result.
fn accepted() -> Result<Vec<Change>, String> {
    let own = || TEXT.to_string();
    let (bytes, starts) = lent(TEXT.len());
    let map = line(&Question::Regions(own()))?;
    let split = line(&Question::SplitInCode(own(), b';'))?;
    let requoted = line(&Question::Requote(own()))?;
    let (pieces, length) = (length_of(&split)?, length_of(&requoted)?);
    Ok(vec![
        (map.clone(), BYTES, TEXT.len()),
        (map, BYTES, bytes - 1),
        (split.clone(), STARTS, pieces),
        (split, STARTS, starts - 1),
        (requoted, BYTES, length),
        (line(&Question::RequotedLength(own()))?, BYTES, 0),
    ])
}

/// Refusal 2 at place 1 writes nothing.
fn refused() -> Vec<Change> {
    let split = "p 3b 0 2 0 1 0".to_string();
    vec![(split.clone(), BYTES, 0), (split, STARTS, lent(2).1 - 1)]
}

/// The field `LENGTH` of a line.
fn length_of(line: &str) -> Result<usize, String> {
    let field = line.split(' ').nth(6).and_then(|field| field.parse().ok());
    field.ok_or_else(|| format!("`{line}` has no length"))
}

/// The text, what is lent, and each search with its change.
fn write_faults(text: &Runs, changes: &[Change], out: &mut impl Write) -> io::Result<()> {
    let (bytes, starts) = lent(text.len());
    writeln!(out, "t {text}\nx\nl {bytes} {starts}")?;
    for (line, buffer, place) in changes {
        writeln!(out, "z {buffer} {place}\n{line}")?;
    }
    Ok(())
}

#[cfg(test)]
mod tests {
    use super::*;

    #[test]
    fn the_places_lie_behind_the_results() {
        let places: Vec<(usize, usize)> =
            accepted().unwrap().into_iter().map(|(_, buffer, place)| (buffer, place)).collect();
        assert_eq!(places, [(0, 20), (0, 44), (1, 3), (1, 26), (0, 17), (0, 0)]);
    }
}
