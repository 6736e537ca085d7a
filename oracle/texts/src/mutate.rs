//! Small random changes to a row of pieces.

use crate::random::Random;
use crate::tokens;

pub fn mutate(pieces: &mut Vec<String>, random: &mut Random) {
    for _ in 0..random.between(1, 3) {
        let place = random.below(pieces.len() + 1);
        if place == pieces.len() {
            pieces.push(tokens::token(random));
            continue;
        }
        match random.weighted(&[30, 25, 20, 10, 8, 7]) {
            0 => pieces.insert(place, tokens::token(random)),
            1 => drop(pieces.remove(place)),
            2 => pieces[place] = tokens::token(random),
            3 => cut(&mut pieces[place], random),
            4 => pieces.insert(place, pieces[place].clone()),
            _ => pieces.truncate(place),
        }
    }
}

/// Takes one byte out of a piece; the tokens are ASCII.
fn cut(piece: &mut String, random: &mut Random) {
    if !piece.is_empty() {
        let place = random.below(piece.len());
        piece.remove(place);
    }
}
