//! Random texts, each made for one family of questions.

mod constants;
mod declare;
mod default_keys;
pub mod hex;
pub mod levels;
mod mutate;
pub mod parts;
pub mod random;
pub mod refused_tables;
mod shape;
mod statements;
pub mod tokens;

use crate::mutate::mutate;
use crate::random::Random;
use crate::shape::Shape;

/// A body: mostly statements, whole or changed, else a row of tokens or noise.
pub fn body(random: &mut Random) -> String {
    match random.weighted(&[30, 32, 28, 10]) {
        0 => shaped(random, 0, body_shape),
        1 => shaped(random, 100, body_shape),
        2 => row(random, tokens::token),
        _ => noise(random),
    }
}

/// A function: mostly declarations ahead of a body.
pub fn function(random: &mut Random) -> String {
    match random.weighted(&[38, 38, 12, 5, 7]) {
        0 => shaped(random, 0, |shape| shape.function()),
        1 => shaped(random, 100, |shape| shape.function()),
        2 => body(random),
        3 => row(random, tokens::token),
        _ => format!("DECLARE a {}\nBEGIN", row(random, tokens::declaring_token)),
    }
}

/// Some declarations as they stand between DECLARE and BEGIN.
pub fn declarations(random: &mut Random) -> String {
    shaped(random, 30, |shape| shape.declarations())
}

/// A text in which quotes and comments matter most.
pub fn quoted(random: &mut Random) -> String {
    match random.weighted(&[45, 30, 25]) {
        0 => row(random, tokens::quoting_token),
        1 => noise(random),
        _ => body(random),
    }
}

/// A text that is likely to hold the words of an exception handler.
pub fn handler(random: &mut Random) -> String {
    match random.weighted(&[70, 15, 15]) {
        0 => shaped(random, 60, handler_shape),
        1 => quoted(random),
        _ => body(random),
    }
}

/// Any text at all.
pub fn any(random: &mut Random) -> String {
    match random.weighted(&[40, 40, 10, 10]) {
        0 => body(random),
        1 => quoted(random),
        2 => function(random),
        _ => handler(random),
    }
}

/// A text from a shape, which is changed in `share` of a hundred cases.
fn shaped(random: &mut Random, share: usize, build: fn(&mut Shape)) -> String {
    let mut shape = Shape::new(random);
    build(&mut shape);
    let mut pieces = shape.pieces;
    if random.percent(share) {
        mutate(&mut pieces, random);
    }
    pieces.concat()
}

fn body_shape(shape: &mut Shape) {
    let depth = shape.random.below(3);
    shape.statements(3, depth);
}

fn handler_shape(shape: &mut Shape) {
    if shape.random.percent(50) {
        shape.statement(1);
        shape.gap();
    }
    shape.handler();
}

fn row(random: &mut Random, token: fn(&mut Random) -> String) -> String {
    let mut text = String::new();
    for _ in 0..random.between(1, 14) {
        text.push_str(&token(random));
        if random.percent(35) {
            text.push_str(random.pick(tokens::SPACES));
        }
    }
    text
}

fn noise(random: &mut Random) -> String {
    let length = random.between(0, 8);
    let one = |_| char::from(tokens::NOISE[random.below(tokens::NOISE.len())]);
    (0..length).map(one).collect()
}
