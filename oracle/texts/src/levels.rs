//! Random tables of RAISE levels, and bodies with RAISE statements of every level.

use crate::mutate::mutate;
use crate::random::Random;
use crate::shape::Shape;

const LEVELS: [&str; 6] = ["DEBUG", "LOG", "INFO", "NOTICE", "WARNING", "EXCEPTION"];

const ACTIONS: [&str; 4] = ["drop", "abort", "fail", "rollback"];

/// A table with any action for each level, its lines in any order.
pub fn table(random: &mut Random) -> Vec<u8> {
    let lines = LEVELS.map(|level| line(level, random.pick(&ACTIONS)));
    shuffled(lines.to_vec(), random).concat().into_bytes()
}

/// The same with the actions that equal no table.
pub fn default_table(random: &mut Random) -> Vec<u8> {
    let action = |level| if level == "EXCEPTION" { "abort" } else { "drop" };
    let lines = LEVELS.map(|level| line(level, action(level)));
    shuffled(lines.to_vec(), random).concat().into_bytes()
}

/// A table that is mostly bad: up to three changes of its lines, or of its bytes.
pub fn bad_table(random: &mut Random) -> Vec<u8> {
    let text = table(random);
    let lines = text.split_inclusive(|byte| *byte == b'\n');
    let mut lines: Vec<Vec<u8>> = lines.map(<[u8]>::to_vec).collect();
    for _ in 0..random.between(1, 3) {
        let place = random.below(lines.len() + 1);
        change(&mut lines, place, random);
    }
    lines.concat()
}

/// Mostly any table, at times a bad one.
pub fn mixed_table(random: &mut Random) -> Vec<u8> {
    match random.percent(80) {
        true => table(random),
        false => bad_table(random),
    }
}

/// A body, mostly with RAISE statements of every level.
pub fn body(random: &mut Random) -> String {
    match random.percent(70) {
        true => raises(random),
        false => crate::body(random),
    }
}

/// A function, mostly with RAISE statements of every level in its body.
pub fn function(random: &mut Random) -> String {
    match random.percent(70) {
        true => format!("DECLARE {}\nBEGIN {}", crate::declarations(random), raises(random)),
        false => crate::function(random),
    }
}

/// Some RAISE statements and, at times, other ones between them.
pub fn raises(random: &mut Random) -> String {
    let mut shape = Shape::new(random);
    for _ in 0..shape.random.between(1, 4) {
        match shape.random.percent(85) {
            true => shape.raise_of_any_level(),
            false => shape.statement(0),
        }
        shape.pick(&["", "", "\n", " ", "-- c\n"]);
    }
    let mut pieces = shape.pieces;
    if random.percent(40) {
        mutate(&mut pieces, random);
    }
    pieces.concat()
}

fn line(level: &str, action: &str) -> String {
    format!("{level} {action}\n")
}

fn shuffled<T>(mut list: Vec<T>, random: &mut Random) -> Vec<T> {
    for last in (1..list.len()).rev() {
        list.swap(last, random.below(last + 1));
    }
    list
}

/// Lines that are no lines of a table, or only look like one.
const BAD_LINES: &[&str] = &[
    "\n", " \n", "LOG\n", "LOG \n", "LOG drop", "LOG drop ", "LOG drop \n", "LOG drop\r\n",
    "LOG  drop\n", " LOG drop\n", "LOG\tdrop\n", "log drop\n", "Log drop\n", "LOG DROP\n",
    "LOGS drop\n", "LOG drops\n", "LOG dro\n", "LO drop\n", "INFO abort fail\n", "ERROR abort\n",
    "DEBUG1 drop\n", "LOG ignore\n", "LOG drop\0\n", "drop LOG\n", "LOG=drop\n", "LOGdrop\n",
    "\u{feff}LOG drop\n", "LOG dr\u{f6}p\n",
];

fn change(lines: &mut Vec<Vec<u8>>, place: usize, random: &mut Random) {
    if place == lines.len() {
        lines.push(random.pick(BAD_LINES).as_bytes().to_vec());
        return;
    }
    match random.weighted(&[30, 22, 18, 18, 12]) {
        0 => drop(lines.remove(place)),
        1 => lines.push(line(random.pick(&LEVELS), random.pick(&ACTIONS)).into_bytes()),
        2 => lines[place] = random.pick(BAD_LINES).as_bytes().to_vec(),
        3 => change_byte(&mut lines[place], random),
        _ => lines.insert(place, lines[place].clone()),
    }
}

/// Takes a byte out, puts one in, or makes one another.
fn change_byte(line: &mut Vec<u8>, random: &mut Random) {
    let byte = b" \n\rAa\0\x80"[random.below(7)];
    let place = random.below(line.len() + 1);
    if place == line.len() {
        line.push(byte);
        return;
    }
    match random.below(3) {
        0 => drop(line.remove(place)),
        1 => line.insert(place, byte),
        _ => line[place] = byte,
    }
}

impl Shape<'_> {
    /// A RAISE of a level that is as likely as any other, with all that can stand behind it.
    fn raise_of_any_level(&mut self) {
        self.word("RAISE");
        self.pick(&[" ", " ", " ", " ", " ", "\n", "\t", "  ", "("]);
        let level = self.random.pick(&LEVELS);
        self.word(level);
        self.pick(&[" ", " ", " ", " ", "\n", "", "S ", "''", "'x' ", ";", "\x0b"]);
        self.content();
        self.pick(&[";", ";", ";", ";", " ;", ""]);
    }
}
