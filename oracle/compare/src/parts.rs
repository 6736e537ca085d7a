//! The parts of a run: which texts each of them takes, and what is compared on them.

use std::time::Instant;

use texts::random::Random;

use crate::comparisons::{
    compare, names, Comparison, BODIES, BODIES_BY_LEVELS, FUNCTIONS, FUNCTIONS_BY_LEVELS, SEARCHES,
};
use crate::every::{self, Every};
use crate::functions;
use crate::joined;
use crate::limits;
use crate::long::{self, Long};
use crate::options::Options;
use crate::report::{grouped, Report};
use crate::results;
use crate::tables;
use crate::work::{share, Work};

pub struct Part {
    pub name: &'static str,
    /// How many random texts or pairs it takes, if the command line names no number.
    random: u64,
    run: fn(&mut Run),
}

pub const PARTS: [Part; 6] = [
    Part { name: "limits", random: 0, run: run_limits },
    Part { name: "searches", random: 2_000_000, run: run_searches },
    Part { name: "bodies", random: 5_000_000, run: run_bodies },
    Part { name: "functions", random: 8_000_000, run: run_functions },
    Part { name: "joined", random: 5_000_000, run: run_joined },
    Part { name: "levels", random: 2_000_000, run: run_levels },
];

impl Part {
    /// Runs the part; the answer is how many answers differ.
    pub fn run(&self, options: &Options) -> u64 {
        let random = options.random.unwrap_or(self.random);
        let mut run = Run { options, random, differing: 0 };
        (self.run)(&mut run);
        run.differing
    }
}

fn run_limits(run: &mut Run) {
    run.section("limits and refusals".to_string(), limits::compare);
    run.section("rewriting calls at their limits".to_string(), results::compare);
    run.section("tables that are refused".to_string(), tables::compare);
}

fn run_searches(run: &mut Run) {
    run.long(SEARCHES, &long::SEARCH_TEXTS);
    run.long(SEARCHES, &long::OPEN_TEXTS);
    run.every(SEARCHES);
    run.random(SEARCHES, "texts", texts::any);
}

fn run_bodies(run: &mut Run) {
    run.long(BODIES, &long::BODY_TEXTS);
    run.long(BODIES, &long::ACCEPTED_TEXTS);
    run.every(BODIES);
    run.random(BODIES, "texts", |random| match random.percent(50) {
        true => texts::body(random),
        false => texts::any(random),
    });
}

/// Every call on each of these texts; the answer is how many answers differ.
pub fn run_given(options: &Options, texts: &[String]) -> u64 {
    let mut run = Run { options, random: 0, differing: 0 };
    for list in [SEARCHES, BODIES, FUNCTIONS, BODIES_BY_LEVELS, FUNCTIONS_BY_LEVELS] {
        let title = format!("{} texts of the file", grouped(texts.len() as u64));
        run.texts(list, title, texts.len() as u64, 64, |number, _| texts[number as usize].clone());
    }
    run.differing
}

/// What stands ahead of a short text, and behind it.
type Frame = [&'static str; 2];

/// The short text is a whole block of declarations, or a default.
const FRAMES: &[Frame] = &[["DECLARE ", "\nBEGIN"], ["DECLARE a b:=", ";BEGIN"]];

/// The short text stands behind a type: alone, ahead of DEFAULT, behind it, or in a literal.
const TYPE_FRAMES: &[Frame] = &[
    ["DECLARE a b", "\nBEGIN"],
    ["DECLARE a b", " DEFAULT 1\nBEGIN"],
    ["DECLARE a b DEFAULT", "\nBEGIN"],
    ["DECLARE a b'", "' := 1\nBEGIN"],
];

/// The words stand behind a name: alone, with another declaration of it ahead, ahead of NOT NULL, or with
/// a further declaration behind.
const WORD_FRAMES: &[Frame] = &[
    ["DECLARE a ", "\nBEGIN"],
    ["DECLARE a CONSTANT t NOT NULL; a ", "\nBEGIN"],
    ["DECLARE a ", "\nNOT NULL\nBEGIN"],
    ["DECLARE a ", "; b CONSTANT t\nBEGIN"],
];

/// The words stand behind a name, or behind a type.
const TOUCHING_FRAMES: &[Frame] =
    &[["DECLARE a ", "\nBEGIN"], ["DECLARE a int ", " DEFAULT 1\nBEGIN"]];

fn run_functions(run: &mut Run) {
    run.long(FUNCTIONS, &long::FUNCTION_TEXTS);
    run.long(FUNCTIONS, &long::DECLARING_TEXTS);
    run.framed(FUNCTIONS, "functions", "quotes", &every::QUOTING, FRAMES);
    run.framed(FUNCTIONS, "functions", "what begins a default", &every::DEFAULTS, TYPE_FRAMES);
    run.framed(FUNCTIONS, "functions", "words around a type", &every::SPACED_WORDS, WORD_FRAMES);
    run.framed(
        FUNCTIONS,
        "functions",
        "words that may touch",
        &every::TOUCHING_WORDS,
        TOUCHING_FRAMES,
    );
    run.random(FUNCTIONS, "texts", |random| match random.percent(90) {
        true => texts::function(random),
        false => texts::any(random),
    });
    run.random(FUNCTIONS, "functions with a declared name", functions::declaring);
    run.random(FUNCTIONS, "functions with CONSTANT, NOT or NULL", functions::with_words);
}

fn run_joined(run: &mut Run) {
    let count = every::count(run.options.longest - 1);
    let title = format!("pairs with all {} short texts, where closed", grouped(count));
    run.shared(title, &joined::ROWS, count, 4096, |number, random, report| {
        joined::short_front(&every::QUOTING.text(number), random, report);
    });
    let bodies = run.random.div_ceil(joined::FRONTS);
    let pairs = grouped(bodies * joined::FRONTS);
    let title = format!("{pairs} random pairs, seed {}", run.options.seed);
    run.shared(title, &joined::ROWS, bodies, 1024, |_, random, report| {
        joined::random_fronts(random, report);
    });
}

/// The short text stands behind a level: EXCEPTION, which has its letters, or another, which runs on.
const LEVEL_FRAMES: &[Frame] =
    &[["RAISE LOG", ";RAISE INFO 'a';"], ["RAISE EXCEPTION", ";RAISE INFO 'a';"]];

fn run_levels(run: &mut Run) {
    run.long(BODIES_BY_LEVELS, &long::BODY_TEXTS);
    run.long(BODIES_BY_LEVELS, &long::ACCEPTED_TEXTS);
    run.long(BODIES_BY_LEVELS, &long::RAISING_TEXTS);
    run.framed(BODIES_BY_LEVELS, "bodies", "quotes behind a level", &every::QUOTING, LEVEL_FRAMES);
    run.random(BODIES_BY_LEVELS, "texts", |random| match random.weighted(&[60, 25, 15]) {
        0 => texts::levels::raises(random),
        1 => texts::body(random),
        _ => texts::any(random),
    });
    run.random(FUNCTIONS_BY_LEVELS, "functions", |random| match random.percent(50) {
        true => functions::declaring(random) + " " + &texts::levels::raises(random),
        false => texts::function(random),
    });
    let bodies = run.random.div_ceil(joined::FRONTS);
    let pairs = grouped(bodies * joined::FRONTS);
    let title = format!("{pairs} random pairs under a table, seed {}", run.options.seed);
    run.shared(title, &joined::ROWS, bodies, 1024, |_, random, report| {
        joined::fronts_under_a_table(random, report);
    });
}

/// A part that is running.
pub struct Run<'a> {
    options: &'a Options,
    random: u64,
    differing: u64,
}

impl Run<'_> {
    /// Compares, prints the report and counts what differs.
    fn section(&mut self, title: String, compare: impl FnOnce() -> Report) {
        let started = Instant::now();
        let report = compare();
        println!("{title}: {} s", started.elapsed().as_secs());
        print!("{report}");
        self.differing += report.differing();
    }

    /// The same with the items shared out among threads.
    fn shared(
        &mut self,
        title: String,
        rows: &[&'static str],
        count: u64,
        block: u64,
        compare: impl Fn(u64, &mut Random, &mut Report) + Sync,
    ) {
        let Options { seed, threads, .. } = *self.options;
        let work = Work { count, block, seed, threads };
        self.section(title, || share(&work, rows, compare));
    }

    /// A list of comparisons on each of the texts.
    fn texts(
        &mut self,
        list: &[Comparison],
        title: String,
        count: u64,
        block: u64,
        text: impl Fn(u64, &mut Random) -> String + Sync,
    ) {
        self.shared(title, &names(list), count, block, |number, random, report| {
            let text = text(number, random);
            compare(list, &text, random, report);
        });
    }

    /// A list of comparisons on the longest texts.
    fn long(&mut self, list: &[Comparison], long: &Long) {
        self.texts(list, long.title(), long.count(), 1, |number, random| long.text(number, random));
    }

    /// A list of comparisons on every short text.
    fn every(&mut self, list: &[Comparison]) {
        let longest = self.options.longest;
        let count = every::count(longest);
        let title = format!("all {} texts of up to {longest} bytes", grouped(count));
        self.texts(list, title, count, 4096, |number, _| every::QUOTING.text(number));
    }

    /// A list of comparisons on every text of up to one piece less in each of the frames.
    fn framed(
        &mut self,
        list: &[Comparison],
        kind: &str,
        pieces: &str,
        every: &Every,
        frames: &[Frame],
    ) {
        let count = frames.len() as u64 * every::count(self.options.longest - 1);
        let title = format!("{} {kind} with all short texts of {pieces}", grouped(count));
        self.texts(list, title, count, 4096, |number, _| {
            let [front, back] = frames[number as usize % frames.len()];
            format!("{front}{}{back}", every.text(number / frames.len() as u64))
        });
    }

    /// A list of comparisons on random texts of a kind.
    fn random(&mut self, list: &[Comparison], kind: &str, text: fn(&mut Random) -> String) {
        let title = format!("{} random {kind}, seed {}", grouped(self.random), self.options.seed);
        self.texts(list, title, self.random, 4096, |_, random| text(random));
    }
}
