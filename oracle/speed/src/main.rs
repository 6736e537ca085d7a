//! Measures the calls of the proved library beside the reference, in one process, on the same
//! texts, and prints the figures as Markdown tables.

mod clock;
mod levels;
mod measure;
mod requoting;
mod texts;

use std::process::ExitCode;

use crate::texts::Letters::{First, Last, Middle};
use crate::texts::{
    exploding, falling, function, long_names, mixed, realistic, repeated, repeated_names, rising,
    FAMILIES,
};

const KB: usize = 1_024;

/// What is to be reached: how many times the reference's speed on a body of a size, the growth of
/// the time from 8 to 16 KB, and the time of any text of 16 KB beside a realistic one.
const TIMES: [(usize, f64); 2] = [(1, 3.0), (16, 20.0)];
const MOST_GROWTH: f64 = 2.3;
const MOST_WORST: f64 = 5.0;

fn main() -> ExitCode {
    let mut missed = Vec::new();
    let usual = realistic_bodies(&mut missed);
    families(usual, &mut missed);
    functions(usual, &mut missed);
    levels::table(usual, &mut missed);
    requoting::table(&mut missed);
    println!();
    for line in &missed {
        println!("Missed: {line}");
    }
    match missed.is_empty() {
        true => ExitCode::SUCCESS,
        false => ExitCode::FAILURE,
    }
}

/// Prints the table of realistic bodies; gives the time of the longest one.
fn realistic_bodies(missed: &mut Vec<String>) -> f64 {
    println!("| Body | ours, µs | the Rust, µs | times as fast | to reach |");
    println!("|---|---:|---:|---:|---:|");
    println!("| empty: the buffers are cleared | {:.1} | | | |", measure::ours(""));
    let mut last = 0.0;
    for (size, least) in TIMES {
        let text = realistic(size * KB);
        let (ours, rust) = (measure::ours(&text), measure::reference(&text));
        let times = rust / ours;
        println!("| realistic, {size} KB | {ours:.1} | {rust:.1} | {times:.1} | {least} |");
        if times < least {
            missed.push(format!("{times:.1} times as fast on {size} KB, to reach: {least}"));
        }
        last = ours;
    }
    println!();
    last
}

/// Prints the table of repeated texts. `usual` is the time of a realistic body of 16 KB.
fn families(usual: f64, missed: &mut Vec<String>) {
    println!(
        "| Repeated | ours 8 KB, µs | 16 KB, µs | growth | of a realistic 16 KB \
         | the Rust 8 KB, µs | 16 KB, µs | growth | times as fast, 16 KB |"
    );
    println!("|---|---:|---:|---:|---:|---:|---:|---:|---:|");
    for part in FAMILIES {
        let of_size = |size| repeated(part, size);
        family(&format!("`{part}`"), [8, 16].map(|size| of_size(size * KB)), usual, missed);
    }
    let texts = [8, 16].map(|size| exploding(size * KB));
    family("one SELECT INTO of many columns, refused with 6", texts, usual, missed);
}

/// Prints the table of the function call.
fn functions(usual: f64, missed: &mut Vec<String>) {
    println!();
    println!(
        "| Function | ours, µs | the Rust, µs | times as fast | of a realistic body of 16 KB |"
    );
    println!("|---|---:|---:|---:|---:|");
    let texts = [
        ("realistic, 1 KB", function(KB)),
        ("realistic, 16 KB", function(16 * KB)),
        ("512 long names in falling order, 16 KB", long_names(16 * KB, Last, falling)),
        ("512 long names in rising order, 16 KB", long_names(16 * KB, Last, rising)),
        ("512 long names in mixed order, 16 KB", long_names(16 * KB, Last, mixed)),
        ("512 that differ in their first two bytes, 16 KB", long_names(16 * KB, First, falling)),
        ("512 that differ in the middle, 16 KB", long_names(16 * KB, Middle, falling)),
        ("512 of 2 bytes, the last again and again, 16 KB", repeated_names(16 * KB, 2, Last)),
        ("the same with 13 bytes, differing in front", repeated_names(16 * KB, 13, First)),
        ("the same with 13 bytes, differing in the middle", repeated_names(16 * KB, 13, Middle)),
    ];
    for (name, text) in texts {
        let (ours, rust) = (measure::our_function(&text), measure::reference_function(&text));
        let (times, worst) = (rust / ours, ours / usual);
        println!("| {name} | {ours:.1} | {rust:.1} | {times:.1} | {worst:.2} |");
        note_worst(name, worst, missed);
    }
}

fn family(name: &str, texts: [String; 2], usual: f64, missed: &mut Vec<String>) {
    let [half, whole] = [0, 1].map(|index| measure::ours(&texts[index]));
    let [rust_half, rust_whole] = [0, 1].map(|index| measure::reference(&texts[index]));
    let (growth, worst, rust_growth) = (whole / half, whole / usual, rust_whole / rust_half);
    println!(
        "| {name} | {half:.0} | {whole:.0} | {growth:.2} | {worst:.2} | {rust_half:.0} \
         | {rust_whole:.0} | {rust_growth:.2} | {:.1} |",
        rust_whole / whole
    );
    note_growth(name, growth, missed);
    note_worst(name, worst, missed);
}

fn note_growth(name: &str, growth: f64, missed: &mut Vec<String>) {
    if growth > MOST_GROWTH {
        missed.push(format!("{name} grows {growth:.2} times, to reach: {MOST_GROWTH}"));
    }
}

fn note_worst(name: &str, worst: f64, missed: &mut Vec<String>) {
    if worst > MOST_WORST {
        missed.push(format!("{name} takes {worst:.2} of a realistic body, to reach: {MOST_WORST}"));
    }
}
