//! The body call under a table of levels in which all six abort, beside the same call without a table. The
//! reference has no table, so only the growth is to be reached, and the time beside a realistic body.

use crate::measure;
use crate::texts::{realistic, repeated};
use crate::{note_growth, note_worst, KB};

const ALL_ABORT: &str =
    "DEBUG abort\nLOG abort\nINFO abort\nNOTICE abort\nWARNING abort\nEXCEPTION abort\n";

/// Each is repeated up to the size; the last has all levels in turn.
const PARTS: [&str; 6] = [
    "RAISE LOG;",
    "RAISE DEBUG ",
    "RAISE INFO 'a', b;",
    "RAISE NOTICE USING MESSAGE = 'm';",
    "RAISE EXCEPTION;",
    "RAISE DEBUG a;RAISE LOG b;RAISE INFO c;RAISE NOTICE d;RAISE WARNING e;RAISE EXCEPTION f;",
];

/// Prints the table. `usual` is the time of a realistic body of 16 KB without a table.
pub fn table(usual: f64, missed: &mut Vec<String>) {
    println!();
    println!(
        "| All levels abort | 8 KB, µs | 16 KB, µs | growth | of a realistic 16 KB \
         | without a table, 16 KB, µs |"
    );
    println!("|---|---:|---:|---:|---:|---:|");
    line("a realistic body", [8, 16].map(|size| realistic(size * KB)), usual, missed);
    for part in PARTS {
        let texts = [8, 16].map(|size| repeated(part, size * KB));
        line(&format!("`{part}`"), texts, usual, missed);
    }
    refused_tables(usual, missed);
}

/// A table may have any length: a line of 1 MB, and the same of 2 MB.
fn refused_tables(usual: f64, missed: &mut Vec<String>) {
    let times = [1, 2].map(|size| {
        let long = repeated("A", size * KB * KB);
        measure::ours_by_levels("", &format!("{ALL_ABORT}{long}"))
    });
    let [half, whole] = times;
    let (growth, worst) = (whole / half, whole / usual);
    let name = "the empty body, a table with a line of 1 and 2 MB";
    println!("| {name}, refused | {half:.1} | {whole:.1} | {growth:.2} | {worst:.2} | |");
    note_growth(name, growth, missed);
    note_worst(name, worst, missed);
}

fn line(name: &str, texts: [String; 2], usual: f64, missed: &mut Vec<String>) {
    let [half, whole] = [0, 1].map(|index| measure::ours_by_levels(&texts[index], ALL_ABORT));
    let without = measure::ours(&texts[1]);
    let (growth, worst) = (whole / half, whole / usual);
    println!("| {name} | {half:.0} | {whole:.0} | {growth:.2} | {worst:.2} | {without:.0} |");
    note_growth(name, growth, missed);
    note_worst(name, worst, missed);
}
