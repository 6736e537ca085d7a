//! Requoting with an output of just its result's length, beside what it took before Note 1, when it
//! told no length and was lent twice the text's.

use crate::measure;
use crate::texts::{realistic, repeated};
use crate::KB;

/// What is to be reached: how many times its time before Note 1 requoting may take.
const MOST_TIMES: f64 = 1.7;

/// The longest text of a search.
const LONGEST: usize = 64 * KB;

/// A text, and the time that requoting it took before Note 1, as a fraction of the Rust's time on the
/// same text, so that the machine counts little. README says when these were measured.
struct Subject {
    name: String,
    text: String,
    before: f64,
}

/// Prints the table of requoting.
pub fn table(missed: &mut Vec<String>) {
    println!();
    println!(
        "| Requoting | ours, µs | the length alone, µs | the Rust, µs | times as fast \
         | before Note 1 | times the time before |"
    );
    println!("|---|---:|---:|---:|---:|---:|---:|");
    for Subject { name, text, before } in subjects() {
        let (ours, length) = (measure::our_requoting(&text), measure::requoted_length(&text));
        let rust = measure::reference_requoting(&text);
        let (times, faster) = (ours / rust / before, rust / ours);
        let faster_before = 1.0 / before;
        println!(
            "| {name} | {ours:.1} | {length:.1} | {rust:.1} | {faster:.2} | {faster_before:.2} \
             | {times:.2} |"
        );
        if times > MOST_TIMES {
            missed.push(format!(
                "requoting, {name}: {times:.2} times its time before, to reach: {MOST_TIMES}"
            ));
        }
    }
}

fn subjects() -> Vec<Subject> {
    let usual = [(1, 0.813), (16, 0.782), (64, 0.781)].map(|(size, before)| Subject {
        name: format!("realistic, {size} KB"),
        text: realistic(size * KB),
        before,
    });
    let parts = [
        ("a", 1.105),
        ("'it''s' ", 1.293),
        ("$$it's$$ ", 0.308),
        ("$t$a$t$", 0.288),
        ("$a ", 0.683),
        ("-- c\n", 0.654),
    ];
    let parts = parts.map(|(part, before)| {
        let name = format!("`{}` up to 64 KB", part.replace('\n', "\\n"));
        Subject { name, text: repeated(part, LONGEST), before }
    });
    let open = [("letters", "a", 3.685), ("quotes", "'", 0.351)].map(|(what, part, before)| {
        let name = format!("one open dollar literal of {what}, 64 KB");
        Subject { name, text: format!("$${}", repeated(part, LONGEST - 2)), before }
    });
    usual.into_iter().chain(parts).chain(open).collect()
}
