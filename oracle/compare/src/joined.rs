//! Joining: a closed body and any body behind it, rewritten apart and together, without a table of levels
//! or under one.
//!
//! Whether a body is closed is asked of the proved library.

use library::Answer;
use sizes::BUFFER_SIZE;
use texts::random::Random;

use crate::bodies;
use crate::levels;
use crate::report::Report;

/// The pairs, judged by the joining law; how many of them are accepted, and how many of these are
/// changed in front and behind; the joined texts, compared with the reference.
pub const ROWS: [&str; 4] = [
    "joined pairs", "of them accepted", "of these changed on both sides",
    "joined text as the reference",
];

/// How many closed bodies are put in front of one.
pub const FRONTS: u64 = 4;

/// The most closed texts that one front is made of.
const PIECES: usize = 3;

/// A short text with `;` behind it, where that is closed, in front of a random body.
pub fn short_front(text: &str, random: &mut Random, report: &mut Report) {
    let front = format!("{text};");
    if is_closed(front.as_bytes()) {
        Pairs::new(body(random), None).compare(&front, report);
    }
}

/// Several random closed bodies in front of one random body.
pub fn random_fronts(random: &mut Random, report: &mut Report) {
    let pairs = Pairs::new(body(random), None);
    with_fronts(pairs, random, report, closed);
}

/// The same under one table, with RAISE statements of every level.
pub fn fronts_under_a_table(random: &mut Random, report: &mut Report) {
    let body = match random.percent(50) {
        true => texts::levels::raises(random),
        false => body(random),
    };
    let pairs = Pairs::new(body, Some(texts::levels::table(random)));
    with_fronts(pairs, random, report, |random| match random.percent(50) {
        true => closed_of(random, texts::levels::raises),
        false => closed(random),
    });
}

fn with_fronts(
    mut pairs: Pairs,
    random: &mut Random,
    report: &mut Report,
    closed: fn(&mut Random) -> String,
) {
    for _ in 0..FRONTS {
        let pieces = random.between(1, PIECES);
        let front: String = (0..pieces).map(|_| closed(random)).collect();
        pairs.compare(&front, report);
    }
}

fn body(random: &mut Random) -> String {
    match random.percent(50) {
        true => texts::body(random),
        false => texts::any(random),
    }
}

/// The first closed text among random ones, at times with `;` behind them.
pub fn closed(random: &mut Random) -> String {
    closed_of(random, texts::body)
}

fn closed_of(random: &mut Random, text: fn(&mut Random) -> String) -> String {
    loop {
        let mut text = text(random);
        if random.percent(60) {
            text.push(';');
        }
        if is_closed(text.as_bytes()) {
            return text;
        }
    }
}

fn is_closed(text: &[u8]) -> bool {
    let mut map = vec![0; text.len()];
    library::is_closed(text, &mut map)[1] == 1
}

/// The pairs of one body behind, whose own rewriting is asked for once.
struct Pairs {
    behind: String,
    table: Option<Vec<u8>>,
    last: Rewritten,
    buffers: [Vec<u8>; 3],
}

type Rewritten = (Answer, Vec<u8>);

impl Pairs {
    fn new(behind: String, table: Option<Vec<u8>>) -> Self {
        let mut buffers = [0; 3].map(|_| vec![0; BUFFER_SIZE]);
        let last = rewrite(&behind, table.as_deref(), &mut buffers);
        Self { behind, table, last, buffers }
    }

    fn compare(&mut self, front: &str, report: &mut Report) {
        let text = format!("{front}{}", self.behind);
        let table = self.table.as_deref();
        let first = rewrite(front, table, &mut self.buffers);
        let whole = rewrite(&text, table, &mut self.buffers);
        let is_changed = |text: &str, result: &Rewritten| text.as_bytes() != result.1;
        let both = is_changed(front, &first) && is_changed(&self.behind, &self.last);
        let under = table.map_or(String::new(), levels::shown);
        let shown = || format!("{front:?} and {:?} {under}", self.behind);
        let [pairs, accepted, changed, same] = &mut report.rows[..] else { unreachable!() };
        pairs.note(agrees(&first, &self.last, &whole), shown);
        accepted.count(whole.0[0] == 0);
        changed.count(whole.0[0] == 0 && both);
        let expected = match table {
            Some(table) => levels::expected(&text, table),
            None => bodies::expected(&text),
        };
        same.note(expected == whole, shown);
    }
}

/// Unless the joined text gives 1 or 6: accepted exactly if both are, and then their results joined.
fn agrees(first: &Rewritten, last: &Rewritten, whole: &Rewritten) -> bool {
    if whole.0[0] == 1 || whole.0[0] == 6 {
        return true;
    }
    let both = first.0[0] == 0 && last.0[0] == 0;
    (whole.0[0] == 0) == both && (!both || whole.1 == [&first.1[..], &last.1].concat())
}

fn rewrite(text: &str, table: Option<&[u8]>, buffers: &mut [Vec<u8>; 3]) -> Rewritten {
    let ([output, work, spare], text) = (buffers, text.as_bytes());
    let answer = match table {
        Some(table) => library::transform_body_by_levels(text, table, output, work, spare),
        None => library::transform_body(text, output, work, spare),
    };
    let result = output[..answer[2] as usize].to_vec();
    (answer, result)
}
