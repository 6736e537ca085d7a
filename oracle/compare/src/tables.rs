//! Tables of levels that are refused, each with texts for all other refusals. Note 10 says what must come:
//! 1, 3 and 2 are checked first and write nothing; 11, 12 and 13 come before 7 and before every pass, and
//! leave zeros in all buffers.

use sizes::{BUFFER_SIZE, RECORD_NUMBERS};
use texts::refused_tables::{self, Refused};

use crate::bodies;
use crate::calls::{self, Call, Made, TEXT_LIMIT};
use crate::functions;
use crate::report::{Report, Row};
use crate::results::{blown, declared};
use crate::subject::Outcome;

/// Texts that pass the checks: some are accepted under a good table, others give 4, 5, 6 or 7.
fn texts() -> Vec<String> {
    [
        String::new(),
        "v := 1;".to_string(),
        "RAISE LOG 'a';".to_string(),
        "NEW.v := 1;".to_string(),
        "RAISE EXCEPTION USING x;".to_string(),
        blown(BUFFER_SIZE + 1, ""),
        declared(512),
        declared(513),
        "a".repeat(TEXT_LIMIT),
    ]
    .to_vec()
}

/// A call, with the lengths that its buffers need.
struct Subject {
    call: &'static Call,
    least: &'static [usize],
    outcome: fn(&str, &[u8], &[usize]) -> Outcome,
}

const SUBJECTS: [Subject; 2] = [
    Subject {
        call: &calls::TRANSFORM_BODY_BY_LEVELS,
        least: &[BUFFER_SIZE; 3],
        outcome: |text, table, lengths| {
            let expected = crate::levels::expected(text, table);
            bodies::made(text.as_bytes(), Some(table), lengths, &expected)
        },
    },
    Subject {
        call: &calls::PREPROCESS_BY_LEVELS,
        least: &[BUFFER_SIZE, BUFFER_SIZE, BUFFER_SIZE, BUFFER_SIZE, RECORD_NUMBERS],
        outcome: |text, table, lengths| {
            let expected = functions::Expected::under(text, table).expect("not read at all");
            functions::Made::new(text.as_bytes(), Some(table), lengths).outcome(&expected)
        },
    },
];

pub fn compare() -> Report {
    let mut report = Report::new(&SUBJECTS.map(|subject| subject.call.name));
    let texts = texts();
    for (subject, row) in SUBJECTS.iter().zip(&mut report.rows) {
        for refused in refused_tables::all() {
            for text in &texts {
                subject.zeroed(text, &refused, row);
            }
            subject.refused_ahead(&refused, row);
        }
    }
    report
}

impl Subject {
    /// The table's numbers, and zeros in all buffers, which are just long enough or longer.
    fn zeroed(&self, text: &str, refused: &Refused, row: &mut Row) {
        for more in [0, 5_000] {
            let lengths: Vec<usize> = self.least.iter().map(|length| length + more).collect();
            let Outcome { expected, got, buffers } = (self.outcome)(text, &refused.table, &lengths);
            let is_listed = expected == [refused.number, refused.place as u32, 0, 0];
            row.note(is_listed && got == expected && buffers, || {
                let held = if buffers { "right" } else { "wrong" };
                format!(
                    "text of {} bytes {}: {expected:?} expected, {got:?} got, buffers {held}",
                    text.len(),
                    shown(refused)
                )
            });
        }
    }

    /// 1, 3 and 2 come first, and each of them before the next.
    fn refused_ahead(&self, refused: &Refused, row: &mut Row) {
        let (long, high) = (vec![b'a'; TEXT_LIMIT + 1], b"ab\x80c");
        let long_high = [&long[1..], b"\x80"].concat();
        self.untouched(&long, self.least, [1, 0, 0, 0], refused, row);
        for index in 0..self.least.len() {
            let mut short = self.least.to_vec();
            short[index] -= 1;
            self.untouched(&long_high, &short, [1, 0, 0, 0], refused, row);
            self.untouched(b"NEW.v := 1;", &short, [3, 0, 0, 0], refused, row);
            self.untouched(high, &short, [3, 0, 0, 0], refused, row);
        }
        self.untouched(high, self.least, [2, 2, 0, 0], refused, row);
    }

    fn untouched(
        &self,
        text: &[u8],
        lengths: &[usize],
        answer: [u32; 4],
        refused: &Refused,
        row: &mut Row,
    ) {
        let made = self.call.make(text, lengths, &refused.table);
        row.note(made == Made { answer, is_untouched: true }, || {
            let held = if made.is_untouched { "untouched" } else { "written" };
            format!(
                "text of {} bytes {}, buffers of {lengths:?}: {answer:?} expected, {:?} got, \
                 buffers {held}",
                text.len(),
                shown(refused),
                made.answer
            )
        });
    }
}

fn shown(refused: &Refused) -> String {
    let front = &refused.table[..refused.table.len().min(100)];
    format!("{} at {}, {}", refused.number, refused.place, crate::levels::shown(front))
}
