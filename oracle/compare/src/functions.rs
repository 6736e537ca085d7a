//! The function call: the four numbers, and every byte and number of its five buffers.
//!
//! The records must be exactly those that Note 5 makes of the reference's declarations, and besides, by
//! that note's own words, the words put back into the types must give the reference's. A text that has
//! left the comparison is compared with what the reference reads in the respelled text.

use library::Answer;
use reference::constants::{self, Variable};
use reference::declarations::Declaration;
use reference::levels::Table;
use reference::reading::Reading;
use reference::reasons::Reasons;
use reference::records::{chain_leads_through, first_declared, Records};
use sizes::{BUFFER_SIZE, NAMES, RECORD_NUMBERS};
use texts::random::Random;

use crate::bodies::numbered;
use crate::lent::Lent;
use crate::levels;
use crate::report::Row;
use crate::subject::{Outcome, Subject};

const READABLE: &str = "a readable context";

const TYPED: &str = "each declaration has a type left";

const ROW_MISSING: &str = "a row for each name";

const RESPELLABLE: &str = "a text that can be respelled";

/// The texts that are still compared, with how many of them declare a name, how many have a word of Note 5
/// in a declaration, and how many of their records have each mark; those taken out, with how many have each
/// reason; those of them that are compared after respelling, and those that do not give what the reference
/// gives as written; and all that are compared either way, with a table that equals none.
pub const ROWS: [&str; 13] = [
    "preprocess", "  with a declared name", "  with CONSTANT, NOT or NULL",
    "  records marked CONSTANT", "  records marked NOT NULL", "taken out", "  a quoted :=",
    "  a lone = first", "  a DEFAULT ahead of a :=", "  no type left", "taken out, respelled",
    "taken out, unlike the Rust", "by levels, as without a table",
];

/// How many rows behind the first one count what is in the texts that are still compared.
const COMPARED_COUNTS: usize = 4;

pub fn preprocess(subject: &mut Subject, rows: &mut [Row]) {
    let [compared, counts @ .., respelled, unlike, by_levels] = rows else {
        panic!("{ROW_MISSING}")
    };
    let (compared_counts, reason_counts) = counts.split_at_mut(COMPARED_COUNTS);
    let lengths = lengths(subject);
    let mut made = Made::new(subject.bytes(), None, &lengths);
    let published = Reading::published(subject.text).expect(READABLE);
    let declares = !published.order.is_empty();
    // Nothing is expected of a text as written that has a declaration with no type left.
    let as_written = Expected::new(published);
    let outcome = as_written.as_ref().map(|expected| made.outcome(expected));

    let reasons = Reasons::of(subject.text);
    let is_compared = reasons.is_none();
    count_reasons(&reasons, reason_counts);
    unlike.count(!is_compared && !outcome.as_ref().is_some_and(Outcome::agrees));
    let as_compared = as_written.filter(|_| is_compared);
    count_compared(subject, declares, as_compared.as_ref(), compared_counts);
    if let Some(expected) = &as_compared {
        subject.judge(compared, format_args!(""), outcome.expect(TYPED));
        by_no_levels(subject, &lengths, expected, by_levels);
    } else if let Some(reading) = Reading::respelled(subject.text).expect(READABLE) {
        let expected = Expected::new(reading).expect(TYPED);
        subject.judge(respelled, format_args!("respelled"), made.outcome(&expected));
        by_no_levels(subject, &lengths, &expected, by_levels);
    }
}

/// The same with a table that equals none.
fn by_no_levels(subject: &mut Subject, lengths: &[usize], expected: &Expected, row: &mut Row) {
    let table = texts::levels::default_table(subject.random);
    let outcome = Made::new(subject.bytes(), Some(&table), lengths).outcome(expected);
    subject.judge(row, format_args!("{}", levels::shown(&table)), outcome);
}

/// Lengths that are enough.
pub fn lengths(subject: &mut Subject) -> [usize; 5] {
    let least = [BUFFER_SIZE, BUFFER_SIZE, BUFFER_SIZE, BUFFER_SIZE, RECORD_NUMBERS];
    least.map(|length| length + subject.random.below(4))
}

/// Counts what is in a text of which this is expected; in one that has left the comparison, nothing.
fn count_compared(
    subject: &Subject,
    declares: bool,
    expected: Option<&Expected>,
    rows: &mut [Row],
) {
    let [declaring, with_words, constant, not_null] = rows else { panic!("{ROW_MISSING}") };
    declaring.count(expected.is_some() && declares);
    with_words.count(expected.is_some() && constants::occur_in(subject.text));
    let [constants, not_nulls] = expected.map_or([0; 2], |expected| expected.records.marked());
    constant.count_all(constants);
    not_null.count_all(not_nulls);
}

fn count_reasons(reasons: &Reasons, rows: &mut [Row]) {
    let [taken_out, quoted, equals, keyword, no_type] = rows else { panic!("{ROW_MISSING}") };
    taken_out.count(!reasons.is_none());
    quoted.count(reasons.quoted_assign);
    equals.count(reasons.equals_first);
    keyword.count(reasons.keyword_first);
    no_type.count(reasons.no_type_left);
}

/// A function that is still compared and declares a name; its body is BEGIN alone.
pub fn declaring(random: &mut Random) -> String {
    random_compared(random, |text| !first_declared(text).is_empty())
}

/// The same with CONSTANT, NOT or NULL in a declaration, ahead of its default.
pub fn with_words(random: &mut Random) -> String {
    random_compared(random, constants::occur_in)
}

fn random_compared(random: &mut Random, is_sought: fn(&str) -> bool) -> String {
    loop {
        let text = format!("DECLARE {}BEGIN", texts::declarations(random));
        if Reasons::of(&text).is_none() && is_sought(&text) {
            return text;
        }
    }
}

/// The outcomes of a text that gives this number under this table, with new buffers of each of these
/// lengths. The reference is not asked where a pass gives 6.
pub fn limited(
    text: &str,
    table: Option<&[u8]>,
    lengths: &[Vec<usize>],
    number: u32,
) -> Vec<Outcome> {
    let expected = match (number, table) {
        (6, _) => Expected::refused([6, 0, 0, 0], Vec::new()),
        (_, Some(table)) => Expected::under(text, table).expect(RESPELLABLE),
        (_, None) => Expected::new(wanted(text).expect(RESPELLABLE)).expect(TYPED),
    };
    let text = text.as_bytes();
    lengths.iter().map(|lengths| Made::new(text, table, lengths).outcome(&expected)).collect()
}

fn wanted(text: &str) -> Option<Reading> {
    Reading::wanted(text).expect(READABLE)
}

/// What a call must answer, and leave in its buffers in front of the zeros.
pub struct Expected {
    answer: Answer,
    output: Vec<u8>,
    records: Records,
    /// The reference's declarations in byte order of names.
    list: Vec<Declaration>,
}

impl Expected {
    /// `None` if a declaration has no type left.
    fn new(Reading { output, list, order }: Reading) -> Option<Self> {
        if order.len() > NAMES {
            return Some(Self::refused([7, 0, 0, 0], Vec::new()));
        }
        let (mut answer, output) = numbered(output);
        if answer[0] != 0 {
            return Some(Self::refused(answer, output));
        }
        answer[3] = list.len() as u32;
        let records = Records::new(&order, &Variable::all(&list)?);
        Some(Self { answer, output, records, list })
    }

    /// The same under a table. `None` if the text cannot be respelled.
    pub fn under(text: &str, table: &[u8]) -> Option<Self> {
        let table = match Table::read(table) {
            Ok(table) => table,
            Err(refusal) => return Some(Self::refused(levels::answer(refusal), Vec::new())),
        };
        let reading = Reading::under(text, &table).expect(READABLE)?;
        Some(Self::new(reading).expect(TYPED))
    }

    /// A refusal leaves no records and no declaration text.
    pub fn refused(answer: Answer, output: Vec<u8>) -> Self {
        Self { answer, output, records: Records::default(), list: Vec::new() }
    }
}

/// What the call made of a text that its checks let pass: its answer and its buffers.
pub struct Made {
    answer: Answer,
    /// Output, both work buffers and declaration text.
    buffers: [Lent<u8>; 4],
    records: Lent<u32>,
}

impl Made {
    /// Makes the call, without a table or with this one, with new buffers of these lengths.
    pub fn new(text: &[u8], table: Option<&[u8]>, lengths: &[usize]) -> Self {
        let mut buffers = [0, 1, 2, 3].map(|index| Lent::new(lengths[index]));
        let mut records = Lent::new(lengths[4]);
        let [output, work, spare, declared] = &mut buffers;
        let (o, w, s, d) = (output.lend(), work.lend(), spare.lend(), declared.lend());
        let answer = match table {
            Some(table) => library::preprocess_by_levels(text, table, o, w, s, d, records.lend()),
            None => library::preprocess(text, o, w, s, d, records.lend()),
        };
        Self { answer, buffers, records }
    }

    pub fn outcome(&mut self, expected: &Expected) -> Outcome {
        let Self { answer, buffers: [output, work, spare, declared], records } = self;
        let buffers = output.holds_filled(&expected.output)
            && work.holds_filled(&[])
            && spare.holds_filled(&[])
            && declared.holds_filled(&expected.records.text)
            && records.holds_filled(&expected.records.numbers)
            && chain_leads_through(declared.lend(), records.lend(), &expected.list);
        Outcome { expected: expected.answer, got: *answer, buffers }
    }
}
