//! What the limits ask of each call: its text's limit, the buffers it needs, and how it is made.

use library::Answer;
use reference::scanner::Scanner;
use sizes::{BUFFER_SIZE, RECORD_NUMBERS};

use crate::lent::Lent;
use crate::levels;

/// The most bytes of a search's text.
pub const SEARCH_LIMIT: usize = 65_536;

/// The most bytes of a call's text.
pub const TEXT_LIMIT: usize = 16_384;

/// What is checked first behind the text's length.
#[derive(PartialEq)]
pub enum Order {
    /// Refusal 3, then 2.
    BuffersFirst,
    /// Refusal 2, then 3: the length that the buffer needs is told only of an ASCII text.
    TextFirst,
}

pub struct Call {
    pub name: &'static str,
    /// The most bytes of its text.
    pub limit: usize,
    /// The least lengths of its buffers for this text.
    pub enough: fn(&[u8]) -> Vec<usize>,
    pub order: Order,
    pub has_needle: bool,
    /// What is handed over in the place of a needle where the call is to accept a text: nothing, or a
    /// table of levels.
    pub accepts_with: &'static [u8],
    /// Which of the four numbers is the place.
    pub place_at: usize,
    /// Of a call that answers 0, 0, 0 and a length that the text alone decides: that length.
    pub length: Option<fn(&[u8]) -> usize>,
    run: Run,
}

type Run = fn(&[u8], &mut Buffers, &[u8]) -> Answer;

impl Call {
    /// Makes the call on new buffers of these lengths.
    pub fn make(&self, text: &[u8], lengths: &[usize], needle: &[u8]) -> Made {
        let mut buffers = Buffers::new(lengths);
        let answer = (self.run)(text, &mut buffers, needle);
        Made { answer, is_untouched: buffers.are_untouched() }
    }
}

/// The answer of a call, and whether all its buffers hold what they held before.
#[derive(PartialEq)]
pub struct Made {
    pub answer: Answer,
    pub is_untouched: bool,
}

/// A buffer of each length, in both widths: a call takes the one it needs.
struct Buffers {
    bytes: Vec<Lent<u8>>,
    numbers: Vec<Lent<u32>>,
}

impl Buffers {
    fn new(lengths: &[usize]) -> Self {
        let bytes = lengths.iter().map(|length| Lent::new(*length)).collect();
        let numbers = lengths.iter().map(|length| Lent::new(*length)).collect();
        Self { bytes, numbers }
    }

    fn are_untouched(&self) -> bool {
        self.bytes.iter().all(Lent::is_untouched) && self.numbers.iter().all(Lent::is_untouched)
    }
}

/// The reference's requoted length. A byte over 127, which is refused, counts as a letter.
fn requoted_length(text: &[u8]) -> usize {
    let letter = |byte: &u8| if byte.is_ascii() { char::from(*byte) } else { 'a' };
    let text: String = text.iter().map(letter).collect();
    Scanner::new(&text).requote_dollar_literals().len()
}

/// A search that is lent a map; the other calls say what differs from it.
const fn search(name: &'static str, run: Run) -> Call {
    Call {
        name,
        limit: SEARCH_LIMIT,
        enough: |text| vec![text.len()],
        order: Order::BuffersFirst,
        has_needle: false,
        accepts_with: b"",
        place_at: 2,
        length: None,
        run,
    }
}

/// A rewriting call.
const fn rewriting(name: &'static str, enough: fn(&[u8]) -> Vec<usize>, run: Run) -> Call {
    Call { limit: TEXT_LIMIT, enough, place_at: 1, ..search(name, run) }
}

pub const TRANSFORM_BODY: Call = rewriting(
    "transform_body",
    |_| vec![BUFFER_SIZE; 3],
    |text, lent, _| {
        let [output, work, spare] = &mut lent.bytes[..] else { unreachable!() };
        library::transform_body(text, output.lend(), work.lend(), spare.lend())
    },
);

pub const PREPROCESS: Call = rewriting(
    "preprocess",
    |_| vec![BUFFER_SIZE, BUFFER_SIZE, BUFFER_SIZE, BUFFER_SIZE, RECORD_NUMBERS],
    |text, lent, _| {
        let [output, work, spare, declared, _] = &mut lent.bytes[..] else { unreachable!() };
        let (o, w, s, d) = (output.lend(), work.lend(), spare.lend(), declared.lend());
        library::preprocess(text, o, w, s, d, lent.numbers[4].lend())
    },
);

/// The same calls with a table of levels in the needle's place.
pub const TRANSFORM_BODY_BY_LEVELS: Call = Call {
    name: "transform_body_by_levels",
    accepts_with: levels::NO_TABLE,
    run: |text, lent, table| {
        let [output, work, spare] = &mut lent.bytes[..] else { unreachable!() };
        let (o, w, s) = (output.lend(), work.lend(), spare.lend());
        library::transform_body_by_levels(text, table, o, w, s)
    },
    ..TRANSFORM_BODY
};

pub const PREPROCESS_BY_LEVELS: Call = Call {
    name: "preprocess_by_levels",
    accepts_with: levels::NO_TABLE,
    run: |text, lent, table| {
        let [output, work, spare, declared, _] = &mut lent.bytes[..] else { unreachable!() };
        let (o, w, s, d) = (output.lend(), work.lend(), spare.lend(), declared.lend());
        library::preprocess_by_levels(text, table, o, w, s, d, lent.numbers[4].lend())
    },
    ..PREPROCESS
};

pub const CALLS: [Call; 15] = [
    search("regions", |text, lent, _| library::regions(text, lent.bytes[0].lend())),
    Call {
        has_needle: true,
        ..search("find_keyword", |text, lent, keyword| {
            library::find_keyword(text, lent.bytes[0].lend(), keyword, 0)
        })
    },
    search("find_in_code", |text, lent, _| library::find_in_code(text, lent.bytes[0].lend(), b';')),
    Call {
        has_needle: true,
        ..search("find_str_in_code", |text, lent, needle| {
            library::find_str_in_code(text, lent.bytes[0].lend(), needle)
        })
    },
    search("next_word_in_code", |text, lent, _| {
        library::next_word_in_code(text, lent.bytes[0].lend(), 0)
    }),
    Call {
        enough: |text| vec![text.len(), text.len() + 1],
        ..search("split_in_code", |text, lent, _| {
            library::split_in_code(text, lent.bytes[0].lend(), lent.numbers[1].lend(), b';')
        })
    },
    Call {
        enough: |text| vec![requoted_length(text)],
        order: Order::TextFirst,
        length: Some(requoted_length),
        ..search("requote_dollar_literals", |text, lent, _| {
            library::requote_dollar_literals(text, lent.bytes[0].lend())
        })
    },
    Call {
        enough: |_| vec![],
        length: Some(requoted_length),
        ..search("requoted_length", |text, _, _| library::requoted_length(text))
    },
    Call {
        enough: |_| vec![],
        ..search("has_unterminated_dollar_quote", |text, _, _| {
            library::has_unterminated_dollar_quote(text)
        })
    },
    search("has_exception_handler", |text, lent, _| {
        library::has_exception_handler(text, lent.bytes[0].lend())
    }),
    search("is_closed", |text, lent, _| library::is_closed(text, lent.bytes[0].lend())),
    TRANSFORM_BODY,
    PREPROCESS,
    TRANSFORM_BODY_BY_LEVELS,
    PREPROCESS_BY_LEVELS,
];
