//! The limits and refusals of each call. The reference has none, so the scope paper's table says
//! what must come: 1 text too long, 3 a buffer too short, 2 a byte over 127, checked in this order,
//! but for requoting, which checks 2 before 3. The calls with a table of levels are handed needles in its
//! place, which are bad tables: 11 and 13 come behind all three.

use crate::calls::{Call, Made, Order, CALLS};
use crate::report::{Report, Row};

/// A byte over 127.
const HIGH: u8 = 0x80;

const TOO_LONG: u32 = 1;
const NOT_ASCII: u32 = 2;
const TOO_SHORT: u32 = 3;

pub fn compare() -> Report {
    let mut report = Report::new(&CALLS.map(|call| call.name));
    for (call, row) in CALLS.iter().zip(&mut report.rows) {
        let mut limits = Limits { call, row };
        limits.accepted();
        limits.too_long();
        limits.too_short();
        limits.high_in_text();
        if call.has_needle {
            limits.high_in_needle();
        }
    }
    report
}

struct Limits<'a> {
    call: &'a Call,
    row: &'a mut Row,
}

impl Limits<'_> {
    /// Texts up to the limit pass, with buffers that are just long enough and with longer ones.
    fn accepted(&mut self) {
        for text in texts(self.call.limit) {
            for more in [0, 1, 100] {
                let lengths = self.enough(&text, more);
                let made = self.call.make(&text, &lengths, self.call.accepts_with);
                let passes = match self.call.length {
                    Some(length) => made.answer == [0, 0, 0, length(&text) as u32],
                    None => made.answer[0] == 0 && made.answer[self.call.place_at] == 0,
                };
                self.row.note(passes, || described(&text, &lengths, b"", 0, &made));
            }
        }
    }

    /// Refusal 1 comes before 3 and 2, and is about the text and not the result.
    fn too_long(&mut self) {
        for length in [self.call.limit + 1, self.call.limit + 2, 3 * self.call.limit] {
            let letters = plain(length);
            let high = [0, length - 1].map(|place| high_at(&letters, place));
            for text in [letters].into_iter().chain(high).chain([shrinking(length)]) {
                for needle in [&b"a"[..], &[HIGH]] {
                    self.refused(&text, &self.enough(&text, 0), needle, [TOO_LONG, 0, 0, 0]);
                    self.refused(&text, &self.enough(&text, 9), needle, [TOO_LONG, 0, 0, 0]);
                    for lengths in self.one_short(&text) {
                        self.refused(&text, &lengths, needle, [TOO_LONG, 0, 0, 0]);
                    }
                }
            }
        }
    }

    /// Refusal 3 comes before 2, unless the call checks its text first.
    fn too_short(&mut self) {
        for passing in texts(self.call.limit) {
            let last = passing.len().saturating_sub(1);
            let high = [0, last].map(|place| high_at(&passing, place));
            for text in [passing].into_iter().chain(high) {
                let expected = match high_in(&text) {
                    Some(place) if self.call.order == Order::TextFirst => self.not_ascii(place),
                    _ => [TOO_SHORT, 0, 0, 0],
                };
                for needle in [&b"a"[..], &[HIGH]] {
                    for lengths in self.one_short(&text) {
                        self.refused(&text, &lengths, needle, expected);
                    }
                }
            }
        }
    }

    /// Refusal 2 names the first byte over 127; the text's comes before the needle's.
    fn high_in_text(&mut self) {
        for length in [1, 2, 10, self.call.limit - 1, self.call.limit] {
            let lengths = self.enough(&plain(length), 0);
            for place in [0, length / 2, length - 1] {
                for needle in [&b""[..], b"a", &[b'a', HIGH]] {
                    let expected = self.not_ascii(place);
                    self.refused(&high_at(&plain(length), place), &lengths, needle, expected);
                    self.refused(&high_from(length, place), &lengths, needle, expected);
                }
            }
        }
        for byte in HIGH..=u8::MAX {
            self.refused(&[byte], &self.enough(&[byte], 0), b"", [NOT_ASCII, 0, 0, 0]);
        }
    }

    /// A needle has no limit on its length, so one that is longer than the text is looked through.
    fn high_in_needle(&mut self) {
        for length in [0, 1, 10, self.call.limit] {
            let lengths = self.enough(&plain(length), 0);
            for needle_length in [1, 2, 10, self.call.limit + 10] {
                for place in [0, needle_length / 2, needle_length - 1] {
                    let needle = high_from(needle_length, place);
                    let expected = self.not_ascii(place);
                    self.refused(&plain(length), &lengths, &needle, expected);
                }
            }
        }
    }

    /// Refusal 2 at this place.
    fn not_ascii(&self, place: usize) -> [u32; 4] {
        let mut answer = [NOT_ASCII, 0, 0, 0];
        answer[self.call.place_at] = place as u32;
        answer
    }

    /// A refused call gives these numbers and writes nothing.
    fn refused(&mut self, text: &[u8], lengths: &[usize], needle: &[u8], expected: [u32; 4]) {
        let made = self.call.make(text, lengths, needle);
        let agrees = made == Made { answer: expected, is_untouched: true };
        self.row.note(agrees, || described(text, lengths, needle, expected[0], &made));
    }

    /// Buffers that are `more` longer than they must be.
    fn enough(&self, text: &[u8], more: usize) -> Vec<usize> {
        (self.call.enough)(text).iter().map(|enough| enough + more).collect()
    }

    /// For each buffer the lengths where it is one too short, or empty, and the others are enough.
    fn one_short(&self, text: &[u8]) -> Vec<Vec<usize>> {
        let enough = self.enough(text, 0);
        let mut list = Vec::new();
        for (index, needed) in enough.iter().enumerate().filter(|(_, needed)| **needed > 0) {
            for short in [needed - 1, 0] {
                let mut lengths = enough.clone();
                lengths[index] = short;
                list.push(lengths);
            }
        }
        list
    }
}

/// Texts that pass: letters, and dollar literals whose requoted form is shorter or longer than they
/// are, closed and open, some of them up to the limit.
fn texts(limit: usize) -> Vec<Vec<u8>> {
    let short = ["$tag$a$tag$", "$$''''$$", "$$a", "$$'", "$$", "$$$$"];
    let inside = "$$'".repeat((limit - 6) / 3);
    let mut list = [0, 1, 2, 10, limit - 1, limit].map(plain).to_vec();
    list.extend(short.map(|text| text.as_bytes().to_vec()));
    list.extend([limit - 1, limit].map(|length| [b"$$", &vec![b'\''; length - 2][..]].concat()));
    list.extend([shrinking(limit), format!("$t${inside}$t$").into_bytes()]);
    list
}

fn plain(length: usize) -> Vec<u8> {
    vec![b'a'; length]
}

/// A text whose requoted form is much shorter.
fn shrinking(length: usize) -> Vec<u8> {
    b"$tag$a$tag$".iter().cycle().take(length).copied().collect()
}

/// The same text with a byte over 127, if it has any byte.
fn high_at(text: &[u8], place: usize) -> Vec<u8> {
    let mut text = text.to_vec();
    if let Some(byte) = text.get_mut(place) {
        *byte = HIGH;
    }
    text
}

/// The place of the first byte over 127.
fn high_in(bytes: &[u8]) -> Option<usize> {
    bytes.iter().position(|byte| !byte.is_ascii())
}

/// A text with bytes over 127 from a place on.
fn high_from(length: usize, place: usize) -> Vec<u8> {
    let mut text = plain(length);
    text[place..].fill(u8::MAX);
    text
}

fn described(text: &[u8], lengths: &[usize], needle: &[u8], number: u32, made: &Made) -> String {
    format!(
        "text of {} bytes, over 127 at {:?}, buffers of {lengths:?}, needle of {}, over 127 at {:?}: \
         number {number} expected, {:?} got, buffers {}",
        text.len(),
        high_in(text),
        needle.len(),
        high_in(needle),
        made.answer,
        if made.is_untouched { "untouched" } else { "written" },
    )
}
