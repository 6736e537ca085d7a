//! The limits and refusals in the stored list. The reference has none, so the scope paper's table
//! says what must come: 1 text too long, 3 a buffer too short, 2 a byte over 127, in this order, but
//! for requoting, where 2 comes before 3.

use std::io::{self, Write};

use crate::hex;
use crate::runs::{Run, Runs, LONGEST};

/// The letters of the searches.
pub const KINDS: &str = "mkbswpqnuh";

/// The most bytes of a search's text.
const LIMIT: usize = 65_536;

/// A byte over 127.
const HIGH: u8 = 200;

/// A needle whose second byte is over 127.
const HIGH_NEEDLE: &str = "61c8";

/// Texts with dollar literals, and what they are requoted to: shorter and longer, closed and open, up
/// to the limit.
const REQUOTED: [[&[Run]; 2]; 8] = [
    [&[(1, b"$tag$a$tag$")], &[(1, b"'a'")]],
    [&[(1, b"a$$it's$$'b''' $t$$$'$t$")], &[(1, b"a'it''s''b''' '$$'''")]],
    [&[(1, b"$$''''$$")], &[(10, b"'")]],
    [&[(1, b"$$a")], &[(1, b"'a'")]],
    [&[(1, b"$$'")], &[(4, b"'")]],
    [&[(1, b"$$"), (LIMIT - 2, b"'")], &[(2 * LIMIT - 2, b"'")]],
    [&[(1, b"$$"), (LIMIT - 2, b"a")], &[(1, b"'"), (LIMIT - 2, b"a"), (1, b"'")]],
    [&[(LIMIT / 8, b"$t$'$t$ ")], &[(LIMIT / 8, b"'''' ")]],
];

/// The lent lengths: bytes for a map or an output, and numbers for the starts of pieces.
type Lent = (usize, usize);

pub fn write(out: &mut impl Write) -> io::Result<()> {
    for kind in KINDS.chars() {
        let mut rows = Rows { kind, out };
        rows.accepted()?;
        rows.too_long()?;
        rows.too_short()?;
        rows.high_in_text()?;
        rows.high_in_needle()?;
        rows.starts()?;
        if matches!(kind, 'q' | 'n') {
            rows.requoted()?;
        }
    }
    Ok(())
}

struct Rows<'a, W> {
    kind: char,
    out: &'a mut W,
}

impl<W: Write> Rows<'_, W> {
    /// Texts up to the limit pass, with buffers that are just long enough and with longer ones.
    fn accepted(&mut self) -> io::Result<()> {
        for length in [0, 1, 2, LIMIT - 1, LIMIT] {
            self.text(length, None)?;
            let (bytes, starts) = self.enough(length);
            for more in [0, 3] {
                let answer = self.plain_answer(length);
                self.ask((bytes + more, starts + more), "-", 0, &answer)?;
            }
        }
        Ok(())
    }

    /// Refusal 1 comes before 3 and 2.
    fn too_long(&mut self) -> io::Result<()> {
        let length = LIMIT + 1;
        for high in [None, Some(0), Some(LIMIT)] {
            self.text(length, high)?;
            self.ask(self.enough(length), HIGH_NEEDLE, 0, "1 0 0 0")?;
            for short in self.one_short(length) {
                self.ask(short, HIGH_NEEDLE, 0, "1 0 0 0")?;
            }
        }
        Ok(())
    }

    /// Refusal 3 comes before 2, but for requoting.
    fn too_short(&mut self) -> io::Result<()> {
        for length in [0, 1, LIMIT] {
            for high in [None, Some(0)] {
                self.text(length, high)?;
                let is_high_first = self.kind == 'q' && high.is_some();
                let answer = if is_high_first { "2 0 0 0" } else { "3 0 0 0" };
                for short in self.one_short(length) {
                    self.ask(short, HIGH_NEEDLE, 0, answer)?;
                }
            }
        }
        Ok(())
    }

    /// Refusal 2 names the text's first byte over 127, and not the needle's.
    fn high_in_text(&mut self) -> io::Result<()> {
        for (length, place) in [(1, 0), (2, 1), (LIMIT, 0), (LIMIT, LIMIT - 1)] {
            self.text(length, Some(place))?;
            self.ask(self.enough(length), HIGH_NEEDLE, 0, &format!("2 0 {place} 0"))?;
        }
        Ok(())
    }

    fn high_in_needle(&mut self) -> io::Result<()> {
        for length in [0, 1, LIMIT] {
            if matches!(self.kind, 'k' | 's') {
                self.text(length, None)?;
                self.ask(self.enough(length), HIGH_NEEDLE, 0, "2 0 1 0")?;
            }
        }
        Ok(())
    }

    /// A start one before the end of the text finds its last byte; one at the end or past it none.
    fn starts(&mut self) -> io::Result<()> {
        for length in [1, LIMIT] {
            let found = match (self.kind, length) {
                ('k', 1) => "0 1 0 0".to_string(),
                ('k', _) => "0 0 0 0".to_string(),
                ('w', _) => format!("0 1 {} 1", length - 1),
                _ => continue,
            };
            self.text(length, None)?;
            self.ask(self.enough(length), "41", length - 1, &found)?;
            for past in [length, length + 1, 9_999_999] {
                self.ask(self.enough(length), "41", past, "0 0 0 0")?;
            }
        }
        Ok(())
    }

    /// Requoting takes as many bytes as the requoted text has; its length takes none.
    fn requoted(&mut self) -> io::Result<()> {
        for [text, requoted] in REQUOTED.map(|pair| pair.map(Runs::new)) {
            let length = requoted.len();
            writeln!(self.out, "t {text}")?;
            if self.kind == 'n' {
                self.ask((0, 0), "-", 0, &format!("0 0 0 {length}"))?;
                continue;
            }
            let result =
                if length <= LONGEST { hex::encode(&requoted.bytes()) } else { "*".to_string() };
            for lent in [length, length + 3] {
                self.ask((lent, 0), "-", 0, &format!("0 0 0 {length} {result}"))?;
            }
            self.ask((length - 1, 0), "-", 0, "3 0 0 0")?;
        }
        // The byte over 127 stands in the literal, and no buffer is lent.
        writeln!(self.out, "t {}", Runs::new(&[(1, b"$$'"), (1, &[HIGH])]))?;
        self.ask((0, 0), "-", 0, "2 0 3 0")
    }

    /// The line of a text of letters `a`, with a byte over 127 at a place.
    fn text(&mut self, length: usize, high: Option<usize>) -> io::Result<()> {
        let text = match high {
            Some(place) if place < length => Runs::with_byte(length, place, HIGH),
            _ => Runs::letters(length),
        };
        writeln!(self.out, "t {text}")
    }

    /// The lines of one question: what is lent, and the question with its answer.
    fn ask(&mut self, lent: Lent, needle: &str, from: usize, answer: &str) -> io::Result<()> {
        let (bytes, starts) = lent;
        writeln!(self.out, "l {bytes} {starts}")?;
        writeln!(self.out, "{} {needle} {from} {answer}", self.kind)
    }

    /// The answer on letters `a` where the needle is empty. `*` stands for a result that is not
    /// compared; there the random texts are the better test.
    fn plain_answer(&self, length: usize) -> String {
        match self.kind {
            'm' => "0 0 0 0 *".to_string(),
            'p' => "0 0 0 1 0".to_string(),
            'q' => format!("0 0 0 {length} *"),
            'n' => format!("0 0 0 {length}"),
            'w' if length > 0 => format!("0 1 0 {length}"),
            _ => "0 0 0 0".to_string(),
        }
    }

    /// The least lengths that a search takes for this many letters, which requoting leaves as they are.
    fn enough(&self, length: usize) -> Lent {
        match self.kind {
            'n' | 'u' => (0, 0),
            'p' => (length, length + 1),
            _ => (length, 0),
        }
    }

    /// Each buffer one too short, while the other is long enough.
    fn one_short(&self, length: usize) -> Vec<Lent> {
        let (bytes, starts) = self.enough(length);
        let fewer_bytes = (bytes > 0).then(|| (bytes - 1, starts));
        let fewer_starts = (starts > 0).then(|| (bytes, starts - 1));
        fewer_bytes.into_iter().chain(fewer_starts).collect()
    }
}

#[cfg(test)]
mod tests {
    use super::*;
    use crate::answer::answer;
    use crate::question::Question;

    /// The reference has no limits, but it gives the requoted texts.
    #[test]
    fn the_requoted_texts_are_the_references() {
        for [text, requoted] in REQUOTED.map(|pair| pair.map(Runs::new)) {
            assert!(text.len() <= LIMIT, "{text}");
            let question = Question::Requote(String::from_utf8(text.bytes()).unwrap());
            assert_eq!(answer(&question), Ok(hex::encode(&requoted.bytes())), "{text}");
        }
    }
}
