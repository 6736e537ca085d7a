//! What is asked about a text: words, bytes and starts, some fixed and some taken from the text.

use texts::parts;
use texts::random::Random;
use texts::tokens;

/// A byte over 127 is never found.
const HIGH: u8 = 0xc3;

/// Keywords in several letter cases, the empty one among them.
pub fn keywords(text: &str, random: &mut Random) -> Vec<String> {
    let word = parts::word_of(text, random);
    let mut list = owned(&["a", "A1", ";", ""]);
    list.extend([word.to_uppercase(), word.to_lowercase(), tokens::letter_case(&word, random)]);
    list.extend([tokens::keyword(random), parts::part_of(text, random)]);
    different(list)
}

/// Needles, the empty one and one longer than the text among them.
pub fn needles(text: &str, random: &mut Random) -> Vec<String> {
    let mut list = owned(&["", ":=", "a", ";a", "1 ", "$"]);
    list.extend([parts::part_of(text, random), parts::part_of(text, random)]);
    list.extend([tokens::token(random), format!("{text}a")]);
    different(list)
}

/// Bytes that are sought or that separate.
pub fn bytes(text: &str, random: &mut Random) -> Vec<u8> {
    let one = parts::byte_for(text, random);
    let two = parts::byte_for(text, random);
    different(vec![b';', b'a', b' ', b'\'', b'$', HIGH, one, two])
}

/// Starts at both ends, around the last and past it, and one anywhere.
pub fn starts(text: &str, random: &mut Random) -> Vec<usize> {
    let n = text.len();
    let anywhere = random.between(0, n + 2);
    different(vec![0, 1, n.saturating_sub(1), n, n + 1, anywhere, usize::MAX])
}

fn owned(words: &[&str]) -> Vec<String> {
    words.iter().map(|word| word.to_string()).collect()
}

/// The same question is counted once.
fn different<T: Ord>(mut list: Vec<T>) -> Vec<T> {
    list.sort();
    list.dedup();
    list
}
