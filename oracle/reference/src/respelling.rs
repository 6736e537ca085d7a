//! The texts that left the comparison, respelled so that the published source reads them as Notes 2 and 5
//! do.
//!
//! What a default stands behind becomes `:=`. All other bytes stay as live or quoted as they were:
//! a live `=` or DEFAULT opens no span, and none can be part of a dollar literal's tag, since DEFAULT
//! has no word byte and no `$` beside it. `:=` opens no span and is no word byte either, so every other
//! byte keeps its region and every word its edges.
//!
//! The published source would begin a default at a quoted `:=` ahead of it, so there the colon becomes
//! another byte, which is put back in the names and types that are read. Inside a span neither of the
//! two bytes means anything.
//!
//! A part that has no type left becomes spaces, which declare nothing. It begins and ends outside of any
//! span, so the other parts keep their regions.

use crate::block::Block;
use crate::constants::has_no_type_left;
use crate::defaults::DefaultKeys;

/// Stands for a quoted colon. It is no white space, and the scanner knows it no more than a colon.
const STAND_IN: &str = "\x01";

/// The text with every default behind its first `:=`, and without the parts that have no type left.
/// `None` if it holds the byte that stands in.
pub fn respelled(text: &str) -> Option<String> {
    if text.contains(STAND_IN) {
        return None;
    }
    let Some(Block { front, parts, back }) = Block::of(text) else {
        return Some(text.to_string());
    };
    let parts: Vec<String> = parts.into_iter().map(respelled_part).collect();
    Some(format!("{front}{}{back}", parts.join(";")))
}

fn respelled_part(part: &str) -> String {
    let keys = DefaultKeys::of(part);
    if has_no_type_left(keys.ahead(part)) {
        return " ".repeat(part.len());
    }
    let hidden = |ahead: &str| ahead.replace(":=", &format!("{STAND_IN}="));
    match keys.leftmost() {
        Some((place, length)) => {
            format!("{}:={}", hidden(&part[..place]), &part[place + length..])
        }
        None => hidden(part),
    }
}

/// A name or a type as it stood in the text before respelling.
pub fn put_back(read: &str) -> String {
    read.replace(STAND_IN, ":")
}

#[cfg(test)]
mod tests {
    use super::*;
    use crate::reading::Reading;
    use crate::reasons::Reasons;
    use crate::scanner::{Region, Scanner};
    use texts::random::Random;

    #[test]
    fn defaults_come_behind_an_assign() {
        let texts = [
            ("DECLARE a b>=1; BEGIN", "DECLARE a b>:=1; BEGIN"),
            ("DECLARE a b:==1; BEGIN", "DECLARE a b:==1; BEGIN"),
            ("DECLARE a b=>1; c d==1 BEGIN", "DECLARE a b=>1; c d==1 BEGIN"),
            ("DECLARE a b DEFAULT 1 := 2;BEGIN", "DECLARE a b := 1 := 2;BEGIN"),
            ("DECLARE tag text DEFAULT ':=';BEGIN", "DECLARE tag text := ':=';BEGIN"),
            ("DECLARE;=;;a=BEGIN=", "DECLARE;:=;;a:=BEGIN="),
            ("DECLARE a b = 1;", "DECLARE a b = 1;"),
            ("DECLARE a b /* := */ = ':='; BEGIN", "DECLARE a b /* \x01= */ := ':='; BEGIN"),
            ("DECLARE \":=\" b -- :=\nBEGIN", "DECLARE \"\x01=\" b -- \x01=\nBEGIN"),
        ];
        check(&texts);
        assert_eq!(respelled("DECLARE a b = \x01; BEGIN"), None);
    }

    #[test]
    fn parts_with_no_type_left_become_spaces() {
        check(&[
            ("DECLARE a CONSTANT;a b;BEGIN", "DECLARE           ;a b;BEGIN"),
            ("DECLARE a b;c\nnot NULL BEGIN", "DECLARE a b;           BEGIN"),
            ("DECLARE'a' CONSTANT:=';';b c=1 BEGIN", "DECLARE                 ;b c:=1 BEGIN"),
            ("DECLARE a CONSTANT b;c NOT BEGIN", "DECLARE a CONSTANT b;c NOT BEGIN"),
        ]);
    }

    fn check(texts: &[(&str, &str)]) {
        for (text, expected) in texts {
            assert_eq!(respelled(text).as_deref(), Some(*expected));
        }
    }

    fn random_functions() -> impl Iterator<Item = String> {
        let mut random = Random::new(1);
        (0..20_000).map(move |_| texts::function(&mut random))
    }

    /// The bytes and their regions, but for what the defaults stand behind, and for parts that are blank
    /// or have no type left.
    fn rest(text: &str) -> Vec<(u8, Region)> {
        let regions = Scanner::new(text).regions();
        let mut rest: Vec<_> = put_back(text).bytes().zip(regions).map(Some).collect();
        let Some(block) = Block::of(text) else {
            return rest.into_iter().flatten().collect();
        };
        let mut start = block.front.len();
        for part in block.parts {
            let keys = DefaultKeys::of(part);
            let rest = &mut rest[start..][..part.len()];
            if part.trim().is_empty() || has_no_type_left(keys.ahead(part)) {
                rest.fill(None);
            } else if let Some((place, length)) = keys.leftmost() {
                rest[place..][..length].fill(None);
            }
            start += part.len() + 1;
        }
        rest.into_iter().flatten().collect()
    }

    #[test]
    fn all_other_bytes_keep_their_regions() {
        let pairs = random_functions().filter_map(|text| respelled(&text).map(|new| (text, new)));
        let changed: Vec<_> = pairs.filter(|(text, new)| text != new).collect();
        assert!(changed.len() > 1_000, "{}", changed.len());
        for (text, new) in changed {
            assert_eq!(rest(&text), rest(&new), "{text:?}");
        }
    }

    /// Each reason alone changes what is read; without one nothing is changed.
    #[test]
    fn only_texts_with_a_reason_are_read_in_another_way() {
        let mut unlike = Vec::new();
        for text in random_functions() {
            let published = format!("{:?}", Reading::published(&text).unwrap());
            let respelled = format!("{:?}", Reading::respelled(&text).unwrap().unwrap());
            let reasons = Reasons::of(&text);
            if reasons.is_none() {
                assert_eq!(published, respelled, "{text:?}");
            } else if published != respelled {
                unlike.push(reasons);
            }
        }
        let alone = Reasons::default();
        assert!(unlike.contains(&Reasons { quoted_assign: true, ..alone }));
        assert!(unlike.contains(&Reasons { equals_first: true, ..alone }));
        assert!(unlike.contains(&Reasons { keyword_first: true, ..alone }));
        assert!(unlike.contains(&Reasons { no_type_left: true, ..alone }));
    }
}
