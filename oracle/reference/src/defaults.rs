//! Where a default begins by Note 2, and where the published source may begin it elsewhere.
//!
//! The published source begins a default behind the first `:=` of a part, quoted or not, and only
//! without one behind the first live DEFAULT. By Note 2 the leftmost live default key
//! decides: `:=`, DEFAULT or a lone `=`.

use crate::scanner::{Region, Scanner};

const ASSIGN: &str = ":=";
const KEYWORD: &str = "DEFAULT";

/// The places in a part that matter for its default.
pub(crate) struct DefaultKeys {
    live_assigns: Vec<usize>,
    quoted_assigns: Vec<usize>,
    /// The first live lone `=`.
    equals: Option<usize>,
    /// The first live DEFAULT.
    keyword: Option<usize>,
}

impl DefaultKeys {
    pub(crate) fn of(part: &str) -> Self {
        let scanner = Scanner::new(part);
        let regions = scanner.regions();
        let is_live = |place: &usize| regions[*place] == Region::Code;
        let assigns = part.match_indices(ASSIGN).map(|(place, _)| place);
        let (live_assigns, quoted_assigns) = assigns.partition(is_live);
        let is_equals = |place: &usize| is_live(place) && is_lone_equals(part.as_bytes(), *place);
        let equals = (0..part.len()).find(is_equals);
        Self { live_assigns, quoted_assigns, equals, keyword: scanner.find_keyword(KEYWORD, 0) }
    }

    /// Place and length of the leftmost default key, which the default stands behind.
    pub(crate) fn leftmost(&self) -> Option<(usize, usize)> {
        let assign = self.live_assigns.first().map(|place| (*place, ASSIGN.len()));
        let equals = self.equals.map(|place| (place, 1));
        let keyword = self.keyword.map(|place| (place, KEYWORD.len()));
        [assign, equals, keyword].into_iter().flatten().min()
    }

    /// What stands ahead of the default, or all of the part without one.
    pub(crate) fn ahead<'a>(&self, part: &'a str) -> &'a str {
        let end = self.leftmost().map_or(part.len(), |(place, _)| place);
        &part[..end]
    }

    pub(crate) fn has_quoted_assign(&self) -> bool {
        !self.quoted_assigns.is_empty()
    }

    /// A live lone `=` ahead of every live `:=` and every live DEFAULT, if there are any.
    pub(crate) fn is_equals_first(&self) -> bool {
        let mut others = self.live_assigns.iter().chain(&self.keyword);
        self.equals.is_some_and(|place| others.all(|other| place < *other))
    }

    /// A live DEFAULT ahead of a live `:=`.
    pub(crate) fn is_keyword_first(&self) -> bool {
        let last_assign = self.live_assigns.last();
        self.keyword.is_some_and(|place| last_assign > Some(&place))
    }
}

/// An `=` with no `=` on either side and no `>` behind it.
fn is_lone_equals(bytes: &[u8], place: usize) -> bool {
    let is_doubled = place > 0 && bytes[place - 1] == b'=';
    let behind = bytes.get(place + 1);
    bytes[place] == b'=' && !is_doubled && !matches!(behind, Some(b'=' | b'>'))
}

#[cfg(test)]
mod tests {
    use super::*;

    /// Parts, and what their defaults stand behind.
    fn beginnings(parts: &[(&str, Option<(usize, usize)>)]) {
        for (part, expected) in parts {
            assert_eq!(DefaultKeys::of(part).leftmost(), *expected, "{part:?}");
        }
    }

    #[test]
    fn a_default_begins_at_the_leftmost_key() {
        beginnings(&[
            ("a b := 1", Some((4, 2))),
            ("a b = 1", Some((4, 1))),
            ("a b DEFAULT 1", Some((4, 7))),
            ("a b default", Some((4, 7))),
            ("a b DEFAULT 1 := 2", Some((4, 7))),
            ("a b := DEFAULT 1", Some((4, 2))),
            ("a b = 1 DEFAULT 2 := 3", Some((4, 1))),
            ("a b DEFAULT 1 = 2", Some((4, 7))),
            ("tag text DEFAULT ':='", Some((9, 7))),
            ("int /* := */ := 2", Some((13, 2))),
            ("a b ':=' '=' 'DEFAULT' = 1", Some((23, 1))),
            ("a b", None),
            ("", None),
        ]);
    }

    #[test]
    fn a_lone_equals_has_no_equals_beside_it_and_no_greater_behind() {
        beginnings(&[
            ("a b>=1", Some((4, 1))),
            ("a b<=1", Some((4, 1))),
            ("a b!=1", Some((4, 1))),
            ("a b:==1", Some((3, 2))),
            ("a b=:=1", Some((3, 1))),
            ("a b= =1", Some((3, 1))),
            ("a b==1=2", Some((6, 1))),
            ("a b=>1=2", Some((6, 1))),
            ("=a b", Some((0, 1))),
            ("a b=", Some((3, 1))),
            ("a b=>1", None),
            ("a b==1", None),
            ("a b===1", None),
            ("a b==>1", None),
            ("a b'='", None),
            ("a b DEFAULTS $DEFAULT DEFAULT_", None),
        ]);
    }

    #[test]
    fn what_stands_ahead_ends_at_the_key() {
        let parts = [("a b := 1", "a b "), (" a b DEFAULT := 1", " a b "), ("a b==1", "a b==1")];
        for (part, ahead) in parts {
            assert_eq!(DefaultKeys::of(part).ahead(part), ahead);
        }
    }
}
