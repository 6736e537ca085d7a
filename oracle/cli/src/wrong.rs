//! Changes that make a right answer wrong.

/// The numbers beside a number.
pub fn beside(number: usize) -> Vec<usize> {
    number.checked_sub(1).into_iter().chain([number + 1]).collect()
}

/// A list with another first element, with another last one, without the last one, and with one
/// more.
pub fn changed<T: Clone + PartialEq>(list: &[T], other: impl Fn(&T) -> T, more: T) -> Vec<Vec<T>> {
    let longer = [list, &[more]].concat();
    let Some((last, front)) = list.split_last() else {
        return vec![longer];
    };
    let other_first = [&[other(&list[0])], &list[1..]].concat();
    let other_last = [front, &[other(last)]].concat();
    let mut lists = vec![other_first, other_last, front.to_vec(), longer];
    // A list of one element has the same first and last one.
    lists.dedup();
    lists
}

/// The same for bytes. None is a zero, which would be right behind the end of a result.
pub fn changed_bytes(bytes: &[u8]) -> Vec<Vec<u8>> {
    let other = |byte: &u8| if *byte == b'a' { b'b' } else { b'a' };
    changed(bytes, other, b'a')
}

#[cfg(test)]
mod tests {
    use super::*;

    #[test]
    fn each_change_makes_one_difference() {
        assert_eq!(beside(0), [1]);
        assert_eq!(beside(3), [2, 4]);
        assert_eq!(changed_bytes(b""), [b"a"]);
        assert_eq!(changed_bytes(b"a"), [&b"b"[..], b"", b"aa"]);
        assert_eq!(changed_bytes(b"abc"), [&b"bbc"[..], b"aba", b"ab", b"abca"]);
    }
}
