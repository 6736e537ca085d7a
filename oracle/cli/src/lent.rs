//! Lengths of lent buffers, for calls at their limits.

/// Lengths that are enough: the least ones with each buffer longer, none and all.
pub fn enough<const N: usize>(least: [usize; N], longer: [usize; N]) -> Vec<[usize; N]> {
    let one_longer = (0..N).map(|index| with(least, index, longer[index]));
    one_longer.chain([least, longer]).collect()
}

/// Lengths where a buffer is too short.
pub fn short<const N: usize>(least: [usize; N], longer: [usize; N]) -> Vec<[usize; N]> {
    let mut list = vec![least.map(|length| length - 1), [0; N]];
    for index in 0..N {
        for length in [least[index] - 1, 0] {
            list.push(with(least, index, length));
            list.push(with(longer, index, length));
        }
    }
    list
}

fn with<const N: usize>(mut lent: [usize; N], index: usize, length: usize) -> [usize; N] {
    lent[index] = length;
    lent
}
