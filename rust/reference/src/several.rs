//! Several nearest strings, for the wrong rule that tries one after the other.

use crate::coder::TAIL;
use crate::decoder::{groups, mask, states, unpacked, weights_against, Found, STATES};

/// A path: its cost and its packed string. Paths compare by cost, then by string.
type Path = (u32, Vec<u64>);

/// The nearest strings of `n` bits, at most `keep` of them, the nearest first; among equals the one
/// with 0 at the first differing bit comes first. `values` as for [`crate::decoder::nearest`].
pub fn nearest(words: &[u8; 3], n: usize, values: &[i32], keep: usize) -> Vec<Found> {
    assert_eq!(values.len(), 3 * (n + TAIL));
    let groups = groups(words);
    let mut paths: Vec<Vec<Path>> = vec![vec![]; STATES];
    paths[0].push((0, vec![0; (n + TAIL).div_ceil(64)]));
    for (t, said) in values.chunks(3).enumerate() {
        let against = weights_against(said);
        let mut next = vec![vec![]; STATES];
        for state in states(t, n) {
            let step = |before: usize| against[groups[2 * before + state % 2]];
            next[state] = joined(&paths, t, state, keep, step);
        }
        paths = next;
    }
    paths[0].iter().map(|(cost, string)| Found { bits: unpacked(string, n), cost: *cost }).collect()
}

/// The first `keep` paths of all that arrive in `state` at step t.
fn joined(
    paths: &[Vec<Path>],
    t: usize,
    state: usize,
    keep: usize,
    step: impl Fn(usize) -> u32,
) -> Vec<Path> {
    let mut arriving = Vec::with_capacity(2 * keep);
    for before in [state / 2, state / 2 + 32] {
        arriving.extend(paths[before].iter().map(|(cost, string)| (cost + step(before), string)));
    }
    arriving.sort();
    let longer = |(cost, string): (u32, &Vec<u64>)| {
        let mut string = string.clone();
        if state % 2 == 1 {
            string[t / 64] |= mask(t);
        }
        (cost, string)
    };
    arriving.into_iter().take(keep).map(longer).collect()
}
