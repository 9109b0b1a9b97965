//! The nearest string, forward in time: each of the 64 states keeps the whole string that leads to
//! it, and where two paths meet the nearer one stays; among equals the strings are compared.

use std::cmp::Ordering;

use crate::coder::{self, TAIL};

/// The states: the last six bits that entered the coder, the newest in bit 0.
pub(crate) const STATES: usize = 64;

/// The cost of a state that no path has reached: more than any path costs.
const UNREACHED: u32 = u32::MAX / 2;

/// Which of two equally near strings comes first where their paths meet.
#[derive(Clone, Debug)]
pub enum Tie {
    /// The one with 0 at the first differing bit.
    Zero,
    /// The one with 1 at the first differing bit.
    One,
    /// The one whose bit leaves the window of seven as 0.
    OldestBit,
    /// The one whose leaving bit equals the newest bit.
    NewestBit,
    /// The one with 0 at the first differing bit, once these bits are laid over both.
    Under(Vec<bool>),
}

/// A string and the weight that stands against its coded bits.
#[derive(Clone, Debug, PartialEq, Eq)]
pub struct Found {
    pub bits: Vec<bool>,
    pub cost: u32,
}

/// The nearest string of `n` bits. `values` has one for each coded bit: negative says 0, positive
/// says 1, zero nothing, the magnitude is the weight.
pub fn nearest(words: &[u8; 3], n: usize, values: &[i32], tie: &Tie) -> Found {
    walked(words, n, values, tie, |_, _| {})
}

/// The same; `watch` is shown the paths after each step.
pub(crate) fn walked(
    words: &[u8; 3],
    n: usize,
    values: &[i32],
    tie: &Tie,
    mut watch: impl FnMut(usize, &Paths),
) -> Found {
    assert_eq!(values.len(), 3 * (n + TAIL));
    let meeting = Meeting { groups: groups(words), tie, laid_over: laid_over(tie) };
    let mut paths = Paths::new(n + TAIL);
    let mut next = Paths::new(n + TAIL);
    paths.costs[0] = 0;
    for (t, said) in values.chunks(3).enumerate() {
        let against = weights_against(said);
        next.costs.fill(UNREACHED);
        for state in states(t, n) {
            meeting.join(&paths, &mut next, t, state, &against);
        }
        std::mem::swap(&mut paths, &mut next);
        watch(t, &paths);
    }
    Found { bits: unpacked(paths.string(0, paths.words), n), cost: paths.costs[0] }
}

/// The states that step t can lead to: after the n bits only zeros enter, so that the newest is 0.
pub(crate) fn states(t: usize, n: usize) -> impl Iterator<Item = usize> {
    (0..STATES).step_by(if t < n { 1 } else { 2 })
}

/// For each window of seven bits, the newest in bit 0, its three coded bits, the first highest.
pub(crate) fn groups(words: &[u8; 3]) -> [usize; 128] {
    std::array::from_fn(|window| {
        let coded = coder::step(words, window);
        coded.iter().fold(0, |group, &bit| group * 2 + usize::from(bit))
    })
}

/// For each group of three coded bits, the first highest, the weight that is heard against it.
pub(crate) fn weights_against(said: &[i32]) -> [u32; 8] {
    std::array::from_fn(|group| {
        let coded = [group & 4 != 0, group & 2 != 0, group & 1 != 0];
        coder::cost(&coded, said)
    })
}

/// Bit t of a packed string, within its word. A string's first bit is the highest of its first
/// word, so that words compare as strings do.
pub(crate) fn mask(t: usize) -> u64 {
    1 << (63 - t % 64)
}

/// The first n bits of a packed string.
pub(crate) fn unpacked(string: &[u64], n: usize) -> Vec<bool> {
    (0..n).map(|t| string[t / 64] & mask(t) != 0).collect()
}

/// The bits of [`Tie::Under`], packed.
fn laid_over(tie: &Tie) -> Vec<u64> {
    let Tie::Under(bits) = tie else { return vec![] };
    let mut string = vec![0; bits.len().div_ceil(64) + 1];
    for t in (0..bits.len()).filter(|&t| bits[t]) {
        string[t / 64] |= mask(t);
    }
    string
}

/// The cost and the packed string of each state.
pub(crate) struct Paths {
    words: usize,
    costs: [u32; STATES],
    strings: Vec<u64>,
}

impl Paths {
    fn new(steps: usize) -> Paths {
        let words = steps.div_ceil(64);
        Paths { words, costs: [UNREACHED; STATES], strings: vec![0; STATES * words] }
    }

    /// The first `used` words of a state's string.
    fn string(&self, state: usize, used: usize) -> &[u64] {
        &self.strings[state * self.words..][..used]
    }

    /// Bit t of the string that costs least so far.
    pub(crate) fn leading_bit(&self, t: usize) -> bool {
        let leading = (0..STATES).min_by_key(|&state| self.costs[state]).unwrap_or(0);
        self.string(leading, self.words)[t / 64] & mask(t) != 0
    }

    /// Gives `state` the string of `before` in `from`, with `newest` as its bit t. Bits from t
    /// on are still 0 in both.
    fn take(&mut self, state: usize, from: &Paths, before: usize, t: usize, newest: bool) {
        let used = t / 64 + 1;
        let string = &mut self.strings[state * self.words..][..used];
        string.copy_from_slice(from.string(before, used));
        if newest {
            string[used - 1] |= mask(t);
        }
    }
}

/// What is the same at every step: the coded bits of each window, and the rule for equals.
struct Meeting<'a> {
    groups: [usize; 128],
    tie: &'a Tie,
    laid_over: Vec<u64>,
}

impl Meeting<'_> {
    /// Fills `state` after step t from the two states before it: the nearer path stays.
    fn join(&self, from: &Paths, to: &mut Paths, t: usize, state: usize, against: &[u32; 8]) {
        let newest = state % 2;
        let [zero, one] = [state / 2, state / 2 + 32];
        let cost = |before| from.costs[before] + against[self.groups[2 * before + newest]];
        let [cost_zero, cost_one] = [cost(zero), cost(one)];
        let zero_stays = match cost_zero.cmp(&cost_one) {
            Ordering::Less => true,
            Ordering::Greater => false,
            Ordering::Equal => {
                let used = t.div_ceil(64);
                self.zero_first(newest, from.string(zero, used), from.string(one, used))
            }
        };
        to.costs[state] = cost_zero.min(cost_one);
        to.take(state, from, if zero_stays { zero } else { one }, t, newest == 1);
    }

    /// Whether, of two strings of equal cost, `zero`, whose leaving bit is 0, comes before `one`.
    fn zero_first(&self, newest: usize, zero: &[u64], one: &[u64]) -> bool {
        match self.tie {
            Tie::Zero => zero < one,
            Tie::One => zero > one,
            Tie::OldestBit => true,
            Tie::NewestBit => newest == 0,
            Tie::Under(_) => self.under(zero).lt(self.under(one)),
        }
    }

    /// The words of a string with those of [`Tie::Under`] laid over them.
    fn under<'b>(&'b self, string: &'b [u64]) -> impl Iterator<Item = u64> + 'b {
        string.iter().zip(&self.laid_over).map(|(word, over)| word ^ over)
    }
}
