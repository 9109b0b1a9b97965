//! A string whose bits are decided before its end is heard, for the wrong rule that does not wait.

use crate::decoder::{walked, Found, Tie};

/// The string of `n` bits of which each bit is taken, `window` steps later, from the path that leads
/// then; the last ones from the nearest string, whose cost is answered. `values` as for
/// [`crate::decoder::nearest`].
pub fn nearest(words: &[u8; 3], n: usize, values: &[i32], window: usize) -> Found {
    let mut decided = Vec::new();
    let mut found = walked(words, n, values, &Tie::Zero, |t, paths| {
        if t >= window {
            decided.push(paths.leading_bit(t - window));
        }
    });
    decided.truncate(n);
    found.bits[..decided.len()].copy_from_slice(&decided);
    found
}

#[cfg(test)]
mod tests {
    use super::nearest;
    use crate::coder::{coded, UPLINK_WORDS};
    use crate::payload::bits_of;

    #[test]
    fn what_is_heard_clean_is_decided_rightly() {
        let string = bits_of(60, 0x09E3_779B_97F4_A7C1);
        let said = |&bit: &bool| if bit { 5 } else { -5 };
        let values: Vec<i32> = coded(&UPLINK_WORDS, &string).iter().map(said).collect();
        let found = nearest(&UPLINK_WORDS, 60, &values, 12);
        assert_eq!((found.bits, found.cost), (string, 0));
    }
}
