//! The convolutional code, TS 103 357 clause 6.4.6.3, for any three generator words.

/// The words of TS 103 357 as printed, octal.
pub const UPLINK_WORDS: [u8; 3] = [0o155, 0o123, 0o137];

/// The zero bits that follow a string into the coder.
pub const TAIL: usize = 6;

/// The coded bits of one step. Bit 0 of `window` is the newest input bit, bit 6 the one six steps
/// older. A word has seven bits; the first printed, the most significant, is for the newest.
pub fn step(words: &[u8; 3], window: usize) -> [bool; 3] {
    words.map(|word| {
        let mut coded = false;
        for age in 0..7 {
            let selected = word >> (6 - age) & 1 == 1;
            let input = window >> age & 1 == 1;
            coded ^= selected && input;
        }
        coded
    })
}

/// The coded bits of a string and its tail: three for each step.
pub fn coded(words: &[u8; 3], string: &[bool]) -> Vec<bool> {
    let mut bits = Vec::with_capacity(3 * (string.len() + TAIL));
    let mut window = 0;
    for &bit in string.iter().chain(&[false; TAIL]) {
        window = (window * 2 + usize::from(bit)) % 128;
        bits.extend(step(words, window));
    }
    bits
}

/// The weight of the values that stand against the coded bits: one value for each.
pub fn cost(coded: &[bool], values: &[i32]) -> u32 {
    assert_eq!(coded.len(), values.len());
    let against = |&(&bit, &value): &(&bool, &i32)| value != 0 && bit != (value > 0);
    let pairs = coded.iter().zip(values);
    pairs.filter(against).map(|(_, value)| value.unsigned_abs()).sum()
}

#[cfg(test)]
mod tests {
    use super::{coded, cost, UPLINK_WORDS};
    use crate::payload::bits_of;

    #[test]
    fn case_b_the_string_1() {
        let words = [0o133, 0o171, 0o165];
        let expected = "111 011 111 110 001 100 111".replace(' ', "");
        let bits: String =
            coded(&words, &[true]).iter().map(|&bit| if bit { '1' } else { '0' }).collect();
        assert_eq!(bits, expected);
    }

    #[test]
    fn a_single_1_shows_the_words_as_printed() {
        let bits = coded(&UPLINK_WORDS, &[true]);
        for (place, word) in UPLINK_WORDS.iter().enumerate() {
            let shown: Vec<bool> = bits.iter().skip(place).step_by(3).copied().collect();
            assert_eq!(shown, bits_of(7, usize::from(*word)));
        }
    }

    #[test]
    fn cost_is_the_weight_of_disagreeing_values() {
        let bits = [true, false, true, false, true];
        assert_eq!(cost(&bits, &[5, 7, -128, -9, 0]), 135);
    }
}
