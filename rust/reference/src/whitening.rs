//! Whitening, TS 103 357 clause 6.4.4.3: the PN9 sequence of IEEE 802.15.4.

/// The first `count` whitening bits: w(k) = w(k-4) xor w(k-9), the nine bits before w(0) all 1.
pub fn sequence(count: usize) -> Vec<bool> {
    let mut bits = vec![true; 9];
    for k in 9..count + 9 {
        bits.push(bits[k - 4] ^ bits[k - 9]);
    }
    bits.split_off(9)
}

/// The bits with whitening laid over them from the first on. Twice gives the bits back.
pub fn whitened(bits: &[bool]) -> Vec<bool> {
    let white = sequence(bits.len());
    bits.iter().zip(white).map(|(&bit, w)| bit ^ w).collect()
}

#[cfg(test)]
mod tests {
    use super::{sequence, whitened};
    use crate::payload::byte_of;

    #[test]
    fn case_a_first_24_bits() {
        let bytes: Vec<u8> = sequence(24).chunks(8).map(byte_of).collect();
        assert_eq!(bytes, [0x0F, 0x70, 0xB3]);
    }

    #[test]
    fn repeats_after_511_bits_and_not_before() {
        let bits = sequence(3 * 511);
        for period in 1..=511 {
            let repeats = (0..2 * 511).all(|k| bits[k] == bits[k + period]);
            assert_eq!(repeats, period == 511);
        }
    }

    #[test]
    fn twice_gives_the_bits_back() {
        let bits = sequence(700).split_off(100);
        assert_eq!(whitened(&whitened(&bits)), bits);
    }
}
