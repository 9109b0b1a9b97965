//! The 8-bit CRC, TS 103 357 clause 6.4.6.2.

/// The polynomial without its leading term, and the value of the register at the start.
const POLYNOMIAL: u8 = 0x9B;
const START: u8 = 0xFF;

/// The CRC of a run of bits, first bit first.
pub fn crc8(bits: &[bool]) -> u8 {
    let mut register = START;
    for &bit in bits {
        let leaving = register >= 0x80;
        register <<= 1;
        if leaving != bit {
            register ^= POLYNOMIAL;
        }
    }
    register
}

#[cfg(test)]
mod tests {
    use super::crc8;
    use crate::payload::bits_of;

    /// The remainder by long division: the start value is laid over the first eight bits of the
    /// run with eight zeros behind it, and the polynomial is taken off wherever a 1 stands.
    fn by_long_division(bits: &[bool]) -> u8 {
        let mut rest = bits.to_vec();
        rest.extend([false; 8]);
        rest[..8].iter_mut().for_each(|bit| *bit = !*bit);
        for at in 0..bits.len() {
            if rest[at] {
                let divisor = "110011011".bytes().map(|digit| digit == b'1');
                rest[at..at + 9].iter_mut().zip(divisor).for_each(|(bit, one)| *bit ^= one);
            }
        }
        rest[bits.len()..].iter().fold(0, |byte, &bit| byte * 2 + u8::from(bit))
    }

    #[test]
    fn is_the_remainder_of_a_division() {
        for number in 0..4096 {
            let bits = bits_of(12, number * 2_654_435_761 % 4096);
            assert_eq!(crc8(&bits), by_long_division(&bits));
        }
    }
}
