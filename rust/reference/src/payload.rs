//! The payload, TS 103 357 clause 6.4.2.3: header CRC, payload CRC, PSI, message and mode.

use crate::crc::crc8;
use crate::{refusal, Rule};

/// The bits of a number in `width` places, most significant first.
pub fn bits_of(width: u32, number: usize) -> Vec<bool> {
    (0..width).rev().map(|place| number >> place & 1 == 1).collect()
}

/// The byte of eight bits, most significant first.
pub fn byte_of(bits: &[bool]) -> u8 {
    bits.iter().fold(0, |byte, &bit| byte << 1 | u8::from(bit))
}

/// The number of payload bits of a message of `length` bytes.
pub fn payload_bits(length: usize) -> usize {
    26 + 8 * length
}

/// The fields of a payload, whether they fit together or not.
#[derive(Clone, Debug, PartialEq, Eq)]
pub struct Fields {
    pub header_crc: u8,
    pub payload_crc: u8,
    pub psi: u8,
    pub message: Vec<u8>,
    pub mode: u8,
}

impl Fields {
    /// The fields of a good payload: `message` has at most 255 bytes, `mode` is at most 3.
    pub fn of(message: &[u8], mode: u8) -> Fields {
        let psi = u8::try_from(message.len()).expect("a message has at most 255 bytes");
        let message = message.to_vec();
        let mut fields = Fields { header_crc: 0, payload_crc: 0, psi, message, mode };
        fields.payload_crc = fields.right_payload_crc();
        fields.header_crc = fields.right_header_crc();
        fields
    }

    /// 6.4.4.4.1: the CRC over message and mode.
    pub fn right_payload_crc(&self) -> u8 {
        crc8(&self.message_and_mode())
    }

    /// 6.4.4.4.2: the CRC over payload CRC and PSI.
    pub fn right_header_crc(&self) -> u8 {
        crc8(&[self.payload_crc, self.psi].map(|byte| bits_of(8, byte.into())).concat())
    }

    /// 6.4.2.3.1: the payload bits in the order in which they are sent.
    pub fn bits(&self) -> Vec<bool> {
        let header = [self.header_crc, self.payload_crc, self.psi];
        let mut bits = header.map(|byte| bits_of(8, byte.into())).concat();
        bits.extend(self.message_and_mode());
        bits
    }

    fn message_and_mode(&self) -> Vec<bool> {
        let mut bits: Vec<bool> =
            self.message.iter().flat_map(|&byte| bits_of(8, byte.into())).collect();
        bits.extend(bits_of(2, self.mode.into()));
        bits
    }

    /// The fields that stand in payload bits: 26 and eight for each byte of the message.
    pub fn read(bits: &[bool]) -> Fields {
        let (body, mode) = bits.split_at(bits.len() - 2);
        let mut bytes = body.chunks(8).map(byte_of);
        let mut byte = || bytes.next().expect("a payload has at least 26 bits");
        let (header_crc, payload_crc, psi) = (byte(), byte(), byte());
        Fields { header_crc, payload_crc, psi, message: bytes.collect(), mode: byte_of(mode) }
    }

    /// The first refusal of the three checks, in the paper's order.
    pub fn judge(&self, rule: Rule) -> Result<(), u32> {
        if self.header_crc != self.right_header_crc() {
            Err(refusal::HEADER_CRC)
        } else if usize::from(self.psi) != self.message.len() && rule != Rule::PsiNotCompared {
            Err(refusal::PSI)
        } else if self.payload_crc != self.right_payload_crc() {
            Err(refusal::PAYLOAD_CRC)
        } else {
            Ok(())
        }
    }
}

#[cfg(test)]
mod tests {
    use super::*;

    #[test]
    fn reading_gives_the_fields_back() {
        for length in 20..=255 {
            let message: Vec<u8> = (0..length).map(|k| (k * 37 + length) as u8).collect();
            let fields = Fields::of(&message, length as u8 % 4);
            assert_eq!(fields.bits().len(), payload_bits(length));
            assert_eq!(Fields::read(&fields.bits()), fields);
            assert_eq!(fields.judge(Rule::Paper), Ok(()));
        }
    }

    #[test]
    fn checks_are_judged_in_order() {
        let good = Fields::of(&[7; 20], 2);
        let mut fields = good.clone();
        fields.payload_crc ^= 1;
        assert_eq!(fields.judge(Rule::Paper), Err(7));
        fields.header_crc = fields.right_header_crc();
        assert_eq!(fields.judge(Rule::Paper), Err(9));
        fields.psi = 21;
        fields.header_crc = fields.right_header_crc();
        assert_eq!(fields.judge(Rule::Paper), Err(8));
        assert_eq!(fields.judge(Rule::PsiNotCompared), Err(9));
    }
}
