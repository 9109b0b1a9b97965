//! The published vector of OMS Annex Q, Q.Z.5, step by step. Its MPDU has 16 bytes and is filled to
//! 20, so that no message of ours gives it; its steps are those of ours all the same.

use reference::coder::{coded, UPLINK_WORDS};
use reference::payload::{byte_of, Fields};
use reference::uplink::frame_of;
use reference::whitening::whitened;
use reference::{crc, recover, Rule};

const MPDU: [u8; 16] = [
    0x02, 0x42, 0x22, 0x02, 0xA7, 0x3D, 0x78, 0x56, 0x34, 0x12, 0x15, 0x03, 0x9F, 0x07, 0xFC, 0x0F,
];

const AFTER_WHITENING: &str = "\
    110011101101000010100011011011010000000110111010010010100000100110000001111011110\
    110111000101001110000011100000110100011110010100111101010010100001110000110110101\
    100000101110111110001110";

const CODED: &str = "\
    EFEF6583574A8E1DA8059B0D74A7C77CBD9F5B0A7ED9311AD08D3F62FFC91FEB368F06712E\
    B6606136607CCA68F78746C4B5F8B49DF6CA409B2E72CD695BF4126A5827CF37E9B338";

/// Table Q.Z.19, the column Data.
const BURSTS: [&str; 24] = [
    "011000100110011101000010110010101100",
    "101000111001011101000010010111101001",
    "111100001011011101000010100101011000",
    "001111011000011101000010000111010100",
    "100110010110011101000010100110011110",
    "110111001100011101000010111100111001",
    "000101010111011101000010010001001101",
    "001100010111011101000010110010100101",
    "110111101011011101000010101101100010",
    "011000100010011101000010110000000111",
    "001111001010011101000010100111101110",
    "111111111111011101000010001000011101",
    "010011110111011101000010001101101011",
    "001011101010011101000010111101111101",
    "100001011011011101000010111001111000",
    "101001111111011101000010111101100111",
    "001111001100011101000010000101001100",
    "110000100010011101000010010110001110",
    "110101110111011101000010100000000011",
    "011100011001011101000010100011100001",
    "001011110100011101000010111111010011",
    "001100001100011101000010110111100010",
    "101010111001011101000010010110010110",
    "010001101100011101000010110101000010",
];

/// The payload of the vector: the fields of 16 bytes, with four zero bytes behind them.
fn fields() -> Fields {
    let mut fields = Fields::of(&MPDU, 1);
    fields.message.resize(20, 0);
    fields
}

fn digits(bits: &[bool]) -> String {
    bits.iter().map(|&bit| if bit { '1' } else { '0' }).collect()
}

#[test]
fn checks() {
    assert_eq!((fields().payload_crc, fields().header_crc, fields().psi), (0xA0, 0xC1, 0x10));
    assert_eq!(crc::crc8(&[]), 0xFF);
}

#[test]
fn whitening_and_coding() {
    let white = whitened(&fields().bits());
    assert_eq!(digits(&white), AFTER_WHITENING);
    let bytes: Vec<u8> = coded(&UPLINK_WORDS, &white).chunks(8).map(byte_of).collect();
    let hex: String = bytes.iter().map(|byte| format!("{byte:02X}")).collect();
    assert_eq!(hex, CODED);
}

#[test]
fn bursts() {
    let frame: String = frame_of(&fields().bits()).iter().map(u8::to_string).collect();
    assert_eq!(frame, BURSTS.concat());
}

#[test]
fn heard_clean_it_is_refused_for_its_psi() {
    let data = BURSTS.map(|burst| [&burst[..12], &burst[24..]].concat()).concat();
    let values: Vec<u8> = data.bytes().map(|digit| if digit == b'1' { 1 } else { 0xFF }).collect();
    assert_eq!(recover(Rule::Paper, 20, &[1; 24], &values, 20), Err(8));
}
