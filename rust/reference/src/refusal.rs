//! The refusals of document 01, "What comes back", and of request #101.

/// The length is below 20 or above 255.
pub const LENGTH: u32 = 1;
/// Message, marks, values or numbers are not of the exact size.
pub const SIZE: u32 = 2;
/// An output buffer is too short.
pub const ROOM: u32 = 3;
/// The mode is above 3.
pub const MODE: u32 = 4;
/// A mark is neither 0 nor 1.
pub const MARK: u32 = 5;
/// No heard sub-packet has a non-zero value.
pub const SILENCE: u32 = 6;
/// The header CRC is wrong.
pub const HEADER_CRC: u32 = 7;
/// The PSI is not the told length.
pub const PSI: u32 = 8;
/// The payload CRC is wrong.
pub const PAYLOAD_CRC: u32 = 9;
/// The capture is malformed.
pub const CAPTURE: u32 = 10;

/// The length as a size, or the refusal of a length that no frame has.
pub fn length_in_range(length: u64) -> Result<usize, u32> {
    match length {
        20..=255 => Ok(length as usize),
        _ => Err(LENGTH),
    }
}

/// The refusal of sizes that are not just those of `length`'s marks and values.
pub fn heard_sizes(length: usize, marks: &[u8], values: &[u8]) -> Result<(), u32> {
    let sub_packets = length + 4;
    match marks.len() == sub_packets && values.len() == 24 * sub_packets {
        true => Ok(()),
        false => Err(SIZE),
    }
}

/// The refusal of marks of which one is neither 0 nor 1.
pub fn marks_are_bits(marks: &[u8]) -> Result<(), u32> {
    match marks.iter().all(|&mark| mark <= 1) {
        true => Ok(()),
        false => Err(MARK),
    }
}

/// The refusal of room for fewer than `needed` bytes.
pub fn enough(room: usize, needed: usize) -> Result<(), u32> {
    match room >= needed {
        true => Ok(()),
        false => Err(ROOM),
    }
}
