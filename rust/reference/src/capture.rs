//! The stored capture, document 01: tagged fields of one tag byte, two length bytes, high first,
//! and the value.

use crate::refusal::{self, enough, heard_sizes, length_in_range, marks_are_bits};

/// What stands in a capture. The values are bytes in two's complement.
#[derive(Clone, Debug, PartialEq, Eq)]
pub struct ReadCapture {
    pub length: u32,
    pub marks: Vec<u8>,
    pub values: Vec<u8>,
}

/// The capture of marks and values; or the first refusal of 1, 2, 3, 5. `room` is the size of the
/// buffer for it.
pub fn write_capture(
    length: u64,
    marks: &[u8],
    values: &[u8],
    room: usize,
) -> Result<Vec<u8>, u32> {
    let length = length_in_range(length)?;
    heard_sizes(length, marks, values)?;
    enough(room, 119 + 28 * length)?;
    marks_are_bits(marks)?;
    Ok(capture_of(length as u8, marks, values))
}

fn capture_of(length: u8, marks: &[u8], values: &[u8]) -> Vec<u8> {
    let mut capture = field(1, &[length]);
    capture.extend(field(2, marks));
    for sub_packet in values.chunks(24) {
        capture.extend(field(3, sub_packet));
    }
    capture
}

fn field(tag: u8, value: &[u8]) -> Vec<u8> {
    let size = u16::try_from(value.len()).expect("a field has at most 259 bytes");
    let mut field = vec![tag];
    field.extend(size.to_be_bytes());
    field.extend(value);
    field
}

/// What stands in a capture; or the first refusal of 10 for its first field, 1, 10 for the rest, 5,
/// 3. The rooms are the sizes of the buffers for marks and values.
pub fn read_capture(
    capture: &[u8],
    marks_room: usize,
    values_room: usize,
) -> Result<ReadCapture, u32> {
    let mut rest = capture;
    let first = take_field(&mut rest, 1, 1).ok_or(refusal::CAPTURE)?;
    let length = length_in_range(first[0].into())?;
    let sub_packets = length + 4;
    let (marks, values) = take_rest(rest, sub_packets).ok_or(refusal::CAPTURE)?;
    marks_are_bits(&marks)?;
    enough(marks_room, sub_packets)?;
    enough(values_room, 24 * sub_packets)?;
    Ok(ReadCapture { length: length as u32, marks, values })
}

/// The value of the next field, taken off, if it has this tag and this size.
fn take_field<'a>(rest: &mut &'a [u8], tag: u8, size: usize) -> Option<&'a [u8]> {
    let (head, behind) = rest.split_at_checked(3)?;
    let told = 256 * usize::from(head[1]) + usize::from(head[2]);
    let (value, behind) = behind.split_at_checked(size)?;
    if head[0] != tag || told != size {
        return None;
    }
    *rest = behind;
    Some(value)
}

/// Marks and values, if they and nothing else follow.
fn take_rest(mut rest: &[u8], sub_packets: usize) -> Option<(Vec<u8>, Vec<u8>)> {
    let marks = take_field(&mut rest, 2, sub_packets)?.to_vec();
    let mut values = Vec::new();
    for _ in 0..sub_packets {
        values.extend(take_field(&mut rest, 3, 24)?);
    }
    rest.is_empty().then_some((marks, values))
}

#[cfg(test)]
mod tests {
    use super::*;

    fn sample(length: usize) -> (Vec<u8>, Vec<u8>) {
        let marks = (0..length + 4).map(|s| (s % 3 == 0) as u8).collect();
        let values = (0..24 * (length + 4)).map(|k| (k * 7) as u8).collect();
        (marks, values)
    }

    #[test]
    fn reading_gives_back_what_was_written() {
        for length in [20, 21, 255] {
            let (marks, values) = sample(length);
            let capture = write_capture(length as u64, &marks, &values, 7259).unwrap();
            assert_eq!(capture.len(), 119 + 28 * length);
            let read = read_capture(&capture, 259, 6216).unwrap();
            assert_eq!(read, ReadCapture { length: length as u32, marks, values });
        }
    }

    #[test]
    fn every_other_end_is_malformed() {
        let (marks, values) = sample(20);
        let mut capture = write_capture(20, &marks, &values, 679).unwrap();
        for size in 0..679 {
            assert_eq!(read_capture(&capture[..size], 24, 576), Err(10));
        }
        capture.push(3);
        assert_eq!(read_capture(&capture, 24, 576), Err(10));
    }

    #[test]
    fn refusals_in_their_order() {
        assert_eq!(read_capture(&[1, 0, 1, 19], 0, 0), Err(1));
        assert_eq!(read_capture(&[1, 0, 1, 20], 0, 0), Err(10));
        assert_eq!(read_capture(&[1, 0, 2, 19], 0, 0), Err(10));
        assert_eq!(read_capture(&[], 0, 0), Err(10));
        let (mut marks, values) = sample(20);
        let mut capture = write_capture(20, &marks, &values, 679).unwrap();
        assert_eq!(read_capture(&capture, 23, 576), Err(3));
        assert_eq!(read_capture(&capture, 24, 575), Err(3));
        capture[7] = 2;
        assert_eq!(read_capture(&capture, 23, 576), Err(5));
        marks[3] = 2;
        assert_eq!(write_capture(19, &marks, &values, 0), Err(1));
        assert_eq!(write_capture(21, &marks, &values, 0), Err(2));
        assert_eq!(write_capture(20, &marks, &values, 678), Err(3));
        assert_eq!(write_capture(20, &marks, &values, 679), Err(5));
    }
}
