//! The C face answers what the Rust functions answer, and takes null for an empty buffer.

use std::ptr::{null, null_mut};

use reference::c_face::*;
use reference::uplink::frame_of;
use reference::{payload::Fields, write_capture};

/// A frame of 20 bytes, mode 3, heard clean with weight 2: marks and values.
fn heard() -> ([u8; 24], Vec<u8>) {
    let frame = frame_of(&Fields::of(b"twenty bytes of text", 3).bits());
    let say = |&symbol: &u8| if symbol == 1 { 2 } else { 0xFE };
    let bursts = frame.chunks(36).map(|burst| [&burst[..12], &burst[24..]].concat());
    ([1; 24], bursts.flatten().map(|symbol| say(&symbol)).collect())
}

#[test]
fn recovery_writes_the_message_and_keeps_the_rest() {
    let (marks, mut values) = heard();
    values[5] = values[5].wrapping_neg();
    let mut message = [7; 22];
    let (from, size) = (values.as_ptr(), values.len());
    let to = message.as_mut_ptr();
    let answer = unsafe { reference_recover(20, marks.as_ptr(), 24, from, size, to, 22) };
    assert_eq!(answer, ReferenceRecovered { refusal: 0, length: 20, mode: 3, cost: 2 });
    assert_eq!(&message, b"twenty bytes of text\x07\x07");
}

#[test]
fn refusals_write_nothing_and_null_is_empty() {
    let (marks, values) = heard();
    let (from, size) = (values.as_ptr(), values.len());
    let refused = |refusal| ReferenceRecovered { refusal, ..Default::default() };
    let answer = unsafe { reference_recover(20, marks.as_ptr(), 24, from, size, null_mut(), 0) };
    assert_eq!(answer, refused(3));
    let answer = unsafe { reference_recover(20, null(), 0, null(), 0, null_mut(), 0) };
    assert_eq!(answer, refused(2));
    let answer = unsafe { reference_capture_read(null(), 0, null_mut(), 0, null_mut(), 0) };
    assert_eq!(answer, ReferenceRead { refusal: 10, length: 0 });
}

#[test]
fn reading_gives_marks_and_values() {
    let (marks, values) = heard();
    let capture = write_capture(20, &marks, &values, 679).unwrap();
    let (mut to_marks, mut to_values) = ([9; 25], [9; 577]);
    let (m, v) = (to_marks.as_mut_ptr(), to_values.as_mut_ptr());
    let answer = unsafe { reference_capture_read(capture.as_ptr(), 679, m, 25, v, 577) };
    assert_eq!(answer, ReferenceRead { refusal: 0, length: 20 });
    assert_eq!((&to_marks[..24], to_marks[24]), (&marks[..], 9));
    assert_eq!((&to_values[..576], to_values[576]), (&values[..], 9));
}
