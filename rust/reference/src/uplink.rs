//! A message to its frame, and values heard back to the message of the nearest string.

use crate::coder::{self, UPLINK_WORDS};
use crate::decoder::{nearest, Found, Tie};
use crate::payload::{payload_bits, Fields};
use crate::refusal::{self, enough, heard_sizes, length_in_range, marks_are_bits};
use crate::whitening::{self, whitened};
use crate::{places, several, windowed, Rule};

/// 6.4.2.1.1: the pilot of a core burst.
const CORE_PILOT: &[u8; 12] = b"011101000010";
/// The pilot of an extension burst. The standard prints eleven of these twelve; docs/DECISIONS.md
/// says why the run of ones has five.
const EXTENSION_PILOT: &[u8; 12] = b"010011111010";

/// What recovery answers where it refuses nothing.
#[derive(Clone, Debug, PartialEq, Eq)]
pub struct Recovered {
    pub length: u32,
    pub mode: u32,
    pub cost: u32,
    pub message: Vec<u8>,
}

/// The frame of a message, 36 bytes a sub-packet, each 0 or 1; or the first refusal of 1, 2, 3, 4.
/// `room` is the size of the buffer for it.
pub fn build(length: u64, mode: u64, message: &[u8], room: usize) -> Result<Vec<u8>, u32> {
    let length = length_in_range(length)?;
    if message.len() != length {
        return Err(refusal::SIZE);
    }
    enough(room, 36 * (length + 4))?;
    match mode {
        0..=3 => Ok(frame_of(&Fields::of(message, mode as u8).bits())),
        _ => Err(refusal::MODE),
    }
}

/// The frame of payload bits, good or bad.
pub fn frame_of(payload: &[bool]) -> Vec<u8> {
    let length = (payload.len() - 26) / 8;
    let mut frame = Vec::with_capacity(36 * (length + 4));
    for sub_packet in 0..length + 4 {
        let pilot = if sub_packet < 24 { CORE_PILOT } else { EXTENSION_PILOT };
        frame.extend([0; 12]);
        frame.extend(pilot.map(|digit| digit - b'0'));
        frame.extend([0; 12]);
    }
    let coded = coder::coded(&UPLINK_WORDS, &whitened(payload));
    for (place, bit) in places::of_coded(Rule::Paper, length).iter().zip(coded) {
        frame[place.in_frame()] = u8::from(bit);
    }
    frame
}

/// What was heard, in the coder's order: zero where a sub-packet does not count.
pub fn heard(rule: Rule, length: usize, marks: &[u8], values: &[u8]) -> Vec<i32> {
    let said = |place: places::Place| match rule.counts(marks[place.sub_packet]) {
        true => rule.said(values[place.in_values()]),
        false => 0,
    };
    places::of_coded(rule, length).into_iter().map(said).collect()
}

/// The nearest string as it entered the coder, and its cost.
pub fn search(rule: Rule, length: usize, heard: &[i32]) -> Found {
    let n = payload_bits(length);
    if rule == Rule::DecidedAfter96Steps {
        return windowed::nearest(&UPLINK_WORDS, n, heard, 96);
    }
    let tie = match rule {
        Rule::TieToOne => Tie::One,
        Rule::TieByOldestBit => Tie::OldestBit,
        Rule::TieByNewestBit => Tie::NewestBit,
        Rule::TieAfterWhitening => Tie::Under(whitening::sequence(n)),
        _ => Tie::Zero,
    };
    nearest(&UPLINK_WORDS, n, heard, &tie)
}

/// The message behind the nearest string; or the first refusal of 1, 2, 3, 5, 6, 7, 8, 9. `values`
/// are bytes in two's complement, `room` is the size of the buffer for the message.
pub fn recover(
    rule: Rule,
    length: u64,
    marks: &[u8],
    values: &[u8],
    room: usize,
) -> Result<Recovered, u32> {
    let length = length_in_range(length)?;
    heard_sizes(length, marks, values)?;
    enough(room, length)?;
    marks_are_bits(marks)?;
    let heard = heard(rule, length, marks, values);
    if heard.iter().all(|&value| value == 0) {
        return Err(refusal::SILENCE);
    }
    let answer = opened(rule, &search(rule, length, &heard));
    match (rule, answer) {
        (Rule::FirstCrcPass, Err(number)) => first_that_passes(rule, length, &heard).ok_or(number),
        (_, answer) => answer,
    }
}

/// The message behind the first of the eight nearest strings that passes its checks.
fn first_that_passes(rule: Rule, length: usize, heard: &[i32]) -> Option<Recovered> {
    let tried = several::nearest(&UPLINK_WORDS, payload_bits(length), heard, 8);
    tried.iter().find_map(|found| opened(rule, found).ok())
}

/// The message behind a string, or the refusal of its checks.
fn opened(rule: Rule, found: &Found) -> Result<Recovered, u32> {
    let fields = Fields::read(&whitened(&found.bits));
    fields.judge(rule)?;
    Ok(Recovered {
        length: fields.message.len() as u32,
        mode: fields.mode.into(),
        cost: rule.answered(found.cost),
        message: fields.message,
    })
}
