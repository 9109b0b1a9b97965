//! Calls whose sizes, numbers, marks or captures are not what they should be.

use crate::judge::Call;
use crate::radio::{any_length, any_room, anything_heard};
use crate::random::Random;

/// Lengths that no frame has; the last few come out right if a sum or a number is cut short.
const LENGTHS: [u64; 14] = [
    0,
    1,
    19,
    256,
    257,
    256 + 20,
    1 << 31,
    1 << 32,
    (1 << 32) + 20,
    (1 << 32) + 255,
    1 << 63,
    u64::MAX - 235,
    u64::MAX - 3,
    u64::MAX,
];

/// Modes that two bits do not hold.
const MODES: [u64; 9] = [4, 5, 7, 255, 256, 1 << 32, (1 << 32) + 1, 1 << 63, u64::MAX];

/// A good build.
pub fn build(random: &mut Random) -> Call {
    let length = any_length(random);
    let (message, frame) = (random.bytes(length), any_room(random, 36 * (length + 4)));
    Call::Build { length: length as u64, mode: random.below(4) as u64, message, frame }
}

/// The good reading of a capture.
pub fn reading(random: &mut Random) -> Call {
    let heard = anything_heard(random);
    let sub_packets = heard.length + 4;
    let (marks, values) = (any_room(random, sub_packets), any_room(random, 24 * sub_packets));
    let room = 119 + 28 * heard.length;
    let capture = reference::write_capture(heard.length as u64, &heard.marks, &heard.values, room);
    Call::ReadCapture { capture: capture.expect("a good capture"), marks, values }
}

/// One of the calls on frames and captures, good in its form.
fn any_call(random: &mut Random) -> Call {
    match random.below(4) {
        0 => build(random),
        1 => anything_heard(random).recovery(random),
        2 => anything_heard(random).writing(random),
        _ => reading(random),
    }
}

/// One of these calls with one or two of its buffers of another size, or all of them empty.
pub fn sizes(random: &mut Random) -> Call {
    let mut call = any_call(random);
    if random.percent(10) {
        buffers(&mut call).into_iter().for_each(|buffer| buffer.clear());
    }
    for _ in 0..random.pick(&[1, 1, 1, 2]) {
        resize_one(random, &mut call);
    }
    call
}

/// All buffers of a call.
fn buffers(call: &mut Call) -> Vec<&mut Vec<u8>> {
    match call {
        Call::Build { message, frame, .. } => vec![message, frame],
        Call::Recover { marks, values, message, .. } => vec![marks, values, message],
        Call::WriteCapture { marks, values, capture, .. } => vec![marks, values, capture],
        Call::ReadCapture { capture, marks, values } => vec![capture, marks, values],
    }
}

/// Gives one of the buffers of a call another size.
fn resize_one(random: &mut Random, call: &mut Call) {
    let mut buffers = buffers(call);
    let at = random.below(buffers.len());
    resize(random, buffers[at]);
}

/// Another size: a byte or a sub-packet less or more, nothing, twice as much, or a lot.
fn resize(random: &mut Random, buffer: &mut Vec<u8>) {
    let size = buffer.len();
    let anything = random.below(8000);
    let sizes = [
        size.saturating_sub(1),
        size.saturating_sub(1),
        size + 1,
        size.saturating_sub(24),
        size + 24,
        0,
        1,
        2 * size,
        anything,
        70_000,
    ];
    let wanted = random.pick(&sizes);
    buffer.resize_with(wanted, || random.below(2) as u8);
}

/// A call that tells a length that no frame has, or a build with a mode that two bits do not hold;
/// sometimes with a buffer of another size too, which shows the order of refusals.
pub fn numbers(random: &mut Random) -> Call {
    let mut call = any_call(random);
    match &mut call {
        Call::Build { mode, .. } if random.bit() => *mode = random.pick(&MODES),
        Call::Build { length, .. } => *length = random.pick(&LENGTHS),
        Call::Recover { length, marks, values, .. }
        | Call::WriteCapture { length, marks, values, .. } => {
            *length = random.pick(&LENGTHS);
            if random.bit() {
                let sub_packets = cut_short(*length);
                marks.resize(sub_packets, 1);
                values.resize(24 * sub_packets, 7);
            }
        }
        Call::ReadCapture { capture, .. } => capture[3] = random.below(20) as u8,
    }
    if random.percent(20) {
        resize_one(random, &mut call);
    }
    call
}

/// The sub-packets of a length whose high bytes, or whose sum with four, were cut off.
fn cut_short(length: u64) -> usize {
    match length.wrapping_add(4) {
        0 => 0,
        _ => (length % 256) as usize + 4,
    }
}

/// Recovery, capture writing or capture reading with a mark that is neither 0 nor 1; sometimes with
/// a buffer of another size too.
pub fn marks(random: &mut Random) -> Call {
    let heard = anything_heard(random);
    let mut call = match random.below(3) {
        0 => heard.recovery(random),
        1 => heard.writing(random),
        _ => reading(random),
    };
    let marks = match &mut call {
        Call::Recover { marks, .. } | Call::WriteCapture { marks, .. } => &mut marks[..],
        Call::ReadCapture { capture, .. } => {
            let sub_packets = usize::from(capture[3]) + 4;
            &mut capture[7..7 + sub_packets]
        }
        Call::Build { message, .. } => message,
    };
    for _ in 0..random.pick(&[1, 1, 3]) {
        let anywhere = random.below(marks.len());
        let at = random.pick(&[0, marks.len() - 1, anywhere]);
        marks[at] = random.pick(&[2, 3, 127, 128, 254, 255]);
    }
    if random.percent(30) {
        resize_one(random, &mut call);
    }
    call
}

/// The reading of a capture of which a few bytes were changed, taken out or put in; sometimes with
/// too little room as well.
pub fn capture(random: &mut Random) -> Call {
    let mut call = reading(random);
    if let Call::ReadCapture { capture, marks, .. } = &mut call {
        for _ in 0..random.pick(&[1, 1, 2, 5]) {
            damage(random, capture);
        }
        if random.percent(20) {
            marks.truncate(random.below(24));
        }
    }
    call
}

/// Changes, takes out or puts in one byte, half of the time in the head of a field.
fn damage(random: &mut Random, capture: &mut Vec<u8>) {
    let size = capture.len();
    let field = 11 + usize::from(capture[3]) + 27 * random.below(size / 28);
    let heads = [random.below(7), field.min(size - 3) + random.below(3)];
    let at = if random.bit() { random.pick(&heads) } else { random.below(size) };
    match random.below(8) {
        0 => drop(capture.remove(at)),
        1 => capture.insert(at, random.byte()),
        2 => capture[at] = random.byte(),
        3 => capture[at] = capture[at].wrapping_add(1),
        4 => capture[at] = capture[at].wrapping_sub(1),
        5 => capture[at] ^= 1 << random.below(8),
        _ => capture[at] = random.pick(&[0, 1, 2, 3, 4, 24, 26]),
    }
}

/// The reading of a capture that ends too early or goes on.
pub fn ending(random: &mut Random) -> Call {
    let mut call = reading(random);
    if let Call::ReadCapture { capture, .. } = &mut call {
        let size = capture.len();
        match random.below(7) {
            0 => capture.truncate(random.below(size)),
            1 => capture.truncate(random.below(12)),
            2 => capture.truncate(size - 1),
            3 => capture.truncate(size - 27),
            4 => capture.push(random.pick(&[0, 1, 3])),
            5 => capture.extend_from_within(size - 27..),
            _ => capture.resize(7260 + random.pick(&[0, 1, 1000]), 3),
        }
    }
    call
}
