//! The calls on frames and captures as C makes them: null for each empty buffer, and all fields of
//! the answer.
//!
//! All of them are sound: each pointer goes with the size of its own buffer, and a buffer that is
//! written is borrowed alone.

use gloamstrother::raw;

use crate::lent::Lent;

pub fn build(length: u64, mode: u64, message: &Lent, frame: &mut Lent) -> [u32; 2] {
    let (to, size) = (frame.pointer_mut(), frame.size());
    let (from, from_size) = (message.pointer(), message.size());
    // SAFETY: as said above.
    let answer = unsafe { raw::gloam_uplink_build(length, mode, from, from_size, to, size) };
    [answer.refusal, answer.size]
}

pub fn recover(length: u64, marks: &Lent, values: &Lent, message: &mut Lent) -> [u32; 4] {
    // SAFETY: as said above.
    let answer = unsafe {
        raw::gloam_uplink_recover(
            length,
            marks.pointer(),
            marks.size(),
            values.pointer(),
            values.size(),
            message.pointer_mut(),
            message.size(),
        )
    };
    [answer.refusal, answer.length, answer.mode, answer.cost]
}

pub fn write_capture(length: u64, marks: &Lent, values: &Lent, capture: &mut Lent) -> [u32; 2] {
    // SAFETY: as said above.
    let answer = unsafe {
        raw::gloam_capture_write(
            length,
            marks.pointer(),
            marks.size(),
            values.pointer(),
            values.size(),
            capture.pointer_mut(),
            capture.size(),
        )
    };
    [answer.refusal, answer.size]
}

pub fn read_capture(capture: &Lent, marks: &mut Lent, values: &mut Lent) -> [u32; 2] {
    // SAFETY: as said above.
    let answer = unsafe {
        raw::gloam_capture_read(
            capture.pointer(),
            capture.size(),
            marks.pointer_mut(),
            marks.size(),
            values.pointer_mut(),
            values.size(),
        )
    };
    [answer.refusal, answer.length]
}
