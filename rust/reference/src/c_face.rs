//! Recovery and capture reading by the paper's rule for C, with the parameters and answers of
//! include/gloamstrother.h under names of their own.
//!
//! What a caller owes is what the header says: each buffer is as long as its size, and one that is
//! written overlaps no other. `(NULL, 0)` is an empty buffer. Nothing unwinds into C: a fault of
//! this library is answered as the refusal [`FAULT`], which no operation has.

use std::panic::{catch_unwind, AssertUnwindSafe};
use std::slice;

use crate::{read_capture, recover, Rule};

/// The refusal that stands for a fault of the reference itself.
pub const FAULT: u32 = u32::MAX;

/// `gloam_recovered` of the header.
#[repr(C)]
#[derive(Clone, Copy, Debug, Default, PartialEq, Eq)]
pub struct ReferenceRecovered {
    pub refusal: u32,
    pub length: u32,
    pub mode: u32,
    pub cost: u32,
}

/// `gloam_read` of the header.
#[repr(C)]
#[derive(Clone, Copy, Debug, Default, PartialEq, Eq)]
pub struct ReferenceRead {
    pub refusal: u32,
    pub length: u32,
}

/// What `gloam_uplink_recover` should answer and write.
///
/// # Safety
/// Each buffer is as long as its size says, and `message` overlaps no other.
#[no_mangle]
pub unsafe extern "C" fn reference_recover(
    length: u64,
    marks: *const u8,
    marks_size: usize,
    values: *const u8,
    values_size: usize,
    message: *mut u8,
    message_size: usize,
) -> ReferenceRecovered {
    let marks = unsafe { lent(marks, marks_size) };
    let values = unsafe { lent(values, values_size) };
    let message = unsafe { lent_to_write(message, message_size) };
    let answer = guarded(|| {
        let done = recover(Rule::Paper, length, marks, values, message.len())?;
        message[..done.message.len()].copy_from_slice(&done.message);
        let (length, mode, cost) = (done.length, done.mode, done.cost);
        Ok(ReferenceRecovered { refusal: 0, length, mode, cost })
    });
    answer.unwrap_or_else(|refusal| ReferenceRecovered { refusal, ..Default::default() })
}

/// What `gloam_capture_read` should answer and write.
///
/// # Safety
/// Each buffer is as long as its size says, and neither `marks` nor `values` overlaps another.
#[no_mangle]
pub unsafe extern "C" fn reference_capture_read(
    capture: *const u8,
    capture_size: usize,
    marks: *mut u8,
    marks_size: usize,
    values: *mut u8,
    values_size: usize,
) -> ReferenceRead {
    let capture = unsafe { lent(capture, capture_size) };
    let marks = unsafe { lent_to_write(marks, marks_size) };
    let values = unsafe { lent_to_write(values, values_size) };
    let answer = guarded(|| {
        let read = read_capture(capture, marks.len(), values.len())?;
        marks[..read.marks.len()].copy_from_slice(&read.marks);
        values[..read.values.len()].copy_from_slice(&read.values);
        Ok(ReferenceRead { refusal: 0, length: read.length })
    });
    answer.unwrap_or_else(|refusal| ReferenceRead { refusal, length: 0 })
}

/// The answer of a call, or [`FAULT`] where it panicked.
fn guarded<T>(call: impl FnOnce() -> Result<T, u32>) -> Result<T, u32> {
    catch_unwind(AssertUnwindSafe(call)).unwrap_or(Err(FAULT))
}

/// The bytes that C lends to be read.
unsafe fn lent<'a>(bytes: *const u8, size: usize) -> &'a [u8] {
    match size {
        0 => &[],
        _ => unsafe { slice::from_raw_parts(bytes, size) },
    }
}

/// The bytes that C lends to be written.
unsafe fn lent_to_write<'a>(bytes: *mut u8, size: usize) -> &'a mut [u8] {
    match size {
        0 => &mut [],
        _ => unsafe { slice::from_raw_parts_mut(bytes, size) },
    }
}
