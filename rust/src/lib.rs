//! The uplink of telegram splitting (ETSI TS 103 357, TS-UNB, ULP rate) over the proved archive
//! `libgateway.a`.
//!
//! Five calls: [`build`] makes the bits of the bursts of a message, [`quantise`] makes the soft
//! values of one burst from the numbers that a receiver gives, [`recover`] finds the message behind
//! the nearest string of all from the soft values that were heard, and [`write_capture`] and
//! [`read_capture`] store what was heard and bring it back. Each takes any numbers and any sizes,
//! and answers done, or the first [`Refusal`] that holds in the order stated with it. A refusal
//! writes nothing. Nothing is allocated and nothing is kept, so calls may be made from any number
//! of threads. [`archive_version`] tells whether the archive is the one that this crate is for.
//!
//! ```
//! use gloamstrother::{build, frame_size, marks_size, recover};
//!
//! let message = *b"twenty bytes of text";
//! let mut frame = [0; frame_size(20)];
//! assert_eq!(build(20, 1, &message, &mut frame)?, frame_size(20));
//!
//! // Every burst is heard, each of its 24 bits with weight 9; symbols 12 to 23 are the pilot.
//! let mut marks = [1; marks_size(20)];
//! let mut values = Vec::new();
//! for burst in frame.chunks(36) {
//!     let bits = burst[..12].iter().chain(&burst[24..]);
//!     values.extend(bits.map(|&bit| if bit == 1 { 9 } else { -9 }));
//! }
//! // But for one, which is lost: what stands in it does not count.
//! marks[5] = 0;
//! values[5 * 24..6 * 24].fill(100);
//!
//! let mut heard = [0; 20];
//! let answer = recover(20, &marks, &values, &mut heard)?;
//! assert_eq!(heard, message);
//! assert_eq!((answer.length, answer.mode, answer.cost), (20, 1, 0));
//!
//! // A told length that no frame has is refused, and nothing is written.
//! let refusal = recover(19, &marks, &values, &mut heard).unwrap_err();
//! assert_eq!(refusal.to_string(), "the length is below 20 or above 255");
//! # Ok::<(), gloamstrother::Refusal>(())
//! ```

#![warn(missing_docs)]

mod finding;
pub mod raw;
mod refusal;

pub use finding::Finding;
pub use refusal::Refusal;

/// The version of the calls that this crate was written for: the header's `GLOAM_VERSION`.
pub const VERSION: u32 = 200;

/// The least length of a message, in bytes.
pub const LEAST_LENGTH: u64 = 20;
/// The greatest length of a message, in bytes.
pub const MOST_LENGTH: u64 = 255;
/// The greatest cost that [`recover`] answers.
pub const MOST_COST: u32 = 795_648;
/// The numbers of one burst, and its values.
pub const BURST_VALUES: usize = 24;

/// Room enough for the message of every length.
pub const MOST_MESSAGE_SIZE: usize = MOST_LENGTH as usize;
/// Room enough for the frame of every length.
pub const MOST_FRAME_SIZE: usize = frame_size(MOST_LENGTH);
/// Room enough for the marks of every length.
pub const MOST_MARKS_SIZE: usize = marks_size(MOST_LENGTH);
/// Room enough for the values of every length.
pub const MOST_VALUES_SIZE: usize = values_size(MOST_LENGTH);
/// Room enough for the capture of every length.
pub const MOST_CAPTURE_SIZE: usize = capture_size(MOST_LENGTH);

/// The bytes of a frame of `length`, 20 to 255: 36 for each of its `length + 4` sub-packets.
pub const fn frame_size(length: u64) -> usize {
    marks_size(length).saturating_mul(36)
}

/// The marks of a frame of `length`, 20 to 255: one for each of its `length + 4` sub-packets.
pub const fn marks_size(length: u64) -> usize {
    (length as usize).saturating_add(4)
}

/// The values of a frame of `length`, 20 to 255: 24 for each of its `length + 4` sub-packets.
pub const fn values_size(length: u64) -> usize {
    marks_size(length).saturating_mul(24)
}

/// The bytes of a capture of `length`, 20 to 255: 119 and 28 for each byte of the message.
pub const fn capture_size(length: u64) -> usize {
    (length as usize).saturating_mul(28).saturating_add(119)
}

/// What [`recover`] answers, besides the message that it writes.
#[derive(Clone, Copy, Debug, PartialEq, Eq, Hash)]
pub struct Recovered {
    /// The length of the message, just the told one.
    pub length: u32,
    /// The mode that came with it, 0 to 3.
    pub mode: u32,
    /// The weight of all values that stand against its coded bits, 0 to [`MOST_COST`].
    pub cost: u32,
}

/// The version of the archive that is linked. Where it is not [`VERSION`], the archive is of another
/// release than this crate, and its calls may differ from what is said here.
pub fn archive_version() -> u32 {
    // SAFETY: the call takes nothing.
    unsafe { raw::gloam_version() }
}

/// Writes the frame of a message: sub-packets in order, 36 symbols each, every byte 0 or 1.
/// Symbols 12 to 23 of each are its pilot. Answers how many bytes are written, which is
/// [`frame_size`] of the length; further bytes of `frame` are kept.
///
/// `mode` is carried and not judged.
///
/// # Errors
/// The first that holds of: [`Refusal::Length`]; [`Refusal::Size`], where `message` has not just
/// `length` bytes; [`Refusal::Room`], where `frame` is shorter than its size; [`Refusal::Mode`].
pub fn build(length: u64, mode: u64, message: &[u8], frame: &mut [u8]) -> Result<usize, Refusal> {
    // SAFETY: both buffers are as long as their sizes say, and `frame` is borrowed alone.
    let answer = unsafe {
        let (from, to) = (message.as_ptr(), frame.as_mut_ptr());
        raw::gloam_uplink_build(length, mode, from, message.len(), to, frame.len())
    };
    done(answer.refusal, answer.size as usize)
}

/// Writes the 24 values of one burst, each the whole number nearest to its number: halves go away
/// from zero, what is greater than 127 or less than -127 is held there, an infinity too, and a NaN
/// becomes 0. No value is -128. They are the values of one sub-packet as [`recover`] takes them;
/// further ones are kept.
///
/// Answers what the burst is: [`Finding::Faulty`] where a NaN is among the numbers, whatever the
/// others are; [`Finding::Silent`] where all of them are plus or minus zero; else
/// [`Finding::Heard`] with the greatest magnitude. The numbers are judged, not the values: a burst
/// whose numbers are all too small for a value other than 0 is heard.
///
/// ```
/// use gloamstrother::{quantise, Finding, BURST_VALUES};
///
/// let mut numbers = [0.25; BURST_VALUES];
/// numbers[..4].copy_from_slice(&[2.5, -2.5, 1e9, -130.0]);
/// let mut values = [0; BURST_VALUES];
/// assert_eq!(quantise(&numbers, &mut values)?, Finding::Heard { peak: 1e9 });
/// assert_eq!(values[..5], [3, -3, 127, -127, 0]);
///
/// numbers[0] = f32::NAN;
/// assert_eq!(quantise(&numbers, &mut values)?, Finding::Faulty);
/// assert_eq!(values[..5], [0, -3, 127, -127, 0]);
/// # Ok::<(), gloamstrother::Refusal>(())
/// ```
///
/// # Errors
/// The first that holds of: [`Refusal::Size`], where there are not just [`BURST_VALUES`] numbers;
/// [`Refusal::Room`], where `values` is shorter than that.
pub fn quantise(numbers: &[f32], values: &mut [i8]) -> Result<Finding, Refusal> {
    // SAFETY: both buffers are as long as their sizes say, and `values` is borrowed alone.
    let answer = unsafe {
        let (from, to) = (numbers.as_ptr(), values.as_mut_ptr().cast());
        raw::gloam_burst_quantise(from, numbers.len(), to, values.len())
    };
    done(answer.refusal, Finding::from_number(answer.finding, answer.peak))
}

/// Writes the message behind the nearest string: of all strings of payload bits of the told length
/// the one whose coded bits stand against the values by the least weight, and among equals the one
/// with 0 at the first bit entering the coder where they differ. That string alone is judged.
/// `length` bytes of `message` are written, further ones are kept.
///
/// There is one mark a sub-packet, 0 lost or 1 heard, and 24 values: value p stands for symbol p
/// where p is below 12, else for symbol p + 12. A negative value says 0, a positive one says 1, its
/// magnitude is its weight; zero says nothing. Values of a lost sub-packet do not count.
///
/// # Errors
/// The first that holds of: [`Refusal::Length`]; [`Refusal::Size`], where `marks` has not just
/// [`marks_size`] or `values` not just [`values_size`] of them; [`Refusal::Room`], where `message`
/// has fewer than `length` bytes; [`Refusal::Mark`]; [`Refusal::Silence`]; [`Refusal::HeaderCrc`];
/// [`Refusal::Psi`]; [`Refusal::PayloadCrc`].
pub fn recover(
    length: u64,
    marks: &[u8],
    values: &[i8],
    message: &mut [u8],
) -> Result<Recovered, Refusal> {
    // SAFETY: the buffers are as long as their sizes say, and `message` is borrowed alone.
    let answer = unsafe {
        raw::gloam_uplink_recover(
            length,
            marks.as_ptr(),
            marks.len(),
            values.as_ptr().cast(),
            values.len(),
            message.as_mut_ptr(),
            message.len(),
        )
    };
    let raw::Recovered { refusal, length, mode, cost } = answer;
    done(refusal, Recovered { length, mode, cost })
}

/// Writes the stored capture of what was heard; docs/CAPTURE.md has its bytes. Answers how many are
/// written, which is [`capture_size`] of the length; further bytes of `capture` are kept. Values of
/// lost sub-packets are stored as they are.
///
/// # Errors
/// The first that holds of: [`Refusal::Length`]; [`Refusal::Size`], where `marks` has not just
/// [`marks_size`] or `values` not just [`values_size`] of them; [`Refusal::Room`], where `capture`
/// is shorter than its size; [`Refusal::Mark`].
pub fn write_capture(
    length: u64,
    marks: &[u8],
    values: &[i8],
    capture: &mut [u8],
) -> Result<usize, Refusal> {
    // SAFETY: the buffers are as long as their sizes say, and `capture` is borrowed alone.
    let answer = unsafe {
        raw::gloam_capture_write(
            length,
            marks.as_ptr(),
            marks.len(),
            values.as_ptr().cast(),
            values.len(),
            capture.as_mut_ptr(),
            capture.len(),
        )
    };
    done(answer.refusal, answer.size as usize)
}

/// Writes the marks and values that stand in a stored capture, and answers the length of the
/// message. [`marks_size`] bytes of `marks` and [`values_size`] of `values` are written, just what
/// [`recover`] takes; further ones are kept. [`MOST_MARKS_SIZE`] and [`MOST_VALUES_SIZE`] are room
/// for every capture.
///
/// # Errors
/// The first that holds of: [`Refusal::Capture`] for the first field; [`Refusal::Length`] for the
/// length in it; [`Refusal::Capture`] for all the rest and the end; [`Refusal::Mark`];
/// [`Refusal::Room`], where `marks` or `values` is too short.
pub fn read_capture(capture: &[u8], marks: &mut [u8], values: &mut [i8]) -> Result<u32, Refusal> {
    // SAFETY: the buffers are as long as their sizes say, and the two that are written are borrowed
    // alone.
    let answer = unsafe {
        raw::gloam_capture_read(
            capture.as_ptr(),
            capture.len(),
            marks.as_mut_ptr(),
            marks.len(),
            values.as_mut_ptr().cast(),
            values.len(),
        )
    };
    done(answer.refusal, answer.length)
}

/// What a call answered: its numbers, or its refusal.
fn done<T>(refusal: u32, numbers: T) -> Result<T, Refusal> {
    match Refusal::from_number(refusal) {
        None => Ok(numbers),
        Some(refusal) => Err(refusal),
    }
}
