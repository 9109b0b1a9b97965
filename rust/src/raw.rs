//! The calls as C has them, for a caller who holds pointers already.
//!
//! include/gloamstrother.h says what each takes and answers. What it leaves to the caller is left
//! here too: a buffer is as long as its size or count says, one of floats is aligned as they are, and
//! one that is written overlaps no other.

/// What writing answers: refusal 0 and the size that was written, or the refusal and 0.
#[repr(C)]
#[derive(Clone, Copy, Debug, PartialEq, Eq)]
pub struct Written {
    /// 0, or the number of the refusal.
    pub refusal: u32,
    /// The bytes that were written.
    pub size: u32,
}

/// What reading a capture answers: refusal 0 and the length, or the refusal and 0.
#[repr(C)]
#[derive(Clone, Copy, Debug, PartialEq, Eq)]
pub struct Read {
    /// 0, or the number of the refusal.
    pub refusal: u32,
    /// The length of the message.
    pub length: u32,
}

/// What recovering answers: refusal 0 with length, mode and cost, or the refusal and three zeros.
#[repr(C)]
#[derive(Clone, Copy, Debug, PartialEq, Eq)]
pub struct Recovered {
    /// 0, or the number of the refusal.
    pub refusal: u32,
    /// The length of the message.
    pub length: u32,
    /// Its mode, 0 to 3.
    pub mode: u32,
    /// The cost of the nearest string.
    pub cost: u32,
}

/// What quantising answers: refusal 0 with the finding and its peak, or the refusal and two zeros.
#[repr(C)]
#[derive(Clone, Copy, Debug, PartialEq)]
pub struct Quantised {
    /// 0, or the number of the refusal.
    pub refusal: u32,
    /// 1 heard, 2 silent, 3 faulty.
    pub finding: u32,
    /// The greatest magnitude where the burst is heard, else +0.
    pub peak: f32,
}

extern "C" {
    /// See [`crate::archive_version`].
    pub fn gloam_version() -> u32;

    /// See [`crate::build`].
    pub fn gloam_uplink_build(
        length: u64,
        mode: u64,
        message: *const u8,
        message_size: usize,
        frame: *mut u8,
        frame_size: usize,
    ) -> Written;

    /// See [`crate::recover`]. The values are bytes in two's complement.
    pub fn gloam_uplink_recover(
        length: u64,
        marks: *const u8,
        marks_size: usize,
        values: *const u8,
        values_size: usize,
        message: *mut u8,
        message_size: usize,
    ) -> Recovered;

    /// See [`crate::write_capture`]. The values are bytes in two's complement.
    pub fn gloam_capture_write(
        length: u64,
        marks: *const u8,
        marks_size: usize,
        values: *const u8,
        values_size: usize,
        capture: *mut u8,
        capture_size: usize,
    ) -> Written;

    /// See [`crate::read_capture`]. The values are bytes in two's complement.
    pub fn gloam_capture_read(
        capture: *const u8,
        capture_size: usize,
        marks: *mut u8,
        marks_size: usize,
        values: *mut u8,
        values_size: usize,
    ) -> Read;

    /// See [`crate::quantise`]. The values are bytes in two's complement.
    pub fn gloam_burst_quantise(
        numbers: *const f32,
        numbers_count: usize,
        values: *mut u8,
        values_size: usize,
    ) -> Quantised;
}
