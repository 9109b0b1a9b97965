//! Buffers that are lent to a call.

use std::fmt::Display;
use std::slice;

/// What is lent, with a guard on each side that no call may change.
pub struct Lent<T = u8> {
    all: Vec<T>,
    guards: [T; 2],
}

impl<T: Copy + PartialEq + Display> Lent<T> {
    pub fn new(content: &[T], guards: [T; 2]) -> Lent<T> {
        let all = [&guards[..1], content, &guards[1..]].concat();
        Lent { all, guards }
    }

    pub fn content(&self) -> &[T] {
        &self.all[1..self.all.len() - 1]
    }

    pub fn content_mut(&mut self) -> &mut [T] {
        let end = self.all.len() - 1;
        &mut self.all[1..end]
    }

    /// What C would be given to read: an empty buffer as a null pointer.
    pub fn pointer(&self) -> *const T {
        match self.content() {
            [] => std::ptr::null(),
            content => content.as_ptr(),
        }
    }

    /// What C would be given to write.
    pub fn pointer_mut(&mut self) -> *mut T {
        match self.content_mut() {
            [] => std::ptr::null_mut(),
            content => content.as_mut_ptr(),
        }
    }

    pub fn size(&self) -> usize {
        self.content().len()
    }

    /// What is not as expected now: the first few places, how many more, and the guards.
    pub fn differences(&self, name: &str, expected: &[T]) -> Vec<String> {
        let got = self.content();
        assert_eq!(got.len(), expected.len(), "{name} is compared over its whole size");
        let differing: Vec<usize> = (0..got.len()).filter(|&at| got[at] != expected[at]).collect();
        let mut lines: Vec<String> = Vec::new();
        for &at in differing.iter().take(3) {
            lines.push(format!("{name}[{at}] is {}, expected {}", got[at], expected[at]));
        }
        if differing.len() > 3 {
            lines.push(format!("{name} differs in {} more places", differing.len() - 3));
        }
        if self.all[0] != self.guards[0] {
            lines.push(format!("what stands before {name} was written"));
        }
        if self.all[got.len() + 1] != self.guards[1] {
            lines.push(format!("what stands behind {name} was written"));
        }
        lines
    }
}

/// Types whose contents are the same bits, read in another way.
///
/// # Safety
/// Both types have the same size and alignment, and all bits are valid contents of both.
pub unsafe trait SameBits<U> {}

// SAFETY: a byte each.
unsafe impl SameBits<i8> for u8 {}
// SAFETY: four bytes each, aligned alike, and a float may have any bits.
unsafe impl SameBits<f32> for u32 {}

/// The same bits as another type.
pub fn seen_as<T: SameBits<U>, U>(content: &[T]) -> &[U] {
    // SAFETY: as the trait says.
    unsafe { slice::from_raw_parts(content.as_ptr().cast(), content.len()) }
}

/// The same bits as another type, to be written.
pub fn seen_as_mut<T: SameBits<U>, U>(content: &mut [T]) -> &mut [U] {
    // SAFETY: as the trait says, and the content stays borrowed.
    unsafe { slice::from_raw_parts_mut(content.as_mut_ptr().cast(), content.len()) }
}
