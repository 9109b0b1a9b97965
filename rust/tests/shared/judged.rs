//! What the archive answered and left in the buffers, held to what it should have.

use std::fmt::Display;

use gloamstrother::Refusal;

use crate::lent::Lent;

/// What the reference answered, and in what the archive differs.
pub struct Judged {
    /// The numbers of the answer, or the refusal.
    pub expected: Result<Vec<u32>, u32>,
    pub differences: Vec<String>,
}

impl Judged {
    /// Compares the answers.
    pub fn new(expected: Result<Vec<u32>, u32>, got: Result<Vec<u32>, Refusal>) -> Judged {
        let got = got.map_err(Refusal::number);
        let mut differences = Vec::new();
        if got != expected {
            differences.push(format!("the answer is {got:?}, expected {expected:?}"));
        }
        Judged { expected, differences }
    }

    /// Compares the fields that C gets: 0 and the numbers, or the refusal and zeros.
    pub fn fields_for_c(&mut self, fields: &[u32]) {
        let mut expected = vec![0; fields.len()];
        match &self.expected {
            Ok(numbers) => expected[1..].copy_from_slice(numbers),
            Err(refusal) => expected[0] = *refusal,
        }
        if fields != expected {
            self.differences.push(format!("C gets {fields:?}, expected {expected:?}"));
        }
    }

    /// Compares buffers with what stood in them before and what should have been written.
    pub fn buffers<T: Copy + PartialEq + Display>(&mut self, buffers: &[Buffer<T>]) {
        for (name, lent, before, written) in buffers {
            let mut expected = before.to_vec();
            expected[..written.len()].copy_from_slice(written);
            self.differences.extend(lent.differences(name, &expected));
        }
    }
}

/// A buffer's name, what is lent, what stood in it before, and what should have been written.
pub type Buffer<'a, T> = (&'a str, &'a Lent<T>, &'a [T], &'a [T]);
