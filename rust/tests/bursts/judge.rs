//! One burst quantised by the archive and by the reference, and everything that both left compared.

use std::fmt;

use gloamstrother::{quantise, raw, Finding};

use crate::judged::Judged;
use crate::lent::{seen_as, seen_as_mut, Lent};

/// What a call is given: the bits of the numbers, the bytes that stand where the values go, and
/// what stands on both sides of each.
pub struct Burst {
    pub numbers: Vec<u32>,
    pub values: Vec<u8>,
    pub beside_numbers: [u32; 2],
    pub beside_values: [u8; 2],
}

impl Burst {
    /// Its buffers, as they are before a call.
    fn lent(&self) -> (Lent<u32>, Lent) {
        let numbers = Lent::new(&self.numbers, self.beside_numbers);
        (numbers, Lent::new(&self.values, self.beside_values))
    }
}

impl fmt::Display for Burst {
    fn fmt(&self, formatter: &mut fmt::Formatter<'_>) -> fmt::Result {
        write!(formatter, "numbers {:08x?}, room for {}", self.numbers, self.values.len())
    }
}

/// Quantises a burst by the reference, and by the archive once as Rust calls it and once as C does.
pub fn judge(burst: &Burst) -> Judged {
    let expected = reference::quantise(&burst.numbers, burst.values.len());
    let values = expected.map_or(vec![], |done| done.values.map(|value| value as u8).to_vec());
    let (numbers, mut to) = burst.lent();
    let got = quantise(seen_as(numbers.content()), seen_as_mut(to.content_mut()));
    let expected = expected.map(|done| done.finding.fields().to_vec());
    let mut judged = Judged::new(expected, got.map(fields));
    judged.buffers(&[("numbers", &numbers, &burst.numbers, &[])]);
    judged.buffers(&[("values", &to, &burst.values, &values)]);
    let (numbers, mut to) = burst.lent();
    judged.fields_for_c(&as_c(&numbers, &mut to));
    judged.buffers(&[("numbers", &numbers, &burst.numbers, &[])]);
    judged.buffers(&[("values", &to, &burst.values, &values)]);
    judged
}

/// The number of a finding and the bits of its peak; those of +0 where none is reported.
fn fields(finding: Finding) -> Vec<u32> {
    match finding {
        Finding::Heard { peak } => vec![finding.number(), peak.to_bits()],
        _ => vec![finding.number(), 0],
    }
}

/// The call as C makes it: null for each empty buffer, and all fields of the answer.
fn as_c(numbers: &Lent<u32>, values: &mut Lent) -> [u32; 3] {
    let (from, count) = (numbers.pointer().cast(), numbers.size());
    let (to, size) = (values.pointer_mut(), values.size());
    // SAFETY: each pointer goes with the size of its own buffer, and `values` is borrowed alone.
    let answer = unsafe { raw::gloam_burst_quantise(from, count, to, size) };
    [answer.refusal, answer.finding, answer.peak.to_bits()]
}
