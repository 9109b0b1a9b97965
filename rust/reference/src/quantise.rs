//! The numbers of a burst to signed bytes, and what the burst is: document 02, request #101.
//!
//! A number is given as the 32 bits of its format and taken apart to its exact value. Two values
//! are compared as whole numbers of a unit that divides both, and a magnitude is rounded by looking
//! which of 1/2, 3/2, .. 253/2 it reaches. No floating-point operation occurs.

use std::cmp::Ordering;

use crate::refusal::{enough, SIZE};

/// The numbers of one burst.
pub const BURST: usize = 24;

/// What a burst is.
#[derive(Clone, Copy, Debug, PartialEq, Eq)]
pub enum Finding {
    /// Heard, with the bits of its greatest magnitude.
    Heard { peak: u32 },
    /// All 24 are plus or minus zero.
    Silent,
    /// A NaN was present.
    Faulty,
}

impl Finding {
    /// Its number, and the bits of the peak; those of +0 where none is reported.
    pub fn fields(self) -> [u32; 2] {
        match self {
            Finding::Heard { peak } => [1, peak],
            Finding::Silent => [2, 0],
            Finding::Faulty => [3, 0],
        }
    }
}

/// What becomes of the numbers of a burst.
#[derive(Clone, Copy, Debug, PartialEq, Eq)]
pub struct Quantised {
    pub values: [i8; BURST],
    pub finding: Finding,
}

/// The values and the finding of a burst, where there is room for so many bytes; or the refusal.
pub fn quantise(numbers: &[u32], room: usize) -> Result<Quantised, u32> {
    let numbers: &[u32; BURST] = numbers.try_into().map_err(|_| SIZE)?;
    enough(room, BURST)?;
    Ok(Quantised { values: numbers.map(value), finding: finding(numbers) })
}

/// The value of a number: the nearest whole number, halves away from zero, held at 127 and -127.
/// That of a NaN is 0.
pub fn value(number: u32) -> i8 {
    let nearest = magnitude(number).map_or(0, nearest);
    if number & SIGN == 0 {
        nearest
    } else {
        -nearest
    }
}

/// A NaN makes a burst faulty; without one, zeros alone make it silent.
fn finding(numbers: &[u32; BURST]) -> Finding {
    let (mut greatest, mut peak) = (Magnitude::ZERO, 0);
    for &number in numbers {
        let Some(magnitude) = magnitude(number) else {
            return Finding::Faulty;
        };
        if magnitude > greatest {
            (greatest, peak) = (magnitude, number & !SIGN);
        }
    }
    if greatest == Magnitude::ZERO {
        Finding::Silent
    } else {
        Finding::Heard { peak }
    }
}

/// The bit of a number that is set where it is negative.
const SIGN: u32 = 1 << 31;

/// How great a number is, whatever its sign.
#[derive(Clone, Copy, PartialEq, Eq, PartialOrd, Ord)]
enum Magnitude {
    Finite(Exact),
    Infinite,
}

impl Magnitude {
    const ZERO: Magnitude = Magnitude::Finite(Exact { whole: 0, power: 0 });
}

/// The magnitude of a number from its exponent field and its fraction; a NaN has none.
fn magnitude(number: u32) -> Option<Magnitude> {
    let (exponent, fraction) = (number >> 23 & 0xFF, number & 0x7F_FFFF);
    Some(Magnitude::Finite(match exponent {
        0 => Exact { whole: fraction, power: -149 },
        255 if fraction == 0 => return Some(Magnitude::Infinite),
        255 => return None,
        _ => Exact { whole: 1 << 23 | fraction, power: exponent as i32 - 150 },
    }))
}

/// The whole number nearest to a magnitude, a half going up, and at most 127: how many of 1/2, 3/2,
/// .. 253/2 it reaches.
fn nearest(magnitude: Magnitude) -> i8 {
    let (mut reached, mut beyond) = (0, 128);
    while beyond - reached > 1 {
        let middle = (reached + beyond) / 2;
        let half_below = Exact { whole: 2 * middle - 1, power: -1 };
        if magnitude >= Magnitude::Finite(half_below) {
            reached = middle;
        } else {
            beyond = middle;
        }
    }
    reached as i8
}

/// The exact value `whole` times two to the `power`; `whole` is below 2 to the 24.
#[derive(Clone, Copy)]
struct Exact {
    whole: u32,
    power: i32,
}

impl Exact {
    /// How many units of two to the power `unit`, which is at most its own power. Of powers that
    /// lie more than 32 apart only 32 count: unless it is 0, the answer is above every `whole` then,
    /// and a comparison needs no more.
    fn in_units_of(self, unit: i32) -> u64 {
        u64::from(self.whole) << (self.power - unit).min(32)
    }
}

impl Ord for Exact {
    /// By units of the lesser of the two powers, which divides both: one of the two values is then
    /// its own `whole`.
    fn cmp(&self, other: &Exact) -> Ordering {
        let unit = self.power.min(other.power);
        self.in_units_of(unit).cmp(&other.in_units_of(unit))
    }
}

impl PartialOrd for Exact {
    fn partial_cmp(&self, other: &Exact) -> Option<Ordering> {
        Some(self.cmp(other))
    }
}

impl PartialEq for Exact {
    fn eq(&self, other: &Exact) -> bool {
        self.cmp(other) == Ordering::Equal
    }
}

impl Eq for Exact {}
