//! The refusals by name.

use std::error::Error;
use std::fmt;

/// Why a call was refused. A refused call has written nothing.
///
/// A number is never used again for another meaning; numbers may be added.
#[derive(Clone, Copy, Debug, PartialEq, Eq, Hash)]
#[non_exhaustive]
pub enum Refusal {
    /// 1: the length is below 20 or above 255.
    Length,
    /// 2: message, marks, values or numbers are not of the exact size.
    Size,
    /// 3: an output buffer is too short.
    Room,
    /// 4: the mode is above 3.
    Mode,
    /// 5: a mark is neither 0 nor 1.
    Mark,
    /// 6: no heard sub-packet has a non-zero value.
    Silence,
    /// 7: the header CRC of the nearest string is wrong.
    HeaderCrc,
    /// 8: the PSI of the nearest string is not the told length.
    Psi,
    /// 9: the payload CRC of the nearest string is wrong.
    PayloadCrc,
    /// 10: the capture is malformed.
    Capture,
    /// A number that this crate does not know: the archive is newer than it.
    Unknown(u32),
}

impl Refusal {
    /// The refusal with this number; none for 0, which means done.
    pub const fn from_number(number: u32) -> Option<Refusal> {
        Some(match number {
            0 => return None,
            1 => Refusal::Length,
            2 => Refusal::Size,
            3 => Refusal::Room,
            4 => Refusal::Mode,
            5 => Refusal::Mark,
            6 => Refusal::Silence,
            7 => Refusal::HeaderCrc,
            8 => Refusal::Psi,
            9 => Refusal::PayloadCrc,
            10 => Refusal::Capture,
            _ => Refusal::Unknown(number),
        })
    }

    /// The number under which C and the pages know it.
    pub const fn number(self) -> u32 {
        match self {
            Refusal::Length => 1,
            Refusal::Size => 2,
            Refusal::Room => 3,
            Refusal::Mode => 4,
            Refusal::Mark => 5,
            Refusal::Silence => 6,
            Refusal::HeaderCrc => 7,
            Refusal::Psi => 8,
            Refusal::PayloadCrc => 9,
            Refusal::Capture => 10,
            Refusal::Unknown(number) => number,
        }
    }

    /// The header's sentence on it; none for a number that the header does not have.
    const fn sentence(self) -> Option<&'static str> {
        Some(match self {
            Refusal::Length => "the length is below 20 or above 255",
            Refusal::Size => "message, marks, values or numbers are not of the exact size",
            Refusal::Room => "an output buffer is too short",
            Refusal::Mode => "the mode is above 3",
            Refusal::Mark => "a mark is neither 0 nor 1",
            Refusal::Silence => "no heard sub-packet has a non-zero value",
            Refusal::HeaderCrc => "the header CRC of the nearest string is wrong",
            Refusal::Psi => "the PSI of the nearest string is not the told length",
            Refusal::PayloadCrc => "the payload CRC of the nearest string is wrong",
            Refusal::Capture => "the capture is malformed",
            Refusal::Unknown(_) => return None,
        })
    }
}

impl fmt::Display for Refusal {
    fn fmt(&self, formatter: &mut fmt::Formatter<'_>) -> fmt::Result {
        match self.sentence() {
            Some(sentence) => formatter.pad(sentence),
            None => {
                write!(formatter, "the number {}, which this crate does not know", self.number())
            }
        }
    }
}

impl Error for Refusal {}
