//! What a burst was found to be.

/// What [`crate::quantise`] finds of the numbers of a burst.
#[derive(Clone, Copy, Debug, PartialEq)]
pub enum Finding {
    /// 1: none of the numbers is a NaN, and not all are zeros.
    Heard {
        /// The greatest magnitude among them, positive; infinite where one of them is.
        peak: f32,
    },
    /// 2: every number is plus or minus zero.
    Silent,
    /// 3: a NaN is among the numbers.
    Faulty,
}

impl Finding {
    /// The finding with this number, whose peak counts where it is heard. A number that this crate
    /// does not know is as good as a fault: there is nothing in it to rely on.
    pub(crate) const fn from_number(number: u32, peak: f32) -> Finding {
        match number {
            1 => Finding::Heard { peak },
            2 => Finding::Silent,
            _ => Finding::Faulty,
        }
    }

    /// The number under which C and the pages know it.
    pub const fn number(self) -> u32 {
        match self {
            Finding::Heard { .. } => 1,
            Finding::Silent => 2,
            Finding::Faulty => 3,
        }
    }
}
