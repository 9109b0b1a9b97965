//! A second implementation of the uplink of telegram splitting, written from document 01, the
//! requests of document 02 and TS 103 357 alone, so that the proved one can be compared with it.
//!
//! It shares no table and no code with the proved crates and goes another way: the search walks
//! forward in time and keeps with each of the 64 states the whole string so far; where two paths
//! of equal cost meet, the whole strings are compared; a number of a receiver is rounded by its
//! exact value. Nothing here is proved.
//!
//! [`Rule`] says which rules are followed: those of the paper, or one of several plausible wrong
//! ones, with which a test can see whether it would notice such a fault.

pub mod c_face;
pub mod capture;
pub mod coder;
pub mod crc;
pub mod decoder;
pub mod line;
pub mod payload;
pub mod places;
pub mod quantise;
pub mod refusal;
pub mod rules;
pub mod several;
pub mod uplink;
pub mod whitening;
pub mod windowed;

pub use capture::{read_capture, write_capture, ReadCapture};
pub use line::report_line;
pub use quantise::{quantise, Finding, Quantised};
pub use rules::Rule;
pub use uplink::{build, recover, Recovered};
