//! What a run says of what failed.

use std::process::ExitCode;
use std::sync::atomic::{AtomicU64, Ordering};

/// Failed cases that are printed in full.
const SHOWN: u64 = 10;

/// The failed cases of a run so far, of all its threads.
#[derive(Default)]
pub struct Failures(AtomicU64);

impl Failures {
    /// Prints a failed case, if it is among the first few.
    pub fn show(&self, case: impl FnOnce() -> String) {
        if self.0.fetch_add(1, Ordering::Relaxed) < SHOWN {
            println!("FAILED: {}", case());
        }
    }
}

/// Prints the last line of a run, and answers its status.
pub fn ended(passed: u64, failed: u64) -> ExitCode {
    println!("{passed} passed, {failed} failed");
    ExitCode::from(u8::from(failed > 0))
}
