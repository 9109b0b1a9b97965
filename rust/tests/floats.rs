//! Takes single-precision numbers through the archive, 24 at a time, and compares each value, and
//! the finding and the peak of each 24, with the reference: every 4,099th of the 2^32 numbers, or,
//! with `--all`, every one. The last line is `N passed, M failed`, counted in numbers.

#[path = "shared/ending.rs"]
mod ending;
#[path = "shared/workers.rs"]
mod workers;

use std::array;
use std::process::ExitCode;
use std::time::Instant;

use ending::{ended, Failures};
use gloamstrother::{raw, BURST_VALUES};
use workers::share_out;

/// All numbers that there are, and the step from one to the next of a sample.
const ALL: u64 = 1 << 32;
const SAMPLE: u64 = 4_099;

/// Numbers of the piece that a thread takes at once, which is some bursts.
const PIECE: u64 = BURST_VALUES as u64 * 4096;

const USAGE: &str = "usage: cargo test --release --test floats -- [--all]";

fn main() -> ExitCode {
    let mut step = SAMPLE;
    for word in std::env::args().skip(1) {
        match word.as_str() {
            "--all" => step = 1,
            name if !name.starts_with('-') && "floats".contains(name) => {}
            name if !name.starts_with('-') => return ExitCode::SUCCESS,
            _ => {
                eprintln!("{USAGE}");
                return ExitCode::from(2);
            }
        }
    }
    run(&Sweep { step, failures: Failures::default() })
}

/// Takes all numbers of the sweep through the archive, on all processors.
fn run(sweep: &Sweep) -> ExitCode {
    let count = sweep.count();
    println!("quantising {count} of {ALL} numbers");
    let start = Instant::now();
    let said = |pieces: u64| format!("{} of {count} numbers", (pieces * PIECE).min(count));
    let said = (sweep.step == 1).then_some(said);
    let failed = share_out(count.div_ceil(PIECE), said, |pieces| -> u64 {
        pieces.map(|piece| sweep.failed_of_piece(piece)).sum()
    });
    let failed = failed.iter().sum();
    println!("{:.1} s", start.elapsed().as_secs_f64());
    ended(count - failed, failed)
}

/// The numbers whose bits are the multiples of `step`.
struct Sweep {
    step: u64,
    failures: Failures,
}

impl Sweep {
    /// How many there are.
    fn count(&self) -> u64 {
        ALL.div_ceil(self.step)
    }

    /// How many of a piece failed.
    fn failed_of_piece(&self, piece: u64) -> u64 {
        let end = ((piece + 1) * PIECE).min(self.count());
        let firsts = (piece * PIECE..end).step_by(BURST_VALUES);
        firsts.map(|first| self.failed_of_burst(first, end)).sum()
    }

    /// How many failed of the 24 from this one on, those from `end` on not counted: where finding
    /// or peak is another, all of them, else those with another value.
    fn failed_of_burst(&self, first: u64, end: u64) -> u64 {
        let numbers = array::from_fn(|place| ((first + place as u64) * self.step) as u32);
        let expected =
            reference::quantise(&numbers, BURST_VALUES).expect("24 numbers have a finding");
        let [finding, peak] = expected.finding.fields();
        let (values, answer) = quantised(&numbers);
        let counted = (end - first).min(BURST_VALUES as u64);
        if answer != [0, finding, peak] {
            self.failures.show(|| other_answer(&numbers, answer, [0, finding, peak]));
            return counted;
        }
        let mut failed = 0;
        for place in 0..counted as usize {
            let (number, value, expected) = (numbers[place], values[place], expected.values[place]);
            if value != expected {
                failed += 1;
                self.failures
                    .show(|| format!("{number:#010x} became {value}, expected {expected}"));
            }
        }
        failed
    }
}

fn other_answer(numbers: &[u32; BURST_VALUES], answer: [u32; 3], expected: [u32; 3]) -> String {
    let [first, .., last] = numbers;
    format!(
        "{first:#010x} to {last:#010x}: refusal, finding and peak are {answer:x?}, \
         expected {expected:x?}"
    )
}

/// The values of a burst by the archive, and the fields of its answer: refusal, finding, peak.
fn quantised(numbers: &[u32; BURST_VALUES]) -> ([i8; BURST_VALUES], [u32; 3]) {
    let mut values = [0; BURST_VALUES];
    let (from, to) = (numbers.as_ptr().cast(), values.as_mut_ptr().cast());
    // SAFETY: numbers and values are as many as said, and the bits of a float may be any.
    let answer = unsafe { raw::gloam_burst_quantise(from, BURST_VALUES, to, BURST_VALUES) };
    (values, [answer.refusal, answer.finding, answer.peak.to_bits()])
}
