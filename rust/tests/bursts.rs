//! Compares quantising by the archive with the reference: every edge at each of the 24 places, all
//! small counts of numbers with all small rooms, and random bursts of several kinds.
//!
//! Compared are the finding, the bits of the peak and every byte of every buffer, inputs, kept
//! bytes and what stands beside the buffers included. A random burst follows from a seed of its
//! own. A failed burst is printed with its numbers and the command that runs it again. The last
//! line is `N passed, M failed`.

#[path = "bursts/edges.rs"]
mod edges;
#[path = "shared/ending.rs"]
mod ending;
#[path = "bursts/judge.rs"]
mod judge;
#[path = "shared/judged.rs"]
mod judged;
#[path = "bursts/kinds.rs"]
mod kinds;
#[path = "shared/lent.rs"]
mod lent;
#[path = "shared/options.rs"]
mod options;
#[path = "shared/random.rs"]
mod random;
#[path = "shared/table.rs"]
mod table;
#[path = "bursts/tally.rs"]
mod tally;

use std::process::ExitCode;
use std::time::Instant;

use ending::{ended, Failures};
use judge::{judge, Burst};
use options::Options;
use tally::Tally;

/// Random bursts of a run that asks for no number.
const CASES: u64 = 200_000;

/// What the table calls the bursts that follow from no seed.
const EDGES: &str = "every edge at each place";
const SIZES: &str = "counts and rooms";

/// Runs the bursts that follow from no seed, and one that does.
const AGAIN: &str = "cargo test --release --test bursts -- --cases 1";

fn main() -> ExitCode {
    options::run("bursts", CASES, run)
}

/// Quantises all bursts and prints what was seen.
fn run(options: &Options) -> ExitCode {
    println!("quantising {} random bursts from seed {:#018x}", options.cases, options.seed);
    let start = Instant::now();
    let mut seen = Seen::new();
    for burst in edges::at_each_place() {
        seen.judge(EDGES, &burst, AGAIN);
    }
    for burst in edges::counts_and_rooms() {
        seen.judge(SIZES, &burst, AGAIN);
    }
    for seed in (0..options.cases).map(|index| options.seed_of(index)) {
        let (kind, burst) = kinds::burst_of(seed);
        seen.judge(kind, &burst, &format!("{AGAIN} --seed {seed:#018x}"));
    }
    print!("{}", seen.tally.table());
    println!("{:.1} s", start.elapsed().as_secs_f64());
    let (bursts, failed) = (seen.tally.bursts(), seen.tally.failed);
    ended(bursts - failed, failed)
}

/// What was seen so far.
struct Seen {
    tally: Tally,
    failures: Failures,
}

impl Seen {
    fn new() -> Seen {
        let kinds = [EDGES, SIZES].into_iter().chain(kinds::names());
        Seen { tally: Tally::new(kinds), failures: Failures::default() }
    }

    /// Quantises one burst, counts it, and shows it where it failed.
    fn judge(&mut self, kind: &'static str, burst: &Burst, again: &str) {
        let judged = judge(burst);
        let failed = !judged.differences.is_empty();
        self.tally.count(kind, &judged.expected, failed);
        if failed {
            let shown = judged.differences.join("\n  ");
            self.failures.show(|| format!("{kind}\n  {shown}\n  {burst}\n  again: {again}"));
        }
    }
}
