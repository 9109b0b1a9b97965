//! Compares the proved archive with the reference on random cases.
//!
//! Each case has a seed of its own from which all of it follows. Compared are the answer and every
//! byte of every buffer, inputs, kept bytes and a guard byte on each side included. A failed case
//! is printed with the command that runs it again. The last line is `N passed, M failed`.

#[path = "compare/as_c.rs"]
mod as_c;
#[path = "compare/damage.rs"]
mod damage;
#[path = "shared/ending.rs"]
mod ending;
#[path = "compare/judge.rs"]
mod judge;
#[path = "shared/judged.rs"]
mod judged;
#[path = "compare/kinds.rs"]
mod kinds;
#[path = "shared/lent.rs"]
mod lent;
#[path = "shared/options.rs"]
mod options;
#[path = "compare/radio.rs"]
mod radio;
#[path = "shared/random.rs"]
mod random;
#[path = "shared/table.rs"]
mod table;
#[path = "compare/tally.rs"]
mod tally;
#[path = "compare/ties.rs"]
mod ties;
#[path = "shared/workers.rs"]
mod workers;

use std::panic::catch_unwind;
use std::process::ExitCode;
use std::time::Instant;

use ending::{ended, Failures};
use judge::{judge, Call};
use kinds::{Case, Kind};
use options::Options;
use reference::Rule;
use tally::Tally;
use workers::share_out;

/// Cases of a run that asks for no number.
const CASES: u64 = 50_000;

/// From so many cases on, every kind, every length and real ties must have occurred.
const ENOUGH: u64 = 10_000;

/// From so many cases on, progress is told.
const MANY: u64 = 100_000;

fn main() -> ExitCode {
    options::run("compare", CASES, run)
}

/// Runs all cases and prints what was seen.
fn run(options: &Options) -> ExitCode {
    let cases = if options.cases == 1 { "case" } else { "cases" };
    println!("comparing {} {cases} from seed {:#018x}", options.cases, options.seed);
    let start = Instant::now();
    let mut tally = all_cases(options);
    print!("{}", tally.table());
    println!("lengths recovered: {} of 236", tally.lengths());
    println!("ties verified: two different strings, equal cost, none undercuts it");
    let [laid, real] = tally.frames_tied;
    println!("  of two frames that both pass their checks: {real} of {laid}");
    let [laid, real] = tally.any_tied;
    println!("  of a frame and any string: {real} of {laid}");
    println!("{:.1} s", start.elapsed().as_secs_f64());
    let lacking = lacking(&tally);
    for reason in &lacking {
        println!("FAILED: {reason}");
    }
    let passed = tally.cases - tally.failed;
    tally.failed += lacking.len() as u64;
    ended(passed, tally.failed)
}

/// What a run of many cases should have shown and did not.
fn lacking(tally: &Tally) -> Vec<String> {
    let mut reasons = Vec::new();
    if tally.cases >= ENOUGH {
        for kind in tally.missing() {
            reasons.push(format!("the kind '{kind}' never occurred"));
        }
        if tally.frames_tied[1] == 0 {
            reasons.push("no tie of two good frames was really one".into());
        }
        if tally.lengths() < 236 {
            reasons.push(format!("only {} of 236 lengths were recovered", tally.lengths()));
        }
    }
    reasons
}

/// Shares the cases out among all processors, and tells progress where there are many.
fn all_cases(options: &Options) -> Tally {
    let failures = Failures::default();
    let said = |taken: u64| format!("{taken} of {} cases", options.cases);
    let said = (options.cases >= MANY).then_some(said);
    let tallies = share_out(options.cases, said, |indexes| some_cases(options, indexes, &failures));
    let mut tally = Tally::new();
    tallies.iter().for_each(|part| tally.add(part));
    tally
}

/// Runs the cases of these indexes.
fn some_cases(
    options: &Options,
    indexes: &mut dyn Iterator<Item = u64>,
    failures: &Failures,
) -> Tally {
    let mut tally = Tally::new();
    for index in indexes {
        let seed = options.seed_of(index);
        let differences = one_case(seed, &mut tally);
        if !differences.is_empty() {
            let shown = differences.join("\n  ");
            let again = format!("again: make compare SEED={seed:#018x} CASES=1");
            failures.show(|| format!("seed {seed:#018x}\n  {shown}\n  {again}"));
        }
    }
    tally
}

/// Runs one case and counts it; answers its kind and what differed, or nothing.
fn one_case(seed: u64, tally: &mut Tally) -> Vec<String> {
    let ran = catch_unwind(|| {
        let case = Case::of(seed);
        let judged = judge(Rule::Paper, &case.call, case.guards);
        let tie = tie_of(&case, &judged.expected);
        (case, judged, tie)
    });
    let Ok((case, mut judged, tie)) = ran else {
        tally.cases += 1;
        tally.failed += 1;
        return vec!["the comparison itself broke off".into()];
    };
    let recovered = match (&case.call, &judged.expected) {
        (Call::Recover { .. }, Ok(numbers)) => Some(numbers[0]),
        _ => None,
    };
    let refusal = judged.expected.err().unwrap_or(0);
    let failed = !judged.differences.is_empty();
    tally.count(case.kind, refusal, recovered, failed);
    if let Some(real) = tie {
        tally.count_tie(case.kind, real);
    }
    if failed {
        judged.differences.insert(0, format!("kind: {}", case.kind.name()));
    }
    judged.differences
}

/// Whether a tie that was laid into a case is one; none where none was laid.
fn tie_of(case: &Case, expected: &Result<Vec<u32>, u32>) -> Option<bool> {
    let strings = case.tied.as_ref().filter(|_| case.kind != Kind::NearTie)?;
    let cost = expected.as_ref().ok().map(|numbers| numbers[2]);
    let good = case.kind != Kind::TieOfFrames || strings.iter().all(|string| ties::passes(string));
    Some(good && ties::really_tied(&case.call, strings, cost))
}
