//! What the command line asks for.

use std::process::ExitCode;

use crate::random::case_seed;

/// The seed of a run that asks for none.
const SEED: u64 = 0x01;

pub struct Options {
    pub cases: u64,
    pub seed: u64,
}

/// Runs the test of this name as the command line asks, with so many cases if it asks for no number;
/// not at all if it names other tests only.
pub fn run(test: &str, cases: u64, run: impl FnOnce(&Options) -> ExitCode) -> ExitCode {
    match Options::read(test, cases, std::env::args().skip(1)) {
        Ok(Some(options)) => run(&options),
        Ok(None) => ExitCode::SUCCESS,
        Err(usage) => {
            eprintln!("{usage}");
            ExitCode::from(2)
        }
    }
}

impl Options {
    /// The options after the program's name; none if the words given name other tests only.
    fn read(
        test: &str,
        cases: u64,
        mut words: impl Iterator<Item = String>,
    ) -> Result<Option<Options>, String> {
        let mut options = Options { cases, seed: SEED };
        let mut meant = true;
        while let Some(word) = words.next() {
            let mut number =
                || words.next().and_then(|text| number(&text)).ok_or_else(|| usage(test));
            match word.as_str() {
                "--cases" => options.cases = number()?.max(1),
                "--seed" => options.seed = number()?,
                name if !name.starts_with('-') => meant = test.contains(name),
                _ => return Err(usage(test)),
            }
        }
        Ok(meant.then_some(options))
    }

    /// The seed of case number `index`; the told one where there is no other case.
    pub fn seed_of(&self, index: u64) -> u64 {
        match self.cases {
            1 => self.seed,
            _ => case_seed(self.seed, index),
        }
    }
}

fn usage(test: &str) -> String {
    format!(
        "usage: cargo test --release --test {test} -- [--cases N] [--seed S], \
         S in decimal or as 0x..; with --cases 1, S is the seed of that case itself"
    )
}

fn number(text: &str) -> Option<u64> {
    match text.strip_prefix("0x") {
        Some(digits) => u64::from_str_radix(digits, 16).ok(),
        None => text.parse().ok(),
    }
}
