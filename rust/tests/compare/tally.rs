//! What was seen, kind by kind.

use crate::kinds::{Kind, KINDS};
use crate::table::table;

/// The greatest refusal that the table has a column for.
const MOST_REFUSAL: usize = 10;

/// The counts of a run, or of one thread's part of it.
#[derive(Clone)]
pub struct Tally {
    /// For each kind: done, then refused by 1 to 10.
    answers: [[u64; MOST_REFUSAL + 1]; KINDS.len()],
    lengths: [bool; 256],
    pub cases: u64,
    pub failed: u64,
    /// Ties of two good frames that were laid, and those in which both were really nearest.
    pub frames_tied: [u64; 2],
    /// The same of a frame and any string.
    pub any_tied: [u64; 2],
}

impl Tally {
    pub fn new() -> Tally {
        Tally {
            answers: [[0; MOST_REFUSAL + 1]; KINDS.len()],
            lengths: [false; 256],
            cases: 0,
            failed: 0,
            frames_tied: [0; 2],
            any_tied: [0; 2],
        }
    }

    /// Counts a case: 0 or its refusal, and the length where it was recovered.
    pub fn count(&mut self, kind: Kind, refusal: u32, recovered: Option<u32>, failed: bool) {
        self.answers[kind.row()][(refusal as usize).min(MOST_REFUSAL)] += 1;
        if let Some(length) = recovered {
            self.lengths[length as usize % 256] = true;
        }
        self.cases += 1;
        self.failed += u64::from(failed);
    }

    /// Counts a tie that was laid, and whether it really was one.
    pub fn count_tie(&mut self, kind: Kind, real: bool) {
        let counts = match kind {
            Kind::TieOfFrames => &mut self.frames_tied,
            _ => &mut self.any_tied,
        };
        counts[0] += 1;
        counts[1] += u64::from(real);
    }

    /// Adds another's counts.
    pub fn add(&mut self, other: &Tally) {
        let ours = self.answers.iter_mut().flatten();
        ours.zip(other.answers.iter().flatten()).for_each(|(ours, theirs)| *ours += theirs);
        for (ours, theirs) in self.lengths.iter_mut().zip(other.lengths) {
            *ours |= theirs;
        }
        self.cases += other.cases;
        self.failed += other.failed;
        for k in 0..2 {
            self.frames_tied[k] += other.frames_tied[k];
            self.any_tied[k] += other.any_tied[k];
        }
    }

    /// How many lengths were recovered at least once.
    pub fn lengths(&self) -> usize {
        self.lengths.iter().filter(|&&seen| seen).count()
    }

    /// The kinds that never occurred.
    pub fn missing(&self) -> Vec<&'static str> {
        let unseen = |(row, _): &(usize, _)| self.answers[*row].iter().all(|&count| count == 0);
        KINDS.iter().enumerate().filter(unseen).map(|(_, (_, _, name))| *name).collect()
    }

    /// Kind, cases, done, and refused by each number, for the kinds that occurred.
    pub fn table(&self) -> String {
        let mut ends = vec!["done".to_string()];
        ends.extend((1..=MOST_REFUSAL).map(|number| number.to_string()));
        let kinds =
            self.answers.iter().zip(KINDS).map(|(answers, (_, _, name))| (name, &answers[..]));
        table(&ends, kinds.filter(|(_, answers)| answers.iter().any(|&count| count > 0)))
    }
}
