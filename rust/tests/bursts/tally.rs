//! What was seen, kind by kind.

use crate::table::table;

/// The ways in which a burst ends.
const ENDS: [&str; 5] = ["heard", "silent", "faulty", "2", "3"];

/// The counts of a run.
pub struct Tally {
    /// Each kind and how many of its bursts ended in each way.
    kinds: Vec<(&'static str, [u64; ENDS.len()])>,
    pub failed: u64,
}

impl Tally {
    /// No bursts of these kinds.
    pub fn new(kinds: impl Iterator<Item = &'static str>) -> Tally {
        Tally { kinds: kinds.map(|kind| (kind, [0; ENDS.len()])).collect(), failed: 0 }
    }

    /// Counts a burst, by the fields of its finding or its refusal.
    pub fn count(&mut self, kind: &'static str, expected: &Result<Vec<u32>, u32>, failed: bool) {
        let end = match expected {
            Ok(fields) => fields[0] - 1,
            Err(refusal) => refusal + 1,
        };
        let mut kinds = self.kinds.iter_mut();
        let (_, ends) = kinds.find(|(name, _)| *name == kind).expect("every kind is listed");
        ends[end as usize] += 1;
        self.failed += u64::from(failed);
    }

    /// How many were counted.
    pub fn bursts(&self) -> u64 {
        self.kinds.iter().flat_map(|(_, ends)| ends).sum()
    }

    /// Kind, cases, and the ways in which they ended.
    pub fn table(&self) -> String {
        table(&ENDS, self.kinds.iter().map(|(kind, ends)| (*kind, &ends[..])))
    }
}
