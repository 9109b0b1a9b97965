//! The line of the report program, document 01.

use crate::{read_capture, recover, Rule};

/// The most bytes of its input that the report program keeps: one more than any capture has.
const KEPT: usize = 7260;

/// The line that is printed for an input, without its line feed.
pub fn report_line(rule: Rule, capture: &[u8]) -> String {
    match report(rule, &capture[..capture.len().min(KEPT)]) {
        Ok(line) => line,
        Err(number) => format!("REFUSED {number}"),
    }
}

fn report(rule: Rule, capture: &[u8]) -> Result<String, u32> {
    let read = read_capture(capture, 259, 6216)?;
    let recovered = recover(rule, read.length.into(), &read.marks, &read.values, 255)?;
    let hex: String = recovered.message.iter().map(|byte| format!("{byte:02x}")).collect();
    let (length, mode, cost) = (recovered.length, recovered.mode, recovered.cost);
    Ok(format!("OK {length} {mode} {cost} {hex}"))
}
