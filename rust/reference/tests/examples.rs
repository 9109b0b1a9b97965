//! The report's line for the example captures of this repository, made by another model still.

use std::fs;
use std::path::Path;

use reference::{report_line, Rule};

#[test]
fn lines_of_the_examples() {
    let folder = Path::new(env!("CARGO_MANIFEST_DIR")).join("../../examples");
    let mut seen = 0;
    for entry in fs::read_dir(folder).expect("the folder examples is there") {
        let path = entry.expect("it can be listed").path();
        if path.extension().is_some_and(|extension| extension == "capture") {
            let capture = fs::read(&path).expect("a capture can be read");
            let line = fs::read_to_string(path.with_extension("line")).expect("its line too");
            assert_eq!(report_line(Rule::Paper, &capture) + "\n", line, "{}", path.display());
            seen += 1;
        }
    }
    assert!(seen >= 6);
}

#[test]
fn lines_that_document_01_gives() {
    assert_eq!(report_line(Rule::Paper, &[]), "REFUSED 10");
    let silent = reference::write_capture(20, &[0; 24], &[9; 576], 679).unwrap();
    assert_eq!(silent.len(), 679);
    assert_eq!(report_line(Rule::Paper, &silent), "REFUSED 6");
}

#[test]
fn no_more_than_7260_bytes_are_kept() {
    let longest = reference::write_capture(255, &[0; 259], &[9; 6216], 7259).unwrap();
    let mut longer = longest.clone();
    assert_eq!(report_line(Rule::Paper, &longest), "REFUSED 6");
    longer.resize(7260, 0);
    assert_eq!(report_line(Rule::Paper, &longer), "REFUSED 10");
    longer.resize(100_000, 0);
    assert_eq!(report_line(Rule::Paper, &longer), "REFUSED 10");
}
