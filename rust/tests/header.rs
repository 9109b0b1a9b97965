//! The crate says what the C header says: numbers, sentences and sizes.

use std::fs;
use std::path::Path;

use gloamstrother::*;

fn header() -> String {
    text_of("../include/gloamstrother.h")
}

/// A file of the repository, by its path from here.
fn text_of(path: &str) -> String {
    let path = Path::new(env!("CARGO_MANIFEST_DIR")).join(path);
    fs::read_to_string(&path).unwrap_or_else(|error| panic!("{}: {error}", path.display()))
}

/// What stands between `before` and `after` in each line that has both, in the order of lines.
fn between<'a>(text: &'a str, before: &str, after: &str) -> Vec<(&'a str, &'a str)> {
    let cut = |line: &'a str| line.trim().strip_prefix(before)?.split_once(after);
    text.lines().filter_map(cut).collect()
}

/// The digits at the start of a text.
fn digits(text: &str) -> &str {
    text.split(|sign: char| !sign.is_ascii_digit()).next().unwrap()
}

#[test]
fn refusals_have_the_header_s_numbers_and_sentences() {
    let header = header();
    let numbers = between(&header, "GLOAM_REFUSED_", " = ");
    let sentences = between(&header, "case GLOAM_REFUSED_", ": return \"");
    assert!(numbers.len() >= 10);
    assert_eq!(numbers.len(), sentences.len());
    for ((name, number), (same_name, sentence)) in numbers.into_iter().zip(sentences) {
        assert_eq!(name, same_name);
        let digits = digits(number);
        let refusal = Refusal::from_number(digits.parse().unwrap()).unwrap();
        assert_eq!(refusal.number().to_string(), digits);
        assert_eq!(Some(refusal.to_string().as_str()), sentence.strip_suffix("\";"));
        assert_ne!(refusal, Refusal::Unknown(refusal.number()), "{name} has a name");
    }
}

#[test]
fn other_numbers() {
    assert_eq!(Refusal::from_number(0), None);
    assert_eq!(Refusal::from_number(4711), Some(Refusal::Unknown(4711)));
    assert_eq!(Refusal::Unknown(4711).number(), 4711);
    assert!(Refusal::Unknown(4711).to_string().contains("4711"));
}

#[test]
fn sizes_are_the_header_s() {
    let most =
        [MOST_MESSAGE_SIZE, MOST_FRAME_SIZE, MOST_MARKS_SIZE, MOST_VALUES_SIZE, MOST_CAPTURE_SIZE];
    assert_eq!(most, [255, 9324, 259, 6216, 7259]);
    assert!(header().contains("255, 9324, 259, 6216 and 7259 bytes"));
    assert!(header().contains(&format!("#define GLOAM_MOST_COST {MOST_COST}\n")));
    assert!(header().contains(&format!("#define GLOAM_LEAST_LENGTH {LEAST_LENGTH}\n")));
    assert!(header().contains(&format!("#define GLOAM_MOST_LENGTH {MOST_LENGTH}\n")));
    assert!(header().contains(&format!("#define GLOAM_BURST_VALUES {BURST_VALUES}\n")));
    let least = [frame_size(20), marks_size(20), values_size(20), capture_size(20)];
    assert_eq!(least, [864, 24, 576, 679]);
}

#[test]
fn findings_have_the_header_s_numbers() {
    let header = header();
    let findings = [
        ("GLOAM_HEARD", Finding::Heard { peak: 1.0 }),
        ("GLOAM_SILENT", Finding::Silent),
        ("GLOAM_FAULTY", Finding::Faulty),
    ];
    for (name, finding) in findings {
        let numbers: Vec<_> =
            between(&header, name, " = ").iter().map(|(_, n)| digits(n)).collect();
        assert_eq!(numbers, [finding.number().to_string()], "{name}");
    }
}

#[test]
fn the_version_is_the_header_s_the_archive_s_and_the_release_s() {
    assert!(header().contains(&format!("#define GLOAM_VERSION {VERSION}\n")));
    assert_eq!(archive_version(), VERSION);
    let release = text_of("../VERSION");
    assert_eq!(release.trim_end(), env!("CARGO_PKG_VERSION"));
    let parts: Vec<u32> = release.trim_end().split('.').map(|part| part.parse().unwrap()).collect();
    assert_eq!(parts.iter().fold(0, |number, part| 100 * number + part), VERSION);
}
