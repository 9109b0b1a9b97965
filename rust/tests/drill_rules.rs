//! Whether the drill set would notice a wrong build. Every capture of drill/ is answered by the
//! paper's rule, which must give the expected line, and by each wrong rule, which must miss enough
//! of them. Prints which kinds of capture catch which rule.

use std::collections::BTreeMap;
use std::path::{Path, PathBuf};
use std::process::ExitCode;
use std::{env, fs, thread};

use reference::{report_line, Rule};

/// Every wrong rule must be caught by as many captures as this at least.
const LEAST: usize = 3;

struct Capture {
    kind: String,
    data: Vec<u8>,
    line: String,
}

fn main() -> ExitCode {
    let captures = captures(&Path::new(env!("CARGO_MANIFEST_DIR")).join("../drill"));
    println!(
        "{} captures of the drill set; a rule is caught where its line is another",
        captures.len()
    );
    let mut failed = 0;
    let rules = [&[Rule::Paper], Rule::ALL_WRONG].concat();
    for &rule in &rules {
        let caught = caught(rule, &captures);
        let total: usize = caught.values().sum();
        let good = enough(rule, total, captures.len());
        failed += usize::from(!good);
        let sign = if good { "ok:    " } else { "FAILED:" };
        println!("{sign} {:40} {total:4}  {}", rule.name(), spelt(&caught));
    }
    println!("{} passed, {failed} failed", rules.len() - failed);
    ExitCode::from(u8::from(failed > 0))
}

/// Whether a rule misses as many lines as it should: the paper's none, a shift the other way more
/// than half, the other wrong ones some.
fn enough(rule: Rule, caught: usize, all: usize) -> bool {
    match rule {
        Rule::Paper => caught == 0 && all > 0,
        Rule::ShiftTheOtherWay => caught > all / 2,
        _ => caught >= LEAST,
    }
}

/// How many captures of each kind a rule answers with another line than the expected one.
fn caught(rule: Rule, captures: &[Capture]) -> BTreeMap<&str, usize> {
    let threads = thread::available_parallelism().map_or(1, |count| count.get());
    let share = captures.len().div_ceil(threads).max(1);
    let missed = |part: &'_ [Capture]| -> Vec<bool> {
        part.iter().map(|capture| report_line(rule, &capture.data) != capture.line).collect()
    };
    let missed: Vec<bool> = thread::scope(|scope| {
        let parts: Vec<_> =
            captures.chunks(share).map(|part| scope.spawn(move || missed(part))).collect();
        parts.into_iter().flat_map(|part| part.join().expect("the reference answers")).collect()
    });
    let mut kinds = BTreeMap::new();
    for (capture, _) in captures.iter().zip(missed).filter(|(_, missed)| *missed) {
        *kinds.entry(capture.kind.as_str()).or_insert(0) += 1;
    }
    kinds
}

fn spelt(kinds: &BTreeMap<&str, usize>) -> String {
    let each: Vec<_> = kinds.iter().map(|(kind, count)| format!("{kind} {count}")).collect();
    each.join(", ")
}

/// The captures of the set, with their lines, in order of their names.
fn captures(set: &Path) -> Vec<Capture> {
    let mut found = Vec::new();
    for kind in entries(set).into_iter().filter(|path| path.is_dir()) {
        let captures = entries(&kind).into_iter();
        for path in captures.filter(|path| path.extension().is_some_and(|end| end == "capture")) {
            let line = read(&path.with_extension("line"));
            let line = String::from_utf8(line).expect("a line is text");
            let line = line.strip_suffix('\n').expect("a line ends with a line feed").to_string();
            let kind = kind.file_name().expect("a kind has a name").to_string_lossy().into_owned();
            found.push(Capture { kind, data: read(&path), line });
        }
    }
    found
}

fn entries(folder: &Path) -> Vec<PathBuf> {
    let folder_entries =
        fs::read_dir(folder).unwrap_or_else(|error| panic!("{}: {error}", folder.display()));
    let mut paths: Vec<_> =
        folder_entries.map(|entry| entry.expect("a folder can be read").path()).collect();
    paths.sort();
    paths
}

fn read(path: &Path) -> Vec<u8> {
    fs::read(path).unwrap_or_else(|error| panic!("{}: {error}", path.display()))
}
