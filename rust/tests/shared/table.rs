//! A table of counts, kind by kind.

/// A line for each kind with its cases and how many of them ended in each way, and their sums.
pub fn table<'a>(
    ends: &[impl AsRef<str>],
    kinds: impl Iterator<Item = (&'a str, &'a [u64])>,
) -> String {
    let mut table = line("kind", "cases", ends.iter().map(|end| end.as_ref().to_string()));
    let mut sums = vec![0; ends.len()];
    for (kind, counts) in kinds {
        table += &counted(kind, counts);
        sums.iter_mut().zip(counts).for_each(|(sum, count)| *sum += count);
    }
    table + &counted("together", &sums)
}

fn counted(kind: &str, counts: &[u64]) -> String {
    let shown = |count: &u64| if *count == 0 { "-".into() } else { count.to_string() };
    line(kind, &counts.iter().sum::<u64>().to_string(), counts.iter().map(shown))
}

fn line(kind: &str, cases: &str, ends: impl Iterator<Item = String>) -> String {
    let ends: String = ends.map(|end| format!("{end:>8}")).collect();
    format!("{kind:32}{cases:>8}{ends}\n")
}
