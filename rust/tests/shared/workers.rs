//! Work that is shared out among all processors.

use std::io::{stderr, IsTerminal, Write};
use std::iter;
use std::sync::atomic::{AtomicU64, Ordering};
use std::thread;
use std::time::{Duration, Instant};

/// Does the pieces of work from 0 on. Each thread takes the next one that none has taken, until
/// none is left, and answers what it saw. With `said`, which puts into words how many are taken,
/// progress is told.
pub fn share_out<T: Send>(
    pieces: u64,
    said: Option<impl Fn(u64) -> String>,
    work: impl Fn(&mut dyn Iterator<Item = u64>) -> T + Sync,
) -> Vec<T> {
    let next = AtomicU64::new(0);
    let take = || Some(next.fetch_add(1, Ordering::Relaxed)).filter(|&piece| piece < pieces);
    let threads = thread::available_parallelism().map_or(1, |count| count.get());
    thread::scope(|scope| {
        let work = || work(&mut iter::from_fn(take));
        let workers: Vec<_> = (0..threads).map(|_| scope.spawn(work)).collect();
        if let Some(said) = said {
            let progress = || said(next.load(Ordering::Relaxed).min(pieces));
            tell_progress(progress, || workers.iter().all(|worker| worker.is_finished()));
        }
        workers.into_iter().map(|worker| worker.join().expect("no piece panics")).collect()
    })
}

/// Prints how far the work is every few seconds, until it is finished.
fn tell_progress(progress: impl Fn() -> String, finished: impl Fn() -> bool) {
    let (end, every) = if stderr().is_terminal() { ("\r", 2) } else { ("\n", 10) };
    let mut told = Instant::now();
    while !finished() {
        thread::sleep(Duration::from_millis(100));
        if told.elapsed() >= Duration::from_secs(every) {
            told = Instant::now();
            eprint!("{}{end}", progress());
            let _ = stderr().flush();
        }
    }
    if stderr().is_terminal() {
        eprintln!();
    }
}
