//! The time of one thing that leaves the kernel as it is: done many times behind a setup, less the setup.
use crate::clock;

/// So many nanoseconds a run takes more than its setup, at least.
const ENOUGH: f64 = 2_000_000.0;
/// The most times in one run.
const MOST: usize = 1 << 20;

/// Plays a setup, then does what is measured so many times; the entries that all of them gave.
pub type Measured<'a> = &'a dyn Fn(usize) -> usize;

/// Best and median, in nanoseconds: of a run less one that only plays the setup. Each gives so many entries.
pub fn measure(measured: Measured, entries: usize, rounds: usize) -> (f64, f64) {
    let mut times = 1;
    while times < MOST && run(measured, entries, times) - run(measured, entries, 0) < ENOUGH {
        times *= 2;
    }
    let both = |_| (run(measured, entries, times), run(measured, entries, 0));
    let runs: Vec<(f64, f64)> = (0..rounds).map(both).collect();
    let shortest = |of: fn(&(f64, f64)) -> f64| runs.iter().map(of).fold(f64::INFINITY, f64::min);
    let mut differences: Vec<f64> = runs.iter().map(|(with, without)| with - without).collect();
    differences.sort_by(f64::total_cmp);
    let best = shortest(|r| r.0) - shortest(|r| r.1);
    (best / times as f64, differences[rounds / 2] / times as f64)
}

/// The nanoseconds of a run, whose entries must be as many as they should be.
fn run(measured: Measured, entries: usize, times: usize) -> f64 {
    let start = clock::now();
    let found = measured(times);
    let taken = clock::now() - start;
    assert_eq!(found, entries * times, "another number of entries");
    taken as f64
}
