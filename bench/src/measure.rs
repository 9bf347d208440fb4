//! Times: interleaved rounds over all lists and sides; best and median of a command.
use crate::clock;
use crate::lists::List;
use crate::script::Script;
use crate::side::Side;
use crate::sides::SIDES;

/// A list repeats its measured commands until they take this many nanoseconds and, where repeating brings that about, are half as many as the others.
const ENOUGH: f64 = 2_000_000.0;
/// The most repeats of a list.
const MOST: usize = 1 << 20;

/// One list on one side: the scripts played, and the nanoseconds of each round with the measured commands and without.
struct Samples {
    whole: Script,
    rest: Script,
    measured: usize,
    with: Vec<f64>,
    without: Vec<f64>,
}

/// Nanoseconds of one measured command.
#[derive(Clone, Copy)]
pub struct Times {
    pub best: f64,
    pub median: f64,
}

/// The times of each list on each side.
pub fn run(lists: &[List], rounds: usize) -> Vec<[Times; 4]> {
    let mut samples: Vec<[Samples; 4]> = lists.iter().map(|l| SIDES.each_ref().map(|s| Samples::new(s, l))).collect();
    for round in 0..rounds {
        for sides in &mut samples {
            for (side, samples) in SIDES.iter().zip(sides) {
                if samples.measured == 1 {
                    // of a single command what the other sides left in the caches would be most of the time
                    time(side, round, &samples.whole);
                }
                samples.with.push(time(side, round, &samples.whole));
                samples.without.push(time(side, round, &samples.rest));
            }
        }
    }
    samples.iter().map(|s| s.each_ref().map(Samples::times)).collect()
}

/// The nanoseconds of a round's play, whose answers must be the script's.
fn time(side: &Side, round: usize, script: &Script) -> f64 {
    let mut answers = vec![0xEE; script.len()];
    let play = side.play(round);
    let start = clock::now();
    let answered = play(&script.log, &mut answers);
    let taken = clock::now() - start;
    assert!(answered == script.len() && answers == script.answers, "wrong answers of {}", side.name);
    taken as f64
}

fn shortest_of_3(side: &Side, script: &Script) -> f64 {
    shortest(&[0, 1, 2].map(|round| time(side, round, script)))
}

fn shortest(times: &[f64]) -> f64 {
    times.iter().copied().fold(f64::INFINITY, f64::min)
}

impl Samples {
    fn new(side: &Side, list: &List) -> Samples {
        // what one more repeat adds to the others
        let added = list.scripts(2).1.len() - list.scripts(1).1.len();
        let outgrow = 2 * list.measured(1) > added;
        let mut repeats = 1;
        loop {
            let (whole, rest) = list.scripts(repeats);
            let measured = list.measured(repeats);
            let many = !outgrow || 2 * measured >= rest.len();
            if repeats >= MOST
                || list.repeats(repeats) < repeats
                || many && shortest_of_3(side, &whole) - shortest_of_3(side, &rest) >= ENOUGH
            {
                return Samples { whole, rest, measured, with: Vec::new(), without: Vec::new() };
            }
            repeats *= 2;
        }
    }

    /// Best: of the shortest play with the measured commands and the shortest without. Median: of the rounds' differences.
    fn times(&self) -> Times {
        let mut differences: Vec<f64> = self.with.iter().zip(&self.without).map(|(w, o)| w - o).collect();
        differences.sort_by(f64::total_cmp);
        let measured = self.measured as f64;
        let best = (shortest(&self.with) - shortest(&self.without)) / measured;
        Times { best, median: differences[differences.len() / 2] / measured }
    }
}
