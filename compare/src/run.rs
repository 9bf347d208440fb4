//! run COMMANDS SEED [random]: plays logs on lib.rs's bodies and on the compiled kernel, and compares after each
//! command. With `random` the logs written by hand are left out.
// the modules have parts that only the other programs use
#![allow(dead_code)]

mod calls;
mod checks;
mod compare;
mod coverage;
mod episodes;
mod generator;
mod guide;
mod intended;
mod log;
mod lookups;
mod observations;
mod operands;
mod profile;
mod questions;
mod random;
mod rattle;
mod record;
mod reference;
mod scenarios;
mod script;
mod situations;
mod sizes;
mod status_logs;
mod steps;
mod text;

use checks::Rule;
use compare::{Asked, Difference, Made, Tally};
use coverage::Coverage;
use episodes::Episodes;
use random::Random;

/// The kernel's records of one log have to fit, else the rest of the log is not played.
const OUT: usize = 256 << 20;

fn main() {
    let words: Vec<String> = std::env::args().skip(1).collect();
    let numbers: Vec<u64> = words.iter().filter_map(|a| a.parse().ok()).collect();
    let &[commands, seed] = numbers.as_slice() else {
        eprintln!("use: run COMMANDS SEED [random]");
        std::process::exit(2);
    };
    let random_alone = words.iter().any(|w| w == "random");
    let written = if random_alone { Vec::new() } else { [scenarios::all(), status_logs::all().to_vec()].concat() };
    let mut tally = Tally { coverage: Coverage::default(), rule: Rule::new(), episodes: Episodes::new() };
    let mut out = vec![0; OUT];
    let mut random = Random::new(seed);
    println!("seed {seed}");
    for (_, log) in written {
        play(&ask(log, 1, &mut random), &mut out, &mut tally);
    }
    while tally.coverage.commands < commands {
        let asked = random_log(&mut random);
        play(&asked, &mut out, &mut tally);
    }
    tally.coverage.print();
    tally.rule.print();
    tally.episodes.print();
    println!("differences: 0");
}

fn ask(log: Vec<u8>, every: usize, random: &mut Random) -> Asked {
    let questions = questions::of(&log, random);
    Asked { log, questions, every }
}

/// A random log: many short ones with every observer after each command, fewer long ones with observers now and then.
fn random_log(random: &mut Random) -> Asked {
    let (length, small, every) = match random.below(100) {
        0..=49 => (20 + random.below(300), false, 1),
        50..=84 => (500 + random.below(2_000), false, 37),
        85..=97 => (3_000 + random.below(4_000), false, 101),
        _ => (30_000 + random.below(70_000), true, 29),
    };
    let log = generator::log(random, length, small);
    ask(log, every, random)
}

/// Plays a log on the kernel and compares; a log with all observers is played a second time for its answers alone.
fn play(asked: &Asked, out: &mut [u8], tally: &mut Tally) {
    let questions = questions::bytes(&asked.questions);
    let written = rattle::record(&asked.log, &questions, asked.every, out);
    let full = out.len() - written < rattle::ROOM;
    let mut answers = vec![0; asked.log.len()];
    let answered = if asked.every == 1 { Some(rattle::play(&asked.log, &mut answers)) } else { None };
    let made = Made { records: &out[..written], full, answers: answered.map(|n| &answers[..n]) };
    if let Err(difference) = compare::log(asked, &made, tally) {
        report(asked, &difference, tally);
        std::process::exit(1);
    }
}

/// Everything that is needed to see a difference again.
fn report(asked: &Asked, d: &Difference, tally: &Tally) {
    println!("DIFFERENCE after {} commands: {}", tally.coverage.commands + 1, d.what);
    println!("command {} of the log: {}", d.index, text::hex(&asked.log[d.start..d.end]));
    println!("log: {}", text::hex(&asked.log[..d.end]));
    println!("-- lib.rs\n{}", text::record(&d.original));
    match &d.kernel {
        Some(kernel) => println!("-- kernel\n{}", text::record(kernel)),
        None => println!("-- kernel: no whole record"),
    }
}
