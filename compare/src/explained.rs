//! explained COMMANDS SEED [random]: asks the compiled kernel to explain each command of logs, whole ones and damaged ones,
//! and compares the explanations with lib.rs's bodies. With `random` the logs written by hand are left out.
// the modules have parts that only the other programs use
#![allow(dead_code)]

mod affected_logs;
mod calls;
mod damaged;
mod difference;
mod explained_check;
mod explained_logs;
mod explained_record;
mod explained_tally;
mod generator;
mod guide;
mod intended;
mod log;
mod operands;
mod play_logs;
mod played;
mod profile;
mod random;
mod rattle;
mod record;
mod reference;
mod scenarios;
mod script;
mod sizes;
mod status_logs;
mod steps;
mod stop_logs;
mod text;

use damaged::DAMAGES;
use difference::Difference;
use explained_check::Wrong;
use explained_record::LENGTH;
use explained_tally::Tally;
use random::Random;
use record::Bytes;

struct Run {
    random: Random,
    out: Vec<u8>,
    tally: Tally,
}

fn main() {
    let words: Vec<String> = std::env::args().skip(1).collect();
    let numbers: Vec<u64> = words.iter().filter_map(|a| a.parse().ok()).collect();
    let &[commands, seed] = numbers.as_slice() else {
        eprintln!("use: explained COMMANDS SEED [random]");
        std::process::exit(2);
    };
    let mut run = Run { random: Random::new(seed), out: Vec::new(), tally: Tally::default() };
    println!("seed {seed}");
    if !words.iter().any(|w| w == "random") {
        by_hand().iter().for_each(|log| run.compare("written by hand", log));
    }
    while run.tally.commands < commands {
        run.random();
    }
    run.tally.print();
    println!("differences: 0");
    let never = run.tally.never_met();
    if !never.is_empty() {
        println!("NEVER MET: {}", never.join(", "));
        std::process::exit(1);
    }
}

/// The logs written by hand.
fn by_hand() -> Vec<Vec<u8>> {
    let named = scenarios::all().into_iter().chain(play_logs::all()).chain(explained_logs::all());
    let named = named.chain(status_logs::all()).chain(stop_logs::all()).chain(affected_logs::all());
    named.map(|(_, log)| log).collect()
}

/// A random log: many short ones, fewer long ones.
fn random_log(random: &mut Random) -> Vec<u8> {
    let (length, small) = match random.below(100) {
        0..=69 => (20 + random.below(300), false),
        70..=84 => (500 + random.below(2_000), false),
        85..=97 => (3_000 + random.below(4_000), false),
        _ => (3_000 + random.below(4_000), true),
    };
    generator::log(random, length, small)
}

impl Run {
    /// A random log, of every second one a damaged one too, and now and then random bytes.
    fn random(&mut self) {
        let log = random_log(&mut self.random);
        self.compare("random", &log);
        if self.random.chance(50) {
            let (kind, damage) = self.random.pick(&DAMAGES).unwrap_or(DAMAGES[0]);
            let mut damaged = log;
            damage(&mut damaged, &mut self.random);
            self.compare(kind, &damaged);
        }
        if self.random.chance(10) {
            let bytes = damaged::bytes(&mut self.random);
            self.compare("random bytes", &bytes);
        }
    }

    /// Compares the explanations of a log's commands; a difference ends the run.
    fn compare(&mut self, kind: &'static str, log: &[u8]) {
        // a command has a byte or more
        let room = LENGTH * log.len();
        self.out.resize(self.out.len().max(room), 0);
        let written = rattle::explained(log, &mut self.out[..room]);
        let before = self.tally.commands;
        if let Err(wrong) = explained_check::check(log, Bytes(&self.out[..written]), &mut self.tally) {
            report(before + wrong.command + 1, log, wrong);
            std::process::exit(1);
        }
        self.tally.log(kind);
    }
}

/// A difference with its log, the tables before the command, and both sides.
fn report(commands: u64, log: &[u8], wrong: Wrong) {
    let (_, before) = played::play(&log[..wrong.from]);
    let what = format!("{} of the log's command {}, counted from 0", wrong.what, wrong.command);
    Difference::new(&what, &before, wrong.original, wrong.compiled).after(&log[..wrong.to]).report(commands);
}
