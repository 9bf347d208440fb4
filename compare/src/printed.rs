//! printed COMMANDS SEED [random]: prints logs by the compiled kernel, whole ones and damaged ones, into buffers of many
//! lengths, and compares the text with that of lib.rs's bodies. With `random` the logs written by hand are left out.
// the modules have parts that only the other programs use
#![allow(dead_code)]

mod affected_logs;
mod calls;
mod damaged;
mod edges;
mod generator;
mod guide;
mod intended;
mod log;
mod operands;
mod play_logs;
mod played;
mod print_buffer;
mod print_tally;
mod profile;
mod random;
mod rattle;
mod record;
mod reference;
mod scenarios;
mod script;
mod sizes;
mod status_logs;
mod steps;
mod stop_logs;
mod text;

use damaged::DAMAGES;
use print_buffer::{Buffer, Wrong, MOST};
use print_tally::Tally;
use random::Random;

/// A log of at most so many bytes is short: if it is written by hand it is printed into buffers of every length up to its
/// text's, and cut at every byte; if it is random it is damaged more often.
const SHORT: usize = 400;
/// A longer one written by hand is printed into buffers of every length up to this.
const SMALL: usize = 20;

struct Run {
    random: Random,
    buffer: Buffer,
    tally: Tally,
}

fn main() {
    let words: Vec<String> = std::env::args().skip(1).collect();
    let numbers: Vec<u64> = words.iter().filter_map(|a| a.parse().ok()).collect();
    let &[commands, seed] = numbers.as_slice() else {
        eprintln!("use: printed COMMANDS SEED [random]");
        std::process::exit(2);
    };
    let mut run = Run { random: Random::new(seed), buffer: Buffer::new(), tally: Tally::default() };
    println!("seed {seed}");
    if !words.iter().any(|w| w == "random") {
        run.by_hand();
    }
    while run.tally.commands < commands {
        run.random();
    }
    run.tally.print();
    println!("differences: 0");
}

/// The logs written by hand.
fn by_hand() -> Vec<Vec<u8>> {
    let named = scenarios::all().into_iter().chain(play_logs::all());
    let named = named.chain(status_logs::all()).chain(stop_logs::all()).chain(affected_logs::all());
    named.map(|(_, log)| log).collect()
}

/// A random log: many short ones, fewer long ones.
fn random_log(random: &mut Random) -> Vec<u8> {
    let length = match random.below(100) {
        0..=69 => 20 + random.below(300),
        70..=94 => 500 + random.below(2_000),
        _ => 3_000 + random.below(4_000),
    };
    generator::log(random, length, false)
}

impl Run {
    fn by_hand(&mut self) {
        for log in by_hand() {
            let short = log.len() <= SHORT;
            self.compare("written by hand", &log, if short { MOST } else { SMALL });
            for end in 0..if short { log.len() } else { 0 } {
                self.compare("written by hand, cut at each byte", &log[..end], 0);
            }
        }
        for byte in 0..=255 {
            self.compare("each byte alone", &[byte], MOST);
            self.compare("each byte before a shift", &[vec![byte], scenarios::shift()].concat(), 0);
        }
        for log in edges::written() {
            self.compare("each command at each place of byte 65,536", &log, 2);
        }
    }

    /// A random log, then damaged ones made from it, and one of random bytes.
    fn random(&mut self) {
        let edge = self.random.below(20) == 0;
        let (kind, log) = match edge {
            true => ("random, reaching byte 65,536", edges::random_log(&mut self.random)),
            false => ("random", random_log(&mut self.random)),
        };
        self.compare(kind, &log, 0);
        for _ in 0..if log.len() > SHORT { 2 } else { 6 } {
            let (kind, damage) = self.random.pick(&DAMAGES).unwrap_or(DAMAGES[0]);
            let mut damaged = log.clone();
            damage(&mut damaged, &mut self.random);
            self.compare(kind, &damaged, 0);
        }
        let bytes = damaged::bytes(&mut self.random);
        self.compare("random bytes", &bytes, 0);
    }

    /// Compares the text of a log: with room for it, with every room below the number given, and sometimes with another that
    /// is too short. A difference ends the run.
    fn compare(&mut self, kind: &'static str, log: &[u8], small: usize) {
        let (answers, _) = played::play(played::read(log));
        let text = played::lines(&answers);
        let more = text.len() + self.random.below(9);
        let room = self.random.pick(&[MOST, text.len(), more.min(MOST)]).unwrap_or(MOST);
        let other = self.random.below(4 * text.len().max(1));
        let too_short = (0..small).take(text.len()).chain((other < text.len()).then_some(other));
        for length in [room].into_iter().chain(too_short) {
            if let Err(wrong) = self.buffer.compare(log, text.as_bytes(), length) {
                report(self.tally.commands, log, length, &wrong);
                std::process::exit(1);
            }
            self.tally.buffer(length < text.len());
        }
        self.tally.log(kind, log, &answers);
    }
}

/// Everything that is needed to see a difference again.
fn report(commands: u64, log: &[u8], length: usize, wrong: &Wrong) {
    println!("DIFFERENCE after {} commands: {}", commands + wrong.line as u64 + 1, wrong.what);
    println!("log of {} bytes, into a buffer of {length}: {}", log.len(), text::hex(log));
    println!("-- lib.rs: {}", wrong.original);
    println!("-- compiled: {}", wrong.compiled);
}
