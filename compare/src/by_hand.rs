//! by_hand KERNELS SEED CASES ROOM: sound kernels written by hand, and KERNELS random ones, each with commands and
//! questions that are answered by lib.rs's bodies and by the compiled kernel in the program CASES; the lines that it
//! reads are written to the folder ROOM.
// the modules have parts that only the other programs use
#![allow(dead_code)]

mod asked;
mod calls;
mod cases;
mod directed;
mod drained_kernels;
mod hit_kernels;
mod hit_tally;
mod intended;
mod log;
mod lookups;
mod met;
mod random;
mod random_tables;
mod record;
mod reference;
mod session;
mod sizes;
mod sound;
mod tables;
mod text;
mod tried;

use cases::{Difference, Line, Program};
use met::Met;
use random::Random;
use record::Record;

/// So many lines are written before the program is run on them.
const LINES: usize = 100_000;

fn main() {
    let words: Vec<String> = std::env::args().skip(1).collect();
    let numbers: Vec<u64> = words.iter().filter_map(|a| a.parse().ok()).collect();
    let (&[kernels, seed], [_, _, cases, room]) = (numbers.as_slice(), words.as_slice()) else {
        eprintln!("use: by_hand KERNELS SEED CASES ROOM");
        std::process::exit(2);
    };
    let program = Program { path: cases.into(), room: room.into() };
    let (random, damage, lines, met) = (Random::new(seed), Random::new(!seed), Vec::new(), Met::default());
    let mut run = Run { program, random, damage, lines, met };
    println!("seed {seed}");
    run.written(kernels);
    run.random(kernels);
    run_if(true, &run.program, &mut run.lines);
    run.met.print();
    println!("no difference");
}

/// What a run works with. `damage` is of its own, so that a kernel made unsound changes no later one.
struct Run {
    program: Program,
    random: Random,
    damage: Random,
    lines: Vec<Line>,
    met: Met,
}

impl Run {
    /// The kernels written by hand, and those of them on which no command is tried but the drain's.
    fn written(&mut self, random: u64) {
        let (directed, asked) = (directed::all(), [drained_kernels::all(), hit_kernels::all()].concat());
        let (written, more) = (directed.len(), asked.len());
        println!("{written} kernels written by hand, {more} more that are drained and asked who is hit, {random} random ones");
        directed.iter().for_each(|(name, tables)| self.kernel(name, &tables.0, true));
        asked.iter().for_each(|(name, tables)| self.kernel(name, &tables.0, false));
    }

    fn random(&mut self, kernels: u64) {
        for count in 0..kernels {
            let tables = random_tables::sample(&mut self.random);
            self.kernel(&format!("random kernel {count}"), &tables, true);
        }
    }

    /// The lines of a kernel, which has to be sound, and of one that an edit makes unsound.
    fn kernel(&mut self, name: &str, tables: &Record, tried: bool) {
        need_sound(name, tables);
        let (lines, met) = (&mut self.lines, &mut self.met);
        if tried {
            session::play(tables, &mut self.random, lines, met);
        } else {
            session::drain_and_ask(tables, lines, met);
        }
        if let Some(damaged) = drained_kernels::damaged(tables, &mut self.damage) {
            session::damaged(&damaged, lines, met);
        }
        run_if(self.lines.len() > LINES, &self.program, &mut self.lines);
    }
}

fn need_sound(name: &str, tables: &Record) {
    if !sound::sound(tables) {
        eprintln!("by_hand: not sound: {name}\n{}", text::tables(tables));
        std::process::exit(2);
    }
}

/// Runs the program on the lines; a difference ends the run.
fn run_if(due: bool, program: &Program, lines: &mut Vec<Line>) {
    if !due {
        return;
    }
    match program.compare(lines) {
        Ok(None) => lines.clear(),
        Ok(Some(difference)) => {
            report(lines, &difference);
            std::process::exit(1);
        }
        Err(why) => {
            eprintln!("by_hand: {why}");
            std::process::exit(2);
        }
    }
}

/// The kernel, the commands since it was last brought back, the line, and both sides' first line that differs.
fn report(lines: &[Line], d: &Difference) {
    let before = |name: &str| lines[..=d.at].iter().rposition(|l| l.text == name);
    let start = before("new").unwrap_or(0);
    let written = lines[start..=d.at].iter().take_while(|l| l.text != "tables");
    println!("DIFFERENCE after {} commands", lines[d.at].commands);
    println!("-- the kernel as written");
    written.for_each(|l| println!("{}", l.text));
    println!("-- steps");
    let back = before("back").max(before("keep")).unwrap_or(start).max(start);
    let acts = |l: &&Line| l.answer.as_ref().is_none_or(|a| a.ends_with("changed"));
    lines[back + 1..d.at].iter().filter(acts).chain([&lines[d.at]]).for_each(|l| println!("{}", l.text));
    println!("-- lib.rs: {}", d.original);
    println!("-- compiled: {}", d.kernel);
}
