//! drains [ROUNDS]: nanoseconds of a drain's list and of a stop, by the compiled Rattle kernel, beside plain Rust that
//! finds the list by commands.
// the modules have parts that only the other programs use
#![allow(dead_code)]
mod chains;
mod clock;
mod controllers;
mod log;
mod original;
mod rattle;
mod rattle_asked;
mod repeated;
mod script;
mod separate;

use plain::{Drain, StepCommand};
use script::Script;
use std::hint::black_box;

/// A controller's name, and the log that sets it up.
type Setup = (String, Script);
/// Plays a log, then does what is measured so many times; the steps of all of them.
type Measured = fn(&Script, usize) -> usize;

const SIDES: [(&str, Measured); 3] =
    [("(a) list", rattle_asked::drains), ("(a) stop", rattle_asked::stops), ("(c) by commands", by_commands)];

fn main() {
    let words: Vec<String> = std::env::args().skip(1).collect();
    let rounds = words.first().map_or(Ok(30), |w| w.parse()).unwrap_or(0);
    if rounds == 0 || words.len() > 1 {
        eprintln!("use: drains [ROUNDS]");
        std::process::exit(2);
    }
    let setups = setups();
    setups.iter().for_each(check);
    println!("lists: the same from both, on {} kernels", setups.len());
    println!("rounds: {rounds}; nanoseconds of processor time per drain, best / median");
    println!(
        "(a) the compiled Rattle kernel; (c) plain Rust as a crate of its own, with an entry test in each command"
    );
    println!(
        "| controller | nodes, declarations, links (live) | steps | {} | c/a, lists |",
        SIDES.map(|s| s.0).join(" | ")
    );
    println!("|---|---|---|---|---|---|---|");
    for setup in &setups {
        row(setup, rounds);
    }
}

fn setups() -> Vec<Setup> {
    let scaled = [controllers::typical(), controllers::scaled(64)].map(|c| (c.name, c.setup));
    let sizes = [8, 16, 32, 64];
    let chains = sizes.map(|n| (format!("chain of {n}"), chains::chain(n)));
    let pairs = sizes.map(|n| (format!("{} pairs", n / 2), chains::pairs(n)));
    scaled.into_iter().chain(chains).chain(pairs).collect()
}

/// Both lists must be the same; the program ends loudly if they are not.
fn check((name, setup): &Setup) {
    let list = rattle_asked::steps(setup);
    let mut same = false;
    played(setup, |kernel| same = steps(&kernel.drain()) == list);
    assert!(same, "the lists of {name} differ");
}

/// The steps below the count, as a log has them.
fn steps(drain: &Drain) -> Vec<u8> {
    let byte = |command| match command {
        StepCommand::Leave => log::LEAVE,
        StepCommand::BeginCleanup => log::BEGIN_CLEANUP,
        StepCommand::FinishCleanup => log::FINISH_CLEANUP,
    };
    drain.steps[..drain.count].iter().flat_map(|s| [byte(s.command), s.id as u8]).collect()
}

/// The plain kernel that a setup leaves.
fn played(setup: &Script, then: impl FnOnce(plain::Kernel)) {
    let mut answers = vec![0; setup.len()];
    separate::play_then(&setup.log, &mut answers, then);
    assert!(answers == setup.answers, "wrong answers of plain Rust");
}

fn by_commands(setup: &Script, times: usize) -> usize {
    let mut steps = 0;
    played(setup, |kernel| {
        for _ in 0..times {
            steps += black_box(black_box(&kernel).clone().drain()).count;
        }
    });
    steps
}

fn row(setup: &Setup, rounds: usize) {
    let (name, script) = setup;
    let steps = rattle_asked::steps(script).len() / 2;
    let times = SIDES.map(|(_, side)| repeated::measure(&|times| side(script, times), steps, rounds));
    let s = original::sizes(&script.log, &mut vec![0; script.len()]);
    let size = format!("{}, {}, {} ({})", s.nodes, s.declarations, s.links, s.live);
    let columns = times.map(|(best, median)| format!("{best:.0} / {median:.0}"));
    println!("| {name} | {size} | {steps} | {} | {:.1} |", columns.join(" | "), times[2].0 / times[0].0);
}
