//! affected [ROUNDS]: nanoseconds of the list of who is hit, by the compiled Rattle kernel, beside its leave and beside
//! plain Rust that asks target of every component before a leave and after it.
// the modules have parts that only the other programs use
#![allow(dead_code)]
mod clock;
mod controllers;
mod lists;
mod log;
mod measure;
mod original;
mod rattle;
mod rattle_asked;
mod repeated;
mod script;
mod separate;
mod side;
mod sides;
mod together;

use controllers::Controller;
use script::Script;
use std::hint::black_box;

fn main() {
    let words: Vec<String> = std::env::args().skip(1).collect();
    let rounds = words.first().map_or(Ok(30), |w| w.parse()).unwrap_or(0);
    if rounds == 0 || words.len() > 1 {
        eprintln!("use: affected [ROUNDS]");
        std::process::exit(2);
    }
    let controllers = [controllers::typical(), controllers::scaled(64)];
    controllers.iter().for_each(check);
    println!("lists: the same from both, of every component of {} kernels", controllers.len());
    println!("rounds: {rounds}; nanoseconds of processor time, best / median");
    println!("(a) the compiled Rattle kernel; (c) plain Rust as a crate of its own, with an entry test in its leave");
    println!("| controller | component | hit | (a) affected | (a) leave | affected/leave | (c) by targets | c/a |");
    println!("|---|---|---|---|---|---|---|---|");
    for controller in &controllers {
        rows(controller, rounds);
    }
}

/// Both lists of each component must be the same; the program ends loudly if they are not.
fn check(c: &Controller) {
    for id in 0..c.components {
        let hits = rattle_asked::hits(&c.setup, id);
        let mut same = false;
        played(&c.setup, |kernel| {
            let affected = kernel.affected(id.into());
            same = affected.answer.is_ok() && affected.ids[..affected.count] == hits;
        });
        assert!(same, "the lists of {} of {} differ", id, c.name);
    }
}

/// The plain kernel that a setup leaves.
fn played(setup: &Script, then: impl FnOnce(plain::Kernel)) {
    let mut answers = vec![0; setup.len()];
    separate::play_then(&setup.log, &mut answers, then);
    assert!(answers == setup.answers, "wrong answers of plain Rust");
}

fn by_targets(setup: &Script, id: u8, times: usize) -> usize {
    let mut hits = 0;
    played(setup, |kernel| {
        for _ in 0..times {
            hits += black_box(black_box(&kernel).clone().affected(id.into())).count;
        }
    });
    hits
}

/// A row for the component that most are hit by, and one for the last, which nobody relies on.
fn rows(c: &Controller, rounds: usize) {
    let leave = measure::run(&[lists::leaves(c)], rounds)[0][0];
    let hits = |id: u8| rattle_asked::hits(&c.setup, id).len();
    let most = (0..c.components).rev().max_by_key(|&id| hits(id)).expect("a controller has components");
    for id in [most, c.components - 1] {
        let (best, median) = repeated::measure(&|times| rattle_asked::affected(&c.setup, id, times), hits(id), rounds);
        let plain = repeated::measure(&|times| by_targets(&c.setup, id, times), hits(id), rounds);
        println!(
            "| {} | {id} | {} | {best:.0} / {median:.0} | {:.0} / {:.0} | {:.2} | {:.0} / {:.0} | {:.1} |",
            c.name,
            hits(id),
            leave.best,
            leave.median,
            best / leave.best,
            plain.0,
            plain.1,
            plain.0 / best
        );
    }
}
