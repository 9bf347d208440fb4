//! explained [ROUNDS]: nanoseconds of the explanation of a command, by the compiled Rattle kernel, beside the command.
// the modules have parts that only the other programs use
#![allow(dead_code)]
mod clock;
mod controllers;
mod explained_cases;
mod log;
mod rattle;
mod rattle_explained;
mod repeated;
mod script;

use explained_cases::Case;
use rattle_explained::What;

fn main() {
    let words: Vec<String> = std::env::args().skip(1).collect();
    let rounds = words.first().map_or(Ok(30), |w| w.parse()).unwrap_or(0);
    if rounds == 0 || words.len() > 1 {
        eprintln!("use: explained [ROUNDS]");
        std::process::exit(2);
    }
    println!("rounds: {rounds}; nanoseconds of processor time, best / median; (a) the compiled Rattle kernel");
    println!("| controller | command | answer | (a) explain | (a) on a copy | (a) in a log | explain/command |");
    println!("|---|---|---|---|---|---|---|");
    explained_cases::all().iter().for_each(|case| row(case, rounds));
}

/// A command's time is that of a play on a copy of the kernel less the copy's, or in a log where it can be repeated. The
/// ratio of the best times is to the shorter of them; nothing is taken off an explanation.
fn row(case: &Case, rounds: usize) {
    let measure =
        |what: What| repeated::measure(&|times| rattle_explained::times(&case.script, what, times), 1, rounds);
    let [explain, play, copy] = [What::Explain, What::Play, What::Copy].map(measure);
    let on_copy = (play.0 - copy.0, play.1 - copy.1);
    let log = rattle_explained::last(&case.script)
        .map(|last| repeated::measure(&|times| rattle_explained::repeat(&case.script, &last, times), 1, rounds));
    let shorter = log.map_or(on_copy.0, |log| log.0.min(on_copy.0));
    let shown = |(best, median): (f64, f64)| format!("{best:.0} / {median:.0}");
    println!(
        "| {} | {} | {} | {} | {} | {} | {:.2} |",
        case.controller,
        case.command,
        case.script.answers.last().unwrap_or(&0),
        shown(explain),
        shown(on_copy),
        log.map_or("-".to_string(), shown),
        explain.0 / shorter
    );
}
