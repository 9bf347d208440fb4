//! copies [LIST]: bytes copied and filled per command by memcpy, memmove and memset, and the sizes of 1 KB and more.
//! With the cfg two_places it is copies_two_places.
#![allow(dead_code)]
mod controllers;
mod lists;
mod log;
mod original;
mod rattle;
mod script;
mod separate;
mod side;
#[cfg_attr(two_places, path = "two_places.rs")]
mod sides;
#[cfg(not(two_places))]
mod together;
mod wrapped;

use script::Script;
use side::Side;
use sides::SIDES;
use wrapped::Counted;

const REPEATS: usize = 4;

fn main() {
    let wanted = std::env::args().nth(1).unwrap_or_default();
    println!("| list | kernel | bytes copied | bytes filled | copies of 1 KB and more: size x calls |");
    println!("|---|---|---|---|---|");
    for list in lists::all().iter().filter(|l| sides::plays(l) && l.name().starts_with(&wanted)) {
        let (whole, rest) = list.scripts(REPEATS);
        for side in &SIDES {
            let (with, without) = (counted(side, &whole), counted(side, &rest));
            let commands = (list.measured(REPEATS) * side.plays.len()) as f64;
            let per_command = |w: &[u64], o: &[u64]| -> Vec<f64> {
                w.iter().zip(o).map(|(w, o)| (*w as f64 - *o as f64) / commands).collect()
            };
            let copies = per_command(&with.copies, &without.copies);
            let fills = per_command(&with.fills, &without.fills);
            println!(
                "| {} | {} | {:.0} | {:.0} | {} |",
                list.name(),
                side.name,
                bytes(&copies),
                bytes(&fills),
                large(&copies)
            );
        }
    }
}

/// What a play by each of the side's players calls.
fn counted(side: &Side, script: &Script) -> Counted {
    let before = wrapped::so_far();
    for play in side.plays {
        let mut answers = vec![0; script.len()];
        let answered = play(&script.log, &mut answers);
        assert!(answered == script.len() && answers == script.answers, "wrong answers of {}", side.name);
    }
    let after = wrapped::so_far();
    let less = |a: Vec<u64>, b: Vec<u64>| a.iter().zip(&b).map(|(a, b)| a - b).collect();
    Counted { copies: less(after.copies, before.copies), fills: less(after.fills, before.fills) }
}

fn bytes(calls: &[f64]) -> f64 {
    calls.iter().enumerate().map(|(size, calls)| size as f64 * calls).sum()
}

fn large(calls: &[f64]) -> String {
    let shown = calls.iter().enumerate().rev().filter(|(size, calls)| *size >= 1024 && **calls > 0.004);
    shown.map(|(size, calls)| format!("{size} x {calls:.2}")).collect::<Vec<_>>().join(", ")
}
