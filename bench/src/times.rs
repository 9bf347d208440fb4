//! times [ROUNDS] [LIST]: nanoseconds per command of the kernels, for all lists or those whose name has LIST.
//! With the cfg two_places it is times_two_places.
mod clock;
mod controllers;
mod lists;
mod log;
mod measure;
mod original;
mod rattle;
mod script;
mod separate;
mod side;
#[cfg_attr(two_places, path = "two_places.rs")]
mod sides;
#[cfg(not(two_places))]
mod together;

use lists::List;
use measure::Times;
use sides::{ABOUT, RATIOS, SIDES};

fn main() {
    let words: Vec<String> = std::env::args().skip(1).collect();
    let rounds = words.first().map_or(Ok(30), |w| w.parse()).unwrap_or(0);
    if rounds == 0 || words.len() > 2 {
        eprintln!("use: times [ROUNDS] [LIST]");
        std::process::exit(2);
    }
    let wanted = words.get(1).map_or("", |w| w);
    let mut lists = lists::all();
    lists.retain(|l| sides::plays(l) && l.name().contains(wanted));
    side::check(&SIDES, &lists);
    println!("answers: the same from all four, and as expected, on {} lists", lists.len());
    println!("rounds: {rounds}; nanoseconds of processor time per command, best / median");
    println!("{ABOUT}");
    let times = measure::run(&lists, rounds);
    print(&lists, &times);
}

fn print(lists: &[List], times: &[[Times; 4]]) {
    let names: Vec<&str> = SIDES.iter().map(|s| s.column).chain(RATIOS.iter().map(|r| r.0)).collect();
    println!("| controller | nodes, declarations, links (live) | commands | {} |", names.join(" | "));
    println!("|---|---|---{}|", "|---".repeat(names.len()));
    for (list, times) in lists.iter().zip(times) {
        let (_, rest) = list.scripts(1);
        let s = original::sizes(&rest.log, &mut vec![0; rest.len()]);
        let size = format!("{}, {}, {} ({})", s.nodes, s.declarations, s.links, s.live);
        let each = times.iter().map(|t| format!("{:.0} / {:.0}", t.best, t.median));
        let ratios = RATIOS.iter().map(|&(_, a, b)| ratio(times[a], times[b]));
        let columns: Vec<String> = each.chain(ratios).collect();
        println!("| {} | {size} | {} | {} |", list.controller, list.commands, columns.join(" | "));
    }
}

fn ratio(a: Times, b: Times) -> String {
    format!("{:.2} / {:.2}", a.best / b.best, a.median / b.median)
}
