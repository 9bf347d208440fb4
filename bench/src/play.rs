//! play SIDE LIST REPEATS whole|rest: plays one list on one side, for callgrind; prints how many commands were measured.
#![allow(dead_code)]
mod controllers;
mod lists;
mod log;
mod original;
mod rattle;
mod script;
mod separate;
mod side;
mod sides;
mod together;

fn main() {
    let words: Vec<String> = std::env::args().skip(1).collect();
    let [side, list, repeats, part] = words.as_slice() else {
        eprintln!("use: play SIDE LIST REPEATS whole|rest");
        std::process::exit(2);
    };
    let side = sides::SIDES.iter().find(|s| s.name == side).expect("no such side");
    let list = lists::all().into_iter().find(|l| l.name() == *list).expect("no such list");
    let repeats = repeats.parse().expect("no number");
    let (whole, rest) = list.scripts(repeats);
    let script = if part == "whole" { whole } else { rest };
    let mut answers = vec![0; script.len()];
    let answered = side.play(0)(&script.log, &mut answers);
    assert!(answered == script.len() && answers == script.answers, "wrong answers");
    println!("{}", list.measured(repeats));
}
