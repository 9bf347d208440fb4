//! expected [--answers | --status | --stop] FILE...: what the log player, or with --stop the program `stop`, must print
//! for each log, by lib.rs's bodies. expected --affected [FILE ID]...: what the program `affected` must print. expected
//! --why [FILE N]...: what the program `why` must print. expected --play FILE...: what the program `play` must print.
// the modules have parts that only the other programs use
#![allow(dead_code)]

mod calls;
mod intended;
mod log;
mod played;
mod reason_text;
mod record;
mod reference;
mod sizes;
mod status;
mod text;

use log::Next;
use played::{lines, play};
use reference::{drained, hit, rows, Reference};

/// The part that is printed: all, the commands' answers alone, the components' status alone, or the drain and the tables
/// that it leaves.
#[derive(Clone, Copy, PartialEq)]
enum Part {
    All,
    Answers,
    Status,
    Stop,
}

fn main() {
    let words: Vec<String> = std::env::args().skip(1).collect();
    if words.first().is_some_and(|word| word == "--affected") {
        words[1..].chunks(2).for_each(|pair| affected(&pair[0], pair.get(1).map_or("", |id| id)));
        return;
    }
    if words.first().is_some_and(|word| word == "--why") {
        words[1..].chunks(2).for_each(|pair| why(&pair[0], pair.get(1).map_or("", |number| number)));
        return;
    }
    if words.first().is_some_and(|word| word == "--play") {
        words[1..].iter().for_each(|file| print_played(file, words.len() > 2));
        return;
    }
    let (part, files) = match words.split_first() {
        Some((word, files)) if word == "--answers" => (Part::Answers, files),
        Some((word, files)) if word == "--status" => (Part::Status, files),
        Some((word, files)) if word == "--stop" => (Part::Stop, files),
        _ => (Part::All, words.as_slice()),
    };
    for file in files {
        let log = read(file);
        if part == Part::All {
            println!("== {}", name(file));
        }
        if part == Part::Stop {
            stop(&log);
        } else {
            print(part, &log);
        }
    }
}

/// A file's name without its folder.
fn name(file: &str) -> &str {
    file.rsplit('/').next().unwrap_or(file)
}

fn read(file: &str) -> Vec<u8> {
    let log = std::fs::read(file).unwrap_or_else(|e| fail(file, &e.to_string()));
    if log.len() > log::LONGEST {
        fail(file, "longer than 65,536 bytes");
    }
    log
}

fn fail(file: &str, why: &str) -> ! {
    eprintln!("expected: {file}: {why}");
    std::process::exit(1);
}

/// A line for each command of the first 65,536 bytes, behind one with the name if there are several files; nothing without
/// a file.
fn print_played(file: &str, several: bool) {
    let Ok(log) = std::fs::read(file) else { return };
    if several {
        println!("== {}", name(file));
    }
    print!("{}", lines(&play(played::read(&log)).0));
}

/// A line for each command, the tables, and a line for each present component, as far as they are asked for.
fn print(part: Part, log: &[u8]) {
    let (answers, reference) = play(log);
    if part != Part::Status {
        print!("{}", lines(&answers));
    }
    if part == Part::All {
        println!("{}", text::tables(&reference.record(0, 0, None)));
    }
    if part != Part::Answers {
        status::lines(reference.kernel()).iter().for_each(|line| println!("{line}"));
    }
}

/// A line for each command of the drain with lib.rs's answer, and the tables that they leave.
fn stop(log: &[u8]) {
    let (_, mut reference) = play(log);
    for (call, answer) in reference.drain() {
        println!("{} {answer}", drained::words(call));
    }
    println!("{}", text::tables(&reference.record(0, 0, None)));
}

/// A word as a number, the largest if it is more than that; none if it is no number.
fn number(word: &str) -> Option<usize> {
    let digits = !word.is_empty() && word.bytes().all(|b| b.is_ascii_digit());
    digits.then(|| word.parse().unwrap_or(usize::MAX))
}

/// The lines of the command with this number; nothing if it is no number or the log has no such command, or without a file.
fn why(file: &str, word: &str) {
    let (Some(number), Ok(log)) = (number(word), std::fs::read(file)) else { return };
    let log = played::read(&log);
    let (mut reference, mut at) = (Reference::new(), 0);
    for _ in 0..number {
        let Next::Command(command, end) = log::read(log, at) else { return };
        reference.play(command);
        at = end;
    }
    let reason = match log::read(log, at) {
        Next::End => return,
        Next::Stop(answer) => Some(rows::ended(answer)),
        Next::Command(command, _) => reference.told(command).unwrap_or_else(|what| panic!("{command:?}: {what}")),
    };
    reason_text::lines(reason.as_ref()).iter().for_each(|line| println!("{line}"));
}

/// A line for each component that is hit, or leave's refusal; nothing for an identity that is no number, or without a file.
fn affected(file: &str, id: &str) {
    let Some(id) = number(id).filter(|_| std::path::Path::new(file).exists()) else { return };
    let (_, reference) = play(&read(file));
    let kernel = reference.kernel();
    let hit = hit::affected(kernel, id);
    match hit.answer {
        0 => hit.ids.iter().for_each(|&id| println!("component {id}: {}", status::phase(kernel, id))),
        1 => println!("refused 1 Unknown"),
        2 => println!("refused 2 InvalidState"),
        answer => panic!("leave answers {answer}"),
    }
}
