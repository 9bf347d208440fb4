//! logs SEED DIR: writes the log files that the program `replay` plays. logs shift FILE: writes the sample shift. logs
//! status DIR, logs stop DIR, logs affected DIR, logs why DIR, logs play DIR: writes those that the programs of these
//! names play. logs explained DIR: writes those where the first of several witnesses must be named.
// the modules have parts that only `run` uses
#![allow(dead_code)]

mod affected_logs;
mod explained_logs;
mod generator;
mod guide;
mod log;
mod operands;
mod play_logs;
mod profile;
mod random;
mod scenarios;
mod script;
mod sizes;
mod status_logs;
mod steps;
mod stop_logs;
mod why_logs;

use random::Random;

/// How many random logs follow the scenarios, and how many commands each has, about.
const RANDOM_LOGS: usize = 18;

fn main() -> std::io::Result<()> {
    let words: Vec<String> = std::env::args().skip(1).collect();
    let [first, path] = words.as_slice() else { usage() };
    if first == "shift" {
        return std::fs::write(path, scenarios::shift());
    }
    if let Some(named) = named(first) {
        return named.iter().try_for_each(|(name, log)| std::fs::write(format!("{path}/{name}"), log));
    }
    let Ok(seed) = first.parse() else { usage() };
    let scenarios = scenarios::all().into_iter().map(|(_, log)| log);
    for (number, log) in scenarios.chain(random_logs(seed)).enumerate() {
        assert!(log.len() <= log::LONGEST, "log{number:02} is too long");
        std::fs::write(format!("{path}/log{number:02}"), log)?;
    }
    Ok(())
}

/// The logs of a program, each with the name of its file.
fn named(program: &str) -> Option<Vec<(&'static str, Vec<u8>)>> {
    match program {
        "status" => Some(status_logs::all().to_vec()),
        "stop" => Some(stop_logs::all().to_vec()),
        "affected" => Some(affected_logs::all().to_vec()),
        "why" => Some(why_logs::all()),
        "play" => Some(play_logs::all()),
        "explained" => Some(explained_logs::all()),
        _ => None,
    }
}

fn usage() -> ! {
    eprintln!("use: logs SEED DIR | shift FILE | status DIR | stop DIR | affected DIR | why DIR | play DIR | explained DIR");
    std::process::exit(2);
}

/// Random logs that fit the log player; every third keeps its tables short.
fn random_logs(seed: u64) -> Vec<Vec<u8>> {
    let mut random = Random::new(seed);
    let mut made = Vec::new();
    while made.len() < RANDOM_LOGS {
        let length = 200 + 150 * made.len();
        let log = generator::log(&mut random, length, made.len() % 3 == 2);
        if log.len() <= log::LONGEST {
            made.push(log);
        }
    }
    made
}
