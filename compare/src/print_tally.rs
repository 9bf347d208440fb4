//! What a comparison of printed logs met.
use crate::log::{self, Next, CUT, LONGEST, NO_COMMAND};
use std::collections::BTreeMap;

#[derive(Default)]
pub struct Tally {
    /// Lines that were compared.
    pub commands: u64,
    logs: u64,
    /// Lines by their answer.
    answers: [u64; 13],
    /// Logs of more than 65,536 bytes, and those of them whose last command has operands on both sides of the edge.
    longer: u64,
    crossing: u64,
    /// Logs by the number of bytes that stand before the edge of a command that crosses it.
    before: [u64; 18],
    buffers: u64,
    too_short: u64,
    kinds: BTreeMap<&'static str, u64>,
}

impl Tally {
    pub fn buffer(&mut self, too_short: bool) {
        self.buffers += 1;
        self.too_short += u64::from(too_short);
    }

    pub fn log(&mut self, kind: &'static str, log: &[u8], answers: &[u8]) {
        self.logs += 1;
        self.commands += answers.len() as u64;
        answers.iter().for_each(|&answer| self.answers[usize::from(answer)] += 1);
        *self.kinds.entry(kind).or_default() += 1;
        if log.len() > LONGEST {
            self.longer += 1;
            let crossing = crossing(log).filter(|_| answers.last() == Some(&CUT));
            crossing.into_iter().for_each(|before| self.before[before] += 1);
            self.crossing += u64::from(crossing.is_some());
        }
    }

    pub fn print(&self) {
        println!("{} commands in {} logs", self.commands, self.logs);
        let [unknown, cut] = [NO_COMMAND, CUT].map(|answer| self.answers[usize::from(answer)]);
        println!("logs that ended in 11: {unknown}, in 12: {cut}");
        println!(
            "logs of more than 65,536 bytes: {}, with a command across byte 65,536: {}",
            self.longer, self.crossing
        );
        let before = self.before.iter().enumerate().filter(|(_, count)| **count > 0);
        let before: Vec<String> = before.map(|(bytes, count)| format!("{bytes}: {count}")).collect();
        println!("bytes of that command before the edge: {}", before.join(", "));
        println!("buffers: {}, too short for the text: {}", self.buffers, self.too_short);
        println!("\n| answer | lines |\n|---|---|");
        self.answers.iter().enumerate().for_each(|(answer, count)| println!("| {answer} | {count} |"));
        println!("\n| logs | number |\n|---|---|");
        self.kinds.iter().for_each(|(kind, count)| println!("| {kind} | {count} |"));
    }
}

/// How many bytes of the command that crosses byte 65,536 stand before it, if the log has the whole command.
fn crossing(log: &[u8]) -> Option<usize> {
    let mut at = 0;
    while let Next::Command(_, end) = log::read(log, at) {
        if end > LONGEST {
            return Some(LONGEST - at).filter(|&before| before > 0);
        }
        at = end;
    }
    None
}
