//! What a run met: answers by command, sizes reached, refusals that lib.rs does not have, by lib.rs's own answer.
use crate::intended::{self, IN_LOGS};
use crate::log::{Command, NAMES};
use crate::lookups::Lookups;
use crate::observations::{Observation, OBSERVATIONS};
use crate::record::Record;
use crate::reference::Step;
use crate::situations::{Seen, SITUATIONS};

/// The answers that each command can give from the empty kernel, by its place in the log's command bytes.
const REACHABLE: [&[u8]; 16] = [
    &[0, 9],
    &[0, 9],
    &[0, 1, 3, 5, 9],
    &[0, 1, 2, 3, 4, 9],
    &[0, 1, 2, 6],
    &[0, 1, 2],
    &[0, 1, 2, 6],
    &[0, 1],
    &[0, 1, 2, 7],
    &[0, 1, 2],
    &[0, 1, 2, 8],
    &[0],
    &[0],
    &[0, 1, 2, 3, 5, 9],
    &[0, 1, 7],
    &[0, 1, 2, 3, 5, 9],
];
const CHECKS: [(&str, &[u8]); 2] = [("check_iteration", &[0, 1, 2, 6]), ("check_insert", &[0, 1, 3, 5, 9])];

#[derive(Default)]
pub struct Coverage {
    pub commands: u64,
    pub logs: u64,
    /// Logs that ended in 11 and in 12.
    pub stops: [u64; 2],
    pub observed: u64,
    lookups: Lookups,
    answers: [[u64; 13]; 16],
    checks: [[u64; 13]; 2],
    intended: [[u64; 10]; IN_LOGS.len()],
    longest_run: u64,
    situations: [u64; SITUATIONS.len()],
    observations: [u64; OBSERVATIONS.len()],
    /// Nodes, declarations, links, live links, generation, links in a chain.
    largest: [u64; 6],
}

impl Coverage {
    pub fn situations(&mut self, seen: &Seen) {
        for (count, (_, holds)) in self.situations.iter_mut().zip(SITUATIONS) {
            *count += u64::from(holds(seen));
        }
    }

    pub fn command(&mut self, command: Command, step: &Step) {
        self.commands += 1;
        self.answers[usize::from(command.byte()) - 1][usize::from(step.answer)] += 1;
        if let Some(row) = step.intended.and_then(|refused| IN_LOGS.iter().position(|&r| r == refused)) {
            self.intended[row][usize::from(step.own)] += 1;
        }
    }

    pub fn log(&mut self, commands: usize) {
        self.logs += 1;
        self.longest_run = self.longest_run.max(commands as u64);
    }

    /// A byte that ended the run: 11 or 12.
    pub fn stop(&mut self, answer: u8) {
        self.commands += 1;
        self.stops[usize::from(answer) - 11] += 1;
    }

    pub fn record(&mut self, record: &Record) {
        let live = record.links.iter().filter(|l| l.live == 1).count();
        let generation = record.nodes.iter().map(|n| n.generation).max().unwrap_or(0);
        let counts = [record.nodes.len(), record.declarations.len(), record.links.len(), live];
        let seen = counts.map(|n| n as u64).into_iter().chain([generation, chain(record)]);
        for (largest, n) in self.largest.iter_mut().zip(seen) {
            *largest = (*largest).max(n);
        }
    }

    /// What the observers answered.
    pub fn observation(&mut self, observation: &Observation) {
        let observed = observation.observed;
        self.observed += 1;
        self.lookups.resolve(observed.resolve);
        self.lookups.target(observed.target.is_some(), observed.missing);
        self.lookups.link_generation(observation.number(), observation.dead_link());
        self.checks[0][usize::from(observed.check_iteration)] += 1;
        self.checks[1][usize::from(observed.check_insert)] += 1;
        for (count, (_, such)) in self.observations.iter_mut().zip(OBSERVATIONS) {
            *count += u64::from(such(observation));
        }
    }

    /// What is easy to get wrong, with its count.
    fn easy_to_get_wrong(&self) -> impl Iterator<Item = (&'static str, u64)> + '_ {
        let situations = SITUATIONS.iter().map(|(name, _)| *name).zip(self.situations);
        situations.chain(OBSERVATIONS.iter().map(|(name, _)| *name).zip(self.observations))
    }

    /// The answers and situations that can occur and were not met.
    fn missing(&self) -> Vec<String> {
        let commands = NAMES.iter().zip(REACHABLE).zip(&self.answers);
        let checks = CHECKS.iter().zip(&self.checks).map(|(&(name, reachable), met)| ((name, reachable), met));
        let rows = commands.map(|((&name, reachable), met)| ((name, reachable), met)).chain(checks);
        let unseen = self.easy_to_get_wrong().filter(|&(_, count)| count == 0).map(|(name, _)| name.to_string());
        let missing = rows.flat_map(|((name, reachable), met)| {
            let unmet = reachable.iter().filter(|&&a| met[usize::from(a)] == 0);
            unmet.map(move |a| format!("{name}: {a}")).collect::<Vec<_>>()
        });
        missing.chain(unseen).collect()
    }

    /// How much was played, and how large the tables became.
    fn print_sizes(&self) {
        println!(
            "commands played: {} in {} logs, longest run on one kernel {}",
            self.commands, self.logs, self.longest_run
        );
        println!(
            "runs ended by 11: {}, by 12: {}; observers asked after {} commands",
            self.stops[0], self.stops[1], self.observed
        );
        self.lookups.print();
        println!(
            "largest: {} identities, {} declarations, {} links, {} live links, generation {}, a chain of {} live links",
            self.largest[0], self.largest[1], self.largest[2], self.largest[3], self.largest[4], self.largest[5]
        );
    }

    pub fn print(&self) {
        self.print_sizes();
        println!();
        println!("| command | done | {} |", (1..=9).map(|n| n.to_string()).collect::<Vec<_>>().join(" | "));
        println!("|---|{}", "---|".repeat(10));
        for (name, met) in NAMES.iter().zip(&self.answers) {
            print_row(name, met);
        }
        for ((name, _), met) in CHECKS.iter().zip(&self.checks) {
            print_row(name, met);
        }
        println!();
        println!("{}", intended::HEAD);
        for (refused, met) in IN_LOGS.iter().zip(&self.intended) {
            println!("{}", refused.row(met));
        }
        println!();
        println!("| what is easy to get wrong | times |");
        println!("|---|---|");
        for (name, count) in self.easy_to_get_wrong() {
            println!("| {name} | {count} |");
        }
        println!();
        let missing = self.missing();
        println!("not met: {}", if missing.is_empty() { "none".to_string() } else { missing.join(", ") });
    }
}

fn print_row(name: &str, met: &[u64; 13]) {
    let cells: Vec<String> = met[..10].iter().map(|&n| if n == 0 { "".to_string() } else { n.to_string() }).collect();
    println!("| {name} | {} |", cells.join(" | "));
}

/// How many live links the longest chain has; a provider's own links stand earlier in the table.
fn chain(record: &Record) -> u64 {
    let mut depth = [0u64; 256];
    for link in record.links.iter().filter(|l| l.live == 1) {
        let through = depth[link.binding.provider as usize & 255] + 1;
        let own = &mut depth[link.consumer as usize & 255];
        *own = (*own).max(through);
    }
    depth.into_iter().max().unwrap_or(0)
}
