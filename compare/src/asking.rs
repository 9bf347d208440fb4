//! Logs played on lib.rs's bodies and on the compiled kernel, which is asked something after accepted commands.
use crate::difference::Difference;
use crate::log::{self, Command, Next};
use crate::random::Random;
use crate::record::Bytes;
use crate::reference::Reference;
use crate::{affected_logs, generator, rattle, scenarios, status_logs, stop_logs};

/// The answers of one log have to fit, else the rest of the log is not played.
const OUT: usize = 256 << 20;

/// What is asked, and held to lib.rs's bodies.
pub trait Asking {
    /// The byte by which the library is asked after an accepted command of a log, written by hand or not; 0 for nothing.
    fn byte(&self, by_hand: bool, random: &mut Random) -> u8;
    /// Reads what the library wrote for such a byte and holds it to lib.rs's kernel.
    fn check(&mut self, byte: u8, written: &mut Bytes, reference: &Reference) -> Result<(), Difference>;
    /// How many answers were compared.
    fn compared(&self) -> u64;
    /// What was met, in so many commands.
    fn print(&self, commands: u64);
}

/// A run: what is asked, where the library writes, and how many commands were played.
struct Run<'a, A: Asking> {
    asking: &'a mut A,
    random: Random,
    out: Vec<u8>,
    commands: u64,
}

/// COUNT SEED [random]: asks until so many answers are compared. With `random` the logs written by hand are left out.
pub fn run(usage: &str, asking: &mut impl Asking) {
    let words: Vec<String> = std::env::args().skip(1).collect();
    let numbers: Vec<u64> = words.iter().filter_map(|a| a.parse().ok()).collect();
    let &[count, seed] = numbers.as_slice() else {
        eprintln!("use: {usage}");
        std::process::exit(2);
    };
    let random_alone = words.iter().any(|w| w == "random");
    let mut run = Run { asking, random: Random::new(seed), out: vec![0; OUT], commands: 0 };
    println!("seed {seed}");
    for log in if random_alone { Vec::new() } else { by_hand() } {
        run.play(&log, true);
    }
    while run.asking.compared() < count {
        let log = random_log(&mut run.random);
        run.play(&log, false);
    }
    run.asking.print(run.commands);
    println!("differences: 0");
}

/// The logs written by hand.
fn by_hand() -> Vec<Vec<u8>> {
    let named = scenarios::all().into_iter().map(|(_, log)| log);
    let status = status_logs::all().map(|(_, log)| log);
    let stop = stop_logs::all().map(|(_, log)| log);
    let affected = affected_logs::all().map(|(_, log)| log);
    named.chain(status).chain(stop).chain(affected).collect()
}

/// A random log: many short ones, fewer long ones.
fn random_log(random: &mut Random) -> Vec<u8> {
    let (length, small) = match random.below(100) {
        0..=69 => (20 + random.below(300), false),
        70..=94 => (500 + random.below(2_000), false),
        _ => (3_000 + random.below(4_000), random.chance(50)),
    };
    generator::log(random, length, small)
}

impl<A: Asking> Run<'_, A> {
    /// Compares what is asked after a log's commands; a difference ends the run.
    fn play(&mut self, log: &[u8], by_hand: bool) {
        let bytes = self.bytes(log, by_hand);
        let written = rattle::asked(log, &bytes, &mut self.out);
        let out = std::mem::take(&mut self.out);
        let full = out.len() - written < rattle::ROOM;
        if let Err(difference) = self.compare(log, &bytes, Bytes(&out[..written]), full) {
            difference.report(self.commands);
            std::process::exit(1);
        }
        self.out = out;
    }

    /// A byte for each command: it asks after each accepted one that is no port of a pending list.
    fn bytes(&mut self, log: &[u8], by_hand: bool) -> Vec<u8> {
        let mut answers = vec![0; log.len()];
        let count = rattle::play(log, &mut answers);
        let (mut bytes, mut at) = (Vec::new(), 0);
        for &answer in &answers[..count] {
            let Next::Command(command, end) = log::read(log, at) else { break };
            let byte = self.asking.byte(by_hand, &mut self.random);
            let asks = answer == 0 && !matches!(command, Command::Dependency(_) | Command::Provision(_));
            bytes.push(if asks { byte } else { 0 });
            at = end;
        }
        bytes
    }

    /// Plays a log on lib.rs's bodies and holds each answer to them.
    fn compare(&mut self, log: &[u8], bytes: &[u8], mut written: Bytes, full: bool) -> Result<(), Difference> {
        let (mut reference, mut at) = (Reference::new(), 0);
        for &byte in bytes {
            let Next::Command(command, end) = log::read(log, at) else { break };
            reference.play(command);
            self.commands += 1;
            at = end;
            if byte == 0 {
                continue;
            }
            if full && written.0.is_empty() {
                return Ok(());
            }
            let checked = self.asking.check(byte, &mut written, &reference);
            checked.map_err(|d| d.after(&log[..at]))?;
        }
        if !written.0.is_empty() {
            let rest = format!("{} bytes", written.0.len());
            return Err(Difference::new("something that was not asked for", &reference, "nothing".to_string(), rest));
        }
        Ok(())
    }
}
