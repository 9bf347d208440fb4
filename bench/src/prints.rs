//! prints [ROUNDS]: nanoseconds of a log that is played for its answers, and of one that is printed, by the compiled Rattle
//! kernel.
// the modules have parts that only the other programs use
#![allow(dead_code)]
mod clock;
mod log;
mod rattle;
mod repeated;

extern "C" {
    fn nobrighi_print(log: *const u8, log_len: usize, out: *mut u8, out_len: usize) -> usize;
}

/// The longest log.
const LONGEST: usize = 65_536;
/// The longest line: five digits, a space, two digits, its end.
const LINE: usize = 9;

fn main() {
    let words: Vec<String> = std::env::args().skip(1).collect();
    let rounds = words.first().map_or(Ok(30), |w| w.parse()).unwrap_or(0);
    if rounds == 0 || words.len() > 1 {
        eprintln!("use: prints [ROUNDS]");
        std::process::exit(2);
    }
    println!("rounds: {rounds}; nanoseconds of processor time per log, best / median; (a) the compiled Rattle kernel");
    println!("| log | commands | (a) answers | (a) lines | lines less answers, per command |");
    println!("|---|---|---|---|---|");
    for (name, log) in logs() {
        row(name, &log, rounds);
    }
}

/// As many commands as a log holds, of the shortest and of those with a port.
fn logs() -> [(&'static str, Vec<u8>); 2] {
    let port = [vec![log::DEPENDENCY], vec![0; 16]].concat();
    let ports = port.repeat(LONGEST / port.len());
    [("compact_bindings", vec![log::COMPACT_BINDINGS; LONGEST]), ("a port for the dependencies", ports)]
}

/// Writes the lines that are printed of a log; how many bytes.
fn print(log: &[u8], out: &mut [u8]) -> usize {
    rattle::call(nobrighi_print, log, out)
}

/// The answers, or the bytes of lines, of a log that is done so many times.
fn given(done: fn(&[u8], &mut [u8]) -> usize, log: &[u8], times: usize) -> usize {
    let mut out = vec![0; LINE * LONGEST];
    (0..times).map(|_| done(log, &mut out)).sum()
}

fn row(name: &str, log: &[u8], rounds: usize) {
    let sides: [fn(&[u8], &mut [u8]) -> usize; 2] = [rattle::play, print];
    let entries = sides.map(|side| given(side, log, 1));
    let measure = |at: usize| repeated::measure(&|times| given(sides[at], log, times), entries[at], rounds);
    let [answers, lines] = [measure(0), measure(1)];
    let more = [lines.0 - answers.0, lines.1 - answers.1].map(|more| more / entries[0] as f64);
    println!(
        "| {name} | {} | {:.0} / {:.0} | {:.0} / {:.0} | {:.1} / {:.1} |",
        entries[0], answers.0, answers.1, lines.0, lines.1, more[0], more[1]
    );
}
