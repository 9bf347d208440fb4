//! Logs that reach byte 65,536.
use crate::generator;
use crate::log::{self, Next, LONGEST, NONE};
use crate::random::Random;
use crate::scenarios::longest;

/// More commands than 65,536 bytes hold.
const COMMANDS: usize = 24_000;
/// How far before the edge the bytes by chance start at most, and how many there are.
const BEFORE: usize = 24;
const TAIL: usize = 64;

/// A log for each command, with each number of its bytes before the edge, and for bytes that are no command.
pub fn written() -> Vec<Vec<u8>> {
    let command = |byte: u8| [vec![byte], vec![0; log::operands(byte)]].concat();
    let commands: Vec<Vec<u8>> = (0x00..=0x11).map(command).chain([vec![0x03, NONE], vec![0xFF]]).collect();
    commands.iter().flat_map(|bytes| (0..=bytes.len()).map(|kept| across(bytes, kept))).collect()
}

/// So many of these bytes stand before the edge, the others and some commands behind it.
fn across(bytes: &[u8], kept: usize) -> Vec<u8> {
    [longest(&bytes[..kept]), bytes[kept..].to_vec(), vec![0x0C, 0x03, NONE, 0x0D]].concat()
}

/// A random log up to just before the edge, and bytes by chance, mostly of commands, to just behind it.
pub fn random_log(random: &mut Random) -> Vec<u8> {
    let mut log = generator::log(random, COMMANDS, true);
    let start = LONGEST - random.below(BEFORE);
    log.truncate(last_end(&log, start));
    while log.len() < start {
        log.push(0x0C + random.below(2) as u8);
    }
    log.extend((0..TAIL).map(|_| (1 + random.below(16)) as u8));
    log.truncate(LONGEST - 2 + random.below(TAIL - BEFORE));
    log
}

/// Where the last whole command ends that ends at or before this place.
fn last_end(log: &[u8], most: usize) -> usize {
    let mut at = 0;
    while let Next::Command(_, end) = log::read(log, at) {
        if end > most {
            break;
        }
        at = end;
    }
    at
}
