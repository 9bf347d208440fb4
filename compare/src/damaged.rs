//! Logs damaged by chance.
use crate::random::Random;

/// What is done to a log, and its name.
type Damage = (&'static str, fn(&mut Vec<u8>, &mut Random));

pub const DAMAGES: [Damage; 7] = [
    ("damaged: a byte changed", changed),
    ("damaged: several bytes changed", several),
    ("damaged: cut anywhere", |log, random| log.truncate(random.below(log.len() + 1))),
    ("damaged: a byte taken out", taken_out),
    ("damaged: a byte put in", put_in),
    ("damaged: a byte behind the end", |log, random| log.push(byte(random))),
    ("damaged: another first byte", |log, random| log.splice(..log.len().min(1), [byte(random)]).for_each(drop)),
];

/// Any byte, or one of a command, or one just outside.
fn byte(random: &mut Random) -> u8 {
    match random.below(3) {
        0 => random.below(256) as u8,
        1 => random.below(18) as u8,
        _ => random.pick(&[0x00, 0x11, 0xFF, 0x10]).unwrap_or(0),
    }
}

/// A bit flipped, or another byte.
fn changed(log: &mut Vec<u8>, random: &mut Random) {
    let at = random.below(log.len().max(1));
    let (bit, other) = (1 << random.below(8), byte(random));
    let flipped = random.chance(50);
    if let Some(found) = log.get_mut(at) {
        *found = if flipped { *found ^ bit } else { other };
    }
}

fn several(log: &mut Vec<u8>, random: &mut Random) {
    for _ in 0..2 + random.below(7) {
        changed(log, random);
    }
}

fn taken_out(log: &mut Vec<u8>, random: &mut Random) {
    let at = random.below(log.len().max(1));
    log.drain(at..log.len().min(at + 1));
}

fn put_in(log: &mut Vec<u8>, random: &mut Random) {
    log.insert(random.below(log.len() + 1), byte(random));
}

/// Bytes by chance, mostly of commands.
pub fn bytes(random: &mut Random) -> Vec<u8> {
    let (length, bound) = (random.below(200), random.pick(&[17, 18, 20, 256]).unwrap_or(18));
    let least = usize::from(random.chance(80));
    (0..length).map(|_| least.max(random.below(bound)) as u8).collect()
}
