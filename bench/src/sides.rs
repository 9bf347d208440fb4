//! The kernels that play the lists.
use crate::lists::List;
use crate::side::Side;
use crate::{original, rattle, separate, together};

pub const SIDES: [Side; 4] = [
    Side { name: "rattle", column: "(a)", plays: &[play_rattle] },
    Side { name: "original", column: "(b)", plays: &[play_original] },
    Side { name: "separate", column: "(c)", plays: &[play_separate] },
    Side { name: "together", column: "(d)", plays: &[play_together] },
];

/// The ratios that are printed: a name and two sides.
pub const RATIOS: &[(&str, usize, usize)] = &[("a/c", 0, 2), ("a/d", 0, 3), ("a/b", 0, 1)];

pub const ABOUT: &str = "\
(a) the compiled Rattle kernel; (b) lib.rs's bodies, no entry test; plain Rust with the same entry test:
(c) as a crate of its own, (d) in one module with its caller";

/// They play every list.
pub fn plays(_: &List) -> bool {
    true
}

// Each has a symbol of its own, so that callgrind can count what happens inside.

#[no_mangle]
#[inline(never)]
fn play_rattle(log: &[u8], answers: &mut [u8]) -> usize {
    rattle::play(log, answers)
}

#[no_mangle]
#[inline(never)]
fn play_original(log: &[u8], answers: &mut [u8]) -> usize {
    original::play(log, answers)
}

#[no_mangle]
#[inline(never)]
fn play_separate(log: &[u8], answers: &mut [u8]) -> usize {
    separate::play(log, answers)
}

#[no_mangle]
#[inline(never)]
fn play_together(log: &[u8], answers: &mut [u8]) -> usize {
    together::play(log, answers)
}
