//! (a) and (c), each beside itself in a program that calls each command at two places: by two players in turn.
use crate::lists::List;
use crate::side::Side;
use crate::{rattle, separate};

#[path = "separate.rs"]
mod separate_again;

pub const SIDES: [Side; 4] = [
    Side { name: "rattle", column: "(a)", plays: &[rattle::play] },
    Side { name: "rattle, two places", column: "(a) two places", plays: &[play_first, play_second] },
    Side { name: "separate", column: "(c)", plays: &[separate::play] },
    Side { name: "separate, two places", column: "(c) two places", plays: &[separate::play, separate_again::play] },
];

/// The ratios that are printed: a name and two sides.
pub const RATIOS: &[(&str, usize, usize)] = &[("a/c", 0, 2), ("a/c two places", 1, 3)];

pub const ABOUT: &str = "\
(a) the compiled Rattle kernel, (c) plain Rust with the same entry test, as a crate of its own;
two places: a program that calls each command at two places, by two players in turn";

/// They play the typical controller's lists and the full one's.
pub fn plays(list: &List) -> bool {
    ["typical", "full"].contains(&list.controller.as_str())
}

// The players of the static library `two_places`, which bench/two_places makes.
extern "C" {
    fn nobrighi_play_first(log: *const u8, log_len: usize, answers: *mut u8, answers_len: usize) -> usize;
    fn nobrighi_play_second(log: *const u8, log_len: usize, answers: *mut u8, answers_len: usize) -> usize;
}

fn play_first(log: &[u8], answers: &mut [u8]) -> usize {
    rattle::call(nobrighi_play_first, log, answers)
}

fn play_second(log: &[u8], answers: &mut [u8]) -> usize {
    rattle::call(nobrighi_play_second, log, answers)
}
