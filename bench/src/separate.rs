//! (c) The plain kernel as a crate of its own: each command is a call that takes the kernel and hands it back.
#[path = "plain_player.rs"]
mod player;

use plain as kernel;
#[allow(unused_imports)] // the program drains uses the second alone, the others the first
pub use player::{play, play_then};
