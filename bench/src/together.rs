//! (d) The same files as part of this program: the compiler sees both sides of each call and leaves the kernel's copies out.
#[path = "plain/lib.rs"]
mod kernel;
#[path = "plain_player.rs"]
mod player;

pub use player::play;
