//! The rules in plain Rust: fixed tables with counts, the soundness test at entry in nested loops, and commands that take
//! the kernel by value and hand it back with the answer.
#[allow(dead_code)] // only the program affected calls it
mod affected;
mod compaction;
#[allow(dead_code)] // only the program drains calls it
mod drain;
mod insertion;
mod interface;
mod lifecycle;
mod records;
mod resolution;
mod soundness;

#[allow(unused_imports)]
pub use affected::Affected;
#[allow(unused_imports)]
pub use drain::{Drain, Step, StepCommand};
pub use records::{Error, Kernel, Port, PortList};
