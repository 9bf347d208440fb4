//! drains DRAINS SEED [random]: plays logs on lib.rs's bodies and on the compiled kernel, and after each accepted
//! command compares the compiled drain and stop with lib.rs's bodies. With `random` the logs written by hand are left out.
// the modules have parts that only the other programs use
#![allow(dead_code)]

mod affected_logs;
mod asking;
mod calls;
mod difference;
mod drain_check;
mod drain_record;
mod drain_tally;
mod generator;
mod guide;
mod intended;
mod log;
mod operands;
mod profile;
mod random;
mod rattle;
mod record;
mod reference;
mod scenarios;
mod script;
mod sizes;
mod status_logs;
mod steps;
mod stop_logs;
mod text;

use asking::Asking;
use difference::Difference;
use drain_tally::Tally;
use random::Random;
use record::Bytes;
use reference::Reference;

/// One drain in so many is played by the compiled kernel too.
const PLAYED: usize = 2;

fn main() {
    asking::run("drains DRAINS SEED [random]", &mut Drains(Tally::default()));
}

struct Drains(Tally);

impl Asking for Drains {
    /// 1 for a drain, 2 for one that is played too.
    fn byte(&self, _: bool, random: &mut Random) -> u8 {
        1 + u8::from(random.below(PLAYED) == 0)
    }

    fn check(&mut self, byte: u8, written: &mut Bytes, reference: &Reference) -> Result<(), Difference> {
        let made = drain_record::read(written, byte == 2);
        drain_check::check(reference, made.as_ref(), &mut self.0)
    }

    fn compared(&self) -> u64 {
        self.0.drains
    }

    fn print(&self, commands: u64) {
        self.0.print(commands);
    }
}
