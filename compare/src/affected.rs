//! affected LISTS SEED [random]: plays logs on lib.rs's bodies and on the compiled kernel, and after accepted commands
//! compares the compiled list of who is hit, of each identity, with lib.rs's bodies, until LISTS lists were given and
//! compared, refusals not counted. With `random` the logs written by hand are left out.
// the modules have parts that only the other programs use
#![allow(dead_code)]

mod affected_logs;
mod asking;
mod calls;
mod difference;
mod generator;
mod guide;
mod hit_check;
mod hit_tally;
mod intended;
mod log;
mod operands;
mod profile;
mod random;
mod rattle;
mod record;
mod reference;
mod scenarios;
mod script;
mod sizes;
mod status_logs;
mod steps;
mod stop_logs;
mod text;

use asking::Asking;
use difference::Difference;
use hit_tally::Tally;
use random::Random;
use record::Bytes;
use reference::Reference;

/// The lists are asked for after one accepted command in so many of a random log, and after each of one written by hand.
const ASKED: usize = 8;

fn main() {
    asking::run("affected LISTS SEED [random]", &mut Lists(Tally::default()));
}

struct Lists(Tally);

impl Asking for Lists {
    fn byte(&self, by_hand: bool, random: &mut Random) -> u8 {
        if by_hand || random.below(ASKED) == 0 {
            3
        } else {
            0
        }
    }

    fn check(&mut self, _: u8, written: &mut Bytes, reference: &Reference) -> Result<(), Difference> {
        let made = hit_check::read(written);
        hit_check::check(reference, made.as_deref(), &mut self.0)
    }

    fn compared(&self) -> u64 {
        self.0.lists
    }

    fn print(&self, commands: u64) {
        println!("{} kernels after {commands} commands", self.0.kernels);
        self.0.print();
    }
}
