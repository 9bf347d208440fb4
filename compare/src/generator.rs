//! Random logs, steered by the guide so that they reach deep states and full tables.
use crate::guide::Guide;
use crate::log::{Command, NONE};
use crate::profile::Profile;
use crate::random::Random;
use crate::script::Script;

/// What the steps of a stretch of a log aim at.
#[derive(Clone, Copy)]
enum Aim {
    Grow,
    Raise,
    Churn,
    Drain,
    FillLinks,
    FillDeclarations,
    Retire,
}

pub struct Generator<'a> {
    pub random: &'a mut Random,
    pub profile: Profile,
    pub guide: Guide,
    pub script: Script,
    pub count: usize,
}

/// A log of about `length` commands. Its end may be a byte that is no command, or cut operands.
pub fn log(random: &mut Random, length: usize, small: bool) -> Vec<u8> {
    let profile = Profile::new(random, small);
    let mut g = Generator { random, profile, guide: Guide::default(), script: Script::new(), count: 0 };
    while g.count < length {
        let aim = g.aim();
        for _ in 0..5 + g.random.below(60) {
            g.step(aim);
        }
    }
    g.end();
    g.script.log
}

impl Generator<'_> {
    pub fn add(&mut self, command: Command) {
        self.guide.play(command);
        self.script.add(command);
        self.count += 1;
    }

    fn aim(&mut self) -> Aim {
        match self.random.below(12) {
            0..=1 => Aim::Grow,
            2..=4 => Aim::Raise,
            5 => Aim::Churn,
            6 => Aim::Drain,
            7..=9 if self.profile.compact == 0 => Aim::FillLinks,
            10 if self.profile.dependencies >= 4 => Aim::FillDeclarations,
            11 => Aim::Retire,
            _ => Aim::Churn,
        }
    }

    fn step(&mut self, aim: Aim) {
        if self.random.chance(self.profile.blind) {
            return self.blind();
        }
        if self.random.chance(self.profile.compact) {
            let bindings = self.random.chance(50);
            return self.add(if bindings { Command::CompactBindings } else { Command::CompactDeclarations });
        }
        match aim {
            Aim::Grow => self.grow(),
            Aim::Raise => self.raise(),
            Aim::Churn => self.churn(),
            Aim::Drain => self.drain(),
            Aim::FillLinks => self.fill_links(),
            Aim::FillDeclarations => self.fill_declarations(),
            Aim::Retire => self.retire(),
        }
    }

    /// An early end in four of ten logs: a byte that is no command, or a command without its last bytes.
    fn end(&mut self) {
        match self.random.below(10) {
            0..=1 => {
                let byte = self.random.pick(&[0x00, 0x11, 0x12, 0x7F, 0x80, 0xFE, 0xFF]).unwrap_or(0);
                self.script.bytes(&[byte, 0x03, NONE]);
            }
            2..=3 => {
                let command = self.any_command();
                let mut bytes = Vec::new();
                command.write(&mut bytes);
                let kept = 1 + self.random.below(bytes.len());
                // a command without operands cannot be cut, and stays whole
                self.script.bytes(&bytes[..kept.min(bytes.len() - 1).max(1)]);
            }
            _ => {}
        }
    }
}
