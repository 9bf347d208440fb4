//! What a random log is made of.
use crate::log::LIST;
use crate::random::Random;
use crate::sizes::IDENTITIES;

/// What a log is made of.
pub struct Profile {
    pub keys: usize,
    pub realms: usize,
    /// Whether ports differ in high bytes too.
    pub wide: bool,
    /// The longest lists of dependencies and of provisions.
    pub dependencies: usize,
    pub provisions: usize,
    pub identities: usize,
    /// Of 100 Loading components that are looked at, how many finish.
    pub finish: usize,
    /// Of 100 steps, how many take no account of the state, and how many compact a table.
    pub blind: usize,
    pub compact: usize,
    /// Components that are not retired, while the guide chooses.
    pub spare: usize,
}

impl Profile {
    /// A small profile keeps its tables short, for runs of many commands on one kernel.
    pub fn new(random: &mut Random, small: bool) -> Profile {
        let most = if small { 12 } else { IDENTITIES };
        let compact = if small { 3 } else { random.pick(&[0, 0, 1, 4]).unwrap_or(1) };
        let dependencies = match compact {
            0 => random.pick(&[4, 8, 16, LIST]).unwrap_or(8),
            3 => 3,
            _ => random.pick(&[1, 2, 4, 8, LIST]).unwrap_or(4),
        };
        Profile {
            keys: random.pick(&[2, 4, 8, 40, 300]).unwrap_or(8),
            realms: random.pick(&[1, 2, 3]).unwrap_or(1),
            wide: random.chance(30),
            dependencies,
            provisions: if small { 2 } else { random.pick(&[1, 2, 4, 8, LIST]).unwrap_or(4) },
            identities: 3 + random.below(most - 2),
            finish: random.pick(&[20, 60, 95]).unwrap_or(60),
            blind: random.pick(&[2, 10, 40]).unwrap_or(10),
            compact,
            spare: if small { 5 } else { 1 + random.below(20) },
        }
    }
}
