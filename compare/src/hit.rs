//! Who is hit if a component leaves, in the words of the rule, found on a copy of lib.rs's kernel: what lib.rs does not have.
use super::{done, Kernel, Phase};

/// leave's answer, and who is hit, ascending.
pub struct Hit {
    pub answer: u8,
    pub ids: Vec<usize>,
}

/// The other components that are Loading or Active and have a target, and have none after the leave; nobody where leave
/// is refused.
pub fn affected(kernel: &Kernel, id: usize) -> Hit {
    let mut after = kernel.clone();
    let answer = done(after.leave(id)).0;
    let loses = |other: usize| kernel.target(other).is_some() && after.target(other).is_none();
    let hit = |&other: &usize| other != id && running(kernel, other) && loses(other);
    let others = if answer == 0 { kernel.identity_slots() } else { 0 };
    Hit { answer, ids: (0..others).filter(hit).collect() }
}

fn running(kernel: &Kernel, id: usize) -> bool {
    matches!(kernel.phase(id), Some(Phase::Loading | Phase::Active))
}
