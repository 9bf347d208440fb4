//! Who is hit if a component leaves: target is asked of every other component, before a leave and after it.
use super::records::{Error, Kernel, Phase, NODES};

/// Who is hit, ascending; 0 past the count.
pub struct Affected {
    pub answer: Result<(), Error>,
    pub ids: [usize; NODES],
    pub count: usize,
}

impl Kernel {
    /// leave's refusal and nobody, or the other Loading or Active components that have a target now and none after it.
    pub fn affected(self, id: usize) -> Affected {
        let after = self.clone().leave(id);
        let mut affected = Affected { answer: after.answer, ids: [0; NODES], count: 0 };
        if affected.answer.is_err() {
            return affected;
        }
        for other in (0..self.node_count).filter(|&other| other != id) {
            let running = matches!(self.nodes[other].phase, Phase::Loading | Phase::Active);
            if running && self.target(other).is_some() && after.kernel.target(other).is_none() {
                affected.ids[affected.count] = other;
                affected.count += 1;
            }
        }
        affected
    }
}
