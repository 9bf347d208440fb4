//! The drain by commands: the list is found by playing it on the kernel that is handed over.
use super::records::{Error, Kernel, Outcome, Phase, NODES};

/// Three commands for each identity.
const STEPS: usize = 3 * NODES;

#[derive(Clone, Copy, PartialEq, Eq)]
pub enum StepCommand {
    Leave,
    BeginCleanup,
    FinishCleanup,
}

#[derive(Clone, Copy, PartialEq, Eq)]
pub struct Step {
    pub command: StepCommand,
    pub id: usize,
}

/// The steps, blank past the count.
pub struct Drain {
    pub answer: Result<(), Error>,
    pub steps: [Step; STEPS],
    pub count: usize,
}

const BLANK: Step = Step { command: StepCommand::Leave, id: 0 };

impl Kernel {
    /// leave for each Loading or Active component, finish_cleanup for each restoring one, both ascending; then
    /// begin_cleanup and finish_cleanup of the lowest that begin_cleanup accepts, until it accepts none.
    pub fn drain(self) -> Drain {
        let mut drain = Drain { answer: Ok(()), steps: [BLANK; STEPS], count: 0 };
        if !self.sound() {
            drain.answer = Err(Error::Damaged);
            return drain;
        }
        let kernel = drain.leaves(self);
        let kernel = drain.restores(kernel);
        drain.cleanups(kernel);
        drain
    }
}

impl Drain {
    fn leaves(&mut self, mut kernel: Kernel) -> Kernel {
        for id in 0..kernel.node_count {
            if matches!(kernel.nodes[id].phase, Phase::Loading | Phase::Active) {
                kernel = self.add(StepCommand::Leave, id, kernel.leave(id));
            }
        }
        kernel
    }

    fn restores(&mut self, mut kernel: Kernel) -> Kernel {
        for id in 0..kernel.node_count {
            if kernel.nodes[id].restoring {
                kernel = self.add(StepCommand::FinishCleanup, id, kernel.finish_cleanup(id));
            }
        }
        kernel
    }

    /// begin_cleanup is tried on what is Unloading alone, from the lowest on after each that was cleaned.
    fn cleanups(&mut self, mut kernel: Kernel) {
        let mut id = 0;
        while id < kernel.node_count {
            let before = self.count;
            if kernel.nodes[id].phase == Phase::Unloading {
                kernel = self.add(StepCommand::BeginCleanup, id, kernel.begin_cleanup(id));
            }
            if before < self.count {
                kernel = self.add(StepCommand::FinishCleanup, id, kernel.finish_cleanup(id));
                id = 0;
            } else {
                id += 1;
            }
        }
    }

    /// A command's kernel; an accepted command is a step.
    fn add(&mut self, command: StepCommand, id: usize, outcome: Outcome<()>) -> Kernel {
        if outcome.answer.is_ok() {
            self.steps[self.count] = Step { command, id };
            self.count += 1;
        }
        outcome.kernel
    }
}
