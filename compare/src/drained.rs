//! The drain in document 02's words, found by playing it on lib.rs's kernel: what lib.rs does not have.
use super::{done, Kernel, Phase};
use crate::calls::Call;

/// The commands of a drain, each with lib.rs's answer.
pub type Drained = Vec<(Call, u8)>;

/// A command of a drain as the programs print it.
pub fn words(call: Call) -> String {
    match call {
        Call::Leave(id) => format!("leave {id}"),
        Call::BeginCleanup(id) => format!("begin_cleanup {id}"),
        Call::FinishCleanup(id) => format!("finish_cleanup {id}"),
        _ => unreachable!("no command of a drain: {call:?}"),
    }
}

/// leave for each Loading or Active component, ascending; finish_cleanup for each restoring one, ascending; then, again
/// and again, begin_cleanup and finish_cleanup of the lowest that lib.rs lets begin its cleanup.
pub fn drain(kernel: &mut Kernel) -> Drained {
    let mut found = Vec::new();
    for id in leaving(kernel) {
        found.push((Call::Leave(id), done(kernel.leave(id)).0));
    }
    for id in restoring(kernel) {
        found.push((Call::FinishCleanup(id), done(kernel.finish_cleanup(id)).0));
    }
    while let Some(id) = begin_lowest(kernel) {
        found.push((Call::BeginCleanup(id), 0));
        found.push((Call::FinishCleanup(id), done(kernel.finish_cleanup(id)).0));
    }
    found
}

/// How many commands it has: the leaves, one for each restoring component, two for each other installed one.
pub fn length(kernel: &Kernel) -> usize {
    let installed = kernel.ids().into_iter().filter(|&id| kernel.phase(id) != Some(Phase::Inactive)).count();
    let restoring = restoring(kernel).len();
    leaving(kernel).len() + restoring + 2 * (installed - restoring)
}

/// Whether every present component is Inactive and none restoring.
pub fn finished(kernel: &Kernel) -> bool {
    let rests = |id: usize| kernel.phase(id) == Some(Phase::Inactive) && !kernel.cleanup_started(id);
    kernel.ids().into_iter().all(rests)
}

fn leaving(kernel: &Kernel) -> Vec<usize> {
    let leaves = |&id: &usize| matches!(kernel.phase(id), Some(Phase::Loading | Phase::Active));
    (0..kernel.identity_slots()).filter(leaves).collect()
}

fn restoring(kernel: &Kernel) -> Vec<usize> {
    (0..kernel.identity_slots()).filter(|&id| kernel.cleanup_started(id)).collect()
}

/// begin_cleanup of the lowest identity of which lib.rs accepts it; where it refuses nothing changes.
fn begin_lowest(kernel: &mut Kernel) -> Option<usize> {
    (0..kernel.identity_slots()).find(|&id| kernel.begin_cleanup(id).is_ok())
}
