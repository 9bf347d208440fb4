//! The iteration rule, checked on the run itself.
//!
//! For each component the bindings that target gave at its last accepted begin are kept, once from lib.rs's side and
//! once from the kernel's own answers. What a Loading or Active component has committed must equal them;
//! check_iteration of a Loading one must answer done if they equal target now, and else 6; leave_if_changed must make
//! a Loading or Active one leave if they do not, and else answer 6.
use crate::log::Command;
use crate::record::{Binding, Observed, Question, Record, ACTIVE, LOADING, UNLOADING};
use crate::reference::Kernel;

const CHANGED: u8 = 6;

/// What target gave, where it was asked: none, or a list.
type Target = Option<Vec<Binding>>;

pub struct Rule {
    /// By identity: lib.rs's target at the last accepted begin, and the kernel's if it was asked just before it.
    original: Vec<Target>,
    kernel: Vec<Target>,
    /// How often each part was checked.
    pub committed: u64,
    pub committed_of_kernel: u64,
    pub iterations: u64,
    pub leaves: u64,
}

/// A command with what was known before and after it.
pub struct Played<'a> {
    pub command: Command,
    /// lib.rs's target of the command's identity before it, and the generations of its providers.
    pub original_target: Target,
    pub original_generations: Option<Vec<u64>>,
    /// lib.rs's kernel after the command.
    pub original: &'a Kernel,
    /// The kernel's record before the command, with its question.
    pub before: Option<(&'a Record, Option<Question>)>,
    pub after: &'a Record,
    pub question: Option<Question>,
}

impl Rule {
    pub fn new() -> Rule {
        let none = || vec![None; 256];
        Rule { original: none(), kernel: none(), committed: 0, committed_of_kernel: 0, iterations: 0, leaves: 0 }
    }

    /// A new log starts from the empty kernel.
    pub fn restart(&mut self) {
        self.original.fill(None);
        self.kernel.fill(None);
    }

    pub fn print(&self) {
        println!(
            "iteration rule: committed held {} times on the tables and {} times of the kernel's own answers,",
            self.committed, self.committed_of_kernel
        );
        println!("  check_iteration {} times, leave_if_changed {} times", self.iterations, self.leaves);
    }

    /// Checks a command; an error says which part of the rule does not hold.
    pub fn check(&mut self, played: &Played) -> Result<(), String> {
        let asked_before = asked(played.before, played.command.identity());
        match played.command {
            Command::Begin(id) if played.after.answer == 0 => {
                self.original[usize::from(id)] = played.original_target.clone();
                self.kernel[usize::from(id)] = asked_before.and_then(|o| o.target.clone());
            }
            Command::LeaveIfChanged(id) => self.leave(id, played, asked_before)?,
            _ => {}
        }
        self.links(played.after)?;
        match (&played.after.observed, played.question) {
            (Some(observed), Some(question)) => self.observed(question.identity, observed),
            _ => Ok(()),
        }
    }

    /// The live links of each Loading or Active component are its last begin's target, in order.
    fn links(&mut self, record: &Record) -> Result<(), String> {
        let mut met = [0; 256];
        for link in record.links.iter().filter(|l| l.live == 1) {
            let consumer = link.consumer as usize;
            if !installed(record, consumer) {
                continue;
            }
            let place = met[consumer];
            met[consumer] += 1;
            for side in [&self.original, &self.kernel] {
                if side[consumer].as_ref().is_some_and(|t| t.get(place) != Some(&link.binding)) {
                    return Err(format!("live link {place} of {consumer} is not its last begin's target"));
                }
            }
        }
        for id in (0..record.nodes.len()).filter(|&id| installed(record, id)) {
            let Some(target) = &self.original[id] else { return Err(format!("{id} is installed and never began")) };
            if met[id] != target.len() {
                return Err(format!("{id} has {} live links, its last begin's target {}", met[id], target.len()));
            }
            self.committed += 1;
        }
        Ok(())
    }

    /// The kernel's own committed and check_iteration against its own target, then and now.
    fn observed(&mut self, id: u8, observed: &Observed) -> Result<(), String> {
        if observed.phase != LOADING && observed.phase != ACTIVE {
            return Ok(());
        }
        for side in [&self.original, &self.kernel] {
            let Some(begun) = &side[usize::from(id)] else { continue };
            if *begun != observed.committed {
                return Err(format!("committed of {id} is not its last begin's target"));
            }
            self.committed_of_kernel += 1;
            let expected = if observed.target.as_ref() == Some(begun) { 0 } else { CHANGED };
            if observed.phase == LOADING {
                if observed.check_iteration != expected {
                    return Err(format!("check_iteration of {id} is not {expected}"));
                }
                self.iterations += 1;
            }
        }
        Ok(())
    }

    /// leave_if_changed of a Loading or Active component.
    fn leave(&mut self, id: u8, played: &Played, asked_before: Option<&Observed>) -> Result<(), String> {
        let place = usize::from(id);
        let Some((before, _)) = played.before else { return Ok(()) };
        if !installed(before, place) {
            return Ok(());
        }
        let kernel_target = asked_before.map(|o| &o.target);
        for (begun, now) in [(&self.original, Some(&played.original_target)), (&self.kernel, kernel_target)] {
            let (Some(begun), Some(now)) = (&begun[place], now) else { continue };
            let expected = if now.as_ref() == Some(begun) { CHANGED } else { 0 };
            let left = played.after.nodes[place].phase == UNLOADING;
            if played.after.answer != expected || left != (expected == 0) {
                return Err(format!("leave_if_changed of {id} is not {expected}"));
            }
            self.leaves += 1;
        }
        Ok(())
    }
}

/// The kernel's observers just before a command, if they were asked about its identity.
fn asked<'a>(before: Option<(&'a Record, Option<Question>)>, identity: Option<u8>) -> Option<&'a Observed> {
    let (record, question) = before?;
    if question?.identity != identity? {
        return None;
    }
    record.observed.as_ref()
}

/// Whether a component is Loading or Active.
pub fn installed(record: &Record, id: usize) -> bool {
    record.nodes.get(id).is_some_and(|n| n.present == 1 && (n.phase == LOADING || n.phase == ACTIVE))
}
