//! (b) lib.rs's own bodies, taken out of its text by compare/extract.py. They test nothing at entry, their tables are
//! `Vec`s, and they change the kernel in place. No list of this program meets a fixed size, which they do not have.
#![allow(dead_code)]
use crate::log::{self, Command};

include!(env!("ORIGINAL_RS"));

/// What lib.rs's Vec has beyond Rust's.
trait Set<T> {
    fn set(&mut self, at: usize, value: T);
}

impl<T> Set<T> for Vec<T> {
    fn set(&mut self, at: usize, value: T) {
        self[at] = value;
    }
}

/// lib.rs's kernel and the two pending lists.
struct Player {
    kernel: Kernel,
    dependencies: Vec<Port>,
    provisions: Vec<Port>,
}

/// How many records a log leaves.
pub struct Sizes {
    pub nodes: usize,
    pub declarations: usize,
    pub links: usize,
    pub live: usize,
}

/// Plays a log and writes each answer; how many there were.
pub fn play(log: &[u8], answers: &mut [u8]) -> usize {
    let mut player = Player::new();
    player.play(log, answers)
}

pub fn sizes(log: &[u8], answers: &mut [u8]) -> Sizes {
    let mut player = Player::new();
    player.play(log, answers);
    let Kernel { nodes, declarations, links } = player.kernel;
    let live = links.iter().filter(|l| l.live).count();
    Sizes { nodes: nodes.len(), declarations: declarations.len(), links: links.len(), live }
}

impl Player {
    fn new() -> Player {
        Player { kernel: Kernel::new(), dependencies: Vec::new(), provisions: Vec::new() }
    }

    fn play(&mut self, mut log: &[u8], answers: &mut [u8]) -> usize {
        let mut answered = 0;
        while let Some(command) = log::next(&mut log) {
            answers[answered] = self.command(&command);
            answered += 1;
        }
        answered
    }

    fn command(&mut self, command: &Command) -> u8 {
        let kernel = &mut self.kernel;
        let result = match command.byte {
            log::DEPENDENCY => return pend(&mut self.dependencies, command.port()),
            log::PROVISION => return pend(&mut self.provisions, command.port()),
            log::INSERT => {
                let (dependencies, provisions) = self.lists();
                self.kernel.insert(command.parent(), dependencies, provisions).map(|_| ())
            }
            log::BEGIN => kernel.begin(command.identity()),
            log::FINISH => kernel.finish(command.identity()),
            log::LEAVE => kernel.leave(command.identity()),
            log::LEAVE_IF_CHANGED => kernel.leave_if_changed(command.identity()),
            log::RETIRE => kernel.retire(command.identity()),
            log::BEGIN_CLEANUP => kernel.begin_cleanup(command.identity()),
            log::FINISH_CLEANUP => kernel.finish_cleanup(command.identity()),
            log::REMOVE => kernel.remove(command.identity()),
            log::COMPACT_BINDINGS => {
                kernel.compact_bindings();
                Ok(())
            }
            log::COMPACT_DECLARATIONS => {
                kernel.compact_declarations();
                Ok(())
            }
            log::DECLARE => kernel.declare_provision(command.identity(), port(command.port())),
            log::RELEASE => kernel.release_provision(command.identity(), port(command.port())),
            _ => {
                let (dependencies, _) = self.lists();
                self.kernel.configure_pending_dependencies(command.identity(), dependencies)
            }
        };
        // A refusal's number is its place in lib.rs's list, from 1.
        result.map_or_else(|e| e as u8 + 1, |()| 0)
    }

    /// Both pending lists, emptied.
    fn lists(&mut self) -> (Vec<Port>, Vec<Port>) {
        (std::mem::take(&mut self.dependencies), std::mem::take(&mut self.provisions))
    }
}

fn pend(list: &mut Vec<Port>, p: log::Port) -> u8 {
    if list.len() == log::LIST {
        return log::LIST_FULL;
    }
    list.push(port(p));
    0
}

fn port(p: log::Port) -> Port {
    Port { key: p.key, realm: p.realm }
}
