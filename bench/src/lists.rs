//! The command lists: a controller's setup, then measured commands that keep its size.
use crate::controllers::{self, Controller, STALE};
use crate::log;
use crate::script::Script;

/// A controller's setup, then, any number of times, the measured commands and those that bring the links back to what they
/// were: compaction and cycles that leave dead links.
pub struct List {
    pub controller: String,
    pub commands: &'static str,
    setup: Script,
    measured: Script,
    restore: Script,
    /// The measured commands leave another kernel, and are played once.
    once: bool,
}

impl List {
    pub fn name(&self) -> String {
        format!("{}/{}", self.controller, self.commands)
    }

    /// How often the measured commands are played where so many repeats are wanted.
    pub fn repeats(&self, wanted: usize) -> usize {
        if self.once {
            1
        } else {
            wanted
        }
    }

    /// How many commands are measured in so many repeats.
    pub fn measured(&self, repeats: usize) -> usize {
        self.repeats(repeats) * self.measured.calls()
    }

    /// The whole list, and the same without the measured commands: the difference of their times is theirs.
    pub fn scripts(&self, repeats: usize) -> (Script, Script) {
        let (mut whole, mut rest) = (self.setup.clone(), self.setup.clone());
        for _ in 0..self.repeats(repeats) {
            whole.append(&self.measured);
            whole.append(&self.restore);
            rest.append(&self.restore);
        }
        (whole, rest)
    }
}

pub fn all() -> Vec<List> {
    let configured = [0, 2].map(|free| configured(&controllers::pending(free)));
    controllers().iter().flat_map(lists_of).chain(configured).chain(dropping()).collect()
}

/// The commands that drop records, each once: both compactions with nothing, half and everything to drop, and a release.
fn dropping() -> Vec<List> {
    let links = controllers::dead_links()
        .map(|(name, setup)| once(name, "compact_bindings", setup, |s| s.bare(log::COMPACT_BINDINGS, 0)));
    let declarations = controllers::absent_owners()
        .map(|(name, setup)| once(name, "compact_declarations", setup, |s| s.bare(log::COMPACT_DECLARATIONS, 0)));
    let (name, setup, port) = controllers::released();
    let release = once(name, "release", setup, |s| s.of_port(log::RELEASE, 0, port, 0));
    links.into_iter().chain(declarations).chain([release]).collect()
}

/// leave of each component, ascending: all are Active.
pub fn leaves(c: &Controller) -> List {
    once(&c.name, "leave", c.setup.clone(), |s| (0..c.components).for_each(|id| s.of(log::LEAVE, id, 0)))
}

fn once(controller: &str, commands: &'static str, setup: Script, write: impl Fn(&mut Script)) -> List {
    let mut measured = Script::default();
    write(&mut measured);
    List { controller: controller.into(), commands, setup, measured, restore: Script::default(), once: true }
}

/// The last component, which never began, gets its two dependencies anew.
fn configured(c: &Controller) -> List {
    list(c, "configure", |s| s.configure(c.cycled, &controllers::NEW, 0), false)
}

fn controllers() -> Vec<Controller> {
    vec![
        controllers::typical(),
        controllers::scaled(8),
        controllers::scaled(16),
        controllers::scaled(32),
        controllers::scaled(64),
        controllers::wide(),
        controllers::crowded(),
        controllers::stepped(64),
        controllers::stepped(61),
        controllers::stepped(65521),
    ]
}

fn lists_of(c: &Controller) -> [List; 4] {
    [
        list(c, "mix", |s| mix(c, s), true),
        list(c, "retire", |s| s.of(log::RETIRE, c.retired, 0), false),
        list(c, "cycle", |s| s.cycle(c.cycled), true),
        list(c, "stale", |s| s.of(log::BEGIN, STALE, 1), false),
    ]
}

/// Every kind of command that can keep the size, accepted or refused, with one cycle.
fn mix(c: &Controller, s: &mut Script) {
    s.of(log::RETIRE, c.retired, 0);
    s.stop(c.cycled);
    s.of(log::FINISH, c.cycled, 2);
    s.start(c.cycled);
    s.of(log::LEAVE_IF_CHANGED, c.cycled, 6);
    s.of_port(log::DECLARE, 0, c.port, 0);
    s.of_port(log::RELEASE, 0, c.port, 7);
    s.of(log::BEGIN, STALE, 1);
    s.of(log::REMOVE, c.cycled, 2);
    s.of(log::CONFIGURE, c.cycled, 2);
    s.bare(log::COMPACT_DECLARATIONS, 0);
}

/// A list of these commands. Those that cycle leave dead links, and are followed by what restores their number.
fn list(c: &Controller, commands: &'static str, write: impl Fn(&mut Script), cycling: bool) -> List {
    let mut measured = Script::default();
    let mut restore = Script::default();
    if cycling {
        for _ in 0..c.cycles {
            write(&mut measured);
        }
        restore.bare(log::COMPACT_BINDINGS, 0);
        for _ in 0..c.refill.1 {
            restore.cycle(c.refill.0);
        }
    } else {
        write(&mut measured);
    }
    List { controller: c.name.clone(), commands, setup: c.setup.clone(), measured, restore, once: false }
}
