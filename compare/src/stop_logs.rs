//! The logs that the program `stop` plays: a shift that leaves every kind of component, a chain, two that end early,
//! and one without a command.
use crate::log::{Command, Port};
use crate::script::{port, Script};

/// Each log with the name of its file.
pub fn all() -> [(&'static str, Vec<u8>); 5] {
    [("shift", shift()), ("chain", chain()), ("unknown", unknown()), ("cut", cut()), ("empty", Vec::new())]
}

/// The port that a component provides.
fn of(id: u8) -> Port {
    port(u64::from(id) + 1, 0)
}

/// Active, Loading, Unloading, restoring, retired, Inactive and removed ones; links not in the identities' order.
fn shift() -> Vec<u8> {
    let mut s = Script::new();
    // 0 relies on 4, 4 on 2, and 2 on 1 and on 5
    s.root(&[of(4)], &[]).root(&[], &[of(1)]).root(&[of(5), of(1)], &[of(2)]).root(&[of(1)], &[]);
    s.root(&[of(2)], &[of(4)]).root(&[], &[of(5)]);
    for id in [5, 1, 2, 4, 0] {
        s.start(id);
    }
    // 3 is Loading; 6 Unloading; 7 restoring, and relies on 1; 8 restoring and retired
    s.begin(3).root(&[], &[]).root(&[of(1)], &[]).root(&[], &[]);
    s.start(6).add(Command::Leave(6)).start(7).add(Command::Leave(7)).add(Command::BeginCleanup(7));
    s.begin(8).add(Command::Leave(8)).add(Command::BeginCleanup(8)).add(Command::Retire(8));
    // 9 never began; 10 ran, and its link is dead; 11 is removed; 12 is Active and retired
    s.root(&[], &[]).root(&[of(5)], &[]).start(10).stop(10).root(&[], &[]).add(Command::Retire(11));
    s.add(Command::Remove(11)).root(&[of(2)], &[]).start(12).add(Command::Retire(12));
    // 2 leaves while 4 and 12 rely on it
    s.add(Command::Leave(2));
    s.log
}

/// 1 relies on 0 and 2 on 1.
pub fn chain() -> Vec<u8> {
    let mut s = Script::new();
    s.root(&[], &[of(0)]).root(&[of(0)], &[of(1)]).root(&[of(1)], &[]).start(0).start(1).start(2);
    s.log
}

/// A byte that is no command; the leave after it is not played.
pub fn unknown() -> Vec<u8> {
    let mut s = Script::new();
    s.root(&[], &[of(0)]).start(0).root(&[of(0)], &[]).begin(1).bytes(&[0x11]).add(Command::Leave(1));
    s.log
}

/// A leave whose identity is missing.
fn cut() -> Vec<u8> {
    let mut s = Script::new();
    s.root(&[], &[]).start(0).root(&[], &[]).begin(1).bytes(&[0x06]);
    s.log
}
