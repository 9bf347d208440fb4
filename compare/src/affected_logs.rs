//! The logs that the program `affected` plays: a shift with every kind of component, one that ends early, and three of
//! those that `stop` plays: a chain, another that ends early, and one without a command.
use crate::log::{Command, Port};
use crate::script::{port, Script};
use crate::stop_logs;

/// Each log with the name of its file.
pub fn all() -> [(&'static str, Vec<u8>); 5] {
    let (chain, unknown) = (stop_logs::chain(), stop_logs::unknown());
    [("chain", chain), ("shift", shift()), ("unknown", unknown), ("cut", cut()), ("empty", Vec::new())]
}

/// The port that a component provides.
fn of(id: u8) -> Port {
    port(u64::from(id) + 1, 0)
}

/// 0 is relied upon by 2, 3, 4, 5, 6 and 8.
fn shift() -> Vec<u8> {
    let mut s = Script::new();
    s.root(&[], &[of(0), port(100, 0)]).root(&[], &[of(1)]).start(0).start(1);
    // 2 is Active and relies on 0 by two ports; 3 Loading; 4 Active, and relies on 1 too
    s.root(&[port(100, 0), of(0)], &[of(2)]).root(&[of(0)], &[]).root(&[of(1), of(0)], &[]);
    s.start(2).begin(3).start(4);
    // 5 is Active and retired, 6 Unloading, 7 Inactive; 8 Active, and relies on 9 too, which leaves; 10 is removed
    s.root(&[of(0)], &[]).root(&[of(0)], &[]).root(&[of(0)], &[]).root(&[of(0), of(9)], &[]).root(&[], &[of(9)]);
    s.start(5).add(Command::Retire(5)).start(6).add(Command::Leave(6)).start(9).start(8).add(Command::Leave(9));
    s.root(&[], &[]).add(Command::Retire(10)).add(Command::Remove(10));
    // 11 is Active and relies on 2 and on 1
    s.root(&[of(2), of(1)], &[]).start(11);
    s.log
}

/// A leave whose identity is missing.
fn cut() -> Vec<u8> {
    let mut s = Script::new();
    s.root(&[], &[of(0)]).start(0).root(&[of(0)], &[]).start(1).bytes(&[0x06]);
    s.log
}
