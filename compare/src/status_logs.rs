//! The logs that the program `status` plays: every form of its lines, and two that end early.
use crate::log::{Command, Port};
use crate::script::{port, Script, P};

/// Nobody provides it.
const UNPROVIDED: Port = Port { key: 99, realm: 0 };
/// The largest key and realm.
const LARGEST: Port = Port { key: u64::MAX, realm: u64::MAX };

/// Each log with the name of its file.
pub fn all() -> [(&'static str, Vec<u8>); 3] {
    [("words", words()), ("unknown", unknown()), ("cut", cut())]
}

/// The port that a component provides: component n provides key n + 1 in realm 0.
fn of(id: u8) -> Port {
    port(u64::from(id) + 1, 0)
}

fn words() -> Vec<u8> {
    let mut s = Script::new();
    // 0 is Active, and 1 with a dependency on it
    s.root(&[], &[of(0)]).start(0).root(&[of(0)], &[]).start(1);
    not_active(&mut s);
    nobody(&mut s);
    several(&mut s);
    retired(&mut s);
    s.log
}

/// Components that wait for an owner that is not Active.
fn not_active(s: &mut Script) {
    // 3 waits for 2, which is Inactive
    s.root(&[], &[of(2)]).root(&[of(2)], &[]);
    // 5 Loading a second time, 6 Active and 7 restoring wait for 4, which leaves
    s.root(&[], &[of(4)]).start(4).root(&[of(4)], &[]).root(&[of(4)], &[]).root(&[of(4)], &[]);
    s.start(5).stop(5).begin(5).start(6).start(7).add(Command::Leave(7)).add(Command::BeginCleanup(7));
    s.add(Command::Leave(4));
    // 9 waits for 8, which is Loading
    s.root(&[], &[LARGEST]).begin(8).root(&[LARGEST], &[]);
}

/// Components that wait for a port that nobody provides.
fn nobody(s: &mut Script) {
    // 10 a port that no record has, 11 the key of 0 in another realm
    s.root(&[UNPROVIDED], &[]).root(&[port(of(0).key, u64::MAX)], &[]);
    // 13 ran twice while 12 provided its port; 12 is removed, and its record stays
    s.root(&[], &[of(12)]).start(12).root(&[of(12)], &[]).start(13).stop(13).start(13).stop(13);
    s.stop(12).add(Command::Retire(12)).add(Command::Remove(12));
    // 15 ran while 14 provided its port, which 14 released
    s.root(&[], &[of(14)]).start(14).root(&[of(14)], &[]).start(15).stop(15).add(Command::Release(14, of(14)));
}

/// Components with several dependencies: the first that does not resolve is named.
fn several(s: &mut Script) {
    // of 16 the first resolves; of 17 and 18 neither does; of 19 the first of three resolves
    s.root(&[of(0), UNPROVIDED], &[]).root(&[of(2), UNPROVIDED], &[]).root(&[UNPROVIDED, of(2)], &[]);
    s.root(&[of(0), of(2), UNPROVIDED], &[]);
}

/// Retired ones in each phase, and 24 restoring and not retired.
fn retired(s: &mut Script) {
    // 20 still serves 21
    s.root(&[], &[of(20)]).start(20).root(&[of(20)], &[]).start(21).add(Command::Retire(20));
    // 22 Unloading; 23 and 24 restoring
    for id in 22..25 {
        s.root(&[], &[]).start(id).add(Command::Leave(id));
    }
    s.add(Command::Retire(22)).add(Command::BeginCleanup(23)).add(Command::Retire(23)).add(Command::BeginCleanup(24));
    // 25 Inactive with a dependency that does not resolve, 26 Loading
    s.root(&[UNPROVIDED], &[]).add(Command::Retire(25)).root(&[], &[]).begin(26).add(Command::Retire(26));
}

/// A byte that is no command, and commands after it that are not played.
fn unknown() -> Vec<u8> {
    let mut s = Script::new();
    s.root(&[], &[P]).start(0).root(&[UNPROVIDED], &[]).bytes(&[0x11]);
    s.root(&[], &[UNPROVIDED]).start(2).start(1).add(Command::Leave(0));
    s.log
}

/// A begin whose identity is missing; one of 0 would be done.
fn cut() -> Vec<u8> {
    let mut s = Script::new();
    s.root(&[], &[P]).start(0).root(&[P], &[]).stop(0).bytes(&[0x04]);
    s.log
}
