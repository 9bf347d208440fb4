//! The logs that the program `why` plays. Together they reach every test that a log can reach, with every kind of witness:
//! all but the entry, a list over 32 and the largest generation.
use crate::log::{Command, Port, LIST, NONE};
use crate::play_logs::crossing;
use crate::scenarios::shift;
use crate::script::{port, Script, P};

/// Ports that P is not.
const Q: Port = Port { key: 8, realm: 1 };
const A: Port = Port { key: 1, realm: 2 };
const B: Port = Port { key: 2, realm: 2 };
const C: Port = Port { key: 3, realm: 2 };
/// Nobody provides it.
const UNPROVIDED: Port = Port { key: u64::MAX, realm: u64::MAX };

/// Each log with the name of its file.
pub fn all() -> Vec<(&'static str, Vec<u8>)> {
    vec![
        ("shift", shift()),
        ("insertion", insertion()),
        ("interface", interface()),
        ("lifecycle", lifecycle()),
        ("cleanup", cleanup()),
        ("identities", identities()),
        ("declarations", declarations()),
        ("links", links()),
        ("full", full()),
        ("unknown", unknown()),
        ("cut", cut()),
        ("crossing", crossing()),
        ("empty", Vec::new()),
    ]
}

/// Ports of one realm with keys from `first` on.
fn ports(first: u64, count: usize) -> Vec<Port> {
    (first..).take(count).map(|key| port(key, 1)).collect()
}

fn insertion() -> Vec<u8> {
    let mut s = Script::new();
    // 0 provides P and Q, 1 is retired, 2 is removed with its port A
    s.root(&[], &[P, Q]).root(&[], &[]).add(Command::Retire(1)).root(&[], &[A]);
    s.add(Command::Retire(2)).add(Command::Remove(2));
    // the parent: never issued, removed, no identity; retired, also with a port that is taken
    s.insert(3, &[], &[]).insert(2, &[], &[P]).insert(64, &[], &[]).insert(NONE - 1, &[], &[]);
    s.insert(1, &[], &[]).insert(1, &[], &[P]);
    // a port that is taken: alone, behind one that is free, in the order of the list and not of the declarations
    s.root(&[], &[P]).root(&[], &[B, Q]).root(&[], &[Q, P]);
    // a port listed twice: the earlier place and the first later one; before or behind a port that is taken
    s.root(&[], &[A, B, C, A]).root(&[], &[A, B, B, A]).root(&[], &[A, A, A]);
    s.root(&[], &[A, A, P]).root(&[], &[A, P, A]).root(&[], &[P, P]);
    // the dependencies last
    s.root(&[A, A], &[P]).root(&[A, A], &[B, B]).root(&[A, B, B], &[C]).root(&[A, B, C, B, A], &[]);
    // one port in both lists, and the port of the removed one
    s.root(&[P, A], &[A]);
    s.log
}

fn interface() -> Vec<u8> {
    let mut s = Script::new();
    // 0 is Active and provides P and Q, 1 has never begun, 2 is retired; 3 relies on 0 by both; 4 has run
    s.root(&[], &[P, Q]).start(0).root(&[], &[]).root(&[], &[]).add(Command::Retire(2));
    s.root(&[Q, P], &[]).start(3).root(&[], &[]).start(4).stop(4);
    // declare: absent, retired, in no state for it; a port that another provides, Active or not; its own
    s.add(Command::Declare(5, A)).add(Command::Declare(NONE, A)).add(Command::Declare(2, P));
    s.add(Command::Declare(4, P)).add(Command::Declare(1, P)).add(Command::Declare(1, A));
    s.add(Command::Declare(0, A)).add(Command::Declare(0, P));
    // release: absent; the link of the port, live, then behind two dead ones; none of its own
    s.add(Command::Release(5, P)).add(Command::Release(0, P)).add(Command::Release(0, Q));
    s.stop(3).start(3).add(Command::Release(0, P)).add(Command::Release(0, Q)).add(Command::Release(1, P));
    // configure: absent, retired, begun and Active, begun and Inactive; a port twice
    s.configure(5, &[A, A]).configure(2, &[A, A]).configure(0, &[A, A]).configure(4, &[]);
    s.configure(1, &[A, B, C, B]).configure(1, &[A, A, A]).configure(1, &[A, B]);
    s.log
}

fn lifecycle() -> Vec<u8> {
    let mut s = Script::new();
    // 0 provides P; 1 depends on it; 2 on P and on a port that nobody provides; 3 is retired
    s.root(&[], &[P]).root(&[P], &[]).root(&[P, UNPROVIDED, A], &[]).root(&[UNPROVIDED], &[]).add(Command::Retire(3));
    for absent in [Command::Begin(4), Command::Finish(NONE), Command::Leave(64), Command::LeaveIfChanged(4)] {
        s.add(absent);
    }
    s.add(Command::Retire(4));
    // begin: no target, of the first dependency that does not resolve; retired; not Inactive
    s.begin(1).begin(2).begin(3).begin(0).begin(0).begin(1).add(Command::Finish(1)).add(Command::Leave(1));
    s.add(Command::LeaveIfChanged(1)).add(Command::Finish(0)).begin(2).begin(1);
    // 1 is Loading: it has its target until 0 leaves
    s.add(Command::LeaveIfChanged(1)).add(Command::Leave(0)).add(Command::Finish(1)).begin(0);
    s.add(Command::Leave(0)).add(Command::LeaveIfChanged(0)).add(Command::Finish(0));
    // retired while it is Loading, it has no target; and it has begun
    s.add(Command::Retire(1)).add(Command::Finish(1)).begin(1).add(Command::LeaveIfChanged(1));
    s.log
}

fn cleanup() -> Vec<u8> {
    let mut s = Script::new();
    // 1 relies on 0 by two ports, 2 by one; 3, 4 and 5 are children of 0
    s.root(&[], &[P, Q]).start(0).root(&[Q, P], &[]).root(&[P], &[]).start(1).start(2);
    s.insert(0, &[], &[]).insert(0, &[], &[]).insert(0, &[], &[]);
    s.add(Command::BeginCleanup(6)).add(Command::FinishCleanup(NONE)).add(Command::Remove(6));
    // begin_cleanup: not Unloading; the first live link, then the one behind the dead ones; restoring
    s.add(Command::BeginCleanup(0)).add(Command::Leave(0)).add(Command::BeginCleanup(0));
    s.stop(1).add(Command::BeginCleanup(0)).add(Command::Leave(2)).add(Command::BeginCleanup(2));
    s.add(Command::BeginCleanup(2)).add(Command::BeginCleanup(0)).add(Command::FinishCleanup(2));
    // finish_cleanup: not restoring
    s.add(Command::FinishCleanup(2)).add(Command::FinishCleanup(0));
    // remove: not retired; not Inactive; the lowest present child
    s.add(Command::Remove(2)).add(Command::Retire(0)).add(Command::Remove(0)).clean(0).add(Command::Remove(0));
    for child in [4, 3, 5] {
        s.add(Command::Retire(child)).add(Command::Remove(child)).add(Command::Remove(0));
    }
    s.add(Command::CompactBindings).add(Command::CompactDeclarations).add(Command::Remove(0));
    s.log
}

fn identities() -> Vec<u8> {
    let mut s = Script::new();
    for _ in 0..64 {
        s.root(&[], &[]);
    }
    // before the parent and the lists
    s.root(&[], &[]).insert(64, &[A, A], &[]);
    s.log
}

fn declarations() -> Vec<u8> {
    let mut s = Script::new();
    for id in 0..8 {
        s.root(&[], &ports(100 * id, LIST));
    }
    // 256; 8 declares nothing
    s.root(&[], &[]).root(&[P], &[]).root(&ports(1000, LIST), &ports(2000, LIST)).root(&[P, P], &[]);
    s.add(Command::Declare(8, A)).add(Command::Declare(8, port(731, 1))).add(Command::Declare(7, port(731, 1)));
    s.configure(8, &[P]).configure(8, &[P, P]).configure(0, &ports(1000, LIST));
    // 255
    s.add(Command::Release(7, port(731, 1))).configure(8, &[P, P]).configure(8, &[P]).root(&[], &[]).root(&[], &[A]);
    s.log
}

fn links() -> Vec<u8> {
    let mut s = Script::new();
    s.root(&[], &ports(0, LIST)).start(0).root(&ports(0, LIST), &[]).root(&[port(3, 1)], &[]);
    for _ in 0..16 {
        s.begin(1).stop(1);
    }
    // 512, all dead; no target comes first
    s.begin(2).begin(1).add(Command::Leave(0)).begin(2).add(Command::CompactBindings).begin(2);
    s.log
}

/// The 33rd port of each list.
fn full() -> Vec<u8> {
    let mut s = Script::new();
    s.root(&ports(1, LIST + 1), &ports(101, LIST + 1));
    s.log
}

/// A byte that is no command, and a command behind it.
fn unknown() -> Vec<u8> {
    let mut s = Script::new();
    s.root(&[], &[P]).bytes(&[0x11]).begin(0);
    s.log
}

/// A begin whose identity is missing.
fn cut() -> Vec<u8> {
    let mut s = Script::new();
    s.root(&[], &[P]).bytes(&[0x04]);
    s.log
}
