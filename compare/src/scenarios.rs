//! Logs written by hand: the sample sequences, the edges that a log reaches, early ends, and what is easy to get wrong.
use crate::log::{Command, Port, LIST, LONGEST, NONE};
use crate::script::{port, Script, P};

/// Every scenario with its name.
pub fn all() -> Vec<(&'static str, Vec<u8>)> {
    vec![
        ("the sample sequences C01 to C12", samples()),
        ("the example of the log format", vec![0x03, 0xFF, 0x04, 0x00, 0x05, 0x00, 0x05, 0x00]),
        ("an empty log", Vec::new()),
        ("byte 00 at once", vec![0x00, 0x03, 0xFF]),
        ("byte 11 after commands", Script::new().root(&[], &[P]).start(0).bytes(&[0x11, 0x04, 0x00]).log.clone()),
        ("a dependency cut by a byte", Script::new().root(&[], &[]).bytes(&[0x01]).bytes(&[7; 15]).log.clone()),
        ("a declare without operands", Script::new().root(&[], &[]).bytes(&[0x0E]).log.clone()),
        ("an insert without a parent byte", Script::new().depend(&[P]).bytes(&[0x03]).log.clone()),
        ("lists of 32 and 33", lists()),
        ("64 identities", identities()),
        ("256 declarations", declarations()),
        ("512 links", links()),
        ("a retired provider", retired_provider()),
        ("retired while Loading", retired_loading()),
        ("a chain of 64", chain()),
        ("one port in both lists", both_lists()),
        ("removed and inserted again", reinserted()),
        ("pending lists that a refusal drops", pending()),
        ("the order of the tests", order()),
        ("release in each phase", release()),
        ("parents and children", children()),
        ("a retired parent in each phase", retired_parents()),
        ("ports that differ in one byte", bytes_of_ports()),
        ("a log of 65,536 bytes", longest(&[0x0C])),
        ("a log of 65,536 bytes that ends in a cut command", longest(&[0x04])),
        ("a shift", shift()),
    ]
}

/// Ports of one realm with keys from `first` on.
fn ports(first: u64, count: usize) -> Vec<Port> {
    (first..).take(count).map(|key| port(key, 1)).collect()
}

fn samples() -> Vec<u8> {
    let mut s = Script::new();
    s.root(&[], &[P]).root(&[P], &[]);
    s.begin(1).start(0).begin(1);
    s.add(Command::Leave(0)).add(Command::BeginCleanup(0));
    s.stop(1).add(Command::CompactBindings);
    s.clean(0).add(Command::Retire(0)).root(&[], &[P]);
    s.add(Command::Remove(0)).root(&[], &[P]).add(Command::CompactDeclarations);
    s.add(Command::Retire(1)).insert(1, &[], &[]).add(Command::Remove(1));
    s.add(Command::Release(2, port(8, 1)));
    s.log
}

fn lists() -> Vec<u8> {
    let mut s = Script::new();
    s.root(&ports(1, LIST), &ports(100, LIST));
    s.root(&ports(1, LIST + 1), &ports(200, LIST + 2));
    s.configure(0, &ports(300, LIST)).configure(0, &ports(400, LIST + 1)).configure(5, &ports(1, LIST + 1));
    s.log
}

fn identities() -> Vec<u8> {
    let mut s = Script::new();
    for id in 0..64 {
        s.insert(if id % 3 == 0 { NONE } else { id - 1 }, &[], &[port(id.into(), 0)]);
    }
    s.root(&[], &[]).insert(64, &[], &[]).insert(63, &[], &[port(0, 0)]).insert(200, &[], &[]);
    s.start(63).add(Command::Leave(64)).add(Command::Retire(200)).begin(255);
    s.add(Command::Retire(62)).insert(62, &[], &[]).add(Command::Remove(62)).insert(62, &[], &[]).root(&[], &[]);
    s.log
}

fn declarations() -> Vec<u8> {
    let mut s = Script::new();
    for part in 0..4 {
        s.root(&ports(1000, LIST), &ports(100 * part, LIST - 1));
    }
    // 252 so far
    s.root(&[], &ports(500, 5)).root(&[port(900, 1)], &ports(500, 3));
    s.add(Command::Declare(4, port(500, 1)))
        .add(Command::Declare(4, port(700, 1)))
        .add(Command::Declare(4, port(0, 1)));
    // full: no further port, yet an empty component, and each refusal that stands before the sum
    s.root(&[], &[]).root(&[P], &[]).begin(5).configure(5, &[P]).add(Command::Retire(3)).configure(3, &[P, P]);
    s.insert(3, &[P], &[]).insert(3, &[P, P], &[]).insert(4, &[P, P], &[]).insert(4, &[P], &[]);
    s.configure(9, &[P, P]);
    replaced(&mut s);
    s.log
}

/// The same full table: configure replaces 4's one dependency, 0's 32 and the none of 6, and counts the provisions of 0 and 4.
fn replaced(s: &mut Script) {
    let repeated = |count: usize| [ports(50, count - 1), ports(50, 1)].concat();
    s.configure(4, &[P]).configure(4, &ports(50, 2)).configure(4, &[P, P]);
    s.configure(0, &ports(50, LIST)).configure(0, &repeated(LIST)).configure(0, &[P, P]);
    s.root(&[], &[]).configure(6, &[]).configure(6, &[P]).configure(6, &[P, P]);
    // 224, then 225: 31 more fit
    s.configure(0, &[]).configure(1, &ports(50, LIST)).add(Command::Declare(4, port(700, 1)));
    s.configure(0, &ports(60, LIST)).configure(0, &ports(60, LIST - 1));
    // full with 31 of 0's
    s.configure(0, &ports(70, LIST)).configure(0, &repeated(LIST)).configure(0, &repeated(LIST - 1));
    s.configure(0, &ports(70, LIST - 1)).configure(0, &ports(70, LIST + 1));
    // what a removed owner declared counts until it is compacted
    s.add(Command::Retire(2)).add(Command::Remove(2)).configure(0, &ports(60, LIST));
    s.add(Command::CompactDeclarations).configure(0, &ports(60, LIST)).add(Command::Release(3, port(301, 1)));
}

fn links() -> Vec<u8> {
    let mut s = Script::new();
    s.root(&[], &ports(0, LIST)).start(0).root(&ports(0, LIST), &[]).root(&[], &[]).root(&[port(3, 1)], &[]);
    for _ in 0..16 {
        s.begin(1).stop(1);
    }
    s.begin(2).begin(3).begin(1).add(Command::Leave(0));
    s.begin(3).begin(1).add(Command::CompactBindings).begin(3).clean(0).begin(0).add(Command::Finish(0));
    s.begin(3).begin(1).add(Command::BeginCleanup(0)).add(Command::Leave(0)).add(Command::BeginCleanup(0));
    s.log
}

fn retired_provider() -> Vec<u8> {
    let mut s = Script::new();
    s.root(&[], &[P]).start(0).add(Command::Retire(0)).root(&[P], &[]).start(1);
    s.add(Command::LeaveIfChanged(1)).root(&[], &[P]).add(Command::Declare(0, port(9, 9)));
    s.add(Command::Remove(0)).add(Command::Leave(0)).add(Command::LeaveIfChanged(1)).clean(1).clean(0);
    s.begin(0).add(Command::Remove(0)).root(&[], &[P]).begin(1).start(2).begin(1);
    s.log
}

fn retired_loading() -> Vec<u8> {
    let mut s = Script::new();
    s.root(&[], &[P]).begin(0).add(Command::Retire(0)).add(Command::Retire(0)).add(Command::Finish(0)).begin(0);
    s.add(Command::LeaveIfChanged(0)).add(Command::FinishCleanup(0)).add(Command::BeginCleanup(0));
    s.add(Command::BeginCleanup(0)).add(Command::FinishCleanup(0)).begin(0).add(Command::Remove(0)).begin(0);
    s.log
}

fn chain() -> Vec<u8> {
    let mut s = Script::new();
    for id in 0..64 {
        let needs = if id == 0 { Vec::new() } else { ports(id - 1, 1) };
        s.root(&needs, &ports(id, 1)).start(id as u8);
    }
    s.add(Command::Leave(0)).add(Command::BeginCleanup(0));
    for id in 1..64 {
        s.add(Command::LeaveIfChanged(id)).add(Command::BeginCleanup(id - 1));
    }
    for id in (0..64).rev() {
        s.clean(id).add(Command::CompactBindings);
    }
    for id in [63, 1, 0, 2, 1, 2, 3] {
        s.start(id);
    }
    s.log
}

fn both_lists() -> Vec<u8> {
    let mut s = Script::new();
    s.root(&[P], &[P]).begin(0).root(&[], &[P]).add(Command::Release(0, P)).begin(0);
    s.root(&[], &[P]).start(1).begin(0).root(&[P, P], &[]).root(&[], &[port(1, 1), port(1, 1)]);
    s.log
}

fn reinserted() -> Vec<u8> {
    let mut s = Script::new();
    s.root(&[], &[P]).root(&[P], &[port(8, 1)]).root(&[port(8, 1)], &[]);
    for id in 0..3 {
        s.start(id);
    }
    s.stop(2).stop(1).stop(0).add(Command::Retire(1)).add(Command::Remove(1)).begin(1).begin(2);
    s.root(&[P], &[port(8, 1)])
        .start(0)
        .start(3)
        .start(2)
        .add(Command::CompactDeclarations)
        .add(Command::CompactBindings);
    s.add(Command::Release(1, port(8, 1))).add(Command::Declare(1, port(8, 1))).stop(3).stop(2).stop(3);
    s.log
}

fn pending() -> Vec<u8> {
    let mut s = Script::new();
    s.insert(9, &[P], &[P]).root(&[], &[]).begin(0).stop(0);
    s.add(Command::Provision(P)).configure(0, &[P]).root(&[], &[]).configure(1, &[P]).begin(1);
    s.add(Command::Provision(P)).configure(7, &[port(3, 3)]).configure(1, &[]).begin(1).depend(&[P]);
    s.add(Command::Retire(0)).add(Command::CompactBindings).add(Command::Insert(NONE)).begin(2).depend(&[P]);
    s.log
}

fn order() -> Vec<u8> {
    let mut s = Script::new();
    s.root(&[], &[P]).root(&[P], &[]).start(0).start(1).add(Command::Retire(0));
    s.begin(0).add(Command::Declare(0, P)).configure(0, &[]).add(Command::Release(0, P)).add(Command::Remove(0));
    s.stop(1).add(Command::Declare(1, port(2, 2))).configure(1, &[]).add(Command::LeaveIfChanged(1));
    s.stop(0).begin(0).add(Command::Declare(0, P)).configure(0, &[P, P]).configure(1, &[P, P]);
    s.begin(1).add(Command::Finish(1)).add(Command::FinishCleanup(1)).add(Command::BeginCleanup(1));
    s.insert(7, &[], &[P]).insert(0, &[P, P], &[]).insert(0, &[], &[]).add(Command::Remove(0));
    s.log
}

fn release() -> Vec<u8> {
    let mut s = Script::new();
    s.root(&[], &[P, port(8, 1)]).add(Command::Release(0, P)).add(Command::Declare(0, P)).begin(0);
    s.add(Command::Release(0, P)).add(Command::Declare(0, P)).add(Command::Finish(0));
    s.root(&[P], &[])
        .begin(1)
        .add(Command::Release(0, P))
        .add(Command::Release(1, P))
        .add(Command::Release(0, port(8, 1)));
    s.add(Command::Leave(0)).add(Command::Release(0, P)).stop(1).add(Command::Release(0, P)).root(&[], &[P]);
    s.add(Command::Retire(0))
        .add(Command::Release(0, port(7, 2)))
        .add(Command::Release(2, P))
        .add(Command::Release(3, P));
    s.log
}

fn children() -> Vec<u8> {
    let mut s = Script::new();
    s.root(&[], &[]).insert(0, &[], &[]).insert(1, &[], &[]).insert(3, &[], &[]).insert(2, &[], &[]);
    for id in [0, 1, 3, 2, 1, 0, 0] {
        s.add(Command::Retire(id)).add(Command::Remove(id));
    }
    s.insert(0, &[], &[]).insert(NONE, &[], &[]).insert(4, &[], &[]);
    s.log
}

/// 0 to 4 are Inactive, Loading, Active, Unloading and restoring, each with a child, when they are retired.
fn retired_parents() -> Vec<u8> {
    let mut s = Script::new();
    s.root(&[], &[]).root(&[], &[]).root(&[], &[P]).root(&[], &[]).root(&[], &[]);
    s.begin(1).start(2).start(3).add(Command::Leave(3)).start(4).add(Command::Leave(4)).add(Command::BeginCleanup(4));
    for id in 0..5 {
        s.insert(id, &[P], &[]).add(Command::Retire(id)).insert(id, &[], &[]);
        // before a port that is taken, a port listed twice, and a new port
        s.insert(id, &[], &[P]).insert(id, &[P, P], &[]).insert(id, &[], &[port(u64::from(id), 2)]);
    }
    // no parent, a parent that was never issued, and a child of a retired parent
    s.root(&[], &[P]).insert(63, &[], &[P]).insert(64, &[], &[]).insert(254, &[], &[]).root(&[], &[]);
    s.insert(5, &[P], &[port(9, 2)]).start(5).start(11).add(Command::Remove(0));
    // 0 goes with its child and grandchild; its node stays marked retired
    for id in [11, 5] {
        s.stop(id).add(Command::Retire(id)).add(Command::Remove(id));
    }
    s.add(Command::Remove(0)).insert(0, &[], &[]).insert(5, &[], &[P]).insert(NONE, &[], &[port(9, 2)]);
    s.log
}

fn bytes_of_ports() -> Vec<u8> {
    let mut s = Script::new();
    for place in 0..8 {
        s.root(&[], &[port(1 << (8 * place), 0), port(0, 1 << (8 * place))]);
    }
    s.root(&[port(1, 0), port(0, 1), port(1 << 56, 0), port(0, 1 << 56)], &[port(0, 0), port(u64::MAX, u64::MAX)]);
    s.start(0)
        .begin(8)
        .start(7)
        .start(8)
        .add(Command::Release(7, port(1 << 56, 0)))
        .add(Command::Release(7, port(1 << 48, 0)));
    s.log
}

/// A log as long as the log player reads: whole commands, then the bytes given.
pub fn longest(last: &[u8]) -> Vec<u8> {
    let mut s = Script::new();
    let mut key = 0;
    while s.log.len() + 20 + last.len() < LONGEST {
        key += 1;
        s.add(Command::Dependency(port(key % 50, 3)));
        if key % 40 == 0 && s.log.len() + 40 < LONGEST {
            s.add(if key % 80 == 0 { Command::Configure(0) } else { Command::Insert(NONE) });
        }
    }
    while s.log.len() + last.len() < LONGEST {
        s.add(Command::CompactDeclarations);
    }
    s.bytes(last).log.clone()
}

/// The two-bed cutter's five components through a shift; samples/README.md tells it in words.
pub fn shift() -> Vec<u8> {
    let (chiller, air, planner, loader, camera) = (0, 1, 2, 3, 4);
    let provides = |id: u8| port(u64::from(id) + 1, 0);
    let mut s = Script::new();
    s.root(&[], &[provides(chiller)]).start(chiller);
    s.root(&[], &[provides(air)]).start(air);
    s.root(&[provides(chiller)], &[provides(planner)]).start(planner);
    s.root(&[provides(planner)], &[provides(loader)]).start(loader);
    s.root(&[], &[provides(camera)]).start(camera);
    s.add(Command::LeaveIfChanged(planner)).add(Command::Leave(chiller)).add(Command::BeginCleanup(chiller));
    s.add(Command::LeaveIfChanged(planner)).add(Command::LeaveIfChanged(loader)).begin(planner);
    s.clean(loader).clean(planner).clean(chiller).add(Command::CompactBindings);
    s.add(Command::Retire(camera)).add(Command::Remove(camera)).stop(camera).add(Command::Remove(camera));
    s.root(&[], &[provides(camera)]).start(camera).start(5).add(Command::CompactDeclarations);
    s.begin(planner).start(chiller).start(planner).start(loader);
    s.log
}
