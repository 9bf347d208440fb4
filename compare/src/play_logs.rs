//! The logs that the program `play` plays: the example of the format, the one of docs/LOGS.md, every answer, bytes that are
//! no command, cut operands, the pending lists, and what stands at byte 65,536.
use crate::log::{Command, Port, LIST, NONE};
use crate::scenarios::longest;
use crate::script::{port, Script, P};

/// A port that P is not.
const Q: Port = Port { key: 8, realm: 1 };

/// A command byte, and how many bytes of its operands stand behind it.
const CUTS: [(&str, u8, usize); 12] = [
    ("cut01_0", 0x01, 0),
    ("cut01_1", 0x01, 1),
    ("cut01_15", 0x01, 15),
    ("cut02_15", 0x02, 15),
    ("cut03", 0x03, 0),
    ("cut04", 0x04, 0),
    ("cut0B", 0x0B, 0),
    ("cut0E_0", 0x0E, 0),
    ("cut0E_1", 0x0E, 1),
    ("cut0E_16", 0x0E, 16),
    ("cut0F_16", 0x0F, 16),
    ("cut10", 0x10, 0),
];

/// Each log with the name of its file.
pub fn all() -> Vec<(&'static str, Vec<u8>)> {
    let mut logs = vec![
        ("example", vec![0x03, NONE, 0x04, 0x00, 0x05, 0x00, 0x05, 0x00]),
        ("worked", worked()),
        ("empty", Vec::new()),
        ("answers", answers()),
        ("byte00", vec![0x00, 0x03, NONE]),
        ("byte11", vec![0x11, 0x03, NONE]),
        ("byteFF", vec![0xFF]),
        ("last11", Script::new().root(&[], &[P]).start(0).bytes(&[0x11]).log.clone()),
    ];
    logs.extend(CUTS.map(|(name, byte, kept)| (name, cut(byte, kept))));
    logs.extend([("ports32", ports32()), ("ports33", ports33()), ("lists", lists())]);
    logs.extend([("whole", whole()), ("longer", longer()), ("crossing", crossing())]);
    logs
}

/// Ports of one realm with keys from `first` on.
fn ports(first: u64, count: usize) -> Vec<Port> {
    (first..).take(count).map(|key| port(key, 1)).collect()
}

/// The example of docs/LOGS.md.
fn worked() -> Vec<u8> {
    let mut s = Script::new();
    s.root(&[], &[P]).root(&[P], &[]).begin(1).start(0).start(1).add(Command::Leave(0)).add(Command::BeginCleanup(0));
    s.add(Command::LeaveIfChanged(1)).clean(1).add(Command::BeginCleanup(0)).begin(NONE);
    s.bytes(&[0x0E, 0x00, 0x09, 0x00]).log.clone()
}

/// Every answer but 10, which no log gives, and 11 and 12, which end a log.
fn answers() -> Vec<u8> {
    let mut s = Script::new();
    // 1 of an identity that is not there, of FF too, and of a parent; 2 of one that is not Loading
    s.root(&[], &[P]).begin(5).begin(NONE).insert(NONE - 1, &[], &[]).add(Command::Finish(0)).start(0);
    // 1 relies on 0: 6, 7 and 5
    s.root(&[P], &[]).start(1).add(Command::LeaveIfChanged(1)).add(Command::Release(0, P)).root(&[], &[P]);
    // 0 is retired: 3; it leaves: 4 of 2
    s.add(Command::Retire(0)).insert(0, &[], &[]).add(Command::Leave(0)).root(&[P], &[]).begin(2);
    s.add(Command::LeaveIfChanged(1)).clean(1).clean(0);
    // 3 is a child of 1: 8
    s.insert(1, &[], &[]).add(Command::Retire(1)).add(Command::Remove(1)).add(Command::Remove(0));
    // 9 of the 33rd port
    s.add(Command::CompactBindings).add(Command::CompactDeclarations).add(Command::Declare(2, P));
    s.configure(2, &ports(1, LIST + 1));
    s.log
}

/// A command with the first bytes of its operands; with a 0 for each that is missing it would be done.
fn cut(byte: u8, kept: usize) -> Vec<u8> {
    let mut s = Script::new();
    s.root(&[], &[]).bytes(&[byte]).bytes(&vec![0; kept]);
    s.log
}

fn ports32() -> Vec<u8> {
    let mut s = Script::new();
    s.root(&ports(1, LIST), &ports(101, LIST));
    s.log
}

fn ports33() -> Vec<u8> {
    let mut s = Script::new();
    // 0 provides 1 to 32, and nobody 33: were 33 in 1's list, its begin would get 4
    s.root(&[], &ports(1, LIST)).start(0).root(&ports(1, LIST + 1), &[]).begin(1);
    // 2 provides 101 to 132
    s.root(&[], &ports(101, LIST + 1)).root(&[], &ports(133, 1)).root(&[], &ports(132, 1));
    // the same by configure
    s.configure(3, &ports(1, LIST + 1)).begin(3);
    s.log
}

/// A list that was not emptied would give 4 at a begin, 5 at an insert.
fn lists() -> Vec<u8> {
    let mut s = Script::new();
    // insert refused with 1, then with 5
    s.insert(9, &[P], &[Q]).root(&[], &[]).begin(0).root(&[], &[Q]);
    s.root(&[P], &[Q]).root(&[], &[]).begin(2);
    // configure done drops the provisions too; 1 then waits for P
    s.add(Command::Provision(P)).configure(1, &[P]).root(&[], &[]).begin(3).root(&[], &[P]).begin(1).start(4).begin(1);
    // configure refused with 1, then with 2
    let (first, second) = (port(1, 2), port(2, 2));
    s.add(Command::Provision(first)).configure(9, &[Q]).root(&[], &[]).begin(5).root(&[], &[first]);
    s.add(Command::Provision(second)).configure(0, &[Q]).root(&[], &[]).begin(7).root(&[], &[second]);
    // no other command empties them
    s.depend(&[Q]).add(Command::Provision(port(3, 2))).begin(0).add(Command::CompactBindings);
    s.add(Command::Declare(5, port(4, 2))).add(Command::Insert(NONE)).begin(9).root(&[], &[port(3, 2)]);
    s.log
}

/// 65,536 bytes.
fn whole() -> Vec<u8> {
    longest(&[0x0C])
}

/// 65,536 bytes, and commands behind them.
fn longer() -> Vec<u8> {
    [longest(&[0x0D]), vec![0x0C, 0x03, NONE, 0x11]].concat()
}

/// A declare with nine bytes before the edge and nine behind it.
pub fn crossing() -> Vec<u8> {
    let mut declare = Vec::new();
    Command::Declare(0, P).write(&mut declare);
    [longest(&declare[..9]), declare[9..].to_vec(), vec![0x0C]].concat()
}
