//! Logs where the first of several witnesses must be named, and tests that random logs meet seldom.
use crate::log::{Command, Port, LIST};
use crate::script::{port, Script};

pub fn all() -> Vec<(&'static str, Vec<u8>)> {
    vec![
        ("several dependencies that do not resolve", dependencies()),
        ("several live links in the way", links()),
        ("several children", children()),
        ("repeats and clashes in one list", clashes()),
        ("full lists and tables", full()),
    ]
}

/// Key and realm differ, so that one is not taken for the other.
fn p(number: u64) -> Port {
    port(number, 1000 + number)
}

/// 0 provides p1 and is not Active; 1 to 3 wait, for a port of 0 or of nobody first.
fn dependencies() -> Vec<u8> {
    let mut s = Script::new();
    s.root(&[], &[p(1), p(2)]).root(&[p(1), p(9)], &[]).root(&[p(9), p(1)], &[]).root(&[p(2), p(1), p(8)], &[]);
    s.begin(1).begin(2).begin(3).start(0).begin(1).begin(2).begin(3);
    // 4 provides the rest, so that all are Loading, and then loses them one by one
    s.root(&[], &[p(8), p(9)]).start(4).begin(1).begin(2).begin(3);
    s.add(Command::Leave(4)).add(Command::Finish(1)).add(Command::Finish(2)).add(Command::Finish(3));
    s.add(Command::Leave(0)).add(Command::Finish(1)).add(Command::Finish(2)).add(Command::Finish(3));
    // of a retired one only the identity is named
    s.add(Command::Retire(2)).add(Command::Finish(2)).add(Command::LeaveIfChanged(1));
    s.log
}

/// 0 is relied upon by 1 and 2 with two ports each; the first links are dead.
fn links() -> Vec<u8> {
    let mut s = Script::new();
    s.root(&[], &[p(1), p(2), p(3)]).start(0).root(&[p(2), p(1)], &[]).root(&[p(1), p(2)], &[p(4)]).root(&[p(4)], &[]);
    let released = |s: &mut Script| {
        for number in 1..5 {
            s.add(Command::Release(0, p(number)));
        }
    };
    s.start(1).start(2).start(3);
    released(&mut s);
    s.stop(1).begin(1);
    released(&mut s);
    s.add(Command::CompactBindings);
    released(&mut s);
    s.add(Command::Leave(0)).add(Command::BeginCleanup(0)).add(Command::Leave(2)).add(Command::BeginCleanup(2));
    s.add(Command::Leave(3)).clean(3).clean(2).add(Command::BeginCleanup(0));
    s.log
}

/// 0 has the children 2, 3 and 5, which go one by one.
fn children() -> Vec<u8> {
    let mut s = Script::new();
    s.root(&[], &[]).root(&[], &[]).insert(0, &[], &[]).insert(0, &[], &[]).insert(1, &[], &[]).insert(0, &[], &[]);
    s.add(Command::Remove(0)).add(Command::Retire(0)).add(Command::Remove(0));
    for id in [3, 2, 5] {
        s.add(Command::Retire(id)).add(Command::Remove(id)).add(Command::Remove(0));
    }
    s.log
}

/// 0 and 1 own p1 to p4; a list has a repeat and a clash, in both orders, or several of one.
fn clashes() -> Vec<u8> {
    let mut s = Script::new();
    s.root(&[], &[p(1), p(2)]).root(&[], &[p(3), p(4)]).root(&[], &[]);
    let lists: [&[u64]; 8] =
        [&[8, 4, 8, 1], &[8, 8, 4], &[8, 7, 7, 8, 1], &[7, 8, 8, 7], &[2, 2], &[9, 3, 1], &[7, 7, 7], &[6, 4, 4, 6]];
    for list in lists {
        let list: Vec<Port> = list.iter().map(|&number| p(number)).collect();
        s.root(&[], &list).root(&list, &[]).root(&[p(5), p(5)], &list).configure(2, &list);
    }
    // a port of both lists is no clash, and one whose owner is removed is none
    s.root(&[p(5), p(1)], &[p(5)]).add(Command::Retire(1)).root(&[], &[p(4)]).add(Command::Remove(1));
    s.root(&[], &[p(9), p(4)]).add(Command::Declare(2, p(4))).add(Command::Declare(2, p(2)));
    s.add(Command::Declare(2, p(3))).add(Command::Declare(2, p(3)));
    s.log
}

/// A 33rd port of each list, 256 declarations with sums of several sizes, and 64 identities.
fn full() -> Vec<u8> {
    let mut s = Script::new();
    let ports = |first: u64, count: usize| (first..).take(count).map(p).collect::<Vec<Port>>();
    s.root(&ports(1, LIST + 1), &ports(50, LIST + 2));
    for part in 1..4 {
        s.root(&ports(1, LIST), &ports(100 * part, LIST));
    }
    s.root(&[], &[]).root(&ports(1, 2), &[]).root(&ports(1, 2), &ports(900, 3)).configure(4, &ports(1, 5));
    s.add(Command::Declare(4, p(950))).add(Command::Declare(0, p(50)));
    for _ in 5..66 {
        s.root(&[], &[]);
    }
    s.log
}
