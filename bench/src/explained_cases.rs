//! The commands that are explained: each of the fourteen accepted, and refusals of every kind whose witness is looked for.
use crate::controllers::{self, Controller, NEW};
use crate::log::{self, Port};
use crate::script::Script;

/// A controller's name, a command, and a log that ends with it.
pub struct Case {
    pub controller: String,
    pub command: &'static str,
    pub script: Script,
}

/// A port twice.
const TWICE: [Port; 2] = [NEW[0], NEW[0]];

pub fn all() -> Vec<Case> {
    let (typical, full) = (controllers::typical(), controllers::scaled(64));
    let mut cases = of_every(&typical);
    cases.extend(with_room(&typical));
    cases.extend(of_every(&full));
    cases.extend(without_room(&full));
    // the full one has neither an identity nor a declaration left, so that these two stand in for it
    cases.extend(configured());
    cases.extend(listed(&controllers::wide()));
    cases
}

/// What a controller gives by its setup and then these commands, the last of which is explained.
fn case(c: &Controller, command: &'static str, write: impl Fn(&mut Script)) -> Case {
    let mut script = c.setup.clone();
    write(&mut script);
    Case { controller: c.name.clone(), command, script }
}

/// An insert with both lists, and its answer.
fn insert(s: &mut Script, dependencies: &[Port], provisions: &[Port], answer: u8) {
    s.insert(dependencies, provisions);
    s.answers.pop();
    s.answers.push(answer);
}

/// Every component but the cycled one leaves.
fn others_leave(s: &mut Script, c: &Controller) {
    (0..c.components).filter(|&id| id != c.cycled).for_each(|id| s.of(log::LEAVE, id, 0));
}

/// The commands that need no room in a table.
fn of_every(c: &Controller) -> Vec<Case> {
    [interface(c), episode(c), cleanup(c)].into_iter().flatten().collect()
}

fn interface(c: &Controller) -> Vec<Case> {
    vec![
        case(c, "declare_provision, owned", |s| s.of_port(log::DECLARE, 0, c.port, 0)),
        case(c, "declare_provision, another's", |s| s.of_port(log::DECLARE, 1, c.port, 5)),
        case(c, "release_provision, not relied upon", |s| s.of_port(log::RELEASE, 0, NEW[0], 0)),
        case(c, "release_provision, relied upon", |s| s.of_port(log::RELEASE, 0, c.port, 7)),
        case(c, "retire", |s| s.of(log::RETIRE, c.cycled, 0)),
        case(c, "compact_bindings", |s| s.bare(log::COMPACT_BINDINGS, 0)),
        case(c, "compact_declarations", |s| s.bare(log::COMPACT_DECLARATIONS, 0)),
    ]
}

/// begin to leave of one component.
fn episode(c: &Controller) -> Vec<Case> {
    let id = c.cycled;
    let loading = |s: &mut Script| {
        s.stop(id);
        s.of(log::BEGIN, id, 0);
    };
    let last = |s: &mut Script, byte: u8, answer: u8| s.of(byte, id, answer);
    vec![
        case(c, "begin", |s| loading(s)),
        case(c, "begin, no such component", |s| s.of(log::BEGIN, controllers::STALE, 1)),
        case(c, "begin, a dependency missing", |s| {
            s.stop(id);
            others_leave(s, c);
            last(s, log::BEGIN, 4);
        }),
        case(c, "finish", |s| {
            loading(s);
            last(s, log::FINISH, 0);
        }),
        case(c, "finish, a dependency missing", |s| {
            loading(s);
            others_leave(s, c);
            last(s, log::FINISH, 6);
        }),
        case(c, "leave", |s| last(s, log::LEAVE, 0)),
        case(c, "leave_if_changed", |s| {
            others_leave(s, c);
            last(s, log::LEAVE_IF_CHANGED, 0);
        }),
        case(c, "leave_if_changed, not changed", |s| last(s, log::LEAVE_IF_CHANGED, 6)),
    ]
}

/// begin_cleanup to remove.
fn cleanup(c: &Controller) -> Vec<Case> {
    let id = c.cycled;
    vec![
        case(c, "begin_cleanup", |s| {
            s.of(log::LEAVE, id, 0);
            s.of(log::BEGIN_CLEANUP, id, 0);
        }),
        case(c, "begin_cleanup, relied upon", |s| {
            s.of(log::LEAVE, 0, 0);
            s.of(log::BEGIN_CLEANUP, 0, 7);
        }),
        case(c, "finish_cleanup", |s| s.stop(id)),
        case(c, "remove", |s| {
            s.stop(id);
            s.remove(id);
        }),
    ]
}

/// The commands that add records.
fn with_room(c: &Controller) -> Vec<Case> {
    let id = c.components;
    vec![
        case(c, "insert, two ports in each list", |s| insert(s, &[c.port, NEW[0]], &NEW, 0)),
        case(c, "insert, a port taken", |s| insert(s, &[], &[NEW[0], c.port], 5)),
        case(c, "insert, a dependency twice", |s| insert(s, &TWICE, &NEW, 5)),
        case(c, "declare_provision, new", |s| s.of_port(log::DECLARE, 0, NEW[0], 0)),
        case(c, "configure_pending_dependencies", |s| {
            s.insert(&[], &[]);
            s.configure(id, &NEW, 0);
        }),
        case(c, "configure_pending_dependencies, a port twice", |s| {
            s.insert(&[], &[]);
            s.configure(id, &TWICE, 5);
        }),
        case(c, "remove, a child", |s| with_child(s, id)),
    ]
}

/// Two more components, the second a child of the first, which is retired and not removed.
fn with_child(s: &mut Script, id: u8) {
    s.insert(&[], &[]);
    s.of(log::INSERT, id, 0);
    s.of(log::RETIRE, id, 0);
    s.of(log::REMOVE, id, 8);
}

/// The same with full tables: refused with 9.
fn without_room(c: &Controller) -> Vec<Case> {
    let filler = c.refill.0;
    vec![
        case(c, "insert, 64 identities", |s| insert(s, &[], &NEW, 9)),
        case(c, "declare_provision, 256 declarations", |s| s.of_port(log::DECLARE, 0, NEW[0], 9)),
        case(c, "begin, over 512 links", |s| {
            // 448 links; each begin of the filler makes 32
            s.cycle(filler);
            s.cycle(filler);
            s.stop(filler);
            s.of(log::BEGIN, filler, 9);
        }),
    ]
}

/// configure on the full controllers whose last component never began.
fn configured() -> Vec<Case> {
    let (fits, over) = (controllers::pending(2), controllers::pending(0));
    let three = [NEW[0], NEW[1], fits.port];
    vec![
        case(&fits, "configure_pending_dependencies", |s| s.configure(fits.cycled, &NEW, 0)),
        case(&fits, "configure_pending_dependencies, a port twice", |s| s.configure(fits.cycled, &TWICE, 5)),
        case(&over, "configure_pending_dependencies, over 256", |s| s.configure(over.cycled, &three, 9)),
    ]
}

/// Inserts that scan 256 declarations for each of 32 provisions.
fn listed(c: &Controller) -> Vec<Case> {
    let new = |count: u64| (0..count).map(|i| Port { key: 5000 + i, realm: 1 }).collect::<Vec<Port>>();
    let taken = [new(31), vec![c.port]].concat();
    let repeated = [new(31), new(1)].concat();
    vec![
        case(c, "insert, no ports", |s| insert(s, &[], &[], 0)),
        case(c, "insert, the last of 32 ports taken", |s| insert(s, &[], &taken, 5)),
        case(c, "insert, the last of 32 ports the first", |s| insert(s, &[], &repeated, 5)),
        case(c, "insert, 32 ports over 256", |s| insert(s, &[], &new(32), 9)),
        case(c, "insert, 32 ports, the last of 32 dependencies the first", |s| insert(s, &repeated, &new(32), 5)),
        case(c, "remove, a child", |s| with_child(s, c.components)),
    ]
}
