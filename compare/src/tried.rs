//! The commands that are tried on a kernel made by hand.
use crate::calls::Call;
use crate::log::{Port, LIST};
use crate::met;
use crate::random::Random;
use crate::record::{Link, Record};
use crate::sizes::IDENTITIES;

/// The lengths of lists of new ports that are tried on each kernel.
const LENGTHS: [usize; 6] = [0, 1, 2, LIST - 1, LIST, LIST + 1];
/// How many commands are played after each other.
pub const WALK: usize = 8;
/// Of a kernel with at most so many identities each is tried, of a larger one so many.
const FEW: usize = 8;

/// A command with the lists that insert and configure take.
pub struct Trial {
    pub call: Call,
    pub dependencies: List,
    pub provisions: List,
}

impl Trial {
    /// A command that takes no list.
    pub fn without_lists(call: Call) -> Trial {
        Trial { call, dependencies: List::default(), provisions: List::default() }
    }
}

/// Ports as the program `cases` takes them: so many from a port on, each key further by a step.
#[derive(Default)]
pub struct List(Vec<(usize, Port, u64)>);

impl List {
    pub fn ports(&self) -> Vec<Port> {
        let run = |&(count, Port { key, realm }, step): &(usize, Port, u64)| {
            (0..count as u64).map(move |i| Port { key: key.wrapping_add(i.wrapping_mul(step)), realm })
        };
        self.0.iter().flat_map(run).collect()
    }

    pub fn lines(&self, name: &str) -> Vec<String> {
        self.0.iter().map(|(count, p, step)| format!("{name} {count} {} {} {step}", p.key, p.realm)).collect()
    }

    /// So many ports that nobody declares, the last keys being the largest and, past it, 0 and on.
    fn new(count: usize) -> List {
        List(vec![(count, Port { key: u64::MAX - 1, realm: 6 }, 1)])
    }

    /// None, some of the ports, one of them twice, new ones, and lists at the longest length.
    fn any(ports: &[Port], random: &mut Random) -> List {
        let new = Port { key: 1_000 + random.below(3) as u64, realm: 5 };
        let mut one = || (1, random.pick(ports).unwrap_or(new), 0);
        let some = [one(), one(), one()];
        List(match random.below(12) {
            0..=2 => vec![],
            3..=4 => vec![some[0]],
            5..=6 => some[..2].to_vec(),
            7 => some.to_vec(),
            8 => vec![(1 + random.below(4), new, 1)],
            9 => vec![some[0], (1 + random.below(4), new, 1)],
            10 => vec![(2, new, 0)],
            _ => vec![some[0], (LIST - 2 + random.below(3), new, random.below(2) as u64)],
        })
    }
}

/// The identities that are tried: all of a small kernel, else some; the next one.
pub fn identities(tables: &Record, random: &mut Random) -> Vec<usize> {
    let count = tables.nodes.len();
    let mut found: Vec<usize> = match count {
        0..=FEW => (0..count).collect(),
        _ => [0, 1, 2].into_iter().chain((0..FEW - 4).map(|_| random.below(count))).chain([count - 1]).collect(),
    };
    found.push(count);
    found
}

/// Identities that no kernel has: the first, the ends of a byte and of a word; 256 and 2^32 above each that is tried.
pub fn far(identities: &[usize]) -> Vec<usize> {
    let ends = [IDENTITIES, 255, usize::MAX - 1, usize::MAX];
    ends.into_iter().chain(identities.iter().flat_map(|id| [256 + id, (1 << 32) + id])).collect()
}

/// Some of the ports that are declared, and one that is not.
pub fn ports(tables: &Record, random: &mut Random) -> Vec<Port> {
    let mut found: Vec<Port> = Vec::new();
    for _ in 0..tables.declarations.len().min(6) {
        let d = &tables.declarations[random.below(tables.declarations.len())];
        let port = Port { key: d.key, realm: d.realm };
        if !found.contains(&port) && found.len() < 3 {
            found.push(port);
        }
    }
    found.push(Port { key: 500, realm: random.next() });
    found
}

/// The consumer and the port of some live links and of some dead ones.
pub fn links(tables: &Record, random: &mut Random) -> Vec<(usize, Port)> {
    let mut found: Vec<(usize, Port)> = Vec::new();
    for live in [1, 0, 1, 0, 1, 0] {
        let those: Vec<&Link> = tables.links.iter().filter(|l| l.live == live).collect();
        let Some(l) = random.pick(&those) else { continue };
        let asked = (l.consumer as usize, Port { key: l.binding.key, realm: l.binding.realm });
        if !found.contains(&asked) {
            found.push(asked);
        }
    }
    found
}

/// Each command on each identity, with the ports, and with lists; those of each length not on far identities.
pub fn each(identities: &[usize], far: &[usize], ports: &[Port], random: &mut Random) -> Vec<Trial> {
    let mut calls = vec![Call::CompactBindings, Call::CompactDeclarations, Call::Insert(None), Call::Insert(None)];
    for &id in identities.iter().chain(far) {
        calls.extend(of_identity(id));
        calls.extend(ports.iter().flat_map(|&p| [Call::Declare(id, p), Call::Release(id, p)]));
    }
    let any = calls.into_iter().map(|call| with_lists(call, ports, random));
    any.chain(LENGTHS.into_iter().flat_map(|length| of_length(length, identities))).collect()
}

/// Lists of one length: of dependencies, of provisions, of both, and for each identity that may be configured.
fn of_length(length: usize, identities: &[usize]) -> Vec<Trial> {
    let insert = |dependencies, provisions| Trial {
        call: Call::Insert(None),
        dependencies: List::new(dependencies),
        provisions: List::new(provisions),
    };
    let mut found = vec![insert(length, 0), insert(0, length), insert(length, length)];
    for &id in identities {
        let (dependencies, provisions) = (List::new(length), List::default());
        found.push(Trial { call: Call::Configure(id), dependencies, provisions });
    }
    found
}

fn of_identity(id: usize) -> [Call; 11] {
    [
        Call::Begin(id),
        Call::Finish(id),
        Call::Leave(id),
        Call::LeaveIfChanged(id),
        Call::Retire(id),
        Call::BeginCleanup(id),
        Call::FinishCleanup(id),
        Call::Remove(id),
        Call::Insert(Some(id)),
        Call::Configure(id),
        Call::Configure(id),
    ]
}

/// A random command.
pub fn any(identities: &[usize], ports: &[Port], random: &mut Random) -> Trial {
    let id = identities[random.below(identities.len())];
    let port = ports[random.below(ports.len())];
    let call = match random.below(16) {
        0 => Call::CompactBindings,
        1 => Call::CompactDeclarations,
        2 => Call::Insert(None),
        3 => Call::Declare(id, port),
        4 => Call::Release(id, port),
        n => of_identity(id)[n - 5],
    };
    with_lists(call, ports, random)
}

fn with_lists(call: Call, ports: &[Port], random: &mut Random) -> Trial {
    let (dependencies, provisions) = match call {
        Call::Insert(_) => (List::any(ports, random), List::any(ports, random)),
        Call::Configure(_) => (List::any(ports, random), List::default()),
        _ => return Trial::without_lists(call),
    };
    Trial { call, dependencies, provisions }
}

/// A parent as the program `cases` takes it.
pub fn parent(parent: Option<usize>) -> String {
    parent.map_or("-".to_string(), |id| id.to_string())
}

/// The line of a command.
pub fn line(call: Call) -> String {
    let name = met::NAMES[met::place(call)];
    match call {
        Call::CompactBindings | Call::CompactDeclarations => name.to_string(),
        Call::Insert(above) => format!("{name} {}", parent(above)),
        Call::Declare(id, p) | Call::Release(id, p) => format!("{name} {id} {} {}", p.key, p.realm),
        Call::Begin(id) | Call::Finish(id) | Call::Leave(id) | Call::LeaveIfChanged(id) => format!("{name} {id}"),
        Call::Retire(id) | Call::BeginCleanup(id) | Call::FinishCleanup(id) => format!("{name} {id}"),
        Call::Remove(id) | Call::Configure(id) => format!("{name} {id}"),
    }
}
