//! Sound kernels written by hand for the drain, most of which no log reaches; and kernels that are not sound.
use crate::log::Port;
use crate::random::Random;
use crate::record::{Link, Record, ACTIVE, INACTIVE, LOADING, UNLOADING};
use crate::sizes::IDENTITIES;
use crate::sound::sound;
use crate::tables::Tables;

/// The most edits that are tried on a kernel that stays sound.
const EDITS: usize = 30;

/// Every one with its name.
pub fn all() -> Vec<(String, Tables)> {
    let mut found = vec![
        ("64 Active ones".to_string(), active(IDENTITIES)),
        ("64 restoring ones".to_string(), (0..IDENTITIES).fold(Tables::new(), |kernel, _| kernel.restoring())),
        ("a chain of 64, each relied upon by the next".to_string(), chain()),
        ("32 pairs, each of the upper half relies on one of the lower".to_string(), pairs()),
        ("63 that rely on the first".to_string(), star(0)),
        ("63 that rely on the last".to_string(), star(IDENTITIES as u64 - 1)),
    ];
    found.extend(orders());
    found
}

/// The port that an identity provides.
fn port(id: u64) -> Port {
    Port { key: id, realm: 4 }
}

fn active(count: usize) -> Tables {
    (0..count).fold(Tables::new(), |kernel, _| kernel.node(ACTIVE))
}

/// Each pair is a consumer and its provider; the links stand in this order, if point 5 allows it.
fn relying(kernel: Tables, pairs: &[(u64, u64)]) -> Tables {
    let declared = |kernel: Tables, &(consumer, provider): &(u64, u64)| {
        kernel.depends(consumer, port(provider)).provides(provider, port(provider))
    };
    let kernel = pairs.iter().fold(kernel, declared);
    pairs.iter().fold(kernel, |kernel, &(consumer, provider)| kernel.live(consumer, port(provider), provider))
}

fn chain() -> Tables {
    let pairs: Vec<(u64, u64)> = (1..IDENTITIES as u64).map(|id| (id, id - 1)).collect();
    relying(active(IDENTITIES), &pairs)
}

fn pairs() -> Tables {
    let half = IDENTITIES as u64 / 2;
    let pairs: Vec<(u64, u64)> = (0..half).map(|id| (half + id, id)).collect();
    relying(active(IDENTITIES), &pairs)
}

fn star(center: u64) -> Tables {
    let pairs: Vec<(u64, u64)> = (0..IDENTITIES as u64).filter(|&id| id != center).map(|id| (id, center)).collect();
    relying(active(IDENTITIES), &pairs)
}

/// 1 and 2 rely on 0, 2 and 3 on 1: under every naming of the four, in every order of the links that is sound; phases
/// and retirement go round, and some consumers are restoring.
fn orders() -> Vec<(String, Tables)> {
    let mut found = Vec::new();
    for (turn, names) in permutations(&[0, 1, 2, 3]).into_iter().enumerate() {
        for links in permutations(&[(1, 0), (2, 0), (2, 1), (3, 1)]) {
            let named: Vec<(u64, u64)> = links.iter().map(|&(c, p): &(usize, usize)| (names[c], names[p])).collect();
            let kernel = relying(mixed(turn, &names), &named);
            if sound(&kernel.0) {
                found.push((format!("links {named:?}"), kernel));
            }
        }
    }
    found
}

/// Four components in phases that go round; those that nobody relies on, the third and the fourth name, may be restoring.
fn mixed(turn: usize, names: &[u64]) -> Tables {
    (0..4).fold(Tables::new(), |kernel, id| {
        let restoring = names[2] == id && turn % 3 == 0 || names[3] == id && turn % 4 == 1;
        let phase = [ACTIVE, LOADING, UNLOADING][(turn + id as usize) % 3];
        let kernel = if restoring { kernel.restoring() } else { kernel.node(phase) };
        kernel.retired((turn + id as usize) % 5 == 0)
    })
}

/// Every order of the items.
fn permutations<T: Copy>(items: &[T]) -> Vec<Vec<T>> {
    if items.is_empty() {
        return vec![Vec::new()];
    }
    let mut found = Vec::new();
    for at in 0..items.len() {
        let mut rest = items.to_vec();
        let first = rest.remove(at);
        found.extend(permutations(&rest).into_iter().map(|order| [vec![first], order].concat()));
    }
    found
}

/// The tables with an edit that makes them unsound; none if no edit that was tried does.
pub fn damaged(tables: &Record, random: &mut Random) -> Option<Record> {
    let edited = (0..EDITS).map(|_| edit(tables, random));
    edited.into_iter().find(|tables| !sound(tables))
}

/// One field of one record written anew, two links exchanged, or a declaration less.
fn edit(tables: &Record, random: &mut Random) -> Record {
    let mut t = tables.clone();
    let any = random.below(t.nodes.len() + 1) as u64;
    let (node, link) = (random.below(t.nodes.len().max(1)), random.below(t.links.len().max(1)));
    let kind = random.below(12);
    match (kind, t.nodes.get_mut(node)) {
        (0, Some(n)) => n.phase = [INACTIVE, LOADING, ACTIVE, UNLOADING][random.below(4)],
        (1, Some(n)) => n.restoring ^= 1,
        (2, Some(n)) => n.present ^= 1,
        (3, Some(n)) => n.generation = n.generation.wrapping_add(1),
        (4, Some(n)) => (n.has_parent, n.parent) = (1, node as u64),
        (5, _) if !t.declarations.is_empty() => drop(t.declarations.remove(random.below(t.declarations.len()))),
        (6, _) if !t.links.is_empty() => t.links.swap(link, random.below(tables.links.len())),
        _ => edit_link(t.links.get_mut(link), kind, any),
    }
    t
}

fn edit_link(link: Option<&mut Link>, kind: usize, any: u64) {
    let Some(l) = link else { return };
    match kind {
        7 => l.consumer = any,
        8 => l.binding.provider = any,
        9 => l.generation = l.generation.wrapping_sub(1),
        10 => l.binding.key = l.binding.key.wrapping_add(1),
        _ => l.live ^= 1,
    }
}
