//! Whether tables are sound: the sizes, and the nine points of docs/RULES.md.
use crate::record::{Link, Node, Record, INACTIVE, UNLOADING};
use crate::sizes::{DECLARATIONS, IDENTITIES, LINKS};

pub fn sound(t: &Record) -> bool {
    let counts = t.nodes.len() <= IDENTITIES && t.declarations.len() <= DECLARATIONS && t.links.len() <= LINKS;
    // point 1: every declaration's owner is below the node count; the later points read the owners
    counts
        && t.declarations.iter().all(|d| d.owner < t.nodes.len() as u64)
        && one_owner(t)
        && (0..t.nodes.len()).all(|id| node(t, id))
        && live(t).all(|(_, l)| link(t, l))
        && order(t)
        && covered(t)
        && t.links.iter().filter(|l| l.live == 0).all(|l| dead_link(t, l))
        && (0..t.nodes.len()).all(|id| absent_node(t, id))
        && live(t).all(|(_, l)| episode(t, l))
}

fn present(t: &Record, id: u64) -> Option<&Node> {
    t.nodes.get(usize::try_from(id).ok()?).filter(|n| n.present == 1)
}

/// The live links with their places.
fn live(t: &Record) -> impl Iterator<Item = (usize, &Link)> {
    t.links.iter().enumerate().filter(|(_, l)| l.live == 1)
}

/// Whether an identity declared a port, as a provision (1) or as a dependency (0).
fn declared(t: &Record, owner: u64, key: u64, realm: u64, provides: u8) -> bool {
    t.declarations.iter().any(|d| (d.owner, d.key, d.realm, d.provides) == (owner, key, realm, provides))
}

/// Point 2: two provisions of one port by present owners have the same owner.
fn one_owner(t: &Record) -> bool {
    let provisions = || t.declarations.iter().filter(|d| d.provides == 1 && present(t, d.owner).is_some());
    provisions().all(|a| provisions().all(|b| a.owner == b.owner || (a.key, a.realm) != (b.key, b.realm)))
}

/// Point 3: phase, cleanup and parent of a node.
fn node(t: &Record, id: usize) -> bool {
    let n = &t.nodes[id];
    if n.present == 0 {
        return n.phase == INACTIVE && n.restoring == 0;
    }
    let parent = n.has_parent == 0 || (n.parent < id as u64 && present(t, n.parent).is_some());
    parent && (n.restoring == 0 || n.phase == UNLOADING)
}

/// Point 4: a live link's consumer and provider.
fn link(t: &Record, l: &Link) -> bool {
    let b = l.binding;
    let installed = |id| present(t, id).filter(|n| n.phase != INACTIVE);
    installed(l.consumer).is_some()
        && installed(b.provider).is_some_and(|n| n.restoring == 0)
        && declared(t, l.consumer, b.key, b.realm, 0)
        && declared(t, b.provider, b.key, b.realm, 1)
}

/// Point 5: the live links of a live link's provider stand earlier.
fn order(t: &Record) -> bool {
    live(t).all(|(i, a)| live(t).all(|(j, b)| a.binding.provider != b.consumer || j < i))
}

/// Point 6: each dependency of a present node that is not Inactive has a live link.
fn covered(t: &Record) -> bool {
    let met =
        |owner, key, realm| live(t).any(|(_, l)| (l.consumer, l.binding.key, l.binding.realm) == (owner, key, realm));
    let dependencies = t.declarations.iter().filter(|d| d.provides == 0);
    let needed = dependencies.filter(|d| present(t, d.owner).is_some_and(|n| n.phase != INACTIVE));
    needed.into_iter().all(|d| met(d.owner, d.key, d.realm))
}

/// Point 7: a dead link's consumer and provider are below the node count.
fn dead_link(t: &Record, l: &Link) -> bool {
    l.consumer.max(l.binding.provider) < t.nodes.len() as u64
}

/// Point 8: an absent node's parent is smaller than the node.
fn absent_node(t: &Record, id: usize) -> bool {
    let n = &t.nodes[id];
    n.present == 1 || n.has_parent == 0 || n.parent < id as u64
}

/// Point 9: a live link's number is its provider's generation.
fn episode(t: &Record, l: &Link) -> bool {
    present(t, l.binding.provider).is_some_and(|n| n.generation == l.generation)
}
