//! Sound kernels written by hand, most of which no log reaches.
use crate::log::Port;
use crate::record::{ACTIVE, INACTIVE, LOADING, UNLOADING};
use crate::sizes::{DECLARATIONS, IDENTITIES, LINKS};
use crate::tables::{Tables, MOST};

const A: Port = Port { key: 7, realm: 1 };
const B: Port = Port { key: 8, realm: 1 };
/// B's key in another realm.
const B_ELSEWHERE: Port = Port { key: 8, realm: 2 };
/// Nobody provides it, but for the chain that alternates and the episodes.
const MISSING: Port = Port { key: 9, realm: 1 };

const BOTH: [bool; 2] = [false, true];
/// Unloading with cleanup begun, beside the four phases.
const RESTORING: u8 = UNLOADING + 1;

/// Every one with its name.
pub fn all() -> Vec<(String, Tables)> {
    let mut found = vec![
        ("the empty kernel".to_string(), Tables::new()),
        ("live links in another order than the dependencies".to_string(), other_order()),
        ("one live link for a repeated dependency".to_string(), fewer_links()),
        ("two live links for one dependency".to_string(), more_links()),
        ("a live chain whose links alternate".to_string(), alternating()),
        ("a chain of 64".to_string(), chain()),
        ("declarations of absent owners".to_string(), absent_owners()),
        ("one owner that provides a port three times".to_string(), repeated_provision()),
        ("dead links between any identities".to_string(), dead_links()),
        ("providers in different episodes".to_string(), episodes()),
        ("retired in every phase".to_string(), phases(true)),
        ("not retired in every phase".to_string(), phases(false)),
        ("parents and children".to_string(), parents()),
        ("one identity, absent, with a dead link".to_string(), Tables::new().absent().dead(0, A, 0)),
        ("64 absent identities".to_string(), absent_chain()),
    ];
    found.extend(generations());
    found.extend(full());
    found.extend(pairs());
    found.extend(owners());
    found
}

/// 0 Active provides A and B.
fn provider() -> Tables {
    Tables::new().node(ACTIVE).provides(0, A).provides(0, B)
}

/// A log's live links of one consumer stand in the order of its dependencies.
fn other_order() -> Tables {
    provider().node(LOADING).depends(1, A).depends(1, B).live(1, B, 0).live(1, A, 0)
}

fn fewer_links() -> Tables {
    provider().node(LOADING).node(ACTIVE).depends(1, A).depends(1, A).live(1, A, 0).depends(2, B).live(2, B, 0)
}

fn more_links() -> Tables {
    provider().node(LOADING).depends(1, A).live(1, A, 0).dead(1, A, 0).live(1, A, 0)
}

/// 2 relies on 1 and 1 on 0; 3's links stand between theirs and after.
fn alternating() -> Tables {
    let kernel = provider().node(ACTIVE).node(LOADING).node(ACTIVE).provides(1, MISSING);
    let kernel = kernel.depends(3, B).depends(2, MISSING).depends(1, A).depends(3, A).depends(2, B);
    kernel.live(3, B, 0).live(2, B, 0).live(1, A, 0).live(3, A, 0).live(2, MISSING, 1)
}

/// Each component relies on the one after it, so that identities descend along the chain.
fn chain() -> Tables {
    let port = |id: u64| Port { key: id, realm: 3 };
    let last = IDENTITIES as u64 - 1;
    let mut kernel = (0..=last).fold(Tables::new(), |kernel, _| kernel.node(ACTIVE));
    for id in 0..last {
        kernel = kernel.depends(id, port(id + 1)).provides(id + 1, port(id + 1));
    }
    (0..last).rev().fold(kernel, |kernel, id| kernel.live(id, port(id + 1), id + 1))
}

/// 0 and 2 are absent and were never retired, which no log leaves; both provide what 1 provides.
fn absent_owners() -> Tables {
    let kernel = Tables::new().absent().generation(3).node(ACTIVE).absent().generation(MOST).parent(1);
    let kernel = kernel.absent().retired(true).node(INACTIVE).node(INACTIVE);
    let kernel = kernel.provides(0, A).depends(0, MISSING).provides(2, A).provides(1, A).provides(0, A);
    let kernel = kernel.provides(3, B).depends(3, A).depends(4, A).depends(5, B);
    kernel.dead(0, A, 1)
}

fn repeated_provision() -> Tables {
    let kernel = Tables::new().node(ACTIVE).node(INACTIVE).node(UNLOADING);
    let kernel =
        kernel.provides(0, A).provides(2, B).provides(0, A).depends(1, A).provides(0, B_ELSEWHERE).provides(0, A);
    kernel.provides(2, B).depends(1, A)
}

/// Of absent, never begun and restoring identities, of the last one, of one component with itself, and in a circle.
fn dead_links() -> Tables {
    let kernel = provider().node(INACTIVE).absent().restoring().absent().depends(3, A).provides(3, MISSING);
    let kernel = kernel.dead(4, A, 4).dead(0, A, 0).dead(2, B, 1).dead(1, B, 2).dead(3, MISSING, 4);
    kernel.live(3, A, 0).dead(0, MISSING, 3).dead(3, A, 0).dead(4, A, 0)
}

/// Providers of generations 3, 0 and the largest; 4 can begin. 3's dead links stand before, between and behind its live
/// ones, and have other numbers but for one.
fn episodes() -> Tables {
    let kernel = Tables::new().node(ACTIVE).generation(3).node(ACTIVE).generation(0).node(ACTIVE).generation(MOST);
    let kernel = kernel.provides(0, A).provides(1, B).provides(2, MISSING).node(LOADING).node(INACTIVE);
    let depend = |kernel: Tables, id| kernel.depends(id, MISSING).depends(id, A).depends(id, B);
    let kernel = [3, 4].into_iter().fold(kernel, depend);
    let kernel = kernel.dead(4, A, 0).dead(3, A, 0).live(3, A, 0).dead(3, B, 1).live(3, B, 1).dead(3, MISSING, 2);
    kernel.dead(4, A, 0).dead(4, B, 1).live(3, MISSING, 2).dead(3, A, 0)
}

/// A component in each phase, the last restoring; each relies on 0.
fn phases(retired: bool) -> Tables {
    let mut kernel = provider().retired(retired);
    for phase in [INACTIVE, LOADING, ACTIVE, UNLOADING] {
        kernel = kernel.node(phase).retired(retired);
    }
    kernel = kernel.restoring().retired(retired);
    for id in 1..=5 {
        kernel = kernel.depends(id, A);
    }
    (2..=5).fold(kernel, |kernel, id| kernel.live(id, A, 0))
}

/// Absent children and absent parents of absent ones; a retired Inactive parent with a present child and one without.
fn parents() -> Tables {
    let kernel = Tables::new().node(INACTIVE).retired(true).node(INACTIVE).parent(0).absent().parent(1);
    let kernel = kernel.node(INACTIVE).retired(true).absent().parent(3).absent().parent(4);
    kernel.node(LOADING).parent(1).absent().parent(2).retired(true)
}

/// Each under the one before it; dead links between the first, the last and the one before that.
fn absent_chain() -> Tables {
    let last = IDENTITIES as u64 - 1;
    let under = |kernel: Tables, id| kernel.absent().parent(id - 1).retired(id % 3 > 0);
    let kernel = (1..=last).fold(Tables::new().absent(), under);
    let kernel = kernel.provides(last, A).depends(last, B).depends(0, A);
    kernel.dead(last, A, last - 1).dead(last - 1, A, last).dead(last, B, last).dead(0, A, last).dead(last, A, 0)
}

/// The two largest generations, with the dependency met and missing, retired or not, without links and with 512.
fn generations() -> Vec<(String, Tables)> {
    let mut found = Vec::new();
    for generation in [MOST - 1, MOST] {
        for retired in BOTH {
            for port in [A, MISSING] {
                let kernel = provider().node(INACTIVE).generation(generation).retired(retired).depends(1, port);
                for links in [0, LINKS] {
                    let name = format!("generation {generation}, retired {retired}, key {}, {links} links", port.key);
                    found.push((name, with_dead_links(kernel.clone(), links)));
                }
            }
        }
    }
    found
}

/// Dead links of every identity as consumer with the last one as provider, then with the one before it, and so on.
fn with_dead_links(mut kernel: Tables, count: usize) -> Tables {
    let identities = kernel.0.nodes.len() as u64;
    while kernel.0.links.len() < count {
        let at = kernel.0.links.len() as u64;
        kernel = kernel.dead(at % identities, A, identities - 1 - at / identities % identities);
    }
    kernel
}

/// Each table at its size and one below it: 0 provides, 1 and 2 can begin, with a met dependency and without one.
fn full() -> Vec<(String, Tables)> {
    let mut found = Vec::new();
    for nodes in [IDENTITIES - 1, IDENTITIES] {
        for declarations in [DECLARATIONS - 1, DECLARATIONS] {
            for links in [LINKS - 1, LINKS] {
                let mut kernel = provider().node(INACTIVE).node(INACTIVE).depends(1, A).provides(1, B_ELSEWHERE);
                while kernel.0.nodes.len() < nodes {
                    let id = kernel.0.nodes.len();
                    kernel = if id % 2 == 0 { kernel.absent() } else { kernel.node(ACTIVE) }.retired(id % 4 > 1);
                }
                while kernel.0.declarations.len() < declarations {
                    let at = kernel.0.declarations.len() as u64;
                    kernel = if at % 3 == 0 { kernel.provides(0, A) } else { kernel.depends(at % 30 * 2 + 4, B) };
                }
                let name = format!("{nodes} identities, {declarations} declarations, {links} links");
                found.push((name, with_dead_links(kernel, links)));
            }
        }
    }
    found
}

/// A consumer and its provider in every phase that a live link allows, each retired or not; a log's provider of a
/// live link is Active or Unloading.
fn pairs() -> Vec<(String, Tables)> {
    let mut found = Vec::new();
    for provider in [LOADING, ACTIVE, UNLOADING] {
        for consumer in [LOADING, ACTIVE, UNLOADING, RESTORING] {
            for (first, second) in BOTH.into_iter().flat_map(|a| BOTH.into_iter().map(move |b| (a, b))) {
                let kernel = Tables::new().node(provider).retired(first);
                let kernel = if consumer == RESTORING { kernel.restoring() } else { kernel.node(consumer) };
                let kernel = kernel.retired(second).provides(0, A).depends(1, A).live(1, A, 0);
                found.push((format!("phases {provider} and {consumer}, retired {first} and {second}"), kernel));
            }
        }
    }
    found
}

/// An owner in every phase, restoring, and absent; 2, and 3 which is retired, depend on what 0 provides, then on the
/// owner's port, then on one that nobody provides.
fn owners() -> Vec<(String, Tables)> {
    let start = || Tables::new().node(ACTIVE).provides(0, A);
    let phases = [INACTIVE, LOADING, ACTIVE, UNLOADING].map(|phase| (format!("phase {phase}"), start().node(phase)));
    let others = [("restoring".to_string(), start().restoring()), ("absent".to_string(), start().absent())];
    let depend = |kernel: Tables, id| kernel.depends(id, A).depends(id, B).depends(id, MISSING);
    let waiting = |kernel: Tables| {
        let kernel = kernel.provides(1, B).node(INACTIVE).node(INACTIVE).retired(true);
        [2, 3].into_iter().fold(kernel, depend)
    };
    phases.into_iter().chain(others).map(|(kind, kernel)| (format!("an owner, {kind}"), waiting(kernel))).collect()
}
