//! What lib.rs does not answer: who owns a port that has no Active provider, and which dependency is missing. Both are
//! read from lib.rs's tables; whether there is an Active provider or a target is lib.rs's own answer.
use super::{Kernel, Phase, Port};
use crate::record::{Lookup, Missing};

/// The present owner that provides a port, in whatever phase.
pub fn owner(kernel: &Kernel, port: Port) -> Option<usize> {
    let provisions = kernel.declarations.iter().filter(|d| d.provides && d.port == port);
    provisions.map(|d| d.owner).find(|&owner| kernel.nodes[owner].present)
}

/// The provider that lib.rs's resolve gives, which has to be the Active owner; without one the owner, if there is any.
pub fn lookup(kernel: &Kernel, port: Port) -> Lookup {
    let owner = owner(kernel, port);
    let active = owner.filter(|&id| kernel.nodes[id].phase == Phase::Active);
    match (kernel.resolve(port), owner) {
        (provider, _) if provider != active => Lookup::Disputed,
        (Some(id), _) => Lookup::Provider(id as u64),
        (None, Some(id)) => Lookup::NotActive(id as u64),
        (None, None) => Lookup::NoOwner,
    }
}

/// The dependencies of a component for which lookup gives no provider, in declaration order.
pub fn unresolved(kernel: &Kernel, id: usize) -> impl Iterator<Item = Missing> + '_ {
    let ports = kernel.declarations.iter().filter(move |d| !d.provides && d.owner == id).map(|d| d.port);
    ports
        .map(|port| Missing { key: port.key, realm: port.realm, found: lookup(kernel, port) })
        .filter(|missing| !matches!(missing.found, Lookup::Provider(_)))
}

/// What target names: of a present component that is not retired, and has no target, the first of them.
pub fn missing(kernel: &Kernel, id: usize) -> Option<Missing> {
    if !kernel.contains(id) || kernel.retired(id) || kernel.target(id).is_some() {
        return None;
    }
    unresolved(kernel, id).next()
}
