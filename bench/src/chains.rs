//! Kernels whose drains are measured for their growth.
use crate::log::Port;
use crate::script::Script;

/// The port that a component provides.
fn of(id: usize) -> Port {
    Port { key: 1 + id as u64, realm: id as u64 % 4 }
}

/// n components in a chain, all Active, each relied upon by the next.
pub fn chain(n: usize) -> Script {
    started(n, |id| if id == 0 { Vec::new() } else { vec![of(id - 1)] })
}

/// n components, all Active, each of the first half relied upon by one of the second half, in order: each of these that
/// is cleaned frees a lower one, from which the search goes up again.
pub fn pairs(n: usize) -> Script {
    started(n, |id| if id < n / 2 { Vec::new() } else { vec![of(id - n / 2)] })
}

/// n components with these dependencies, each with a provision, inserted and started.
fn started(n: usize, dependencies: impl Fn(usize) -> Vec<Port>) -> Script {
    let mut setup = Script::default();
    for id in 0..n {
        setup.insert(&dependencies(id), &[of(id)]);
    }
    for id in 0..n {
        setup.start(id as u8);
    }
    setup
}
