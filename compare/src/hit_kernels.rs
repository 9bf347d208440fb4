//! Sound kernels written by hand for the lists of who is hit, most of which no log reaches.
use crate::log::Port;
use crate::record::{ACTIVE, LOADING, UNLOADING};
use crate::sizes::IDENTITIES;
use crate::tables::{Tables, MOST};

/// The phases of a provider of a live link; a consumer may be restoring too.
const PHASES: [u8; 3] = [LOADING, ACTIVE, UNLOADING];

/// Every one with its name.
pub fn all() -> Vec<(String, Tables)> {
    let mut found = vec![
        ("63 of every kind that rely on the first".to_string(), star(0)),
        ("63 of every kind that rely on the last".to_string(), star(IDENTITIES as u64 - 1)),
        ("several live links of a consumer to one provider".to_string(), several()),
    ];
    let kinds = PHASES.len().pow(2) * 16;
    found.extend((0..kinds).map(|kind| (format!("two providers, kind {kind}"), two_providers(kind))));
    found
}

/// A component in one of the phases, or restoring.
fn component(kernel: Tables, phase: usize) -> Tables {
    match PHASES.get(phase) {
        Some(&phase) => kernel.node(phase),
        None => kernel.restoring(),
    }
}

/// All but the center rely on it; their phases go round, and so does whether they are retired.
fn star(center: u64) -> Tables {
    let port = Port { key: MOST, realm: MOST };
    let others = || (0..IDENTITIES as u64).filter(move |&id| id != center);
    let kernel = (0..IDENTITIES as u64).fold(Tables::new(), |kernel, id| {
        if id == center {
            kernel.node(ACTIVE)
        } else {
            component(kernel, id as usize % 4).retired(id % 7 == 3)
        }
    });
    let kernel = others().fold(kernel.provides(center, port), |kernel, id| kernel.depends(id, port));
    others().fold(kernel, |kernel, id| kernel.live(id, port, center))
}

/// 1 and 3 rely on 2 by three ports, two links of one of them; of 0 they have dead ones.
fn several() -> Tables {
    let port = |key| Port { key, realm: 0 };
    let kernel = [ACTIVE, ACTIVE, ACTIVE, LOADING].into_iter().fold(Tables::new(), Tables::node);
    let kernel = (0..3).fold(kernel, |kernel, key| kernel.provides(2, port(key)).depends(3, port(key)));
    let kernel = (0..3).fold(kernel, |kernel, key| kernel.depends(1, port(key)).dead(1, port(key), 0));
    let consumers = [3, 1, 3, 1];
    consumers.into_iter().fold(kernel, |kernel, id| (0..3).fold(kernel, |kernel, key| kernel.live(id, port(key), 2)))
}

/// 2 relies on 0 and on 1: each in every phase, each provider's and the consumer's retirement, and both orders of links.
fn two_providers(kind: usize) -> Tables {
    let (first, second, rest) = (kind % 3, kind / 3 % 3, kind / 9);
    let (consumer, retired, turned) = (rest % 4, rest / 4 % 2 == 1, rest / 8 == 1);
    let ports = [0, 1].map(|provider| (provider, Port { key: 7 + provider, realm: 1 }));
    let kernel = component(Tables::new(), first).retired(turned != retired);
    let kernel = component(component(kernel, second), consumer).retired(retired);
    let kernel = ports.iter().fold(kernel, |kernel, &(id, port)| kernel.provides(id, port).depends(2, port));
    let links = if turned { [ports[1], ports[0]] } else { ports };
    links.iter().fold(kernel, |kernel, &(id, port)| kernel.live(2, port, id))
}
