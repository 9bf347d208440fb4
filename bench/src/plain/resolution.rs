//! resolve and target.
use super::records::{Binding, Declaration, Kernel, Phase, Port, DECLARATIONS};

/// A binding for each dependency, in declaration order.
pub struct Target {
    pub bindings: [Binding; DECLARATIONS],
    pub count: usize,
}

impl Kernel {
    /// The Active owner that provides the port.
    pub fn resolve(&self, port: Port) -> Option<usize> {
        let provider = self
            .declarations()
            .iter()
            .find(|d| d.provides && d.port == port && self.node(d.owner()).is_some_and(|n| n.phase == Phase::Active));
        provider.map(Declaration::owner)
    }

    pub fn target(&self, id: usize) -> Option<Target> {
        if self.node(id)?.retired {
            return None;
        }
        let mut target = Target { bindings: [Binding::BLANK; DECLARATIONS], count: 0 };
        for d in self.declarations().iter().filter(|d| d.owner() == id && !d.provides) {
            target.bindings[target.count] = Binding { port: d.port, provider: self.resolve(d.port)? };
            target.count += 1;
        }
        Some(target)
    }
}
