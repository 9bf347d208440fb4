//! A kernel's tables written record by record, as no log has to make them.
use crate::log::Port;
use crate::record::{Binding, Declaration, Link, Node, Record, INACTIVE, UNLOADING};

/// The largest number: of a generation, and of a port's key.
pub const MOST: u64 = u64::MAX;

#[derive(Clone)]
pub struct Tables(pub Record);

impl Tables {
    /// The empty kernel.
    pub fn new() -> Tables {
        let (nodes, declarations, links) = (Vec::new(), Vec::new(), Vec::new());
        Tables(Record { answer: 0, detail: 0, nodes, declarations, links, observed: None })
    }

    /// A present component without parent, of generation 1, or 0 if it is Inactive.
    pub fn node(mut self, phase: u8) -> Tables {
        let generation = u64::from(phase != INACTIVE);
        let (present, retired, restoring) = (1, 0, 0);
        self.0.nodes.push(Node { present, retired, phase, restoring, has_parent: 0, parent: 0, generation });
        self
    }

    /// A component that cleanup has begun of.
    pub fn restoring(mut self) -> Tables {
        self = self.node(UNLOADING);
        self.last().restoring = 1;
        self
    }

    /// An absent identity.
    pub fn absent(mut self) -> Tables {
        self = self.node(INACTIVE);
        self.last().present = 0;
        self
    }

    fn last(&mut self) -> &mut Node {
        self.0.nodes.last_mut().expect("a node was written")
    }

    pub fn retired(mut self, retired: bool) -> Tables {
        self.last().retired = retired.into();
        self
    }

    pub fn generation(mut self, generation: u64) -> Tables {
        self.last().generation = generation;
        self
    }

    pub fn parent(mut self, parent: u64) -> Tables {
        (self.last().has_parent, self.last().parent) = (1, parent);
        self
    }

    pub fn depends(self, owner: u64, port: Port) -> Tables {
        self.declares(owner, port, 0)
    }

    pub fn provides(self, owner: u64, port: Port) -> Tables {
        self.declares(owner, port, 1)
    }

    fn declares(mut self, owner: u64, Port { key, realm }: Port, provides: u8) -> Tables {
        self.0.declarations.push(Declaration { owner, key, realm, provides });
        self
    }

    /// A live link with its provider's generation, which is written before it.
    pub fn live(self, consumer: u64, port: Port, provider: u64) -> Tables {
        let generation = self.0.nodes[provider as usize].generation;
        self.link(link(consumer, port, provider, 1, generation))
    }

    /// A dead link; its number goes round, by its place, among those that a dead link may have.
    pub fn dead(self, consumer: u64, port: Port, provider: u64) -> Tables {
        let any = dead_numbers(self.0.nodes[provider as usize].generation);
        let generation = any[self.0.links.len() % any.len()];
        self.link(link(consumer, port, provider, 0, generation))
    }

    fn link(mut self, link: Link) -> Tables {
        self.0.links.push(link);
        self
    }
}

/// Numbers of a dead link whose provider has this generation: that one, those beside it, 0 and the largest.
pub fn dead_numbers(generation: u64) -> [u64; 5] {
    [generation, 0, generation.wrapping_sub(1), MOST, generation.wrapping_add(1)]
}

pub fn link(consumer: u64, Port { key, realm }: Port, provider: u64, live: u8, generation: u64) -> Link {
    Link { consumer, binding: Binding { key, realm, provider }, live, generation }
}
