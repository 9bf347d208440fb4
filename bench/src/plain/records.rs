//! The kernel's records. They store an identity in one byte; functions take and give it as a usize.

pub const NODES: usize = 64;
pub const DECLARATIONS: usize = 256;
pub const LINKS: usize = 512;
pub const LIST: usize = 32;

#[derive(Clone, Copy, PartialEq, Eq)]
pub enum Phase {
    Inactive,
    Loading,
    Active,
    Unloading,
}

#[derive(Clone, Copy, PartialEq, Eq)]
pub enum Error {
    Unknown = 1,
    InvalidState,
    Retired,
    MissingDependency,
    Conflict,
    Changed,
    Relied,
    Children,
    Capacity,
    Damaged,
}

#[derive(Clone, Copy, PartialEq, Eq)]
pub struct Port {
    pub key: u64,
    pub realm: u64,
}

#[derive(Clone, Copy, PartialEq, Eq)]
pub struct Node {
    pub present: bool,
    pub retired: bool,
    pub phase: Phase,
    pub restoring: bool,
    parent: Option<u8>,
    pub generation: u64,
}

#[derive(Clone, Copy, PartialEq, Eq)]
pub struct Declaration {
    pub port: Port,
    owner: u8,
    pub provides: bool,
}

#[derive(Clone, Copy)]
pub struct Binding {
    pub port: Port,
    pub provider: usize,
}

/// generation: the provider's when the link was made.
#[derive(Clone, Copy, PartialEq, Eq)]
pub struct Link {
    pub port: Port,
    pub generation: u64,
    consumer: u8,
    provider: u8,
    pub live: bool,
}

pub struct PortList {
    pub ports: [Port; LIST],
    pub count: usize,
}

#[derive(Clone)]
pub struct Kernel {
    pub nodes: [Node; NODES],
    pub node_count: usize,
    pub declarations: [Declaration; DECLARATIONS],
    pub declaration_count: usize,
    pub links: [Link; LINKS],
    pub link_count: usize,
}

/// What a command hands back; done carries the identity issued, the count removed, or nothing.
pub struct Outcome<T> {
    pub kernel: Kernel,
    pub answer: Result<T, Error>,
}

const _: () = assert!(size_of::<Node>() == 16);
const _: () = assert!(size_of::<Declaration>() == 24);
const _: () = assert!(size_of::<Link>() == 32);
const _: () = assert!(size_of::<Kernel>() == 23_576);

const BLANK_PORT: Port = Port { key: 0, realm: 0 };

/// An issued identity as records store it.
fn stored(id: usize) -> u8 {
    id.try_into().expect("an issued identity is below 64")
}

impl Node {
    pub const BLANK: Node =
        Node { present: false, retired: false, phase: Phase::Inactive, restoring: false, parent: None, generation: 0 };

    /// A present node that never began.
    pub fn new(parent: Option<usize>) -> Node {
        Node { present: true, parent: parent.map(stored), ..Node::BLANK }
    }

    pub fn parent(&self) -> Option<usize> {
        self.parent.map(usize::from)
    }

    pub fn installed(&self) -> bool {
        self.present && self.phase != Phase::Inactive
    }
}

impl Declaration {
    pub const BLANK: Declaration = Declaration { port: BLANK_PORT, owner: 0, provides: false };

    pub fn new(owner: usize, port: Port, provides: bool) -> Declaration {
        Declaration { port, owner: stored(owner), provides }
    }

    pub fn owner(&self) -> usize {
        self.owner.into()
    }
}

impl Binding {
    pub const BLANK: Binding = Binding { port: BLANK_PORT, provider: 0 };
}

impl Link {
    pub const BLANK: Link = Link { port: BLANK_PORT, generation: 0, consumer: 0, provider: 0, live: false };

    /// A live link, with its provider's generation.
    pub fn new(consumer: usize, binding: Binding, generation: u64) -> Link {
        let Binding { port, provider } = binding;
        Link { port, generation, consumer: stored(consumer), provider: stored(provider), live: true }
    }

    pub fn consumer(&self) -> usize {
        self.consumer.into()
    }

    pub fn provider(&self) -> usize {
        self.provider.into()
    }
}

impl PortList {
    pub fn new() -> PortList {
        PortList { ports: [BLANK_PORT; LIST], count: 0 }
    }

    /// The ports below the count, which is at most 32.
    pub fn listed(&self) -> &[Port] {
        &self.ports[..self.count]
    }
}

impl Kernel {
    pub fn new() -> Kernel {
        Kernel {
            nodes: [Node::BLANK; NODES],
            node_count: 0,
            declarations: [Declaration::BLANK; DECLARATIONS],
            declaration_count: 0,
            links: [Link::BLANK; LINKS],
            link_count: 0,
        }
    }

    pub fn nodes(&self) -> &[Node] {
        &self.nodes[..self.node_count]
    }

    pub fn declarations(&self) -> &[Declaration] {
        &self.declarations[..self.declaration_count]
    }

    pub fn links(&self) -> &[Link] {
        &self.links[..self.link_count]
    }

    /// A present node.
    pub fn node(&self, id: usize) -> Option<&Node> {
        self.nodes().get(id).filter(|n| n.present)
    }

    pub fn contains(&self, id: usize) -> bool {
        self.node(id).is_some()
    }

    /// Every command: the entry test, then the command itself, which changes nothing if it refuses.
    pub fn command<T>(mut self, run: impl FnOnce(&mut Kernel) -> Result<T, Error>) -> Outcome<T> {
        let answer = if self.sound() { run(&mut self) } else { Err(Error::Damaged) };
        Outcome { kernel: self, answer }
    }

    /// The node that a command names, to be changed.
    pub fn present(&mut self, id: usize) -> Result<&mut Node, Error> {
        self.nodes[..self.node_count].get_mut(id).filter(|n| n.present).ok_or(Error::Unknown)
    }
}
