//! What is compared after each command: the answer, the three tables, and the observers' answers.

/// Yes/no answers and phases are kept as the bytes that the kernel wrote, so that 2 is not taken for yes.
#[derive(PartialEq, Debug, Clone)]
pub struct Node {
    pub present: u8,
    pub retired: u8,
    pub phase: u8,
    pub restoring: u8,
    pub has_parent: u8,
    pub parent: u64,
    pub generation: u64,
}

#[derive(PartialEq, Debug, Clone)]
pub struct Declaration {
    pub owner: u64,
    pub key: u64,
    pub realm: u64,
    pub provides: u8,
}

/// `generation` is the link's number, its provider's generation at the consumer's begin; lib.rs has no such field.
#[derive(PartialEq, Debug, Clone)]
pub struct Link {
    pub consumer: u64,
    pub binding: Binding,
    pub live: u8,
    pub generation: u64,
}

impl Link {
    /// The link as lib.rs records it: the one place that leaves the number out.
    fn in_original(&self) -> (u64, Binding, u8) {
        (self.consumer, self.binding, self.live)
    }
}

#[derive(PartialEq, Debug, Clone, Copy)]
pub struct Binding {
    pub key: u64,
    pub realm: u64,
    pub provider: u64,
}

/// What the observers are asked.
#[derive(PartialEq, Debug, Clone, Copy)]
pub struct Question {
    pub identity: u8,
    pub key: u64,
    pub realm: u64,
}

/// What looking up a port answers: the Active provider, a present owner that is not Active, or that there is none.
#[derive(PartialEq, Debug, Clone, Copy)]
pub enum Lookup {
    Provider(u64),
    NotActive(u64),
    NoOwner,
    /// No kernel's answer: lib.rs's resolve is not the Active owner that its tables have.
    Disputed,
}

/// A dependency that does not resolve, and what looking it up answers; target names the first of a component.
#[derive(PartialEq, Debug, Clone, Copy)]
pub struct Missing {
    pub key: u64,
    pub realm: u64,
    pub found: Lookup,
}

/// Every observer's answer to one question; an optional answer is yes/no and a number.
#[derive(PartialEq, Debug, Clone)]
pub struct Observed {
    pub sound: u8,
    pub contains: u8,
    pub phase: u8,
    pub retired: u8,
    pub cleanup_started: u8,
    pub episode_generation: (u8, u64),
    pub binding_records: u16,
    pub identity_slots: u16,
    pub declaration_records: u16,
    pub dependency_declared: u8,
    pub provision_reserved: u8,
    pub ids: Vec<u8>,
    pub children: Vec<u8>,
    pub resolve: Lookup,
    pub target: Option<Vec<Binding>>,
    pub missing: Option<Missing>,
    pub committed: Vec<Binding>,
    pub link_generation: (u8, u64),
    pub check_iteration: u8,
    pub check_insert: u8,
}

#[derive(PartialEq, Debug, Clone)]
pub struct Record {
    pub answer: u8,
    pub detail: u64,
    pub nodes: Vec<Node>,
    pub declarations: Vec<Declaration>,
    pub links: Vec<Link>,
    pub observed: Option<Observed>,
}

impl Record {
    /// Whether two records agree in all but the links' numbers, which lib.rs does not record.
    pub fn agrees(&self, other: &Record) -> bool {
        // a further field does not compile before it is compared here
        let Record { answer, detail, nodes, declarations, links, observed } = other;
        (self.answer, self.detail) == (*answer, *detail)
            && self.nodes == *nodes
            && self.declarations == *declarations
            && self.links.iter().map(Link::in_original).eq(links.iter().map(Link::in_original))
            && self.observed == *observed
    }

    /// Each link's number, of dead links too.
    pub fn numbers(&self) -> impl Iterator<Item = u64> + '_ {
        self.links.iter().map(|l| l.generation)
    }

    /// The links of a consumer and a port.
    pub fn links_of(&self, consumer: u64, key: u64, realm: u64) -> impl Iterator<Item = &Link> {
        let asked = (consumer, key, realm);
        self.links.iter().filter(move |l| (l.consumer, l.binding.key, l.binding.realm) == asked)
    }

    /// Whether a dead link of a consumer and a port stands.
    pub fn has_dead_link(&self, consumer: u64, key: u64, realm: u64) -> bool {
        self.links_of(consumer, key, realm).any(|l| l.live == 0)
    }

    /// Whether a removed owner's provision of a port still stands.
    pub fn provided_by_removed(&self, key: u64, realm: u64) -> bool {
        let provisions = self.declarations.iter().filter(|d| d.provides == 1);
        provisions.filter(|d| d.key == key && d.realm == realm).any(|d| self.nodes[d.owner as usize].present == 0)
    }
}

/// The phases' numbers in a record, and that of no phase.
pub const INACTIVE: u8 = 0;
pub const LOADING: u8 = 1;
pub const ACTIVE: u8 = 2;
pub const UNLOADING: u8 = 3;
pub const NO_PHASE: u8 = 255;

/// Bytes read from the front; none is left unread.
pub struct Bytes<'a>(pub &'a [u8]);

impl Bytes<'_> {
    fn take<const N: usize>(&mut self) -> Option<[u8; N]> {
        let (front, rest) = self.0.split_first_chunk::<N>()?;
        self.0 = rest;
        Some(*front)
    }

    pub fn u8(&mut self) -> Option<u8> {
        self.take::<1>().map(|b| b[0])
    }

    pub fn u16(&mut self) -> Option<u16> {
        self.take().map(u16::from_le_bytes)
    }

    pub fn u64(&mut self) -> Option<u64> {
        self.take().map(u64::from_le_bytes)
    }

    pub fn optional(&mut self) -> Option<(u8, u64)> {
        Some((self.u8()?, self.u64()?))
    }

    fn identities(&mut self) -> Option<Vec<u8>> {
        let count = self.u8()?;
        (0..count).map(|_| self.u8()).collect()
    }

    fn binding(&mut self) -> Option<Binding> {
        Some(Binding { key: self.u64()?, realm: self.u64()?, provider: self.u64()? })
    }

    fn bindings(&mut self) -> Option<Vec<Binding>> {
        let count = self.u16()?;
        (0..count).map(|_| self.binding()).collect()
    }

    fn node(&mut self) -> Option<Node> {
        Some(Node {
            present: self.u8()?,
            retired: self.u8()?,
            phase: self.u8()?,
            restoring: self.u8()?,
            has_parent: self.u8()?,
            parent: self.u64()?,
            generation: self.u64()?,
        })
    }

    fn declaration(&mut self) -> Option<Declaration> {
        Some(Declaration { owner: self.u64()?, key: self.u64()?, realm: self.u64()?, provides: self.u8()? })
    }

    fn link(&mut self) -> Option<Link> {
        Some(Link { consumer: self.u64()?, binding: self.binding()?, live: self.u8()?, generation: self.u64()? })
    }

    /// No target and an empty one differ; where there is none the count is 0.
    fn target(&mut self) -> Option<Option<Vec<Binding>>> {
        let there = self.u8()?;
        let bindings = self.bindings()?;
        match there {
            1 => Some(Some(bindings)),
            0 if bindings.is_empty() => Some(None),
            _ => None,
        }
    }

    /// A lookup's answer; where there is no owner the identity is 0.
    fn lookup(&mut self) -> Option<Lookup> {
        match self.optional()? {
            (1, id) => Some(Lookup::Provider(id)),
            (2, id) => Some(Lookup::NotActive(id)),
            (0, 0) => Some(Lookup::NoOwner),
            _ => None,
        }
    }

    /// Nothing, or a dependency that no Active provider was found for.
    fn missing(&mut self) -> Option<Option<Missing>> {
        match self.u8()? {
            0 => return Some(None),
            1 => {}
            _ => return None,
        }
        let missing = Missing { key: self.u64()?, realm: self.u64()?, found: self.lookup()? };
        match missing.found {
            Lookup::Provider(_) => None,
            _ => Some(Some(missing)),
        }
    }

    fn observed(&mut self) -> Option<Observed> {
        let observed = Observed {
            sound: self.u8()?,
            contains: self.u8()?,
            phase: self.u8()?,
            retired: self.u8()?,
            cleanup_started: self.u8()?,
            episode_generation: self.optional()?,
            binding_records: self.u16()?,
            identity_slots: self.u16()?,
            declaration_records: self.u16()?,
            dependency_declared: self.u8()?,
            provision_reserved: self.u8()?,
            ids: self.identities()?,
            children: self.identities()?,
            resolve: self.lookup()?,
            target: self.target()?,
            missing: self.missing()?,
            committed: self.bindings()?,
            link_generation: self.optional()?,
            check_iteration: self.u8()?,
            check_insert: self.u8()?,
        };
        // where there is a target nothing is missing
        (observed.target.is_none() || observed.missing.is_none()).then_some(observed)
    }

    /// The three tables, with this answer and this detail.
    pub fn tables(&mut self, answer: u8, detail: u64) -> Option<Record> {
        let (nodes, declarations, links) = (self.u16()?, self.u16()?, self.u16()?);
        Some(Record {
            answer,
            detail,
            nodes: (0..nodes).map(|_| self.node()).collect::<Option<_>>()?,
            declarations: (0..declarations).map(|_| self.declaration()).collect::<Option<_>>()?,
            links: (0..links).map(|_| self.link()).collect::<Option<_>>()?,
            observed: None,
        })
    }

    /// The next record; none if the bytes are no record.
    pub fn record(&mut self) -> Option<Record> {
        let (answer, detail) = self.optional()?;
        let tables = self.tables(answer, detail)?;
        let observed = match self.u8()? {
            0 => None,
            1 => Some(self.observed()?),
            _ => return None,
        };
        Some(Record { observed, ..tables })
    }
}
