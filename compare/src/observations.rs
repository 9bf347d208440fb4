//! Observers' answers that are easy to get wrong, counted so that a run shows that it met them.
use crate::record::{Lookup, Missing, Node, Observed, Question, Record, INACTIVE, LOADING, UNLOADING};
use crate::reference::{lookup, Kernel};

/// A question with the kernel's answers, the kernel's tables and lib.rs's kernel.
pub struct Observation<'a> {
    pub question: Question,
    pub observed: &'a Observed,
    pub tables: &'a Record,
    pub original: &'a Kernel,
}

/// What was observed, and whether an observation is such.
pub type Kind = (&'static str, fn(&Observation) -> bool);

pub const OBSERVATIONS: [Kind; 14] = [
    ("resolve answered an Inactive owner", |o| o.owner_in(INACTIVE)),
    ("resolve answered a Loading owner", |o| o.owner_in(LOADING)),
    ("resolve answered an Unloading owner", |o| o.owner_in(UNLOADING)),
    ("resolve answered no owner, and a removed owner's record of the port stands", |o| {
        o.observed.resolve == Lookup::NoOwner && o.tables.provided_by_removed(o.question.key, o.question.realm)
    }),
    (
        "resolve answered a retired provider",
        |o| matches!(o.observed.resolve, Lookup::Provider(id) if o.node(id).retired == 1),
    ),
    ("target named a dependency with an owner that is not Active", |o| {
        o.named().is_some_and(|m| matches!(m.found, Lookup::NotActive(_)))
    }),
    ("target named a dependency that nobody provides", |o| o.named().is_some_and(|m| m.found == Lookup::NoOwner)),
    ("target named a dependency that is not the component's first", |o| {
        o.named().is_some_and(|m| o.first_dependency() != Some((m.key, m.realm)))
    }),
    ("target named a dependency, and a later one does not resolve either", |o| {
        o.named().is_some() && o.unresolved() > 1
    }),
    ("target named nothing of a retired component with a dependency that does not resolve", |o| {
        o.observed.retired == 1 && o.named().is_none() && o.unresolved() > 0
    }),
    ("link_generation answered a second or later episode", |o| o.number().is_some_and(|number| number > 1)),
    ("link_generation answered another number than that of a dead link of the consumer and port", |o| {
        o.dead_with_another()
    }),
    ("link_generation answered none, and a dead link of the consumer and port stands", |o| {
        o.number().is_none() && o.dead_link()
    }),
    ("link_generation answered none of an identity that was never issued, for a live link's port", |o| {
        o.number().is_none() && o.unknown_consumer()
    }),
];

impl Observation<'_> {
    fn node(&self, id: u64) -> &Node {
        &self.tables.nodes[id as usize]
    }

    /// Whether resolve answered an owner that is not Active, but in this phase.
    fn owner_in(&self, phase: u8) -> bool {
        matches!(self.observed.resolve, Lookup::NotActive(id) if self.node(id).phase == phase)
    }

    /// What link_generation answered.
    pub fn number(&self) -> Option<u64> {
        let (there, number) = self.observed.link_generation;
        (there == 1).then_some(number)
    }

    /// Whether a dead link of the consumer and port stands.
    pub fn dead_link(&self) -> bool {
        let Question { identity, key, realm } = self.question;
        self.tables.has_dead_link(identity.into(), key, realm)
    }

    /// Whether a dead link of the consumer and port has another number than the answer.
    fn dead_with_another(&self) -> bool {
        let Question { identity, key, realm } = self.question;
        let mut links = self.tables.links_of(identity.into(), key, realm);
        self.number().is_some_and(|number| links.any(|l| l.live == 0 && l.generation != number))
    }

    /// Whether the consumer was never issued, and another has a live link of the port.
    fn unknown_consumer(&self) -> bool {
        let Question { identity, key, realm } = self.question;
        let issued = self.tables.nodes.len();
        let live = |id: usize| self.tables.links_of(id as u64, key, realm).any(|l| l.live == 1);
        usize::from(identity) >= issued && (0..issued).any(live)
    }

    /// The dependency that target named.
    fn named(&self) -> Option<Missing> {
        self.observed.missing
    }

    /// The first port that the component depends on.
    fn first_dependency(&self) -> Option<(u64, u64)> {
        let owner = u64::from(self.question.identity);
        let mut dependencies = self.tables.declarations.iter().filter(|d| d.provides == 0 && d.owner == owner);
        dependencies.next().map(|d| (d.key, d.realm))
    }

    /// How many of the component's dependencies do not resolve.
    fn unresolved(&self) -> usize {
        lookup::unresolved(self.original, self.question.identity.into()).count()
    }
}
