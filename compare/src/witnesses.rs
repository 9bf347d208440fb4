//! What a test finds, told from lib.rs's tables: that which the rules name, and the first of its kind.
use super::{lookup, Kernel, Link, Port};
use crate::record::{Lookup, Missing};

/// The two lists of a command, by their numbers.
#[derive(Clone, Copy, PartialEq, Eq, Debug)]
pub enum Listed {
    Dependencies,
    Provisions,
}

/// What a test for 9 compares with its limit, by its number.
#[derive(Clone, Copy, PartialEq, Eq, Debug)]
pub enum Measure {
    DependencyCount,
    ProvisionCount,
    IdentityCount,
    DeclarationCount,
    DeclarationSum,
    LinkSum,
    Generation,
}

#[derive(Clone, PartialEq, Debug)]
pub enum Witness {
    Nothing,
    Component(usize),
    Dependency(Missing),
    Link { place: usize, consumer: usize, port: Port, provider: usize },
    Child(usize),
    Clash { port: Port, owner: usize },
    Repeated { list: Listed, earlier: usize, later: usize },
    Number(Measure, u64),
    Full(usize),
}

impl Witness {
    /// Its kind's number.
    pub fn kind(&self) -> u8 {
        match self {
            Witness::Nothing => 0,
            Witness::Component(_) => 1,
            Witness::Dependency(_) => 2,
            Witness::Link { .. } => 3,
            Witness::Child(_) => 4,
            Witness::Clash { .. } => 5,
            Witness::Repeated { .. } => 6,
            Witness::Number(..) => 7,
            Witness::Full(_) => 8,
        }
    }

    /// Its numbers, 0 where it has fewer than five.
    pub fn numbers(&self) -> [u64; 5] {
        match *self {
            Witness::Nothing => [0; 5],
            Witness::Component(n) | Witness::Child(n) | Witness::Full(n) => [n as u64, 0, 0, 0, 0],
            Witness::Dependency(Missing { key, realm, found }) => match found {
                Lookup::NoOwner => [key, realm, 0, 0, 0],
                Lookup::NotActive(owner) => [key, realm, 1, owner, 0],
                // neither is an answer to a dependency that does not resolve
                Lookup::Provider(_) | Lookup::Disputed => [u64::MAX; 5],
            },
            Witness::Link { place, consumer, port, provider } => {
                [place as u64, consumer as u64, port.key, port.realm, provider as u64]
            }
            Witness::Clash { port, owner } => [port.key, port.realm, owner as u64, 0, 0],
            Witness::Repeated { list, earlier, later } => [list as u64, earlier as u64, later as u64, 0, 0],
            Witness::Number(measure, number) => [measure as u64, number, 0, 0, 0],
        }
    }
}

/// What is compared, if it is past its limit.
pub fn past(measure: Measure, number: usize, limit: usize) -> Option<Witness> {
    (number > limit).then_some(Witness::Number(measure, number as u64))
}

/// The first dependency that does not resolve, or only the component if it is retired; nothing if it has a target.
pub fn lacking(kernel: &Kernel, id: usize) -> Option<Witness> {
    if kernel.target(id).is_some() {
        return None;
    }
    Some(lookup::missing(kernel, id).map_or(Witness::Component(id), Witness::Dependency))
}

/// The first live link by its place with this provider, and of this port if one is given.
pub fn link(kernel: &Kernel, provider: usize, port: Option<Port>) -> Option<Witness> {
    let of = |l: &Link| Port { key: l.binding.key, realm: l.binding.realm };
    let in_the_way = |l: &Link| l.live && l.binding.provider == provider && port.map_or(true, |p| of(l) == p);
    let place = kernel.links.iter().position(in_the_way)?;
    let l = &kernel.links[place];
    Some(Witness::Link { place, consumer: l.consumer, port: of(l), provider: l.binding.provider })
}

/// The lowest of lib.rs's children.
pub fn child(kernel: &Kernel, id: usize) -> Option<Witness> {
    kernel.children(id).into_iter().min().map(Witness::Child)
}

/// The present owner that provides a port.
pub fn clash(kernel: &Kernel, port: Port) -> Option<Witness> {
    lookup::owner(kernel, port).map(|owner| Witness::Clash { port, owner })
}

/// The first place of a port before this one.
fn repeat(list: Listed, ports: &[Port], later: usize) -> Option<Witness> {
    let earlier = ports[..later].iter().position(|&p| p == ports[later])?;
    Some(Witness::Repeated { list, earlier, later })
}

/// The first repeat of a list of dependencies.
pub fn repeated(ports: &[Port]) -> Option<Witness> {
    (0..ports.len()).find_map(|later| repeat(Listed::Dependencies, ports, later))
}

/// Port by port the first repeat or clash of the provisions, else the first repeat of the dependencies.
pub fn repeated_or_clashing(kernel: &Kernel, dependencies: &[Port], provisions: &[Port]) -> Option<Witness> {
    let met = |at: usize| repeat(Listed::Provisions, provisions, at).or_else(|| clash(kernel, provisions[at]));
    (0..provisions.len()).find_map(met).or_else(|| repeated(dependencies))
}
