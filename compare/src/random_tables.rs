//! Random sound kernels, most of which no log reaches: sound by the way they are made.
use crate::log::Port;
use crate::random::Random;
use crate::record::{Declaration, Link, Node, Record, ACTIVE, INACTIVE, LOADING, UNLOADING};
use crate::sizes::{DECLARATIONS, IDENTITIES, LINKS};
use crate::tables::{dead_numbers, link, Tables, MOST};

struct Sample<'a> {
    random: &'a mut Random,
    tables: Record,
    ports: Vec<Port>,
    /// Of each port, the present owner that may provide it.
    owners: Vec<Option<u64>>,
    /// Of each identity, its place in an order in which each relies on earlier ones alone.
    ranks: Vec<usize>,
}

pub fn sample(random: &mut Random) -> Record {
    let mut s = Sample { random, tables: Tables::new().0, ports: vec![], owners: vec![], ranks: vec![] };
    s.nodes();
    s.ports();
    s.provisions();
    s.dependencies();
    s.live_links();
    s.dead_links();
    s.repeats();
    s.tables
}

impl Sample<'_> {
    fn nodes(&mut self) {
        let count = match self.random.below(100) {
            0..=79 => 1 + self.random.below(7),
            80..=94 => 8 + self.random.below(20),
            _ => IDENTITIES - 4 + self.random.below(5),
        };
        for id in 0..count {
            let node = if self.random.chance(82) { self.present() } else { self.absent(id) };
            self.tables.nodes.push(node);
        }
        self.ranks = (0..count).collect();
        shuffle(self.random, &mut self.ranks);
    }

    fn present(&mut self) -> Node {
        let phase = [INACTIVE, ACTIVE, INACTIVE, LOADING, ACTIVE, UNLOADING][self.random.below(6)];
        let restoring = phase == UNLOADING && self.random.chance(40);
        let parent = self.random.pick(&self.those(1)).filter(|_| self.random.chance(40));
        self.node(1, phase, restoring, parent)
    }

    /// Its parent is smaller, often by one, or is absent itself; nothing is asked of its generation and retirement.
    fn absent(&mut self, id: usize) -> Node {
        let smaller: Vec<u64> = (0..id as u64).collect();
        let any = [self.random.pick(&smaller), smaller.last().copied(), self.random.pick(&self.those(0))];
        let parent = any[self.random.below(any.len())].filter(|_| self.random.chance(75));
        self.node(0, INACTIVE, false, parent)
    }

    /// The present (1) or the absent (0) identities.
    fn those(&self, present: u8) -> Vec<u64> {
        (0..).zip(&self.tables.nodes).filter(|(_, n)| n.present == present).map(|(id, _)| id).collect()
    }

    fn node(&mut self, present: u8, phase: u8, restoring: bool, parent: Option<u64>) -> Node {
        let any = [0, 0, 0, 1, 2, self.random.next(), MOST - 1, MOST];
        let generation = any[self.random.below(any.len())];
        Node {
            present,
            retired: self.random.chance(20).into(),
            phase,
            restoring: restoring.into(),
            has_parent: parent.is_some().into(),
            parent: parent.unwrap_or(0),
            generation,
        }
    }

    fn ports(&mut self) {
        let count = 2 + self.random.below(4 + self.tables.nodes.len() / 3);
        for _ in 0..count {
            let any = [0, 1, 2, 3, 7, MOST, self.random.next()];
            let port = Port { key: any[self.random.below(any.len())], realm: any[self.random.below(3)] };
            if !self.ports.contains(&port) {
                self.ports.push(port);
            }
        }
    }

    /// Present owners repeat their own ports; absent ones provide any.
    fn provisions(&mut self) {
        let (present, absent) = (self.those(1), self.those(0));
        for port in self.ports.clone() {
            let owner = self.random.pick(&present).filter(|_| self.random.chance(85));
            self.owners.push(owner);
            let repeats = if self.random.chance(20) { 2 + self.random.below(2) } else { 1 };
            let owners = owner.into_iter().flat_map(|id| vec![id; repeats]);
            let removed: Vec<u64> = absent.iter().copied().filter(|_| self.random.chance(15)).collect();
            for owner in owners.chain(removed) {
                self.declare(owner, port, 1);
            }
        }
    }

    fn declare(&mut self, owner: u64, Port { key, realm }: Port, provides: u8) {
        // room is left for those that a command adds
        if self.tables.declarations.len() < DECLARATIONS - 6 {
            let place = self.random.below(self.tables.declarations.len() + 1);
            self.tables.declarations.insert(place, Declaration { owner, key, realm, provides });
        }
    }

    /// An installed component depends on ports of installed providers that stand before it in the order.
    fn dependencies(&mut self) {
        for id in 0..self.tables.nodes.len() {
            for _ in 0..self.random.below(4) {
                let at = self.random.below(self.ports.len());
                let free = self.tables.nodes[id].phase == INACTIVE;
                if free || self.owners[at].is_some_and(|owner| self.may_rely(id, owner as usize)) {
                    let repeats = if self.random.chance(10) { 2 } else { 1 };
                    (0..repeats).for_each(|_| self.declare(id as u64, self.ports[at], 0));
                }
            }
        }
    }

    fn may_rely(&self, consumer: usize, provider: usize) -> bool {
        let n = &self.tables.nodes[provider];
        let earlier = self.ranks[provider] < self.ranks[consumer];
        earlier && n.present == 1 && n.phase != INACTIVE && n.restoring == 0
    }

    /// A live link for each dependency of an installed component, some more, in any order that point 5 allows.
    fn live_links(&mut self) {
        let mut waiting = self.wanted_links();
        while !waiting.is_empty() {
            let ready = |l: &Link| waiting.iter().all(|w| w.consumer != l.binding.provider);
            let places: Vec<usize> = (0..waiting.len()).filter(|&at| ready(&waiting[at])).collect();
            let place = self.random.pick(&places).expect("the ranks leave no circle");
            self.tables.links.push(waiting.swap_remove(place));
        }
    }

    fn wanted_links(&mut self) -> Vec<Link> {
        let mut wanted: Vec<Link> = Vec::new();
        for d in &self.tables.declarations {
            let node = &self.tables.nodes[d.owner as usize];
            if d.provides == 1 || node.present == 0 || node.phase == INACTIVE {
                continue;
            }
            let port = Port { key: d.key, realm: d.realm };
            let at = self.ports.iter().position(|&p| p == port).expect("declared ports are of the pool");
            let provider = self.owners[at].expect("an installed component's port has an owner");
            let new = link(d.owner, port, provider, 1, self.tables.nodes[provider as usize].generation);
            if !wanted.contains(&new) || self.random.chance(30) {
                wanted.push(new);
            }
        }
        wanted
    }

    /// Dead links of any identities and numbers at any places, now and then up to the size.
    fn dead_links(&mut self) {
        let room = LINKS - self.tables.links.len();
        let full = self.random.chance(8);
        let count = if full { room - self.random.below(4).min(room) } else { self.random.below(5).min(room) };
        for _ in 0..count {
            let identities = [self.identity(), self.identity()];
            let port = self.ports[self.random.below(self.ports.len())];
            let place = self.random.below(self.tables.links.len() + 1);
            let number = self.dead_number(identities[1]);
            self.tables.links.insert(place, link(identities[0], port, identities[1], 0, number));
        }
    }

    /// The number of a dead link with this provider: nothing is asked of it.
    fn dead_number(&mut self, provider: u64) -> u64 {
        let any = dead_numbers(self.tables.nodes[provider as usize].generation);
        if self.random.chance(20) {
            return self.random.next();
        }
        any[self.random.below(any.len())]
    }

    /// Any issued identity, often the last one or an absent one.
    fn identity(&mut self) -> u64 {
        let count = self.tables.nodes.len();
        let any = self.random.below(count) as u64;
        match self.random.below(10) {
            0..=1 => count as u64 - 1,
            2..=3 => self.random.pick(&self.those(0)).unwrap_or(any),
            _ => any,
        }
    }

    /// Now and then the declarations are repeated up to the size; a repeated declaration asks for nothing more.
    fn repeats(&mut self) {
        if self.tables.declarations.is_empty() || !self.random.chance(8) {
            return;
        }
        let count = DECLARATIONS - self.random.below(4);
        while self.tables.declarations.len() < count {
            let again = self.tables.declarations[self.random.below(self.tables.declarations.len())].clone();
            let place = self.random.below(self.tables.declarations.len() + 1);
            self.tables.declarations.insert(place, again);
        }
    }
}

fn shuffle<T>(random: &mut Random, items: &mut [T]) {
    for last in (1..items.len()).rev() {
        items.swap(last, random.below(last + 1));
    }
}
