//! The operands that the generator chooses from.
use crate::generator::Generator;
use crate::guide::Phase;
use crate::log::{Command, Port, LIST};
use crate::script::port;

/// Identities that stand at or past the sizes, or that no insert issues.
const STALE: [u8; 7] = [63, 64, 65, 128, 200, 254, 255];

impl Generator<'_> {
    /// A number that is small, or the same spread over the high bytes.
    fn widen(&self, n: usize) -> u64 {
        let n = n as u64;
        match n % 4 {
            _ if !self.profile.wide => n,
            0 => n,
            1 => n << 56,
            2 => u64::MAX - n,
            _ => (1 << 32) + n,
        }
    }

    fn pool_port(&mut self) -> Port {
        let (key, realm) = (self.random.below(self.profile.keys), self.random.below(self.profile.realms));
        port(self.widen(key), self.widen(realm))
    }

    /// A port that a declaration has, or one of the pool.
    pub fn any_port(&mut self) -> Port {
        let declared = self.guide.declarations.len();
        if declared > 0 && self.random.chance(60) {
            return self.guide.declarations[self.random.below(declared)].port;
        }
        self.pool_port()
    }

    /// Ports to depend on that can resolve: their owner is Active, or can begin.
    pub fn needed_ports(&self) -> Vec<Port> {
        let serves = |id: usize| {
            let node = self.guide.nodes[id];
            node.present && (node.phase == Phase::Active || !node.retired)
        };
        self.guide.declarations.iter().filter(|d| d.provides && serves(d.owner)).map(|d| d.port).collect()
    }

    /// A port that no present owner provides.
    pub fn free_port(&mut self) -> Port {
        for _ in 0..6 {
            let p = self.pool_port();
            if self.guide.owner(p).is_none() {
                return p;
            }
        }
        port(1000 + self.count as u64, self.random.below(2) as u64)
    }

    pub fn any_identity(&mut self) -> u8 {
        let issued = self.guide.nodes.len();
        match self.random.below(10) {
            0 => self.random.pick(&STALE).unwrap_or(64),
            1 => issued as u8,
            2 => self.random.below(256) as u8,
            _ if issued > 0 => self.random.below(issued) as u8,
            _ => 0,
        }
    }

    pub fn any_command(&mut self) -> Command {
        let (id, p) = (self.any_identity(), self.any_port());
        match self.random.below(16) {
            0 => Command::Dependency(p),
            1 => Command::Provision(p),
            2 => Command::Insert(id),
            3 => Command::Begin(id),
            4 => Command::Finish(id),
            5 => Command::Leave(id),
            6 => Command::LeaveIfChanged(id),
            // a component that is retired cannot start again: rarer
            7 if self.may_retire() => Command::Retire(id),
            7 | 8 => Command::BeginCleanup(id),
            9 => Command::FinishCleanup(id),
            10 => Command::Remove(id),
            11 => Command::CompactBindings,
            12 => Command::CompactDeclarations,
            13 => Command::Declare(id, p),
            14 => Command::Release(id, p),
            _ => Command::Configure(id),
        }
    }

    pub fn may_retire(&mut self) -> bool {
        let running = self.guide.nodes.iter().filter(|n| n.present && !n.retired).count();
        running > self.profile.spare && self.random.chance(30)
    }

    /// The present components in a phase; restoring ones are Unloading too.
    pub fn in_phase(&self, phase: Phase) -> Vec<usize> {
        let nodes = self.guide.nodes.iter().enumerate();
        nodes.filter(|(_, n)| n.present && n.phase == phase).map(|(id, _)| id).collect()
    }

    pub fn present(&self) -> Vec<usize> {
        (0..self.guide.nodes.len()).filter(|&id| self.guide.present(id)).collect()
    }

    /// The Inactive components whose begin would find a target.
    pub fn ready(&self) -> Vec<usize> {
        self.in_phase(Phase::Inactive).into_iter().filter(|&id| self.guide.target(id).is_some()).collect()
    }

    /// Ports for the two pending lists, mostly such that the insert is accepted and its begin can be.
    pub fn lists(&mut self, dependencies: usize, provisions: usize) {
        let needed = self.needed_ports();
        for _ in 0..dependencies {
            let Some(p) = self.random.pick(&needed) else { continue };
            if !self.guide.dependencies.contains(&p) || self.random.chance(1) {
                self.add(Command::Dependency(p));
            }
        }
        if self.random.chance(10) {
            let p = self.any_port();
            self.add(Command::Dependency(p));
        }
        for _ in 0..provisions {
            let p = if self.random.chance(97) { self.free_port() } else { self.any_port() };
            if !self.guide.provisions.contains(&p) || self.random.chance(2) {
                self.add(Command::Provision(p));
            }
        }
    }

    /// A list's length up to a longest; one in a hundred is too long.
    pub fn length(&mut self, longest: usize) -> usize {
        if self.random.chance(1) {
            LIST + 2
        } else {
            self.random.below(longest + 1)
        }
    }
}
