//! The generator's steps, each one or a few commands.
use crate::generator::Generator;
use crate::guide::Phase;
use crate::log::{Command, Port, LIST, NONE};
use crate::script::port;
use crate::sizes::{DECLARATIONS, LINKS};

impl Generator<'_> {
    pub fn blind(&mut self) {
        let command = self.any_command();
        // a profile that never compacts fills the links first
        let filling = self.profile.compact == 0 && self.guide.links.len() < LINKS - 30;
        if !(filling && matches!(command, Command::CompactBindings)) {
            self.add(command);
        }
    }

    fn insert(&mut self) {
        let (dependencies, provisions) = (self.length(self.profile.dependencies), self.length(self.profile.provisions));
        self.lists(dependencies, provisions);
        let parents = self.present();
        let parent = match self.random.below(20) {
            0..=9 => NONE,
            10 => self.any_identity(),
            _ => self.random.pick(&parents).map_or(NONE, |id| id as u8),
        };
        self.add(Command::Insert(parent));
    }

    pub fn grow(&mut self) {
        if self.guide.nodes.len() < self.profile.identities && self.random.chance(30) {
            return self.insert();
        }
        let (ready, loading) = (self.ready(), self.in_phase(Phase::Loading));
        match self.random.below(10) {
            0..=4 if !ready.is_empty() => self.on(&ready, Command::Begin),
            5..=8 if !loading.is_empty() && self.random.chance(self.profile.finish) => {
                self.on(&loading, Command::Finish)
            }
            9 => self.interface(),
            _ => self.churn(),
        }
    }

    /// Towards Active, of all that can begin or finish.
    pub fn raise(&mut self) {
        let (ready, loading) = (self.ready(), self.in_phase(Phase::Loading));
        if !ready.is_empty() && self.random.chance(60) {
            return self.on(&ready, Command::Begin);
        }
        if !loading.is_empty() && self.random.chance(self.profile.finish) {
            return self.on(&loading, Command::Finish);
        }
        let unloading = self.in_phase(Phase::Unloading);
        match self.random.pick(&unloading) {
            Some(id) => self.towards_inactive(id),
            None => self.grow(),
        }
    }

    fn on(&mut self, ids: &[usize], command: fn(u8) -> Command) {
        if let Some(id) = self.random.pick(ids) {
            self.add(command(id as u8));
        }
    }

    /// declare, release and configure on present components.
    fn interface(&mut self) {
        let present = self.present();
        let Some(id) = self.random.pick(&present).map(|id| id as u8) else { return self.insert() };
        let own: Vec<Port> =
            self.guide.declarations.iter().filter(|d| d.owner == usize::from(id)).map(|d| d.port).collect();
        match self.random.below(7) {
            0 => {
                let p = self.free_port();
                self.add(Command::Declare(id, p));
            }
            1 => {
                let p = self.random.pick(&own).unwrap_or(port(1, 1));
                self.add(Command::Declare(id, p));
            }
            2 => {
                let p = self.any_port();
                self.add(Command::Declare(id, p));
            }
            3 => {
                let p = self.random.pick(&own).unwrap_or(port(1, 1));
                self.add(Command::Release(id, p));
            }
            4 => {
                let live = self.guide.links.iter().filter(|l| l.live).map(|l| (l.provider as u8, l.port));
                let live: Vec<(u8, Port)> = live.collect();
                let (provider, p) = self.random.pick(&live).unwrap_or((id, port(1, 1)));
                self.add(Command::Release(provider, p));
            }
            _ => self.configure(id),
        }
    }

    /// configure of a component that never began, else of the one given; where the table is nearly full, half the lists
    /// just fit or just do not.
    fn configure(&mut self, otherwise: u8) {
        let mut unstarted = self.in_phase(Phase::Inactive);
        unstarted.retain(|&i| self.guide.nodes[i].generation == 0);
        let id = self.random.pick(&unstarted).map_or(otherwise, |i| i as u8);
        let remaining = self.guide.declarations.iter().filter(|d| d.owner != usize::from(id) || d.provides).count();
        let free = DECLARATIONS - remaining;
        let near = free < LIST && self.random.chance(50);
        if near {
            let length = (free + self.random.below(3)).saturating_sub(1);
            (0..length as u64).for_each(|key| self.add(Command::Dependency(port(key, 1))));
        } else {
            let length = self.length(self.profile.dependencies);
            self.lists(length, 0);
        }
        if self.random.chance(if near { 30 } else { 5 }) {
            // a list that repeats a port
            let repeated = self.guide.dependencies.last().copied().unwrap_or(port(1, 1));
            self.add(Command::Dependency(repeated));
        }
        self.add(Command::Configure(id));
    }

    /// A move of a present component that fits its phase, or any other.
    pub fn churn(&mut self) {
        let mut present = self.present();
        if self.random.chance(80) {
            present.retain(|&id| !self.guide.nodes[id].retired);
        }
        let Some(id) = self.random.pick(&present) else { return self.insert() };
        if self.random.chance(10) {
            return self.interface();
        }
        let node = self.guide.nodes[id];
        let byte = id as u8;
        let options = match node.phase {
            Phase::Inactive if node.retired => [Command::Begin(byte), Command::Remove(byte), Command::Remove(byte)],
            Phase::Inactive => [Command::Begin(byte), Command::Begin(byte), Command::Remove(byte)],
            Phase::Loading => [Command::Finish(byte), Command::LeaveIfChanged(byte), Command::Leave(byte)],
            Phase::Active => [Command::LeaveIfChanged(byte), Command::Leave(byte), Command::Begin(byte)],
            Phase::Unloading if node.restoring => [Command::FinishCleanup(byte); 3],
            Phase::Unloading => {
                [Command::BeginCleanup(byte), Command::BeginCleanup(byte), Command::FinishCleanup(byte)]
            }
        };
        let command = self.random.pick(&options).unwrap_or(Command::Begin(byte));
        self.add(command);
    }

    /// Towards Inactive.
    pub fn drain(&mut self) {
        let installed: Vec<usize> =
            self.present().into_iter().filter(|&id| self.guide.nodes[id].phase != Phase::Inactive).collect();
        let Some(id) = self.random.pick(&installed) else { return self.grow() };
        self.towards_inactive(id);
    }

    fn towards_inactive(&mut self, id: usize) {
        let node = self.guide.nodes[id];
        let byte = id as u8;
        let changed = self.random.chance(if self.guide.target(id).is_none() { 80 } else { 20 });
        self.add(match node.phase {
            Phase::Inactive => Command::Remove(byte),
            Phase::Unloading if node.restoring => Command::FinishCleanup(byte),
            Phase::Unloading => Command::BeginCleanup(byte),
            _ if changed => Command::LeaveIfChanged(byte),
            _ => Command::Leave(byte),
        });
    }

    /// A whole episode of a component with many dependencies, whose dead links stay.
    pub fn fill_links(&mut self) {
        let mut ready: Vec<(usize, usize)> =
            self.ready().into_iter().map(|id| (self.guide.target(id).map_or(0, |t| t.len()), id)).collect();
        ready.sort_unstable();
        let top = &ready[ready.len().saturating_sub(3)..];
        let Some((bindings, id)) = self.random.pick(top) else { return self.grow() };
        if bindings == 0 {
            return self.grow();
        }
        let byte = id as u8;
        self.add(Command::Begin(byte));
        if self.random.chance(30) {
            self.add(Command::Finish(byte));
        }
        if self.random.chance(95) {
            self.add(Command::Leave(byte));
            self.add(Command::BeginCleanup(byte));
            self.add(Command::FinishCleanup(byte));
        }
    }

    pub fn fill_declarations(&mut self) {
        if self.guide.nodes.len() < self.profile.identities && self.random.chance(30) {
            self.lists(self.profile.dependencies, self.profile.provisions);
            return self.add(Command::Insert(NONE));
        }
        let owners: Vec<usize> = self.present().into_iter().filter(|&id| !self.guide.nodes[id].retired).collect();
        let Some(id) = self.random.pick(&owners) else { return self.insert() };
        let p = if self.random.chance(80) { self.free_port() } else { self.any_port() };
        self.add(Command::Declare(id as u8, p));
    }

    /// Retires a component, or brings a retired one towards its removal.
    pub fn retire(&mut self) {
        let present = self.present();
        let mut retired = present.clone();
        let parents = self.random.chance(10);
        retired.retain(|&id| self.guide.nodes[id].retired && (parents || !self.guide.has_child(id)));
        match self.random.pick(&retired) {
            Some(id) if self.random.chance(80) => self.towards_inactive(id),
            _ if self.may_retire() => {
                let active = self.in_phase(Phase::Active);
                let chosen = if active.is_empty() || self.random.chance(50) { present } else { active };
                self.on(&chosen, Command::Retire);
            }
            _ => self.churn(),
        }
    }
}
