//! A small kernel by the rules that steers the generator: it tells which commands would be accepted.
//! No answer of it is compared with anything.
use crate::log::{Command, Port, LIST, NONE};
use crate::sizes::{DECLARATIONS, IDENTITIES, LINKS};

#[derive(Clone, Copy, PartialEq, Eq, Debug)]
pub enum Phase {
    Inactive,
    Loading,
    Active,
    Unloading,
}

#[derive(Clone, Copy)]
pub struct Node {
    pub present: bool,
    pub retired: bool,
    pub phase: Phase,
    pub restoring: bool,
    pub parent: Option<usize>,
    pub generation: u64,
}

#[derive(Clone, Copy)]
pub struct Declaration {
    pub owner: usize,
    pub port: Port,
    pub provides: bool,
}

#[derive(Clone, Copy)]
pub struct Link {
    pub consumer: usize,
    pub port: Port,
    pub provider: usize,
    pub live: bool,
}

#[derive(Default)]
pub struct Guide {
    pub nodes: Vec<Node>,
    pub declarations: Vec<Declaration>,
    pub links: Vec<Link>,
    pub dependencies: Vec<Port>,
    pub provisions: Vec<Port>,
}

impl Guide {
    pub fn present(&self, id: usize) -> bool {
        self.nodes.get(id).is_some_and(|n| n.present)
    }

    /// The present owner that provides a port.
    pub fn owner(&self, port: Port) -> Option<usize> {
        self.declarations.iter().find(|d| d.provides && d.port == port && self.nodes[d.owner].present).map(|d| d.owner)
    }

    /// The ports and providers that a begin would commit.
    pub fn target(&self, id: usize) -> Option<Vec<(Port, usize)>> {
        if !self.present(id) || self.nodes[id].retired {
            return None;
        }
        let needed = self.declarations.iter().filter(|d| !d.provides && d.owner == id);
        needed
            .map(|d| {
                let owner = self.owner(d.port).filter(|&o| self.nodes[o].phase == Phase::Active)?;
                Some((d.port, owner))
            })
            .collect()
    }

    /// Whether a live link has this provider.
    pub fn relied(&self, id: usize) -> bool {
        self.links.iter().any(|l| l.live && l.provider == id)
    }

    pub fn has_child(&self, id: usize) -> bool {
        self.nodes.iter().any(|n| n.present && n.parent == Some(id))
    }

    /// Plays a command: the answer's number.
    pub fn play(&mut self, command: Command) -> u8 {
        let id = command.identity().map_or(0, usize::from);
        let (dependencies, provisions) = match command {
            Command::Insert(_) | Command::Configure(_) => {
                (std::mem::take(&mut self.dependencies), std::mem::take(&mut self.provisions))
            }
            _ => (Vec::new(), Vec::new()),
        };
        match command {
            Command::Dependency(p) => pend(&mut self.dependencies, p),
            Command::Provision(p) => pend(&mut self.provisions, p),
            Command::Insert(parent) => self.insert(parent, &dependencies, &provisions),
            Command::CompactBindings => {
                self.links.retain(|l| l.live);
                0
            }
            Command::CompactDeclarations => {
                let nodes = &self.nodes;
                self.declarations.retain(|d| nodes[d.owner].present);
                0
            }
            _ if !self.present(id) => 1,
            Command::Configure(_) => self.configure(id, &dependencies),
            Command::Declare(_, p) => self.declare(id, p),
            Command::Release(_, p) => self.release(id, p),
            _ => self.lifecycle(command, id),
        }
    }

    fn insert(&mut self, parent: u8, dependencies: &[Port], provisions: &[Port]) -> u8 {
        let parent = if parent == NONE { None } else { Some(usize::from(parent)) };
        let sum = self.declarations.len() + dependencies.len() + provisions.len();
        if self.nodes.len() == IDENTITIES {
            return 9;
        }
        if parent.is_some_and(|p| !self.present(p)) {
            return 1;
        }
        if parent.is_some_and(|p| self.nodes[p].retired) {
            return 3;
        }
        if repeats(dependencies) || repeats(provisions) || provisions.iter().any(|&p| self.owner(p).is_some()) {
            return 5;
        }
        if sum > DECLARATIONS {
            return 9;
        }
        let owner = self.nodes.len();
        let phase = Phase::Inactive;
        self.nodes.push(Node { present: true, retired: false, phase, restoring: false, parent, generation: 0 });
        self.declarations.extend(dependencies.iter().map(|&port| Declaration { owner, port, provides: false }));
        self.declarations.extend(provisions.iter().map(|&port| Declaration { owner, port, provides: true }));
        0
    }

    fn configure(&mut self, owner: usize, dependencies: &[Port]) -> u8 {
        let node = self.nodes[owner];
        if node.retired {
            return 3;
        }
        if node.phase != Phase::Inactive || node.generation != 0 {
            return 2;
        }
        let remaining: Vec<Declaration> =
            self.declarations.iter().filter(|d| d.owner != owner || d.provides).copied().collect();
        if remaining.len() + dependencies.len() > DECLARATIONS {
            return 9;
        }
        if repeats(dependencies) {
            return 5;
        }
        self.declarations = remaining;
        self.declarations.extend(dependencies.iter().map(|&port| Declaration { owner, port, provides: false }));
        0
    }

    fn declare(&mut self, owner: usize, port: Port) -> u8 {
        let node = self.nodes[owner];
        if node.retired {
            return 3;
        }
        if node.phase == Phase::Unloading || node.phase == Phase::Inactive && node.generation != 0 {
            return 2;
        }
        match self.owner(port) {
            Some(other) if other == owner => return 0,
            Some(_) => return 5,
            None => {}
        }
        if self.declarations.len() == DECLARATIONS {
            return 9;
        }
        self.declarations.push(Declaration { owner, port, provides: true });
        0
    }

    fn release(&mut self, owner: usize, port: Port) -> u8 {
        if self.links.iter().any(|l| l.live && l.provider == owner && l.port == port) {
            return 7;
        }
        self.declarations.retain(|d| !(d.provides && d.owner == owner && d.port == port));
        0
    }

    /// The commands that name a present component and nothing else.
    fn lifecycle(&mut self, command: Command, id: usize) -> u8 {
        let node = self.nodes[id];
        let target = self.target(id);
        let installed = node.phase == Phase::Loading || node.phase == Phase::Active;
        let refusal = match command {
            Command::Begin(_) if node.phase != Phase::Inactive => 2,
            Command::Begin(_) if node.retired => 3,
            Command::Begin(_) => match &target {
                None => 4,
                Some(bindings) if self.links.len() + bindings.len() > LINKS => 9,
                Some(_) => 0,
            },
            Command::Finish(_) if node.phase != Phase::Loading => 2,
            Command::Finish(_) if target.is_none() => 6,
            Command::Leave(_) | Command::LeaveIfChanged(_) if !installed => 2,
            Command::LeaveIfChanged(_) if target.is_some() => 6,
            Command::BeginCleanup(_) if node.phase != Phase::Unloading || node.restoring => 2,
            Command::BeginCleanup(_) if self.relied(id) => 7,
            Command::FinishCleanup(_) if !node.restoring => 2,
            Command::Remove(_) if !node.retired || node.phase != Phase::Inactive => 2,
            Command::Remove(_) if self.has_child(id) => 8,
            _ => 0,
        };
        if refusal == 0 {
            self.change(command, id, target.unwrap_or_default());
        }
        refusal
    }

    /// What an accepted lifecycle command changes.
    fn change(&mut self, command: Command, id: usize, target: Vec<(Port, usize)>) {
        let node = &mut self.nodes[id];
        match command {
            Command::Begin(_) => {
                node.phase = Phase::Loading;
                node.generation += 1;
                let made = target.into_iter();
                self.links.extend(made.map(|(port, provider)| Link { consumer: id, port, provider, live: true }));
            }
            Command::Finish(_) => node.phase = Phase::Active,
            Command::Leave(_) | Command::LeaveIfChanged(_) => node.phase = Phase::Unloading,
            Command::Retire(_) => node.retired = true,
            Command::BeginCleanup(_) => node.restoring = true,
            Command::FinishCleanup(_) => {
                node.phase = Phase::Inactive;
                node.restoring = false;
                self.links.iter_mut().filter(|l| l.consumer == id).for_each(|l| l.live = false);
            }
            _ => node.present = false,
        }
    }
}

fn pend(list: &mut Vec<Port>, port: Port) -> u8 {
    if list.len() == LIST {
        return 9;
    }
    list.push(port);
    0
}

fn repeats(ports: &[Port]) -> bool {
    ports.iter().enumerate().any(|(i, p)| ports[..i].contains(p))
}
