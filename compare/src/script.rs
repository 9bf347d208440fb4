//! A log written command by command.
use crate::log::{Command, Port, NONE};

#[derive(Default, Clone)]
pub struct Script {
    pub log: Vec<u8>,
}

/// P of the sample sequences: key 7 realm 1.
pub const P: Port = Port { key: 7, realm: 1 };

pub fn port(key: u64, realm: u64) -> Port {
    Port { key, realm }
}

impl Script {
    pub fn new() -> Script {
        Script::default()
    }

    pub fn add(&mut self, command: Command) -> &mut Script {
        command.write(&mut self.log);
        self
    }

    /// Bytes as they are, for a log that ends early.
    pub fn bytes(&mut self, bytes: &[u8]) -> &mut Script {
        self.log.extend(bytes);
        self
    }

    /// Ports for the pending dependencies.
    pub fn depend(&mut self, ports: &[Port]) -> &mut Script {
        for &p in ports {
            self.add(Command::Dependency(p));
        }
        self
    }

    /// An insert with its two lists.
    pub fn insert(&mut self, parent: u8, dependencies: &[Port], provisions: &[Port]) -> &mut Script {
        self.depend(dependencies);
        for &p in provisions {
            self.add(Command::Provision(p));
        }
        self.add(Command::Insert(parent))
    }

    /// An insert without a parent.
    pub fn root(&mut self, dependencies: &[Port], provisions: &[Port]) -> &mut Script {
        self.insert(NONE, dependencies, provisions)
    }

    pub fn configure(&mut self, id: u8, dependencies: &[Port]) -> &mut Script {
        self.depend(dependencies).add(Command::Configure(id))
    }

    pub fn begin(&mut self, id: u8) -> &mut Script {
        self.add(Command::Begin(id))
    }

    /// begin and finish: the component ends Active.
    pub fn start(&mut self, id: u8) -> &mut Script {
        self.begin(id).add(Command::Finish(id))
    }

    /// begin_cleanup and finish_cleanup: the component ends Inactive.
    pub fn clean(&mut self, id: u8) -> &mut Script {
        self.add(Command::BeginCleanup(id)).add(Command::FinishCleanup(id))
    }

    /// leave, then its cleanup.
    pub fn stop(&mut self, id: u8) -> &mut Script {
        self.add(Command::Leave(id)).clean(id)
    }
}
