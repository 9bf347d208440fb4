//! A log written command by command, each with the answer that it must get.
use crate::log::{self, Port};

#[derive(Clone, Default)]
pub struct Script {
    pub log: Vec<u8>,
    pub answers: Vec<u8>,
    /// How many components are inserted.
    inserted: u8,
    /// How many of the commands are ports for a pending list, which no kernel sees.
    ports: usize,
}

impl Script {
    /// How many commands there are.
    pub fn len(&self) -> usize {
        self.answers.len()
    }

    /// How many of them a kernel answers.
    pub fn calls(&self) -> usize {
        self.len() - self.ports
    }

    pub fn append(&mut self, other: &Script) {
        self.log.extend(&other.log);
        self.answers.extend(&other.answers);
        self.ports += other.ports;
    }

    /// A command without operands.
    pub fn bare(&mut self, byte: u8, answer: u8) {
        self.log.push(byte);
        self.answers.push(answer);
    }

    /// A command of an identity.
    pub fn of(&mut self, byte: u8, id: u8, answer: u8) {
        self.log.extend([byte, id]);
        self.answers.push(answer);
    }

    /// A command of an identity and a port.
    pub fn of_port(&mut self, byte: u8, id: u8, port: Port, answer: u8) {
        self.of(byte, id, answer);
        self.port(port);
    }

    fn port(&mut self, port: Port) {
        self.log.extend(port.key.to_le_bytes());
        self.log.extend(port.realm.to_le_bytes());
    }

    /// Ports for a pending list.
    fn pend(&mut self, byte: u8, ports: &[Port]) {
        for &p in ports {
            self.bare(byte, 0);
            self.port(p);
        }
        self.ports += ports.len();
    }

    /// A configuration with these dependencies.
    pub fn configure(&mut self, id: u8, dependencies: &[Port], answer: u8) {
        self.pend(log::DEPENDENCY, dependencies);
        self.of(log::CONFIGURE, id, answer);
    }

    /// An insert without a parent, with both lists; the identity that it must issue.
    pub fn insert(&mut self, dependencies: &[Port], provisions: &[Port]) -> u8 {
        self.pend(log::DEPENDENCY, dependencies);
        self.pend(log::PROVISION, provisions);
        self.of(log::INSERT, log::NO_PARENT, 0);
        self.inserted += 1;
        self.inserted - 1
    }

    /// begin and finish: the component ends Active.
    pub fn start(&mut self, id: u8) {
        self.of(log::BEGIN, id, 0);
        self.of(log::FINISH, id, 0);
    }

    /// leave and the cleanup: the component ends Inactive, its links dead.
    pub fn stop(&mut self, id: u8) {
        self.of(log::LEAVE, id, 0);
        self.of(log::BEGIN_CLEANUP, id, 0);
        self.of(log::FINISH_CLEANUP, id, 0);
    }

    /// An Active component stops and starts again.
    pub fn cycle(&mut self, id: u8) {
        self.stop(id);
        self.start(id);
    }

    /// An Inactive component is retired and removed.
    pub fn remove(&mut self, id: u8) {
        self.of(log::RETIRE, id, 0);
        self.of(log::REMOVE, id, 0);
    }
}
