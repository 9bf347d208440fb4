//! declare_provision, release_provision and configure_pending_dependencies.
use super::compaction::retain;
use super::insertion::repeats;
use super::records::{Declaration, Error, Kernel, Outcome, Phase, Port, PortList, DECLARATIONS, LIST};

impl Kernel {
    pub fn declare_provision(self, id: usize, port: Port) -> Outcome<()> {
        self.command(|k| {
            let node = k.node(id).ok_or(Error::Unknown)?;
            if node.retired {
                return Err(Error::Retired);
            }
            match node.phase {
                Phase::Loading | Phase::Active => {}
                Phase::Inactive if node.generation == 0 => {}
                _ => return Err(Error::InvalidState),
            }
            match k.provider(port) {
                Some(owner) if owner == id => return Ok(()),
                Some(_) => return Err(Error::Conflict),
                None => {}
            }
            if k.declaration_count == DECLARATIONS {
                return Err(Error::Capacity);
            }
            k.append(Declaration::new(id, port, true));
            Ok(())
        })
    }

    pub fn release_provision(self, id: usize, port: Port) -> Outcome<()> {
        self.command(|k| {
            if !k.contains(id) {
                return Err(Error::Unknown);
            }
            if k.links().iter().any(|l| l.live && l.provider() == id && l.port == port) {
                return Err(Error::Relied);
            }
            k.keep_declarations(|d| !(d.provides && d.owner() == id && d.port == port));
            Ok(())
        })
    }

    pub fn configure_pending_dependencies(self, id: usize, dependencies: &PortList) -> Outcome<()> {
        self.command(|k| {
            if LIST < dependencies.count {
                return Err(Error::Capacity);
            }
            let node = k.node(id).ok_or(Error::Unknown)?;
            if node.retired {
                return Err(Error::Retired);
            }
            if node.phase != Phase::Inactive || node.generation != 0 {
                return Err(Error::InvalidState);
            }
            let remains = |d: &Declaration| d.provides || d.owner() != id;
            if DECLARATIONS < k.declarations().iter().filter(|d| remains(d)).count() + dependencies.count {
                return Err(Error::Capacity);
            }
            if repeats(dependencies.listed()) {
                return Err(Error::Conflict);
            }
            k.keep_declarations(remains);
            for &port in dependencies.listed() {
                k.append(Declaration::new(id, port, false));
            }
            Ok(())
        })
    }

    /// The present owner that provides the port.
    pub fn provider(&self, port: Port) -> Option<usize> {
        let provision = self.declarations().iter().find(|d| d.provides && d.port == port && self.contains(d.owner()));
        provision.map(Declaration::owner)
    }

    pub fn append(&mut self, declaration: Declaration) {
        self.declarations[self.declaration_count] = declaration;
        self.declaration_count += 1;
    }

    fn keep_declarations(&mut self, keep: impl Fn(&Declaration) -> bool) {
        self.declaration_count = retain(&mut self.declarations[..self.declaration_count], Declaration::BLANK, keep);
    }
}
