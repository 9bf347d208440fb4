//! The lifecycle commands.
use super::records::{Error, Kernel, Link, Outcome, Phase, LINKS};

impl Kernel {
    pub fn begin(self, id: usize) -> Outcome<()> {
        self.command(|k| {
            let node = k.node(id).ok_or(Error::Unknown)?;
            if node.phase != Phase::Inactive {
                return Err(Error::InvalidState);
            }
            if node.retired {
                return Err(Error::Retired);
            }
            if node.generation == u64::MAX {
                return Err(Error::Capacity);
            }
            let target = k.target(id).ok_or(Error::MissingDependency)?;
            if LINKS < k.link_count + target.count {
                return Err(Error::Capacity);
            }
            for &binding in &target.bindings[..target.count] {
                let generation = k.nodes[binding.provider].generation;
                k.links[k.link_count] = Link::new(id, binding, generation);
                k.link_count += 1;
            }
            let node = &mut k.nodes[id];
            node.phase = Phase::Loading;
            node.generation += 1;
            Ok(())
        })
    }

    pub fn finish(self, id: usize) -> Outcome<()> {
        self.command(|k| {
            let node = k.node(id).ok_or(Error::Unknown)?;
            if node.phase != Phase::Loading {
                return Err(Error::InvalidState);
            }
            k.target(id).ok_or(Error::Changed)?;
            k.nodes[id].phase = Phase::Active;
            Ok(())
        })
    }

    pub fn leave(self, id: usize) -> Outcome<()> {
        self.command(|k| {
            let node = k.present(id)?;
            if node.phase != Phase::Loading && node.phase != Phase::Active {
                return Err(Error::InvalidState);
            }
            node.phase = Phase::Unloading;
            Ok(())
        })
    }

    pub fn leave_if_changed(self, id: usize) -> Outcome<()> {
        self.command(|k| {
            let node = k.node(id).ok_or(Error::Unknown)?;
            if node.phase != Phase::Loading && node.phase != Phase::Active {
                return Err(Error::InvalidState);
            }
            if k.target(id).is_some() {
                return Err(Error::Changed);
            }
            k.nodes[id].phase = Phase::Unloading;
            Ok(())
        })
    }

    pub fn retire(self, id: usize) -> Outcome<()> {
        self.command(|k| {
            k.present(id)?.retired = true;
            Ok(())
        })
    }

    pub fn begin_cleanup(self, id: usize) -> Outcome<()> {
        self.command(|k| {
            let node = k.node(id).ok_or(Error::Unknown)?;
            if node.phase != Phase::Unloading || node.restoring {
                return Err(Error::InvalidState);
            }
            if k.links().iter().any(|l| l.live && l.provider() == id) {
                return Err(Error::Relied);
            }
            k.nodes[id].restoring = true;
            Ok(())
        })
    }

    pub fn finish_cleanup(self, id: usize) -> Outcome<()> {
        self.command(|k| {
            let node = k.present(id)?;
            if !node.restoring {
                return Err(Error::InvalidState);
            }
            node.phase = Phase::Inactive;
            node.restoring = false;
            for link in k.links[..k.link_count].iter_mut().filter(|l| l.consumer() == id) {
                link.live = false;
            }
            Ok(())
        })
    }

    pub fn remove(self, id: usize) -> Outcome<()> {
        self.command(|k| {
            let node = k.node(id).ok_or(Error::Unknown)?;
            if !node.retired || node.phase != Phase::Inactive {
                return Err(Error::InvalidState);
            }
            if k.nodes().iter().any(|n| n.present && n.parent() == Some(id)) {
                return Err(Error::Children);
            }
            k.nodes[id].present = false;
            Ok(())
        })
    }
}
