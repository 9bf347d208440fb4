//! insert.
use super::records::{Declaration, Error, Kernel, Node, Outcome, Port, PortList, DECLARATIONS, LIST, NODES};

impl Kernel {
    pub fn insert(self, parent: Option<usize>, dependencies: &PortList, provisions: &PortList) -> Outcome<usize> {
        self.command(|k| {
            k.check_insert(parent, dependencies, provisions)?;
            let id = k.node_count;
            k.nodes[id] = Node::new(parent);
            k.node_count += 1;
            for &port in dependencies.listed() {
                k.append(Declaration::new(id, port, false));
            }
            for &port in provisions.listed() {
                k.append(Declaration::new(id, port, true));
            }
            Ok(id)
        })
    }

    fn check_insert(&self, parent: Option<usize>, dependencies: &PortList, provisions: &PortList) -> Result<(), Error> {
        if LIST < dependencies.count || LIST < provisions.count || self.node_count == NODES {
            return Err(Error::Capacity);
        }
        if parent.is_some_and(|p| !self.contains(p)) {
            return Err(Error::Unknown);
        }
        if parent.is_some_and(|p| self.nodes[p].retired) {
            return Err(Error::Retired);
        }
        let taken = provisions.listed().iter().any(|&p| self.provider(p).is_some());
        if taken || repeats(provisions.listed()) || repeats(dependencies.listed()) {
            return Err(Error::Conflict);
        }
        if DECLARATIONS < self.declaration_count + dependencies.count + provisions.count {
            return Err(Error::Capacity);
        }
        Ok(())
    }
}

/// Whether a list has a port twice.
pub fn repeats(ports: &[Port]) -> bool {
    ports.iter().enumerate().any(|(i, p)| ports[..i].contains(p))
}
