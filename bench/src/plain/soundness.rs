//! The soundness test, each of its points in loops over the tables.
use super::records::{Declaration, Kernel, Link, Node, Phase, Port, DECLARATIONS, LINKS, NODES};

impl Kernel {
    pub fn sound(&self) -> bool {
        self.counts_within_sizes()
            && self.blank_past_counts()
            && self.owners_issued()
            && self.one_owner_for_each_provision()
            && self.nodes_consistent()
            && self.live_links_declared()
            && self.live_links_ordered()
            && self.dependencies_linked()
            && self.dead_links_issued()
    }

    fn counts_within_sizes(&self) -> bool {
        self.node_count <= NODES && self.declaration_count <= DECLARATIONS && self.link_count <= LINKS
    }

    fn blank_past_counts(&self) -> bool {
        self.nodes[self.node_count..].iter().all(|n| *n == Node::BLANK)
            && self.declarations[self.declaration_count..].iter().all(|d| *d == Declaration::BLANK)
            && self.links[self.link_count..].iter().all(|l| *l == Link::BLANK)
    }

    fn owners_issued(&self) -> bool {
        self.declarations().iter().all(|d| d.owner() < self.node_count)
    }

    fn one_owner_for_each_provision(&self) -> bool {
        let provides = |d: &Declaration| d.provides && self.contains(d.owner());
        for (i, a) in self.declarations().iter().enumerate() {
            if !provides(a) {
                continue;
            }
            for b in &self.declarations()[..i] {
                if a.port == b.port && a.owner() != b.owner() && provides(b) {
                    return false;
                }
            }
        }
        true
    }

    fn nodes_consistent(&self) -> bool {
        self.nodes().iter().enumerate().all(|(id, n)| {
            let parent_ok = n.parent().is_none_or(|p| p < id && (!n.present || self.contains(p)));
            let restoring_ok = !n.restoring || n.present && n.phase == Phase::Unloading;
            parent_ok && restoring_ok && (n.present || n.phase == Phase::Inactive)
        })
    }

    /// A live link's consumer and provider are installed and declare its port; its generation is its provider's.
    fn live_links_declared(&self) -> bool {
        self.live_links().all(|l| {
            let consumer_ok = self.node(l.consumer()).is_some_and(|n| n.installed());
            let provider_ok =
                self.node(l.provider()).is_some_and(|n| n.installed() && !n.restoring && n.generation == l.generation);
            consumer_ok
                && provider_ok
                && self.declares(l.consumer(), l.port, false)
                && self.declares(l.provider(), l.port, true)
        })
    }

    /// Where a live link's provider is a live link's consumer, the latter link stands strictly earlier.
    fn live_links_ordered(&self) -> bool {
        for (i, a) in self.links().iter().enumerate() {
            if !a.live {
                continue;
            }
            for b in &self.links()[i..] {
                if b.live && b.consumer() == a.provider() {
                    return false;
                }
            }
        }
        true
    }

    /// Each dependency of an installed node has a live link.
    fn dependencies_linked(&self) -> bool {
        self.declarations().iter().all(|d| {
            d.provides
                || !self.nodes[d.owner()].installed()
                || self.live_links().any(|l| l.consumer() == d.owner() && l.port == d.port)
        })
    }

    /// A dead link's consumer and provider are issued.
    fn dead_links_issued(&self) -> bool {
        self.links().iter().all(|l| l.live || l.consumer() < self.node_count && l.provider() < self.node_count)
    }

    fn live_links(&self) -> impl Iterator<Item = &Link> {
        self.links().iter().filter(|l| l.live)
    }

    pub fn declares(&self, owner: usize, port: Port, provides: bool) -> bool {
        self.declarations().iter().any(|d| d.owner() == owner && d.port == port && d.provides == provides)
    }
}
