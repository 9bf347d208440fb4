//! Situations that are easy to get wrong, counted so that a run shows that it met them.
use crate::log::Command;
use crate::record::{Link, Node, Record, ACTIVE, INACTIVE, LOADING, UNLOADING};
use crate::sizes::{DECLARATIONS, LINKS};

/// A command with the tables before and after it; every answer is in `after`.
pub struct Seen<'a> {
    pub before: &'a Record,
    pub command: Command,
    pub after: &'a Record,
}

/// A situation's name, and whether a command met it.
pub type Situation = (&'static str, fn(&Seen) -> bool);

pub const SITUATIONS: [Situation; 26] = [
    ("begin done, bound to a retired provider", |s| {
        begun(s) && s.added_links().any(|provider| s.before.nodes[provider as usize].retired == 1)
    }),
    ("begin done without dependencies at 512 links", |s| begun(s) && s.before.links.len() == LINKS),
    ("begin done in a second or later episode", |s| begun(s) && s.node().is_some_and(|n| n.generation > 0)),
    ("begin done, bound to a provider in its second or later episode", |s| {
        begun(s) && s.added_links().any(|provider| s.before.nodes[provider as usize].generation > 1)
    }),
    ("begin done, bound to a provider that began again since the consumer's last link to it", |s| {
        begun(s) && s.met_again()
    }),
    ("compact_bindings done that drops a dead link before a live one with another number", |s| {
        matches!(s.command, Command::CompactBindings) && s.dead_before_live()
    }),
    ("begin refused 2 of a retired component", |s| {
        matches!(s.command, Command::Begin(_)) && s.after.answer == 2 && s.retired()
    }),
    ("finish refused 6 of a retired component", |s| {
        matches!(s.command, Command::Finish(_)) && s.after.answer == 6 && s.retired()
    }),
    ("leave_if_changed done of a retired component", |s| {
        matches!(s.command, Command::LeaveIfChanged(_)) && s.after.answer == 0 && s.retired()
    }),
    ("leave_if_changed done of a Loading component that is not retired", |s| {
        let loading = s.node().is_some_and(|n| n.phase == LOADING && n.retired == 0);
        matches!(s.command, Command::LeaveIfChanged(_)) && s.after.answer == 0 && loading
    }),
    ("begin_cleanup done of a component with live links of its own", |s| {
        let own = |id: u8| s.before.links.iter().any(|l| l.live == 1 && l.consumer == u64::from(id));
        s.after.answer == 0 && matches!(s.command, Command::BeginCleanup(id) if own(id))
    }),
    ("declare or configure refused 2 of an Inactive component", |s| {
        let inactive = s.node().is_some_and(|n| n.phase == INACTIVE);
        matches!(s.command, Command::Declare(..) | Command::Configure(_)) && s.after.answer == 2 && inactive
    }),
    ("declare done, unchanged, at 256 declarations", |s| {
        matches!(s.command, Command::Declare(..)) && s.after.answer == 0 && s.before.declarations.len() == DECLARATIONS
    }),
    ("declare or insert done for a port of a removed owner's record", |s| {
        let adds = matches!(s.command, Command::Declare(..) | Command::Insert(_)) && s.after.answer == 0;
        adds && s.after.declarations[s.before.declarations.len()..]
            .iter()
            .any(|d| d.provides == 1 && s.before.provided_by_removed(d.key, d.realm))
    }),
    ("configure done that drops dependencies", |s| configured(s, 0) && s.own_dependencies(s.before) > 0),
    ("configure done, the declarations before it and its list over 256", |s| {
        configured(s, 0) && s.before.declarations.len() + s.own_dependencies(s.after) > DECLARATIONS
    }),
    ("configure done of a component with dependencies and provisions, 256 declarations after it", |s| {
        let full = s.after.declarations.len() == DECLARATIONS;
        configured(s, 0) && full && s.own_dependencies(s.before) > 0 && s.own_provisions() > 0
    }),
    ("configure refused 9 of a component with dependencies and provisions", |s| {
        configured(s, 9) && s.own_dependencies(s.before) > 0 && s.own_provisions() > 0
    }),
    ("configure refused 5 of a component with dependencies at 256 declarations", |s| {
        let full = s.before.declarations.len() == DECLARATIONS;
        configured(s, 5) && full && s.own_dependencies(s.before) > 0
    }),
    ("insert refused 3 under an Inactive parent", |s| insert_under(s, 3, |n| n.phase == INACTIVE)),
    ("insert refused 3 under a Loading parent", |s| insert_under(s, 3, |n| n.phase == LOADING)),
    ("insert refused 3 under an Active parent", |s| insert_under(s, 3, |n| n.phase == ACTIVE)),
    ("insert refused 3 under an Unloading parent", |s| insert_under(s, 3, |n| n.phase == UNLOADING)),
    ("insert refused 1 under a removed parent that is still marked retired", |s| {
        insert_under(s, 1, |n| n.present == 0 && n.retired == 1)
    }),
    ("begin done of a component whose parent is retired", |s| {
        let parent = s.node().filter(|n| n.has_parent == 1).and_then(|n| s.before.nodes.get(n.parent as usize));
        begun(s) && parent.is_some_and(|p| p.retired == 1)
    }),
    ("release done of a retired or Unloading owner's port", |s| {
        let dropped = s.after.declarations.len() < s.before.declarations.len();
        matches!(s.command, Command::Release(..))
            && dropped
            && s.node().is_some_and(|n| n.retired == 1 || n.phase == UNLOADING)
    }),
];

fn begun(s: &Seen) -> bool {
    matches!(s.command, Command::Begin(_)) && s.after.answer == 0
}

fn configured(s: &Seen, answer: u8) -> bool {
    matches!(s.command, Command::Configure(_)) && s.after.answer == answer
}

/// An insert with this answer whose parent's node is such.
fn insert_under(s: &Seen, answer: u8, such: fn(&Node) -> bool) -> bool {
    let Command::Insert(parent) = s.command else { return false };
    s.after.answer == answer && s.before.nodes.get(usize::from(parent)).is_some_and(such)
}

impl Seen<'_> {
    /// The present component that the command names, before it.
    fn node(&self) -> Option<&Node> {
        let id = self.command.identity()?;
        self.before.nodes.get(usize::from(id)).filter(|n| n.present == 1)
    }

    fn retired(&self) -> bool {
        self.node().is_some_and(|n| n.retired == 1)
    }

    /// How many dependencies the component that the command names has in these tables.
    fn own_dependencies(&self, tables: &Record) -> usize {
        self.declared(tables, 0)
    }

    /// How many provisions it had.
    fn own_provisions(&self) -> usize {
        self.declared(self.before, 1)
    }

    fn declared(&self, tables: &Record, provides: u8) -> usize {
        let Some(id) = self.command.identity() else { return 0 };
        tables.declarations.iter().filter(|d| d.owner == u64::from(id) && d.provides == provides).count()
    }

    /// The providers of the links that the command added.
    fn added_links(&self) -> impl Iterator<Item = u64> + '_ {
        self.added().map(|l| l.binding.provider)
    }

    fn added(&self) -> impl Iterator<Item = &Link> {
        self.after.links[self.before.links.len()..].iter()
    }

    /// Whether a link that the command added has another number than the last one before it with the same ends and port.
    fn met_again(&self) -> bool {
        let last =
            |new: &Link| self.before.links.iter().rfind(|l| l.consumer == new.consumer && l.binding == new.binding);
        self.added().any(|new| last(new).is_some_and(|old| old.generation != new.generation))
    }

    /// Whether a dead link stands before a live one with another number.
    fn dead_before_live(&self) -> bool {
        let links = &self.before.links;
        let behind = |at: usize| links[at..].iter().any(|l| l.live == 1 && l.generation != links[at].generation);
        (0..links.len()).any(|at| links[at].live == 0 && behind(at))
    }
}
