//! What a comparison on kernels made by hand met: kernels, answers by command, refusals that lib.rs does not have, by lib.rs's own answer.
use crate::calls::Call;
use crate::hit_tally::Tally;
use crate::intended::{self, Intended};
use crate::lookups::Lookups;
use crate::record::{Record, ACTIVE, LOADING};
use crate::reference::{Reference, Step};
use crate::sizes::{DECLARATIONS, IDENTITIES, LINKS};
use crate::tables::MOST;

/// The commands and checks, by their place in the table of answers.
pub const NAMES: [&str; 16] = [
    "begin",
    "finish",
    "leave",
    "leave_if_changed",
    "retire",
    "begin_cleanup",
    "finish_cleanup",
    "remove",
    "declare_provision",
    "release_provision",
    "compact_bindings",
    "compact_declarations",
    "insert",
    "configure_pending_dependencies",
    "check_insert",
    "check_iteration",
];
pub const CHECK_INSERT: usize = 14;
pub const CHECK_ITERATION: usize = 15;

const INTENDED: [Intended; 8] = [
    Intended::InsertList,
    Intended::ConfigureList,
    Intended::Identities,
    Intended::RetiredParent,
    Intended::InsertSum,
    Intended::DeclareSum,
    Intended::ConfigureSum,
    Intended::Links,
];

/// A kind of kernel that no log makes, or that is at the edge of a size or of soundness.
type Kind = (&'static str, fn(&Record, &Reference) -> bool);

const KINDS: [Kind; 16] = [
    ("a present component of generation 2^64 - 2", |t, _| generation(t, MOST - 1)),
    ("a present component of generation 2^64 - 1", |t, _| generation(t, MOST)),
    ("64 identities", |t, _| t.nodes.len() == IDENTITIES),
    ("256 declarations", |t, _| t.declarations.len() == DECLARATIONS),
    ("512 links", |t, _| t.links.len() == LINKS),
    ("a Loading or Active component with a target that is not what is committed", |t, r| not_committed(t, r)),
    ("an absent identity that was never retired", |t, _| t.nodes.iter().any(|n| n.present == 0 && n.retired == 0)),
    ("a present owner that provides a port twice", |t, _| provides_twice(t)),
    ("a Loading provider of a live link", |t, _| {
        t.links.iter().any(|l| l.live == 1 && t.nodes[l.binding.provider as usize].phase == LOADING)
    }),
    ("a dead link whose consumer or provider is the last identity", |t, _| {
        in_dead_links(t).any(|id| id + 1 == t.nodes.len())
    }),
    ("a dead link of an absent identity", |t, _| in_dead_links(t).any(|id| t.nodes[id].present == 0)),
    ("a dead link with another number than its provider's generation", |t, _| {
        t.links.iter().any(|l| l.live == 0 && t.nodes[l.binding.provider as usize].generation != l.generation)
    }),
    ("a live link with number 0", |t, _| t.links.iter().any(|l| l.live == 1 && l.generation == 0)),
    ("a live link with number 2^64 - 1", |t, _| t.links.iter().any(|l| l.live == 1 && l.generation == MOST)),
    ("an absent identity whose parent is the one before it", |t, _| {
        absent_children(t).any(|(id, parent)| parent + 1 == id)
    }),
    ("an absent identity whose parent is absent", |t, _| {
        absent_children(t).any(|(_, parent)| t.nodes[parent].present == 0)
    }),
];

#[derive(Default)]
pub struct Met {
    pub kernels: u64,
    pub commands: u64,
    pub questions: u64,
    pub tables: u64,
    pub lookups: Lookups,
    pub damaged: u64,
    /// The lists of who is hit.
    pub hits: Tally,
    /// Drains, their commands and the longest.
    drains: [u64; 3],
    /// Commands and questions that name an identity that no kernel has.
    far: [u64; 2],
    kinds: [u64; KINDS.len()],
    answers: [[u64; 10]; 16],
    intended: [[u64; 10]; INTENDED.len()],
    /// begin done at generation 2^64 - 2, and refused 9 at 2^64 - 1.
    last_begins: [u64; 2],
    /// begin done with a link of number 0, and with one of 2^64 - 1.
    begun_links: [u64; 2],
}

impl Met {
    pub fn kernel(&mut self, tables: &Record, reference: &Reference) {
        self.kernels += 1;
        for (count, (_, holds)) in self.kinds.iter_mut().zip(KINDS) {
            *count += u64::from(holds(tables, reference));
        }
    }

    /// A drain of this length.
    pub fn drain(&mut self, length: usize) {
        let [drains, commands, longest] = self.drains;
        self.drains = [drains + 1, commands + length as u64, longest.max(length as u64)];
    }

    pub fn command(&mut self, call: Call, step: &Step, before: &Record, after: &Record) {
        self.commands += 1;
        self.far[0] += u64::from(far(call.named()));
        self.answer(place(call), step);
        let Call::Begin(id) = call else { return };
        let generation = before.nodes.get(id).map(|n| n.generation);
        self.last_begins[0] += u64::from(step.answer == 0 && generation == Some(MOST - 1));
        self.last_begins[1] += u64::from(step.own == 9 && generation == Some(MOST));
        for (count, number) in self.begun_links.iter_mut().zip([0, MOST]) {
            *count += u64::from(after.numbers().skip(before.links.len()).any(|n| n == number));
        }
    }

    /// Questions that name an identity, or none.
    pub fn asked(&mut self, named: Option<usize>, count: u64) {
        self.questions += count;
        self.far[1] += if far(named) { count } else { 0 };
    }

    pub fn answer(&mut self, place: usize, step: &Step) {
        self.answers[place][usize::from(step.answer)] += 1;
        if let Some(row) = step.intended.and_then(|refused| INTENDED.iter().position(|&r| r == refused)) {
            self.intended[row][usize::from(step.own)] += 1;
        }
    }

    pub fn print(&self) {
        println!(
            "{} kernels, {} commands, {} questions, tables compared {} times",
            self.kernels, self.commands, self.questions, self.tables
        );
        println!("an identity of 64 or above is named by {} commands and {} questions", self.far[0], self.far[1]);
        println!(
            "begin done at generation 2^64 - 2: {}, refused at 2^64 - 1: {}",
            self.last_begins[0], self.last_begins[1]
        );
        println!("begin done with a link of number 0: {}, of 2^64 - 1: {}", self.begun_links[0], self.begun_links[1]);
        let [drains, commands, longest] = self.drains;
        println!(
            "{drains} drains of {commands} commands, the longest of {longest}; {} kernels that are not sound",
            self.damaged
        );
        println!("who is hit, on {} kernels:", self.hits.kernels);
        self.hits.print();
        self.lookups.print();
        println!("\n| kernels with | times |\n|---|---|");
        for (count, (name, _)) in self.kinds.iter().zip(KINDS) {
            println!("| {name} | {count} |");
        }
        println!("\n| command or check | done | {} |", (1..=9).map(|n| n.to_string()).collect::<Vec<_>>().join(" | "));
        println!("|---|{}", "---|".repeat(10));
        for (name, met) in NAMES.iter().zip(&self.answers) {
            let cells = met.map(|n| if n == 0 { "".to_string() } else { n.to_string() });
            println!("| {name} | {} |", cells.join(" | "));
        }
        println!("\n{}", intended::HEAD);
        for (refused, met) in INTENDED.iter().zip(&self.intended) {
            println!("{}", refused.row(met));
        }
    }
}

/// Whether a call names an identity that no kernel has.
fn far(named: Option<usize>) -> bool {
    named.is_some_and(|id| id >= IDENTITIES)
}

/// A command's place among the names.
pub fn place(call: Call) -> usize {
    match call {
        Call::Begin(_) => 0,
        Call::Finish(_) => 1,
        Call::Leave(_) => 2,
        Call::LeaveIfChanged(_) => 3,
        Call::Retire(_) => 4,
        Call::BeginCleanup(_) => 5,
        Call::FinishCleanup(_) => 6,
        Call::Remove(_) => 7,
        Call::Declare(..) => 8,
        Call::Release(..) => 9,
        Call::CompactBindings => 10,
        Call::CompactDeclarations => 11,
        Call::Insert(_) => 12,
        Call::Configure(_) => 13,
    }
}

fn generation(t: &Record, generation: u64) -> bool {
    t.nodes.iter().any(|n| n.present == 1 && n.generation == generation)
}

/// On a reached kernel a target of a Loading or Active component is what is committed.
fn not_committed(t: &Record, reference: &Reference) -> bool {
    let kernel = reference.kernel();
    let installed = |id: &usize| t.nodes[*id].phase == LOADING || t.nodes[*id].phase == ACTIVE;
    (0..t.nodes.len()).filter(installed).any(|id| kernel.target(id).is_some_and(|b| b != kernel.committed(id)))
}

/// The consumers and the providers of the dead links.
fn in_dead_links(t: &Record) -> impl Iterator<Item = usize> + '_ {
    let dead = t.links.iter().filter(|l| l.live == 0);
    dead.flat_map(|l| [l.consumer as usize, l.binding.provider as usize])
}

/// The absent identities that have a parent, each with it.
fn absent_children(t: &Record) -> impl Iterator<Item = (usize, usize)> + '_ {
    let children = t.nodes.iter().enumerate().filter(|(_, n)| n.present == 0 && n.has_parent == 1);
    children.map(|(id, n)| (id, n.parent as usize))
}

fn provides_twice(t: &Record) -> bool {
    let present = |owner: u64| t.nodes[owner as usize].present == 1;
    let mine = t.declarations.iter().enumerate().filter(|(_, d)| d.provides == 1 && present(d.owner));
    mine.into_iter().any(|(at, d)| t.declarations[..at].contains(d))
}
