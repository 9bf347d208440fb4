//! The rows of docs/RULES.md, section 4, written out on lib.rs's tables: the tests of each command in their order, each with
//! its place, its number there, its refusal, and what it finds if it applies. Logs leave sound kernels, so that 10 has no row.
use super::witnesses::{self, Measure, Witness};
use super::{port, Kernel, Node, Phase, Port, Reference};
use crate::calls::Call;
use crate::log::{Command, CUT, LIST, NO_COMMAND};
use crate::sizes::{DECLARATIONS, IDENTITIES, LINKS};

/// The places of the tests, by their numbers; the last is the log itself.
#[derive(Clone, Copy, PartialEq, Eq, PartialOrd, Ord, Debug)]
pub enum Place {
    Entry,
    Lists,
    Insertion,
    Identity,
    DeclareProvision,
    ReleaseProvision,
    ConfigurePendingDependencies,
    Begin,
    Finish,
    Leave,
    LeaveIfChanged,
    BeginCleanup,
    FinishCleanup,
    Remove,
    Log,
}

/// Why a command is refused: the first test that applies.
#[derive(Clone, PartialEq, Debug)]
pub struct Reason {
    pub answer: u8,
    pub place: Place,
    pub test: u8,
    pub witness: Witness,
}

/// Place, number and refusal of a test, and what it finds.
type Test = (Place, u8, u8, Option<Witness>);

/// A kernel and the identity that a command names; its node if it is present.
struct Subject<'a> {
    kernel: &'a Kernel,
    id: usize,
    node: Option<&'a Node>,
}

impl Reference {
    /// Plays a log's command and tells why it is refused; none if it is accepted. lib.rs's own answer, the sizes and the
    /// retired parent aside, and the row's must be the same, else what is wrong.
    pub fn told(&mut self, command: Command) -> Result<Option<Reason>, &'static str> {
        let reason = self.reason(command);
        let step = self.play(command);
        if step.hides_wrongly() {
            return Err("lib.rs gives an answer that may not be hidden");
        }
        match reason.as_ref().map_or(0, |r| r.answer) == step.answer {
            true => Ok(reason),
            false => Err("the row written out does not give lib.rs's answer"),
        }
    }

    /// The first test of a command's row that applies.
    fn reason(&self, command: Command) -> Option<Reason> {
        let row = match (command, Call::of(command)) {
            (Command::Dependency(_), _) => vec![full(&self.dependencies)],
            (Command::Provision(_), _) => vec![full(&self.provisions)],
            (_, Some(call)) => self.row(call),
            (_, None) => unreachable!(),
        };
        let applies = |(place, test, answer, found): Test| found.map(|witness| Reason { answer, place, test, witness });
        row.into_iter().find_map(applies)
    }

    fn row(&self, call: Call) -> Vec<Test> {
        let of = |id| Subject::new(&self.kernel, id);
        match call {
            Call::Insert(parent) => self.insert_row(parent),
            Call::Declare(id, p) => of(id).declare(port(p)),
            Call::Release(id, p) => of(id).release(port(p)),
            Call::Configure(id) => of(id).configure(&self.dependencies),
            Call::Begin(id) => of(id).begin(),
            Call::Finish(id) => of(id).finish(),
            Call::Leave(id) => of(id).leave(),
            Call::LeaveIfChanged(id) => of(id).leave_if_changed(),
            Call::Retire(id) => vec![of(id).absent(Place::Identity, 1)],
            Call::BeginCleanup(id) => of(id).begin_cleanup(),
            Call::FinishCleanup(id) => of(id).finish_cleanup(),
            Call::Remove(id) => of(id).remove(),
            Call::CompactBindings | Call::CompactDeclarations => Vec::new(),
        }
    }

    fn insert_row(&self, parent: Option<usize>) -> Vec<Test> {
        let (kernel, ds, ps) = (&self.kernel, &self.dependencies, &self.provisions);
        let mut row = vec![
            too_long(Measure::DependencyCount, ds),
            too_long(Measure::ProvisionCount, ps),
            // 64 identities are too many already
            (Place::Insertion, 1, 9, witnesses::past(Measure::IdentityCount, kernel.nodes.len(), IDENTITIES - 1)),
        ];
        if let Some(parent) = parent.map(|id| Subject::new(kernel, id)) {
            row.push(parent.absent(Place::Insertion, 2));
            row.push((Place::Insertion, 3, 3, parent.that(|n| n.retired)));
        }
        let sum = kernel.declarations.len() + ds.len() + ps.len();
        row.push((Place::Insertion, 4, 5, witnesses::repeated_or_clashing(kernel, ds, ps)));
        row.push((Place::Insertion, 5, 9, witnesses::past(Measure::DeclarationSum, sum, DECLARATIONS)));
        row
    }
}

/// Why a log ends early: 11 or 12.
pub fn ended(answer: u8) -> Reason {
    let test = match answer {
        NO_COMMAND => 1,
        CUT => 2,
        _ => unreachable!(),
    };
    Reason { answer, place: Place::Log, test, witness: Witness::Nothing }
}

/// A pending list that has no room.
fn full(list: &[Port]) -> Test {
    (Place::Log, 3, 9, (list.len() >= LIST).then_some(Witness::Full(list.len())))
}

/// A list that no command takes.
fn too_long(measure: Measure, list: &[Port]) -> Test {
    (Place::Lists, 1, 9, witnesses::past(measure, list.len(), LIST))
}

impl<'a> Subject<'a> {
    fn new(kernel: &'a Kernel, id: usize) -> Subject<'a> {
        Subject { kernel, id, node: kernel.nodes.get(id).filter(|n| n.present) }
    }

    fn absent(&self, place: Place, test: u8) -> Test {
        (place, test, 1, self.node.is_none().then_some(Witness::Component(self.id)))
    }

    /// Only the identity, if its node is so.
    fn that(&self, so: impl Fn(&Node) -> bool) -> Option<Witness> {
        self.node.filter(|n| so(n)).map(|_| Witness::Component(self.id))
    }

    fn declare(&self, port: Port) -> Vec<Test> {
        let outside = |n: &Node| match n.phase {
            Phase::Loading | Phase::Active => false,
            Phase::Inactive => n.generation != 0,
            Phase::Unloading => true,
        };
        let declarations = &self.kernel.declarations;
        let already = declarations.iter().any(|d| d.provides && d.owner == self.id && d.port == port);
        let another = witnesses::clash(self.kernel, port).filter(|_| !already);
        let full = witnesses::past(Measure::DeclarationCount, declarations.len(), DECLARATIONS - 1);
        vec![
            self.absent(Place::Identity, 1),
            (Place::DeclareProvision, 1, 3, self.that(|n| n.retired)),
            (Place::DeclareProvision, 2, 2, self.that(outside)),
            (Place::DeclareProvision, 3, 5, another),
            (Place::DeclareProvision, 4, 9, full.filter(|_| !already)),
        ]
    }

    fn release(&self, port: Port) -> Vec<Test> {
        vec![
            self.absent(Place::Identity, 1),
            (Place::ReleaseProvision, 1, 7, witnesses::link(self.kernel, self.id, Some(port))),
        ]
    }

    fn configure(&self, list: &[Port]) -> Vec<Test> {
        let place = Place::ConfigurePendingDependencies;
        let remain = self.kernel.declarations.iter().filter(|d| d.provides || d.owner != self.id).count();
        vec![
            too_long(Measure::DependencyCount, list),
            self.absent(Place::Identity, 1),
            (place, 1, 3, self.that(|n| n.retired)),
            (place, 2, 2, self.that(|n| n.phase != Phase::Inactive || n.generation != 0)),
            (place, 3, 9, witnesses::past(Measure::DeclarationSum, remain + list.len(), DECLARATIONS)),
            (place, 4, 5, witnesses::repeated(list)),
        ]
    }

    fn begin(&self) -> Vec<Test> {
        let last = self.node.filter(|n| n.generation == u64::MAX);
        let sum = self.kernel.links.len() + self.kernel.target(self.id).map_or(0, |target| target.len());
        vec![
            self.absent(Place::Identity, 1),
            (Place::Begin, 1, 2, self.that(|n| n.phase != Phase::Inactive)),
            (Place::Begin, 2, 3, self.that(|n| n.retired)),
            (Place::Begin, 3, 9, last.map(|n| Witness::Number(Measure::Generation, n.generation))),
            (Place::Begin, 4, 4, witnesses::lacking(self.kernel, self.id)),
            (Place::Begin, 5, 9, witnesses::past(Measure::LinkSum, sum, LINKS)),
        ]
    }

    fn finish(&self) -> Vec<Test> {
        vec![
            self.absent(Place::Identity, 1),
            (Place::Finish, 1, 2, self.that(|n| n.phase != Phase::Loading)),
            (Place::Finish, 2, 6, witnesses::lacking(self.kernel, self.id)),
        ]
    }

    fn leave(&self) -> Vec<Test> {
        vec![self.absent(Place::Identity, 1), (Place::Leave, 1, 2, self.that(stopped))]
    }

    fn leave_if_changed(&self) -> Vec<Test> {
        let has_target = self.kernel.target(self.id).map(|_| Witness::Component(self.id));
        vec![
            self.absent(Place::Identity, 1),
            (Place::LeaveIfChanged, 1, 2, self.that(stopped)),
            (Place::LeaveIfChanged, 2, 6, has_target),
        ]
    }

    fn begin_cleanup(&self) -> Vec<Test> {
        vec![
            self.absent(Place::Identity, 1),
            (Place::BeginCleanup, 1, 2, self.that(|n| n.phase != Phase::Unloading || n.restoring)),
            (Place::BeginCleanup, 2, 7, witnesses::link(self.kernel, self.id, None)),
        ]
    }

    fn finish_cleanup(&self) -> Vec<Test> {
        vec![self.absent(Place::Identity, 1), (Place::FinishCleanup, 1, 2, self.that(|n| !n.restoring))]
    }

    fn remove(&self) -> Vec<Test> {
        vec![
            self.absent(Place::Identity, 1),
            (Place::Remove, 1, 2, self.that(|n| !n.retired || n.phase != Phase::Inactive)),
            (Place::Remove, 2, 8, witnesses::child(self.kernel, self.id)),
        ]
    }
}

/// Neither Loading nor Active.
fn stopped(n: &Node) -> bool {
    n.phase != Phase::Loading && n.phase != Phase::Active
}
