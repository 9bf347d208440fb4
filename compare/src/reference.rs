//! lib.rs's own bodies, played command by command, with the refusals applied that lib.rs does not have.
use crate::calls::{parent_of, Call};
use crate::intended::{self, Answered, Counts, Intended};
use crate::log::{self, Command};
use crate::record::{self, Observed, Question, Record};
use numbers::Numbers;

include!(env!("ORIGINAL_RS"));

// within this module, since it reads lib.rs's tables
#[path = "drained.rs"]
pub mod drained;
#[path = "hit.rs"]
pub mod hit;
#[path = "lookup.rs"]
pub mod lookup;
#[path = "numbers.rs"]
pub mod numbers;
#[path = "rows.rs"]
pub mod rows;
#[path = "witnesses.rs"]
pub mod witnesses;

/// What lib.rs's Vec has beyond Rust's.
trait Set<T> {
    fn set(&mut self, at: usize, value: T);
}

impl<T> Set<T> for Vec<T> {
    fn set(&mut self, at: usize, value: T) {
        self[at] = value;
    }
}

impl Clone for Kernel {
    fn clone(&self) -> Kernel {
        Kernel { nodes: self.nodes.clone(), declarations: self.declarations.clone(), links: self.links.clone() }
    }
}

/// lib.rs's kernel, the numbers that its links must have, and the log player's two pending lists.
#[derive(Clone)]
pub struct Reference {
    kernel: Kernel,
    numbers: Numbers,
    dependencies: Vec<Port>,
    provisions: Vec<Port>,
}

/// What a command came to.
pub struct Step {
    /// The kernel's answer.
    pub answer: u8,
    /// The identity issued, or the count removed, else 0.
    pub detail: u64,
    /// lib.rs's own answer.
    pub own: u8,
    /// What refused in the place of lib.rs's answer.
    pub intended: Option<Intended>,
}

impl Step {
    /// Whether something refused in the place of an answer of lib.rs's that it may not hide.
    pub fn hides_wrongly(&self) -> bool {
        self.intended.is_some_and(|refused| !refused.hides().contains(&self.own))
    }
}

impl Reference {
    pub fn new() -> Reference {
        let (dependencies, provisions) = (Vec::new(), Vec::new());
        Reference { kernel: Kernel::new(), numbers: Numbers::default(), dependencies, provisions }
    }

    /// A kernel that has these tables, its links these numbers, and empty lists.
    pub fn of(tables: &Record) -> Reference {
        let kernel = Kernel {
            nodes: tables.nodes.iter().map(node_of).collect(),
            declarations: tables.declarations.iter().map(declaration_of).collect(),
            links: tables.links.iter().map(link_of).collect(),
        };
        Reference { kernel, numbers: Numbers::of(tables), ..Reference::new() }
    }

    /// lib.rs's kernel, for its observers.
    pub fn kernel(&self) -> &Kernel {
        &self.kernel
    }

    /// Drains the kernel; the commands, each with lib.rs's answer.
    pub fn drain(&mut self) -> drained::Drained {
        drained::drain(&mut self.kernel)
    }

    /// Plays a log's command.
    pub fn play(&mut self, command: Command) -> Step {
        match (command, Call::of(command)) {
            (Command::Dependency(p), _) => pend(&mut self.dependencies, p),
            (Command::Provision(p), _) => pend(&mut self.provisions, p),
            (_, Some(call)) => self.call(call),
            (_, None) => unreachable!(),
        }
    }

    /// Sets the pending lists, which may be longer than the log player's.
    pub fn list(&mut self, dependencies: &[log::Port], provisions: &[log::Port]) {
        self.dependencies = dependencies.iter().copied().map(port).collect();
        self.provisions = provisions.iter().copied().map(port).collect();
    }

    /// How long the pending lists are.
    fn listed(&self) -> [usize; 2] {
        [self.dependencies.len(), self.provisions.len()]
    }

    /// Whether a call names a parent that is present and retired.
    fn parent_retired(&self, call: Call) -> bool {
        matches!(call, Call::Insert(Some(parent)) if self.kernel.retired(parent))
    }

    /// How many declarations are not dependencies of the component that a call configures.
    fn remaining(&self, call: Call) -> usize {
        let goes = |d: &Declaration| matches!(call, Call::Configure(id) if d.owner == id && !d.provides);
        self.kernel.declarations.iter().filter(|d| !goes(d)).count()
    }

    /// Makes a call; where the kernel refuses and lib.rs may not, lib.rs's step is undone.
    pub fn call(&mut self, call: Call) -> Step {
        let kernel = self.kernel.clone();
        let (before, lists) = (counts(&kernel), self.listed());
        let (parent_retired, remaining) = (self.parent_retired(call), self.remaining(call));
        let (own, detail) = self.command(call);
        let answered = Answered { own, before, after: counts(&self.kernel), lists, parent_retired, remaining };
        let intended = intended::refuses(call, &answered);
        if intended.is_some() {
            self.kernel = kernel;
        } else if own == 0 {
            self.numbers.follow(call, &kernel);
        }
        step(own, detail, intended)
    }

    /// Whether lib.rs accepts a call that no fixed size refuses, which is made.
    pub fn accepts(&mut self, call: Call) -> bool {
        self.command(call).0 == 0
    }

    /// lib.rs's answer to a call, and its detail.
    fn command(&mut self, call: Call) -> (u8, u64) {
        let kernel = &mut self.kernel;
        match call {
            Call::Insert(parent) => {
                let (dependencies, provisions) = self.lists();
                match self.kernel.insert(parent, dependencies, provisions) {
                    Ok(id) => (0, id as u64),
                    Err(e) => (number(e), 0),
                }
            }
            Call::Configure(id) => {
                let (dependencies, _) = self.lists();
                done(self.kernel.configure_pending_dependencies(id, dependencies))
            }
            Call::Begin(id) => done(kernel.begin(id)),
            Call::Finish(id) => done(kernel.finish(id)),
            Call::Leave(id) => done(kernel.leave(id)),
            Call::LeaveIfChanged(id) => done(kernel.leave_if_changed(id)),
            Call::Retire(id) => done(kernel.retire(id)),
            Call::BeginCleanup(id) => done(kernel.begin_cleanup(id)),
            Call::FinishCleanup(id) => done(kernel.finish_cleanup(id)),
            Call::Remove(id) => done(kernel.remove(id)),
            Call::CompactBindings => (0, kernel.compact_bindings() as u64),
            Call::CompactDeclarations => (0, kernel.compact_declarations() as u64),
            Call::Declare(id, p) => done(kernel.declare_provision(id, port(p))),
            Call::Release(id, p) => done(kernel.release_provision(id, port(p))),
        }
    }

    /// Both pending lists, emptied.
    fn lists(&mut self) -> (Vec<Port>, Vec<Port>) {
        (std::mem::take(&mut self.dependencies), std::mem::take(&mut self.provisions))
    }

    /// What target gives now.
    pub fn target(&self, id: u8) -> Option<Vec<record::Binding>> {
        self.kernel.target(id.into()).map(bindings)
    }

    /// The generations of target's providers now, in its order.
    pub fn target_generations(&self, id: u8) -> Option<Vec<u64>> {
        numbers::of_target(&self.kernel, id.into())
    }

    /// What link_generation must answer.
    pub fn link_generation(&self, consumer: usize, p: log::Port) -> Option<u64> {
        self.numbers.link_generation(&self.kernel, consumer, port(p))
    }

    /// check_insert with the pending lists as they are; refused where an insert is.
    pub fn check_insert(&self, parent: Option<usize>) -> Step {
        let (own, detail) = done(self.kernel.check_insert(parent, &self.dependencies, &self.provisions));
        let (call, before, lists) = (Call::Insert(parent), counts(&self.kernel), self.listed());
        let declarations = before.declarations + if own == 0 { lists.iter().sum() } else { 0 };
        let after = Counts { declarations, ..before };
        let (parent_retired, remaining) = (self.parent_retired(call), self.remaining(call));
        let answered = Answered { own, before, after, lists, parent_retired, remaining };
        step(own, detail, intended::refuses(call, &answered))
    }

    /// check_iteration's answer.
    pub fn check_iteration(&self, id: usize) -> u8 {
        done(self.kernel.check_iteration(id)).0
    }

    /// The record after a step, with the number that each link must have, and the observers' answers if they are asked.
    pub fn record(&self, answer: u8, detail: u64, question: Option<Question>) -> Record {
        Record {
            answer,
            detail,
            nodes: self.kernel.nodes.iter().map(node).collect(),
            declarations: self.kernel.declarations.iter().map(declaration).collect(),
            links: self.kernel.links.iter().enumerate().map(|(at, l)| link(l, self.numbers.at(at))).collect(),
            observed: question.map(|q| self.observed(q)),
        }
    }

    /// Every observer's answer. A kernel that commands made is sound, so `sound` is yes.
    fn observed(&self, q: Question) -> Observed {
        let (kernel, id) = (&self.kernel, usize::from(q.identity));
        let asked = Port { key: q.key, realm: q.realm };
        Observed {
            sound: 1,
            contains: kernel.contains(id).into(),
            phase: kernel.phase(id).map_or(record::NO_PHASE, |p| p as u8),
            retired: kernel.retired(id).into(),
            cleanup_started: kernel.cleanup_started(id).into(),
            episode_generation: optional(kernel.episode_generation(id)),
            binding_records: kernel.binding_records() as u16,
            identity_slots: kernel.identity_slots() as u16,
            declaration_records: kernel.declaration_records() as u16,
            dependency_declared: kernel.dependency_declared(id, asked).into(),
            provision_reserved: kernel.provision_reserved(id, asked).into(),
            ids: kernel.ids().iter().map(|&i| i as u8).collect(),
            children: kernel.children(id).iter().map(|&i| i as u8).collect(),
            resolve: lookup::lookup(kernel, asked),
            target: self.target(q.identity),
            missing: lookup::missing(kernel, id),
            committed: bindings(kernel.committed(id)),
            link_generation: optional(self.numbers.link_generation(kernel, id, asked)),
            check_iteration: self.check_iteration(id),
            check_insert: self.check_insert(parent_of(q.identity)).answer,
        }
    }
}

/// A port for a pending list: a 33rd is refused and not added. This is the log player's, and not lib.rs's.
fn pend(list: &mut Vec<Port>, p: log::Port) -> Step {
    if list.len() == log::LIST {
        return step(0, 0, Some(Intended::List));
    }
    list.push(port(p));
    step(0, 0, None)
}

/// A step by lib.rs's answer and what refused in its place.
fn step(own: u8, detail: u64, intended: Option<Intended>) -> Step {
    match intended {
        Some(refused) => Step { answer: refused.number(), detail: 0, own, intended },
        None => Step { answer: own, detail, own, intended },
    }
}

fn counts(kernel: &Kernel) -> Counts {
    Counts { nodes: kernel.nodes.len(), declarations: kernel.declarations.len(), links: kernel.links.len() }
}

/// A refusal's number is its place in lib.rs's list, from 1.
fn number(e: Error) -> u8 {
    e as u8 + 1
}

fn done(result: Result<(), Error>) -> (u8, u64) {
    (result.map_or_else(number, |()| 0), 0)
}

fn optional(value: Option<u64>) -> (u8, u64) {
    value.map_or((0, 0), |v| (1, v))
}

pub fn port(p: log::Port) -> Port {
    Port { key: p.key, realm: p.realm }
}

fn binding(b: &Binding) -> record::Binding {
    record::Binding { key: b.key, realm: b.realm, provider: b.provider as u64 }
}

fn bindings(list: Vec<Binding>) -> Vec<record::Binding> {
    list.iter().map(binding).collect()
}

fn node(n: &Node) -> record::Node {
    record::Node {
        present: n.present.into(),
        retired: n.retired.into(),
        phase: n.phase as u8,
        restoring: n.restoring.into(),
        has_parent: n.parent.is_some().into(),
        parent: n.parent.unwrap_or(0) as u64,
        generation: n.generation,
    }
}

fn declaration(d: &Declaration) -> record::Declaration {
    record::Declaration { owner: d.owner as u64, key: d.port.key, realm: d.port.realm, provides: d.provides.into() }
}

fn link(l: &Link, generation: u64) -> record::Link {
    record::Link { consumer: l.consumer as u64, binding: binding(&l.binding), live: l.live.into(), generation }
}

fn node_of(n: &record::Node) -> Node {
    let phase = match n.phase {
        record::INACTIVE => Phase::Inactive,
        record::LOADING => Phase::Loading,
        record::ACTIVE => Phase::Active,
        _ => Phase::Unloading,
    };
    Node {
        present: n.present == 1,
        retired: n.retired == 1,
        phase,
        restoring: n.restoring == 1,
        parent: if n.has_parent == 1 { Some(n.parent as usize) } else { None },
        generation: n.generation,
    }
}

fn declaration_of(d: &record::Declaration) -> Declaration {
    Declaration { owner: d.owner as usize, port: Port { key: d.key, realm: d.realm }, provides: d.provides == 1 }
}

fn link_of(l: &record::Link) -> Link {
    let record::Binding { key, realm, provider } = l.binding;
    Link {
        consumer: l.consumer as usize,
        binding: Binding { key, realm, provider: provider as usize },
        live: l.live == 1,
    }
}
