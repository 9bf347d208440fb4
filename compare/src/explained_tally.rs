//! What a comparison of explanations met.
use crate::record::Lookup;
use crate::reference::rows::{Place, Reason};
use crate::reference::witnesses::{Listed, Measure, Witness};
use std::collections::BTreeMap;

/// Each place with its refusals, in the order of its tests.
const PLACES: [(Place, &[u8]); 15] = [
    (Place::Entry, &[10]),
    (Place::Lists, &[9]),
    (Place::Insertion, &[9, 1, 3, 5, 9]),
    (Place::Identity, &[1]),
    (Place::DeclareProvision, &[3, 2, 5, 9]),
    (Place::ReleaseProvision, &[7]),
    (Place::ConfigurePendingDependencies, &[3, 2, 9, 5]),
    (Place::Begin, &[2, 3, 9, 4, 9]),
    (Place::Finish, &[2, 6]),
    (Place::Leave, &[2]),
    (Place::LeaveIfChanged, &[2, 6]),
    (Place::BeginCleanup, &[2, 7]),
    (Place::FinishCleanup, &[2]),
    (Place::Remove, &[2, 8]),
    (Place::Log, &[11, 12, 9]),
];
/// No log reaches these: an unsound kernel, a list over 32, the largest generation.
const NOT_IN_LOGS: [(Place, u8); 3] = [(Place::Entry, 1), (Place::Lists, 1), (Place::Begin, 3)];
/// Every witness that a log reaches.
const WITNESSES: [&str; 14] = [
    "nothing",
    "a component",
    "a dependency that nobody provides",
    "a dependency whose owner is not Active",
    "a link",
    "a child",
    "a clash",
    "a port twice in the dependencies",
    "a port twice in the provisions",
    "a count of identities",
    "a count of declarations",
    "a sum of declarations",
    "a sum of links",
    "a full pending list",
];

#[derive(Default)]
pub struct Tally {
    /// Explanations that were compared.
    pub commands: u64,
    logs: BTreeMap<&'static str, u64>,
    accepted: u64,
    tests: BTreeMap<(Place, u8), u64>,
    witnesses: BTreeMap<&'static str, u64>,
}

impl Tally {
    pub fn log(&mut self, kind: &'static str) {
        *self.logs.entry(kind).or_default() += 1;
    }

    pub fn count(&mut self, reason: Option<&Reason>) {
        self.commands += 1;
        match reason {
            None => self.accepted += 1,
            Some(reason) => {
                *self.tests.entry((reason.place, reason.test)).or_default() += 1;
                *self.witnesses.entry(name(&reason.witness)).or_default() += 1;
            }
        }
    }

    pub fn print(&self) {
        println!("{} commands in {} logs, {} accepted", self.commands, self.logs.values().sum::<u64>(), self.accepted);
        println!("\n| place | test | refusal | commands |\n|---|---|---|---|");
        for ((place, test), answer) in tests() {
            println!("| {place:?} | {test} | {answer} | {} |", self.tests.get(&(place, test)).unwrap_or(&0));
        }
        println!("\n| witness | commands |\n|---|---|");
        for (name, count) in &self.witnesses {
            println!("| {name} | {count} |");
        }
        println!("\n| logs | number |\n|---|---|");
        self.logs.iter().for_each(|(kind, count)| println!("| {kind} | {count} |"));
    }

    /// What logs can reach and these did not.
    pub fn never_met(&self) -> Vec<String> {
        let reached = tests().filter(|(test, _)| !NOT_IN_LOGS.contains(test) && !self.tests.contains_key(test));
        let tests = reached.map(|((place, test), _)| format!("{place:?} {test}"));
        let witnesses = WITNESSES.iter().filter(|&name| !self.witnesses.contains_key(name));
        tests.chain(witnesses.map(|name| name.to_string())).collect()
    }
}

/// Every test with its refusal.
fn tests() -> impl Iterator<Item = ((Place, u8), u8)> {
    let numbered = |(place, answers): (Place, &'static [u8])| (1..).zip(answers).map(move |(n, &a)| ((place, n), a));
    PLACES.into_iter().flat_map(numbered)
}

/// A witness by its kind, and what the kind tells apart.
fn name(witness: &Witness) -> &'static str {
    match witness {
        Witness::Nothing => "nothing",
        Witness::Component(_) => "a component",
        Witness::Dependency(missing) if missing.found == Lookup::NoOwner => "a dependency that nobody provides",
        Witness::Dependency(_) => "a dependency whose owner is not Active",
        Witness::Link { .. } => "a link",
        Witness::Child(_) => "a child",
        Witness::Clash { .. } => "a clash",
        Witness::Repeated { list: Listed::Dependencies, .. } => "a port twice in the dependencies",
        Witness::Repeated { list: Listed::Provisions, .. } => "a port twice in the provisions",
        Witness::Number(Measure::IdentityCount, _) => "a count of identities",
        Witness::Number(Measure::DeclarationCount, _) => "a count of declarations",
        Witness::Number(Measure::DeclarationSum, _) => "a sum of declarations",
        Witness::Number(Measure::LinkSum, _) => "a sum of links",
        Witness::Number(..) => "a number that no log reaches",
        Witness::Full(_) => "a full pending list",
    }
}
