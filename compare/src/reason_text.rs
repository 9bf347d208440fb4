//! Why a command is refused, in words: the refusal, the place with its test, what the test finds.
use crate::reference::rows::{Place, Reason};
use crate::reference::witnesses::{Listed, Measure, Witness};
use crate::status;

const REFUSALS: [&str; 10] = [
    "Unknown",
    "InvalidState",
    "Retired",
    "MissingDependency",
    "Conflict",
    "Changed",
    "Relied",
    "Children",
    "Capacity",
    "Damaged",
];

/// The lines of a command: accepted, or the refusal, the place, and the witness if there is one.
pub fn lines(reason: Option<&Reason>) -> Vec<String> {
    let Some(reason) = reason else { return vec!["accepted".to_string()] };
    let found = found(&reason.witness).map(|found| format!("witness: {found}"));
    [refusal(reason.answer), test(reason)].into_iter().chain(found).collect()
}

/// 11 and 12, which end a log, have no name.
fn refusal(answer: u8) -> String {
    match REFUSALS.get(usize::from(answer) - 1) {
        Some(name) => format!("refused {answer} {name}"),
        None => format!("refused {answer}"),
    }
}

fn test(reason: &Reason) -> String {
    let (name, tests) = place(reason.place);
    format!("place: {name}, test {}, {}", reason.test, tests[usize::from(reason.test) - 1])
}

/// A place's name, and its tests from the first.
fn place(place: Place) -> (&'static str, &'static [&'static str]) {
    match place {
        Place::Entry => ("entry", &["the kernel is not sound"]),
        Place::Lists => ("lists", &["a list is over 32"]),
        Place::Insertion => (
            "insertion",
            &[
                "64 identities are issued",
                "the parent is absent",
                "the parent is retired",
                "a port is listed twice or taken",
                "declarations and both lists exceed 256",
            ],
        ),
        Place::Identity => ("identity", &["it is absent"]),
        Place::DeclareProvision => (
            "declare_provision",
            &[
                "it is retired",
                "it is neither Loading, Active nor never begun",
                "another present component provides the port",
                "declarations are 256",
            ],
        ),
        Place::ReleaseProvision => ("release_provision", &["a live link has this provider and port"]),
        Place::ConfigurePendingDependencies => (
            "configure_pending_dependencies",
            &[
                "it is retired",
                "it has begun",
                "list and remaining declarations exceed 256",
                "the list has a port twice",
            ],
        ),
        Place::Begin => (
            "begin",
            &[
                "it is not Inactive",
                "it is retired",
                "the generation is the largest",
                "there is no target",
                "links and target exceed 512",
            ],
        ),
        Place::Finish => ("finish", &["it is not Loading", "there is no target"]),
        Place::Leave => ("leave", &["it is neither Loading nor Active"]),
        Place::LeaveIfChanged => ("leave_if_changed", &["it is neither Loading nor Active", "there is a target"]),
        Place::BeginCleanup => {
            ("begin_cleanup", &["it is not Unloading, or it is restoring", "a live link has this provider"])
        }
        Place::FinishCleanup => ("finish_cleanup", &["it is not restoring"]),
        Place::Remove => ("remove", &["it is not retired, or not Inactive", "a present component has it as parent"]),
        Place::Log => ("log", &["no such command", "the operands are cut", "the list is full"]),
    }
}

/// What a test finds; none if it names nothing.
fn found(witness: &Witness) -> Option<String> {
    Some(match witness {
        Witness::Nothing => return None,
        Witness::Component(id) => format!("component {id}"),
        Witness::Dependency(missing) => format!("dependency {}", status::unresolved(missing)),
        Witness::Link { place, consumer, port, provider } => {
            format!("link {place}, consumer {consumer}, key {} realm {}, provider {provider}", port.key, port.realm)
        }
        Witness::Child(id) => format!("child {id}"),
        Witness::Clash { port, owner } => format!("key {} realm {} is provided by {owner}", port.key, port.realm),
        Witness::Repeated { list, earlier, later } => {
            format!("{} {earlier} and {later} are the same port", listed(*list))
        }
        Witness::Number(measure, number) => format!("{} {number}", measured(*measure)),
        Witness::Full(count) => format!("count {count}"),
    })
}

fn listed(list: Listed) -> &'static str {
    match list {
        Listed::Dependencies => "dependencies",
        Listed::Provisions => "provisions",
    }
}

fn measured(measure: Measure) -> &'static str {
    match measure {
        Measure::DependencyCount => "dependencies, count",
        Measure::ProvisionCount => "provisions, count",
        Measure::IdentityCount | Measure::DeclarationCount => "count",
        Measure::DeclarationSum | Measure::LinkSum => "sum",
        Measure::Generation => "generation",
    }
}
