//! What the observers are asked, as lines for the program `cases`, with lib.rs's answers.
use crate::calls::Call;
use crate::log::Port;
use crate::record::{Lookup, Missing};
use crate::reference::hit::Hit;
use crate::reference::{self, drained, Kernel};

/// A line and its answer.
pub type Asked = (String, String);

/// The observers that take no operand.
pub fn of_all(kernel: &Kernel) -> Vec<Asked> {
    vec![
        ("binding_records".to_string(), kernel.binding_records().to_string()),
        ("identity_slots".to_string(), kernel.identity_slots().to_string()),
        ("declaration_records".to_string(), kernel.declaration_records().to_string()),
        ("ids".to_string(), identities(kernel.ids())),
    ]
}

/// The observers that take an identity, but target.
pub fn of_identity(kernel: &Kernel, id: usize) -> Vec<Asked> {
    vec![
        (format!("contains {id}"), yes(kernel.contains(id))),
        (format!("phase {id}"), kernel.phase(id).map_or(none(), |phase| format!("{phase:?}"))),
        (format!("retired {id}"), yes(kernel.retired(id))),
        (format!("cleanup_started {id}"), yes(kernel.cleanup_started(id))),
        (format!("episode_generation {id}"), kernel.episode_generation(id).map_or(none(), |n| n.to_string())),
        (format!("children {id}"), identities(kernel.children(id))),
        (format!("committed {id}"), bindings(kernel.committed(id))),
    ]
}

/// The observers that take an identity and a port.
pub fn of_declaration(kernel: &Kernel, id: usize, Port { key, realm }: Port) -> Vec<Asked> {
    let port = reference::Port { key, realm };
    vec![
        (format!("dependency_declared {id} {key} {realm}"), yes(kernel.dependency_declared(id, port))),
        (format!("provision_reserved {id} {key} {realm}"), yes(kernel.provision_reserved(id, port))),
    ]
}

/// target, with the dependency that is missing.
pub fn target(kernel: &Kernel, id: usize, missing: Option<Missing>) -> Asked {
    let answer = match (kernel.target(id), missing) {
        (Some(target), _) => bindings(target),
        (None, Some(m)) => format!("none, {}/{} {}", m.key, m.realm, found(m.found)),
        (None, None) => none(),
    };
    (format!("target {id}"), answer)
}

/// link_generation.
pub fn link_generation(id: usize, Port { key, realm }: Port, answer: Option<u64>) -> Asked {
    (format!("link_generation {id} {key} {realm}"), answer.map_or(none(), |n| n.to_string()))
}

/// resolve.
pub fn resolve(Port { key, realm }: Port, answer: Lookup) -> Asked {
    (format!("resolve {key} {realm}"), found(answer))
}

/// drain, of this length, by the commands that lib.rs was drained with and its answers.
pub fn drain(list: &[(Call, u8)], length: usize) -> Asked {
    let steps: Vec<String> = list.iter().map(|&(call, _)| format!(", {}", drained::words(call))).collect();
    let answer = match list.iter().find(|(_, answer)| *answer != 0) {
        // a text that the program never prints
        Some((call, answer)) => format!("lib.rs refuses {} with {answer}", drained::words(*call)),
        None => format!("done, steps {length}{}", steps.concat()),
    };
    ("drain".to_string(), answer)
}

/// affected, by lib.rs's leave and target.
pub fn affected(id: usize, hit: &Hit) -> Asked {
    (format!("affected {id}"), format!("{}, {}", refusal(hit.answer), identities(hit.ids.clone())))
}

/// The answer of a command or a check.
pub fn refusal(answer: u8) -> String {
    match answer {
        0 => "done".to_string(),
        n => format!("refused {n}"),
    }
}

fn found(answer: Lookup) -> String {
    match answer {
        Lookup::Provider(id) => id.to_string(),
        Lookup::NotActive(id) => format!("not active {id}"),
        Lookup::NoOwner => "no owner".to_string(),
        // a text that the program never prints
        Lookup::Disputed => "lib.rs's resolve is not its tables' Active owner".to_string(),
    }
}

fn yes(answer: bool) -> String {
    if answer { "yes" } else { "no" }.to_string()
}

fn none() -> String {
    "none".to_string()
}

/// The members with a space between them; a list without members is called empty.
fn list(members: Vec<String>) -> String {
    if members.is_empty() {
        return "empty".to_string();
    }
    members.join(" ")
}

fn identities(ids: Vec<usize>) -> String {
    list(ids.iter().map(|id| id.to_string()).collect())
}

fn bindings(bindings: Vec<reference::Binding>) -> String {
    list(bindings.iter().map(|b| format!("{}/{}@{}", b.key, b.realm, b.provider)).collect())
}
