//! Records and logs as text.
use crate::record::{Binding, Link, Record};

const PHASES: [&str; 4] = ["Inactive", "Loading", "Active", "Unloading"];

pub fn hex(bytes: &[u8]) -> String {
    bytes.iter().map(|b| format!("{b:02X}")).collect::<Vec<_>>().join(" ")
}

/// The three tables: the counts, then a line for each record below them.
pub fn tables(record: &Record) -> String {
    let mut lines = vec![format!("counts {} {} {}", record.nodes.len(), record.declarations.len(), record.links.len())];
    for (id, n) in record.nodes.iter().enumerate() {
        let parent = if n.has_parent == 0 { "-".to_string() } else { n.parent.to_string() };
        let phase = PHASES.get(usize::from(n.phase)).unwrap_or(&"?");
        lines.push(format!("node {id} {} {} {phase} {} {parent} {}", n.present, n.retired, n.restoring, n.generation));
    }
    for (at, d) in record.declarations.iter().enumerate() {
        lines.push(format!("decl {at} {} {} {} {}", d.owner, d.key, d.realm, d.provides));
    }
    for (at, l) in record.links.iter().enumerate() {
        let Link { consumer, binding: Binding { key, realm, provider }, live, generation } = l;
        lines.push(format!("link {at} {consumer} {key} {realm} {provider} {live} {generation}"));
    }
    lines.join("\n")
}

/// A whole record, with the observers' answers.
pub fn record(record: &Record) -> String {
    format!("answer {} detail {}\n{}\nobservers {:?}", record.answer, record.detail, tables(record), record.observed)
}
