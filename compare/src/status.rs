//! The status of lib.rs's kernel in words: a line for each present component.
use crate::record::{Lookup, Missing};
use crate::reference::{lookup, Kernel};

/// The lines, by ascending identity.
pub fn lines(kernel: &Kernel) -> Vec<String> {
    kernel.ids().into_iter().map(|id| component(kernel, id)).collect()
}

/// The phase of a present component.
pub fn phase(kernel: &Kernel, id: usize) -> String {
    kernel.phase(id).map_or_else(|| panic!("{id} is present and has no phase"), |phase| format!("{phase:?}"))
}

fn component(kernel: &Kernel, id: usize) -> String {
    let (phase, Some(generation)) = (phase(kernel, id), kernel.episode_generation(id)) else {
        panic!("{id} is present and has no generation");
    };
    let retired = if kernel.retired(id) { ", retired" } else { "" };
    let restoring = if kernel.cleanup_started(id) { ", restoring" } else { "" };
    format!("component {id}: {phase}, generation {generation}{retired}{restoring}{}", target(kernel, id))
}

/// What target gives; nothing of a retired component.
fn target(kernel: &Kernel, id: usize) -> String {
    match lookup::missing(kernel, id) {
        Some(missing) => format!(", waits for {}", unresolved(&missing)),
        None if kernel.target(id).is_some() => ", has its target".to_string(),
        None => String::new(),
    }
}

/// A dependency that does not resolve, and why.
pub fn unresolved(Missing { key, realm, found }: &Missing) -> String {
    let reason = match found {
        Lookup::NotActive(id) => format!("which {id} provides but is not Active"),
        Lookup::NoOwner => "which nobody provides".to_string(),
        Lookup::Provider(_) | Lookup::Disputed => panic!("{key}/{realm} is missing and found: {found:?}"),
    };
    format!("key {key} realm {realm}, {reason}")
}
