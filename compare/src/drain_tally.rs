//! What a comparison of drains met.
use crate::calls::Call;
use crate::record::{Record, INACTIVE};
use crate::reference::Reference;

/// The lengths are counted in spans of so many.
const SPAN: usize = 24;
const SPANS: usize = 9;

/// Kinds of kernels that were drained.
const KINDS: [(&str, fn(&Record, &[Call]) -> bool); 8] = [
    ("a Loading or Active component", |_, list| list.iter().any(|c| matches!(c, Call::Leave(_)))),
    ("a restoring component", |t, _| t.nodes.iter().any(|n| n.restoring == 1)),
    ("two or more restoring", |t, _| t.nodes.iter().filter(|n| n.restoring == 1).count() > 1),
    ("a retired installed component", |t, _| t.nodes.iter().any(|n| n.retired == 1 && n.phase != INACTIVE)),
    ("a live link", |t, _| t.links.iter().any(|l| l.live == 1)),
    ("a dead link", |t, _| t.links.iter().any(|l| l.live == 0)),
    ("an order of cleaning that does not ascend", |_, list| !cleaned(list).is_sorted()),
    ("an order that goes back twice or more", |_, list| cleaned(list).windows(2).filter(|w| w[1] < w[0]).count() > 1),
];

#[derive(Default)]
pub struct Tally {
    pub drains: u64,
    steps: u64,
    played: u64,
    longest: usize,
    lengths: [u64; SPANS],
    kinds: [u64; KINDS.len()],
}

impl Tally {
    pub fn count(&mut self, reference: &Reference, list: &[(Call, u8)], played: bool) {
        let calls: Vec<Call> = list.iter().map(|&(call, _)| call).collect();
        let tables = reference.record(0, 0, None);
        self.drains += 1;
        self.steps += calls.len() as u64;
        self.played += u64::from(played);
        self.longest = self.longest.max(calls.len());
        self.lengths[calls.len().div_ceil(SPAN).min(SPANS - 1)] += 1;
        for (count, (_, holds)) in self.kinds.iter_mut().zip(KINDS) {
            *count += u64::from(holds(&tables, &calls));
        }
    }

    pub fn print(&self, commands: u64) {
        println!(
            "{} drains after {commands} commands, {} steps, the longest {}",
            self.drains, self.steps, self.longest
        );
        println!("{} of them played by the compiled kernel too", self.played);
        println!("\n| steps | drains |\n|---|---|\n| 0 | {} |", self.lengths[0]);
        for (span, count) in self.lengths.iter().enumerate().skip(1) {
            println!("| {} to {} | {count} |", (span - 1) * SPAN + 1, span * SPAN);
        }
        println!("\n| kernels with | drains |\n|---|---|");
        for (count, (name, _)) in self.kinds.iter().zip(KINDS) {
            println!("| {name} | {count} |");
        }
    }
}

/// The identities in the order in which they begin their cleanup.
fn cleaned(list: &[Call]) -> Vec<usize> {
    let begun = |call: &Call| if let Call::BeginCleanup(id) = call { Some(*id) } else { None };
    list.iter().filter_map(begun).collect()
}
