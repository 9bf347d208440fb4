//! What a comparison of lists of who is hit met.
use crate::record::{Record, ACTIVE, LOADING, UNLOADING};
use crate::reference::hit::Hit;

/// The lengths are counted up to these; the last span has all above.
const SPANS: [(&str, usize); 6] =
    [("0", 0), ("1", 1), ("2 to 4", 4), ("5 to 16", 16), ("17 to 62", 62), ("63", usize::MAX)];

/// Why a component with a live link to the leaving one is not hit: the first that holds.
const REASONS: [(&str, fn(&Record, usize, usize) -> bool); 5] = [
    ("it is Unloading", |t, _, other| t.nodes[other].phase == UNLOADING),
    ("it is retired", |t, _, other| t.nodes[other].retired == 1),
    ("the leaving one is Loading", |t, id, _| t.nodes[id].phase == LOADING),
    ("another provider is not Active", |t, _, other| {
        providers(t, other).any(|provider| t.nodes[provider].phase != ACTIVE)
    }),
    ("another reason", |_, _, _| true),
];

#[derive(Default)]
pub struct Tally {
    pub kernels: u64,
    /// Those that were given: the leave is accepted.
    pub lists: u64,
    longest: usize,
    lengths: [u64; SPANS.len()],
    /// By the refusal's number.
    refused: [u64; 11],
    /// Entries that are Loading, and Active.
    hit: [u64; 2],
    /// Entries with several live links to the leaving one.
    by_several: u64,
    not_hit: [u64; REASONS.len()],
}

impl Tally {
    /// The list of this identity, on these tables, or the refusal.
    pub fn count(&mut self, tables: &Record, id: usize, hit: &Hit) {
        if hit.answer != 0 {
            self.refused[usize::from(hit.answer)] += 1;
            return;
        }
        self.lists += 1;
        self.longest = self.longest.max(hit.ids.len());
        let span = SPANS.iter().position(|&(_, most)| hit.ids.len() <= most).unwrap_or(0);
        self.lengths[span] += 1;
        for &other in &hit.ids {
            self.hit[usize::from(tables.nodes[other].phase == ACTIVE)] += 1;
            self.by_several += u64::from(providers(tables, other).filter(|&provider| provider == id).count() > 1);
        }
        self.count_others(tables, id, hit);
    }

    /// Those that rely on the leaving one and are not hit.
    fn count_others(&mut self, tables: &Record, id: usize, hit: &Hit) {
        let relies = |&other: &usize| providers(tables, other).any(|provider| provider == id);
        for other in (0..tables.nodes.len()).filter(relies).filter(|other| !hit.ids.contains(other)) {
            let reason = REASONS.iter().position(|(_, holds)| holds(tables, id, other)).unwrap_or(0);
            self.not_hit[reason] += 1;
        }
    }

    pub fn print(&self) {
        let refused = self.refused.iter().enumerate().filter(|(_, count)| **count > 0);
        let refused: Vec<String> = refused.map(|(number, count)| format!("{count} with {number}")).collect();
        println!("{} lists given, the longest of {}; refused: {}", self.lists, self.longest, refused.join(", "));
        println!("\n| entries of a list that is given | lists |\n|---|---|");
        SPANS.iter().zip(self.lengths).for_each(|((name, _), count)| println!("| {name} | {count} |"));
        let [loading, active] = self.hit;
        println!(
            "\nentries that are Loading: {loading}, Active: {active}; with several live links to the leaving one: {}",
            self.by_several
        );
        println!("\n| with a live link to the leaving one and not hit, since | components |\n|---|---|");
        REASONS.iter().zip(self.not_hit).for_each(|((name, _), count)| println!("| {name} | {count} |"));
    }
}

/// The providers of a component's live links.
fn providers(tables: &Record, consumer: usize) -> impl Iterator<Item = usize> + '_ {
    let live = tables.links.iter().filter(move |l| l.live == 1 && l.consumer == consumer as u64);
    live.map(|l| l.binding.provider as usize)
}
