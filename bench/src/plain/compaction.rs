//! The two compactions, in place; both answer how many records went.
use super::records::{Declaration, Kernel, Link, Outcome};

impl Kernel {
    pub fn compact_bindings(self) -> Outcome<usize> {
        self.command(|k| {
            let kept = retain(&mut k.links[..k.link_count], Link::BLANK, |l| l.live);
            let removed = k.link_count - kept;
            k.link_count = kept;
            Ok(removed)
        })
    }

    pub fn compact_declarations(self) -> Outcome<usize> {
        self.command(|k| {
            let nodes = &k.nodes;
            let kept =
                retain(&mut k.declarations[..k.declaration_count], Declaration::BLANK, |d| nodes[d.owner()].present);
            let removed = k.declaration_count - kept;
            k.declaration_count = kept;
            Ok(removed)
        })
    }
}

/// Moves the kept records to the front, in order, and blanks the rest; how many were kept.
pub fn retain<T: Copy>(records: &mut [T], blank: T, keep: impl Fn(&T) -> bool) -> usize {
    let mut kept = 0;
    for i in 0..records.len() {
        if keep(&records[i]) {
            records[kept] = records[i];
            kept += 1;
        }
    }
    records[kept..].fill(blank);
    kept
}
