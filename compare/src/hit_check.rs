//! The lists of one kernel as the library `player` writes them, held to lib.rs's bodies.
use crate::difference::Difference;
use crate::hit_tally::Tally;
use crate::record::Bytes;
use crate::reference::hit::{self, Hit};
use crate::reference::Reference;
use crate::sizes::IDENTITIES;

/// What the compiled affected gives: the answer, the count, and every entry, past the count too.
#[derive(Debug)]
pub struct Made {
    answer: u8,
    count: usize,
    ids: Vec<u64>,
}

/// The list of each identity and of one past the last; none if the bytes are none.
pub fn read(bytes: &mut Bytes) -> Option<Vec<Made>> {
    (0..=IDENTITIES).map(|_| read_list(bytes)).collect()
}

fn read_list(bytes: &mut Bytes) -> Option<Made> {
    Some(Made {
        answer: bytes.u8()?,
        count: bytes.u16()?.into(),
        ids: (0..IDENTITIES).map(|_| bytes.u64()).collect::<Option<_>>()?,
    })
}

/// Holds the list of each identity, of the next one and of one past the last to lib.rs's leave and target.
pub fn check(reference: &Reference, made: Option<&[Made]>, tally: &mut Tally) -> Result<(), Difference> {
    let Some(made) = made else {
        return Err(Difference::new("there are not all lists", reference, String::new(), "none".to_string()));
    };
    let tables = reference.record(0, 0, None);
    tally.kernels += 1;
    for (id, made) in made.iter().enumerate().filter(|&(id, _)| id <= tables.nodes.len() || id == IDENTITIES) {
        let hit = hit::affected(reference.kernel(), id);
        if let Some(what) = differs(&hit, made) {
            let original = format!("affected {id}: {} {:?}", hit.answer, hit.ids);
            return Err(Difference::new(what, reference, original, format!("{made:?}")));
        }
        tally.count(&tables, id, &hit);
    }
    Ok(())
}

fn differs(hit: &Hit, made: &Made) -> Option<&'static str> {
    if made.answer != hit.answer {
        return Some("the answer is not leave's");
    }
    if made.count != hit.ids.len() {
        return Some("the counts differ");
    }
    let (listed, rest) = made.ids.split_at_checked(made.count)?;
    if !listed.iter().copied().eq(hit.ids.iter().map(|&id| id as u64)) {
        return Some("the lists differ");
    }
    rest.iter().any(|&id| id != 0).then_some("an entry past the count is not 0")
}
