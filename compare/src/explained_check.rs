//! The explanations of a log held to lib.rs's bodies: its answer, and the first test that applies on its tables.
use crate::explained_record::Explained;
use crate::explained_tally::Tally;
use crate::log::{self, Next};
use crate::record::Bytes;
use crate::reference::rows::{self, Reason};
use crate::reference::Reference;

/// What is wrong, of which command, where it starts and ends in the log, and both sides.
pub struct Wrong {
    pub what: &'static str,
    pub command: u64,
    pub from: usize,
    pub to: usize,
    pub original: String,
    pub compiled: String,
}

/// The refusals with the kinds of their witnesses: 9 is a number, or a pending list that is full.
const SUITS: [(u8, &[u8]); 12] = [
    (0, &[0]),
    (1, &[1]),
    (2, &[1]),
    (3, &[1]),
    (4, &[2]),
    (5, &[5, 6]),
    (6, &[1, 2]),
    (7, &[3]),
    (8, &[4]),
    (9, &[7, 8]),
    (11, &[0]),
    (12, &[0]),
];

/// Plays a log on lib.rs's bodies and holds the explanation of each command to them; there must be no more of them.
pub fn check(log: &[u8], mut written: Bytes, tally: &mut Tally) -> Result<(), Wrong> {
    let (mut reference, mut command, mut from) = (Reference::new(), 0, 0);
    loop {
        let (to, last, told) = match log::read(log, from) {
            Next::End => break,
            Next::Stop(answer) => (log.len(), true, Ok(Some(rows::ended(answer)))),
            Next::Command(command, end) => (end, false, reference.told(command)),
        };
        let made = Explained::read(&mut written);
        let differs = match &told {
            Ok(reason) => differs(reason.as_ref(), made),
            Err(what) => Some(*what),
        };
        if let Some(what) = differs {
            let (original, compiled) = (format!("{told:?}"), format!("{made:?}"));
            return Err(Wrong { what, command, from, to, original, compiled });
        }
        tally.count(told.ok().flatten().as_ref());
        (command, from) = (command + 1, to);
        if last {
            break;
        }
    }
    let rest = written.0.len();
    if rest == 0 {
        return Ok(());
    }
    let what = "explanations of commands that the log does not have";
    Err(Wrong { what, command, from, to: from, original: "none".to_string(), compiled: format!("{rest} bytes") })
}

/// What a compiled explanation has that this reason has not.
fn differs(reason: Option<&Reason>, made: Option<Explained>) -> Option<&'static str> {
    let told = Explained::of(reason);
    let Some(made) = made else { return Some("there is no explanation") };
    let suits = SUITS.iter().any(|(answer, kinds)| *answer == made.answer && kinds.contains(&made.kind));
    match made {
        _ if made.answer != told.answer => Some("another answer"),
        _ if (made.place, made.test) != (told.place, told.test) => Some("another place or test"),
        _ if !suits => Some("a witness that does not suit the answer"),
        _ if made.kind != told.kind => Some("another kind of witness"),
        _ if made.numbers != told.numbers => Some("another witness"),
        _ => None,
    }
}
