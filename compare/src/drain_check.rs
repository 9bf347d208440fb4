//! One drain held to lib.rs's bodies.
use crate::calls::Call;
use crate::difference::Difference;
use crate::drain_record::{call, Made};
use crate::drain_tally::Tally;
use crate::record::Record;
use crate::reference::{drained, Reference};
use crate::text;

/// The step that stands past the count: leave of 0.
const BLANK: (u8, u64) = (0x06, 0);

/// What lib.rs gives and what was made.
fn differ(what: &str, reference: &Reference, made: Option<&Made>) -> Difference {
    let mut drained = reference.clone();
    let list = drained.drain();
    let original = format!("{list:?}\n{}", text::tables(&drained.record(0, 0, None)));
    Difference::new(what, reference, original, format!("{made:?}"))
}

/// Holds the drain and the stop of this kernel to lib.rs's bodies.
pub fn check(reference: &Reference, made: Option<&Made>, tally: &mut Tally) -> Result<(), Difference> {
    let Some(made) = made else { return Err(differ("there is no whole drain", reference, None)) };
    let mut defined = reference.clone();
    let list = defined.drain();
    let what = list_differs(reference, &defined, &list, made).or_else(|| left_differs(reference, made));
    if let Some(what) = what {
        return Err(differ(what, reference, Some(made)));
    }
    tally.count(reference, &list, made.played.is_some());
    Ok(())
}

/// The list: accepted by lib.rs, the compiled one, blank past the count, of the length that the rule gives.
fn list_differs(before: &Reference, after: &Reference, list: &[(Call, u8)], made: &Made) -> Option<&'static str> {
    let length = drained::length(before.kernel());
    if list.iter().any(|&(_, answer)| answer != 0) || !drained::finished(after.kernel()) {
        return Some("lib.rs does not drain by the rule");
    }
    if made.answer != 0 || made.stop_answer != 0 {
        return Some("drain or stop is refused");
    }
    if made.count != length || made.commands != length || list.len() != length {
        return Some("the lengths differ");
    }
    let (steps, rest) = made.steps.split_at_checked(length)?;
    if !steps.iter().map(|&step| call(step)).eq(list.iter().map(|&(call, _)| Some(call))) {
        return Some("the lists differ");
    }
    rest.iter().any(|&step| step != BLANK).then_some("a step past the count is not blank")
}

/// What the compiled list leaves of lib.rs's kernel, against what stop hands back and what playing it leaves.
fn left_differs(reference: &Reference, made: &Made) -> Option<&'static str> {
    let Some(left) = accepted(reference, made) else { return Some("lib.rs refuses a command of the compiled list") };
    if left != made.stopped {
        return Some("stop hands back other tables");
    }
    let played = made.played.as_ref()?;
    if played.answers.len() != made.count || played.answers.iter().any(|&answer| answer != 0) {
        return Some("the compiled kernel refuses a command of its list");
    }
    (played.left != left).then_some("the commands leave other tables")
}

/// lib.rs's tables after the compiled list; none if it refuses a command.
fn accepted(reference: &Reference, made: &Made) -> Option<Record> {
    let mut reference = reference.clone();
    for &step in &made.steps[..made.count] {
        if !reference.accepts(call(step)?) {
            return None;
        }
    }
    Some(reference.record(0, 0, None))
}
