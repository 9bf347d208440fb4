//! (a) The compiled Rattle explanation of a log's last command, and that command, through the static library `reasons_c`; the log is played through `player_c`.
use crate::script::Script;
use crate::{log, rattle};

extern "C" {
    fn nobrighi_explain_times(
        log: *const u8,
        log_len: usize,
        what: usize,
        times: usize,
        out: *mut u8,
        out_len: usize,
    ) -> usize;
}

/// The bytes of an explanation.
const LENGTH: usize = 44;

/// What is done so many times behind all commands but the last.
#[derive(Clone, Copy)]
pub enum What {
    Explain,
    /// On a copy of the kernel.
    Play,
    /// The copy alone.
    Copy,
}

/// Does it; how many times. The answer that it writes must be the last command's.
pub fn times(script: &Script, what: What, times: usize) -> usize {
    let before = script.len() - 1;
    let mut out = vec![0xEE; before];
    let (log, len) = (script.log.as_ptr(), script.log.len());
    // SAFETY: the library reads and writes only within the slices whose lengths are given.
    let written = unsafe { nobrighi_explain_times(log, len, what as usize, times, out.as_mut_ptr(), out.len()) };
    assert!(out[written..] == script.answers[written..before], "wrong answers of the compiled kernel");
    let length = match what {
        What::Explain => LENGTH,
        What::Play => 1,
        What::Copy => 0,
    };
    let expected = if times == 0 { 0 } else { length };
    assert_eq!(written, expected, "another number of bytes");
    assert!(written == 0 || out[0] == script.answers[before], "another answer than the command's");
    times
}

/// The last command of a log, if it can be repeated: it takes no pending list, and gets the same answer again.
pub fn last(script: &Script) -> Option<Vec<u8>> {
    let (mut rest, mut start) = (script.log.as_slice(), 0);
    while !rest.is_empty() {
        start = script.log.len() - rest.len();
        log::next(&mut rest);
    }
    let last = &script.log[start..];
    let mut answers = vec![0; script.len() + 1];
    rattle::play(&[&script.log, last].concat(), &mut answers);
    let again = answers.last() == script.answers.last() && ![log::INSERT, log::CONFIGURE].contains(&last[0]);
    again.then(|| last.to_vec())
}

/// Plays a log and then its last command so many times more; how many.
pub fn repeat(script: &Script, last: &[u8], times: usize) -> usize {
    let log = [script.log.clone(), last.repeat(times)].concat();
    let mut answers = vec![0xEE; script.len() + times];
    let answered = rattle::play(&log, &mut answers);
    assert_eq!(answered, answers.len(), "another number of answers");
    assert!(answers[script.len()..].iter().all(|a| Some(a) == script.answers.last()), "wrong answers");
    times
}
