//! (a) The compiled Rattle drain, stop and affected, through the static library `player_c`.
use crate::script::Script;

extern "C" {
    fn nobrighi_times(
        log: *const u8,
        log_len: usize,
        what: usize,
        id: usize,
        times: usize,
        out: *mut u8,
        out_len: usize,
    ) -> usize;
    fn nobrighi_asked(
        log: *const u8,
        log_len: usize,
        asked: *const u8,
        asked_len: usize,
        out: *mut u8,
        out_len: usize,
    ) -> usize;
}

/// What the library writes of a drain or a list before its entries, the answer and the count; of a step, its command and
/// its identity; of one hit, its identity.
const HEAD: usize = 3;
const STEP: usize = 9;
const HIT: usize = 8;
/// How many entries a list has, past its count too.
const HITS: usize = 64;
/// The room that it wants.
const ROOM: usize = 1 << 17;

pub fn drains(setup: &Script, times: usize) -> usize {
    call(0, 0, setup, times)
}

pub fn stops(setup: &Script, times: usize) -> usize {
    call(1, 0, setup, times)
}

pub fn affected(setup: &Script, id: u8, times: usize) -> usize {
    call(2, id, setup, times)
}

/// The entries of so many of these; the last one's head stands over the start of the answers.
fn call(what: usize, id: u8, setup: &Script, times: usize) -> usize {
    let mut out = vec![0; setup.len()];
    let (log, len) = (setup.log.as_ptr(), setup.log.len());
    // SAFETY: the library reads and writes only within the slices whose lengths are given.
    let head = unsafe { nobrighi_times(log, len, what, id.into(), times, out.as_mut_ptr(), out.len()) };
    assert!(out[head..] == setup.answers[head..], "wrong answers of the compiled kernel");
    if times == 0 {
        return 0;
    }
    assert_eq!((head, out[0]), (HEAD, 0), "it is refused");
    times * count(&out)
}

/// The count in a head.
fn count(head: &[u8]) -> usize {
    u16::from_le_bytes([head[1], head[2]]).into()
}

/// The steps of the drain of what a setup leaves, as a log has them.
pub fn steps(setup: &Script) -> Vec<u8> {
    let out = asked(setup, 1);
    assert_eq!(out[0], 0, "the drain is refused");
    out[HEAD..].chunks(STEP).take(count(&out)).flat_map(|s| [s[0], s[1]]).collect()
}

/// Who is hit if a component of what a setup leaves leaves.
pub fn hits(setup: &Script, id: u8) -> Vec<usize> {
    let out = asked(setup, 3);
    let list = &out[usize::from(id) * (HEAD + HITS * HIT)..];
    assert_eq!(list[0], 0, "the leave is refused");
    list[HEAD..].chunks(HIT).take(count(list)).map(|hit| hit[0].into()).collect()
}

/// What the library writes for this byte after a setup's last command.
fn asked(setup: &Script, byte: u8) -> Vec<u8> {
    let mut asked = vec![0; setup.len()];
    *asked.last_mut().expect("a setup has commands") = byte;
    let mut out = vec![0; ROOM];
    let (log, len) = (setup.log.as_ptr(), setup.log.len());
    // SAFETY: the library reads and writes only within the slices whose lengths are given.
    unsafe { nobrighi_asked(log, len, asked.as_ptr(), asked.len(), out.as_mut_ptr(), out.len()) };
    out
}
