//! The compiled Rattle kernel, through the static library `player_c`.

extern "C" {
    fn nobrighi_play(log: *const u8, log_len: usize, answers: *mut u8, answers_len: usize) -> usize;
    fn nobrighi_print(log: *const u8, log_len: usize, out: *mut u8, out_len: usize) -> usize;
    fn nobrighi_record(
        log: *const u8,
        log_len: usize,
        questions: *const u8,
        questions_len: usize,
        every: usize,
        out: *mut u8,
        out_len: usize,
    ) -> usize;
    fn nobrighi_explained(log: *const u8, log_len: usize, out: *mut u8, out_len: usize) -> usize;
    fn nobrighi_asked(
        log: *const u8,
        log_len: usize,
        asked: *const u8,
        asked_len: usize,
        out: *mut u8,
        out_len: usize,
    ) -> usize;
}

/// Plays a log and writes each command's answer alone; how many there were.
pub fn play(log: &[u8], answers: &mut [u8]) -> usize {
    // SAFETY: the library reads and writes only within the slices whose lengths are given.
    unsafe { nobrighi_play(log.as_ptr(), log.len(), answers.as_mut_ptr(), answers.len()) }
}

/// Plays a log and writes the lines that are printed of it; the bytes written.
pub fn print(log: &[u8], out: &mut [u8]) -> usize {
    // SAFETY: the library reads and writes only within the slices whose lengths are given.
    unsafe { nobrighi_print(log.as_ptr(), log.len(), out.as_mut_ptr(), out.len()) }
}

/// Plays a log and writes the explanation of each command on the kernel before it; the bytes written.
pub fn explained(log: &[u8], out: &mut [u8]) -> usize {
    // SAFETY: the library reads and writes only within the slices whose lengths are given.
    unsafe { nobrighi_explained(log.as_ptr(), log.len(), out.as_mut_ptr(), out.len()) }
}

/// The room that the library wants before it plays a further command.
pub const ROOM: usize = 65_536;

/// Plays a log and writes a record after each command; the bytes written.
pub fn record(log: &[u8], questions: &[u8], every: usize, out: &mut [u8]) -> usize {
    // SAFETY: the library reads and writes only within the slices whose lengths are given.
    unsafe {
        nobrighi_record(
            log.as_ptr(),
            log.len(),
            questions.as_ptr(),
            questions.len(),
            every,
            out.as_mut_ptr(),
            out.len(),
        )
    }
}

/// Plays a log and writes what is asked for, a byte for each command: 1 a drain, 2 one that is played too, 3 the lists of
/// who is hit; the bytes written.
pub fn asked(log: &[u8], asked: &[u8], out: &mut [u8]) -> usize {
    // SAFETY: the library reads and writes only within the slices whose lengths are given.
    unsafe { nobrighi_asked(log.as_ptr(), log.len(), asked.as_ptr(), asked.len(), out.as_mut_ptr(), out.len()) }
}
