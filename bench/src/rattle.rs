//! (a) The compiled Rattle kernel, through the static library `player_c`: one call plays a whole log.

/// A player that a static library exports: a log, its length, the answers, their length.
type Exported = unsafe extern "C" fn(*const u8, usize, *mut u8, usize) -> usize;

extern "C" {
    fn nobrighi_play(log: *const u8, log_len: usize, answers: *mut u8, answers_len: usize) -> usize;
}

/// Plays a log and writes each answer; how many there were.
pub fn play(log: &[u8], answers: &mut [u8]) -> usize {
    call(nobrighi_play, log, answers)
}

/// Plays a log by one of the players.
pub fn call(player: Exported, log: &[u8], answers: &mut [u8]) -> usize {
    // SAFETY: the library reads and writes only within the slices whose lengths are given.
    unsafe { player(log.as_ptr(), log.len(), answers.as_mut_ptr(), answers.len()) }
}
