//! A log played on lib.rs's bodies, and the lines that must be printed of it.
use crate::log::{self, Next, LONGEST};
use crate::reference::Reference;

/// A log's answers, and the kernel that it leaves.
pub fn play(log: &[u8]) -> (Vec<u8>, Reference) {
    let mut reference = Reference::new();
    let (mut answers, mut at) = (Vec::new(), 0);
    loop {
        match log::read(log, at) {
            Next::End => break,
            Next::Stop(answer) => {
                answers.push(answer);
                break;
            }
            Next::Command(command, end) => {
                let step = reference.play(command);
                assert!(!step.hides_wrongly(), "command {}: lib.rs answers {}", answers.len(), step.own);
                answers.push(step.answer);
                at = end;
            }
        }
    }
    (answers, reference)
}

/// As much of a log as is played.
pub fn read(log: &[u8]) -> &[u8] {
    &log[..log.len().min(LONGEST)]
}

/// A line for each answer: its count from 0, a space, the answer.
pub fn lines(answers: &[u8]) -> String {
    answers.iter().enumerate().map(|(count, answer)| format!("{count} {answer}\n")).collect()
}
