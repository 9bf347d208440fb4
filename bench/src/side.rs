//! A kernel that plays the lists, and whether its answers are the expected ones.
use crate::lists::List;
use crate::script::Script;

/// Plays a log and writes each answer; how many there were.
pub type Play = fn(&[u8], &mut [u8]) -> usize;

pub struct Side {
    pub name: &'static str,
    pub column: &'static str,
    /// Rounds take them in turn.
    pub plays: &'static [Play],
}

impl Side {
    /// What plays in this round.
    pub fn play(&self, round: usize) -> Play {
        self.plays[round % self.plays.len()]
    }
}

/// All must give the list's answers; the program ends loudly if one does not.
pub fn check(sides: &[Side], lists: &[List]) {
    for list in lists {
        let (whole, rest) = list.scripts(2);
        for side in sides {
            for &play in side.plays {
                same(side, play, &whole, &list.name());
                same(side, play, &rest, &list.name());
            }
        }
    }
}

fn same(side: &Side, play: Play, script: &Script, list: &str) {
    let mut answers = vec![0xEE; script.len() + 1];
    let answered = play(&script.log, &mut answers);
    let wrong = (0..script.len()).find(|&i| answers[i] != script.answers[i]);
    if answered == script.len() && wrong.is_none() {
        return;
    }
    let at = wrong.unwrap_or(answered.min(script.len()));
    eprintln!(
        "WRONG: {} answers {} to command {at} of {list}, expected {:?}; {answered} answers to {} commands",
        side.name,
        answers[at],
        script.answers.get(at),
        script.len()
    );
    std::process::exit(1);
}
