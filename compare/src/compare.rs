//! One log, played on both sides and compared after each command.
use crate::checks::{Played, Rule};
use crate::coverage::Coverage;
use crate::episodes::Episodes;
use crate::log::{self, Command, Next};
use crate::observations::Observation;
use crate::record::{Bytes, Question, Record};
use crate::reference::{Reference, Step};
use crate::situations::Seen;

/// A log with what the observers are asked, after every `every`-th command.
pub struct Asked {
    pub log: Vec<u8>,
    pub questions: Vec<Question>,
    pub every: usize,
}

impl Asked {
    fn question(&self, index: usize) -> Option<Question> {
        if index % self.every == 0 {
            self.questions.get(index).copied()
        } else {
            None
        }
    }
}

/// What a whole run adds up.
pub struct Tally {
    pub coverage: Coverage,
    pub rule: Rule,
    pub episodes: Episodes,
}

/// Where the two sides do not agree: the command's count, its start and end in the log, and both records.
pub struct Difference {
    pub what: String,
    pub index: usize,
    pub start: usize,
    pub end: usize,
    pub original: Record,
    pub kernel: Option<Record>,
}

struct Comparison<'a> {
    asked: &'a Asked,
    answers: Option<&'a [u8]>,
    kernel: Bytes<'a>,
    reference: Reference,
    /// The kernel's record before the command.
    before: Option<Record>,
    at: usize,
    index: usize,
}

/// What the kernel made of a log.
pub struct Made<'a> {
    pub records: &'a [u8],
    /// Whether it stopped for want of room.
    pub full: bool,
    /// The answers of a second run that writes nothing else, if there was one.
    pub answers: Option<&'a [u8]>,
}

/// Compares what the kernel made of a log with lib.rs.
pub fn log(asked: &Asked, made: &Made, tally: &mut Tally) -> Result<(), Box<Difference>> {
    let (kernel, full) = (Bytes(made.records), made.full);
    let reference = Reference::new();
    let mut c = Comparison { asked, answers: made.answers, kernel, reference, before: None, at: 0, index: 0 };
    tally.rule.restart();
    tally.episodes.restart();
    while !(full && c.kernel.0.is_empty()) {
        match log::read(&asked.log, c.at) {
            Next::End => break,
            Next::Stop(answer) => {
                c.stop(answer, tally)?;
                break;
            }
            Next::Command(command, end) => c.command(command, end, tally)?,
        }
    }
    tally.coverage.log(c.index);
    if c.kernel.0.is_empty() && c.answers.is_none_or(|a| a.len() == c.index) {
        return Ok(());
    }
    let (original, kernel) = (c.reference.record(0, 0, None), c.kernel.record());
    c.differ("the kernel played on after the log's end".into(), c.at, original, kernel)
}

impl Comparison<'_> {
    fn command(&mut self, command: Command, end: usize, tally: &mut Tally) -> Result<(), Box<Difference>> {
        let original_target = command.identity().and_then(|id| self.reference.target(id));
        let original_generations = command.identity().and_then(|id| self.reference.target_generations(id));
        let step = self.reference.play(command);
        let kernel = self.same(&step, end)?;
        if let Some(before) = &self.before {
            tally.coverage.situations(&Seen { before, command, after: &kernel });
        }
        tally.coverage.command(command, &step);
        let before = self.before.as_ref().map(|r| (r, self.asked.question(self.index - 1)));
        let question = self.asked.question(self.index);
        self.covered(&kernel, question, tally);
        let (original, after) = (self.reference.kernel(), &kernel);
        let played = Played { command, original_target, original_generations, original, before, after, question };
        if let Err(what) = tally.rule.check(&played) {
            return self.differ(format!("the iteration rule: {what}"), end, kernel.clone(), Some(kernel));
        }
        if let Err(what) = tally.episodes.check(&played) {
            return self.differ(format!("the links' numbers: {what}"), end, kernel.clone(), Some(kernel));
        }
        self.before = Some(kernel);
        self.at = end;
        self.index += 1;
        Ok(())
    }

    /// A byte that ends the run: its answer, and the tables as they were.
    fn stop(&mut self, answer: u8, tally: &mut Tally) -> Result<(), Box<Difference>> {
        let step = Step { answer, detail: 0, own: answer, intended: None };
        let kernel = self.same(&step, self.asked.log.len())?;
        tally.coverage.stop(answer);
        self.covered(&kernel, self.asked.question(self.index), tally);
        self.index += 1;
        Ok(())
    }

    /// Counts a record, and what was observed.
    fn covered(&self, tables: &Record, question: Option<Question>, tally: &mut Tally) {
        tally.coverage.record(tables);
        tally.episodes.count(tables);
        if let (Some(question), Some(observed)) = (question, &tables.observed) {
            let original = self.reference.kernel();
            tally.coverage.observation(&Observation { question, observed, tables, original });
        }
    }

    /// The kernel's next record: lib.rs's, and its links have the numbers that they must have. In the place of lib.rs's
    /// answer it refuses only where it may.
    fn same(&mut self, step: &Step, end: usize) -> Result<Record, Box<Difference>> {
        let original = self.reference.record(step.answer, step.detail, self.asked.question(self.index));
        let kernel = self.kernel.record();
        if step.hides_wrongly() {
            return self.differ(format!("a refusal hides lib.rs's answer {}", step.own), end, original, kernel);
        }
        if self.answers.is_some_and(|a| a.get(self.index) != Some(&step.answer)) {
            return self.differ("the answers alone differ".into(), end, original, kernel);
        }
        match kernel {
            Some(kernel) if !kernel.agrees(&original) => {
                self.differ("the records differ".into(), end, original, Some(kernel))
            }
            Some(kernel) if !kernel.numbers().eq(original.numbers()) => {
                self.differ("the links' numbers differ".into(), end, original, Some(kernel))
            }
            Some(kernel) => Ok(kernel),
            None => self.differ("there is no whole record".into(), end, original, None),
        }
    }

    fn differ<T>(
        &self,
        what: String,
        end: usize,
        original: Record,
        kernel: Option<Record>,
    ) -> Result<T, Box<Difference>> {
        Err(Box::new(Difference { what, index: self.index, start: self.at, end, original, kernel }))
    }
}
