//! Where the compiled kernel and lib.rs do not agree on what is asked after a log's command.
use crate::reference::Reference;
use crate::text;

/// The log, lib.rs's tables before the question, and what each side gives.
pub struct Difference {
    what: String,
    log: Vec<u8>,
    before: String,
    original: String,
    kernel: String,
}

impl Difference {
    pub fn new(what: &str, reference: &Reference, original: String, kernel: String) -> Difference {
        let before = text::tables(&reference.record(0, 0, None));
        Difference { what: what.to_string(), log: Vec::new(), before, original, kernel }
    }

    /// After this log.
    pub fn after(self, log: &[u8]) -> Difference {
        Difference { log: log.to_vec(), ..self }
    }

    /// Everything that is needed to see it again.
    pub fn report(&self, commands: u64) {
        println!("DIFFERENCE after {commands} commands: {}", self.what);
        println!("log: {}", text::hex(&self.log));
        println!("-- lib.rs, before the question\n{}", self.before);
        println!("-- lib.rs: {}", self.original);
        println!("-- compiled: {}", self.kernel);
    }
}
