//! The episodes that links remember, checked on the run itself.
//!
//! For each component the generations are kept that the providers of lib.rs's target had on the kernel handed to its last
//! accepted begin. The live links of a Loading or Active component must have these numbers, in order; the number of every
//! live link must be its provider's generation in lib.rs's tables now; and a link that still stands after a command must
//! have the number that it had before, whether it is live, becomes dead or was dead.
use crate::checks::{installed, Played};
use crate::log::Command;
use crate::record::{Link, Record};
use crate::reference::Kernel;

pub struct Episodes {
    /// By identity: the generations at the last accepted begin.
    begun: Vec<Option<Vec<u64>>>,
    /// How often each part was checked: numbers that are the expected ones, of live links, of dead ones, and of those dead
    /// ones whose provider has another generation now;
    expected: [u64; 3],
    /// components with the numbers of their last begin;
    components: u64,
    /// live links with their provider's generation, and those in a second or later episode of it;
    live: [u64; 2],
    /// numbers kept by a link that stays live, by one that becomes dead, and by a dead one.
    kept: [u64; 3],
}

impl Episodes {
    pub fn new() -> Episodes {
        Episodes { begun: vec![None; 256], expected: [0; 3], components: 0, live: [0; 2], kept: [0; 3] }
    }

    /// A new log starts from the empty kernel.
    pub fn restart(&mut self) {
        self.begun.fill(None);
    }

    pub fn print(&self) {
        let ([live, dead, again], [stays, dies, is_dead]) = (self.expected, self.kept);
        let ([now, later], components) = (self.live, self.components);
        println!("links' numbers: as expected of a live link {live} times, of a dead one {dead} times,");
        println!("  of one whose provider had begun again {again} times; the last begin's in a Loading or Active");
        println!("  component {components} times; the provider's generation in a live link {now} times,");
        println!("  in a second or later episode {later} times; kept by a link that stays live {stays} times,");
        println!("  by one that becomes dead {dies} times, by a dead one {is_dead} times");
    }

    /// Counts a record whose numbers are the expected ones.
    pub fn count(&mut self, record: &Record) {
        for link in &record.links {
            let other = record.nodes[link.binding.provider as usize].generation != link.generation;
            self.expected[usize::from(link.live == 0)] += 1;
            self.expected[2] += u64::from(link.live == 0 && other);
        }
    }

    /// Checks a command; an error says which part does not hold.
    pub fn check(&mut self, played: &Played) -> Result<(), String> {
        match played.command {
            Command::Begin(id) if played.after.answer == 0 => {
                self.begun[usize::from(id)] = played.original_generations.clone();
            }
            _ => {}
        }
        if let Some((before, _)) = played.before {
            self.kept(played.command, before, played.after)?;
        }
        self.begins(played.after)?;
        self.now(played.after, played.original)
    }

    /// The links that stood before and still do; compact_bindings drops the dead ones.
    fn kept(&mut self, command: Command, before: &Record, after: &Record) -> Result<(), String> {
        let drops = matches!(command, Command::CompactBindings);
        let stood = before.links.iter().filter(|l| l.live == 1 || !drops);
        for (place, (old, new)) in stood.zip(&after.links).enumerate() {
            if old.generation != new.generation {
                return Err(format!("link {place} had number {}", old.generation));
            }
            let kind = if new.live == 1 { 0 } else { 2 - usize::from(old.live) };
            self.kept[kind] += 1;
        }
        Ok(())
    }

    /// The live links of each Loading or Active component have its last begin's numbers, in order.
    fn begins(&mut self, record: &Record) -> Result<(), String> {
        let mut met = [0; 256];
        for link in live(record).filter(|l| installed(record, l.consumer as usize)) {
            let consumer = link.consumer as usize;
            let place = met[consumer];
            met[consumer] += 1;
            if self.begun[consumer].as_ref().and_then(|b| b.get(place)) != Some(&link.generation) {
                return Err(format!("live link {place} of {consumer} has not its last begin's number"));
            }
        }
        for id in (0..record.nodes.len()).filter(|&id| installed(record, id)) {
            if self.begun[id].as_ref().map(Vec::len) != Some(met[id]) {
                return Err(format!("{id} has {} live links, and not as many as its last begin gave", met[id]));
            }
            self.components += 1;
        }
        Ok(())
    }

    /// Each live link has its provider's generation.
    fn now(&mut self, record: &Record, original: &Kernel) -> Result<(), String> {
        for link in live(record) {
            let provider = link.binding.provider as usize;
            if original.episode_generation(provider) != Some(link.generation) {
                return Err(format!("a live link has number {}, and not {provider}'s generation", link.generation));
            }
            self.live[0] += 1;
            self.live[1] += u64::from(link.generation > 1);
        }
        Ok(())
    }
}

fn live(record: &Record) -> impl Iterator<Item = &Link> {
    record.links.iter().filter(|l| l.live == 1)
}
